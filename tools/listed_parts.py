"""The parts of scripts, completions and pages that tools/lists makes of the list of commands and options."""
import re
import textwrap
from pathlib import Path
from typing import Callable, Dict, Iterable, List, Sequence, Tuple

from commands import TOP, Commands, Entry, call_of, is_read_by

BEGINS = re.compile(r"tools/lists makes: (\w+)")
ENDS = "tools/lists: end"
LEFT, WIDTH = 21, 118


class Missing(Exception):
    """Where a part's beginning or end is missing, in one line."""


def plain(text: str) -> str:
    """Returns a text without marks of code."""
    return text.replace("`", "")


def rows(pairs: Iterable[Tuple[str, str]]) -> List[str]:
    """Returns two columns of text; the right one goes on below itself."""
    lines = []
    for left, right in pairs:
        folded = textwrap.wrap(right, WIDTH - LEFT, break_long_words=False, break_on_hyphens=False)
        lines.append(f"  {left:<{LEFT - 3}} {folded[0]}")
        lines += [" " * LEFT + line for line in folded[1:]]
    return lines


def here_document(lines: List[str]) -> List[str]:
    """Returns a function of the shell that prints lines; in them `$self` and `${..}` keep their meaning."""
    return ["# Prints the commands and options.", "help() {", "  cat <<TEXT", *(line.replace("`", "\\`") for line in lines), "TEXT", "}"]


def numbers_sentence(known: Commands, mark: Callable[[int], str]) -> str:
    """Returns the ranges of the numbers of commands."""
    each = [f"{name.upper()} is {mark(entry.range()[0])} to {mark(entry.range()[1])}" for name, entry in known.numbers.items()]
    return ", and ".join(each)


def options_sentence(known: Commands) -> str:
    """Returns which commands don't take all options."""
    parts = []
    for command in known.commands:
        other, own = known.other_options(command), command.words("options")
        if other and not own:
            parts.append(f"`{command.word}` takes none of these")
        elif other:
            parts.append(f"`{command.word}` takes only {' and '.join(f'`--{option}`' for option in own)}")
    return ", and ".join(parts)


def option_row(option: Entry) -> Tuple[str, str]:
    least, most = option.range()
    return f"{option.option()} N", f"{option.text()}: {least} to {most}, by default {option.text('default')}"


def word_rows(known: Commands, program: str, names: Sequence[str]) -> List[Tuple[str, str]]:
    those = [each for each in known.words_of(program) if each.word in names]
    return [(f"{each.option()} {each.text('value')}".strip(), each.text()) for each in those]


def usage_of_ame(known: Commands) -> List[str]:
    commands = []
    for command in known.commands:
        takes = command.text("takes")
        commands.append((call_of(command), command.text() + (f"; FILE has {takes}" if takes not in ("", "a program") else "")))
    return here_document([
        "$self [COMMAND] [OPTION ..] [FILE]   runs the program in FILE; without FILE, or with `-`, that of the standard input",
        "", "Commands; `run` may be left out if no option is given:", *rows(commands), f"{numbers_sentence(known, str)}.",
        "", "Options, after a command:", *rows(map(option_row, known.options)),
        f"{options_sentence(known)}.", "",
        "Anywhere:", *rows(word_rows(known, "ame", ("certificate", "help", "version"))),
        "", "The last line and the exit status say how the run ended. ${self%\"$name\"}why FILE says why; the man page has the rest."])


def usage_of_why(known: Commands) -> List[str]:
    views = [(view.option(), view.text()) for view in known.views]
    return here_document([
        "$self [VIEW] [FILE] [COMMAND ..]   runs the program in FILE as ame does, and says why it ends so",
        "", "Commands and their options are those of ${self%\"$name\"}ame. They come after FILE: $self --trace FILE run --workers 4",
        "", "One view may stand anywhere. It replaces the printed lines:", *rows(views),
        "", "Others:", *rows(word_rows(known, "why", ("explain", "same", "then", "help", "version")))])


def case_of(cases: Iterable[str], last: str = "*) return 1 ;;") -> List[str]:
    return ["  case $1 in", *(f"  {case} ;;" for case in cases), f"  {last}", "  esac", "}"]


def words_of_shell(known: Commands) -> List[str]:
    """Returns the functions by which tools/call knows the words."""
    commands = []
    for each in known.commands:
        options = " ".join(f"--{option}" for option in each.words("options"))
        reads = "yes" if is_read_by(each) else "''"
        commands.append(f"{each.word}) call='{call_of(each)}' numbers='{each.text('numbers')}' options='{options}' reads={reads}")
    ranges = [f"{name}) least={each.range()[0]} most={each.range()[1]}" for name, each in known.bounded.items()]
    return ["# Succeeds if a word is a command, and sets how it is called, its numbers, its options, and whether it reads a file: is_command WORD.",
            "is_command() {", *case_of(commands),
            "", "# Succeeds if a word is an option of the program: is_option WORD.",
            "is_option() {", *case_of([" | ".join(each.option() for each in known.options) + ")"]),
            "", "# Succeeds if a word is a view: is_view WORD.",
            "is_view() {", *case_of([" | ".join(each.option() for each in known.views) + ")"]),
            "", "# Sets the range of a number or of an option's value: range_of NAME.",
            "range_of() {", *case_of(ranges)]


def files_of(command: Entry) -> str:
    """Returns the pattern of the files that a command reads."""
    return {"": "", "a program": "*.ame"}.get(command.text("takes"), "*")


def words_of_bash(known: Commands) -> List[str]:
    def table(name: str, pairs: Iterable[Tuple[str, str]]) -> str:
        return f"declare -gA {name}=({' '.join(f'[{key}]={value!r}' for key, value in pairs)})"

    values = [(each.option(), each.text("try")) for each in known.bounded.values()]
    return [f"_AME_COMMANDS='{' '.join(each.word for each in known.commands)}'",
            f"_AME_VIEWS='{' '.join(each.option() for each in known.views)}'",
            f"_AME_OPTIONS='{' '.join(each.option() for each in known.options)}'",
            table("_AME_NUMBERS_OF", ((each.word, each.text("numbers")) for each in known.commands)),
            table("_AME_OPTIONS_OF", ((each.word, " ".join(f"--{option}" for option in each.words("options"))) for each in known.commands)),
            table("_AME_FILES_OF", ((each.word, files_of(each)) for each in known.commands)),
            table("_AME_VALUES", [*values, ("--explain", known.word("explain").text("try"))])]


def zsh_quoted(text: str) -> str:
    return "'" + plain(text).replace("'", "'\\''") + "'"


def zsh_number(name: str, known: Commands) -> str:
    least, most = known.bounded[name].range()
    return f"{name}, {least} to {most}:({known.bounded[name].text('try')})"


def zsh_option(option: Entry, known: Commands) -> str:
    return zsh_quoted(f"{option.option()}=[{option.text()}]:{zsh_number(option.word, known)}")


def zsh_command(command: Entry, known: Commands) -> str:
    """Returns the case of a command: which words may follow it."""
    own = command.words("options")
    every = [option.word for option in known.options]
    chosen = "" if not own else "$more $options " if own == every else "$more " + "".join(f"$options[{every.index(name) + 1}] " for name in own)
    numbers = "".join(f"{zsh_quoted(f'{at}:{zsh_number(name, known)}')} " for at, name in enumerate(command.words("numbers"), 2))
    pattern = files_of(command)
    place = len(command.words("numbers")) + 2 if numbers or not own else "*"
    file = "" if not pattern else f"'{place}:file:_files'" if pattern == "*" else f"\"{place}:file:_files -g '{pattern}'\""
    return f"  {command.word}) _arguments -S {chosen}'1: : ' {numbers}{file}".rstrip() + " ;;"


def words_of_zsh(known: Commands) -> List[str]:
    views = [zsh_quoted(f"{view.option()}[{view.text()}]") for view in known.views]
    certificate, explain = known.word("certificate"), known.word("explain")
    certified = f"{certificate.option()}=[{certificate.text()}]:certificate:_files"
    explained = f"{explain.option()}=[{explain.text()}]:rule:({explain.text('try')})"
    return ["options=(", *(f"  {zsh_option(option, known)}" for option in known.options), ")",
            f"views=(--{{{','.join(view.word for view in known.views)}}})",
            "view_options=(", *(f"  \"($views)\"{view}" for view in views), ")",
            f"certificate={zsh_quoted(certified)}",
            f"explain={zsh_quoted(explained)}",
            f"names='{'|'.join(each.word for each in known.commands)}'",
            "described=(", *(f"  {zsh_quoted(f'{each.word}:{each.text()}')}" for each in known.commands), ")"]


def commands_of_zsh(known: Commands) -> List[str]:
    return ["case $command in", *(zsh_command(each, known) for each in known.commands)]


def words_of_play(known: Commands) -> List[str]:
    def quoted(words: Iterable[str]) -> str:
        return ", ".join(f'"{word}"' for word in words)

    ranges = ", ".join(f'"{each.word}": ({each.range()[0]}, {each.range()[1]})' for each in known.options)
    return [f"VIEWS = ({quoted(['', *(view.option() for view in known.views if view.has('tab'))])})",
            f"VERBS = ({quoted(each.word for each in known.commands if each.has('play'))})",
            f"RANGES = {{{ranges}}}", f"SEEDS_RANGE = {known.numbers['seed'].range()}"]


def tabs_of_play(known: Commands) -> List[str]:
    tabs = [(view.text("tab"), view.option()) for view in known.views if view.has("tab")]
    first = [tab for tab in tabs if tab[0] == "picture"]
    every = [*first, ("lines", ""), *(tab for tab in tabs if tab not in first)]
    pairs = (f'["{name}", "{view}"]' for name, view in every)
    return [f"const TABS = [{', '.join(pairs)}];"]


def grouped(number: int) -> str:
    return f"{number:,}"


def commands_table(known: Commands) -> List[str]:
    lines = ["", "| Command | Input | What it does |", "|---|---|---|"]
    for each in known.commands:
        first = "none, or `run`" if each.word == "run" else f"`{call_of(each)}`"
        lines.append(f"| {first} | {each.text('takes') or 'nothing'} | {each.text()} |")
    return [*lines, "", f"{numbers_sentence(known, grouped)}.", ""]


def options_table(known: Commands) -> List[str]:
    lines = ["", "| Option | Range | Default | What it limits |", "|---|---|---|---|"]
    for each in known.options:
        least, most = map(grouped, each.range())
        lines.append(f"| `{each.option()} N` | {least} to {most} | {grouped(int(each.text('default')))} | {each.text()} |")
    return [*lines, "", f"{options_sentence(known)}.", ""]


def statuses_table(known: Commands) -> List[str]:
    lines = ["", "| Last line | Status | Meaning |", "|---|---|---|"]
    return [*lines, *(f"| {each.text('line')} | {each.word} | {each.text()} |" for each in known.statuses), ""]


def tools_table(known: Commands) -> List[str]:
    lines = ["", "| Tool | Installed as | What it does |", "|---|---|---|"]
    for each in known.tools:
        installed = f"`{each.text('installed')}`" if each.has("installed") else "–"
        call = f"tools/{each.word} {each.text('value')}".rstrip()
        lines.append(f"| `{call}` | {installed} | {each.text()} |")
    return [*lines, ""]


def views_table(known: Commands) -> List[str]:
    lines = ["", "| View | What it shows |", "|---|---|"]
    return [*lines, *(f"| [`{each.option()}`](#{each.option()}) | {each.text()} |" for each in known.views), ""]


MAKERS: Dict[Tuple[str, str], Callable[[Commands], List[str]]] = {
    ("ame", "usage"): usage_of_ame, ("why", "usage"): usage_of_why, ("tools/call", "words"): words_of_shell,
    ("editors/ame.bash", "words"): words_of_bash, ("editors/_ame", "words"): words_of_zsh, ("editors/_ame", "commands"): commands_of_zsh,
    ("tools/play", "words"): words_of_play, ("tools/play.html", "tabs"): tabs_of_play,
    ("docs/COMMANDS.md", "commands"): commands_table, ("docs/COMMANDS.md", "options"): options_table,
    ("docs/COMMANDS.md", "statuses"): statuses_table, ("docs/COMMANDS.md", "tools"): tools_table, ("docs/VIEWS.md", "views"): views_table}
PARTS: Dict[Path, List[str]] = {}
for _file, _name in MAKERS:
    PARTS.setdefault(TOP / _file, []).append(_name)


def made(path: Path, names: Sequence[str], known: Commands) -> Tuple[str, str, List[str]]:
    """Returns a file's text, the text with its parts made anew, and the places of the parts that differ."""
    file, old = str(path.relative_to(TOP)), path.read_text(encoding="utf-8")
    lines, kept, places, left = old.split("\n"), [], [], list(names)
    at = 0
    while at < len(lines):
        kept.append(lines[at])
        begins = BEGINS.search(lines[at])
        at += 1
        if not begins:
            continue
        name = begins.group(1)
        if name not in left:
            raise Missing(f"{file}:{at}: tools/lists makes no part {name} of this file, or made it already")
        left.remove(name)
        end = next((n for n in range(at, len(lines)) if ENDS in lines[n]), None)
        if end is None:
            raise Missing(f"{file}:{at}: the part {name} has no line with: {ENDS}")
        part = MAKERS[file, name](known)
        if lines[at:end] != part:
            places.append(f"{file}:{at}")
        kept += part
        at = end
    if left:
        raise Missing(f"{file}: no line with: tools/lists makes: {left[0]}")
    return old, "\n".join(kept), places
