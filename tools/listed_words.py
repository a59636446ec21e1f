"""Which words, ranges and statuses the list of commands and the sources of the programs do not share."""
import re
from pathlib import Path
from typing import Dict, Iterable, Iterator, List, Set, Tuple

from commands import LIST, TOP, Commands
from markdown import CODE_SPAN, Kind, Page, cells_of

CLI = "crates/ame_cli/src"
STATUS = "crates/ame_app/src/status.rt"
VIEWS = ("crates/ame_why*/src", "crates/ame_view*/src")
HELP = "fn told_alone"
CONSTANT = re.compile(r"const (\w+): u32 = ([\d_]+);")
BOUNDS = re.compile(r"const (\w+)S: Bounds = Bounds \{\s*least: (\d+),\s*most: (\w+),\s*\};")
FORM = re.compile(r'VerbGrammar \{\s*word: "(\w+)",\s*numbers: &\[([^\]]*)\],\s*items: (&\[[^\]]*\]|\w+),\s*\}')
ITEMS = re.compile(r"const (\w+): &\[Item\] = &\[([^\]]*)\];")
ITEM = re.compile(r'Item::(\w+) => "(\w+)"')
DEFAULT = re.compile(r"Item::(\w+) => ([\d_]+)")
LIMIT = re.compile(r"Item::(\w+) => (\w+_LIMIT)")
NUMBER = re.compile(r"((?:Status::\w+(?:\(_\))?(?: \| )?)+) => (\d+)")
LINE = re.compile(r'Status::(\w+)(?:\(\w+\))? => (?:plain|numbered)\("([^"]*)"')
HYPHENED = re.compile(r'"--([a-z][a-z-]*)"')
SHOWN = re.compile(r"--([a-z][a-z-]*)")
INPUTS = re.compile(r"fn is_input\(.*?matches!\(\s*self,([^)]*)\)", re.S)
RULE = re.compile(r'b"rule (\d+):')


def source(name: str) -> str:
    return (TOP / name).read_text(encoding="utf-8")


def differ(where: str, what: str, found: Iterable, listed: Iterable) -> Iterator[str]:
    """Yields a line for each thing that only one of two sets has."""
    found, listed = set(found), set(listed)
    yield from (f"{where}: {what} {each}: {LIST} lacks it" for each in sorted(map(str, found - listed)))
    yield from (f"{LIST}: {what} {each}: {where} lacks it" for each in sorted(map(str, listed - found)))


def number(text: str) -> int:
    return int(text.replace("_", ""))


def cli_differences(known: Commands) -> Iterator[str]:
    """Compares the words that the program reads: commands with their numbers and options, and ranges."""
    verbs, item, limits = (source(f"{CLI}/{name}.rt") for name in ("verb", "item", "limits"))
    constants = {name: number(value) for name, value in CONSTANT.findall(limits)}
    lists = dict(ITEMS.findall(verbs))
    names = dict(ITEM.findall(item))

    def options(text: str) -> str:
        return " ".join(names[each] for each in re.findall(r"Item::(\w+)", lists.get(text, text)))

    found = {(word, numbers.lower().replace("s,", ",").rstrip("s").replace(",", ""), options(items)) for word, numbers, items in FORM.findall(verbs)}
    listed = {(each.word, each.text("numbers"), each.text("options")) for each in known.commands}
    yield from differ(f"{CLI}/verb.rt", "command", map(" ".join, found), map(" ".join, listed))
    bounds = {(name.lower(), int(least), constants[most]) for name, least, most in BOUNDS.findall(verbs)}
    yield from differ(f"{CLI}/verb.rt", "range", bounds, ((name, *each.range()) for name, each in known.numbers.items()))
    defaults = {key: number(value) for key, value in DEFAULT.findall(item)}
    found = {(names[key], 1, constants[limit], defaults.get(key)) for key, limit in LIMIT.findall(item)}
    yield from differ(f"{CLI}/item.rt", "option", found, ((each.word, *each.range(), int(each.text("default"))) for each in known.options))


def status_differences(known: Commands) -> Iterator[str]:
    """Compares the verdict lines that the program writes as a whole, and the numbers of all."""
    text = source(STATUS)
    numbers = {name: value for names, value in NUMBER.findall(text) for name in re.findall(r"Status::(\w+)", names)}
    yield from differ(STATUS, "status", numbers.values(), (each.word for each in known.statuses))
    lines = {(numbers[name], re.sub(r" [A-Z]$", " ", line)) for name, line in LINE.findall(text)}
    listed = {(each.word, re.sub(r"\b[A-Z]$", "", each.text("line").strip("`"))) for each in known.statuses}
    yield from (f"{STATUS}: the line {line!r} with status {value}: {LIST} lacks it" for value, line in sorted(lines - listed))


def why_sources() -> Dict[str, str]:
    files = (file for folder in VIEWS for file in sorted(TOP.glob(f"{folder}/**/*.rt")))
    return {str(file.relative_to(TOP)): file.read_text(encoding="utf-8") for file in files}


def why_differences(known: Commands) -> Iterator[str]:
    """Compares the words that the program of views reads, those of its synopsis, and its rules of types."""
    sources = why_sources()
    views, others = {view.word for view in known.views}, {each.word for each in known.words_of("why")} - {"version"}
    code = {name: without_texts(text) for name, text in sources.items()}
    where = "crates/ame_why_main/src"
    yield from differ(where, "word", {word for text in code.values() for word in HYPHENED.findall(text)}, views | others)
    synopses = {name: text for name, text in sources.items() if HELP in text}
    if not synopses:
        yield f"{where}: no {HELP}, which has the synopsis"
    options = {each.word for each in known.options}
    for name, text in synopses.items():
        shown = {word for part in re.findall(r'b"[^"]*"', text) for word in SHOWN.findall(part)}
        yield from differ(name, "word of the synopsis", shown, views | others - {"help"} | options | {"version"})
    files = {word.lower() for text in code.values() for part in INPUTS.findall(text) for word in re.findall(r"View::(\w+)", part)}
    yield from differ(where, "view that is a file", files, (view.word for view in known.views if view.has("file")))
    rules = {rule for text in sources.values() for rule in RULE.findall(text)}
    yield from differ("crates/ame_why/src", "rule of types", rules, known.word("explain").words("try"))


def without_texts(text: str) -> str:
    """Returns code without long texts of bytes and comments."""
    return re.sub(r"(?m)^\s*//.*$", "", re.sub(r'b"(?:[^"\\]|\\.)*\n[^"]*"', '""', text))


def tool_differences(known: Commands) -> Iterator[str]:
    """Compares the tools of the list with the folder, and with what is installed."""
    for each in known.tools:
        if not (TOP / "tools" / each.word).is_file():
            yield f"{LIST}:{each.line}: tools/{each.word}: there is no such tool"
    pairs = re.findall(r'"(ame-\w+)": "tools/([\w-]+)"', source("tools/install"))
    yield from differ("tools/install", "installed tool", pairs, ((each.text("installed"), each.word) for each in known.tools if each.has("installed")))
    inputs = re.findall(r'id="(\w+)" type="number" min="(\d+)" max="(\d+)"', source("tools/play.html"))
    wanted = ((name, *map(str, each.range())) for name, each in known.bounded.items() if name != "size")
    yield from differ("tools/play.html", "range", inputs, wanted)
    chosen = re.findall(r'<option value="(\w+)"', source("tools/play.html"))
    yield from differ("tools/play.html", "command", chosen, (each.word for each in known.commands if each.has("play")))


def calls_on(page: Page) -> Iterator[Tuple[int, List[str]]]:
    """Yields the calls of ./ame, ./why, ./try and of tools in tables, blocks and sentences of a page, as words."""
    for line in page.lines:
        if line.kind is Kind.CODE:
            texts = re.split(r"[|;()]", line.text[2:]) if line.text.startswith("$ ") else []
        else:
            texts = [span.strip("`") for span in CODE_SPAN.findall(line.text)] if line.kind in (Kind.PROSE, Kind.TABLE) else []
        for text in texts:
            words = text.split()
            if words and words[0] in ("./ame", "./why", "./try"):
                yield line.number, words


def page_differences(known: Commands) -> Iterator[str]:
    """Finds words with two hyphens, after the names of the scripts on pages, that no list has."""
    words: Dict[str, Set[str]] = {}
    options = {each.option() for each in known.options}
    words["./ame"] = options | {each.option() for each in known.words_of("ame")}
    words["./why"] = options | {each.option() for each in [*known.views, *known.words_of("why")]}
    words["./try"] = words["./ame"] - {"--certificate"} | words["./why"] | {"--why"}
    for path in [TOP / "README.md", TOP / "examples" / "README.md", *sorted((TOP / "docs").glob("*.md"))]:
        page = Page(path.resolve() if path.is_symlink() else path)
        for line, call in calls_on(page):
            for word in call[1:]:
                if word.startswith("--") and word.split("=")[0] not in words[call[0]]:
                    yield f"{page.name}:{line}: {' '.join(call)}: {LIST} has no {word}"


def readme_differences(known: Commands) -> Iterator[str]:
    """Finds commands, views and tools in the README's table of what to type that the list lacks."""
    page = Page(TOP / "README.md")
    here, commands, tools = False, {each.word for each in known.commands}, {each.word for each in known.tools} | {"judge"}
    for line in page.lines:
        cells = cells_of(line.text) if line.kind is Kind.TABLE else []
        here = bool(cells) and (here or cells == ["To", "Type"])
        for span in CODE_SPAN.findall(cells[1]) if here and len(cells) == 2 else []:
            words = span.strip("`").split()
            if words[0] == "./ame" and len(words) > 1 and words[1].islower() and words[1] not in commands:
                yield f"README.md:{line.number}: {span}: {LIST} has no command {words[1]}"
            if words[0].startswith("tools/") and words[0][len("tools/"):] not in tools:
                yield f"README.md:{line.number}: {span}: {LIST} has no tool {words[0]}"
    if not any(cells_of(line.text) == ["To", "Type"] for line in page.of_kind(Kind.TABLE)):
        yield "README.md: there is no table with the head: To, Type"


def differences(known: Commands) -> List[str]:
    every = (cli_differences, status_differences, why_differences, tool_differences, page_differences, readme_differences)
    return [line for each in every for line in each(known)]
