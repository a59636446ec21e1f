"""How pages of definitions are laid out: which definitions a page has, in which order, and under which heading.

A page has notes: a file with parts, each under a name in brackets. Of them `groups` has a line for each heading, with what is
said below it and which files belong there, and `kit` a line for each page of the kit.
"""
import re


class Failure(Exception):
    """Why there is no page."""


def sections(notes):
    """Returns the parts of a file of notes, by their names in brackets."""
    with open(notes, encoding="utf-8") as it:
        parts = re.split(r"(?m)^\[(\w+)\]\n", it.read())
    return {name: text.strip() for name, text in zip(parts[1::2], parts[2::2])}


def rows(text):
    return [tuple(part.strip() for part in line.split("|")) for line in text.split("\n") if line.strip()]


def closure(sources, definition, stays_out, found, words):
    """Finds what a definition cites, and what that cites, and the words of the kit apart."""
    for _, each in sources.cited(definition):
        if isinstance(each, tuple):
            words.setdefault(each[0], set()).add(each[1])
        elif each not in found and not stays_out(each):
            found[each] = None
            closure(sources, each, stays_out, found, words)


def clause_lines(text, call, clause):
    """The head of a call with its documentation, its premises and one clause, and none of its other clauses."""
    lines = text.split("\n")
    first = at = next(i for i, line in enumerate(lines) if line.startswith(f"pub fn {call}<"))
    while lines[first - 1].startswith("///"):
        first -= 1
    kept, inside = lines[first:at], True
    for line in lines[at:lines.index("{", at)]:
        if line.startswith("    ensures "):
            inside = line.startswith(f"    ensures {clause} ")
        kept += [line] if inside else []
    return kept


def block(definitions_there):
    """Definitions of one file as one block of code, with the head of a module where it is another one than before."""
    lines, heads = [], []
    for each in definitions_there:
        if each.heads != heads:
            lines += [line for head in each.heads for line in head]
            heads = each.heads
        lines += each.lines + [""]
    return [f"```{'rust' if each.file.endswith('.rt') else 'agda'}"] + lines[:-1] + ["```", ""]


def in_order(sources, path, there, order):
    """Puts the files of definitions behind those that they use."""
    order[path] = None
    for each in there[path]:
        for _, cited in sources.cited(each):
            if not isinstance(cited, tuple) and cited.file in there and cited.file not in order:
                in_order(sources, cited.file, there, order)
    order[path] = order.pop(path)


def heading_of(each, groups):
    """The heading under which a definition belongs: the longest front of its file and its name decides."""
    place = f"{each.file}#{each.names[0]}"
    found = [(len(front), heading) for heading, _, fronts in groups for front in fronts.split() if place.startswith(front)]
    if not found:
        raise Failure(f"the notes have no heading for {place}")
    return max(found)[1]


def parts_of(sources, definitions, groups):
    """Under each heading the files with their definitions there, each file behind those that it uses."""
    there, order, parts = {}, {}, {heading: {} for heading, _, _ in groups}
    for each in definitions:
        there.setdefault(each.file, []).append(each)
    for path in there:
        if path not in order:
            in_order(sources, path, there, order)
    for path in order:
        for each in sorted(there[path], key=sources.file(path).definitions.index):
            parts[heading_of(each, groups)].setdefault(path, []).append(each)
    return parts


def other_names(sources, those, given):
    """What is meant, in the definitions of one file, by names that it gives itself, and by those that are given twice."""
    aliases, told = sources.file(those[0].file).aliases, {}
    for name, meaning in (pair for each in those for pair in sources.cited(each)):
        if isinstance(meaning, tuple):
            meant, place = meaning[1], ""
        else:
            meant = name if name in meaning.names else meaning.names[0]
            place = f" of `crates/{meaning.file}`" if len(given.get(meant, ())) > 1 and meaning not in those else ""
        if name in aliases or place and meant == name:
            told[name] = f"`{name}` is {'that' if meant == name else f'`{meant}`'}{place}"
    return f", where {', '.join(told[name] for name in sorted(told))}" if told else ""


def part(sources, heading, told, files, given):
    lines = [f"## {heading}", "", told, ""]
    for path, those in files.items():
        lines += [f"`crates/{path}`{other_names(sources, those, given)}", ""] + block(those)
    return lines


def files_of_names(definitions):
    given = {}
    for each in definitions:
        for name in each.names:
            given.setdefault(name, set()).add(each.file)
    return given


def glosses(record, notes):
    """The table of the fields, in their order."""
    told = dict(rows(notes))
    fields = re.findall(r"(?m)^  pub (\w+) :", "\n".join(record.lines))
    if set(fields) != set(told):
        raise Failure(f"the notes: the fields {sorted(set(fields) ^ set(told))} have no line, or aren't there")
    return ["| Field | In plain words |", "|---|---|"] + [f"| `{field}` | {told[field]} |" for field in fields] + [""]


def kit_words(words, pages):
    known = dict(rows(pages))
    if set(words) - set(known):
        raise Failure(f"the notes have no page for {sorted(set(words) - set(known))}")
    lines = [f"| `{known[module]}` | {', '.join(f'`{word}`' for word in sorted(words[module]))} |" for module in sorted(words)]
    return ["| Page of the kit | Words |", "|---|---|"] + lines


def size(lines):
    """How many lines of code these have that aren't blank."""
    inside, count = False, 0
    for line in lines:
        if line.startswith("```"):
            inside = not inside
        elif inside and line.strip():
            count += 1
    return count
