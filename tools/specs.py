"""Definitions of `specs/*.antt` and of the types of `src/*.rt`, and what each of them cites.

A definition is its lines as they stand, with the comments right before it. What a name means is told by the `use` lines of
its file; names that a definition binds itself, as its arguments and fields, aren't cited by it.
"""
import os
import re

TOP = os.path.dirname(os.path.dirname(os.path.abspath(__file__)))
CRATES = f"{TOP}/crates"

STARTS = re.compile(r"(abbrev|unfoldable|pub|mutual|module|use|data|record)\b|[^\s()=]+ : ")
NAMED = re.compile(r"(?:abbrev |unfoldable )?(?:pub )?(?:data |record )?([^\s:]+)")
USE = re.compile(r"^\s*(?:ghost |pub )?use ([\w.]+?)(?:\.\{([^}]*)\}| as (\w+))?;?$", re.M)
ALIAS = re.compile(r"^\s*(?:ghost )?use .*? as (\w+)", re.M)
RUST_USE = re.compile(r"^use (\w+)::([\w:]*?)(?:\{([^}]*)\}|(\w+));", re.M)
RUST_TYPE = re.compile(r"pub (?:enum|struct|trait) (\w+)")
# The cases of numbers and truth values: small letters that a pattern doesn't bind.
CASES = {"zero", "suc", "pos", "negsuc", "true", "false"}
# What a clause binds: by λ, by a telescope, by a `let`, in a `do`, in a case, as a field.
BINDERS = [re.compile(p, re.M) for p in (
    r"λ ([^.]*)\. ", r"[({]([^(){}:]+) : ", r"\blet (\S+) =", r"(\S+) ←", r"\| ([^|]*?) ↦", r"^ +pub (\S+) :")]


class Definition:
    """Lines of a file that define names, with the heads of the modules around them."""

    def __init__(self, file, heads, lines, names):
        self.file, self.heads, self.lines, self.names = file, heads, lines, names


class File:
    """A file of `specs` or `src`: what it defines, in order, and what its other names mean."""

    def __init__(self, path):
        self.path = path
        with open(f"{CRATES}/{path}", encoding="utf-8") as it:
            self.text = it.read()
        is_rust = path.endswith(".rt")
        self.definitions = rust_definitions(self) if is_rust else definitions(self)
        self.own = {name: d for d in self.definitions for name in d.names}
        self.imports = dict(imported(self.text))
        self.aliases = set(ALIAS.findall(self.text))
        if is_rust:
            self.imports.update(rust_imported(path.split("/")[0], self.text))


class Sources:
    """Files by their paths, each read once, and what names mean in them."""

    def __init__(self):
        self.files = {}

    def file(self, path):
        if path not in self.files:
            self.files[path] = File(path)
        return self.files[path]

    def meaning(self, path, name):
        """A definition, or the module and the name of a word of the kit."""
        file = self.file(path)
        if name in file.own:
            return file.own[name]
        place, wanted = file.imports[name]
        return self.meaning(place, wanted or name) if "/" in place else (place, wanted or name)

    def cited(self, definition):
        """What a definition cites: names, as they stand there, with what they mean."""
        file = self.file(definition.file)
        known = set(file.own) | set(file.imports)
        is_rust = definition.file.endswith(".rt")
        words = rust_words(definition.lines) if is_rust else antt_words(definition)
        for name in sorted(known, key=str):
            parts = [part for part in name.split("◌") if part]
            if all(part in words for part in parts) or (name == "◌>>=◌" and "do" in words):
                yield name, self.meaning(definition.file, name)


def indent_of(line):
    return len(line) - len(line.lstrip())


def is_blank_or_comment(line):
    return not line.strip() or line.lstrip().startswith("--")


def end_of(lines, start):
    """Where a definition ends that begins here: before the next one that stands as far left."""
    depth, end, at = indent_of(lines[start]), start + 1, start + 1
    while at < len(lines):
        line = lines[at]
        if not is_blank_or_comment(line):
            if indent_of(line) < depth or (indent_of(line) == depth and STARTS.match(line.lstrip())):
                break
            end = at + 1
        at += 1
    return end


def names_in(lines):
    """The names that a definition gives: those of a `mutual` block are the ones it has within."""
    first = lines[0].strip()
    if not first.endswith("mutual"):
        return [NAMED.match(first).group(1)]
    inner = min(indent_of(line) for line in lines[1:] if line.strip())
    heads = [line.strip() for line in lines[1:] if indent_of(line) == inner and STARTS.match(line.lstrip())]
    return [NAMED.match(head).group(1) for head in heads]


def definitions(file):
    lines, found, modules, at = file.text.split("\n"), [], [], 0
    while at < len(lines):
        line = lines[at]
        if is_blank_or_comment(line) or line.lstrip().startswith(("use ", "pub use ", "pub mod ")):
            at += 1
            continue
        modules = [m for m in modules if indent_of(m[0]) < indent_of(line)]
        start = at
        if line.lstrip().startswith("module "):
            while not lines[at].endswith("where"):
                at += 1
            at += 1
            modules.append(lines[start:at])
            continue
        at = end_of(lines, start)
        first = start
        while first > 0 and lines[first - 1].lstrip().startswith("--"):
            first -= 1
        found.append(Definition(file.path, list(modules), lines[first:at], names_in(lines[start:at])))
    return found


def rust_definitions(file):
    lines, found = file.text.split("\n"), []
    for at, line in enumerate(lines):
        match = RUST_TYPE.match(line)
        if not match:
            continue
        first, end = at, at
        while lines[first - 1].startswith(("///", "#[")):
            first -= 1
        while lines[end] != "}" and not lines[at].endswith(";"):
            end += 1
        found.append(Definition(file.path, [], lines[first:end + 1] + view(file.text, match.group(1)), [match.group(1)]))
    return found


def view(text, name):
    """What contracts see of a Rust type, where that isn't its fields."""
    model = re.search(rf"(?ms)^impl(?:<[^>]*>)? Model for {name}\b.*?^\}}", text)
    if not model:
        return []
    parts = re.findall(r"(?ms)^    ghost (?:Value|view) = \{.*?\};$", model.group(0))
    return ["", model.group(0).split("\n")[0], *"\n\n".join(parts).split("\n"), "}"]


def place_of(path):
    """The file of a module, and the Rust type where it is one; a module of the kit stays as it is."""
    parts = path.split(".")
    if parts[0] != "Rattle" or not os.path.isdir(f"{CRATES}/{parts[1]}"):
        return path, None
    if "declared" in parts:
        inner = parts[parts.index("declared") + 1:]
        at = next(i for i, part in enumerate(inner) if part[0].isupper())
        return f"{parts[1]}/src/{'/'.join(inner[:at])}.rt", inner[at]
    return f"{parts[1]}/{'/'.join(parts[2:])}.antt", None


def imported(text):
    """What each name of the `use` lines means: a place, and the name there if it is another one."""
    for path, names, alias in USE.findall(text):
        place, rust_type = place_of(path)
        for entry in re.split(r",\s*", names) if names else [f"{path} as {alias}"]:
            name, _, other = entry.strip().partition(" as ")
            yield other or name, (place, rust_type or name)


def rust_imported(crate, text):
    for first, _, names, name in RUST_USE.findall(text):
        owner = crate if first == "crate" else first
        if os.path.isdir(f"{CRATES}/{owner}/src"):
            for each in re.findall(r"\w+", names or name):
                if each[0].isupper():
                    yield each, (rust_file(owner, each), each)


def rust_file(crate, name):
    for folder, _, files in sorted(os.walk(f"{CRATES}/{crate}/src")):
        for file in sorted(files):
            with open(f"{folder}/{file}", encoding="utf-8") as it:
                if re.search(rf"^pub (?:enum|struct|trait) {name}\b", it.read(), re.M):
                    return os.path.relpath(f"{folder}/{file}", CRATES)
    return f"{crate}/src/lib.rt"


def rust_words(lines):
    text = "\n".join(line for line in lines if not line.lstrip().startswith("//"))
    return set(re.findall(r"[^\s(){}\[\];,.<>&:]+", re.sub(r" by \{.*\}", "", text)))


def tokens(text):
    return [token.rstrip(".") for token in re.findall(r"[^\s(){}\[\];,|]+", text)]


def antt_words(definition):
    """The words of a definition that it doesn't bind itself: of `x.y` the first part, and no names of fields that are given."""
    text = re.sub(r'"[^"]*"', '""', "\n".join(definition.lines + [line for m in definition.heads for line in m]))
    text = re.sub(r"(?m)(^|\s)--.*$", "", text)
    text = re.sub(r"([{;]\s*)[^\s{};]+ = ", r"\1", text)
    inner = min(indent_of(line) for line in definition.lines if line.strip())
    inner += 2 if any(line.endswith("mutual") for line in definition.lines) else 0
    words = set()
    for clause in re.split(rf"(?m)^(?= {{{inner}}}\S)", text):
        groups = [group for binder in BINDERS for group in binder.findall(clause)]
        if not STARTS.match(clause.lstrip()) and " = " in clause:
            groups.append(" ".join(clause.split(" = ")[0].split()[1:]))
        bound = {t for g in groups for t in tokens(g) if "." not in t and not t[0].isupper()} - CASES
        words |= {t.split(".")[0] or t for t in tokens(clause)} - bound
    return words
