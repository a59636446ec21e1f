"""Functions of the crates with their docstrings and clauses, and the names that specs and proofs define: read as text, never checked."""
import re
from dataclasses import dataclass, field
from pathlib import Path
from typing import Dict, Iterator, List, Optional, Set

from markdown import TOP

CRATES = TOP / "crates"
FUNCTION = re.compile(r"( *)((?:pub(?:\([^)]*\))? )?(?:ghost )?(?:extern \"C\" )?)fn (\w+)")
IMPL = re.compile(r"(?:pub )?(?:unsafe )?(impl|trait)\b")
CLAUSE = re.compile(r"^\s*(?:ensures|requires) (\w+) \{", re.M)
ENSURES = re.compile(r"^\s*ensures (?:(\w+) )?\{", re.M)
TYPE = re.compile(r"^(?:pub(?:\([^)]*\))? )?(?:struct|enum|trait) (\w+)", re.M)
DEFINED = re.compile(r"(?m)^ *(?:(?:abbrev|unfoldable|pub) +)*(?:(?:data|record) +([^\s(){}:]+)|([^\s(){}:,.=]+) :(?=\s|$))")


@dataclass(frozen=True)
class Function:
    """A function: its crate, file, the type or trait that has it, its name, its docstring, and its contract as text."""

    crate: str
    file: str
    owner: Optional[str]
    name: str
    public: bool
    doc: str
    contract: str

    def path(self) -> str:
        return f"{self.owner}::{self.name}" if self.owner else self.name

    def clauses(self) -> List[str]:
        """Returns the names of what it ensures; a clause without a name has none."""
        return [name for name in ENSURES.findall(self.contract) if name]

    def has_nameless(self) -> bool:
        return "" in ENSURES.findall(self.contract)


@dataclass
class Crate:
    """What a crate defines: functions, types, and names of specs and proofs by their files."""

    name: str
    functions: List[Function] = field(default_factory=list)
    types: Set[str] = field(default_factory=set)
    clauses: Set[str] = field(default_factory=set)
    defined: Dict[str, Set[str]] = field(default_factory=dict)
    used: Set[str] = field(default_factory=set)

    def words(self) -> Set[str]:
        """Returns the words that stand in its sources, and the names of its files and definitions."""
        files = {part for file in self.defined for part in file.split("/")}
        return {self.name} | self.used | files | {name for names in self.defined.values() for name in names}

    def named(self, path: str) -> List[Function]:
        """Returns the functions of this path: `name`, or `Type::name`; a module before it may stand too."""
        owner, _, name = path.rpartition("::")
        return [each for each in self.functions if each.name == name and (not owner or each.owner == owner or owner in each.file)]

    def definitions(self) -> Set[str]:
        return {name for file, names in self.defined.items() if file.startswith("specs/") for name in names}


def owner_of(head: str) -> Optional[str]:
    """Returns the type or the trait that the head of a block names."""
    text = head[:head.index("{")] if "{" in head else head
    text = re.sub(r"^(?:pub )?(?:unsafe )?(impl|trait)", "", text.split("\nwhere")[0])
    while re.search(r"<[^<>]*>", text):
        text = re.sub(r"<[^<>]*>", "", text)
    text = re.sub(r"->", "", text).split(" for ")[-1].split(":")[0].replace("where", " ")
    words = re.findall(r"\w+", text)
    return words[0] if words else None


def doc_before(lines: List[str], at: int) -> str:
    """Returns the docstring that ends above a line; attributes and uses may stand between."""
    doc: List[str] = []
    while at > 0 and re.match(r"\s*(///|#\[)", lines[at - 1]):
        at -= 1
        text = lines[at].strip()
        if text.startswith("///"):
            doc.insert(0, text[3:].strip())
    return " ".join(doc)


def contract_after(lines: List[str], at: int, indent: str) -> str:
    """Returns the head of a function with its clauses, up to its body."""
    end = at
    while end < len(lines) and lines[end] not in (indent + "{", indent + "{}") and not lines[end].rstrip().endswith((";", " {")):
        end += 1
    return "\n".join(lines[at:end + 1])


def functions_in(crate: str, file: str, text: str) -> Iterator[Function]:
    lines, owner = text.split("\n"), None
    for at, line in enumerate(lines):
        if IMPL.match(line):
            owner = owner_of("\n".join(lines[at:at + 12]))
        elif line == "}":
            owner = None
        match = FUNCTION.match(line)
        if match:
            inner = owner if match.group(1) else None
            yield Function(crate, file, inner, match.group(3), "pub" in match.group(2) or owner is not None, doc_before(lines, at),
                           contract_after(lines, at, match.group(1)))


def names_defined(text: str) -> Set[str]:
    """Returns the names that a file of specs or proofs gives: definitions, lemmas, constructors and fields."""
    return {one or other for one, other in DEFINED.findall(text)}


def read_crate(folder: Path) -> Crate:
    crate = Crate(folder.name)
    for path in sorted((folder / "src").glob("**/*.rt")):
        text, file = path.read_text(encoding="utf-8"), str(path.relative_to(folder))
        crate.used |= set(re.findall(r"[A-Za-z_]\w*", re.sub(r"(?m)^\s*//.*$", "", text))) | {path.stem}
        crate.functions += functions_in(crate.name, file, text)
        crate.types |= set(TYPE.findall(text))
        crate.clauses |= set(CLAUSE.findall(text)) | set(re.findall(r"(?m)^\s*(?:invariant|ghost|law) (\w+)", text))
    for part in ("specs", "proofs"):
        for path in sorted((folder / part).glob("**/*.antt")):
            crate.defined[str(path.relative_to(folder))[:-len(".antt")]] = names_defined(path.read_text(encoding="utf-8"))
    return crate


def read_crates() -> Dict[str, Crate]:
    return {folder.name: read_crate(folder) for folder in sorted(CRATES.iterdir()) if (folder / "src").is_dir()}
