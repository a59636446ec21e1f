"""Pages in Markdown, as `tools/pages` and `tools/words` read them: lines by kind, blocks of commands, tables, links."""
import re
import subprocess
from dataclasses import dataclass, field
from enum import Enum
from pathlib import Path
from typing import Dict, Iterator, List, Tuple

TOP = Path(__file__).resolve().parent.parent

FENCE = re.compile(r"\s*```")
INDENTED = re.compile(r" {4,}|\t")
LIST_ITEM = re.compile(r"\s*([-*]|\d+\.) ")
HEADING = re.compile(r"#+ (.*)")
LINK = re.compile(r"\[[^\]]*\]\(([^)\s]+)\)")
CODE_SPAN = re.compile(r"`[^`]*`")
PROMPT = "$ "


class Kind(Enum):
    PROSE = "prose"
    TABLE = "table"
    CODE = "code"
    HEADING = "heading"
    BLANK = "blank"
    COMMENT = "comment"


@dataclass(frozen=True)
class Line:
    number: int
    kind: Kind
    text: str


@dataclass
class Command:
    """A command on a page, and the lines that the page shows below it."""

    page: Path
    line: int
    text: str
    output: List[str] = field(default_factory=list)


class Page:
    """A page, read once."""

    def __init__(self, path: Path):
        self.path = path
        self.name = str(path.relative_to(TOP)) if TOP in path.parents else str(path)
        self.text = path.read_text(encoding="utf-8", errors="replace")
        self.lines = list(read_lines(self.text))

    def of_kind(self, kind: Kind) -> Iterator[Line]:
        return (line for line in self.lines if line.kind is kind)

    def blocks(self) -> Iterator[List[Line]]:
        """Yields the blocks of code."""
        block: List[Line] = []
        for line in self.lines:
            if line.kind is Kind.CODE:
                block.append(line)
            elif block:
                yield block
                block = []
        if block:
            yield block

    def commands(self) -> List[Command]:
        """Returns the commands of all blocks, each with the output that the page shows."""
        found: List[Command] = []
        for block in self.blocks():
            here: List[Command] = []
            for line in block:
                if line.text.startswith(PROMPT):
                    here.append(Command(self.path, line.number, line.text[len(PROMPT):]))
                elif here:
                    here[-1].output.append(line.text)
            found += here
        return found

    def links(self) -> Iterator[Tuple[int, str]]:
        """Yields the targets of links, with their lines."""
        for line in self.lines:
            if line.kind in (Kind.PROSE, Kind.TABLE, Kind.HEADING):
                for match in LINK.finditer(CODE_SPAN.sub("", line.text)):
                    yield line.number, match.group(1)

    def anchors(self) -> Dict[str, int]:
        """Returns the anchors of the headings, as GitHub makes them."""
        found: Dict[str, int] = {}
        for line in self.of_kind(Kind.HEADING):
            title = HEADING.match(line.text).group(1)
            plain = re.sub(r"[^\w\- ]", "", LINK_TEXT.sub(r"\1", title)).strip().lower().replace(" ", "-")
            times = sum(1 for known in found if known == plain or re.fullmatch(re.escape(plain) + r"-\d+", known))
            found[plain if times == 0 else f"{plain}-{times}"] = line.number
        return found

    def word_count(self) -> int:
        return len(self.text.split())


LINK_TEXT = re.compile(r"\[([^\]]*)\]\([^)]*\)")


def read_lines(text: str) -> Iterator[Line]:
    """Yields the lines of a page with their kinds; lines of code have their indentation taken off."""
    fenced, before, comment = False, Kind.BLANK, False
    in_list = False
    for number, line in enumerate(text.split("\n"), 1):
        if comment or line.startswith("<!--"):
            comment = "-->" not in line
            yield Line(number, Kind.COMMENT, line)
            continue
        if FENCE.match(line):
            fenced = not fenced
            before = Kind.CODE
            yield Line(number, Kind.COMMENT, line)
            continue
        kind = kind_of(line, fenced, before, in_list)
        in_list = (in_list and kind in (Kind.PROSE, Kind.BLANK) and not is_flush(line)) or bool(LIST_ITEM.match(line))
        plain = line[4:] if kind is Kind.CODE and not fenced else line
        yield Line(number, kind, plain)
        before = kind


def is_flush(line: str) -> bool:
    return bool(line) and not line.startswith(" ")


def kind_of(line: str, fenced: bool, before: Kind, in_list: bool) -> Kind:
    if fenced:
        return Kind.CODE
    if not line.strip():
        return Kind.CODE if before is Kind.CODE else Kind.BLANK
    if INDENTED.match(line) and not in_list and before in (Kind.BLANK, Kind.CODE):
        return Kind.CODE
    if HEADING.match(line):
        return Kind.HEADING
    return Kind.TABLE if line.lstrip().startswith("|") else Kind.PROSE


def cells_of(row: str) -> List[str]:
    """Returns the cells of a row of a table; a bar in a code span, or after a backslash, ends no cell."""
    hidden = CODE_SPAN.sub(lambda span: span.group().replace("|", "\0"), row.strip().replace("\\|", "\0"))
    return [cell.strip().replace("\0", "|") for cell in hidden.strip("|").split("|")]


def tracked(*patterns: str) -> List[Path]:
    """Returns the files of the repository, also new ones, that fit one of the patterns."""
    words = ["git", "-C", str(TOP), "ls-files", "--cached", "--others", "--exclude-standard", "--", *patterns]
    names = subprocess.run(words, stdout=subprocess.PIPE, check=True).stdout.decode().split("\n")
    return [TOP / name for name in sorted(set(names)) if name and (TOP / name).is_file()]
