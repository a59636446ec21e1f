"""The list of commands, options, views, words, statuses and tools that tools/commands.txt has."""
import re
from dataclasses import dataclass, field
from pathlib import Path
from typing import Dict, List, Optional, Tuple

TOP = Path(__file__).resolve().parent.parent
LIST = "tools/commands.txt"
KINDS = {
    "number": ("range", "try"), "option": ("range", "default", "try", "says"), "command": ("numbers", "takes", "options", "play", "says"),
    "view": ("tab", "file", "says"), "word": ("of", "value", "try", "says"), "status": ("line", "says"), "tool": ("installed", "value", "says")}
BLOCK = re.compile(r"(\w+) (\S+)$")
FIELD = re.compile(r"  (\w+)(?: (.*))?$")


class BadList(Exception):
    """Where the list can't be read, and why, in one line."""


@dataclass
class Entry:
    """A block of the list: its kind, its word and its fields."""

    kind: str
    word: str
    line: int
    fields: Dict[str, str] = field(default_factory=dict)

    def has(self, name: str) -> bool:
        return name in self.fields

    def text(self, name: str = "says") -> str:
        return self.fields.get(name, "")

    def words(self, name: str) -> List[str]:
        return self.text(name).split()

    def range(self) -> Tuple[int, int]:
        least, most = self.words("range")
        return int(least), int(most)

    def option(self) -> str:
        """Returns the word as it is typed: options, views and other words have two hyphens."""
        return self.word if self.kind in ("number", "command", "status", "tool") else f"--{self.word}"


class Commands:
    """The whole list, in its order."""

    def __init__(self, entries: List[Entry]):
        self.entries = entries
        self.commands, self.options, self.views = self.of("command"), self.of("option"), self.of("view")
        self.statuses, self.tools = self.of("status"), self.of("tool")
        self.numbers = {each.word: each for each in self.of("number")}
        self.bounded = {**self.numbers, **{each.word: each for each in self.options}}

    def of(self, kind: str) -> List[Entry]:
        return [each for each in self.entries if each.kind == kind]

    def words_of(self, program: str) -> List[Entry]:
        """Returns the words of a script that are no command, option or view."""
        return [each for each in self.of("word") if program in each.words("of")]

    def word(self, name: str) -> Entry:
        return next(each for each in self.of("word") if each.word == name)

    def other_options(self, command: Entry) -> List[str]:
        """Returns the options that a command doesn't take."""
        return [each.word for each in self.options if each.word not in command.words("options")]


def call_of(command: Entry) -> str:
    """Returns a command with its numbers, as they are typed: `bench SEED SIZE`."""
    return " ".join([command.word, *(number.upper() for number in command.words("numbers"))])


def is_read_by(command: Entry) -> bool:
    """Returns whether a command reads a file."""
    return command.has("takes")


def parse(text: str) -> Commands:
    entries: List[Entry] = []
    here: Optional[Entry] = None
    for number, line in enumerate(text.split("\n"), 1):
        if not line.strip() or line.startswith("#"):
            continue
        block, inner = BLOCK.match(line), FIELD.match(line)
        if block and block.group(1) in KINDS:
            here = Entry(block.group(1), block.group(2), number)
            entries.append(here)
        elif inner and here and inner.group(1) in KINDS[here.kind] and not here.has(inner.group(1)):
            here.fields[inner.group(1)] = (inner.group(2) or "").strip()
        else:
            expected = f"one of {', '.join(KINDS[here.kind])}, once" if here and line.startswith(" ") else f"one of {', '.join(KINDS)}, and a word"
            raise BadList(f"{LIST}:{number}: found: {line.strip()}; expected: {expected}")
    return Commands(entries)


def commands() -> Commands:
    return parse((TOP / LIST).read_text(encoding="utf-8"))
