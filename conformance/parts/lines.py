"""The lines of a recording: what each says, and what is expected of one that can't be read."""
import functools
from typing import List, NamedTuple, Optional

from . import values

STEPS, TASKS, SEATS, LOCATIONS, DEVICES = 2**64, 2**64, 32, values.MOST_LOCATION, 256
ENTRY_KINDS = (b"ran", b"free", b"stuck", b"cut", b"tall")
OBSERVED = ("read", "wrote", "print", "starts", "call")
WHOLE = (*OBSERVED, "output", "heard", "store")
VERDICTS = ("finished", "blocked", "spent", "tall")
MOST_REMEMBERED = 40
NATURAL = "a decimal number without leading zeros, "


class Entry(NamedTuple):
    """An entry of the journal. None stands for `_`, and for no answer."""

    line: int
    kind: bytes
    seat: int
    number: int  # of the task
    steps: Optional[int]
    fresh: Optional[List[int]]
    answer: Optional[int]


class Observation(NamedTuple):
    """What the task of an entry did, in the words of LANGUAGE: the subject is a location or a device. Its line is known by that of the entry."""

    kind: str
    subject: Optional[int]
    value: object
    answer: Optional[int]


class Output(NamedTuple):
    line: int
    value: int


class Heard(NamedTuple):
    line: int
    device: int
    value: int
    answer: int


class Whole(NamedTuple):
    """The kinds that are recorded without gaps."""

    line: int
    kinds: frozenset


class Store(NamedTuple):
    line: int
    location: int
    value: object


class End(NamedTuple):
    line: int
    verdict: str
    number: Optional[int]


class Program(NamedTuple):
    line: int
    size: int


class Bad(Exception):
    """A line that can't be read: its number, a column, what is wrong there, what is found, what is expected."""

    def __init__(self, line, column, problem, found, expected):
        super().__init__(line, column, problem, found, expected)
        self.line, self.column, self.problem, self.found, self.expected = line, column, problem, found, expected


def shown(text):
    """Returns bytes as they may stand in a message."""
    return text[:40].decode("ascii", "backslashreplace") + (".." if len(text) > 40 else "")


class Words:
    """The words of a line, one space between two of them, read from left to right."""

    def __init__(self, text, line):
        self.words, self.at, self.line = text.split(b" "), 0, line

    def column(self):
        """Returns the column of the next word, or the one after the line."""
        return 1 + sum(len(word) + 1 for word in self.words[:self.at]) - (not self.more())

    def bad(self, problem, expected):
        found = shown(self.words[self.at]) if self.at < len(self.words) else "the end of the line"
        if found == "":
            found = "an empty word (two spaces, or one at an end)"
        return Bad(self.line, self.column(), problem, found, expected)

    def next(self):
        return self.words[self.at] if self.at < len(self.words) else None

    def more(self):
        return self.at < len(self.words)

    def natural(self, limit, what, expected):
        """Takes a number below a limit."""
        word = self.next()
        good = word and word.isdigit() and (word[0] != 48 or len(word) == 1) and len(word) <= 20
        if not good or int(word) >= limit:
            raise self.bad(f"bad {what}", expected)
        self.at += 1
        return int(word)

    def integer(self, what):
        word = self.next()
        good = word and values.INTEGER.fullmatch(word)
        if not good or not -values.MOST_INTEGER <= int(word) < values.MOST_INTEGER:
            raise self.bad(f"bad {what}", "a 64-bit integer in decimal, without leading zeros or plus")
        self.at += 1
        return int(word)

    def blank_or(self, limit, what, expected):
        """Takes a number, or None for `_`."""
        if self.next() == b"_":
            self.at += 1
            return None
        return self.natural(limit, what, expected + " or _")

    def value(self):
        """Takes the rest of the line as a value."""
        rest = b" ".join(self.words[self.at:])
        try:
            if self.more():
                found = values.read(rest)
                self.at = len(self.words)
                return found
            offset = 0
        except values.NoValue as fault:
            offset = fault.args[0]
        raise Bad(self.line, self.column() + offset, "bad value", shown(rest[offset:]) or "the end of the line", values.EXPECTED)

    def literal(self, word, expected):
        if self.next() != word:
            raise self.bad("bad line", expected)
        self.at += 1

    def done(self, what, expected="the end of the line"):
        if self.more():
            raise self.bad(f"text after {what}", expected)


def location(words):
    return words.blank_or(LOCATIONS, "location", NATURAL + "below 2^32")


def device(words):
    return words.natural(DEVICES, "device", "a device, 0 to 255")


def task(words):
    return words.natural(TASKS, "task", NATURAL + "below 2^64")


def entry(words):
    kind = words.next()
    words.at += 1
    seat = words.natural(SEATS, "seat", "a seat, 0 to 31 (write 0 for others)")
    number = task(words)
    steps = words.blank_or(STEPS, "number of steps", NATURAL + "below 2^64,")
    fresh, answer = new_locations(words), None
    if words.next() == b"=" and kind == b"free":
        words.at += 1
        answer = words.integer("answer")
    words.done("the entry", "a location below 2^32, `= ANSWER` (in a `free` line only) or the end of the line")
    return Entry(words.line, kind, seat, number, steps, fresh, answer)


def new_locations(words):
    """Takes the numbers of the new locations, or None for `_`."""
    if words.next() == b"_":
        words.at += 1
        return None
    fresh = []
    while words.more() and words.next() != b"=":
        what = "location" if fresh or words.next() == b"" else "new location"
        fresh.append(words.natural(LOCATIONS, what, "a location below 2^32, or _ alone for all, or the end of the line"))
    return fresh


def observation(words):
    """Reads a line that is indented by two spaces."""
    words.at = 2
    word = words.next()
    kind = word.decode("latin-1") if word else ""
    subject = value = answer = None
    if kind not in OBSERVED:
        raise words.bad("bad observation", "two spaces, then read, wrote, print, starts or call")
    words.at += 1
    if kind in ("read", "wrote"):
        subject, value = location(words), words.value()
    elif kind == "print":
        value = words.integer("integer")
    elif kind == "starts":
        value = task(words)
    else:
        subject, value, answer = call(words)
    words.done("the observation")
    return Observation(kind, subject, value, answer)


def call(words):
    number, asked = device(words), words.integer("argument")
    words.literal(b"=", "`=` and the device's answer")
    return number, asked, words.integer("answer")


def output(words):
    words.at += 1
    made = Output(words.line, words.integer("integer"))
    words.done("the output")
    return made


def heard(words):
    words.at += 1
    made = Heard(words.line, *call(words))
    words.done("the call")
    return made


def store(words):
    words.at += 1
    return Store(words.line, words.natural(LOCATIONS, "location", NATURAL + "below 2^32"), words.value())


def end(words):
    words.at += 1
    word = words.next()
    verdict = word.decode("latin-1") if word else ""
    if verdict not in VERDICTS:
        raise words.bad("bad end", "finished, blocked N, spent or tall TASK")
    words.at += 1
    number = task(words) if verdict in ("blocked", "tall") else None
    words.done("the end")
    return End(words.line, verdict, number)


def whole(words):
    kinds = set()
    words.at += 1
    while words.more() or not kinds:
        kind = words.next()
        name = kind.decode("latin-1") if kind else ""
        if name not in WHOLE or name in kinds:
            raise words.bad("bad kind", f"one of {' '.join(WHOLE)}, each at most once")
        kinds.add(name)
        words.at += 1
    return Whole(words.line, frozenset(kinds))


def program(words):
    words.at += 1
    size = words.natural(2**63, "size", "how many bytes the program's text has, in decimal")
    words.done("the size")
    return Program(words.line, size)


READERS = {
    **dict.fromkeys(ENTRY_KINDS, entry), b"": observation, b"output": output, b"heard": heard, b"store": store, b"end": end,
    b"all": whole, b"program": program}


def read(text, line):
    """Returns what a line says, given without its line feed; raises Bad. What short lines say is remembered, since many are alike."""
    if len(text) > MOST_REMEMBERED:
        return said(text, line)
    try:
        found = remembered(text)
    except Bad as fault:
        raise Bad(line, fault.column, fault.problem, fault.found, fault.expected) from None
    return found if type(found) is Observation else type(found)(line, *found[1:])


@functools.lru_cache(maxsize=20_000)
def remembered(text):
    return said(text, 0)


def said(text, line):
    words = Words(text, line)
    reader = READERS.get(words.next())
    if text.startswith(b" ") and not (text.startswith(b"  ") and text[2:3] != b" "):
        raise Bad(line, 1, "bad indentation", shown(text), "two spaces before an observation, none before another line")
    if reader is None or text == b"":
        expected = "a line that begins with ran, free, stuck, cut, tall, output, heard, store, end, or two spaces and an observation"
        raise Bad(line, 1, "bad line", shown(words.words[0]) or "an empty line", expected)
    return reader(words)
