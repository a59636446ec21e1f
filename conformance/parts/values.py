"""Values as a recording spells them, and whether a value of a run is what is spelled.

A value of a run is None (unit), a bool, an int, a Cell, or a Function or a Pair of tools/judge. A spelled value is the same for the
first three, and otherwise one of the classes below.
"""
import re
from typing import NamedTuple, Optional

from . import strong

TOKEN = re.compile(rb"[^ ()]+|[()]")
NATURAL = re.compile(rb"0|[1-9][0-9]{0,9}")
INTEGER = re.compile(rb"0|-?[1-9][0-9]{0,18}")
CONSTANTS = {b"unit": None, b"true": True, b"false": False}
MOST_LOCATION, MOST_INTEGER = 2**32, 2**63
EXPECTED = "a value: a 64-bit integer, true, false, unit, @LOCATION, fn, (pair VALUE VALUE) or _"


class Cell:
    """A location of a run. Its number is None as long as the recording doesn't say it."""

    __slots__ = ("number",)

    def __init__(self, number=None):
        self.number = number


class Spelled(NamedTuple):
    """A location, by its number; None stands for any."""

    number: Optional[int]


class Both(NamedTuple):
    first: object
    second: object


class Any:
    """Fits each value."""


class SomeFunction:
    """Fits each function."""


MARKS = {b"_": Any, b"fn": SomeFunction}


class NoValue(Exception):
    """The offset at which no value can be read."""


def read(text):
    """Returns the value that bytes spell; raises NoValue with an offset."""
    simple = of_word(text, 0) if b"(" not in text else NoValue
    return simple if simple is not NoValue else of_tokens(text)


def of_word(word, offset):
    if INTEGER.fullmatch(word):
        number = int(word)
        if not -MOST_INTEGER <= number < MOST_INTEGER:
            raise NoValue(offset)
        return number
    if word in CONSTANTS:
        return CONSTANTS[word]
    if word in MARKS:
        return MARKS[word]
    if word[:1] == b"@" and NATURAL.fullmatch(word[1:]) and int(word[1:]) < MOST_LOCATION:
        return Spelled(int(word[1:]))
    if word == b"@_":
        return Spelled(None)
    raise NoValue(offset)


def of_tokens(text):
    """Reads pairs with a stack, since they may be 1,000 high."""
    open_pairs, at = [], 0
    while True:
        if text.startswith(b"(pair ", at):
            if len(open_pairs) == strong.MOST_HEIGHT:
                raise NoValue(at)
            open_pairs.append([])
            at += len(b"(pair ")
            continue
        found = TOKEN.match(text, at)
        if not found:
            raise NoValue(at)
        value, at = of_word(found.group(), at), found.end()
        while open_pairs:
            open_pairs[-1].append(value)
            if len(open_pairs[-1]) == 1:
                at = after(text, at, b" ")
                break
            at = after(text, at, b")")
            value = Both(*open_pairs.pop())
        else:
            if at < len(text):
                raise NoValue(at)
            return value


def after(text, at, wanted):
    if not text.startswith(wanted, at):
        raise NoValue(at)
    return at + 1


def fits(spelled, value, names):
    """Returns whether a value is what is spelled, where `names` says which number a location may have."""
    if spelled is Any:
        return True
    if type(spelled) is type(value):
        return spelled == value
    if isinstance(value, Cell):
        return isinstance(spelled, Spelled) and names.may_be(spelled.number, value)
    if isinstance(value, strong.Pair):
        return isinstance(spelled, Both) and fits(spelled.first, value.first, names) and fits(spelled.second, value.second, names)
    return isinstance(value, strong.Function) and spelled is SomeFunction


def name(spelled, value, names):
    """Gives the locations in a value, which fits, the numbers that are spelled."""
    if isinstance(value, Cell) and isinstance(spelled, Spelled):
        names.give(spelled.number, value)
    elif isinstance(value, strong.Pair) and isinstance(spelled, Both):
        name(spelled.first, value.first, names)
        name(spelled.second, value.second, names)


def show(value):
    """Returns the text of a value, of a run or spelled."""
    if value is None:
        return "unit"
    if isinstance(value, bool):
        return "true" if value else "false"
    if isinstance(value, (Cell, Spelled)):
        return "@_" if value.number is None else f"@{value.number}"
    if isinstance(value, (strong.Pair, Both)):
        return f"(pair {show(value.first)} {show(value.second)})"
    if isinstance(value, strong.Function) or value is SomeFunction:
        return "fn"
    return "_" if value is Any else str(value)
