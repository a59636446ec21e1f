"""ame in Python, by the library libame.so: certificates are judged, the types of a text are checked, and programs are run.

The library is the file that AME_LIBRARY names, or bindings/out/libame.so of a checkout, or lib/libame.so of an install. Nothing is kept
between calls. Calls from several threads go on in parallel.
"""
import ctypes
import os
from enum import IntEnum
from pathlib import Path
from typing import Callable, List, NamedTuple, Optional, Tuple

FOLDER = Path(__file__).resolve().parent
# In a checkout and in an install.
PLACES = (FOLDER.parent / "out/libame.so", FOLDER.parent.parent.parent / "lib/libame.so")
# The version of bindings/c/ame.h that this module follows.
VERSION = 2


class Status(IntEnum):
    """How a call ends, by the numbers of `ame`."""

    FINISHED = 0
    BLOCKED = 1
    SPENT = 2
    USAGE = 3
    REFUSED = 5
    ILL_TYPED = 6
    DEVICE_FAULT = 8
    NO_MEMORY = 9
    TALL = 10
    VALID = 11
    INVALID = 12
    BAD_JOURNAL = 13
    LONG_JOURNAL = 14
    BAD_SCHEDULE = 17


class Judged(NamedTuple):
    """What `ame check` prints of a certificate, and the number in its last line."""

    status: Status
    number: int
    lines: bytes


class Fault(NamedTuple):
    """Why a text is no program that the types accept: the rule that it breaks (0 if it isn't ill-typed), and the place."""

    status: Status
    rule: int
    place: int


class Limits(NamedTuple):
    """The limits of a run, as `--workers`, `--turns` and `--slice` of `ame`."""

    workers: int = 1
    turns: int = 1_000_000
    slice: int = 1_000


class Run(NamedTuple):
    """What `ame` prints of a run, the number of its status, its certificate, and its schedule with the program."""

    status: Status
    number: int
    lines: bytes
    certificate: bytes
    schedule: bytes


class _Limits(ctypes.Structure):
    _fields_ = [(name, ctypes.c_uint32) for name in Limits._fields]


class _Whole(ctypes.Structure):
    _fields_ = [("number", ctypes.c_uint64), ("lines", ctypes.c_size_t), ("certificate", ctypes.c_size_t), ("schedule", ctypes.c_size_t)]


def _library() -> ctypes.CDLL:
    """Loads the library."""
    named = os.environ.get("AME_LIBRARY")
    file = Path(named) if named else next((place for place in PLACES if place.exists()), None)
    if file is None:
        raise OSError(f"{PLACES[0]} is not there; type bindings/build, or set AME_LIBRARY")
    library = ctypes.CDLL(str(file))
    text, seed = [ctypes.c_char_p, ctypes.c_size_t], ctypes.c_uint32
    limits, whole = ctypes.POINTER(_Limits), ctypes.POINTER(_Whole)
    number = ctypes.POINTER(ctypes.c_uint64)
    library.ame_version.argtypes, library.ame_version.restype = [], ctypes.c_uint32
    parameters = [
        (library.ame_check, [*text, *text, number, ctypes.POINTER(ctypes.c_size_t)]),
        (library.ame_types, [*text, ctypes.POINTER(ctypes.c_uint8), number]),
        (library.ame_sim, [*text, seed, limits, *text, *text, *text, whole]),
        (library.ame_replay, [*text, limits, *text, *text, *text, whole]),
        (library.ame_weak, [*text, seed, ctypes.c_uint32, *text, *text, whole]),
    ]
    for function, of in parameters:
        function.argtypes, function.restype = of, ctypes.c_uint8
    if library.ame_version() != VERSION:
        raise OSError(f"{file} has version {library.ame_version()}, and this module needs {VERSION}")
    return library


LIBRARY = _library()
FIRST_ROOM = 4096


def _with_rooms(count: int, call: Callable[[List[ctypes.Array]], Tuple[int, List[int]]]) -> Tuple[int, List[bytes]]:
    """Calls with little room for each text, and again if one is longer. The call returns the status and the lengths of the texts."""
    lengths = [FIRST_ROOM] * count
    while True:
        rooms = [ctypes.create_string_buffer(length) for length in lengths]
        status, whole = call(rooms)
        if all(len(room) >= length for room, length in zip(rooms, whole)):
            return status, [ctypes.string_at(room, length) for room, length in zip(rooms, whole)]
        lengths = [max(FIRST_ROOM, length) for length in whole]


def check(certificate: bytes) -> Judged:
    """Judges a certificate as `ame check` does."""
    number, whole = ctypes.c_uint64(), ctypes.c_size_t()

    def call(rooms: List[ctypes.Array]) -> Tuple[int, List[int]]:
        status = LIBRARY.ame_check(certificate, len(certificate), rooms[0], len(rooms[0]), ctypes.byref(number), ctypes.byref(whole))
        return status, [whole.value]

    status, (lines,) = _with_rooms(1, call)
    return Judged(Status(status), number.value, lines)


def types(text: bytes) -> Optional[Fault]:
    """Checks the text of a program. Returns None if the types accept it."""
    rule, place = ctypes.c_uint8(), ctypes.c_uint64()
    status = LIBRARY.ame_types(text, len(text), ctypes.byref(rule), ctypes.byref(place))
    return Fault(Status(status), rule.value, place.value) if status else None


def _run(function: Callable[..., int], before: List[object], has_schedule: bool) -> Run:
    """Makes a run by a function, with these parameters before the rooms."""
    whole = _Whole()

    def call(rooms: List[ctypes.Array]) -> Tuple[int, List[int]]:
        spread = [part for room in rooms for part in (room, len(room))]
        status = function(*before, *spread, ctypes.byref(whole))
        return status, [whole.lines, whole.certificate, whole.schedule][: len(rooms)]

    status, made = _with_rooms(3 if has_schedule else 2, call)
    return Run(Status(status), whole.number, *made, *([] if has_schedule else [b""]))


def sim(text: bytes, seed: int, limits: Limits = Limits()) -> Run:
    """Runs a program under the choices of a seed, as `ame sim` does."""
    return _run(LIBRARY.ame_sim, [text, len(text), seed, _Limits(*limits)], True)


def replay(scheduled: bytes, limits: Limits = Limits()) -> Run:
    """Runs a program again by a schedule, as `ame replay` does. `Run.schedule` has both."""
    return _run(LIBRARY.ame_replay, [scheduled, len(scheduled), _Limits(*limits)], True)


def weak(text: bytes, seed: int, turns: int = Limits().turns) -> Run:
    """Runs a program under the weak semantics, as `ame weak` does. There is no schedule."""
    return _run(LIBRARY.ame_weak, [text, len(text), seed, turns], False)
