"""The litmus programs, with the outcomes that the strong semantics allows: all that there are."""
import json
import os
from typing import FrozenSet, NamedTuple, Tuple

HERE = os.path.dirname(os.path.dirname(os.path.abspath(__file__)))
Outcome = Tuple[Tuple[int, ...], str]


class Litmus(NamedTuple):
    name: str
    shows: str
    text: bytes
    outcomes: FrozenSet[Outcome]


def read():
    """Returns the programs of litmus.json."""
    with open(os.path.join(HERE, "litmus.json"), encoding="utf-8") as file:
        return [Litmus(each["name"], each["shows"], "".join(f"{line}\n" for line in each["program"]).encode(),
                       frozenset((tuple(one["prints"]), one["verdict"]) for one in each["outcomes"])) for each in json.load(file)]
