"""What the judge answers of a recording, as text and as JSON."""
import enum
import json
from dataclasses import dataclass, field
from typing import List, Optional

from . import lines


class Verdict(enum.Enum):
    VALID = "valid"  # each claim holds
    INVALID = "invalid"  # a claim doesn't hold
    BAD = "bad"  # the text is no recording
    UNDECIDED = "undecided"  # the steps of the judge were used up, or a value was too high


class Sign(enum.Enum):
    """What a claim that doesn't hold speaks of."""

    TASK = "a task that can't go on there"
    CONDITION = "a false condition"
    STEPS = "other steps"
    LOCATION = "a new location"
    ANSWER = "a device's answer"
    READ = "a value read"
    WROTE = "a value written"
    PRINT = "an integer printed"
    STARTS = "a task started"
    CALL = "a call of a device"
    OUTPUT = "the output"
    HEARD = "the calls that a device heard"
    FINISHED = "finished, with tasks left"
    BLOCKED = "blocked, and a task could go on"
    TALL = "no value nested too deeply"
    STORE = "the store"
    OUTCOME = "an outcome that isn't allowed"
    CRASH = "no recording"
    TIME = "no end in time"
    TEXT = "no line of a recording"
    LIMIT = "steps of the judge used up"


@dataclass
class Reason:
    """Why a recording isn't valid: the place in it, and details, a line each."""

    sign: Sign
    line: int
    column: int
    problem: str
    details: List[str] = field(default_factory=list)


class Failure(Exception):
    """A claim doesn't hold."""

    def __init__(self, reason):
        super().__init__(reason.problem)
        self.reason = reason


@dataclass
class Answer:
    """The verdict on a recording, with how many entries were judged, what they print, and the end that is claimed."""

    verdict: Verdict
    name: str
    line: int  # where the recording begins
    entries: int = 0
    output: List[int] = field(default_factory=list)
    end: Optional[lines.End] = None
    reason: Optional[Reason] = None
    is_cut: bool = False

    def claimed_end(self):
        """Returns the end as its line has it, or None."""
        if self.end is None:
            return None
        return self.end.verdict if self.end.number is None else f"{self.end.verdict} {self.end.number}"

    def text(self):
        """Returns the answer for a reader, without a line feed at its end."""
        if self.verdict is Verdict.VALID:
            end = f"end {self.claimed_end()}" if self.end else "no end"
            cut = ", the last line isn't whole and was left out" if self.is_cut else ""
            return f"{self.name}:{self.line}: valid, entries: {self.entries}, integers: {len(self.output)}, {end}{cut}"
        reason = self.reason
        head = f"{self.name}:{reason.line}:{reason.column}: {self.verdict.value}: {reason.problem}"
        return "\n".join([head, *(f"    {detail}" for detail in reason.details)])

    def json(self):
        """Returns the answer as one line of JSON."""
        found = {"name": self.name, "verdict": self.verdict.value, "begins": self.line, "entries": self.entries, "output": self.output,
                 "end": self.claimed_end(), "cut": self.is_cut}
        if self.reason:
            found.update(line=self.reason.line, column=self.reason.column, sign=self.reason.sign.value,
                         problem=self.reason.problem, details=self.reason.details)
        return json.dumps(found)
