"""Runs a command on a program and a seed, and judges the recording that it writes."""
import os
import signal
import subprocess
import time
from dataclasses import dataclass
from io import BytesIO
from typing import FrozenSet, Optional

from . import judging, lines, source
from .answers import Answer, Reason, Sign, Verdict

SEED = "CONFORM_SEED"
MOST_ERROR_LINES = 12


@dataclass(frozen=True)
class Case:
    """A program, a seed, and the outcomes that are allowed, where they are known."""

    name: str
    text: bytes
    seed: int
    outcomes: Optional[FrozenSet] = None


@dataclass
class Result:
    """The answer on a run, and its recording."""

    case: Case
    answer: Answer
    recording: bytes
    seconds: float = 0

    def fails(self):
        return self.answer.verdict in (Verdict.INVALID, Verdict.BAD)


class Command:
    """A runtime as a command: program on standard input, seed in CONFORM_SEED, recording on standard output."""

    def __init__(self, words, seconds, settings):
        self.words, self.seconds, self.settings = words, seconds, settings

    def run(self, case, seconds=None):
        """Returns the result of a run. The command's processes are killed after the time of the command, or after fewer seconds."""
        begun, seconds = time.monotonic(), min(seconds or self.seconds, self.seconds)
        process = subprocess.Popen(self.words, stdin=subprocess.PIPE, stdout=subprocess.PIPE, stderr=subprocess.PIPE,
                                   env={**os.environ, SEED: str(case.seed)}, start_new_session=True)
        try:
            recording, error = process.communicate(case.text, seconds)
            end = how_it_ended(process.returncode)
        except subprocess.TimeoutExpired:
            os.killpg(process.pid, signal.SIGKILL)
            recording, error = process.communicate()
            end = Reason(Sign.TIME, 1, 1, f"killed after {seconds:g} seconds")
        if end:
            end.details += [line for line in error.decode("utf-8", "replace").splitlines()][-MOST_ERROR_LINES:]
        seconds = time.monotonic() - begun
        return Result(case, answered(case, recording, end, self.settings), recording, seconds)


def how_it_ended(status):
    """Returns the reason where a command didn't end well."""
    if status == 0:
        return None
    what = f"ended by signal {-status}" if status < 0 else f"ended with status {status}"
    return Reason(Sign.CRASH, 1, 1, f"the command {what}")


def answered(case, recording, end, settings):
    """Judges a recording, and then how the command ended, unless the recording has its end, and the outcome."""
    lines_of_it = source.Source(BytesIO(recording), case.name)
    answer, judged = judging.judge(lines_of_it, settings)
    if answer is None or not recording.startswith(source.HEAD):
        reason = end or Reason(Sign.CRASH, 1, 1, "the command wrote no recording", [f"found: {lines.shown(recording) or 'nothing'}"])
        return Answer(Verdict.INVALID, case.name, 1, reason=reason)
    if judged and judged.state.places.text != case.text:
        reason = Reason(Sign.TEXT, 1, 1, "the recording has another program", ["expected: the bytes of the standard input"])
        return Answer(Verdict.BAD, case.name, 1, reason=reason)
    reason = end if end and (answer.end is None or end.sign is Sign.TIME) else None
    if answer.verdict is Verdict.VALID:
        reason = reason or other_outcome(case, answer)
    if reason and answer.verdict is not Verdict.INVALID:
        answer.verdict, answer.reason = Verdict.INVALID, reason
    return answer


def other_outcome(case, answer):
    """Returns a reason where the integers and the end aren't an outcome that is allowed."""
    outcome = tuple(answer.output), answer.claimed_end()
    if case.outcomes is None or answer.end is None or answer.end.verdict == "spent" or outcome in case.outcomes:
        return None
    allowed = "; or ".join(shown(each) for each in sorted(case.outcomes))
    return Reason(Sign.OUTCOME, answer.end.line, 1, "this outcome isn't allowed", [f"found: {shown(outcome)}", f"expected: {allowed}"])


def shown(outcome):
    return " ".join([*map(str, outcome[0]), outcome[1]])
