"""The least program that fails, for a failing run of a command."""
from dataclasses import dataclass

from . import programs, running, shrinking

SEEDS = 3


@dataclass
class Least:
    """A result whose program can't be made smaller, and how many runs it took."""

    result: running.Result
    runs: int


class Trials:
    """Runs programs under a failing run's seed and the next ones, and keeps the last failure of each. One with another sign doesn't count:
    a cut may make a loop without an end, with which each runtime is killed."""

    def __init__(self, command, first, seeds):
        self.command, self.case, self.seeds, self.runs, self.failed = command, first.case, seeds, 0, {}
        self.sign, self.seconds = first.answer.reason.sign, max(1.0, 5 * first.seconds)

    def fails(self, text):
        """Returns whether a program fails under one of the seeds."""
        for seed in range(self.case.seed, self.case.seed + self.seeds):
            self.runs += 1
            result = self.command.run(running.Case(self.case.name, text, seed), self.seconds)
            if result.fails() and result.answer.reason.sign is self.sign:
                self.failed[text] = result
                return True
        return False


def of(command, result, seeds=SEEDS):
    """Returns the least program of a result that fails. Each cut is typed again, and run under the result's seed and the next ones.

    The outcomes of a litmus program aren't those of its cuts, so a result that fails by its outcome alone isn't made smaller.
    """
    trials = Trials(command, result, seeds)
    if not trials.fails(result.case.text):
        return Least(result, trials.runs)
    least = shrinking.Shrinker(trials.fails).shrink(programs.read(result.case.text))
    text = programs.show(least).encode()
    return Least(trials.failed.get(text, trials.failed[result.case.text]), trials.runs)
