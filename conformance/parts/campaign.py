"""A campaign: litmus programs, examples and random programs, each run by a command and judged."""
import collections
import os
import sys
import time
from concurrent.futures import ThreadPoolExecutor

from . import generating, litmus, strong
from .answers import Verdict
from .running import Case

# The examples that end in each interleaving, with any budget.
EXAMPLES = ("alone arithmetic between blocked counter device first functions loop outside pairs shared spawns transfer waiting wide").split()
WINDOW = 64  # the runs that are under way or wait for their turn to be counted


def litmus_cases(seeds):
    """Yields each litmus program under each seed."""
    for each in litmus.read():
        yield from (Case(f"litmus {each.name}", each.text, seed, each.outcomes) for seed in seeds)


def example_cases(seeds):
    """Yields the examples of the repository, where they are there."""
    for name in EXAMPLES:
        path = os.path.join(strong.TOP, "examples", f"{name}.ame")
        if os.path.exists(path):
            with open(path, "rb") as file:
                text = file.read()
            yield from (Case(f"example {name}", text, seed) for seed in seeds)


def random_cases(first, last, knobs):
    """Yields a random program for each seed, run under the same seed."""
    for seed in range(first, last + 1):
        yield Case(f"random {seed}", generating.program(seed, knobs).encode(), seed)


class Progress:
    """Shows on a terminal how far a campaign is."""

    def __init__(self, total):
        self.total, self.begun, self.shown, self.is_shown = total, time.monotonic(), 0.0, sys.stderr.isatty()

    def show(self, done, failed):
        now = time.monotonic()
        if self.is_shown and (now - self.shown > 0.2 or done == self.total):
            left = (now - self.begun) / done * (self.total - done)
            sys.stderr.write(f"\r{done} of {self.total} runs, {failed} failed, about {left:.0f} s left \x1b[K")
            self.shown = now

    def end(self):
        if self.is_shown:
            sys.stderr.write("\r\x1b[K")


def results(command, cases, jobs):
    """Yields the result of each case, in their order, with so many commands in parallel."""
    with ThreadPoolExecutor(jobs) as pool:
        waiting = collections.deque()
        for case in cases:
            waiting.append(pool.submit(command.run, case))
            if len(waiting) > WINDOW:
                yield waiting.popleft().result()
        while waiting:
            yield waiting.popleft().result()


class Tally:
    """What came of the runs."""

    def __init__(self):
        self.runs, self.entries, self.failures, self.undecided, self.kinds, self.ends = 0, 0, [], 0, collections.Counter(), collections.Counter()

    def add(self, result):
        self.runs += 1
        self.entries += result.answer.entries
        self.kinds[result.case.name.split()[0]] += 1
        self.undecided += result.answer.verdict is Verdict.UNDECIDED
        if result.fails():
            self.failures.append(result)
        elif result.answer.end:
            self.ends[result.answer.end.verdict] += 1

    def text(self):
        """Returns a summary, with the first failure of each kind of program."""
        kinds = ", ".join(f"{kind}: {count}" for kind, count in self.kinds.items())
        lines = [f"runs: {self.runs} ({kinds}); entries: {self.entries}; failed: {len(self.failures)}; undecided: {self.undecided}"]
        for kind in self.kinds:
            failed = [result for result in self.failures if result.case.name.split()[0] == kind]
            if failed:
                lines.append(f"failed, {kind}: {len(failed)}, the first is {failed[0].case.name} under seed {failed[0].case.seed}")
        names = collections.Counter(result.case.name for result in self.failures if not result.case.name.startswith("random "))
        if names:
            lines.append("failed by name: " + ", ".join(f"{name} {count}" for name, count in names.items()))
        return "\n".join(lines)
