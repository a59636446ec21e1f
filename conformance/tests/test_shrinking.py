"""Shrinking ends at a program of which nothing can be left out or made smaller, in some 200 runs."""
import unittest

from parts import programs, running, shrinking
from tests import common
from tests.common import generated, recorded

SEEDS = 3


class Counted:
    """Runs a runtime with a bug on programs, and counts the runs."""

    def __init__(self, bug, seed):
        self.bug, self.seed, self.runs, self.sign = bug, seed, 0, None

    def answer(self, text, seed):
        self.runs += 1
        case = running.Case("x", text, seed)
        return running.answered(case, recorded(text, seed, self.bug), None, common.SETTINGS)

    def fails(self, text):
        for seed in range(self.seed, self.seed + SEEDS):
            reason = self.answer(text, seed).reason
            if reason and (self.sign or reason.sign) is reason.sign:
                self.sign = reason.sign
                return True
        return False


def all_cuts(tree):
    for path in shrinking.paths(tree, ()):
        yield from shrinking.cuts(tree, path)


class Shrinking(unittest.TestCase):
    def test_nothing_can_be_left_out(self):
        runs, lines, before = [], [], []
        for bug in ("no-validation", "dirty-read", "dropped-child", "forgotten-write", "lost-undo", "late-line"):
            found, seed = 0, 0
            while found < common.count(1, 8) and seed < 600:
                seed += 1
                text = generated(seed, tasks=6, statements=6)
                counted = Counted(bug, seed)
                if not 34 <= text.count(b"\n") <= 46 or not counted.fails(text):
                    continue
                found, counted.runs = found + 1, 0
                least = shrinking.Shrinker(counted.fails).shrink(programs.read(text))
                runs.append(counted.runs)
                lines.append(programs.show(least).count("\n"))
                before.append(text.count(b"\n"))
                self.assertTrue(counted.fails(programs.show(least).encode()))
                for cut in all_cuts(least):
                    smaller = programs.show(cut).encode()
                    self.assertFalse(programs.accepted(smaller) and counted.fails(smaller), smaller.decode())
        print(f"\n{len(runs)} programs of {sum(before) / len(before):.0f} lines: {sum(runs) / len(runs):.0f} runs (at most {max(runs)}), "
              f"{sum(lines) / len(lines):.1f} lines at the end (at most {max(lines)})")
        self.assertLessEqual(sum(runs) / len(runs), 200)

    def test_cuts_become_smaller(self):
        """So shrinking ends: a cut has fewer atoms, or as many and a lesser number or a constant in the place of a word."""
        for seed in range(30):
            tree = programs.read(generated(seed))
            for cut in all_cuts(tree):
                self.assertLess(weight(cut), weight(tree), programs.flat(cut))


def weight(tree):
    """Returns a measure of a program: atoms first, names and words next, numbers last."""
    if isinstance(tree, tuple):
        parts = [weight(part) for part in tree]
        return tuple(map(sum, zip(*parts))) if parts else (0, 0, 0)
    if isinstance(tree, int):
        return 1, 0, 2 * abs(tree) + (tree < 0)
    return 1, 0 if tree in shrinking.CONSTANTS else 1, 0


if __name__ == "__main__":
    unittest.main()
