"""The table of litmus programs has all outcomes of each, and no other."""
import unittest

from parts import exploring, litmus, running
from parts.answers import Sign, Verdict
from tests import common
from tests.common import recorded


def answers(calls):
    """Returns what the devices of docs/LANGUAGE.md answer to the last call."""
    mine = [argument for device, argument in calls if device == calls[-1][0]]
    return len(mine) if calls[-1][0] == 0 else sum(mine)


class Outcomes(unittest.TestCase):
    def test_each_outcome_and_no_other(self):
        for each in litmus.read():
            if each.name != "barrier" or common.IS_LONG:
                self.assertEqual(exploring.outcomes(each.text, answers), each.outcomes, each.name)

    def test_the_runtime_reaches_allowed_outcomes_alone(self):
        for each in litmus.read():
            for seed in range(common.count(5, 100)):
                case = running.Case(each.name, each.text, seed, each.outcomes)
                answer = running.answered(case, recorded(each.text, seed), None, common.SETTINGS)
                self.assertIs(answer.verdict, Verdict.VALID, answer.text())

    def test_another_outcome_is_shown(self):
        each = next(each for each in litmus.read() if each.name == "dirty_read")
        case = running.Case(each.name, each.text, 1, frozenset([((5,), "finished")]))
        answer = running.answered(case, recorded(each.text, 1), None, common.SETTINGS)
        self.assertIs(answer.reason.sign, Sign.OUTCOME)
        self.assertIn("expected: 5 finished", answer.text())


if __name__ == "__main__":
    unittest.main()
