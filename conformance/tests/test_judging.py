"""Each claim of a recording holds, or is answered with its place and a reason."""
import unittest

from parts.answers import Sign, Verdict
from parts import certificates, judging
from tests import common
from tests.common import answers, judged, recording

FIRST = "(do (async (print 2)) (print 1))"
CELL = "(let r (ref p 3) (do (async (set r (+ (get r) 1))) (async (print (get r)))))"
OUTSIDE = "(let r (ref p 7) (unprotected (do (print (peek r)) (print (call 1 5)))))"
WAITING = "(let r (ref p 0) (do (async (blockUntil (= (get r) 1))) (async (set r 1))))"
PAIR = "(let r (ref p (pair 1 (ref p true))) (async (print (fst (get r)))))"


class Valid(unittest.TestCase):
    def check(self, program, *lines):
        answer, judging_ = judged(recording(program, *lines))
        self.assertIs(answer.verdict, Verdict.VALID, answer.text())
        return answer, judging_

    def test_steps_and_locations_are_filled_in(self):
        _, judging_ = self.check(CELL, "ran 0 0 _ _", "ran 0 2 _ _", "ran 0 1 _", "end finished")
        self.assertEqual(certificates.of(judging_.state), b"ran 0 0 5 0\nran 0 2 2\nran 0 1 3\nprogram\n" + CELL.encode())

    def test_unprotected_code_makes_one_act_a_line(self):
        _, judging_ = self.check(OUTSIDE, "ran 0 0 _ _", "free 1 0 _", "free 1 0 _", "free 1 0 _", "  call 1 5 = 5", "free 1 0 _", "free 1 0 _",
                                 "ran 1 0 _", "end finished")
        self.assertEqual(certificates.of(judging_.state).split(b"program")[0],
                         b"ran 0 0 2 0\nfree 1 0 1\nfree 1 0 1\nfree 1 0 2 = 5\nfree 1 0 1\nfree 1 0 1\nran 1 0 0\n")

    def test_all_observations(self):
        self.check(CELL, "all read wrote print starts call output heard store", "ran 0 0 _ 9", "  starts 1", "  starts 2", "ran 0 1 3", "  read 9 3",
                   "  wrote 9 4", "ran 0 2 _", "  read _ 4", "  print 4", "output 4", "store 9 4", "end finished")

    def test_observations_may_have_gaps(self):
        self.check(CELL, "ran 0 0 _ 9", "  starts 2", "ran 0 1 3", "  wrote 9 _", "end spent")

    def test_a_location_gets_its_number_by_the_first_observation(self):
        _, judging_ = self.check(CELL, "all read", "ran 0 0 _ _", "ran 0 1 _", "  read 77 3", "ran 0 2 _", "  read 77 4", "store 77 4", "end finished")
        self.assertTrue(certificates.of(judging_.state).startswith(b"ran 0 0 5 77\n"))

    def test_with_gaps_no_location_gets_a_number(self):
        self.check("(let a (ref p 0) (let b (ref p 0) (async (do (print (get a)) (print (get b))))))", "ran 0 0 _ _", "ran 0 1 _", "  read 5 0", "end finished")

    def test_values(self):
        self.check(PAIR, "ran 0 0 _ 4 5", "ran 0 1 _", "  read 5 (pair 1 @4)", "store 5 (pair _ @_)", "store 4 true", "end finished")
        self.check("(let f (ref p (fn a (x Int) x)) (async (print (app (get f) 2))))", "ran 0 0 _ 0", "ran 0 1 _", "  read 0 fn", "end finished")
        self.check("(let f (ref p unit) (async (set f (get f))))", "ran 0 0 _ 0", "ran 0 1 _", "  read 0 unit", "  wrote 0 unit", "end finished")

    def test_notes(self):
        _, judging_ = self.check(WAITING, "all read", "ran 0 0 _ _", "stuck 0 1 _", "cut 0 2 _", "ran 0 2 _", "ran 0 1 _", "  read 0 1", "end finished")
        self.assertIn(b"stuck 0 1 2\ncut 0 2 0\n", certificates.of(judging_.state))

    def test_a_cut_goes_as_far_as_what_it_observed(self):
        _, judging_ = self.check(CELL, "ran 0 0 _ 0", "cut 0 1 _", "  read 0 3", "end spent")
        self.assertIn(b"cut 0 1 1\n", certificates.of(judging_.state))

    def test_blocked_gets_a_witness_a_task(self):
        answer, judging_ = self.check(WAITING.replace("(set r 1)", "(blockUntil (= (get r) 5))"), "ran 0 0 _ _", "end blocked 2")
        self.assertIn(b"stuck 0 1 2\nstuck 0 2 2\nprogram\n", certificates.of(judging_.state))
        self.assertEqual(answer.claimed_end(), "blocked 2")

    def test_tall(self):
        tall = "(app (rec p f (g (Fun a Unit Unit)) Unit (app f (fn a (x Unit) (app g x)))) (fn a (x Unit) x))"
        self.check(tall, "end tall 0")
        self.check(tall, "tall 0 0 2001", "end spent")
        self.assertIs(judged(recording(tall, "ran 0 0 _"))[0].verdict, Verdict.UNDECIDED)

    def test_output_may_come_before_or_after_its_line(self):
        self.check(FIRST, "output 1", "ran 0 0 _", "output 2", "ran 0 1 _", "end finished")

    def test_devices(self):
        self.check(OUTSIDE, "all heard", "ran 0 0 _ _", "free 0 0 _", "free 0 0 _", "heard 1 5 = 5", "free 0 0 _ = 5", "free 0 0 _", "free 0 0 _",
                   "ran 0 0 _", "end finished")

    def test_a_crash_leaves_what_was_seen(self):
        whole = recording(CELL, "all read wrote", "ran 0 0 _ 9", "ran 0 1 3", "  read 9 3", "  wrote 9 4")
        for length in range(len(whole)):
            for answer in answers(whole[:length]):
                self.assertIn(answer.verdict, (Verdict.VALID, Verdict.BAD) if length < 90 else (Verdict.VALID,), answer.text())
        self.assertTrue(judged(whole[:-1])[0].is_cut)

    def test_a_stream_has_recordings_one_after_another(self):
        whole = recording(FIRST, "ran 0 0 _") + recording(FIRST, "nonsense", "ran 0 0 0") + recording(FIRST, "ran 0 1 _", "end finished") + recording(FIRST)
        found = answers(whole)
        self.assertEqual([each.verdict.value for each in found], ["valid", "bad", "invalid", "valid"])
        self.assertEqual([each.line for each in found], [1, 5, 9, 13])

    def test_a_loop_without_an_end_is_undecided(self):
        loop = "(app (rec p f (x Unit) Unit (app f x)) unit)"
        self.assertIs(judged(recording(loop, "ran 0 0 _"), judging.Settings(1000))[0].verdict, Verdict.UNDECIDED)
        self.assertIs(judged(recording(loop, "end blocked 1"), judging.Settings(1000))[0].verdict, Verdict.UNDECIDED)
        self.assertIs(judged(recording(loop, "end spent"), judging.Settings(1000))[0].verdict, Verdict.VALID)


class Invalid(unittest.TestCase):
    """A table of claims that don't hold: the program, the lines, the sign, the place, and words of the answer."""

    TABLE = [
        (CELL, ["ran 0 1 _"], Sign.TASK, "3:7", "isn't started"),
        (CELL, ["ran 0 0 _ _", "ran 0 0 _"], Sign.TASK, "4:7", "has ended by line 3"),
        (CELL, ["free 0 0 1"], Sign.TASK, "3:1", "isn't in unprotected code"),
        (OUTSIDE, ["ran 0 0 _ _", "ran 0 0 _"], Sign.TASK, "4:1", "is in unprotected code"),
        (CELL, ["ran 0 0 3 0"], Sign.STEPS, "3:9", "after 3 steps it is at 1:18"),
        (CELL, ["ran 0 0 6 0"], Sign.STEPS, "3:9", "after 5 steps it is at its end"),
        (CELL, ["ran 0 0 5"], Sign.LOCATION, "3:10", "makes one location more"),
        (CELL, ["ran 0 0 5 0 1"], Sign.LOCATION, "3:13", "fewer new locations"),
        ("(let a (ref p 1) (let b (ref p 2) unit))", ["ran 0 0 4 7 7"], Sign.LOCATION, "3:13", "location 7 exists"),
        (WAITING, ["ran 0 0 _ _", "ran 0 1 _"], Sign.CONDITION, "4:9", "it read location _ = 0 at 1:44, written by line 3"),
        (WAITING, ["ran 0 0 _ _", "stuck 0 2 _"], Sign.STEPS, "4:11", "to a condition that is false"),
        (CELL, ["all read", "ran 0 0 _ 0", "ran 0 1 _", "  read 0 4"], Sign.READ, "6:3", "expected: read 0 3, at 1:39, written by line 4"),
        (CELL, ["ran 0 0 _ 0", "ran 0 1 _", "  read 0 4"], Sign.READ, "5:3", "expected: read 0 3"),
        (CELL, ["ran 0 0 _ 0", "ran 0 1 _", "  read 1 3"], Sign.READ, "5:3", "found: read 1 3"),
        (CELL, ["ran 0 0 _ 0", "ran 0 1 _", "  wrote 0 5"], Sign.WROTE, "5:3", "expected: wrote 0 4"),
        (CELL, ["ran 0 0 _ 0", "ran 0 2 _", "  print 5"], Sign.PRINT, "5:3", "expected: print 3"),
        (CELL, ["ran 0 0 _ 0", "  starts 3"], Sign.STARTS, "4:3", "expected: starts 1"),
        (CELL, ["all starts", "ran 0 0 _ 0", "  starts 1", "ran 0 1 _"], Sign.STARTS, "4:1", "no further observation"),
        (CELL, ["all read wrote", "ran 0 0 _ 0", "ran 0 1 _", "  wrote 0 4", "end spent"], Sign.READ, "6:3", "does something else first"),
        (CELL, ["ran 0 0 _ 0", "ran 0 1 _", "  wrote 0 4", "  read 0 3"], Sign.READ, "6:3", "expected: read 0 3"),
        (OUTSIDE, ["ran 0 0 _ _", "free 0 0 _", "free 0 0 _", "free 0 0 _"], Sign.ANSWER, "6:10", "the answer is missing"),
        (OUTSIDE, ["ran 0 0 _ _", "free 0 0 5 = 5"], Sign.ANSWER, "4:10", "only in the last step"),
        (OUTSIDE, ["ran 0 0 _ _", "free 0 0 1 = 5"], Sign.ANSWER, "4:10", "calls no device"),
        (OUTSIDE, ["ran 0 0 _ _", "free 0 0 4 = 5", "  call 1 6 = 5"], Sign.CALL, "5:3", "expected: call 1 5 = 5"),
        (OUTSIDE, ["ran 0 0 _ _", "free 0 0 4 = 6"], Sign.HEARD, "4:1", "expected: 5, the sum"),
        (OUTSIDE, ["ran 0 0 _ _", "heard 1 5 = 5", "heard 1 5 = 10", "free 0 0 4 = 5", "end spent"], Sign.HEARD, "5:7", "made by no entry"),
        (OUTSIDE, ["all heard", "ran 0 0 _ _", "free 0 0 4 = 5", "end spent"], Sign.HEARD, "6:1", "wasn't heard"),
        (FIRST, ["output 2", "ran 0 0 _"], Sign.OUTPUT, "3:8", "expected: 1, which line 4 prints"),
        (FIRST, ["output 1", "output 1", "ran 0 0 _", "end spent"], Sign.OUTPUT, "4:8", "printed by no entry"),
        (FIRST, ["all output", "ran 0 0 _", "end spent"], Sign.OUTPUT, "5:1", "line 4 prints 1"),
        (FIRST, ["ran 0 0 _", "end finished"], Sign.FINISHED, "4:5", "task 1 (started by line 3, 1:5) could go on"),
        (WAITING, ["ran 0 0 _ _", "end blocked 2"], Sign.BLOCKED, "4:5", "task 2 (started by line 3, 1:57) could go on"),
        (WAITING, ["ran 0 0 _ _", "ran 0 2 _", "end blocked 1"], Sign.BLOCKED, "5:5", "it read location _ = 1"),
        (WAITING, ["end tall 0"], Sign.TALL, "3:1", "to a form whose value"),
        (CELL, ["ran 0 0 _ 0", "store 0 4"], Sign.STORE, "4:9", "expected: 3, written by line 3"),
        (CELL, ["ran 0 0 _ 0", "store 1 3"], Sign.STORE, "4:7", "was never made"),
        (CELL, ["all store", "ran 0 0 _ 0", "end spent"], Sign.STORE, "5:1", "location 0 is missing"),
        (CELL, ["ran 0 0 _ 0", "store 0 true"], Sign.STORE, "4:9", "found: true"),
    ]

    def test_table(self):
        for program, lines, sign, place, words in self.TABLE:
            with self.subTest(program=program, lines=lines):
                answer, _ = judged(recording(program, *lines))
                self.assertIs(answer.verdict, Verdict.INVALID, answer.text())
                self.assertIs(answer.reason.sign, sign, answer.text())
                self.assertEqual(f"{answer.reason.line}:{answer.reason.column}", place, answer.text())
                self.assertIn(words, answer.text())
                self.assertTrue(answer.json())

    def test_other_devices_answer_what_they_want(self):
        answer, _ = judged(recording(OUTSIDE, "ran 0 0 _ _", "free 0 0 4 = 6"), judging.Settings())
        self.assertIs(answer.verdict, Verdict.VALID, answer.text())
        self.assertIsNotNone(common.SETTINGS)


if __name__ == "__main__":
    unittest.main()
