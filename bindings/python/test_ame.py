"""Tests of ame.py: each status that is easily had, and room that is too small at first."""
import unittest

import ame

TEXT = b"(do (async (print 1)) (print 2))"
PROGRAM = b"program\n" + TEXT


class Checks(unittest.TestCase):
    def test_a_valid_certificate(self) -> None:
        self.assertEqual(ame.check(b"ran 0 0 3\nran 0 1 1\n" + PROGRAM), (ame.Status.VALID, 2, b"2\n1\nvalid 2\n"))

    def test_other_certificates(self) -> None:
        self.assertEqual(ame.check(b"ran 0 0 2\n" + PROGRAM)[:2], (ame.Status.INVALID, 1))
        self.assertEqual(ame.check(b"ran 0 0\n" + PROGRAM)[:2], (ame.Status.BAD_JOURNAL, 1))
        self.assertEqual(ame.check(b"program\n(print unit)"), (ame.Status.ILL_TYPED, 7, b"types: rule 1 at 7\n"))
        self.assertEqual(ame.check(b" " * 1_048_577), (ame.Status.REFUSED, 0, b"refused: too long\n"))

    def test_long_lines(self) -> None:
        judged = ame.check(b"ran 0 0 1999\nprogram\n(do " + b"(print 1000000) " * 1000 + b")")
        self.assertEqual(len(judged.lines), 8000 + len(b"valid 1\n"))


class Types(unittest.TestCase):
    def test_texts(self) -> None:
        self.assertIsNone(ame.types(TEXT))
        self.assertEqual(ame.types(b"(print unit)"), (ame.Status.ILL_TYPED, 1, 7))
        self.assertEqual(ame.types(b"(print 1"), (ame.Status.REFUSED, 0, 8))


class Runs(unittest.TestCase):
    def test_a_run_and_its_repetition(self) -> None:
        run = ame.sim(TEXT, 3, ame.Limits(workers=2))
        self.assertEqual((run.status, run.number), (ame.Status.FINISHED, 0))
        self.assertEqual(run.schedule, run.lines.splitlines(True)[-1] + PROGRAM)
        self.assertEqual(ame.check(run.certificate).lines, b"2\n1\nvalid 2\n")
        self.assertEqual(ame.replay(run.schedule, ame.Limits(workers=2)), run)

    def test_a_weak_run(self) -> None:
        run = ame.weak(TEXT, 3)
        self.assertEqual((run.status, run.schedule), (ame.Status.FINISHED, b""))
        self.assertEqual(ame.check(run.certificate).status, ame.Status.VALID)

    def test_other_runs(self) -> None:
        self.assertEqual(ame.sim(b"(blockUntil false)", 0)[:3], (ame.Status.BLOCKED, 1, b"blocked 1\nschedule 0000\n"))
        self.assertEqual(ame.sim(b"(print unit)", 0)[:4], (ame.Status.ILL_TYPED, 7, b"types: rule 1 at 7\n", b""))
        self.assertEqual(ame.sim(TEXT, 65_537), (ame.Status.USAGE, 0, b"usage\n", b"", b""))
        self.assertEqual(ame.weak(TEXT, 0, 0)[:3], (ame.Status.USAGE, 0, b"usage\n"))
        self.assertEqual(ame.replay(TEXT)[:3], (ame.Status.BAD_SCHEDULE, 0, b"bad schedule\n"))

    def test_long_texts(self) -> None:
        run = ame.sim(b"(do " + b"(print 1000000) " * 1000 + b")", 0)
        self.assertEqual(len(ame.check(run.certificate).lines), 8000 + len(b"valid 1\n"))


if __name__ == "__main__":
    unittest.main()
