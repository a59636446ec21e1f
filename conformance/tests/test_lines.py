"""Bad recordings get the line and the column of what can't be read, and what is expected there; never a traceback."""
import random
import unittest

from parts.answers import Verdict
from tests import common
from tests.common import answers, generated, judged, recorded, recording

P = "(let r (ref p 3) (async (set r 1)))"
HEAD = b"program %d\n%s\n" % (len(P), P.encode())

# What stands after the program, the place, and words of what is expected.
AFTER_PROGRAM = [
    ("run 0 0 _", "3:1", "a line that begins with ran"),
    ("RAN 0 0 _", "3:1", "a line that begins with ran"),
    ("", "3:1", "a line that begins with ran"),
    ("\t", "3:1", "a line that begins with ran"),
    ("ran", "3:4", "a seat, 0 to 31"),
    ("ran ", "3:5", "a seat, 0 to 31"),
    ("ran  0 0 _", "3:5", "a seat, 0 to 31"),
    ("ran 32 0 _", "3:5", "a seat, 0 to 31"),
    ("ran -1 0 _", "3:5", "a seat, 0 to 31"),
    ("ran _ 0 _", "3:5", "a seat, 0 to 31"),
    ("ran 0", "3:6", "below 2^64"),
    ("ran 0 x _", "3:7", "below 2^64"),
    ("ran 0 _ _", "3:7", "below 2^64"),
    ("ran 0 00 _", "3:7", "without leading zeros"),
    ("ran 0 01 _", "3:7", "without leading zeros"),
    ("ran 0 -1 _", "3:7", "below 2^64"),
    ("ran 0 +1 _", "3:7", "below 2^64"),
    ("ran 0 1.0 _", "3:7", "below 2^64"),
    ("ran 0 18446744073709551616 _", "3:7", "below 2^64"),
    ("ran 0 99999999999999999999999999 _", "3:7", "below 2^64"),
    ("ran 0 0", "3:8", "below 2^64, or _"),
    ("ran 0 0 ", "3:9", "below 2^64, or _"),
    ("ran 0 0 __", "3:9", "below 2^64, or _"),
    ("ran 0 0 05", "3:9", "without leading zeros"),
    ("ran 0 0 18446744073709551616", "3:9", "below 2^64, or _"),
    ("ran 0 0 4 ", "3:11", "a location below 2^32"),
    ("ran 0 0 4  0", "3:11", "a location below 2^32"),
    ("ran 0 0 4 0 ", "3:13", "a location below 2^32"),
    ("ran 0 0 4 0 _", "3:13", "a location below 2^32"),
    ("ran 0 0 4 _ 0", "3:13", "the end of the line"),
    ("ran 0 0 4 _ _", "3:13", "the end of the line"),
    ("ran 0 0 4 @0", "3:11", "a location below 2^32"),
    ("ran 0 0 4 4294967296", "3:11", "a location below 2^32"),
    ("ran 0 0 4 0 = 5", "3:13", "in a `free` line only"),
    ("ran 0 0 4 = 5", "3:11", "in a `free` line only"),
    ("stuck 0 0 4 0 = 5", "3:15", "in a `free` line only"),
    ("ran 0 0 4 0\r", "3:11", "a location below 2^32"),
    ("ran 0 0 4 0 ; comment", "3:13", "a location below 2^32"),
    ("ran\t0 0 4 0", "3:1", "a line that begins with ran"),
    ("free 0 0 1 =", "3:13", "a 64-bit integer"),
    ("free 0 0 1 = ", "3:14", "a 64-bit integer"),
    ("free 0 0 1 = -0", "3:14", "a 64-bit integer"),
    ("free 0 0 1 = 05", "3:14", "a 64-bit integer"),
    ("free 0 0 1 = +5", "3:14", "a 64-bit integer"),
    ("free 0 0 1 = 9223372036854775808", "3:14", "a 64-bit integer"),
    ("free 0 0 1 = -9223372036854775809", "3:14", "a 64-bit integer"),
    ("free 0 0 1 = 5 6", "3:16", "the end of the line"),
    ("free 0 0 1 = _", "3:14", "a 64-bit integer"),
    ("free 0 0 1 =5", "3:12", "a location below 2^32"),
    (" read 0 3", "3:1", "two spaces before an observation"),
    ("   read 0 3", "3:1", "two spaces before an observation"),
    ("  read 0 3", "3:3", "an observation only below an entry"),
    ("output 1\n  print 1", "4:3", "an observation only below an entry"),
    ("ran 0 0 _ _\n read 0 3", "4:1", "two spaces"),
    ("ran 0 0 _ _\n  ", "4:3", "read, wrote, print, starts or call"),
    ("ran 0 0 _ _\n  reads 0 3", "4:3", "read, wrote, print, starts or call"),
    ("ran 0 0 _ _\n  read", "4:7", "below 2^32 or _"),
    ("ran 0 0 _ _\n  read 0", "4:9", "a value"),
    ("ran 0 0 _ _\n  read 0 ", "4:10", "a value"),
    ("ran 0 0 _ _\n  read @0 3", "4:8", "below 2^32 or _"),
    ("ran 0 0 _ _\n  read 00 3", "4:8", "below 2^32 or _"),
    ("ran 0 0 _ _\n  read 0 03", "4:10", "a value"),
    ("ran 0 0 _ _\n  read 0 3 4", "4:10", "a value"),
    ("ran 0 0 _ _\n  read 0 True", "4:10", "a value"),
    ("ran 0 0 _ _\n  read 0 @", "4:10", "a value"),
    ("ran 0 0 _ _\n  read 0 @01", "4:10", "a value"),
    ("ran 0 0 _ _\n  read 0 @4294967296", "4:10", "a value"),
    ("ran 0 0 _ _\n  read 0 9223372036854775808", "4:10", "a value"),
    ("ran 0 0 _ _\n  read 0 (pair 1)", "4:17", "a value"),
    ("ran 0 0 _ _\n  read 0 (pair 1 2", "4:19", "a value"),
    ("ran 0 0 _ _\n  read 0 (pair 1 2))", "4:20", "a value"),
    ("ran 0 0 _ _\n  read 0 (pair  1 2)", "4:16", "a value"),
    ("ran 0 0 _ _\n  read 0 (pair x 2)", "4:16", "a value"),
    ("ran 0 0 _ _\n  read 0 (1 2)", "4:10", "a value"),
    ("ran 0 0 _ _\n  read 0 (fn a (x Int) x)", "4:10", "a value"),
    ("ran 0 0 _ _\n  read 0 " + "(pair " * 1100 + "1", "4:6010", "a value"),
    ("ran 0 0 _ _\n  wrote 0", "4:10", "a value"),
    ("ran 0 0 _ _\n  print", "4:8", "a 64-bit integer"),
    ("ran 0 0 _ _\n  print true", "4:9", "a 64-bit integer"),
    ("ran 0 0 _ _\n  print _", "4:9", "a 64-bit integer"),
    ("ran 0 0 _ _\n  print 1 2", "4:11", "the end of the line"),
    ("ran 0 0 _ _\n  starts", "4:9", "below 2^64"),
    ("ran 0 0 _ _\n  starts _", "4:10", "below 2^64"),
    ("ran 0 0 _ _\n  starts 1 2", "4:12", "the end of the line"),
    ("ran 0 0 _ _\n  call", "4:7", "a device, 0 to 255"),
    ("ran 0 0 _ _\n  call 256 1 = 1", "4:8", "a device, 0 to 255"),
    ("ran 0 0 _ _\n  call 1 5", "4:11", "`=` and the device's answer"),
    ("ran 0 0 _ _\n  call 1 5 6", "4:12", "`=` and the device's answer"),
    ("ran 0 0 _ _\n  call 1 5 =", "4:13", "a 64-bit integer"),
    ("ran 0 0 _ _\n  call 1 5 = 5 5", "4:16", "the end of the line"),
    ("output", "3:7", "a 64-bit integer"),
    ("output x", "3:8", "a 64-bit integer"),
    ("output 1 2", "3:10", "the end of the line"),
    ("heard 0", "3:8", "a 64-bit integer"),
    ("heard 0 1 2", "3:11", "`=` and the device's answer"),
    ("store 0", "3:8", "a value"),
    ("store _ 1", "3:7", "below 2^32"),
    ("store 0 1 2", "3:9", "a value"),
    ("ran 0 0 _ 0\nstore 0 3\nstore 0 3", "5:7", "each location once"),
    ("ran 0 0 _ 0\nstore 0 3\nran 0 1 _", "5:1", "only `store`, `output`, `heard` and `end`"),
    ("end", "3:4", "finished, blocked N, spent or tall TASK"),
    ("end done", "3:5", "finished, blocked N, spent or tall TASK"),
    ("end finished 0", "3:14", "the end of the line"),
    ("end blocked", "3:12", "below 2^64"),
    ("end blocked _", "3:13", "below 2^64"),
    ("end tall", "3:9", "below 2^64"),
    ("end spent 1", "3:11", "the end of the line"),
    ("all", "3:4", "one of read wrote"),
    ("all reads", "3:5", "one of read wrote"),
    ("all read read", "3:10", "each at most once"),
    ("output 1\nall read", "4:1", "only directly after the program"),
    ("all read\nall read", "4:1", "only directly after the program"),
    ("program", "3:8", "how many bytes"),
]
HEADS = [
    (b"ran 0 0 _\n", "1:1", "program SIZE"),
    (b"\n", "1:1", "program SIZE"),
    (b"program\n(print 1)\n", "1:1", "program SIZE"),
    (b"program x\n", "1:9", "how many bytes"),
    (b"program -1\n", "1:9", "how many bytes"),
    (b"program 09\n(print 1)\n", "1:9", "how many bytes"),
    (b"program 9 \n(print 1)\n", "1:11", "the end of the line"),
    (b"program 8\n(print 1)\n", "2:9", "directly after the program's 8 bytes"),
    (b"program 10\n(print 1)\n", "3:1", "directly after the program's 10 bytes"),
    (b"program 99\n(print 1)\n", "3:1", "directly after the program's 99 bytes"),
    (b"program 1048577\n", "1:9", "at most 1048576 bytes"),
    (b"program 9", "1:1", "program SIZE"),
    (b"program 9\n(print x)\n", "2:8", "docs/LANGUAGE.md"),
    (b"program 9\n(print 1$\n", "2:9", "docs/LANGUAGE.md"),
    (b"program 8\n(print 1\n", "2:9", "docs/LANGUAGE.md"),
    (b"program 17\n(do unit\n  (+ 1))\n", "3:7", "docs/LANGUAGE.md"),
    (b"program 12\n(print true)\n", "2:8", "a part of the type"),
    (b"program 1\n7\n", "2:1", "a part of type Unit"),
    (b"\xff\xfe\n", "1:1", "program SIZE"),
]


class BadLines(unittest.TestCase):
    def check(self, text, place, words):
        answer = judged(text)[0]
        self.assertIs(answer.verdict, Verdict.BAD, answer.text())
        self.assertEqual(f"{answer.reason.line}:{answer.reason.column}", place, answer.text())
        self.assertTrue(answer.text().startswith(f"x:{place}: bad: "), answer.text())
        self.assertIn("    found: ", answer.text())
        self.assertIn(words, answer.text().split("    expected: ")[1])

    def test_lines(self):
        self.assertGreaterEqual(len(AFTER_PROGRAM) + len(HEADS), 100)
        for lines, place, words in AFTER_PROGRAM:
            with self.subTest(lines=lines):
                self.check(HEAD + lines.encode() + b"\n", place, words)

    def test_heads(self):
        for text, place, words in HEADS:
            with self.subTest(text=text):
                self.check(text, place, words)

    def test_an_empty_stream_has_no_recording(self):
        self.assertEqual(answers(b""), [])


class RandomChanges(unittest.TestCase):
    """Recordings with bytes, words and lines changed at random get an answer with a place within them."""

    def changed(self, text, chance):
        how = chance.randrange(6)
        at = chance.randrange(len(text))
        if how == 0:
            return text[:at] + bytes([chance.randrange(256)]) + text[at + 1:]
        if how == 1:
            return text[:at] + text[at + chance.randrange(1, 8):]
        if how == 2:
            return text[:at] + bytes(chance.choice(b" \n0123456789_=@()-readwotlpgunc") for _ in range(chance.randrange(1, 5))) + text[at:]
        if how == 3:
            return text[:at]
        lines = text.split(b"\n")
        line = chance.randrange(len(lines))
        if how == 4:
            lines.insert(line, chance.choice(lines))
            return b"\n".join(lines)
        words = lines[line].split(b" ")
        words[chance.randrange(len(words))] = chance.choice([b"_", b"0", b"", b"99999999999999999999", b"-1", b"(pair", b"unit", b"=", b"end"])
        lines[line] = b" ".join(words)
        return b"\n".join(lines)

    def test_changes(self):
        chance, bad = random.Random(1), 0
        wholes = [recorded(generated(seed), seed, is_exact=seed % 2 == 0) for seed in range(40)]
        for number in range(common.count(1_000, 5_000)):
            text = self.changed(wholes[number % len(wholes)], chance)
            for answer in answers(text):
                bad += answer.verdict is Verdict.BAD
                self.assertIn(f"{answer.verdict.value}", answer.text())
                if answer.reason:
                    self.assertTrue(1 <= answer.reason.line <= text.count(b"\n") + 1, answer.text())
                    self.assertGreaterEqual(answer.reason.column, 1)
                    if answer.verdict is Verdict.BAD:
                        self.assertIn("expected: ", answer.text())
        self.assertGreater(bad, common.count(100, 500))


class Whole(unittest.TestCase):
    def test_ranges_at_their_edges(self):
        big = "(let r (ref p 9223372036854775807) (print (- 0 9223372036854775808)))".replace("(- 0 9223372036854775808)", "-9223372036854775808")
        answer, _ = judged(recording(big, "ran 31 0 _ 4294967295", "  print -9223372036854775808", "output -9223372036854775808",
                                     "store 4294967295 9223372036854775807", "end finished"))
        self.assertIs(answer.verdict, Verdict.VALID, answer.text())

    def test_values_of_any_height_are_read(self):
        deep = "(pair " * 1000 + "1" + " 2)" * 1000
        answer, _ = judged(recording(P, "ran 0 0 _ 0", f"store 0 {deep}"))
        self.assertIs(answer.verdict, Verdict.INVALID, answer.text())
        self.assertEqual(answer.reason.line, 4)


if __name__ == "__main__":
    unittest.main()
