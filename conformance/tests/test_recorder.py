"""What recorder.py and recorder.h write is a recording, and the example in C is judged."""
import io
import os
import shutil
import subprocess
import tempfile
import unittest

from parts.answers import Verdict
from recorder import Recorder, spelled
from tests.common import HERE, answers, judged

PROGRAM = b"(let r (ref p 3) (do (async (set r (+ (get r) 1))) (async (print (get r))) (unprotected (print (call 1 5)))))"


class Python(unittest.TestCase):
    def test_all_lines(self):
        stream = io.BytesIO()
        recorder = Recorder(stream, PROGRAM, ("read", "wrote", "print", "starts", "call", "output", "heard", "store"))
        recorder.entry("ran", 0, ["starts 1", "starts 2"], locations=[7], seat=2)
        recorder.entry("ran", 1, ["read 7 3", "wrote 7 4"], steps=3, locations=[])
        recorder.entry("ran", 2, ["read 7 4", "print 4"])
        recorder.output(4)
        recorder.heard(1, 5, 5)
        recorder.entry("free", 0, ["call 1 5 = 5"], steps=1, locations=[], answer=5)
        recorder.entry("free", 0, ["print 5"])
        recorder.output(5)
        recorder.entry("free", 0)
        recorder.entry("ran", 0)
        recorder.end("finished", [(7, 4)])
        answer, _ = judged(stream.getvalue())
        self.assertIs(answer.verdict, Verdict.VALID, answer.text() + stream.getvalue().decode())
        self.assertEqual((answer.entries, answer.output, answer.claimed_end()), (7, [4, 5], "finished"))

    def test_values(self):
        self.assertEqual([spelled(each) for each in (1, True, None, (2, ("@3", False)))], ["1", "true", "unit", "(pair 2 (pair @3 false))"])

    def test_they_are_short(self):
        for name, most in (("recorder.py", 50), ("recorder.h", 50), ("runtime.py", 400)):
            with open(os.path.join(HERE, name), encoding="ascii") as file:
                self.assertLessEqual(len(file.readlines()), most, name)


@unittest.skipUnless(shutil.which("cc"), "there is no compiler of C")
class C(unittest.TestCase):
    def recordings(self, *flags):
        """Compiles the example, and returns the recordings of ten runs."""
        with tempfile.TemporaryDirectory() as folder:
            program = os.path.join(folder, "counter")
            subprocess.run(["cc", "-Wall", "-Wextra", "-Werror", "-pthread", *flags, os.path.join(HERE, "counter.c"), "-o", program], check=True)
            return b"".join(subprocess.run([program], stdout=subprocess.PIPE, check=True).stdout for _ in range(10))

    def test_the_example_is_valid(self):
        found = answers(self.recordings())
        self.assertEqual([each.text() for each in found if each.verdict is not Verdict.VALID], [])
        self.assertEqual([(each.entries, each.claimed_end()) for each in found], [(5, "finished")] * 10)

    def test_its_bug_is_never_a_bad_text(self):
        for answer in answers(self.recordings("-DBUG")):
            self.assertIn(answer.verdict, (Verdict.VALID, Verdict.INVALID), answer.text())


if __name__ == "__main__":
    unittest.main()
