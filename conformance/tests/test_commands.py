"""The commands, as a user calls them."""
import json
import os
import subprocess
import sys
import tempfile
import unittest

from tests.common import HERE, recording

FIRST = "(do (async (print 2)) (print 1))"
GOOD = recording(FIRST, "ran 0 0 _", "output 1", "ran 0 1 _", "output 2", "end finished")
WRONG = recording(FIRST, "ran 0 0 _", "end finished")
FEW = ["--seeds", "0", "1", "--litmus", "1", "--examples", "0"]


def called(name, *words, text=b""):
    """Returns the status, the output and the errors of a command of this folder."""
    done = subprocess.run([sys.executable, os.path.join(HERE, name), *words], input=text, stdout=subprocess.PIPE, stderr=subprocess.PIPE, check=False)
    return done.returncode, done.stdout.decode(), done.stderr.decode()


def runtime(*words):
    return " ".join([sys.executable, os.path.join(HERE, "runtime.py"), *words])


class JudgeRecording(unittest.TestCase):
    def test_a_stream(self):
        self.assertEqual(called("judge-recording", text=GOOD), (0, "-:1: valid, entries: 2, integers: 2, end finished\n", ""))
        status, output, errors = called("judge-recording", text=GOOD + WRONG)
        self.assertEqual((status, output.count("\n"), errors), (1, 5, ""))
        self.assertIn("-:11:5: invalid: finished isn't how this run ends\n    found: finished\n", output)

    def test_files_and_folders(self):
        with tempfile.TemporaryDirectory() as folder:
            for name, text in (("a", GOOD), ("b", WRONG), ("c", b"run\n")):
                with open(os.path.join(folder, name), "wb") as file:
                    file.write(text)
            for words in ([], ["--jobs", "2"]):
                status, output, _ = called("judge-recording", folder, *words)
                heads = [line for line in output.splitlines() if not line.startswith(" ")]
                self.assertEqual((status, [head.split(": ")[1].split(",")[0] for head in heads]), (1, ["valid", "invalid", "bad"]))
            status, output, errors = called("judge-recording", os.path.join(folder, "d"))
            self.assertEqual((status, output), (3, ""))
            self.assertIn("No such file", errors)

    def test_json(self):
        status, output, _ = called("judge-recording", "--json", text=WRONG)
        found = json.loads(output)
        self.assertEqual((status, found["verdict"], found["line"], found["column"], found["entries"]), (1, "invalid", 4, 5, 1))

    def test_a_certificate(self):
        status, output, errors = called("judge-recording", "--certificate", text=GOOD)
        self.assertEqual((status, output), (0, f"ran 0 0 3\nran 0 1 1\nprogram\n{FIRST}"))
        self.assertIn("valid", errors)
        self.assertEqual(called("judge-recording", "--certificate", text=WRONG)[:2], (1, ""))


class Conform(unittest.TestCase):
    def test_a_runtime_without_a_bug(self):
        status, output, errors = called("conform", "--runtime", runtime(), *FEW)
        self.assertEqual((status, errors), (0, ""))
        self.assertIn("runs: 15 (litmus: 13, random: 2)", output)

    def test_a_bug_is_shown_with_the_least_program(self):
        with tempfile.TemporaryDirectory() as folder:
            status, output, errors = called("conform", "--runtime", runtime("--bug", "dropped-child"), *FEW, "--keep", folder)
            self.assertEqual((status, errors), (1, ""))
            self.assertIn("a task started: the least program that fails", output)
            self.assertIn("expected: starts ", output)
            kept = sorted(os.listdir(folder))
            self.assertIn("least-starts.ame", kept)
            self.assertIn("least-starts.recording", kept)
            self.assertIn("least-starts.answer", kept)
            with open(os.path.join(folder, "least-starts.ame"), encoding="ascii") as file:
                self.assertLessEqual(len(file.readlines()), 6)

    def test_json(self):
        status, output, _ = called("conform", "--runtime", runtime("--bug", "dropped-child"), *FEW, "--json", "--no-shrink")
        found = [json.loads(line) for line in output.splitlines()]
        self.assertEqual((status, len(found)), (1, 15))
        self.assertEqual({each["verdict"] for each in found}, {"valid", "invalid"})

    def test_a_command_that_hangs_is_killed(self):
        status, output, _ = called("conform", "--runtime", "sleep 100", "--seeds", "0", "0", "--litmus", "0", "--examples", "0", "--timeout", "0.3", "--no-shrink")
        self.assertEqual(status, 1)
        self.assertIn("no end in time", output)

    def test_a_command_without_a_recording_is_shown_with_its_errors(self):
        status, output, _ = called("conform", "--runtime", "sh -c 'echo trouble >&2; exit 5'", "--seeds", "0", "0", "--litmus", "0", "--examples", "0")
        self.assertEqual(status, 1)
        self.assertIn("the command ended with status 5\n    trouble", output)

    def test_no_command(self):
        status, output, errors = called("conform", "--runtime", "/no/such/command", *FEW)
        self.assertEqual((status, output), (3, ""))
        self.assertIn("/no/such/command: No such file", errors)
        status, _, errors = called("conform", "--against", "ame", "--why", "/no/such/command", *FEW)
        self.assertEqual(status, 3)
        self.assertIn("/no/such/command", errors)


class Others(unittest.TestCase):
    def test_generate(self):
        status, output, _ = called("generate", "7")
        self.assertEqual((status, output), (0, called("generate", "7")[1]))
        with tempfile.TemporaryDirectory() as folder:
            self.assertEqual(called("generate", "7", "9", "--folder", folder)[0], 0)
            with open(os.path.join(folder, "7.ame"), encoding="ascii") as file:
                self.assertEqual(file.read(), output)
            self.assertEqual(sorted(os.listdir(folder)), ["7.ame", "8.ame", "9.ame"])

    def test_shrink(self):
        with tempfile.TemporaryDirectory() as folder:
            path = os.path.join(folder, "x.ame")
            with open(path, "w", encoding="ascii") as file:
                file.write("(let x (ref p 0) (do (async (set x 1)) (async (print (+ 2 (get x)))) (print 5)))")
            status, output, _ = called("shrink", "--runtime", runtime("--bug", "dropped-child"), path)
            self.assertEqual(status, 0)
            self.assertIn("\n(do (async unit) (async unit))\n", output)
            self.assertEqual(called("shrink", "--runtime", runtime(), path)[0], 1)
            self.assertEqual(called("shrink", "--runtime", runtime(), os.path.join(folder, "y.ame"))[0], 3)

    def test_help(self):
        for name in ("conform", "generate", "shrink", "judge-recording", "runtime.py", "figures"):
            status, output, errors = called(name, "--help")
            self.assertEqual((status, errors), (0, ""), name)
            self.assertIn("usage: ", output)


if __name__ == "__main__":
    unittest.main()
