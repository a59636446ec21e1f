"""What the judge accepts as a recording with all parts filled, tools/judge and `ame check` accept as a certificate; and not else."""
import os
import random
import subprocess
import unittest

from parts import certificates, strong
from parts.answers import Verdict
from tests import common
from tests.common import generated, judged, recorded

COMPARE = strong.loaded(os.path.join(strong.TOP, "tools", "judge-compare"))
AME = os.environ.get("CONFORM_AME")  # the program `ame`, if it is to judge too


def says(certificate):
    """Returns the last line of what tools/judge says, and of what `ame check` says if it is there."""
    status, output = COMPARE.judge_says(certificate)
    if AME:
        done = subprocess.run([AME, "check"], input=certificate, stdout=subprocess.PIPE, check=False)
        assert (status, output) == (done.returncode, done.stdout), (certificate, output, done.stdout)
    return output.splitlines()[-1]


def as_recording(certificate):
    """Returns a certificate as a recording."""
    lines, program = COMPARE.split(certificate)
    return b"program %d\n%s\n" % (len(program), program) + b"".join(line + b"\n" for line in lines)


def verdict_of(answer):
    """Returns what tools/judge says where the judge of recordings gives an answer."""
    if answer.verdict is Verdict.VALID:
        return b"valid %d" % answer.entries
    if answer.verdict is Verdict.INVALID:
        return b"invalid at %d" % (answer.entries + 1)
    return b"bad journal" if answer.verdict is Verdict.BAD else b"no memory"


class Certificates(unittest.TestCase):
    def test_runs_as_they_are_and_changed(self):
        """Of each run: the certificate of its recording, whose steps are filled in or not, is valid; with a change both judges say the same."""
        chance, invalid, total = random.Random(2), 0, common.count(150, 2_000)
        for seed in range(total):
            answer, made = judged(recorded(generated(seed), seed, is_exact=seed % 2 == 0))
            self.assertIs(answer.verdict, Verdict.VALID, answer.text())
            certificate = certificates.of(made.state)
            entries = len(made.state.made)
            self.assertEqual(says(certificate), b"valid %d" % entries)
            self.assertEqual(judged(as_recording(certificate))[0].entries, entries)
            changed = COMPARE.with_a_change(certificate, chance.choice(COMPARE.CHANGES), chance)
            said, here = says(changed), verdict_of(judged(as_recording(changed), common.judging.Settings())[0])
            invalid += said.startswith(b"invalid")
            if said.startswith(b"bad journal"):  # tools/judge reads all lines first
                self.assertIn(here.split(b" ")[0], (b"bad", b"invalid"))
            else:
                self.assertEqual(here, said, changed.decode())
        self.assertGreater(invalid, total // 3)

    def test_wrong_runs(self):
        """The recordings of wrong runtimes, without what they observed, are judged as tools/judge judges them."""
        for bug in common.runtime.BUGS:
            for seed in range(common.count(6, 60)):
                text = recorded(generated(seed), seed, bug, is_exact=True)
                head = text.index(b"\nall ") + 1
                lines = [line for line in text[head:].split(b"\n") if line.split(b" ")[0] in (b"ran", b"free")]
                certificate = b"".join(line + b"\n" for line in lines) + b"program\n" + generated(seed)
                self.assertEqual(verdict_of(judged(as_recording(certificate), common.judging.Settings())[0]), says(certificate))


if __name__ == "__main__":
    unittest.main()
