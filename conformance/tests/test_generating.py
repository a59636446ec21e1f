"""Generated programs have types by construction, and a seed and knobs name each."""
import itertools
import unittest

from parts import programs, strong
from tests import common
from tests.common import generated, judged, recorded


class Generated(unittest.TestCase):
    def test_types_are_accepted(self):
        flags = ["has_blocking", "has_unprotected", "has_pairs", "has_devices", "is_loud", "has_dump"]
        settings = list(itertools.product([False, True], repeat=len(flags)))
        for seed in range(common.count(600, 10_000)):
            knobs = dict(zip(flags, settings[seed % len(settings)])) if seed % 2 else {}
            text = generated(seed, **knobs)
            strong.JUDGE.program_of(text)
            if seed % 20 == 0:
                self.assertEqual(text, generated(seed, **knobs))
                self.assertEqual(programs.show(programs.read(text)).encode(), text)

    def test_knobs_leave_out(self):
        for seed in range(60):
            text = generated(seed, has_blocking=False, has_unprotected=False, has_pairs=False, has_devices=False)
            for word in (b"blockUntil", b"unprotected", b"yield", b"pair", b"peek", b"call"):
                self.assertNotIn(word, text)

    def test_a_loud_program_prints_what_it_reads_and_a_dump_the_store(self):
        self.assertIn(b"(do (print w", b"".join(generated(seed, is_loud=True) for seed in range(9)))
        answer, _ = judged(recorded(generated(3, has_dump=True, has_blocking=False), 3))
        self.assertEqual(answer.claimed_end(), "finished")


if __name__ == "__main__":
    unittest.main()
