"""Nothing is reported for the runtime without a bug, and each of its bugs is found by litmus programs or 200 random ones."""
import random
import time
import unittest

import runtime
from parts import judging, litmus, running
from parts.answers import Verdict
from parts.running import Case
from tests import common
from tests.common import generated, judged, recorded


def finds(bug):
    """Returns the case by which a bug is found first, litmus programs first."""
    cases = [Case(each.name, each.text, seed, each.outcomes) for each in litmus.read() for seed in range(10)]
    for case in cases + [Case("random", generated(seed), seed) for seed in range(200)]:
        if running.answered(case, recorded(case.text, case.seed, bug), None, common.SETTINGS).verdict in (Verdict.INVALID, Verdict.BAD):
            return case
    return None


def split(recording, program):
    """Returns the head of a recording, and its other lines with their line feeds."""
    size = recording.index(b"\n") + len(program) + 2
    return recording[:size], recording[size:].splitlines(keepends=True)


def blank(line):
    """Returns a line with `_` for its new locations."""
    words = line[:-1].split(b" ")
    if words[0] not in (b"ran", b"free"):
        return line
    rest = words[words.index(b"="):] if b"=" in words else []
    return b" ".join([*words[:4], b"_", *rest]) + b"\n"


def with_gaps(recording, program, chance):
    """Returns a recording with parts left out."""
    head, lines = split(recording, program)
    dropped = {kind for kind in (b"output", b"heard", b"store") if chance.random() < 0.3}
    kept = [line for line in lines[1:] if not (line.startswith(b"  ") and chance.random() < 0.4) and line.split(b" ")[0] not in dropped]
    return head + b"".join(blank(line) if chance.random() < 0.3 else line for line in kept)


class Runtime(unittest.TestCase):
    def test_without_a_bug(self):
        for seed in range(common.count(200, 5_000)):
            answer, _ = judged(recorded(generated(seed), seed, is_exact=seed % 3 == 0))
            self.assertIs(answer.verdict, Verdict.VALID, answer.text())
            self.assertIn(answer.end.verdict, ("finished", "blocked"))

    def test_each_bug_is_found(self):
        self.assertEqual(len(runtime.BUGS), 13)
        for bug in runtime.BUGS:
            self.assertIsNotNone(finds(bug), bug)

    def test_a_part_of_what_is_recorded_is_never_reported(self):
        """Leaves out observations, what the world saw, and numbers of locations, by chance: what is left has to be accepted."""
        for seed in range(common.count(100, 2_000)):
            chance, program = random.Random(seed), generated(seed)
            answer, _ = judged(with_gaps(recorded(program, seed, is_exact=seed % 2 == 0), program, chance))
            self.assertIs(answer.verdict, Verdict.VALID, answer.text())

    def test_locations_get_their_numbers_by_observations(self):
        for seed in range(common.count(100, 2_000)):
            program = generated(seed)
            head, lines = split(recorded(program, seed), program)
            answer, _ = judged(head + b"".join(blank(line) for line in lines))
            self.assertIs(answer.verdict, Verdict.VALID, answer.text())

    def test_speed(self):
        """Says how many recordings a second one process judges: of programs that are new to it, and of programs that it remembers."""
        seconds, entries, total = [0.0, 0.0], 0, common.count(60, 600)
        for seed in range(total):
            whole = recorded(generated(seed, tasks=12), seed)
            judging.remembered_program.cache_clear()
            for turn in range(2):
                begun = time.process_time()
                answer, _ = judged(whole)
                seconds[turn] += time.process_time() - begun
            entries += answer.entries
        first, again = (round(total / each) for each in seconds)
        print(f"\n{first} recordings a second of processor time, of new programs, {again} of remembered ones; {entries / total:.1f} entries each")


if __name__ == "__main__":
    unittest.main()
