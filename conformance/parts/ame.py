"""This project's own program in the place of a runtime: its journals and verdicts as recordings."""
import os
import re
import subprocess
import tempfile

from . import lines, running, strong
from .answers import Answer, Reason, Sign, Verdict

VERDICT = re.compile(rb"finished|blocked [0-9]+|spent|tall [0-9]+")
INTEGER = re.compile(rb"-?[0-9]+")
SEEDS = 100
RUN_WORDS = (("run", "--workers", "1"), ("run", "--workers", "4"), ("run", "--workers", "32"))


class Missing(Exception):
    """The program isn't there."""


def add(parser):
    """Adds the options of a campaign against ame."""
    group = parser.add_argument_group("against ame")
    group.add_argument("--why", default=os.path.join(strong.TOP, "why"), metavar="PATH", help="the program that prints journals (./why)")
    group.add_argument("--sims", type=int, default=100, metavar="N", help="under how many seeds of `sim` each program is run, of the seeds 0 to 99 (100)")
    group.add_argument("--workers", type=int, default=4, metavar="N", help="the seats of `sim` (4)")


class Ame:
    """Runs a program by `run` on 1, 4 and 32 workers and by `sim` under seeds; each journal and verdict has to pass as a recording."""

    def __init__(self, given, settings):
        self.why, self.seconds, self.settings = given.why, given.timeout, settings
        self.sims, self.workers = given.sims, str(given.workers)
        if not os.path.exists(self.why):
            raise Missing(f"{self.why}: the program isn't there; --why names another")

    def run(self, case):
        """Returns the result of the first of the runs that fails, or of the last one."""
        with tempfile.NamedTemporaryFile(suffix=".ame") as file:
            file.write(case.text)
            file.flush()
            first = case.seed * self.sims
            sims = [("sim", str(seed % SEEDS), "--workers", self.workers) for seed in range(first, first + self.sims)]
            calls = [*RUN_WORDS, *sims]
            journals, verdicts = self.asked(file.name, calls, "--journal")
            written, _ = self.asked(file.name, sims, None) if sims else (b"", b"")
        try:
            recordings = self.recordings(case, calls, journals, verdicts.splitlines(), outputs(written))
        except ValueError as fault:
            reason = Reason(Sign.CRASH, 1, 1, str(fault), [lines.shown(verdicts[-200:])])
            return running.Result(case, Answer(Verdict.INVALID, case.name, 1, reason=reason), b"")
        entries = 0
        for recording in recordings:
            answer = running.answered(case, recording, None, self.settings)
            entries += answer.entries
            result = running.Result(case, answer, recording)
            if answer.verdict is not Verdict.VALID:
                break
        result.answer.entries = entries
        return result

    def asked(self, file, calls, view):
        """Returns what the program writes for these calls, by one process."""
        words = [word for call in calls for word in ("--then", *([view] if view else []), file, *call)][1:]
        try:
            done = subprocess.run([self.why, *words], stdin=subprocess.DEVNULL, stdout=subprocess.PIPE, stderr=subprocess.PIPE,
                                  timeout=self.seconds * len(calls), check=False)
        except subprocess.TimeoutExpired:
            return b"", b"killed after its time"
        return done.stdout, done.stderr

    def recordings(self, case, calls, journals, verdicts, written):
        """Yields each journal as a recording; of `sim` with the integers that the program wrote."""
        end = b"program\n" + case.text
        parts = journals.split(end)[:-1]
        if len(parts) != len(calls) or len(verdicts) != len(calls) or len(written) != self.sims:
            raise ValueError(f"{len(parts)} journals, {len(verdicts)} verdicts and {len(written)} outputs for {len(calls)} calls")
        head = b"program %d\n%s\n" % (len(case.text), case.text)
        for at, (journal, verdict) in enumerate(zip(parts, verdicts)):
            output, is_sim = [], at >= len(RUN_WORDS)
            if is_sim:
                output, verdict_there = written[at - len(RUN_WORDS)]
                if verdict_there != verdict:
                    raise ValueError(f"another verdict for the same words: {' '.join(calls[at])}")
            seen = b"".join(b"output %s\n" % integer for integer in output)
            yield head + (b"all output\n" if is_sim else b"") + journal + seen + b"end %s\n" % verdict


def outputs(written):
    """Returns the integers and the verdict of each run of `sim`; a line `schedule` stands after each verdict."""
    found, integers, verdict = [], [], None
    for line in written.splitlines():
        if line.startswith(b"schedule "):
            found.append((integers, verdict))
            integers, verdict = [], None
        elif VERDICT.fullmatch(line):
            verdict = line
        elif INTEGER.fullmatch(line):
            integers.append(line)
    return found
