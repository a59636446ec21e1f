"""Runs a program by a seed, prints its lines, and judges the certificate of the run."""
import ame

run = ame.sim(b"(do (async (print 1)) (print 2))", 3, ame.Limits(workers=2))
print(run.lines.decode(), end="")
judged = ame.check(run.certificate)
if judged.status == ame.Status.VALID:
    print(judged.number, "entries")
