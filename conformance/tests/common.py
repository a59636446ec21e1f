"""What the tests share: runs of the runtime in this process, and answers on bytes."""
import io
import os

import runtime
from parts import generating, judging, source, strong
from recorder import Recorder

HERE = os.path.dirname(os.path.dirname(os.path.abspath(__file__)))
IS_LONG = "CONFORM_LONG" in os.environ
SETTINGS = judging.Settings(1_000_000, True)
strong.prepare()


def count(usual, long):
    """Returns how many cases a test takes."""
    return long if IS_LONG else usual


def recorded(text, seed, bug=None, is_exact=False, kinds=runtime.WITHOUT_GAPS):
    """Returns the recording of a run of runtime.py."""
    stream = io.BytesIO()
    made = runtime.Runtime(strong.JUDGE.program_of(text), Recorder(stream, text, kinds), seed, bug, 3, is_exact)
    made.end(made.run(10_000))
    return stream.getvalue()


def generated(seed, **knobs):
    return generating.program(seed, generating.Knobs(**knobs)).encode()


def judged(recording, settings=SETTINGS, name="x"):
    """Returns the answer on the first recording and what was judged."""
    return judging.judge(source.Source(io.BytesIO(recording), name), settings)


def answers(recording, settings=SETTINGS):
    """Returns the answers on all recordings of a stream."""
    lines, found = source.Source(io.BytesIO(recording), "x"), []
    while True:
        answer, _ = judging.judge(lines, settings)
        if answer is None:
            return found
        found.append(answer)


def recording(program, *lines):
    """Returns a recording of a program and lines."""
    program = program.encode()
    return b"program %d\n%s\n" % (len(program), program) + "".join(f"{line}\n" for line in lines).encode()
