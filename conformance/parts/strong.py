"""The strong semantics, imported from tools/judge: reader, types, members and their reductions. Nothing of it is written again here."""
import gc
import importlib.machinery
import importlib.util
import os
import sys

TOP = os.path.dirname(os.path.dirname(os.path.dirname(os.path.abspath(__file__))))


def loaded(path):
    """Returns a program of Python as a module."""
    loader = importlib.machinery.SourceFileLoader(os.path.basename(path).replace("-", "_"), path)
    module = importlib.util.module_from_spec(importlib.util.spec_from_loader(loader.name, loader))
    loader.exec_module(module)
    return module


JUDGE = loaded(os.path.join(TOP, "tools", "judge"))
Entry, Function, Member, Pair, Run, Walk = JUDGE.Entry, JUDGE.Function, JUDGE.Member, JUDGE.Pair, JUDGE.Run, JUDGE.Walk
Undefined, Verdict = JUDGE.Undefined, JUDGE.Verdict
MOST_BYTES, MOST_HEIGHT, REDUCTIONS = JUDGE.MOST_BYTES, JUDGE.MOST_HEIGHT, JUDGE.REDUCTIONS
MOST_RECURSION = 10_000  # Python's own calls, for programs of 200 open parentheses and values 1,000 high
MOST_GARBAGE = 100_000


def prepare():
    """Allows as many calls as deep programs and values need, and makes the search for cycles of garbage rare, since the judge makes few."""
    sys.setrecursionlimit(MOST_RECURSION)
    gc.set_threshold(MOST_GARBAGE)
