#!/usr/bin/env python3
"""Puts into out/ what `rt ci` built on this machine of the same files, and prints the names of those crates.

kept.py PROGRAM BUILT..: the crates of a program; BUILT are the crates whose libraries stand in out/ already.
kept.py --below CRATE..: the libraries below these crates, as the commands of `rt` find them.

What `rt ci` keeps has a name that is the checksum of all from which it was made, and functions of `rt` itself find it by
that. A kit without such functions, or one that keeps nothing, gives nothing: then this prints no name or fails, and the
crates are proved.
"""
import contextlib
import importlib.machinery
import importlib.util
import os
import shutil
import sys

TOP = os.path.dirname(os.path.dirname(os.path.abspath(__file__)))


def gate():
    """Returns the module that `rt` is."""
    loader = importlib.machinery.SourceFileLoader("gate", os.path.realpath(shutil.which("rt")))
    made = importlib.util.module_from_spec(importlib.util.spec_from_loader("gate", loader))
    loader.exec_module(made)
    return made


def take(kept, crate):
    """Replaces what stands in out/ by what was kept of the crate, and returns whether there was any."""
    os.makedirs(f"{crate.folder}/out", exist_ok=True)
    for old in kept.made(crate, False):
        os.remove(f"{crate.folder}/out/{old}")
    return kept.give(crate, False, kept.key(crate))


def take_all(kept, crates, is_built):
    """Yields each of the crates, lowest first, that was taken over; those above one that is lacking are passed over."""
    known = set()
    for crate in crates:
        if any(it.name not in known for it in crate.below()):
            continue
        if not is_built(crate):
            if not take(kept, crate):
                continue
            yield crate
        kept.is_built(crate)
        known.add(crate.name)


def take_program(kept, crates, program, built):
    wanted = next(it for it in crates if it.name == program)
    below = [it for it in crates if it is wanted or it in wanted.below()]
    return [it.name for it in take_all(kept, below, lambda crate: crate.name in built)]


def take_below(kept, crates, names):
    """Takes the libraries below the named crates, and writes the stamp by which `rt` knows that each is built."""
    below = {it.name for crate in crates if crate.name in names for it in crate.below()}
    taken = []
    for crate in take_all(kept, [it for it in crates if it.name in below], lambda crate: crate.is_built()):
        with open(f"{crate.folder}/out/rlib/stamp", "w", encoding="utf-8") as it:
            it.write(crate.stamp())
        taken.append(crate.name)
    return taken


def main():
    os.chdir(TOP)
    first, rest = sys.argv[1], sys.argv[2:]
    with contextlib.redirect_stdout(sys.stderr):
        rt = gate()
        rt.Crate.allowed = rt.handles_of(TOP)
        crates = rt.crates_of(TOP)
        kept = rt.Kept(crates)
        names = take_below(kept, crates, rest) if first == "--below" else take_program(kept, crates, first, rest)
    print(" ".join(names))


main()
