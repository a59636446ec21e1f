"""The knobs of generated programs as options of a command."""
import dataclasses

from .generating import Knobs

SAYS = {
    "tasks": "how many tasks a program starts, at most", "cells": "how many locations they share, at most",
    "statements": "how many statements a task has, at most", "depth": "how deep forms are nested, about",
    "blocking": "no `blockUntil`", "unprotected": "no unprotected code", "pairs": "no pairs and no functions", "devices": "no calls of devices",
    "loud": "each value read is printed", "dump": "a last task waits for all others and prints the store"}


def add(parser):
    """Adds an option for each knob."""
    group = parser.add_argument_group("generated programs")
    for knob in dataclasses.fields(Knobs):
        word = knob.name.split("_", 1)[-1]
        if isinstance(knob.default, bool):
            flag = f"--no-{word}" if knob.default else f"--{word}"
            group.add_argument(flag, dest=knob.name, action="store_const", const=not knob.default, default=knob.default, help=SAYS[word])
        else:
            group.add_argument(f"--{word}", type=int, default=knob.default, metavar="N", help=f"{SAYS[word]} ({knob.default})")


def of(given):
    """Returns the knobs that a command was given."""
    return Knobs(**{knob.name: getattr(given, knob.name) for knob in dataclasses.fields(Knobs)})
