"""Random programs. Each has its types by construction: a term is made for a type, an effect and the names around it."""
import random
from dataclasses import dataclass

from . import programs

INT, BOOL, UNIT = "Int", "Bool", "Unit"
PAIR = ("Pair", INT, INT)


@dataclass
class Knobs:
    """What generated programs may have, and how large they are."""

    tasks: int = 4  # fragments that the program starts, at most
    cells: int = 3  # locations that they share, at most
    statements: int = 4  # of a fragment, at most
    depth: int = 3
    has_blocking: bool = True
    has_unprotected: bool = True
    has_pairs: bool = True  # pairs and functions
    has_devices: bool = True
    is_loud: bool = False  # each value read is printed
    has_dump: bool = False  # a last fragment prints the store


class Generator:
    """Makes one program."""

    def __init__(self, seed, knobs):
        self.chance, self.knobs, self.names, self.starts = random.Random(seed), knobs, 0, 0

    def name(self, letter):
        self.names += 1
        return f"{letter}{self.names}"

    def program(self):
        """Returns a program as a tree: shared locations, functions, and fragments that use them."""
        chance, knobs = self.chance, self.knobs
        cells = [self.cell("p", INT)] + [self.cell("p") for _ in range(chance.randrange(knobs.cells))]
        if knobs.has_unprotected and chance.random() < 0.5:
            cells.append(self.cell("u"))
        around = {name: ("Ref", sort, kind) for name, sort, kind, _ in cells}
        functions = [self.function(around) for _ in range(knobs.has_pairs and chance.randrange(3))]
        around.update({name: ("Fun", form[1], form[2][1], UNIT) for name, form in functions})
        tasks = chance.randint(2, knobs.tasks)
        bodies = [self.fragment(around) for _ in range(tasks)]
        own = [self.statement(around, "p", knobs.depth - 1) for _ in range(chance.randrange(3))]
        cells, parts = self.with_dump(cells, bodies, own) if knobs.has_dump else (cells, [("async", body) for body in bodies] + own)
        tree = sequence(parts)
        for name, form in reversed(functions):
            tree = ("let", name, form, tree)
        for name, sort, _, first in reversed(cells):
            tree = ("let", name, ("ref", sort, first), tree)
        return tree

    def cell(self, sort, kind=None):
        """Returns a shared location: name, sort, type, first value."""
        kind = kind or self.chance.choice([INT, INT, INT, BOOL] + [PAIR] * self.knobs.has_pairs)
        return self.name("r" if sort == "p" else "u"), sort, kind, self.constant(kind)

    def constant(self, kind):
        if kind == INT:
            return self.chance.choice([0, 0, 1, 2, 3, 5, 7, -1])
        if kind == BOOL:
            return self.chance.choice(["true", "false"])
        if kind == UNIT:
            return "unit"
        return ("pair", self.constant(kind[1]), self.constant(kind[2]))

    def function(self, around):
        """Returns a name and a function of one integer, that is called for what it does."""
        effect, name = self.chance.choice("pppa"), self.name("x")
        body = self.statement({**around, name: INT}, effect, self.knobs.depth - 1)
        return self.name("f"), ("fn", effect, (name, INT), body)

    def fragment(self, around):
        """Returns the body of an `async` form."""
        return sequence([self.statement(around, "p", self.knobs.depth) for _ in range(self.chance.randint(1, self.knobs.statements))])

    def with_dump(self, cells, bodies, own):
        """Adds a count of the fragments that are over, and a fragment that then prints each integer of the store."""
        over = self.name("done")
        count = ("set", over, ("+", ("get", over), 1))
        shown = [("print", ("get", name)) for name, sort, kind, _ in cells if sort == "p" and kind == INT]
        dump = sequence([("blockUntil", ("=", ("get", over), len(bodies))), *shown])
        return [*cells, (over, "p", INT, 0)], [("async", sequence([body, count])) for body in bodies] + [("async", dump)] + own

    # Statements: terms of type Unit

    def statement(self, around, effect, depth):
        """Returns a term of type Unit; effect `a` allows what both sides allow."""
        makers = [(6, self.setting), (5, self.printing), (1, self.nothing)]
        if depth > 0:
            makers += [(3, self.choosing), (3, self.binding), (3, self.doing), (1, self.looping)]
            if self.starts < 3:
                makers.append((1, self.starting))
            if self.knobs.has_pairs:
                makers.append((2, self.calling))
            if effect == "p" and self.knobs.has_unprotected:
                makers.append((2, self.leaving))
        if effect == "p" and self.knobs.has_unprotected:
            makers.append((2, self.yielding))
        if effect == "p" and self.knobs.has_blocking:
            makers.append((2, self.waiting))
        weights, makers = zip(*makers)
        return self.chance.choices(makers, weights)[0](around, effect, depth)

    def nothing(self, around, effect, depth):
        return "unit"

    def yielding(self, around, effect, depth):
        return "yield"

    def setting(self, around, effect, depth):
        """Writes a location that the effect allows, if there is one."""
        names = [name for name, kind in around.items() if kind[:2] == ("Ref", effect)]
        if not names:
            return self.printing(around, effect, depth)
        name = self.chance.choice(names)
        kind = around[name][2]
        if kind == INT and self.chance.random() < 0.4:
            return ("set", name, (self.chance.choice("+-*"), self.got(name, INT), self.term(INT, around, effect, depth - 1)))
        return ("set", name, self.term(kind, around, effect, depth - 1))

    def printing(self, around, effect, depth):
        return ("print", self.term(INT, around, effect, depth - 1))

    def choosing(self, around, effect, depth):
        condition = self.term(BOOL, around, effect, depth - 1)
        return ("if", condition, self.statement(around, effect, depth - 1), self.statement(around, effect, depth - 1))

    def binding(self, around, effect, depth):
        """Binds a value, or a location of its own, for a statement."""
        if effect != "a" and self.chance.random() < 0.3:
            name, kind = self.name("c"), self.chance.choice([INT, BOOL])
            bound, kind = ("ref", effect, self.term(kind, around, effect, depth - 1)), ("Ref", effect, kind)
        else:
            name, kind = self.name("v"), self.chance.choice([INT, INT, BOOL] + [PAIR] * self.knobs.has_pairs)
            bound = self.term(kind, around, effect, depth - 1)
        return ("let", name, bound, self.statement({**around, name: kind}, effect, depth - 1))

    def doing(self, around, effect, depth):
        return sequence([self.statement(around, effect, depth - 1) for _ in range(self.chance.randint(2, 3))])

    def looping(self, around, effect, depth):
        """Makes a statement a few times, by a function that calls itself."""
        loop, count = self.name("g"), self.name("n")
        body = self.statement({**around, count: INT}, effect, depth - 1)
        step = ("if", ("<", 0, count), sequence([body, ("app", loop, ("-", count, 1))]), "unit")
        return ("app", ("rec", effect, loop, (count, INT), UNIT, step), self.chance.randint(1, 3))

    def starting(self, around, effect, depth):
        """Starts a fragment, of a few in all, since a loop may start it again."""
        self.starts += 1
        return ("async", self.statement(around, "p", depth - 1))

    def leaving(self, around, effect, depth):
        return ("unprotected", self.statement(around, "u", depth - 1))

    def waiting(self, around, effect, depth):
        """Waits for a condition, mostly one on a shared location that another fragment may make true."""
        names = [name for name, kind in around.items() if kind in (("Ref", "p", INT), ("Ref", "p", BOOL))]
        if self.chance.random() < 0.1:
            return ("blockUntil", self.term(BOOL, around, effect, depth - 1))
        name = self.chance.choice(names)
        value = self.got(name, around[name][2])
        if around[name][2] == BOOL:
            return ("blockUntil", self.chance.choice([value, ("not", value)]))
        return ("blockUntil", self.chance.choice([("not", ("=", value, self.constant(INT))), ("<", self.constant(INT), value)]))

    def calling(self, around, effect, depth):
        """Calls a function that the effect allows, if there is one."""
        names = [name for name, kind in around.items() if kind[0] == "Fun" and kind[1] in ("a", effect)]
        if not names:
            return self.printing(around, effect, depth)
        return ("app", self.chance.choice(names), self.term(INT, around, effect, depth - 1))

    # Other terms

    def got(self, name, kind, form="get"):
        """Reads a location; a loud program prints what it reads."""
        read = (form, name)
        if not self.knobs.is_loud or kind == PAIR:
            return read
        value = self.name("w")
        return ("let", value, read, ("do", ("print", value if kind == INT else ("if", value, 1, 0)), value))

    def term(self, kind, around, effect, depth):
        """Returns a term of type Int, Bool, or a pair of integers."""
        known = [name for name, each in around.items() if each == kind]
        cells = [name for name, each in around.items() if each == ("Ref", effect, kind)]
        seen = [name for name, each in around.items() if each == ("Ref", "p", kind)] if effect == "u" else []
        choices = [lambda: self.constant(kind)] + [lambda: self.chance.choice(known)] * (2 * bool(known))
        choices += [lambda: self.got(self.chance.choice(cells), kind)] * (6 * bool(cells))
        choices += [lambda: self.got(self.chance.choice(seen), kind, "peek")] * (6 * bool(seen))
        if depth > 0:
            choices += [lambda: self.composed(kind, around, effect, depth)] * 4
        return self.chance.choice(choices)()

    def composed(self, kind, around, effect, depth):
        """Returns a form of a type, whose parts are one level less deep."""
        def part(each, more=()):
            return self.term(each, {**around, **dict(more)}, effect, depth - 1)

        chance, name = self.chance, self.name("v")
        if chance.random() < 0.25:
            return ("if", part(BOOL), part(kind), part(kind))
        if chance.random() < 0.2:
            return ("let", name, part(INT), part(kind, {name: INT}))
        if kind == BOOL:
            return chance.choice([lambda: ("<", part(INT), part(INT)), lambda: ("=", part(INT), part(INT)), lambda: ("not", part(BOOL))])()
        if kind == PAIR:
            return ("pair", part(INT), part(INT))
        if effect == "u" and self.knobs.has_devices and chance.random() < 0.4:
            return ("call", chance.randrange(2), part(INT))
        if self.knobs.has_pairs and chance.random() < 0.3:
            return chance.choice([
                lambda: (chance.choice(["fst", "snd"]), part(PAIR)),
                lambda: ("app", ("fn", "a", (name, INT), self.term(INT, {name: INT}, "a", depth - 1)), part(INT))])()
        return (chance.choice("++--*"), part(INT), part(INT))


def sequence(parts):
    """Returns terms in a row as one."""
    flat = [each for part in parts for each in (part[1:] if isinstance(part, tuple) and part[0] == "do" else (part,))]
    return flat[0] if len(flat) == 1 else ("do", *flat)


def program(seed, knobs):
    """Returns the text of the program of a seed."""
    return programs.show(Generator(seed, knobs).program())
