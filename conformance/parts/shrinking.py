"""Makes a program that fails smaller, until none of its parts can be left out or made smaller so that it still fails."""
from . import programs

CONSTANTS = ("unit", 0, "true", "false")


class Shrinker:
    """Shrinks one program. `fails` takes a text and returns what failed, or None; each call of it is a run or more."""

    def __init__(self, fails):
        self.fails, self.seen, self.calls = fails, {}, 0

    def still_fails(self, tree):
        """Returns whether a program is accepted and fails; a program is tried once."""
        text = programs.show(tree).encode()
        if text not in self.seen:
            self.seen[text] = programs.accepted(text) and self.tried(text)
        return self.seen[text]

    def tried(self, text):
        self.calls += 1
        return self.fails(text)

    def shrink(self, tree):
        """Returns the least program that was found; it fails if the given one does."""
        tree = self.without_rows(tree)
        while True:
            smaller = self.with_less(tree)
            if smaller == tree:
                return tree
            tree = smaller

    def without_rows(self, tree):
        """Leaves out parts of each `do`, halves first, from the outermost on."""
        path = first_row(tree, ())
        done = set()
        while path is not None:
            tree = self.without_parts(tree, path)
            done.add(path)
            path = next((each for each in rows(tree, ()) if each not in done), None)
        return tree

    def without_parts(self, tree, path):
        """Leaves out as many parts of one `do` as can be, runs of them first."""
        length = len(at(tree, path)) - 1 if is_row(at(tree, path)) else 0
        chunk = length // 2
        while chunk > 0 and is_row(at(tree, path)):
            start = len(at(tree, path)) - chunk
            while start > 0 and is_row(at(tree, path)):
                row = at(tree, path)
                smaller = put(tree, path, row_of(row[1:start] + row[start + chunk:]))
                tree = smaller if self.still_fails(smaller) else tree
                start -= chunk
            chunk //= 2
        return tree

    def with_less(self, tree):
        """Goes once through all parts of a program, the outer ones first, and makes each as small as can be."""
        path = ()
        while path is not None:
            smaller = next((each for each in cuts(tree, path) if self.still_fails(each)), None)
            if smaller is None:
                path = following(tree, path)
            else:
                tree = smaller
                path = path if exists(tree, path) else following_of_lost(tree, path)
        return tree


def cuts(tree, path):
    """Yields programs that have less in the place of one part: nothing, a constant, one of its own parts, a lesser number."""
    part = at(tree, path)
    if path and is_row(at(tree, path[:-1])) and len(at(tree, path[:-1])) > 2:
        row = at(tree, path[:-1])
        yield put(tree, path[:-1], row_of(row[1:path[-1]] + row[path[-1] + 1:]))
    if isinstance(part, tuple):
        yield from (put(tree, path, constant) for constant in CONSTANTS)
        yield from (put(tree, path, part[place]) for place in programs.terms(part))
        yield from (put(tree, path, less) for less in unbound(part))
    elif isinstance(part, int):
        yield from (put(tree, path, less) for less in dict.fromkeys((0, 1, abs(part) // 2)) if less < abs(part) or part < 0 < less + 1)
    elif part not in CONSTANTS:
        yield from (put(tree, path, constant) for constant in CONSTANTS)


def unbound(form):
    """Yields a form without its binding: a value in the place of the name, or `let` in the place of a call."""
    if form[0] == "let" and (not isinstance(form[2], tuple) or uses(form[3], form[1]) == 1):
        yield with_value(form[3], form[1], form[2])
    function = form[1] if form[0] == "app" else None
    if isinstance(function, tuple) and function[0] == "fn":
        yield ("let", function[2][0], form[2], function[3])
    if isinstance(function, tuple) and function[0] == "rec" and uses(function[5], function[2]) == 0:
        yield ("let", function[3][0], form[2], function[5])


def uses(tree, name):
    """Returns how often a name stands in a term."""
    return sum(uses(part, name) for part in tree) if isinstance(tree, tuple) else tree == name


def with_value(tree, name, value):
    """Returns a term with another for a name."""
    if tree == name:
        return value
    if not isinstance(tree, tuple):
        return tree
    for place in programs.terms(tree):
        if name not in programs.bound(tree, place):
            tree = (*tree[:place], with_value(tree[place], name, value), *tree[place + 1:])
    return tree


def is_row(tree):
    return isinstance(tree, tuple) and tree[0] == "do"


def row_of(parts):
    """Returns parts in a row as one term."""
    return parts[0] if len(parts) == 1 else ("do", *parts) if parts else "unit"


def at(tree, path):
    for place in path:
        tree = tree[place]
    return tree


def exists(tree, path):
    for place in path:
        if place not in programs.terms(tree):
            return False
        tree = tree[place]
    return True


def put(tree, path, part):
    """Returns a program with another part at a path."""
    if not path:
        return part
    return programs.replaced(tree, path[0], put(tree[path[0]], path[1:], part))


def paths(tree, path):
    """Yields the path of each term, outer ones first."""
    yield path
    for place in programs.terms(tree):
        yield from paths(tree[place], (*path, place))


def rows(tree, path):
    yield from (each for each in paths(tree, path) if is_row(at(tree, each)))


def first_row(tree, path):
    return next(rows(tree, path), None)


def following(tree, path):
    """Returns the path after one, in the order of `paths`."""
    found = iter(paths(tree, ()))
    for each in found:
        if each == path:
            return next(found, None)
    return None


def following_of_lost(tree, path):
    """Returns the first path that comes after one which is there no longer."""
    return next((each for each in paths(tree, ()) if each > path), None)
