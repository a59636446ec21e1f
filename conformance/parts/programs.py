"""Programs as trees: an atom is a text or an integer; a form, a type or a parameter is a tuple. Reading, showing, and the parts of a form."""
from . import strong

TERMS = {"fn": [3], "rec": [5], "let": [2, 3], "ref": [2], "call": [2]}  # the places of terms, in forms that have other parts too
WIDTH = 80
EMPTY = frozenset()


def read(text):
    """Returns the tree of a text that tools/judge accepts."""
    open_forms = [[]]
    for value, _ in strong.JUDGE.tokens_of(text)[:-1]:
        if value == "(":
            open_forms.append([])
        elif value == ")":
            form = tuple(open_forms.pop())
            open_forms[-1].append(form)
        else:
            open_forms[-1].append(value)
    return open_forms[0][0]


def accepted(text):
    """Returns whether tools/judge accepts a text: its reading and its types."""
    try:
        strong.JUDGE.program_of(text)
    except strong.Verdict:
        return False
    return True


def flat(tree):
    """Returns a tree on one line."""
    if not isinstance(tree, tuple):
        return str(tree)
    return "(" + " ".join([flat(part) for part in tree]) + ")"


def show(tree):
    """Returns a program's text on lines of some 80 characters, with a line feed at its end."""
    return "\n".join(shown(tree, 0)) + "\n"


def shown(tree, indent):
    """Returns the lines of a tree: on one line where it fits, and otherwise its last parts on lines of their own."""
    text = flat(tree)
    if not isinstance(tree, tuple) or indent + len(text) <= WIDTH:
        return [" " * indent + text]
    kept = KEPT.get(tree[0], 1)
    while kept > 1 and indent + sum(len(flat(part)) + 1 for part in tree[:kept]) > WIDTH:
        kept -= 1
    lines = [f"{' ' * indent}({' '.join(map(flat, tree[:kept]))}"]
    for part in tree[kept:]:
        lines += shown(part, indent + 2)
    lines[-1] += ")"
    return lines


KEPT = {"let": 3, "fn": 3, "rec": 5, "if": 2, "set": 2, "ref": 2, "call": 2}


def terms(tree):
    """Returns the places in a form at which terms are."""
    if not isinstance(tree, tuple):
        return []
    return TERMS.get(tree[0]) or list(range(1, len(tree)))


def bound(tree, place):
    """Returns the names that a form binds in the part at a place."""
    if tree[0] == "let" and place == 2 or tree[0] not in ("let", "fn", "rec"):
        return EMPTY
    if tree[0] == "let":
        return frozenset([tree[1]])
    return frozenset([tree[2][0]]) if tree[0] == "fn" else frozenset([tree[2], tree[3][0]])


def free(tree):
    """Returns the names that a term needs around it."""
    if isinstance(tree, tuple):
        return frozenset().union(*(free(tree[place]) - bound(tree, place) for place in terms(tree)))
    return frozenset([tree]) if isinstance(tree, str) and tree not in strong.JUDGE.RESERVED else EMPTY


def replaced(tree, place, part):
    """Returns a form with another part at a place; a `do` within a `do` becomes one."""
    parts = part[1:] if tree[0] == "do" and isinstance(part, tuple) and part[0] == "do" else (part,)
    return (*tree[:place], *parts, *tree[place + 1:])


def size(tree):
    """Returns how many atoms a tree has."""
    return sum(map(size, tree)) if isinstance(tree, tuple) else 1
