"""Reasons, in words: where a task really stands, what it read, who wrote that, and who is left."""
import enum
from typing import NamedTuple

from . import lines, strong, values
from .answers import Reason, Sign

MOST_READS = 8


class Kind(enum.Enum):
    BLOCKED = "is blocked"
    INSIDE = "is in unprotected code"
    GOES_ON = "could go on"
    UNKNOWN = "makes more steps than the judge does"


class Standing(NamedTuple):
    """What a task that is left comes to: steps, new locations and details."""

    kind: Kind
    steps: int
    made: list
    details: list


def task_of(state, number):
    """Returns a task by its number and the form that started it."""
    line, place = state.started[number]
    at = f"{state.places.at(place)}" if line is not None else "the program"
    return f"task {number} ({'started by line %d, ' % line if line is not None else ''}{at})"


def standing_of(state, member):
    """Returns where a member stands."""
    form, _, parts = member.redex
    if form.form == "end":
        return "at its end"
    at = f"at {state.places.at(form.place)}, {state.places.form(form.place)}"
    if form.form == "blockUntil" and not parts[0]:
        return f"{at}, where the condition is false"
    return f"{at}, where it has the value {values.show(parts[0])}" if form.form == "unprotected" and parts else at


def written_by(state, cell):
    line = state.writers.get(cell)
    return f"written by line {line}" if line is not None else "made by these steps"


def reads_of(state, acts):
    """Returns what was read, with who wrote it, a line each; the last ones where there are many."""
    own, found = set(), []
    for act in acts:
        if act.kind == "read":
            by = "written by itself" if act.subject in own else written_by(state, act.subject)
            found.append(f"it read location {values.show(act.subject)[1:]} = {values.show(act.value)} at {state.places.at(act.place)}, {by}")
        elif act.kind in ("wrote", "made"):
            own.add(act.subject)
    return ["(earlier reads are left out)"] * (len(found) > MOST_READS) + found[-MOST_READS:]


def column_of(entry, word):
    """Returns the column of a word of an entry's line: 0 is the kind, 1 the seat, 2 the task, 3 the steps."""
    words = [entry.kind.decode(), str(entry.seat), str(entry.number), "_" if entry.steps is None else str(entry.steps)]
    return 1 + sum(len(each) + 1 for each in words[:word])


def no_task(state, entry):
    """Returns why the task of an entry can't be the one that goes on here."""
    number, kind = entry.number, entry.kind.decode()
    if number in state.ended:
        problem, details = f"task {number} has ended by line {state.ended[number]}", []
    elif number not in state.members:
        problem, details = f"task {number} isn't started yet", [f"found: task {number}", f"expected: one of the tasks {some(state.members)}"]
    elif number in state.inside:
        problem = f"{task_of(state, number)} is in unprotected code"
        details = [f"found: {kind}", "expected: `free`, up to the step that closes its `unprotected`"]
    else:
        problem = f"{task_of(state, number)} isn't in unprotected code"
        at_form = state.members[number].redex[0].form == "unprotected"
        hint = "it is at its `unprotected` already: `ran` with 0 steps leads in" if at_form else "a `ran` line leads to its `unprotected`"
        details = [f"found: {kind}", f"expected: `ran` first: {hint}"]
    return Reason(Sign.TASK, entry.line, column_of(entry, 2 if number not in state.members else 0), problem, details)


def some(numbers):
    numbers = sorted(numbers)
    return ", ".join(map(str, numbers[:10])) + (" .." if len(numbers) > 10 else "") or "(none is left)"


def other_steps(state, made):
    """Returns why the steps that could be made aren't those of the entry."""
    entry, form = made.entry, made.member.redex[0].form
    is_false = form == "blockUntil" and entry.kind != b"stuck" and entry.steps != made.count
    steps = "_" if entry.steps is None else entry.steps
    where = standing_of(state, made.member)
    problem = f"{task_of(state, entry.number)} comes to a false condition" if is_false else f"{task_of(state, entry.number)} makes other steps"
    details = [f"found: {entry.kind.decode()}, steps: {steps}", f"expected: {ENDS[entry.kind]}", f"after {made.count} steps it is {where}"]
    return Reason(Sign.CONDITION if is_false else Sign.STEPS, entry.line, column_of(entry, 3), problem, details + reads_of(state, made.acts))


ENDS = {
    b"ran": "all steps to its end or its next `unprotected`",
    b"free": "at least one step under `unprotected`; the step that closes it comes last",
    b"stuck": "all steps to a condition that is false",
    b"cut": "steps on one side of `unprotected`, none of which closes it",
    b"tall": f"all steps to a form whose value would be {strong.MOST_HEIGHT + 1:,} high"}


def shown_act(act):
    """Returns an act as an observation spells it."""
    words = [act.kind]
    if act.kind in ("read", "wrote"):
        words += [values.show(act.subject)[1:], values.show(act.value)]
    elif act.kind == "call":
        words += [str(act.subject), str(act.value)] + (["=", str(act.answer)] if act.answer is not None else [])
    else:
        words += [str(act.value)]
    return " ".join(words)


def shown_seen(seen):
    """Returns an observation as it is spelled."""
    words = [seen.kind]
    if seen.kind in ("read", "wrote"):
        words += ["_" if seen.subject is None else str(seen.subject), values.show(seen.value)]
    else:
        words += [str(each) for each in (seen.subject, seen.value) if each is not None]
        words += ["=", str(seen.answer)] if seen.answer is not None else []
    return " ".join(words)


SIGNS = {"read": Sign.READ, "wrote": Sign.WROTE, "print": Sign.PRINT, "starts": Sign.STARTS, "call": Sign.CALL}


def by_whom(state, act):
    return f", {written_by(state, act.subject)}" if act.kind == "read" else ""


def unlike(state, made, fault):
    """Returns how an act differs from what was observed in its place."""
    act, seen, entry = fault.act, fault.observation, made.entry
    expected = f"expected: {shown_act(act)}, at {state.places.at(act.place)}{by_whom(state, act)}"
    task = task_of(state, entry.number)
    details = [f"found: {shown_seen(seen) if seen else 'no further observation'}", expected]
    kind = act.kind
    problem = f"{task} {DOES[kind]}" if not seen or seen.kind == kind else f"{task} does something else first"
    line, column = (line_of_next(made), 3) if seen else (entry.line, 1)
    return Reason(SIGNS[kind], line, column, problem, details + reads_of(state, made.acts[:-1]))


DOES = {"read": "reads something else", "wrote": "writes something else", "print": "prints something else",
        "starts": "starts another task", "call": "makes another call"}


def line_of_next(made):
    """Returns the line of the next observation: they stand directly below the line of their entry."""
    return made.entry.line + 1 + made.seen


def not_seen(state, made):
    """Returns why an observation is none of the acts."""
    seen = made.observations[made.seen]
    alike = [act for act in made.acts if act.kind == seen.kind]
    same = [act for act in alike if act.subject is None or seen.subject is None or values.show(act.subject)[1:] == str(seen.subject)]
    acts = [f"{shown_act(act)}, at {state.places.at(act.place)}{by_whom(state, act)}" for act in (same or alike)[:MOST_READS]]
    details = [f"found: {shown_seen(seen)}", "expected: " + ("; or ".join(acts) if acts else f"no `{seen.kind}` in these steps")]
    details.append(f"after {made.count} steps it is {standing_of(state, made.member)}")
    return Reason(SIGNS[seen.kind], line_of_next(made), 3, f"{task_of(state, made.entry.number)} {DOES[seen.kind]}", details)


def bad_fresh(state, made, number):
    """Returns why a new location can't have a number, or has none (None)."""
    form = made.member.redex[0]
    at = f"at {state.places.at(form.place)}, {state.places.form(form.place)}"
    column = column_of(made.entry, 4) + sum(len(str(each)) + 1 for each in made.entry.fresh[:len(made.made)])
    if number is None:
        details = [f"found: {len(made.entry.fresh)} new locations", f"expected: another one, {at}, or _ for all"]
        return Reason(Sign.LOCATION, made.entry.line, column - 1, f"{task_of(state, made.entry.number)} makes one location more", details)
    writer = written_by(state, state.names.cells[number])
    details = [f"found: {number}", f"expected: a number that no location has, for the one made {at}", f"location {number} is there already, {writer}"]
    return Reason(Sign.LOCATION, made.entry.line, column, f"location {number} exists already", details)


def fresh_left(state, made):
    column = column_of(made.entry, 4) + sum(len(str(each)) + 1 for each in made.entry.fresh[:len(made.made)])
    details = [f"found: {len(made.entry.fresh)}", f"expected: {len(made.made)}"]
    return Reason(Sign.LOCATION, made.entry.line, column, f"{task_of(state, made.entry.number)} makes fewer new locations", details)


def no_answer(state, made, act):
    """Returns why a device can't be called where these steps call it."""
    task, entry = task_of(state, made.entry.number), made.entry
    if entry.kind == b"free" and entry.steps is not None and entry.steps != made.count:
        problem, expected = f"{task} calls a device after {made.count} steps", "a call only in the last step of a `free` line"
    elif entry.kind == b"free":
        problem, expected = f"{task} calls a device, and the answer is missing", "`= ANSWER` in the line, or `call` below it"
    else:
        problem, expected = f"{task} calls a device", "a call only in a `free` line"
    details = [f"found: {shown_act(act)}, at {state.places.at(act.place)}", f"expected: {expected}"]
    return Reason(Sign.ANSWER, entry.line, column_of(entry, 3), problem, details)


def answer_left(state, made):
    problem = f"{task_of(state, made.entry.number)} calls no device in these steps"
    details = [f"found: = {made.entry.answer}", "expected: no answer", f"after {made.count} steps it is {standing_of(state, made.member)}"]
    return Reason(Sign.ANSWER, made.entry.line, column_of(made.entry, 3), problem, details)


def other_store(state, line, cell):
    if cell is None:
        return Reason(Sign.STORE, line.line, 7, f"location {line.location} was never made")
    details = [f"found: {values.show(line.value)}", f"expected: {values.show(state.store[cell])}, {written_by(state, cell)}"]
    return Reason(Sign.STORE, line.line, 7 + len(str(line.location)) + 1, f"location {line.location} holds something else", details)


def standing(state, number):
    """Returns what a task that is left comes to, if it goes on alone."""
    from .judging import Undecided  # (the two files need each other)
    if number in state.inside:
        return Standing(Kind.INSIDE, 0, [], [f"{task_of(state, number)} is in unprotected code"])
    try:
        made = state.stands(number)
    except Undecided:
        return Standing(Kind.UNKNOWN, 0, [], [f"{task_of(state, number)} makes more steps than the judge does"])
    form, _, parts = made.member.redex
    kind = Kind.BLOCKED if form.form == "blockUntil" and not parts[0] else Kind.GOES_ON
    text = f"{task_of(state, number)} {kind.value}: after {made.count} steps it is {standing_of(state, made.member)}"
    return Standing(kind, made.count, made.made, [text, *reads_of(state, made.acts)])


def standings(state):
    return {number: standing(state, number) for number in sorted(state.members)}


def tasks_left(state, line, sign, claimed):
    """Returns which tasks are left, against what the end claims."""
    left = standings(state)
    blocked = sum(each.kind is Kind.BLOCKED for each in left.values())
    details = [f"found: {claimed}", f"expected: tasks left: {len(left)}, blocked of these: {blocked}"]
    for each in list(left.values())[:MOST_READS]:
        details += each.details
    return Reason(sign, line.line, 5, f"{claimed} isn't how this run ends", details)
