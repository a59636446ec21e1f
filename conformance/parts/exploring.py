"""All outcomes of a small program, by going through each order of entries of the strong semantics. For tests of the table of litmus programs."""
import copy

from . import judging, lines, strong

MOST_STEPS = 10_000


def entry(kind, number):
    return lines.Entry(0, kind, 0, number, None, None, None)


def outcomes(text, answers):
    """Returns each pair of the integers printed and the verdict; `answers` gives the answer of each call of a device by those so far."""
    found = set()
    explore(judging.State(strong.JUDGE.program_of(text), text, 10**12), answers, [], found)
    return found


def explore(state, answers, calls, found):
    """Goes on from a state by each task that can."""
    could_go_on = False
    for number in sorted(state.members):
        is_inside = number in state.inside
        if not is_inside and blocked(state, number):
            continue
        could_go_on = True
        following, heard = copied(state), list(calls)
        if not is_inside:
            following.enter(entry(b"ran", number), ())
        else:
            visit(following, number, answers, heard)
        explore(following, answers, heard, found)
    if not could_go_on:
        found.add((tuple(state.output), f"blocked {len(state.members)}" if state.members else "finished"))


def visit(state, number, answers, calls):
    """Makes one act of unprotected code."""
    call = pending_call(state, number)
    if call:
        calls.append(call)
    state.enter(entry(b"free", number)._replace(answer=answers(calls) if call else None), ())


def pending_call(state, number):
    """Returns the device and the argument, if the next act of unprotected code is a call."""
    from .steps import NoAnswer, Steps
    trial = copied(state)
    try:
        Steps(trial, trial.coming(entry(b"free", number)), entry(b"free", number)).go(MOST_STEPS)
    except NoAnswer as fault:
        return fault.args[0].subject, fault.args[0].value
    return None


def blocked(state, number):
    made = copied(state).stands(number)
    form, _, parts = made.member.redex
    return form.form == "blockUntil" and not parts[0]


def copied(state):
    """Returns a state that can go on alone. Values and frames are never changed in place, so they are shared."""
    made = copy.copy(state)
    made.store, made.inside, made.output = dict(state.store), set(state.inside), list(state.output)
    made.members = {number: copy.copy(member) for number, member in state.members.items()}
    made.names = copy.copy(state.names)
    made.names.cells = dict(state.names.cells)
    made.started, made.ended, made.writers, made.made = dict(state.started), dict(state.ended), dict(state.writers), list(state.made)
    return made
