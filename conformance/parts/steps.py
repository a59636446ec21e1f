"""The steps of one entry: made by the reductions of tools/judge, compared with what the recording observed, filled in where it has `_`."""
from typing import NamedTuple, Optional

from . import strong, values


class Act(NamedTuple):
    """What a step did that others can see, or that it saw: kind and parts as those of an observation; the place of its form."""

    kind: str
    subject: object
    value: object
    answer: Optional[int]
    place: int


class Unlike(Exception):
    """An act of a kind that is recorded without gaps isn't the next observation, which is None where there is none."""

    def __init__(self, act, observation):
        super().__init__(act, observation)
        self.act, self.observation = act, observation


class BadFresh(Exception):
    """The number of a new location is missing (None), or another location has it."""


class NoAnswer(Exception):
    """A device is called, and the entry has no answer, or goes on after the call."""


class Steps:
    """The steps of an entry so far. The walk of tools/judge keeps what they do to the state."""

    def __init__(self, state, member, entry, observations=(), is_last=False):
        self.state, self.member, self.entry = state, member, entry
        self.observations, self.seen, self.is_last = observations, 0, is_last
        self.walk = strong.Walk(member, strong.Entry(entry.kind, entry.number, 0, [], None), state.store)
        self.acts, self.made, self.count, self.is_at_act = [], [], 0, False
        self.answer, self.whole = entry.answer, state.whole if entry.kind in (b"ran", b"free") else ()

    def go(self, most):
        """Makes steps until as many as the entry says are made (`most` at most), or the member can't go on."""
        member, entry, walk, reductions, acts = self.member, self.entry, self.walk, strong.REDUCTIONS, ACTS
        is_open, is_tall = entry.steps is None and entry.kind in (b"free", b"cut"), entry.kind == b"tall"
        most = most if entry.steps is None else min(most, entry.steps)
        while self.count < most and not (is_open and self.is_over()):
            term, names, parts = member.redex
            form = term.form
            if form in acts:
                self.count, self.is_at_act = self.count + 1, True
                acts[form](self, term, *parts)
            elif form not in reductions or form == "blockUntil" and not parts[0] or is_tall and member.coming_height() > strong.MOST_HEIGHT:
                break
            else:
                self.count += 1
            reductions[form](walk, term, names, *parts)

    def is_over(self):
        """Returns whether an entry without a number of steps ends here: unprotected code at each act, a cut after what was observed."""
        return self.is_at_act if self.entry.kind == b"free" else self.seen == len(self.observations)

    def reads(self, term, cell):
        value = self.walk.sets[cell] if cell in self.walk.sets else self.state.store.get(cell)
        self.saw(Act("read", cell, value, None, term.place))

    def writes(self, term, cell, value):
        self.saw(Act("wrote", cell, value, None, term.place))

    def prints(self, term, integer):
        self.saw(Act("print", None, integer, None, term.place))

    def starts(self, term):
        self.saw(Act("starts", None, self.state.next + len(self.walk.spawned), None, term.place))

    def makes(self, term, value):
        cell = values.Cell()
        if self.entry.fresh is not None:
            if len(self.made) == len(self.entry.fresh):
                raise BadFresh(None)
            number = self.entry.fresh[len(self.made)]
            if number in self.state.names.cells:
                raise BadFresh(number)
            self.state.names.give(number, cell)
        self.made.append(cell)
        self.acts.append(Act("made", cell, value, None, term.place))
        self.walk.fresh = [cell]

    def calls(self, term, argument):
        device = term.data[0]
        if self.answer is None:
            self.answer = next((seen.answer for seen in self.observations[self.seen:] if seen.kind == "call"), None)
        if self.entry.kind != b"free" or self.answer is None or self.entry.steps not in (None, self.count):
            raise NoAnswer(Act("call", device, argument, None, term.place))
        self.saw(Act("call", device, argument, self.answer, term.place))
        self.walk.left, self.walk.answer = 0, self.answer

    def saw(self, act):
        """Compares an act with the next observation, which may leave out acts of kinds that are recorded with gaps."""
        self.acts.append(act)
        is_whole = act.kind in self.whole
        following = self.observations[self.seen] if self.seen < len(self.observations) else None
        if following and fits(following, act, self.state.names):
            self.seen += 1
            if is_whole:
                name(following, act, self.state.names)
        elif is_whole and (following or not self.is_last):
            raise Unlike(act, following)


ACTS = {"get": Steps.reads, "peek": Steps.reads, "set": Steps.writes, "print": Steps.prints, "async": Steps.starts, "ref": Steps.makes,
        "call": Steps.calls}


def fits(seen, act, names):
    """Returns whether an act is what was observed."""
    if seen.kind != act.kind:
        return False
    if act.kind in ("read", "wrote"):
        return names.may_be(seen.subject, act.subject) and values.fits(seen.value, act.value, names)
    return (seen.subject, seen.value, seen.answer) == (act.subject, act.value, act.answer)


def name(seen, act, names):
    if act.kind in ("read", "wrote"):
        names.give(seen.subject, act.subject)
        if type(seen.value) is not type(act.value):  # it may be a location, or have some
            values.name(seen.value, act.value, names)
