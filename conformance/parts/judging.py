"""Judges a recording: goes through the strong semantics by its entries, and compares what it claims besides."""
import functools

from . import explain, library, lines, steps, strong, values
from .answers import Answer, Failure, Reason, Sign, Verdict
from .names import Names
from .places import Places
from .world import World

NOTES = (b"stuck", b"cut", b"tall")


class Undecided(Exception):
    """The judge's steps are used up, or a form is passed whose value would have height 1,001."""


class State(strong.Run):
    """A run by the entries so far, with what messages and claims need of it."""

    def __init__(self, program, text, most_steps):
        super().__init__(program)
        self.names, self.whole, self.places, self.left = Names(), frozenset(), Places(text), most_steps
        self.started = {0: (None, program.place)}  # the line and the place by which each task was started
        self.ended = {}  # the line by which each task ended
        self.writers = {}  # the line by which each location was last written
        self.made = []  # the entries, filled in

    def enter(self, entry, observations, is_last=False):
        """Makes an entry, and returns its call of a device, if it has one; raises Failure where it isn't possible here as it was observed."""
        try:
            member = self.coming(entry)
        except strong.Undefined:
            raise Failure(explain.no_task(self, entry)) from None
        made = steps.Steps(self, member, entry, observations, is_last)
        self.walk(made)
        self.check(made)
        self.take(made)
        return made.acts[-1] if made.acts and made.acts[-1].kind == "call" else None

    def walk(self, made):
        """Makes the steps of an entry."""
        try:
            made.go(self.left)
        except strong.Verdict:
            raise Undecided(f"a value would be more than {strong.MOST_HEIGHT:,} high") from None
        except steps.Unlike as unlike:
            raise Failure(explain.unlike(self, made, unlike)) from None
        except steps.BadFresh as fault:
            raise Failure(explain.bad_fresh(self, made, fault.args[0])) from None
        except steps.NoAnswer as fault:
            raise Failure(explain.no_answer(self, made, fault.args[0])) from None
        self.left -= made.count + 1
        if self.left < 0 or self.left == 0 and made.count != made.entry.steps:
            raise Undecided("the judge's steps are used up: --steps allows more")

    def check(self, made):
        """Raises Failure where the steps made don't lead to what the entry says, or leave something of it over."""
        entry, (form, _, _) = made.entry, made.member.redex
        closes = entry.kind == b"free" and form.form == "unprotected"
        if closes and (entry.steps == made.count + 1 or entry.steps is None and not made.is_at_act):
            made.count, made.walk.left = made.count + 1, 1
        else:
            made.walk.left = 0
        if entry.steps not in (None, made.count) or not leads_to_its_end(made):
            raise Failure(explain.other_steps(self, made))
        if entry.fresh is not None and len(made.made) < len(entry.fresh):
            raise Failure(explain.fresh_left(self, made))
        if entry.answer is not None and not any(act.kind == "call" for act in made.acts):
            raise Failure(explain.answer_left(self, made))
        if made.seen < len(made.observations):
            raise Failure(explain.not_seen(self, made))

    def take(self, made):
        """Takes over what an entry did."""
        entry, walk, first = made.entry, made.walk, self.next
        answer = made.acts[-1].answer if made.acts and made.acts[-1].kind == "call" else None
        filled = strong.Entry(entry.kind, entry.number, made.count, made.made, answer)
        try:
            self.end(filled, walk, made.member, made.member.redex[0].form)
        except strong.Undefined:
            raise Failure(explain.other_steps(self, made)) from None
        self.made.append((entry.seat, filled))
        if entry.kind in NOTES:
            for cell in made.made:
                self.names.drop(cell)
            return
        for cell in walk.sets:
            self.writers[cell] = entry.line
        if walk.spawned:
            places = [act.place for act in made.acts if act.kind == "starts"]
            self.started.update((number, (entry.line, place)) for number, place in enumerate(places, first))
        if entry.number not in self.members:
            self.ended[entry.number] = entry.line

    def stands(self, number, kind=b"stuck"):
        """Returns the steps to where a task that isn't inside comes to in this state; they change nothing."""
        made = steps.Steps(self, self.coming(lines.Entry(0, kind, 0, number, None, None, None)),
                           lines.Entry(0, kind, 0, number, None, None, None))
        self.walk(made)
        return made


def leads_to_its_end(made):
    """Returns whether the member stands where an entry of its kind ends."""
    kind, (form, _, parts) = made.entry.kind, made.member.redex
    if kind == b"ran":
        return form.form in ("end", "unprotected")
    if kind == b"stuck":
        return form.form == "blockUntil" and not parts[0]
    if kind == b"tall":
        return made.member.coming_height() > strong.MOST_HEIGHT
    return kind == b"cut" or made.count > 0


class Judging:
    """A recording that is judged line by line."""

    def __init__(self, program, text, settings):
        self.state, self.world = State(program, text, settings.most_steps), World(settings.has_known_devices)
        self.waiting, self.observations, self.stores, self.end, self.entries = None, [], {}, None, 0
        self.line = 0  # the last line taken

    def take(self, number, line, text):
        """Takes a line, and judges what it makes certain; raises Bad where it can't follow those before it."""
        if type(line) is not lines.Observation:
            TAKES[type(line)](self, line, text)
        elif self.waiting is None:
            raise lines.Bad(number, 3, "observation without an entry", lines.shown(text), "an observation only below an entry")
        else:
            self.observations.append(line)
        self.line = number

    def enter(self, line, text):
        self.close()
        if self.stores:
            expected = "only `store`, `output`, `heard` and `end` lines after a `store` line"
            raise lines.Bad(line.line, 1, "entry after the store", lines.shown(text), expected)
        self.waiting = line

    def write(self, line, text):
        self.close()
        self.world.wrote(line)

    def hear(self, line, text):
        self.close()
        self.world.heard(line)

    def say_whole(self, line, text):
        if self.line:
            raise lines.Bad(line.line, 1, "`all` after other lines", lines.shown(text), "`all` only directly after the program")
        self.state.whole = line.kinds

    def close(self, is_last=False):
        """Judges the entry whose observations are complete now."""
        if self.waiting is None:
            return
        entry, observations, self.waiting, self.observations = self.waiting, self.observations, None, []
        printed = len(self.state.output)
        call = self.state.enter(entry, observations, is_last)
        self.entries += 1
        if call:
            self.world.called(entry.line, call)
        if len(self.state.output) > printed:
            self.world.printed(entry.line, self.state.output[printed:])

    def check_store(self, line, text):
        """Compares a location with what it holds; one that has no number yet may be any of those without."""
        self.close()
        if line.location in self.stores:
            expected = f"each location once: line {self.stores[line.location].line} has this one"
            raise lines.Bad(line.line, 7, "location of the store twice", lines.shown(text), expected)
        self.stores[line.location] = line
        cells, store = self.state.names.cells, self.state.store
        cell = cells.get(line.location)
        if cell is None and any(each.number is None for each in store):
            return
        if cell is None or not values.fits(line.value, store[cell], self.state.names):
            raise Failure(explain.other_store(self.state, line, cell))

    def check_end(self, line, text):
        """Judges the claim of the end, and what the end makes certain."""
        self.close()
        self.end = line
        self.world.check_end(line, self.state.whole)
        if "store" in self.state.whole:
            missing = [number for number, cell in self.state.names.cells.items() if number not in self.stores]
            if missing:
                raise Failure(Reason(Sign.STORE, line.line, 1, f"location {min(missing)} is missing among the `store` lines"))
        if line.verdict == "finished" and self.state.members:
            raise Failure(explain.tasks_left(self.state, line, Sign.FINISHED, "finished"))
        if line.verdict == "blocked":
            self.check_blocked(line)
        if line.verdict == "tall":
            self.check_tall(line)

    def check_blocked(self, line):
        state = self.state
        standing = explain.standings(state)
        if len(standing) != line.number or any(each.kind is not explain.Kind.BLOCKED for each in standing.values()):
            if any(each.kind is explain.Kind.UNKNOWN for each in standing.values()):
                raise Undecided("a task goes on without an end in sight: --steps allows more")
            raise Failure(explain.tasks_left(state, line, Sign.BLOCKED, f"blocked {line.number}"))
        for number, each in sorted(standing.items()):
            state.made.append((0, strong.Entry(b"stuck", number, each.steps, each.made, None)))

    def check_tall(self, line):
        entry = lines.Entry(line.line, b"tall", 0, line.number, None, None, None)
        try:
            self.state.enter(entry, ())
        except Failure as failure:
            raise Failure(Reason(Sign.TALL, line.line, 1, failure.reason.problem, failure.reason.details)) from None


TAKES = {lines.Entry: Judging.enter, lines.Output: Judging.write, lines.Heard: Judging.hear, lines.Whole: Judging.say_whole,
         lines.Store: Judging.check_store, lines.End: Judging.check_end}


class Settings:
    """How much the judge does for a recording, and whether the devices are those of LANGUAGE: 0 counts its calls, 1 adds them up."""

    def __init__(self, most_steps=100_000_000, has_known_devices=False):
        self.most_steps, self.has_known_devices = most_steps, has_known_devices


def judge(source, settings):
    """Returns the answer of the next recording of a source and what was judged of it, and None twice at the end. The proved judge, if its library
    is built, judges the certificate of a valid recording too; raises library.Disagreement if it finds it otherwise."""
    begin, judging = source.number + 1, None
    answer = Answer(Verdict.VALID, source.name, begin)
    try:
        text = source.program()
        if text is None:
            return None, None
        judging = Judging(program_of(text, begin), text, settings)
        judge_lines(source, judging)
        library.check(judging.state)
    except lines.Bad as fault:
        fail(answer, Verdict.BAD, Reason(Sign.TEXT, fault.line, fault.column, fault.problem, [f"found: {fault.found}", f"expected: {fault.expected}"]))
        source.skip()
    except Failure as failure:
        fail(answer, Verdict.INVALID, failure.reason)
        source.skip()
    except Undecided as fault:
        line = judging.line
        fail(answer, Verdict.UNDECIDED, Reason(Sign.LIMIT, line, 1, str(fault)))
        source.skip()
    if judging:
        answer.entries, answer.output, answer.end = judging.entries, judging.state.output, judging.end
    answer.is_cut = source.is_cut
    return answer, judging


def fail(answer, verdict, reason):
    answer.verdict, answer.reason = verdict, reason


def judge_lines(source, judging):
    """Judges the lines up to the end of the recording."""
    text = source.line()
    while text is not None:
        line = lines.read(text, source.number)
        kind = type(line)
        if kind is lines.Program:
            source.back(text)
            break
        judging.take(source.number, line, text)
        if kind is lines.End:
            return
        text = source.line()
    judging.close(is_last=True)


@functools.lru_cache(maxsize=64)
def remembered_program(text):
    return strong.JUDGE.program_of(text)


def program_of(text, line):
    """Returns the program that a text spells; raises Bad where it has none, or where its types are refused. The text begins after a line."""
    try:
        return remembered_program(text)
    except strong.Verdict as verdict:
        problem, _, place = verdict.args[1].rpartition(" at ")
        row, column = Places(text).line_and_column(int(place))
        found = lines.shown(text[int(place):].split(b"\n")[0]) or "the end of the program"
        raise lines.Bad(line + row, column, problem, found, EXPECTED.get(problem, "a program by docs/LANGUAGE.md")) from None


EXPECTED = {f"types: rule {rule}": text for rule, text in {
    1: "a part of the type that the form wants", 2: "a function", 3: "a call, `call` or `peek` that the effect around it allows",
    4: "a reference of the sort of the code around it", 5: "a reference", 6: "`blockUntil` only in protected code",
    7: "`unprotected` only in protected code", 8: "device 0 or 1", 9: "a part of type Unit", 11: "a pair"}.items()}
