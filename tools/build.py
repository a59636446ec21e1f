#!/usr/bin/env python3
"""build.py [PROGRAM ..]: proves the crates of programs (ame and ame_why_main, if none is named), and builds these.

It runs as many proofs at a time as the machine has room for, and reports on standard error how far it is. Programs of one call
share what both use. It calls the compiler as `rt` does, crate by crate, each as soon as those that it uses are there. A crate
that is done keeps in out/ the checksum of its sources and of those below it, so a later run goes on with what is left. What
`rt ci` proved of the same files on this machine is taken over (tools/kept.py). The file tools/weights has how long each crate
takes one processor; from these come the order, the number of jobs of each crate, and the time that is reported.
"""
import contextlib
import fcntl
import math
import os
import shutil
import signal
import subprocess
import sys
import time
from collections import namedtuple

sys.dont_write_bytecode = True

from crates import TOP, Crates, Failure, Kit, folder_of, note_start, sum_of_file, text_of, write

PROGRAMS = ("ame", "ame_why_main")
FAILED = 70

LINES_A_SECOND = 15
MEMORY_OF_A_JOB = 1_500_000_000
MOST_JOBS = 8
# Where less of a processor than this is idle, one more check would only slow down the others.
LEAST_IDLE = 0.5
# How many seconds of work the first guess of this machine's pace counts for.
FIRST_GUESS = 60
# How many seconds the search for what `rt ci` kept may take.
SEARCH = 120

Work = namedtuple("Work", "process jobs since")


class Interrupt(Exception):
    """The number of a signal that asks this process to end."""


class Screen:
    """Standard error: lines that stay, and on a terminal one that the next one replaces."""

    def __init__(self):
        self.is_live = os.isatty(2)
        self.shown = ""

    def put(self, text):
        with contextlib.suppress(OSError):
            os.write(2, f"\r\033[K{text}".encode() if self.is_live else text.encode())

    def say(self, text):
        self.put(f"{text}\n")
        self.shown = ""

    def show(self, text):
        with contextlib.suppress(OSError):
            text = text[: os.get_terminal_size(2).columns - 1]
        if self.is_live and text != self.shown:
            self.put(text)
            self.shown = text


def processors():
    """How many there are for this process, also by the quota of its control group."""
    allowed = len(os.sched_getaffinity(0))
    with contextlib.suppress(ValueError):
        quota, period = map(int, text_of("/sys/fs/cgroup/cpu.max").split())
        return max(1, min(allowed, quota // period))
    return allowed


def free_memory():
    rows = (row.split() for row in text_of("/proc/meminfo").splitlines())
    return next(int(row[1]) * 1024 for row in rows if row[0] == "MemAvailable:")


def speed(jobs):
    """How many processors a check with so many jobs keeps at work, from crates that were timed with 1, 2 and 4."""
    return 1 / (0.4 + 0.6 / jobs)


def weights_of(crates):
    """The seconds that each crate takes one processor: as tools/weights has them, else by its lines."""
    rows = (row.split() for row in text_of(f"{TOP}/tools/weights").splitlines() if not row.startswith("#"))
    known = {name: int(seconds) for name, seconds in rows}
    return {crate: known.get(crate) or 10 + crates.lines(crate) // LINES_A_SECOND for crate in crates.row}


class Plan:
    """Which crates begin when, with how many jobs: those first on which the longest row of others waits."""

    def __init__(self, crates, done):
        self.uses = {crate: crates.uses(crate) for crate in crates.row}
        self.weights = weights_of(crates)
        behind = {}
        for crate in reversed(crates.row):
            behind[crate] = self.weights[crate] + max([behind[it] for it in behind if crate in self.uses[it]], default=0)
        self.order = sorted(crates.row, key=lambda crate: -behind[crate])
        self.processors = processors()
        self.room = max(1, free_memory() // MEMORY_OF_A_JOB)
        self.most = min(range(1, min(MOST_JOBS, self.processors) + 1), key=lambda most: self.seconds(done, {}, {}, most))

    def beginners(self, done, jobs, most):
        """The crates that begin now beside those that have these jobs, with jobs of their own."""
        idle, room, begun = self.processors - sum(map(speed, jobs.values())), self.room - sum(jobs.values()), {}
        for crate in self.order:
            is_ready = crate not in done and crate not in jobs and all(name in done for name in self.uses[crate])
            if is_ready and idle >= LEAST_IDLE and room > 0:
                fit = (it for it in range(1, min(most, room) + 1) if it == 1 or speed(it) <= idle)
                begun[crate] = max(fit)
                idle, room = idle - speed(begun[crate]), room - begun[crate]
        return begun

    def seconds(self, done, jobs, rest, most):
        """How long the crates that aren't done take by this plan; rest is what those at work still take one processor."""
        done, jobs, rest, passed = set(done), dict(jobs), dict(rest), 0
        while True:
            begun = self.beginners(done, jobs, most)
            jobs.update(begun)
            rest.update({crate: self.weights[crate] for crate in begun})
            if not jobs:
                return passed
            share = max(1, sum(map(speed, jobs.values())) / self.processors)
            first = min(jobs, key=lambda crate: rest[crate] / speed(jobs[crate]))
            step = rest[first] / speed(jobs[first])
            passed += step * share
            rest = {crate: rest[crate] - step * speed(jobs[crate]) for crate in jobs if crate != first}
            done.add(first)
            del jobs[first]


class Build:
    """The crates that are done, those at work, and how far this is."""

    def __init__(self, crates, screen, held):
        self.crates, self.screen, self.held = crates, screen, held
        self.done = crates.built()
        self.plan = Plan(crates, self.done)
        self.at_work = {}
        self.planned = self.took = FIRST_GUESS
        self.since = time.monotonic()

    def jobs(self):
        return {crate: it.jobs for crate, it in self.at_work.items()}

    def minutes_left(self):
        pace, rest = self.took / self.planned, {}
        for crate, it in self.at_work.items():
            gone = (time.monotonic() - it.since) / pace * speed(it.jobs)
            rest[crate] = max(self.plan.weights[crate] - gone, self.plan.weights[crate] / 20)
        seconds = self.plan.seconds(self.done, self.jobs(), rest, self.plan.most) * pace
        return f"about {math.ceil(seconds / 60)} min"

    def tell_start(self):
        count, left = len(self.crates.row), len(self.crates.row) - len(self.done)
        if not left:
            return
        what = f"{left} of {count} crates are left" if self.done else f"{count} crates"
        self.screen.say(f"{named(self.crates.programs)} proved first: {what}, {self.minutes_left()} on this machine; ./try needs no proof")

    def how_far(self):
        count = len(self.crates.row)
        return f"{len(self.done)} of {count}" + f", {self.minutes_left()} left" * (len(self.done) < count)

    def begin(self, crate, jobs):
        folder = folder_of(crate)
        if crate in self.crates.programs:
            for old in (self.crates.stamp(crate), f"{folder}/{self.crates.made(crate)}", f"{folder}/out/made-from"):
                with contextlib.suppress(FileNotFoundError):
                    os.remove(old)
        else:
            shutil.rmtree(f"{folder}/out/rlib", ignore_errors=True)
            os.makedirs(f"{folder}/out/rlib")
        os.makedirs(f"{folder}/out", exist_ok=True)
        self.at_work[crate] = Work(self.call(crate, self.crates.words(crate, jobs), "wb"), jobs, time.monotonic())

    def call(self, crate, words, mode):
        """Starts a command in the crate's folder, which writes to out/build.log and shares what keeps others out."""
        folder = folder_of(crate)
        with open(f"{folder}/out/build.log", mode) as log:
            return subprocess.Popen(
                words, cwd=folder, stdin=subprocess.DEVNULL, stdout=log, stderr=log, start_new_session=True, pass_fds=self.held
            )

    def end(self, crate):
        """Notes that a crate is done, or ends the build where it failed."""
        it = self.at_work.pop(crate)
        status, seconds = it.process.returncode, time.monotonic() - it.since
        if status == -signal.SIGKILL and self.plan.room > 1:
            self.plan.room = max(1, (it.jobs + sum(self.jobs().values())) // 2)
            self.screen.say(f"{crate} was killed, most likely for memory: fewer checks run at a time from here on")
            return
        if crate in self.crates.programs and not status:
            status = self.call(crate, self.crates.words_of_linker(crate), "ab").wait()
        if status:
            raise Failure(f"{crate} failed with status {status} after {seconds:.0f} s; see {folder_of(crate)}/out/build.log")
        if self.crates.own_sum(crate) != self.crates.own[crate]:
            raise Failure(f"{crate} was changed while it was proved; start again")
        write(self.crates.stamp(crate), self.crates.stamp_text(crate))
        self.done.append(crate)
        self.took += seconds
        self.planned += self.plan.weights[crate] / speed(it.jobs)
        if not self.screen.is_live:
            self.screen.say(f"{self.how_far()}: {crate} took {seconds:.0f} s")

    def run(self):
        self.tell_start()
        while len(self.done) < len(self.crates.row):
            for crate, jobs in self.plan.beginners(self.done, self.jobs(), self.plan.most).items():
                self.begin(crate, jobs)
            self.screen.show(f"{self.how_far()}: {', '.join(self.at_work)}")
            time.sleep(0.2)
            for crate, it in [*self.at_work.items()]:
                if it.process.poll() is not None:
                    self.end(crate)
        self.tell_end()

    def tell_end(self):
        minutes, seconds = divmod(round(time.monotonic() - self.since), 60)
        for program in self.crates.programs:
            found = sum_of_file(f"{folder_of(program)}/{self.crates.made(program)}")
            self.screen.say(f"{program} is proved and built, in {minutes} min {seconds} s; its sha256 is {found}")

    def stop(self):
        for it in self.at_work.values():
            with contextlib.suppress(ProcessLookupError):
                os.killpg(it.process.pid, signal.SIGKILL)
            it.process.wait()


def take_kept(crates, screen):
    """Takes over what `rt ci` proved and built of the same files on this machine."""
    how = {"stdin": subprocess.DEVNULL, "stdout": subprocess.PIPE, "stderr": subprocess.DEVNULL}
    taken = []
    for program in crates.programs:
        words = [sys.executable, f"{TOP}/tools/kept.py", program, *crates.built()]
        with contextlib.suppress(OSError, subprocess.TimeoutExpired):
            found = subprocess.run(words, text=True, timeout=SEARCH, **how)
            names = [] if found.returncode else found.stdout.split()
            for crate in names:
                if crates.own_sum(crate) == crates.own[crate]:
                    write(crates.stamp(crate), crates.stamp_text(crate))
            taken += names
    if taken:
        screen.say(f"`rt ci` proved {len(taken)} of the {len(crates.row)} crates on this machine")


def hold(crates, screen):
    """Keeps `rt` and other builds out of the crates until this process and all that it started have ended."""
    held = [os.open(folder, os.O_RDONLY) for folder in sorted(map(folder_of, crates.row))]
    for folder in held:
        try:
            fcntl.flock(folder, fcntl.LOCK_EX | fcntl.LOCK_NB)
        except BlockingIOError:
            screen.say("another build is at work here, and this one waits for its end")
            fcntl.flock(folder, fcntl.LOCK_EX)
        except OSError:
            # (some file systems have no locks)
            break
    return held


def open_streams():
    """Opens each of the three streams that is closed, so that no other file takes its number."""
    while os.open(os.devnull, os.O_RDWR) <= 2:
        pass


def interrupt(number, _):
    raise Interrupt(number)


def named(programs):
    """Returns the names of programs, with the verb that follows."""
    return f"{' and '.join(programs)} {'is' if len(programs) == 1 else 'are'}"


def unbuilt(programs, kit):
    """Returns the programs that are not built from these sources."""
    return [program for program in programs if not Crates([program], kit).is_built(program)]


def build(programs, kit, screen):
    """Builds programs that are not built from these sources."""
    held = hold(Crates(programs, kit), screen)
    # (the build that was waited for may have built them, of other sources too)
    programs = unbuilt(programs, kit)
    if programs:
        crates = Crates(programs, kit)
        take_kept(crates, screen)
        it = Build(crates, screen, held)
        try:
            it.run()
        finally:
            it.stop()


def note_starts(program, kit):
    """Has tools/start run the program at once until a file of its crates is changed."""
    crates = Crates([program], kit)
    parts = ["crates.txt", *(f"crates/{crate}" for crate in crates.row), f"crates/{program}/{crates.made(program)}"]
    note_start(f"{folder_of(program)}/out", parts, lambda: not unbuilt([program], kit))


def make(programs, screen):
    """Builds those of the programs that are not built from these sources already."""
    kit = Kit()
    left = unbuilt(programs, kit)
    if left:
        build(left, kit, screen)
    for program in programs:
        note_starts(program, kit)


def main():
    programs = sys.argv[1:] or PROGRAMS
    if "--help" in programs:
        print(__doc__)
        return
    open_streams()
    screen = Screen()
    for number in (signal.SIGINT, signal.SIGTERM, signal.SIGHUP):
        if signal.getsignal(number) != signal.SIG_IGN:
            signal.signal(number, interrupt)
    try:
        make([*dict.fromkeys(programs)], screen)
    except (Failure, OSError) as it:
        screen.say(str(it))
        sys.exit(FAILED)
    except Interrupt as it:
        screen.say("stopped; the next start goes on with what is left")
        sys.exit(128 + it.args[0])


if __name__ == "__main__":
    main()
