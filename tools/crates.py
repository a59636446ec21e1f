"""The toolchain, and the crates of which programs are made.

A fault is a Failure, with one line that says what to do about it.
"""
import contextlib
import hashlib
import os
import re
import shutil
import time

TOP = os.path.dirname(os.path.dirname(os.path.abspath(__file__)))
PARTS = ("src", "specs", "proofs")
LINUX = "x86_64-unknown-linux-gnu"
# Longer than the clock of the files' times stands still.
TICK = 0.02

COMPILER, LINKER, LIBRARIES = "bin/rattle", "bin/rattle-link", "rlibs"
LOGIC, BUILT_LOGIC, TOOLCHAIN = "rattle/logic/antt-project.json", "logic_built", "toolchain"
C_CODE = ("c/libos_c.a", "c/liblibc_c.a")


class Failure(Exception):
    """Why there is no program, and what to do, in one line."""


def folder_of(crate):
    return f"{TOP}/crates/{crate}"


def text_of(file):
    try:
        with open(file, encoding="utf-8") as it:
            return it.read()
    except OSError:
        return ""


def sum_of_file(file):
    with open(file, "rb") as it:
        return hashlib.sha256(it.read()).hexdigest()


def write(file, text):
    with open(file, "w", encoding="utf-8") as it:
        it.write(text)


def note_start(folder, parts, is_current):
    """Writes FOLDER/made-from, by which tools/start sees that none of these parts was changed since; unless one just was."""
    with contextlib.suppress(OSError):
        write(f"{folder}/made-from.new", " ".join(parts) + "\n")
        time.sleep(TICK)
        if is_current():
            os.replace(f"{folder}/made-from.new", f"{folder}/made-from")


class Kit:
    """The toolchain of the command `rt`."""

    def __init__(self):
        command = shutil.which("rt")
        if not command:
            raise Failure("`rt`, the command of the toolchain, is not on PATH; type export PATH=TOOLCHAIN/bin:$PATH, and then the same again")
        self.folder = os.path.dirname(os.path.dirname(os.path.realpath(command)))
        for part in (COMPILER, LINKER, LIBRARIES, LOGIC, BUILT_LOGIC, TOOLCHAIN, *C_CODE):
            if not os.path.exists(self.at(part)):
                raise Failure(f"{command} belongs to no complete toolchain, which has {self.at(part)}; put another one on PATH")
        compiler = os.stat(self.at(COMPILER))
        self.identity = f"{compiler.st_size} {compiler.st_mtime_ns} {text_of(self.at('WHAT'))}"

    def at(self, part):
        return f"{self.folder}/{part}"

    def library(self, name):
        found = self.at(f"{LIBRARIES}/{name}.rlib")
        if not os.path.isdir(found):
            raise Failure(f"crates.txt names {name}, which is no crate of it and no library of the toolchain")
        return found

    def uses(self, name):
        """Returns the libraries of the toolchain that a library of it uses."""
        return re.findall(r"^dep (\w+)$", text_of(f"{self.library(name)}/format"), re.MULTILINE)


class Crates:
    """The crates of some programs, by the rows of crates.txt: each stands in the row after those that it uses."""

    def __init__(self, programs, kit):
        self.programs, self.kit, self.named = programs, kit, {}
        for row in text_of(f"{TOP}/crates.txt").splitlines():
            head, colon, names = row.partition("#")[0].partition(":")
            if colon:
                self.named[head.split()[0]] = names.split()
        self.row = []
        for program in programs:
            if not os.path.exists(f"{folder_of(program)}/src/main.rt") or program not in self.named:
                raise Failure(f"`{program}` is no program of this repository; type tools/build.py ame ame_why_main")
            self.put_into(self.row, program)
        self.own, self.sums = {}, {}
        for crate in self.row:
            self.libraries(crate)
            self.own[crate] = self.own_sum(crate)
            parts = [kit.identity, self.own[crate], *(self.sums[name] for name in self.uses(crate))]
            self.sums[crate] = hashlib.sha256("\n".join(parts).encode()).hexdigest()

    def uses(self, crate):
        return [name for name in self.named[crate] if name in self.named]

    def libraries(self, crate):
        """Returns the toolchain's libraries that the crate uses, by their names."""
        return {name: self.kit.library(name) for name in ["std", *self.named[crate]] if name not in self.named}

    def put_into(self, row, crate):
        """Appends the crate to the row, after those that it uses."""
        if crate not in row:
            for name in self.uses(crate):
                self.put_into(row, name)
            row.append(crate)
        return row

    def files(self, crate, parts=PARTS):
        for part in parts:
            for folder, inner, names in os.walk(f"{folder_of(crate)}/{part}"):
                inner.sort()
                yield from (f"{folder}/{name}" for name in sorted(names))

    def own_sum(self, crate, parts=PARTS):
        """Returns the checksum of the names and bytes of a crate's files."""
        found = hashlib.sha256(" ".join(self.named[crate]).encode())
        for file in self.files(crate, parts):
            found.update(f"{os.path.relpath(file, TOP)} {sum_of_file(file)}\n".encode())
        return found.hexdigest()

    def lines(self, crate):
        return sum(text_of(file).count("\n") for file in self.files(crate))

    def made(self, crate):
        """Returns what is built of the crate, by its path in the crate's folder."""
        return f"out/{crate}" if crate in self.programs else f"out/rlib/{crate}.rlib"

    def stamp(self, crate):
        """Returns the file that names the sources of what is built; of a library it lies where `rt` removes it with the library."""
        return f"{folder_of(crate)}/out/{'' if crate in self.programs else 'rlib/'}built-from"

    def stamp_text(self, crate):
        if crate not in self.programs:
            return self.sums[crate]
        return f"{self.sums[crate]} {sum_of_file(f'{folder_of(crate)}/{self.made(crate)}')}"

    def is_built(self, crate):
        is_there = os.path.exists(f"{folder_of(crate)}/{self.made(crate)}")
        return is_there and text_of(self.stamp(crate)) == self.stamp_text(crate)

    def built(self):
        """Returns the crates that are done: what is built of each fits its sources, and those below it are done."""
        found = []
        for crate in self.row:
            if all(name in found for name in self.uses(crate)) and self.is_built(crate):
                found.append(crate)
        return found

    def words(self, crate, jobs):
        """Returns the call of the compiler that proves the crate and builds it, in its folder."""
        kit, is_program = self.kit, crate in self.programs
        words = [kit.at(COMPILER), "build", "--crate-name", crate, f"src/{'main' if is_program else 'lib'}.rt"]
        built = {name: f"{folder_of(name)}/{self.made(name)}" for name in self.uses(crate)}
        for name, library in {**self.libraries(crate), **built}.items():
            words += ["--extern", f"{name}={library}"]
        for folder in [kit.at(LIBRARIES), *(f"{folder_of(name)}/out/rlib" for name in self.put_into([], crate)[:-1])]:
            words += ["-L", f"dependency={folder}"]
        words += ["--antt-project", kit.at(LOGIC), "--logic-built", kit.at(BUILT_LOGIC)]
        words += ["--incremental", "out/incremental", "--jobs", str(jobs), "--links", f"{crate}="]
        if is_program:
            return [*words, "--toolchain", kit.at(TOOLCHAIN), "--backend", "llvm", "-o", f"{self.made(crate)}.o"]
        return [*words, "-o", self.made(crate)]

    def words_of_linker(self, program):
        made, kit = self.made(program), self.kit
        words = [kit.at(LINKER), "--target", LINUX, "--toolchain", kit.at(TOOLCHAIN)]
        return [*words, "-o", made, f"{made}.o", *map(kit.at, C_CODE)]
