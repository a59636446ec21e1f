"""The two short pages: from the program to its lines, and from the text to the program.

Each definition stands on one of the two, but for words of the kit. A page that has more lines of code than it may have is no page.
"""
from dataclasses import dataclass
from typing import Callable

from layout import Failure, block, closure, clause_lines, files_of_names, glosses, kit_words, other_names, part, parts_of, rows, sections, size
from specs import TOP, Definition, Sources

KIT_NOTES = f"{TOP}/tools/headline.txt"
CALL_FILE, CALL, CLAUSE = "ame_one_run/src/call.rt", "run_by_the_rules", "one_run"
RECORD_FILE, RECORD = "ame_one_run/specs/OneRun.antt", "IsOneRun"
TEXT_FILE, TEXT_ROOT = "ame_parse/specs/Grammar.antt", "Spells"
OF_TEXTS, OF_TERMS = ("ame_lex/", "ame_parse/"), ("ame_term/",)


def clause(sources):
    """Returns the premises of the call and its clause, without the rest of its head."""
    lines = clause_lines(sources.file(CALL_FILE).text, CALL, CLAUSE)
    return lines[next(i for i, line in enumerate(lines) if line.startswith("    requires")):]


def run_first(sources, notes, given):
    """Returns the call's clause and the record with a line on each field."""
    record = sources.meaning(RECORD_FILE, RECORD)
    lines = ["## The clause", "", notes["clause"], "", "```rust", *clause(sources), "```", "", "## One run", ""]
    lines += [f"`crates/{RECORD_FILE}`{other_names(sources, [record], given)}", ""]
    return lines + block([record]) + glosses(record, notes["fields"]), record


def text_first(sources, notes, given):
    """Returns the relation between a text and its program."""
    root = sources.meaning(TEXT_FILE, TEXT_ROOT)
    lines = ["## A text spells a program", "", notes["spells"], "", f"`crates/{TEXT_FILE}`{other_names(sources, [root], given)}", ""]
    return lines + block([root]), root


@dataclass(frozen=True)
class ShortPage:
    """A page: where it stands, its notes, the most lines of code that it may have, its root, its beginning, and what another page has."""

    path: str
    notes: str
    most: int
    root: Callable
    first: Callable
    left_out: tuple

    def text(self):
        notes, sources, found, words = sections(self.notes), Sources(), {}, {}
        closure(sources, self.root(sources), lambda each: each.file.startswith(self.left_out), found, words)
        first, shown = self.first(sources, notes, files_of_names(found))
        found.pop(shown, None)
        groups, given = rows(notes["groups"]), files_of_names([*found, shown])
        files = parts_of(sources, found, groups)
        parts = {heading: part(sources, heading, told, files[heading], given) for heading, told, _ in groups}
        total = size(first) + sum(map(size, parts.values()))
        if total > self.most:
            raise Failure(f"{total} lines of code, where at most {self.most} may stand")
        return self.laid_out(notes, first, parts, total, words)

    def laid_out(self, notes, first, parts, total, words):
        headings = [line[len("## "):] for line in first if line.startswith("## ")]
        table = ["| Part | Lines |", "|---|---|", f"| {'; '.join(headings)} | {size(first)} |"]
        table += [f"| {heading} | {size(lines)} |" for heading, lines in parts.items()] + [""]
        last = ["## Notation, and words of the kit", "", notes["words"], ""] + kit_words(words, sections(KIT_NOTES)["kit"])
        text = [notes["beginning"].replace("{lines}", f"{total:,}"), "", *table, *first]
        return "\n".join(text + [line for lines in parts.values() for line in lines] + last) + "\n"


def run_root(sources):
    return Definition(CALL_FILE, [], clause(sources), [CALL])


def text_root(sources):
    return sources.meaning(TEXT_FILE, TEXT_ROOT)


SHORT_PAGES = (
    ShortPage(f"{TOP}/docs/THEOREM-RUN.md", f"{TOP}/tools/theorem-run.txt", 570, run_root, run_first, OF_TEXTS),
    ShortPage(f"{TOP}/docs/THEOREM-TEXT.md", f"{TOP}/tools/theorem-text.txt", 490, text_root, text_first, OF_TERMS),
)
