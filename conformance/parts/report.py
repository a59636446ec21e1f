"""What a campaign found, as text: a table by signs, and the least program of each with its recording and the reason."""

from . import answers

MOST_LINES = 60


def least(found):
    """Returns the least program of a failure, its recording, and the reason."""
    result = found.result
    program = result.case.text.decode("utf-8", "replace").rstrip("\n")
    lines = result.recording.decode("utf-8", "replace").splitlines()
    after = result.case.text.count(b"\n") + 2 if lines and lines[0].startswith("program ") else 0
    shown = [f"{number:4}  {line}" for number, line in enumerate(lines, 1)][after:]
    if len(shown) > MOST_LINES:
        shown = [*shown[:MOST_LINES // 2], "      ..", *shown[-MOST_LINES // 2:]]
    return "\n".join([f"seed {result.case.seed}, runs to make it smaller: {found.runs}", program, *shown, result.answer.text()])


def table(failures):
    """Returns a row for each sign: how often it was seen, and where first."""
    rows = [("sign", "runs", "first seen")]
    for sign in answers.Sign:
        found = [result for result in failures if result.answer.reason.sign is sign]
        if found:
            rows.append((sign.value, str(len(found)), f"{found[0].case.name}, seed {found[0].case.seed}"))
    widths = [max(len(row[column]) for row in rows) for column in range(2)]
    return "\n".join(f"{row[0]:{widths[0]}}  {row[1]:>{widths[1]}}  {row[2]}" for row in rows)
