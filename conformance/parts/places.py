"""Places in a program's text: lines, columns and the forms there."""


NEWLINE = b"\n"


class Places:
    """The lines of a program, for messages."""

    def __init__(self, text):
        self.text = text

    def at(self, place):
        """Returns LINE:COLUMN of an offset, both counted from 1."""
        return f"{self.text.count(NEWLINE, 0, place) + 1}:{place - self.text.rfind(NEWLINE, 0, place)}"

    def form(self, place):
        """Returns the beginning of the form at an offset, on one line."""
        rest = b" ".join(self.text[place:place + 400].split())
        whole = rest[:closing(rest)]
        return (whole if len(whole) <= 48 else whole[:46] + b"..").decode("latin-1")

    def line_and_column(self, place):
        """Returns the same as `at`, as numbers."""
        return self.text.count(NEWLINE, 0, place) + 1, place - self.text.rfind(NEWLINE, 0, place)


def closing(text):
    """Returns the length of the form that bytes begin with, as far as they go."""
    depth = 0
    for at, byte in enumerate(text):
        depth += (byte == 40) - (byte == 41)
        if depth == 0 and (byte == 41 or text[at + 1:at + 2] in (b" ", b")", b"")):
            return at + 1
    return len(text)
