"""The lines of a stream that has recordings one after another, read as they are written."""
from . import lines, strong

HEAD = b"program "


class Source:
    """Reads lines and programs, and counts lines from 1. A last line without its line feed is left out, and `is_cut` says so."""

    def __init__(self, stream, name):
        self.stream, self.name, self.number, self.kept = stream, name, 0, None
        self.is_cut = self.is_over = self.has_begun = False

    def line(self):
        """Returns the next line without its line feed, or None at the end."""
        if self.kept is not None:
            text, self.kept = self.kept, None
            return text
        text = self.stream.readline()
        if not text.endswith(b"\n"):
            self.is_cut, self.is_over = self.is_cut or text != b"", True
            return None
        self.number += 1
        return text[:-1]

    def back(self, text):
        """Gives back the last line, which is read again."""
        self.kept = text

    def program(self):
        """Returns the text of the program that a recording begins with; None at the end of the stream."""
        text = None if self.is_over else self.line()
        if text is None and (self.has_begun or not self.is_cut):
            return None
        self.has_begun = True
        said = lines.read(text, self.number) if text and text.startswith(HEAD) else None
        if not isinstance(said, lines.Program):
            found = "an incomplete line" if text is None else lines.shown(text) or "an empty line"
            raise lines.Bad(self.number + (text is None), 1, "bad beginning", found, "program SIZE")
        if said.size > strong.MOST_BYTES:
            raise lines.Bad(self.number, len(HEAD) + 1, "program too long", f"{said.size} bytes", f"at most {strong.MOST_BYTES} bytes")
        program = self.stream.read(said.size)
        end = self.stream.read(1)
        self.number += program.count(b"\n") + 1
        if len(program) < said.size or end != b"\n":
            self.fail_after(program, end, said.size)
        return program

    def fail_after(self, program, end, size):
        """Raises that the program is shorter than its size, or isn't followed by a line feed."""
        found = f"the end of the text after {len(program)} bytes" if end == b"" else lines.shown(end)
        column = len(program) - program.rfind(b"\n")
        raise lines.Bad(self.number, column, "bad size of the program", found, f"a line feed directly after the program's {size} bytes")

    def skip(self):
        """Goes on to the next line that begins a recording."""
        text = self.line()
        while text is not None and not text.startswith(HEAD):
            text = self.line()
        self.back(text)
