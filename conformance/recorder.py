"""Writes recordings (docs/CONFORMANCE.md) from a runtime in Python. Call it under the lock that orders commits: the order of the lines is the claim."""


class Recorder:
    """Writes a recording line by line to a binary stream, each at once, so that a crash leaves what was seen."""

    def __init__(self, stream, program, without_gaps=()):
        """Begins with the program's bytes. The kinds of `without_gaps` are recorded for each line, or are all there at the end."""
        self.stream = stream
        self.write(b"program %d\n%s\n" % (len(program), program))
        if without_gaps:
            self.line("all", *without_gaps)

    def write(self, text):
        self.stream.write(text)
        self.stream.flush()

    def line(self, *words):
        self.write(b"%s\n" % " ".join(map(str, words)).encode())

    def entry(self, kind, task, observations=(), steps="_", locations="_", answer=None, seat=0):
        """Writes an entry with what it observed, a text each such as `read 3 7`; a location is its number, of `locations` a list."""
        locations = locations if locations == "_" else " ".join(map(str, locations))
        words = [kind, seat, task, steps, *([locations] if locations else []), *(["=", answer] if answer is not None else [])]
        self.write("".join(f"{line}\n" for line in [" ".join(map(str, words)), *(f"  {each}" for each in observations)]).encode())

    def output(self, integer):
        """Writes that an integer was printed to the world."""
        self.line("output", integer)

    def heard(self, device, argument, answer):
        """Writes that a device was called."""
        self.line("heard", device, argument, "=", answer)

    def end(self, verdict, store=()):
        """Ends with pairs of a location and a value, and `finished`, `blocked N`, `spent` or `tall TASK`."""
        for location, value in store:
            self.line("store", location, spelled(value))
        self.line("end", verdict)


def spelled(value):
    """Returns a value's text: None is unit, a tuple a pair; a text, as `@3` or `fn`, stays."""
    if isinstance(value, tuple):
        return f"(pair {spelled(value[0])} {spelled(value[1])})"
    return "unit" if value is None else str(value).lower() if isinstance(value, bool) else str(value)
