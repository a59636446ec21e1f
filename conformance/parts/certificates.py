"""The certificate of a judged recording: its journal with all that was filled in, and its program."""


def of(state):
    """Returns the certificate. Locations without a number get the least that no other has."""
    numbers, unused = {}, state.names.unused()

    def number(cell):
        if cell.number is not None:
            return cell.number
        if cell not in numbers:
            numbers[cell] = next(unused)
        return numbers[cell]

    journal = [spelled(seat, entry, number) for seat, entry in state.made]
    return "".join(f"{line}\n" for line in journal).encode() + b"program\n" + state.places.text


def spelled(seat, entry, number):
    words = [entry.kind.decode(), seat, entry.number, entry.steps, *map(number, entry.fresh)]
    return " ".join(map(str, words)) + ("" if entry.answer is None else f" = {entry.answer}")
