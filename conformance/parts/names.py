"""The numbers of a run's locations, some of which the recording doesn't say."""


class Names:
    """Which location has which number. A location without one gets it where the recording can't mean another location."""

    def __init__(self):
        self.cells = {}

    def may_be(self, number, cell):
        """Returns whether a location may have a number; None stands for any."""
        if number is None:
            return True
        return cell.number == number if cell.number is not None else number not in self.cells

    def give(self, number, cell):
        if number is not None and cell.number is None:
            cell.number = number
            self.cells[number] = cell

    def drop(self, cell):
        """Takes back the number of a location that was there only for a note."""
        if cell.number is not None:
            del self.cells[cell.number]

    def unused(self):
        """Yields the numbers that no location has."""
        number = 0
        while True:
            if number not in self.cells:
                yield number
            number += 1
