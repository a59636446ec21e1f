"""Keeps what failed in a folder: the program, the recording and the answer of each run."""
import os


class Keeper:
    """Writes into a folder, which is made if it isn't there."""

    def __init__(self, folder):
        self.folder = folder
        os.makedirs(folder, exist_ok=True)

    def keep(self, result, name=None):
        base = os.path.join(self.folder, (name or f"{result.case.name}-{result.case.seed}").replace(" ", "-").replace("/", "-"))
        for ending, content in ((".ame", result.case.text), (".recording", result.recording), (".answer", result.answer.text().encode() + b"\n")):
            with open(base + ending, "wb") as file:
                file.write(content)
