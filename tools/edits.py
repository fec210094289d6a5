"""The wrong bodies below crates/NAME/must-fail, and the lines of the sources that each of them changes.

`rules` uses it. An edit is a text file of lines `file: PATH`, `old: TEXT` and `new: TEXT`, each pair of texts behind
the file that it changes. A text that stands in its file is found, one that an earlier pair made is not.
"""

import glob
import os
from typing import NamedTuple

import sources


class Edit(NamedTuple):
    """A wrong body: its path from the top of the repository, and what it changes, as pairs of a file and a line."""

    path: str
    places: list[tuple[str, int]]

    @property
    def name(self) -> str:
        """What the wrong body does, in the words of its file's name."""
        return os.path.basename(self.path).removesuffix(".edit")

    def is_within(self, path: str, first: int, last: int) -> bool:
        """Whether it changes one of these lines of the file."""
        return any(file == path and first <= line <= last for file, line in self.places)


def line_of(path: str, text: str) -> int | None:
    """The line of a file, from 1 on, in which the text stands for the first time, or none."""
    lines = sources.read(path) if os.path.isfile(f"{sources.TOP}/{path}") else []
    return next((at for at, line in enumerate(lines, 1) if text in line), None)


def read(path: str) -> Edit:
    """The edit of that file."""
    crate, file, places = os.path.dirname(os.path.dirname(path)), "", []
    for line in sources.read(path):
        word, _, text = line.partition(": ")
        if word == "file":
            file = f"{crate}/{text.strip()}"
        elif word == "old" and (at := line_of(file, text)):
            places.append((file, at))
    return Edit(path, places)


def edits() -> list[Edit]:
    """All wrong bodies, by their paths."""
    found = glob.glob(f"{sources.TOP}/crates/*/must-fail/*.edit")
    return [read(os.path.relpath(path, sources.TOP)) for path in sorted(found)]
