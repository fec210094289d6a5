"""What `filter` has made in its folder, by a list that it keeps there: it replaces and takes away nothing else."""

import json
import os
import tempfile
from collections.abc import Iterable
from pathlib import Path

from wrapper.outputs import listed
from wrapper.pieces import Refused
from wrapper.program import NOT_RUN

LIST = "made.json"
FORM = "what spin filter has made here"

# The folder in which pieces are kept until they are joined.
PIECES = "pieces"


# What tells a file from others of its name.
Identity = list[int]


def identity(file: Path) -> Identity:
    """What tells a file from others of its name, and from itself after a change."""
    found = os.lstat(file)
    return [found.st_size, found.st_mtime_ns]


class Made:
    """The list of a folder: of each name that was made there what tells the file of it."""

    def __init__(self, folder: Path) -> None:
        self.folder = folder
        self.known: dict[str, list[Identity]] = {}

    def read(self) -> None:
        """Reads the list; a file of its name that is none stays unread."""
        try:
            text = json.loads((self.folder / LIST).read_text())
            self.known = text["made"] if text["form"] == FORM else {}
        except (FileNotFoundError, ValueError, KeyError, TypeError):
            self.known = {}

    def write(self) -> None:
        """Writes the list, whole or not at all."""
        kept: dict[str, list[Identity]] = {LIST: [], **self.known}
        handle, name = tempfile.mkstemp(dir=self.folder, prefix=f".{LIST}")
        os.fchmod(handle, 0o644)
        with open(handle, "w") as file:
            json.dump({"form": FORM, "made": kept}, file)
        os.replace(name, self.folder / LIST)
        self.known = kept

    def has(self, name: str) -> bool:
        """Whether what stands there under that name was made."""
        if name in (PIECES, LIST):
            return name in self.known
        return identity(self.folder / name) in self.known.get(name, [])

    def begin(self, names: Iterable[str]) -> None:
        """Begins to make what has these names; raises `Refused` where one stands there that wasn't made."""
        standing = [name for name in (*names, PIECES, LIST) if os.path.lexists(self.folder / name)]
        # another part may make the folder of pieces just now, which is in its list before it stands
        self.read()
        strange = [name for name in standing if not self.has(name)]
        if strange:
            these = "it" if len(strange) == 1 else "them"
            what = f"{self.folder} has {listed(strange)}, and no call of filter left {these} so"
            raise Refused(NOT_RUN, f"{what}; nothing is done: take {these} away, or name another folder with --out")
        if PIECES not in self.known:
            self.known[PIECES] = []
            self.write()

    def put(self, file: Path, name: str) -> None:
        """Gives a file that was made its name in the folder."""
        self.known[name] = [*self.known.get(name, []), identity(file)]
        self.write()
        os.replace(file, self.folder / name)

    def take_away(self, name: str) -> None:
        """Takes away what was made under that name."""
        if os.path.lexists(self.folder / name) and self.has(name):
            os.unlink(self.folder / name)

    def end(self) -> None:
        """Keeps in the list what stands there; the folder of pieces doesn't."""
        names = [name for name in self.known if name not in (PIECES, LIST) and os.path.lexists(self.folder / name)]
        self.known = {name: [identity(self.folder / name)] for name in names if self.has(name)}
        self.write()
