"""Which kit of Rattle the command `rt` belongs to, and how that kit proves a crate by itself.

It is found once for a build, by what `rt version`, `rt help` and the kit's first page say, and takes no proof. No other
module knows of kits.
"""

import enum
import re
import shutil
import subprocess
from pathlib import Path
from typing import NamedTuple

from wrapper.program import tell

# The logic of the kits that proved these sources. Kits of one logic accept the same proofs.
LOGIC = "dac8208d650f15bf"

# The word of `./spin build` that lets a kit of another logic try.
ANY_LOGIC = "--any-logic"

NOT_FOUND = "the command rt isn't found: install the Rattle toolchain and put rt on the PATH"

# How long a call may take that only says something, in seconds.
SECONDS = 120


class Way(enum.Enum):
    """How a kit proves a crate by itself."""

    KEPT = "rt ci NAME, and what that has proved is kept for later calls"
    NAMED = "rt ci NAME, of which nothing is kept"
    PLAIN = "no call of rt ci, which takes no name and keeps nothing"


class Kit(NamedTuple):
    """The name of a kit, its logic, and how it proves a crate by itself."""

    name: str
    logic: str
    way: Way

    def is_allowed(self, words: list[str]) -> bool:
        """Whether a build by this kit may begin, called with these words; where it may not, a line says why."""
        if self.logic == LOGIC or ANY_LOGIC in words:
            return True
        tell(
            f"nothing was begun: {self.name} has the logic {self.logic}, and these sources were proved by the logic "
            f"{LOGIC}, so it may refuse them after an hour of work; ./spin build {ANY_LOGIC} tries all the same"
        )
        return False


def said(*words: str) -> str:
    """What `rt` says to these words."""
    ran = subprocess.run(
        ["rt", *words], stdin=subprocess.DEVNULL, stdout=subprocess.PIPE, stderr=subprocess.STDOUT, timeout=SECONDS
    )
    return ran.stdout.decode(errors="replace")


def first_page() -> str:
    """The page of the kit that is to be read first, which also tells of its commands; empty where it isn't there."""
    try:
        return Path(said("doc").strip()).read_text(errors="replace")
    except (OSError, ValueError):
        return ""


def way_of(text: str) -> Way:
    """How the kit proves a crate by itself, by its help and its first page."""
    if not re.search(r"\brt ci (?:\[?--\S+ )*\[?NAME", text):
        return Way.PLAIN
    # only where something is kept there is a word that has all proved anew
    return Way.KEPT if re.search(r"--anew\b|\brt ci\b(?:[^.]|\.[.\w])*\b(?:keeps?|kept)\b", text) else Way.NAMED


def found() -> Kit | None:
    """The kit of the command `rt`; None where there is none, and then a line says so."""
    try:
        line = said("version").strip()
        named = re.fullmatch(r"(\S+) logic ([0-9a-f]+)", line)
        if named:
            return Kit(named[1], named[2], way_of(f"{said('help')}\n{first_page()}"))
    except FileNotFoundError:
        tell(NOT_FOUND)
        return None
    except subprocess.TimeoutExpired:
        line = ""
    except OSError as fault:
        line = fault.strerror
    answer = line.partition("\n")[0][:80] or "nothing"
    tell(f"{shutil.which('rt')} is the rt of no Rattle kit: to `rt version` it answers {answer}")
    return None
