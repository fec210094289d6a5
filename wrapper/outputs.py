"""Where a run leaves what its endpoints receive, and what is said of it: the flags of the wrapper for such a run.

The program appends to the files of its endpoints, in the folder where it is called. So a run may be sent into a folder
of its own, and where a file stands already that is told, or refused. The flags never reach the program.
"""

import os
import re
from collections.abc import Iterable, Iterator, Sequence
from typing import NamedTuple

from wrapper.places import number_of
from wrapper.program import NOT_RUN, tell

# The endpoints that the program has, each with a file of its name.
NAMES = ("out0", "out1", "out2", "out3", "echo")

# The commands whose runs send to endpoints.
SENDING = ("run", "join", "gen")
WRONG_WORDS, NOT_WRITTEN = 1, 5

ENDPOINT = re.compile(rb"^[ \t]*endpoint[ \t]+([0-9a-fA-Fx]+)[ \t]+([A-Za-z0-9_.]{1,16})[ \t\r]*$", re.MULTILINE)
HANDLER = re.compile(rb"^[ \t]*handler[ \t].*$", re.MULTILINE)
SEND = re.compile(rb"[ \t]send[ \t]+([0-9a-fA-Fx]+)[ \t]")

# Those whose reports are counted.
COUNTED = ("run", "join")


class Flags(NamedTuple):
    """Where a run writes, None where that is the folder of the call; whether it may add to files that stand there; and
    whether counts are written in the place of the report, as a table or as JSON."""

    out: str | None = None
    append: bool = False
    counts: bool = False
    json: bool = False


class Refused(Exception):
    """Why the program isn't run, and the exit status."""

    def __init__(self, why: str, status: int) -> None:
        """Keeps the status beside why."""
        super().__init__(why)
        self.status = status


def read_flags(words: list[str]) -> tuple[Flags, list[str]]:
    """The flags among the words of a command that sends, and the words without them."""
    flags, left, rest = Flags(), words[:1], list(words[1:])
    while rest and words[0] in SENDING:
        word = rest.pop(0)
        if word == "--append":
            flags = flags._replace(append=True)
        elif word in ("--counts", "--json") and words[0] in COUNTED:
            flags = flags._replace(counts=True, json=flags.json or word == "--json")
        elif word == "--out":
            if not rest or not rest[0] or rest[0].startswith("-"):
                raise Refused("--out takes the name of a folder", WRONG_WORDS)
            flags = flags._replace(out=rest.pop(0))
        else:
            left.append(word)
    return flags, left + rest


def file_of(name: str) -> str:
    """The file to which an endpoint appends."""
    return f"{name}.bin"


def standing(names: Iterable[str], folder: str = ".") -> list[str]:
    """The files of these endpoints that stand in a folder, links that lead nowhere too."""
    return [file_of(name) for name in names if os.path.lexists(os.path.join(folder, file_of(name)))]


def listed(names: Sequence[str]) -> str:
    """Names in a row, the last behind `and`."""
    return names[0] if len(names) == 1 else f"{', '.join(names[:-1])} and {names[-1]}"


def text_of(script: str) -> bytes:
    """The bytes of a script that can be read twice; none of another."""
    try:
        if not os.path.isfile(script):
            return b""
        with open(script, "rb") as file:
            return file.read()
    except OSError:
        return b""


def declared(words: list[str]) -> Iterator[tuple[int, int | None, str]]:
    """The endpoints that a script declares, each as the number of its line, its own number and its name."""
    text = text_of(words[1]) if words[0] != "gen" and len(words) > 1 else b""
    for found in ENDPOINT.finditer(text):
        yield text.count(b"\n", 0, found.start()) + 1, number_of(found[1].decode()), found[2].decode()


def may_receive(words: list[str]) -> list[str]:
    """The names of the program's endpoints to which a run of these words may send."""
    if words[0] == "gen":
        return ["out0"]
    names = {name for _, _, name in declared(words)}
    # of a script that is there and can't be read twice nothing is known
    is_known = len(words) < 2 or os.path.isfile(words[1]) or not os.path.exists(words[1])
    return [name for name in NAMES if name in names or not is_known]


def described(name: str) -> str:
    """A file that stands in this folder, and where it leads as a link."""
    return f"{name}, a link to {os.readlink(name)}," if os.path.islink(name) else name


def tell_standing(words: list[str]) -> None:
    """Tells in a line to which files that stand here a run may append."""
    found = [name for name in standing(may_receive(words)) if not os.path.isdir(name)]
    if found:
        stand = "stands" if len(found) == 1 else "stand"
        names = listed([described(name) for name in found])
        added = "and what is sent is added at the end; --out FOLDER writes into a fresh folder"
        tell(f"{names} {stand} here already, {added}")


def make_fresh(folder: str, may_add: bool) -> None:
    """Makes the folder in which a run writes; one with files of endpoints is refused unless they may be added to."""
    try:
        os.makedirs(folder, exist_ok=True)
    except OSError as error:
        raise Refused(f"the folder {folder} can't be made: {error.strerror}", NOT_WRITTEN) from None
    found = standing(NAMES, folder)
    if found and not may_add:
        has = f"{folder} has {listed(found)} already"
        raise Refused(f"{has}, so nothing is run: name a fresh folder, or add to it with --append", NOT_RUN)


def from_elsewhere(words: list[str]) -> list[str]:
    """The words with the files that they name as paths, so that they are found from any folder."""
    if words[0] == "gen":
        return words
    return [words[0], *(os.path.abspath(word) if word and not word.startswith("-") else word for word in words[1:])]


def prepare(flags: Flags, words: list[str], quiet: bool) -> None:
    """Makes what a run needs to write where the flags say, and tells what it will be added to."""
    if flags.counts and len(words) > 1 and os.path.exists(words[1]) and not os.path.isfile(words[1]):
        raise Refused("counts need a second look at the script, so it has to be a file", NOT_RUN)
    if flags.out is not None:
        make_fresh(flags.out, flags.append)
    elif words[0] in SENDING and not flags.append and not quiet:
        tell_standing(words)


def sent_to(text: bytes) -> set[int | None]:
    """The numbers of the endpoints to which handlers of a script send."""
    return {number_of(number.decode()) for line in HANDLER.findall(text) for number in SEND.findall(line)}


def tell_lost(words: list[str]) -> None:
    """Tells to which endpoints of a script that was run sends are lost, since the program has none of their names."""
    if words[0] not in SENDING or len(words) < 2:
        return
    sent = sent_to(text_of(words[1]))
    for line, number, name in declared(words):
        if name not in NAMES and number in sent:
            none = f"no endpoint of the program is named {name}, so what is sent to endpoint {number} is lost"
            tell(f"{words[1]}, line {line}: {none}; there are {listed(NAMES)}")
