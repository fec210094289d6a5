"""What a script says of a filter: the names of its endpoints, its rounds, and what stands in the way where it is none.

The packet lines are gone through round after round until a capture's records are used up. Raises change nothing that a
later raise finds, so a piece of a capture that begins with a round answers as the whole does. docs/CAPTURES.md says more.
"""

from collections.abc import Sequence
from typing import NamedTuple

from wrapper.reading import number, numbered_lines, read_script

RAISES = ("raise", "later")


class Rounds(NamedTuple):
    """A script for a filter: its text, its endpoints by number, and how many records a piece begins at multiples of."""

    text: str
    endpoints: dict[int, str]
    step: int


def without_barriers(text: str) -> str:
    """The script in which barriers say nothing, each line under its number: no command leaves jobs, so nothing hangs on them."""
    return "\n".join("" if line.split() == ["barrier"] else line for line in text.split("\n"))


def read_rounds(text: str) -> Rounds:
    """What a script for a filter says of rounds. Where its packet lines are of one event, no record needs to begin one."""
    script = read_script(text)
    takes = [deed.words for deed in script.deeds.values() if deed.words[0] == "packet"]
    has_events = len({number(words[1]) for words in takes}) > 1
    step = sum(number(words[2]) for words in takes) if has_events else 1
    return Rounds(text, {at: words[0] for at, words in script.endpoints.items()}, step)


def in_the_way(text: str, why: Sequence[str]) -> str:
    """Why a script is none for a filter, with the line that stands in the way: `why` is what the program says of it."""
    deeds = read_script(text).deeds
    match why:
        case ["retire"]:
            line = next(at for at, words in numbered_lines(text) if words[0] == "retire")
            return f"line {line}: it retires an endpoint"
        case ["line", line, "lane"]:
            return f"line {line}: it is of another lane than line {next(iter(deeds))}, and a filter has one lane"
        case ["line", line, "deed"] if deeds[int(line)].words[0] in RAISES:
            return f"line {line}: it raises an event by itself, and a filter's events are raised with records"
        case ["line", line, "deed"]:
            first = next(at for at, deed in deeds.items() if deed.words[0] == "packet")
            return f"line {line}: it is a command behind line {first}, which takes packets"
    return "no line of it takes packets"
