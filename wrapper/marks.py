"""Which word of a script's line a cause is about, and what may stand in its place.

A word is marked only where what is found here has the cause that the program named; else the line is shown as it is.
Nothing is proved of what is told here.
"""

import re
from collections.abc import Callable, Iterable, Iterator
from typing import NamedTuple

from wrapper import places, reading
from wrapper.places import Placed

# Which word of a line a cause is about, and what may stand there; None where that isn't found.
Found = tuple[int | None, str | None]


class Mark(NamedTuple):
    """The words to mark, from the first to the last, and what may stand there, None where that can't be told."""

    first: int
    last: int
    wanted: str | None


WIDTHS = ("1", "2", "4", "8")


def declared(script: reading.Script, name: str) -> tuple[int, int]:
    """How the things of a name are counted: the first number and the first one that isn't declared."""
    return {
        "event": (0, len(script.events)), "owner": (0, script.modules), "endpoint": (0, len(script.endpoints)),
        "handler": (1, 1 + len(script.handlers)), "guard": (1, 1 + len(script.guards)),
    }[name]


def takes(script: reading.Script, event: int) -> str:
    """The signature of an event that is declared."""
    return script.events[event][1]


def kinds(signature: str) -> str:
    """The kinds of a signature's parameters, in lower case."""
    return "" if signature.startswith("-") else signature.split(":")[0].lower()


def guard_kinds(words: list[str]) -> str:
    """The kinds that a guard asks of, by its words behind its number; the program's one native guard asks of bytes."""
    return "b" if words[0] == "native" else kinds(words[0])


def parameters(words: list[str]) -> str:
    """The parameters that the code of a line speaks of, as letters."""
    if words[0] == "event":
        return "ww"
    return "" if words[2].startswith("-") else words[2].split(":")[0]


def uses(placed: Iterable[Placed]) -> Iterator[tuple[Placed, int, str]]:
    """The arguments that words use: the word, the argument's number, and the kind that it must have."""
    for one in placed:
        if one.want is places.ARGUMENT:
            yield one, reading.number(one.word), "w"
        elif one.want is places.BYTES_ARGUMENT:
            yield one, reading.number(one.word), "b"
        elif one.want.kind == "expression" and one.word.startswith("a"):
            yield one, int(one.word[1]), "w"


def is_node(one: Placed) -> bool:
    """Whether a word is a node of an expression, a test or a step."""
    return one.want.kind in ("expression", "test", "steps", "part")


def of_depth(before: reading.Script, words: list[str], placed: list[Placed]) -> Found:
    """The first word that is too deep."""
    return next((one.at for one in placed if one.depth > 8), None), "an expression or test that is at most 8 deep"


def of_length(before: reading.Script, words: list[str], placed: list[Placed]) -> Found:
    """The first node behind the 64th."""
    nodes = [one.at for one in placed if is_node(one) and one.want is not places.MERGE]
    return (nodes[64] if len(nodes) > 64 else None), "at most 64 nodes: steps, parts, expressions and tests"


def of_argument(before: reading.Script, words: list[str], placed: list[Placed]) -> Found:
    """The first argument that isn't there."""
    there = len(parameters(words))
    at = next((one.at for one, argument, _ in uses(placed) if argument >= there), None)
    if not there:
        return at, "nothing, since there is no argument"
    return at, f"an argument that is there: {there} of them are, counted from 0"


def layer_fits(layer: str, letters: str) -> bool:
    """Whether a step that reads headers can stand in a handler of these parameters."""
    return letters.startswith("b") if layer == "ipv4" else letters == "bwww"


def of_kind(before: reading.Script, words: list[str], placed: list[Placed]) -> Found:
    """The first argument of the other kind, width that is none, or layer that the parameters don't have."""
    letters = parameters(words).lower()
    wrong: dict[int, str] = {}
    for one, argument, kind in uses(placed):
        if argument < len(letters) and letters[argument] != kind:
            wrong[one.at] = "an argument that is " + ("a word" if kind == "w" else "bytes")
    for one in placed:
        if one.want is places.WIDTH and str(places.number_of(one.word)) not in WIDTHS:
            wrong[one.at] = "a width of 1, 2, 4 or 8"
        if one.want is places.LAYER and not layer_fits(one.word, letters):
            wrong[one.at] = "`ipv4` where argument 0 is bytes, `udp` where the signature is `bwww`"
    at = min(wrong, default=None)
    return (None, None) if at is None else (at, wrong[at])


def of_var(before: reading.Script, words: list[str], placed: list[Placed]) -> Found:
    """The first argument that is set and isn't var."""
    letters = parameters(words)
    for one in placed:
        if one.want is places.ARGUMENT and letters[reading.number(one.word)].islower():
            return one.at, "the number of a var parameter, one that the signature has as a capital"
    return None, None


def of_result(before: reading.Script, words: list[str], placed: list[Placed]) -> Found:
    """The first step that gives a result."""
    at = next((one.at for one in placed if one.want is places.STEPS and one.word == "result"), None)
    return at, "a result, only where the signature ends in `:w`"


def of_next(before: reading.Script, words: list[str], placed: list[Placed]) -> Found:
    """The number that isn't the next one."""
    return 1, f"{declared(before, words[0])[1]}, the next number"


NAMES = {
    places.EVENT.name: "event", places.OWNER.name: "owner", places.ENDPOINT.name: "endpoint",
    places.HANDLER.name: "handler", places.GUARD.name: "guard",
}


def range_of(name: str, before: reading.Script) -> str:
    """Which numbers of a name are declared, in words, and what they stand for where comments name them."""
    low, end = declared(before, name)
    thing = "module" if name == "owner" else name
    named = [f"{which} is {before.names[thing, which]}" for which in range(low, end) if (thing, which) in before.names]
    return declared_range(low, end, thing) + (f": {', '.join(named)}" if named else "")


def declared_range(low: int, end: int, thing: str) -> str:
    """Which numbers of things are declared, in words."""
    if end - low > 1:
        return f"{low} to {end - 1}, the {thing}s that are declared"
    return f"{low}, the one {thing} that is declared" if low < end else f"nothing, since no {thing} is declared"


def of_undeclared(before: reading.Script, words: list[str], placed: list[Placed]) -> Found:
    """The first number of what isn't declared."""
    for one in placed:
        name = NAMES.get(one.want.name)
        if name and one.word != "any":
            low, end = declared(before, name)
            if not low <= reading.number(one.word) < end:
                return one.at, range_of(name, before)
    return None, None


def raised(placed: list[Placed]) -> Iterator[tuple[Placed, str]]:
    """The raises upwards of a line: the event's word, and the kinds that it is raised with."""
    for index, one in enumerate(placed):
        if one.want is places.STEPS and one.word == "up":
            yield placed[index + 1], "".join(part_kinds(placed[index + 3 :]))
        elif one.want is places.LAYER:
            yield placed[index + 1], "bwww" if one.word == "ipv4" else "bwwww"


def part_kinds(placed: Iterable[Placed]) -> Iterator[str]:
    """The kinds of the parts up to the next step."""
    for one in placed:
        if one.want is places.STEPS:
            return
        if one.want is places.PART:
            yield one.word


def of_mismatch(before: reading.Script, words: list[str], placed: list[Placed]) -> Found:
    """What doesn't fit: a raise upwards, an imposed guard, a default, or a rule beside an authoriser."""
    for one, parts in raised(placed):
        given = kinds(takes(before, reading.number(one.word)))
        if given != parts:
            return one.at, f"an event of the kinds `{parts or '-'}`; this one takes `{given or '-'}`"
    if words[0] not in ("rule", "default", "authoriser"):
        return None, None
    event = reading.number(words[1])
    if words[0] == "authoriser":
        return 1, "an event without a rule, whose kinds the authoriser's guards have"
    if words[0] == "default":
        return 2, f"a handler of the signature `{takes(before, event)}` that sets no argument and raises greater events alone"
    if event in before.authorisers:
        return 1, "an event without a native authoriser"
    wanted = kinds(takes(before, event))
    for one in placed:
        if one.want is places.GUARD and guard_kinds(before.guards[reading.number(one.word)]) != wanted:
            return one.at, f"a guard of the kinds `{wanted or '-'}`"
    return None, None


def of_native(before: reading.Script, words: list[str], placed: list[Placed]) -> Found:
    """The name of the native."""
    names = {"handler": "`first_word`", "guard": "`is_ipv4`", "authoriser": "`own_two`"}
    return placed[-1].at, f"{names[words[0]]}, the one native of that kind that the program has"


def of_repeated(before: reading.Script, words: list[str], placed: list[Placed]) -> Found:
    """The name, or the event, that stands already."""
    if words[0] == "endpoint":
        return 2, f"a name that no endpoint before has; there is {places.either(name for name, in before.endpoints.values())}"
    what = "a first default" if words[0] == "default" else "an authoriser"
    return 1, f"an event that has no {what.split(' ', 1)[1]} yet"


def of_limit(before: reading.Script, words: list[str], placed: list[Placed]) -> Found:
    """What is one too many: the whole line."""
    if words[0] == "rule":
        return 0, "at most 16 rules of an event"
    return 0, f"at most 65,536 deeds, {4096 if before.version == 3 else 1000:,} of them commands"


def of_lane(before: reading.Script, words: list[str], placed: list[Placed]) -> Found:
    """The lane's number."""
    return 1, "a lane from 0 to 7"


FINDERS: dict[int, Callable[[reading.Script, list[str], list[Placed]], Found]] = {
    12: of_next, 13: of_limit, 14: of_depth, 15: of_length, 16: of_argument, 17: of_kind, 18: of_var, 19: of_result,
    20: of_undeclared, 21: of_mismatch, 22: of_native, 23: of_repeated, 24: of_lane,
}


# The causes that hang on the signature of a handler or a guard.
OF_SIGNATURE = (16, 17, 18, 19)


def of_version(words: list[str]) -> Mark:
    """The mark of a first line that names no version."""
    wanted = "`spin 1`, `spin 2` or `spin 3`"
    if words[:1] == ["report"]:
        wanted += "; this file is a report"
    elif words[:1] == ["vm"]:
        wanted += "; this file is a trace, and the script comes before it"
    return Mark(0, len(words) - 1, wanted)


def of_order(section: str, words: list[str]) -> Mark:
    """The mark of a line that stands too late, behind one that begins with the word of a section."""
    if words[0] == "retire":
        wanted = "`retire` only behind `barrier` or another `retire`"
    elif words[0] == section == "modules":
        wanted = "`modules` only once"
    else:
        wanted = f"`{section}` or what comes behind it; `{words[0]}` comes before: the order is modules, event, "
        wanted += "endpoint, handler, guard, rule and authoriser, default, lane and barrier"
    return Mark(0, 0, wanted)


def of_places(cause: int, before: reading.Script, words: list[str]) -> Mark | None:
    """The mark of a line whose section fits; None where what is found here has another cause."""
    placed, fault = places.walk(words, before.version)
    if fault:
        return Mark(fault.at, fault.at, places.wanted(fault.want)) if fault.cause == cause else None
    at, wanted = FINDERS[cause](before, words, placed) if cause in FINDERS else (None, None)
    if at is None:
        return None
    if wanted and cause in OF_SIGNATURE and words[0] in ("handler", "guard"):
        wanted += f"; the signature is `{words[2]}`"
    return Mark(at, len(words) - 1 if cause == 13 else at, wanted)


def find(cause: int, lines: list[bytes], number: int) -> Mark | None:
    """The mark for a cause of the line of this number, counted from 1; None where it can't be told."""
    words = words_of(lines[number - 1])
    if cause == 3:
        return of_version(words)
    if cause == 4:
        return Mark(0, 0, f"a word that begins a line: {places.either(places.lines(1))}")
    if words[0] not in places.lines(1):
        return None
    before = "\n".join(line.decode("ascii") for line in lines[: number - 1])
    if cause == 5:
        *_, (_, last) = reading.numbered_lines(before)
        return of_order(last[0], words)
    script = reading.read_script(before)
    script.names = reading.names_in(b"\n".join(lines).decode("ascii", "replace"))
    return of_places(cause, script, words)


def version_of(lines: Iterable[bytes]) -> int:
    """The version that a script's first line names; 1 where it names none."""
    read = (words_of(line) for line in lines if line.isascii())
    first = next((words for words in read if words and words[0][0] != "#"), list[str]())
    return int(first[1]) if len(first) == 2 and first[0] == "spin" and first[1] in ("1", "2", "3") else 1


def spans(line: bytes) -> list[tuple[int, int]]:
    """Where each word of a line stands, from its first byte to behind its last."""
    return [found.span() for found in re.finditer(rb"[^ \t]+", line)]


def lines_of(text: bytes) -> list[bytes]:
    """The lines of a text, without their ends."""
    lines = text.split(b"\n")
    if lines[-1] == b"":
        lines.pop()
    return [line[:-1] if line.endswith(b"\r") else line for line in lines]


def words_of(line: bytes) -> list[str]:
    """The words of a line."""
    return line.decode("ascii").replace("\t", " ").split()
