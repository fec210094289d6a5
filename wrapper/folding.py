"""Which entries of a large run are drawn as one box: those of one lane, kind and event, in a place or a segment."""

from collections import Counter
from collections.abc import Iterable, Sequence
from typing import NamedTuple

from wrapper.reading import COMMANDS, Line, Script, Step, number, reply_of

MOST_WHOLE = 200    # a run of more entries and jobs is folded
MOST_PLACES = 40    # a segment of a folded run with more accepted commands is one band
MOST_WAYS = 6       # so many ways of a box are told one by one
MOST_STEPS = 12     # and of a way so many steps

# The lines of the report that one box tells.
Box = list[Line]

KINDS = {"packet": "packet", "raise": "raise", "later": "later raise", "job": "job", "command": "command"}


class Band(NamedTuple):
    """What stands side by side: what it is called, and its boxes."""

    label: str
    boxes: list[Box]


def is_large(lines: Iterable[Line]) -> bool:
    """Whether a report tells of so much that its picture is folded."""
    return sum(line.kind in ("entry", "job") for line in lines) > MOST_WHOLE


def is_accepted(line: Line) -> bool:
    """Whether the line is an accepted command's."""
    return line.kind == "entry" and line.words[0] in COMMANDS and line.words[1] == "ok"


def kind_of(line: Line) -> str:
    """Which kind of deed a line answers."""
    if line.kind == "job":
        return "job"
    return "command" if line.words[0] in COMMANDS else line.words[0]


def boxes_of(script: Script, lines: Iterable[Line], folds_commands: bool) -> list[Box]:
    """The boxes of these lines where a run is folded."""
    boxes: dict[tuple[int, str, int, str], Box] = {}
    for line in lines:
        kind = kind_of(line)
        event = number(script.deeds[line.line].words[1])
        alone = line.text if kind == "command" and not folds_commands else ""
        boxes.setdefault((line.lane, kind, event, alone), []).append(line)
    return list(boxes.values())


def bands_of(script: Script, lines: Sequence[Line], is_folded: bool) -> list[Band]:
    """The bands of a segment: its places, or all of them as one, and then its jobs."""
    entries = [line for line in lines if line.kind == "entry"]
    jobs = [line for line in lines if line.kind == "job"]
    is_one = is_folded and sum(map(is_accepted, entries)) > MOST_PLACES
    places: dict[int, list[Line]] = {}
    for line in entries:
        places.setdefault(0 if is_one else line.place, []).append(line)
    labels = [f"{entries[0].place}–{entries[-1].place}"] if is_one else list(map(str, places))
    bands = [*zip(labels, places.values()), *([("jobs", jobs)] if jobs else [])]
    if not is_folded:
        return [Band(label, [[line] for line in found]) for label, found in bands]
    return [Band(label, boxes_of(script, found, is_one)) for label, found in bands]


def way_of(steps: Iterable[Step]) -> list[str]:
    """The way that a raise takes, without results and lengths."""
    words: list[str] = []
    for step in steps:
        if step.kind in ("run", "job"):
            name = f"#{step.words[1]}" if step.words[1] != "0" else "default"
            words.append(f"{name} left" if step.kind == "job" else name)
        elif step.kind == "up":
            words += [f"↑{step.words[0]}", *way_of(step.inner)]
        elif step.kind == "send":
            words.append(f"→{step.words[0]}")
        elif step.kind == "drop":
            words.append(f"✗{step.words[0]}")
    return words


def came_to(line: Line) -> str:
    """What an entry or a job came to, so that many of one box are alike."""
    if line.is_refused:
        return " ".join(["✗", line.words[line.words.index("refused") + 2]])
    if kind_of(line) == "command":
        return f"✓ {line.words[0]}"
    reply = reply_of(line)
    if reply is None:
        return "left to a job"
    steps, answer = reply
    way = way_of(steps)
    if len(way) > MOST_STEPS:
        way = [*way[:MOST_STEPS - 2], f"and {len(way) - MOST_STEPS + 2} more steps"]
    return " ".join([*way, "=", answer.split()[0]])


def told_of(box: Box) -> list[str]:
    """The rows of a box of many: how many took each way, the commonest first."""
    ways = Counter(map(came_to, box)).most_common()
    rows = [f"{count:,} × {way}" for way, count in ways[:MOST_WAYS]]
    if len(ways) > MOST_WAYS:
        rows.append(f"{sum(count for _, count in ways[MOST_WAYS:]):,} × {len(ways) - MOST_WAYS} other ways")
    return rows


def head_of(script: Script, box: Box) -> str:
    """What a box of many is."""
    name = script.called("event", number(script.deeds[box[0].line].words[1]))
    return f"{len(box):,} {KINDS[kind_of(box[0])]}s of {name}"
