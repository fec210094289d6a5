"""What the kernel tells over its serial line, as scripts and reports: of each log of its hub one of each.

Each line of numbers is a call: the level that asked, what kind of call it is, and what it was asked and answered. What a
level asks is a line of its lane in the script, and what it is answered an entry of the report. The entries stand by their
places, at one place the accepted command first, then by lane; a job stands behind all of them, in the order of those that
left one. A log behind a renewal begins with what was bound then: the script binds that anew, in the order of its numbers,
before a barrier. These have to be just the numbers that the kernel tells, and the rows of the last log, which are told
last, just the commands that were accepted.
"""

import re
from collections.abc import Iterator, Mapping, Sequence
from typing import NamedTuple

COMMANDED, RAISED, RAISED_LINE, RENEWED, JOB, ROW = range(6)
OPS = ["", "install", "remove", "replace"]
INSTALL, REMOVE, REPLACE = 1, 2, 3
PLACES, MODES = ["free", "first", "last"], ["plain", "filter", "async"]
REFUSALS = ["", "unknown_event", "unknown_module", "unknown_handler", "unknown_guard", "unknown_binding", "wrong_type",
            "downward", "wrong_mode", "denied", "too_many", "conflict", "forced_mode"]
DENIED = 9
ANSWERS = ["nohandler", "done", "value", "default", "default"]
VALUE, DEFAULT_VALUE = 2, 3
STEPS = ["", "run", "result", "send", "up", "back", "drop", "job"]
RUN, RESULT, SEND, UP, BACK, DROP, LEFT = range(1, 8)


class Wrong(Exception):
    """What of the lines is no call of the kernel's."""


class Entry(NamedTuple):
    """A call: its place, whether it is an accepted command, its lane, its line of the script and its text, the command's
    numbers, and the texts of the jobs that it left, in the order in which they were done."""

    place: int
    is_accepted: bool
    lane: int
    line: str
    text: str
    command: Sequence[int]
    jobs: list[str]

    def key(self) -> tuple[int, bool, int]:
        """By what the entries of a report stand."""
        return self.place, not self.is_accepted, self.lane


class Era(NamedTuple):
    """The time from one renewal to the next: the numbers that were bound at the first, the entries, each level's in its
    order, and the rows of the log that are told, each a lane and the numbers of a command."""

    bound: list[int]
    entries: list[Entry]
    rows: list[list[int]]


class Log(NamedTuple):
    """A log of the hub: its script and its report, how many calls it has, and how many commands of them were accepted."""

    script: str
    report: str
    calls: int
    accepted: int


def answer(kind: int, value: int) -> str:
    """An answer in words."""
    return f"{ANSWERS[kind]} {value}" if kind in (VALUE, DEFAULT_VALUE) else ANSWERS[kind]


def step(numbers: Sequence[int]) -> str:
    """A step of a reply in words."""
    kind, event, number, ends, value, length = numbers
    words = {RUN: f"{event} {number}", LEFT: f"{event} {number}", RESULT: f"{value}", SEND: f"{number} {length}",
             UP: f"{event}", BACK: answer(ends, value) if kind == BACK else ""}
    if kind not in words:
        raise Wrong(f"a step of kind {kind}")
    return f"{STEPS[kind]} {words[kind]}"


def reply(ends: int, value: int, steps: Sequence[int]) -> str:
    """The words of a reply: its steps, and what it comes to."""
    return " ".join([*(step(steps[at : at + 6]) for at in range(0, len(steps), 6)), "=", answer(ends, value)])


def command_words(command: Sequence[int]) -> str:
    """A command as a script has it."""
    op, event, module, handler, guard, target, place, mode = command
    if op == REMOVE:
        return f"remove {event} {module} {target}"
    if op == REPLACE:
        return f"replace {event} {module} {target} {handler} {guard}"
    return f"install {event} {module} {handler} {guard} {PLACES[place]} before 0 after 0 {MODES[mode]}"


def commanded(lane: int, numbers: Sequence[int]) -> Entry:
    """The entry of a command."""
    place, refusal, value, *command = numbers
    rule = f" {value}" if refusal == DENIED else ""
    verdict = f"refused {refusal} {REFUSALS[refusal]}{rule}" if refusal else "ok"
    words = command_words(command)
    return Entry(place, not refusal, lane, f"lane {lane} {words}", f"{words.split()[0]} {verdict}", command, [])


def raised(lane: int, kind: int, numbers: Sequence[int]) -> Entry:
    """The entry of a raise, with words or with the bytes of a line."""
    event, count = numbers[:2]
    given, (place, ends, value), steps = numbers[2 : count + 2], numbers[count + 2 : count + 5], numbers[count + 5 :]
    words = [f"x{bytes(given).hex()}"] if kind == RAISED_LINE else list(map(str, given))
    line = " ".join([f"lane {lane} raise {event}", *words])
    return Entry(place, False, lane, line, f"raise {reply(ends, value, steps)}", [], [])


def add_job(entry: Entry, numbers: Sequence[int]) -> None:
    """Adds a job to the entry that left it, which is the last of its level."""
    index, place, ends, value, *steps = numbers
    if (index, place) != (len(entry.jobs), entry.place):
        raise Wrong(f"job {index} at {place} isn't the next of the entry at {entry.place}")
    entry.jobs.append(reply(ends, value, steps))


def calls(text: str) -> Iterator[list[int]]:
    """The numbers of each call, in the order of the lines."""
    for line in text.splitlines():
        if re.fullmatch(r"\d+( \d+)+", line):
            yield list(map(int, line.split()))


def eras(text: str) -> list[Era]:
    """What was told between one renewal and the next."""
    found = [Era([], [], [])]
    at, last = dict[int, int](), dict[int, Entry]()
    for lane, kind, *numbers in calls(text):
        era = found[at.setdefault(lane, 0)]
        if kind == RENEWED:
            at[lane] += 1
            if at[lane] == len(found):
                found.append(Era(numbers, [], []))
        elif kind == ROW:
            era.rows.append(numbers)
        elif kind == JOB:
            add_job(last[lane], numbers)
        else:
            last[lane] = commanded(lane, numbers) if kind == COMMANDED else raised(lane, kind, numbers)
            era.entries.append(last[lane])
    return found


def bound_after(live: Mapping[int, Sequence[int]], entries: Sequence[Entry]) -> dict[int, Sequence[int]]:
    """For each binding that stands behind these entries, by its number, the command that binds it anew."""
    now = dict(live)
    for entry in sorted(entries, key=Entry.key):
        if entry.is_accepted:
            op, _, _, handler, guard, target, *_ = entry.command
            if op == INSTALL:
                now[entry.place] = entry.command
            elif op == REMOVE:
                del now[target]
            else:
                now[target] = [*now[target][:3], handler, guard, *now[target][5:]]
    return dict(sorted(now.items()))


def log_of(declared: str, live: Sequence[Sequence[int]], entries: Sequence[Entry]) -> Log:
    """The script and the report of a log that begins with these bindings."""
    front = [f"lane 0 {command_words(command)}" for command in live]
    lines = [*declared.splitlines(), *front, *(["barrier"] if front else [])]
    first, place = len(lines) - len(front), len(front)
    report = ["report 1"]
    if front:
        report += ["segment 0 at 0", *(f"{at} 0 {first + at - 1} install ok" for at in range(1, place + 1))]
    report.append(f"segment {int(bool(front))} at {place}")
    told = list[tuple[Entry, int]]()
    for entry in entries:
        lines.append(entry.line)
        told.append((entry, len(lines)))
    told.sort(key=lambda it: it[0].key())
    report += [f"{entry.place} {entry.lane} {line} {entry.text}" for entry, line in told]
    for entry, line in told:
        report += [f"job {entry.place} {entry.lane} {line} {index} {text}" for index, text in enumerate(entry.jobs)]
    place = max([place, *(entry.place for entry in entries)])
    accepted = sum(entry.is_accepted for entry in entries)
    return Log("\n".join([*lines, ""]), "\n".join([*report, f"end {place}", ""]), len(entries), accepted)


def rows_of(entries: Sequence[Entry]) -> list[list[int]]:
    """The rows of a log with these entries."""
    accepted = sorted((entry for entry in entries if entry.is_accepted), key=Entry.key)
    return [[entry.lane, *entry.command] for entry in accepted]


def logs(declared: str, text: str) -> Iterator[Log]:
    """The logs of the hub, one behind the other. Of the last its rows are told."""
    live: Mapping[int, Sequence[int]] = {}
    told = eras(text)
    if told[-1].rows != rows_of(told[-1].entries):
        raise Wrong("the rows of the last log aren't the commands that were accepted")
    for bound, entries, _ in told:
        if bound != list(live):
            raise Wrong(f"a renewal tells other numbers than those that are bound: {bound}")
        live = dict(enumerate(live.values(), 1))
        yield log_of(declared, list(live.values()), entries)
        live = bound_after(live, entries)
