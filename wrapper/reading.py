"""Reads scripts and reports into plain records, for the wrapper's own commands.

It reads what the program has judged before: a script that the program runs, and a report that is a run's. It judges
nothing itself. The formats are those of docs/FORMATS.md.
"""

import re
from collections.abc import Iterable, Iterator
from dataclasses import dataclass, field

DECLARED = {"event": "events", "endpoint": "endpoints", "handler": "handlers", "guard": "guards"}
COMMANDS = ("install", "remove", "replace", "default", "nodefault")
RAISES = ("raise", "packet", "later")
ANSWERS = ("value", "done", "default", "nohandler")


# A comment line that names what a number stands for, as `# event 1 is Udp.PacketArrived`.
NAMED = ("event", "handler", "guard", "endpoint", "module")
NAMING = re.compile(rf"#\s*({'|'.join(NAMED)})\s+([0-9]+|0x[0-9a-fA-F]+)\s+is\s+([A-Za-z_](?:[\w.-]*\w)?)\s*", re.ASCII)


def number(word: str) -> int:
    """The number that a word of a script writes, in decimal or in hexadecimal digits."""
    return int(word, 16) if word[:2] in ("0x", "0X") else int(word)


# ---- scripts

# The names that comments give, by kind and number.
Names = dict[tuple[str, int], str]


@dataclass
class Deed:
    """One deed of a lane: its line, its lane, its words behind the lane, and the segment in which it stands."""

    line: int
    lane: int
    words: list[str]
    segment: int


@dataclass
class Script:
    """A script: declarations by number, each as its words behind the number; rules, authorisers and defaults by event;
    the deeds by line; and the endpoints that are retired before each segment."""

    version: int = 1
    modules: int = 1
    events: dict[int, list[str]] = field(default_factory=dict)
    endpoints: dict[int, list[str]] = field(default_factory=dict)
    handlers: dict[int, list[str]] = field(default_factory=dict)
    guards: dict[int, list[str]] = field(default_factory=dict)
    rules: dict[int, list[list[str]]] = field(default_factory=dict)
    authorisers: dict[int, str] = field(default_factory=dict)
    defaults: dict[int, int] = field(default_factory=dict)
    deeds: dict[int, Deed] = field(default_factory=dict)
    retired: dict[int, list[int]] = field(default_factory=dict)
    segments: int = 1
    # the names that comments give, by kind and number
    names: Names = field(default_factory=dict)

    def called(self, kind: str, which: int | str) -> str:
        """What a thing of this kind and number is called: with its name, where a comment gives it one."""
        return " ".join([kind, str(which), *filter(None, [self.names.get((kind, int(which)))])])


def names_in(text: str) -> Names:
    """The names that comments of a script give, by kind and number; of several for one number the last."""
    found = filter(None, (NAMING.fullmatch(line.strip()) for line in text.split("\n") if "#" in line))
    return {(one[1], number(one[2])): one[3] for one in found}


def numbered_lines(text: str) -> Iterator[tuple[int, list[str]]]:
    """The lines of a script that aren't skipped: each one's number and its words."""
    for at, line in enumerate(text.split("\n"), 1):
        words = line.split()
        if words and not words[0].startswith("#"):
            yield at, words


def read_script(text: str) -> Script:
    """The script that a text is, which the program has to have accepted."""
    script = Script(names=names_in(text))
    for at, words in numbered_lines(text):
        take_line(script, at, words)
    return script


def take_line(script: Script, at: int, words: list[str]) -> None:
    """Adds one line to the script."""
    word = words[0]
    if word == "spin":
        script.version = number(words[1])
    elif word == "modules":
        script.modules = number(words[1])
    elif word in DECLARED:
        getattr(script, DECLARED[word])[number(words[1])] = words[2:]
    elif word == "rule":
        script.rules.setdefault(number(words[1]), []).append(words[2:])
    elif word == "authoriser":
        script.authorisers[number(words[1])] = words[2]
    elif word == "default":
        script.defaults[number(words[1])] = number(words[2])
    elif word == "barrier":
        script.segments += 1
    elif word == "retire":
        script.retired.setdefault(script.segments - 1, []).append(number(words[1]))
    elif word == "lane":
        script.deeds[at] = Deed(at, number(words[1]), words[2:], script.segments - 1)


# ---- reports


@dataclass
class Line:
    """One line of a report: its kind, its text, and what stands in it. The words are those behind its numbers."""

    kind: str
    text: str
    place: int = 0
    lane: int = 0
    line: int = 0
    part: int = 0
    index: int = 0
    words: list[str] = field(default_factory=list)

    @property
    def source(self) -> str:
        """The line of the script as the report names it, with its part where it has one."""
        return f"{self.line}.{self.part}" if self.part else str(self.line)

    @property
    def is_refused(self) -> bool:
        """Whether the entry or the job was refused."""
        return "refused" in self.words[:2]


def of_deed(kind: str, text: str, words: list[str], index: int) -> Line:
    """The line of an entry or a job: its place, lane and line, and then its words."""
    line, _, part = words[2].partition(".")
    return Line(kind, text, int(words[0]), int(words[1]), int(line), int(part or 0), index, words[3:])


def read_line(text: str) -> Line:
    """One line of a report."""
    words = text.split()
    if words[0].isdigit():
        return of_deed("entry", text, words, 0)
    if words[0] == "job":
        return of_deed("job", text, words[1:4] + words[5:], int(words[4]))
    if words[0] == "segment":
        return Line("segment", text, place=int(words[3]), index=int(words[1]))
    if words[0] in ("retire", "lost"):
        return Line(words[0], text, index=int(words[1]), words=words[2:])
    return Line(words[0], text, words=words[1:])


def read_report(stream: Iterable[str]) -> Iterator[Line]:
    """The lines of a report one after another, from an open text."""
    for text in stream:
        yield read_line(text.rstrip("\n"))


# ---- replies


@dataclass
class Step:
    """One step of a reply: its kind is `run`, `result`, `send`, `drop`, `job` or `up`; the steps inside and the answer
    are those of a raise upwards."""

    kind: str
    words: list[str]
    inner: list["Step"] = field(default_factory=list)
    answer: str = ""


WORDS_OF_STEP = {"run": 2, "result": 1, "send": 2, "drop": 1, "job": 2}


def read_answer(words: list[str], at: int) -> tuple[str, int]:
    """The words of an answer from there on, and where it ends."""
    end = at + 1
    if words[at] in ("value", "default") and end < len(words) and words[end].isdigit():
        end += 1
    return " ".join(words[at:end]), end


def read_reply(words: list[str]) -> tuple[list[Step], str]:
    """The steps of a reply, raises upwards as a tree, and its answer, from the words of a report's line."""
    levels: list[list[Step]] = [[]]
    at = 0
    while words[at] != "=":
        word = words[at]
        at += 1
        if word == "back":
            answer, at = read_answer(words, at)
            levels.pop()
            levels[-1][-1].answer = answer
        elif word == "up":
            step = Step("up", [words[at]])
            at += 1
            levels[-1].append(step)
            levels.append(step.inner)
        else:
            count = WORDS_OF_STEP[word]
            levels[-1].append(Step(word, words[at:at + count]))
            at += count
    return levels[0], read_answer(words, at + 1)[0]


def reply_of(line: Line) -> tuple[list[Step], str] | None:
    """The steps and the answer of an entry or a job that has a reply; None where it has none."""
    if line.is_refused or line.kind == "entry" and line.words[0] not in ("raise", "packet"):
        return None
    return read_reply(line.words if line.kind == "job" else line.words[1:])


def all_steps(steps: Iterable[Step]) -> Iterator[Step]:
    """The steps and those inside them, in their order."""
    for step in steps:
        yield step
        yield from all_steps(step.inner)
