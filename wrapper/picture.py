"""picture run SCRIPT REPORT [PACKETS]: a run as one picture; picture climb SCRIPT REPORT PACKETS: all packets as one.

The report is judged first by the program's `check`; one that is no run's isn't drawn. What draws is no part of what is
proved. The picture is SVG; with `--html` it stands in a page that lets lanes, events and bindings stand out.
"""

import contextlib
import os
import shutil
import subprocess
import sys
import tempfile
from collections.abc import Callable, Iterable, Sequence
from pathlib import Path
from typing import NamedTuple

from wrapper import climb_picture, convert, ending, outputs, program, run_picture
from wrapper.reading import Line, Script, read_report, read_script
from wrapper.records import Records
from wrapper.svg import Drawn, TooLarge, page

USAGE = (
    "usage: spin picture run SCRIPT REPORT [PACKETS] [--html] [--convert] [--out FILE]"
    " | spin picture climb SCRIPT REPORT PACKETS [--html] [--convert] [--out FILE]"
)
# What draws a picture: of a script, over the lines of its report, and over its capture where that is at hand.
Draw = Callable[[Script, Iterable[Line], Records | None], Drawn]
# The kinds of pictures, and how many files each takes.
KINDS: dict[str, tuple[Draw, tuple[int, ...]]] = {
    "run": (run_picture.draw, (2, 3)), "climb": (climb_picture.draw, (3,)),
}
# The statuses of the wrapper's own ends are those that the program has for the like.
WRONG_WORDS, NOT_READ, NOT_WRITTEN, ABSENT, NO_RUN = 1, 4, 5, 6, 9


class Refused(Exception):
    """Why nothing is drawn, the exit status, and the words behind `check` whose end it is, if it is the program's."""

    def __init__(self, why: str, status: int, judged: Sequence[str] = ()) -> None:
        """Keeps status and words beside why."""
        super().__init__(why)
        self.status, self.judged = status, judged


class Asked(NamedTuple):
    """The kind of picture, its files, whether it stands in a page, whether a capture is made readable first, and the file
    to write, None for standard output."""

    kind: str
    files: list[str]
    is_page: bool
    is_converted: bool
    out: str | None


def read_words(words: list[str]) -> Asked:
    """What the words ask for."""
    files, is_page, is_converted = list[str](), False, False
    out = None
    rest = list(words[1:])
    while rest:
        word = rest.pop(0)
        if word == "--html":
            is_page = True
        elif word == convert.FLAG:
            is_converted = True
        elif word == "--out" and rest:
            out = rest.pop(0)
        elif word.startswith("--"):
            raise Refused(USAGE, WRONG_WORDS)
        else:
            files.append(word)
    if not words or words[0] not in KINDS or len(files) not in KINDS[words[0]][1]:
        raise Refused(USAGE, WRONG_WORDS)
    return Asked(words[0], files, is_page, is_converted, out)


def copied(files: Sequence[str], folder: str) -> None:
    """Copies script and report, so that what is judged is what is drawn, also where they are pipes."""
    for name, file in zip(("script", "report"), files):
        try:
            with open(file, "rb") as source, open(Path(folder) / name, "wb") as target:
                shutil.copyfileobj(source, target)
        except OSError as error:
            status = ABSENT if isinstance(error, FileNotFoundError) else NOT_READ
            raise Refused(f"the {name} {file} can't be read: {error.strerror}", status)


def judge(folder: str, files: Sequence[str]) -> None:
    """Lets the program judge the copied report, and refuses one that isn't a run's."""
    more = [os.path.abspath(file) for file in files[2:]]
    ran = program.run(["check", "script", "report", *more], cwd=folder, stdout=subprocess.PIPE)
    if ran.returncode == NO_RUN:
        raise Refused("the report is that of no run of the script, so it isn't drawn", NO_RUN, files)
    if ran.returncode:
        said = ran.stdout.decode("ascii", "replace").strip() or "the program said nothing"
        raise Refused(f"the report can't be judged, so it isn't drawn: {said}", ran.returncode, files)


def records_of(script: Script, files: Sequence[str]) -> Records | None:
    """The records of the capture; None where there is none that can be read twice."""
    if len(files) < 3 or not os.path.isfile(files[2]):
        return None
    return Records(script, Path(files[2]).read_bytes())


def drawn(kind: str, folder: str, files: Sequence[str], is_page: bool) -> str:
    """The picture of the copied script and report."""
    title = f"{kind} of {files[0]}"
    script = read_script((Path(folder) / "script").read_text("ascii"))
    with open(Path(folder) / "report", encoding="ascii") as stream:
        try:
            drawing = KINDS[kind][0](script, read_report(stream), records_of(script, files))
        except TooLarge:
            why = "the run is too long for one picture; `picture climb` draws any number of packets"
            raise Refused(why, program.NOT_RUN)
    return page(drawing, title) if is_page else drawing.text


def hush() -> None:
    """Lets nothing more be written on standard output, which takes no more."""
    with contextlib.suppress(OSError):
        os.dup2(os.open(os.devnull, os.O_WRONLY), sys.stdout.fileno())


def write(text: str, out: str | None) -> None:
    """Writes the picture into the file, or on standard output."""
    try:
        if out is not None:
            Path(out).write_text(text, encoding="utf-8")
            return
        sys.stdout.buffer.write(text.encode())
        sys.stdout.flush()
    except BrokenPipeError:
        raise
    except OSError as error:
        if out is None:
            hush()
        raise Refused(f"the picture can't be written: {error.strerror}", NOT_WRITTEN)


def main(words: list[str]) -> int:
    """Draws the picture that the words ask for, and answers the exit status."""
    try:
        kind, files, is_page, is_converted, out = read_words(words)
        with tempfile.TemporaryDirectory() as folder, convert.all_converted(files[2:], is_converted) as captures:
            files[2:] = captures
            copied(files, folder)
            judge(folder, files)
            text = drawn(kind, folder, files, is_page)
        write(text, out)
    except outputs.Refused as refused:
        program.tell(str(refused))
        return refused.status
    except Refused as refused:
        program.tell(str(refused))
        if refused.judged:
            ending.tell_reasons(program.command(), ["check", *refused.judged], refused.status)
        return refused.status
    return 0
