"""explain SCRIPT [LINE] [PACKETS] [--report REPORT] [--convert]: why each raise and each command of a run came to what it did.

The script is run, in a folder of its own, so nothing that is sent stays; with `--report` a report that was written
before is judged instead. Then each entry and each job is worked anew, by Python and not by the program, and compared
with the report: where the two disagree that is told, and the status is 9. Nothing is proved of what is told.
"""

import re
import shutil
import subprocess
import tempfile
from collections.abc import Iterable, Iterator
from pathlib import Path
from typing import NamedTuple

from wrapper import convert, ending, outputs, program, why
from wrapper.picture import ABSENT, NO_RUN, NOT_READ, WRONG_WORDS, Refused
from wrapper.reading import read_line, read_script
from wrapper.records import Records

USAGE = "usage: spin explain SCRIPT [LINE] [PACKETS] [--report REPORT] [--convert]"


class Asked(NamedTuple):
    """What is to be explained, and whether the capture is made readable first."""

    script: str
    # the number of one line, empty for all
    line: str
    packets: str | None
    report: str | None
    is_converted: bool


def read_words(words: list[str]) -> Asked:
    """What the words ask for."""
    files, line, rest = list[str](), "", [word for word in words if word != convert.FLAG]
    report = None
    while rest:
        word = rest.pop(0)
        if word == "--report" and rest:
            report = rest.pop(0)
        elif files and not line and re.fullmatch(r"[0-9]+(\.[0-9]+)?", word):
            line = word
        elif word.startswith("-") or len(files) == 2:
            raise Refused(USAGE, WRONG_WORDS)
        else:
            files.append(word)
    if not files:
        raise Refused(USAGE, WRONG_WORDS)
    return Asked(files[0], line, files[1] if files[1:] else None, report, convert.FLAG in words)


def copied(asked: Asked, folder: str) -> set[str]:
    """Copies the files, so that what is explained is what was run, also where they are pipes; the copies' names."""
    named = {"script": asked.script, "packets": asked.packets, "report": asked.report}
    for name, file in named.items():
        try:
            if file is not None:
                with open(file, "rb") as source, open(Path(folder) / name, "wb") as target:
                    shutil.copyfileobj(source, target)
        except OSError as error:
            status = ABSENT if isinstance(error, FileNotFoundError) else NOT_READ
            raise Refused(f"the {name} {file} can't be read: {error.strerror}", status) from None
    return {name for name, file in named.items() if file is not None}


def report_of(asked: Asked, folder: str) -> str:
    """The text of the report: that of a run, or one that is judged."""
    there = copied(asked, folder)
    capture = ["packets"] * ("packets" in there)
    words = ["check", "script", "report", *capture] if asked.report else ["run", "script", *capture]
    ran = program.run(words, folder, stdin=subprocess.DEVNULL, stdout=subprocess.PIPE)
    named = [asked.script, *filter(None, [asked.report, asked.packets])]
    if ran.returncode == NO_RUN:
        raise Refused("the report is that of no run of the script, so it isn't explained", NO_RUN, [words[0], *named])
    if ran.returncode:
        said = ran.stdout.decode("ascii", "replace").strip().rpartition("\n")[2] or "the program said nothing"
        raise Refused(f"there is no whole run, so nothing is explained: {said}", ran.returncode, [words[0], *named])
    text = (Path(folder) / "report").read_bytes() if asked.report else ran.stdout
    return text.decode("ascii")


def explained(asked: Asked, folder: str) -> Iterator[why.Because]:
    """The script's entries and jobs that are asked for, one after another, each with why it says what it does."""
    lines = (read_line(text) for text in report_of(asked, folder).splitlines())
    script = read_script((Path(folder) / "script").read_text("ascii"))
    records = Records(script, (Path(folder) / "packets").read_bytes()) if asked.packets else None
    number, _, part = asked.line.partition(".")
    is_wanted = lambda line: not number or line.line == int(number) and (not part or line.part == int(part))
    return why.explain(script, lines, records, is_wanted)


def written(found: Iterable[why.Because]) -> tuple[int, list[str]]:
    """Writes why each line says what it does; how many there were, and the lines with which the report disagrees."""
    count, odd = 0, list[str]()
    for count, one in enumerate(found, 1):
        print("".join(f"{line}\n" for line in one.lines), end="")
        odd += [one.line.source] * (not one.agrees)
    return count, odd


def main(words: list[str]) -> int:
    """Explains what the words ask for, and answers the exit status."""
    try:
        asked = read_words(words)
        named = [asked.packets] if asked.packets is not None else []
        with tempfile.TemporaryDirectory() as folder, convert.all_converted(named, asked.is_converted) as captures:
            packets = captures[0] if captures else None
            count, odd = written(explained(asked._replace(packets=packets), folder))
    except outputs.Refused as refused:
        program.tell(str(refused))
        return refused.status
    except Refused as refused:
        program.tell(str(refused))
        if refused.judged:
            ending.tell_reasons(program.command(), [*refused.judged], refused.status)
        return refused.status
    if asked.line and not count:
        program.tell(f"line {asked.line} of {asked.script} has no entry in the report")
        return WRONG_WORDS
    if odd:
        came = f"worked anew {len(odd)} lines come to something else than the report says"
        program.tell(f"{came}, the first of line {odd[0]}")
    return NO_RUN if odd else 0
