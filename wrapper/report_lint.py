"""What no report of a script can have, told without judging: lines of no form, and entries that fit no deed, or come twice
or never. A report in which nothing of this is found may still be that of no run. Nothing is proved of what is told here.
"""

import re
from collections.abc import Mapping

from wrapper import reading

NUMBER = "(?:0|[1-9][0-9]*)"
ENTRY = re.compile(f"({NUMBER}) ({NUMBER}) ({NUMBER})(?:\\.({NUMBER}))? ([a-z]+) [^ ].*")
OTHERS = re.compile(
    f"report 1|retire {NUMBER} (ok|unknown)|segment {NUMBER} at {NUMBER}|lost {NUMBER} {NUMBER}"
    f"|job {NUMBER} {NUMBER} {NUMBER}(\\.{NUMBER})? {NUMBER} [^ ].*|end {NUMBER}( records {NUMBER} used {NUMBER} cut {NUMBER})?"
)


def why_impossible(line: str, deeds: Mapping[int, reading.Deed], last: dict[int, tuple[int, int]]) -> str | None:
    """Why a line can't be in the report; None where this doesn't tell. `last` is each lane's last entry so far."""
    if OTHERS.fullmatch(line):
        return None
    entry = ENTRY.fullmatch(line)
    if not entry:
        return "no line of a report has this form"
    lane, number, part = int(entry[2]), int(entry[3]), int(entry[4] or 0)
    deed, word = deeds.get(number), entry[5]
    if deed is None or deed.lane != lane or deed.words[0] != word or (word == "packet") != bool(part):
        return f"line {number} of the script is no `{word}` of lane {lane}"
    before = last.get(lane, (0, 0))
    last[lane] = number, part
    if before == (number, part):
        return f"line {number} of the script has an entry before"
    if before > (number, part):
        return f"line {before[0]} of lane {lane} has an entry before, and line {number} comes first"
    return None


def shortened(line: str) -> str:
    """A line of a report, cut where it is long."""
    return line if len(line) <= 60 else f"{line[:56]} ..."


def first_finding(script: str, report: str) -> str | None:
    """What is said of the first line of a report that can't be there, or of the first deed without an entry; None else."""
    deeds, lines = reading.read_script(script).deeds, report.splitlines()
    last: dict[int, tuple[int, int]] = {}
    for at, line in enumerate(lines, 1):
        why = why_impossible(line, deeds, last)
        if why:
            return f"line {at} of it, `{shortened(line)}`: {why}"
    told = {int(found[3]) for found in map(ENTRY.fullmatch, lines) if found}
    lacking = next((line for line, deed in deeds.items() if deed.words[0] != "packet" and line not in told), None)
    return f"it has no entry for line {lacking} of the script" if lacking else None
