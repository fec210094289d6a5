"""The causes, faults and statuses of the program in words, row by row as docs/FORMATS.md has them.

`differing()` says which rows docs/FORMATS.md has otherwise; cases/wrapper sees that there are none.
"""

import re
from collections.abc import Sequence

from wrapper.program import TOP

FORMATS = TOP / "docs" / "FORMATS.md"

# Why a script is refused: the numbers of a row, the cause, and where it comes.
SCRIPT = [
    ("1", "too large", "the text is over 1,048,576 bytes"),
    ("2", "not ASCII",
     "a byte that is neither a tab nor from 0x20 to 0x7E, but for the carriage return before a line feed"),
    ("3", "version", "the first line that isn't skipped names no version; where there is none, at line 1"),
    ("4", "keyword", "the first word begins no line, or `spin` stands again"),
    ("5", "order",
     "the section lies before an earlier line's; a second `modules`; a `retire` that follows neither `barrier` nor"
     " `retire`"),
    ("6", "number",
     "a number in range was wanted, also where the word begins with a digit and an expression or a HANDLER was "
     "wanted; behind `before` and `after` in version 3 the number isn't greater than the one before it"),
    ("7", "signature", "a signature, or `native`, was wanted"),
    ("8", "name", "a name was wanted"),
    ("9", "word",
     "one of several fixed words, or the only one that can stand there (in version 3 `before`, `after`), an "
     "expression, a test, a step or a part was wanted"),
    ("10", "bytes", "a value that begins with `x` isn't bytes"),
    ("11", "end",
     "the line ends too early, or a word is left over (in a `handler` line that is cause 9, since another step "
     "might follow)"),
    ("12", "next", "the number of an event, endpoint, handler or guard isn't the next one"),
    ("13", "limit",
     "the 17th rule of an event; the 1,001st command line, in version 3 the 4,097th; deeds over 65,536, commands "
     "among them, a packet line counting its N"),
    ("14 to 19", "act, test, merge",
     "the first fault of the line's act, test or merge: too deep (over 8), too long (over 64 nodes), no such "
     "argument, wrong kind, not var, no result"),
    ("20", "undeclared",
     "an owner that is no module; an event, endpoint, handler or guard that isn't declared, in declarations, steps"
     " and `retire`"),
    ("21", "mismatch",
     "parts or a layer that the raised event doesn't take; an imposed guard without the event's kinds; a default "
     "that can't serve the event; a rule for an event with a native authoriser, or the contrary"),
    ("22", "native", "no native of that kind has the name"),
    ("23", "repeated", "an endpoint's name, a default or an authoriser that stands already"),
    ("24", "lane", "a lane over 7"),
]

# Causes 14 to 19, each by itself.
ACT_FAULTS = [
    "too deep (over 8)", "too long (over 64 nodes)", "no such argument", "wrong kind", "not var", "no result",
]

# Why a capture is refused.
CAPTURE = [
    ("1 read fault", "only where the source's count of faults rose"),
    ("2 magic, 3 version, 4 link", "where 24 bytes are there and that field isn't a listed one, in this order"),
    ("5 short", "where fewer than 24 bytes are there"),
    ("6 too long", "where the next record's captured length is over the limit"),
    ("7 too many records", "where a byte follows the last record that is allowed"),
    ("8 spoilt", "at every call after the reader's first refusal, which it names"),
]

# Why a trace is refused.
TRACE = [
    ("1", "TooLarge", "the text is over 1,048,576 bytes"),
    ("2", "NotAscii",
     "a byte that is neither a tab nor from 0x20 to 0x7E, but for the carriage return before a line feed"),
    ("3", "Version", "the first line that isn't skipped isn't `vm 1`; at line 1 where there is none"),
    ("4", "Form", "the line has none of the forms"),
    ("5", "Next", "a space isn't the next number, or is over 63"),
    ("6", "Undeclared", "the space isn't declared"),
    ("7", "Region", "a region has no pages, ends past 2^52 pages, or has a page of another region of its space"),
    ("8", "Regions", "a 257th region of a space"),
]

# When a status comes.
STATUSES = [
    ("0",
     "the whole report was written, script and capture read to their ends; under `gen` the whole summary; under "
     "`check` exactly where the report is that of a run, and `yes` was written; under `vm` the trace's whole "
     "output, script and trace read to their ends"),
    ("1", "exactly where the words have none of the forms"),
    ("2", "exactly where the script is found and read, and is refused at line N for cause C"),
    ("3", "exactly where record N of the capture is refused by fault F; record 0 is its header"),
    ("4", "only where finding or reading a file failed"),
    ("5", "only where writing failed; of the report, summary, answer or output a front was written"),
    ("6", "only where there is no such file"),
    ("7", "want of memory"),
    ("8", "only where endpoint P failed; the sends before that one were delivered"),
    ("9", "under `check`, exactly where the report is read and is that of no run; `no` was written"),
    ("10", "under `check`, exactly where the report is read and has more than 67,108,864 bytes"),
    ("11",
     "under `vm`, exactly where the script is one for traces and the trace is found and read, and is refused at "
     "line N for cause C"),
    ("12", "under `vm`, exactly where the script is found, read and not refused, and isn't one for traces"),
]


def script_cause(number: int) -> tuple[str, str]:
    """The name of a script's cause, and where it comes."""
    if 14 <= number <= 19:
        return ACT_FAULTS[number - 14], "the first fault of the line's act, test or merge"
    return next(((name, where) for row, name, where in SCRIPT if row == str(number)), ("", "no cause that is known here"))


def trace_cause(number: int) -> tuple[str, str]:
    """The name of a trace's cause, and where it comes."""
    return next(((name, where) for row, name, where in TRACE if row == str(number)), ("", "no cause that is known here"))


def capture_fault(number: int) -> tuple[str, str]:
    """The name of a capture's fault, and where it comes."""
    for names, where in CAPTURE:
        for one in names.split(", "):
            digits, name = one.split(" ", 1)
            if digits == str(number):
                return name, where
    return "", "no fault that is known here"


def status(number: int) -> str:
    """When a status comes."""
    return next((when for row, when in STATUSES if row == str(number)), "no status of docs/FORMATS.md")


def rows_of(text: str, heading: str, head: str) -> list[tuple[str, ...]]:
    """The cells of the table under a heading whose head line begins so."""
    at = text.index(head, text.index(heading))
    lines = text[at:].splitlines()[2:]
    table = lines[: next((k for k, line in enumerate(lines) if not line.startswith("|")), len(lines))]
    return [tuple(cell.strip() for cell in re.split(r"(?<!\\)\|", line)[1:-1]) for line in table]


def differing() -> list[str]:
    """The rows of docs/FORMATS.md that stand here otherwise, or the contrary."""
    text = FORMATS.read_text()
    shown = {
        "SCRIPT": rows_of(text, "### Why a script is refused", "| no. | cause | where |"),
        "TRACE": rows_of(text, "## Traces of memory accesses", "| no. | cause | where |"),
        "CAPTURE": rows_of(text, "## Captures", "| fault | comes |"),
        "STATUSES": [row[:2] for row in rows_of(text, "## Statuses", "| status | comes | stop line |")],
    }
    here: dict[str, Sequence[tuple[str, ...]]] = {
        "SCRIPT": SCRIPT, "TRACE": TRACE, "CAPTURE": CAPTURE, "STATUSES": STATUSES,
    }
    return [f"{name}: {row}" for name, rows in here.items() for row in sorted(set(rows) ^ set(shown[name]))]
