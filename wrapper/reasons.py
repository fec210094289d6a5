"""What a status of the program means: the lines that are said of it.

The program is asked anew by words that send nothing, and only over regular files, which a second reading doesn't change.
"""

import difflib
import os
import re
import select
import stat
import subprocess
from collections.abc import Callable, Iterable, Sequence

from wrapper import causes, commands, faults, marks, outputs, places, report_lint
from wrapper.program import CALLED

WIDTH = 96

# The causes of a word that can't stand where it does.
OF_FORM = range(6, 12)


def files_of(words: list[str]) -> dict[str, str]:
    """The files that the words name, each as the format calls it, in the order in which the program reads them."""
    order = {"run": "script packets", "join": "script packets", "check": "script report packets", "vm": "script trace"}
    named = dict(zip(order.get(words[0], "").split(), words[1:]))
    return {what: named[what] for what in ("script", "packets", "report", "trace") if what in named}


def asked(command: list[str] | None, words: list[str]) -> str:
    """The last line that the program writes for words which send nothing; empty where that can't be asked."""
    named = files_of(words)
    if command is None or not all(os.path.isfile(name) for name in named.values()):
        return ""
    if words[0] != "vm":
        words = ["check", named["script"], os.devnull, *filter(None, [named.get("packets")])]
    told = subprocess.run([*command, *words], stdout=subprocess.PIPE, stderr=subprocess.DEVNULL).stdout
    return told.decode("ascii", "replace").rstrip("\n").rpartition("\n")[2]


def numbers_of(line: str, status: int) -> list[int]:
    """The numbers of a stop line of this status; none where it is no such line."""
    found = re.fullmatch(rf"stop {status} \w+ (\d+) \w+ (\d+)", line)
    return [int(number) for number in found.groups()] if found else []


def meaning(status: int, numbers: Iterable[int] = (), letters: str = "") -> str:
    """A status in words, with the numbers of its stop line."""
    text = re.sub(r"\b(exactly|only) where ", "", causes.status(status))
    for letter, number in zip(letters, numbers):
        text = re.sub(rf"\b{letter}\b", str(number), text)
    return f"status {status}: {text.partition('; record 0')[0]}"


def shown(line: bytes, first: int, last: int) -> list[str]:
    """A line of a file with a mark below the bytes from the first to the last, cut to where the mark is."""
    start = max(0, min(first - WIDTH // 3, len(line) - WIDTH))
    piece = line[start : start + WIDTH].decode("latin-1")
    text = "".join(letter if " " <= letter <= "~" else "\t?"[letter != "\t"] for letter in piece).replace("\t", " ")
    front, back = "... " if start else "", " ..." if start + WIDTH < len(line) else ""
    length = max(1, min(last, start + WIDTH) - first)
    return [f"    {front}{text}{back}".rstrip(), " " * (4 + len(front) + first - start) + "^" + "~" * (length - 1)]


def marked(line: bytes, mark: marks.Mark | None) -> list[str]:
    """A line of a file with the words of a mark marked, and what may stand there."""
    if mark is None:
        return shown(line, 0, len(line))[:1]
    spans = marks.spans(line)
    end = len(line.rstrip()) + 1
    first = spans[mark.first][0] if mark.first < len(spans) else end
    last = spans[mark.last][1] if mark.last < len(spans) else end + 1
    told = shown(line if mark.first < len(spans) else line.rstrip() + b"  ", first, last)
    if mark.wanted:
        told.append(f"    may stand here: {mark.wanted}")
    return told


def of_bytes(line: bytes, text: bytes) -> list[str]:
    """A line with its first byte that isn't ASCII marked."""
    at = next((k for k, byte in enumerate(line) if byte != 9 and not 0x20 <= byte <= 0x7E), None)
    if at is None:
        return []
    told = [*shown(line, at, at + 1), f"    this is byte 0x{line[at]:02x}, the {at + 1}. of the line"]
    if text[:4] in faults.MAGICS:
        told.append("    the file begins as a capture does: SCRIPT comes before it")
    return told


def of_script_line(text: bytes, number: int, cause: int) -> list[str]:
    """The line of a script with the mark of the cause, and what may stand there."""
    lines = marks.lines_of(text)
    if not 1 <= number <= len(lines):
        return ["    it has no line"]
    line = lines[number - 1]
    if cause == 2:
        return of_bytes(text.split(b"\n")[number - 1], text)
    words = marks.words_of(line)
    if not words:
        return ["    it has no line but blank ones and comments"]
    mark = marks.find(cause, lines, number)
    told = marked(line, mark)
    near = nearest_word(mark, words)
    told = told[:-1] + [f"{told[-1]}; the nearest is `{near}`"] if near else told
    form = places.form_of(words, marks.version_of(lines)) if cause in OF_FORM else ""
    return [*told, f"    the line is written `{form}`"] if form else told


def nearest_word(mark: marks.Mark | None, words: list[str]) -> str | None:
    """The word in backticks of what may stand at a mark that is nearest to the one that stands there."""
    if mark is None or not mark.wanted or mark.first >= len(words):
        return None
    found = difflib.get_close_matches(words[mark.first], re.findall(r"`(\w+)`", mark.wanted), n=1)
    return found[0] if found and found[0] != words[mark.first] else None


def read(name: str) -> bytes:
    """The bytes of a file; empty where it can't be read."""
    try:
        with open(name, "rb") as file:
            return file.read()
    except OSError:
        return b""


def of_script(command: list[str] | None, words: list[str], status: int) -> list[str]:
    """A refused script."""
    numbers = numbers_of(asked(command, words), status)
    if not numbers:
        return [meaning(status)]
    (line, cause), script = numbers, words[1]
    name, where = causes.script_cause(cause)
    told = [f"{script}, line {line}, cause {cause} ({name}): {where}"]
    told += of_script_line(read(script), line, cause) if line else [f"    it has {os.path.getsize(script):,} bytes"]
    return [*told, meaning(status, numbers, "NC")]


def of_capture(command: list[str] | None, words: list[str], status: int) -> list[str]:
    """A refused capture."""
    numbers = numbers_of(asked(command, words), status)
    if not numbers:
        return [meaning(status)]
    told = faults.explain(files_of(words)["packets"], *numbers)
    return [told[0], *(f"    {line}" for line in told[1:]), meaning(status, numbers, "NF")]


TRACE_FORMS = {
    "space": "`space S`", "region": "`region S START PAGES RIGHTS`, RIGHTS `r` or `rw`", "unmap": "`unmap S PAGE`",
    "access": "`access S ADDRESS KIND`, KIND `r` or `w`",
}


def trace_mark(cause: int, words: list[str]) -> marks.Mark:
    """The mark of a trace's line."""
    if cause == 3:
        script = "; this file is a script, which comes before the trace" if words[:1] == ["spin"] else ""
        return marks.Mark(0, len(words) - 1, f"`vm 1`{script}")
    if cause == 4 and words[0] in TRACE_FORMS:
        return marks.Mark(0, len(words) - 1, TRACE_FORMS[words[0]])
    if cause == 4:
        return marks.Mark(0, 0, "`space`, `region`, `unmap` or `access`")
    return marks.Mark(*((1, 1) if cause in (5, 6) else (0, len(words) - 1)), None)


def of_trace(command: list[str] | None, words: list[str], status: int) -> list[str]:
    """A refused trace."""
    numbers = numbers_of(asked(command, words), status)
    if not numbers:
        return [meaning(status)]
    number, cause = numbers
    name, where = causes.trace_cause(cause)
    told, text = [f"{words[2]}, line {number}, cause {cause} ({name}): {where}"], read(words[2])
    lines = marks.lines_of(text)
    if 1 <= number <= len(lines):
        if cause == 2:
            told += of_bytes(text.split(b"\n")[number - 1], text)
        else:
            told += marked(lines[number - 1], trace_mark(cause, marks.words_of(lines[number - 1])))
    return [*told, meaning(status, numbers, "NC")]


def of_unsuited(command: list[str] | None, words: list[str], status: int) -> list[str]:
    """A script that isn't one for traces."""
    return [
        meaning(status),
        "    such a script has one segment, one lane and commands alone, and its events 0, 1 and 2 are of `www:w`",
    ]


def of_words(command: list[str] | None, words: list[str], status: int) -> list[str]:
    """A faulty command line."""
    called, given = commands.named(words[0]), words[1:]
    assert called, "it is a command of the program's that ends so"
    least, most = commands.how_many(called)
    told = [f"{called.name} takes {commands.operands(called)}"]
    if not least <= len(given) <= most:
        told[0] += f"; {len(given)} word{'s are' if len(given) != 1 else ' is'} given"
    for word in given:
        if not word:
            told.append("    a word is empty")
        elif word.startswith("-"):
            told.append(f"    {word} begins with `-`: the program has no flags; ./{word} names a file so")
        elif any("\ud800" <= letter <= "\udfff" for letter in word):
            told.append(f"    {word!a} isn't UTF-8")
    if called.name == "gen" and len(given) == 1:
        told.append("    NUMBER is decimal digits, or `0x` and 1 to 16 hexadecimal digits, below 2^64")
    return [*told, meaning(status)]


def of_missing(command: list[str] | None, words: list[str], status: int) -> list[str]:
    """A file that isn't there."""
    for what, name in files_of(words).items():
        if not os.path.lexists(name):
            folder, base = os.path.split(name)
            try:
                near = difflib.get_close_matches(base, os.listdir(folder or "."), n=1)
            except OSError:
                near = []
            told = f"{name}, the {what}, isn't there"
            return [told + (f"; the nearest is {os.path.join(folder, near[0])}" if near else ""), meaning(status)]
    return [meaning(status)]


def of_unread(command: list[str] | None, words: list[str], status: int) -> list[str]:
    """A file that can't be read."""
    for what, name in files_of(words).items():
        try:
            with open(name, "rb", buffering=0) as file:
                file.read(1)
        except OSError as why:
            return [f"{name}, the {what}, can't be read: {why.strerror}", meaning(status)]
    return [meaning(status)]


def of_unwritten(command: list[str] | None, words: list[str], status: int) -> list[str]:
    """A write that failed; nothing is told where a pipe's reader went away, as `head` does."""
    try:
        kind = os.fstat(1).st_mode
    except OSError:
        return ["standard output is closed", meaning(status)]
    if stat.S_ISFIFO(kind):
        poll = select.poll()
        poll.register(1, select.POLLOUT)
        if any(event & (select.POLLERR | select.POLLHUP) for _, event in poll.poll(0)):
            return []
    return ["standard output took no more bytes; is the disk full?", meaning(status)]


def of_endpoint(status: int, folder: str) -> list[str]:
    """An endpoint that failed, whose file is in that folder."""
    told, where = list[str](), "this folder" if folder == "." else folder
    for name in outputs.standing(outputs.NAMES, folder):
        file = os.path.join(folder, name)
        if os.path.isdir(file):
            told.append(f"    {name} is a folder")
        elif os.path.exists(file) and not os.access(file, os.W_OK):
            told.append(f"    {name} may not be written")
    if not os.access(folder, os.W_OK):
        told.append(f"    no file may be made in {where}")
    why = meaning(status).replace("endpoint P", "the endpoint of that number")
    return [f"what a handler sends to an endpoint goes to the file NAME.bin in {where}", *told, why]


def of_no(command: list[str] | None, words: list[str], status: int) -> list[str]:
    """A report that is judged none: what can be said of it without judging again."""
    script, report, *packets = words[1:]
    if not os.path.isfile(report) or not os.path.isfile(script):
        return [f"{report} is the report of no run of {script}", meaning(status)]
    text = read(report).decode("ascii", "replace")
    told = of_capture_named(text, script, report, packets)
    if "\r\n" in text:
        told.append("its lines end in a carriage return")
    elif not text.startswith("report 1\n"):
        told.append("its first line isn't `report 1`")
    elif not text.endswith("\n"):
        told.append("its last line lacks its line feed")
    elif re.search(r"^stop .*\n\Z", text, re.MULTILINE):
        told.append(f"it ends in `{text.splitlines()[-1]}`: it is that of a run that was stopped")
    elif not re.search(r"^end .*\n\Z", text, re.MULTILINE):
        told.append("its last line is no `end`")
    elif finding := report_lint.first_finding(read(script).decode("ascii", "replace"), text):
        told.append(finding)
    return [f"{report} is the report of no run of {script}", *(f"    {one}" for one in told), meaning(status)]


def of_capture_named(text: str, script: str, report: str, packets: Sequence[str]) -> list[str]:
    """What is told where a report is of a run over a capture and none is named, or the contrary."""
    end = re.search(r"^end [0-9]+( records .*)?$", text, re.MULTILINE)
    if not packets and (end and end[1] or re.search(r"^[0-9]+ [0-9]+ [0-9]+\.[0-9]+ packet ", text, re.MULTILINE)):
        return [f"it is one of a run over a capture, and none is named: {CALLED} check {script} {report} PACKETS"]
    if packets and end and not end[1]:
        return [f"it is one of a run without a capture, and {packets[0]} is named"]
    return []


REASONS: dict[int, Callable[[list[str] | None, list[str], int], list[str]]] = {
    1: of_words, 2: of_script, 3: of_capture, 4: of_unread, 5: of_unwritten, 6: of_missing, 9: of_no, 11: of_trace,
    12: of_unsuited,
}


def of(command: list[str] | None, words: list[str], status: int, folder: str = ".") -> list[str]:
    """The lines that are said of a status of the program, which ended so on these words and wrote in that folder."""
    if status == 8:
        return of_endpoint(status, folder)
    if status in REASONS:
        return REASONS[status](command, words, status)
    return [meaning(status)] if status in (7, 10) else []
