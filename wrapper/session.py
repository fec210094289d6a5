"""session [SCRIPT [PACKETS]]: a prompt that keeps a script growing line by line and tells what each line did.

The script is run anew at each line, over a capture or none, so what is told is what the program wrote of it. A line
that the program refuses isn't kept. Endpoints receive nothing that stays. It works from a pipe as well.
"""

import os
import re
import subprocess
import sys
import tempfile
from collections.abc import Callable, Iterable, Iterator
from pathlib import Path
from typing import NamedTuple

from wrapper import causes, changes, completing, faults, picture, program, reasons, run_picture
from wrapper.bindings import Bindings
from wrapper.completing import DEEDS
from wrapper.folding import is_accepted, told_of
from wrapper.reading import NAMING, Line, Script, read_line, read_script
from wrapper.records import Records
from wrapper.run_picture import chip_text
from wrapper.svg import TooLarge, page
from wrapper.told import Teller
from wrapper.why import explain

USAGE = "usage: spin session [SCRIPT [PACKETS]]"
ORDER = ("spin", "modules", "event", "endpoint", "handler", "guard", "rule", "default", "lane")
SAME = {"authoriser": "rule", "barrier": "lane", "retire": "lane"}
HELP = """a line of a script (docs/FORMATS.md) is added where its section stands, and the script is run anew:
  event 0 0 w:w last          handler 1 w:w result a0      guard 1 w < a0 10
  install 0 0 1 1 free plain  raise 0 5                    the same as with `lane 0` before it
`spin 3` takes the place of the first line, `spin 2`; `# event 0 is NAME` names a number. Words of the session:
  undo            takes back the last change
  show            shows the script
  report          shows the report of the run
  why N           tells why line N came to what it did: guards with values, filters, rules, jobs and merges
  replace N LINE  puts a line in the place of line N
  delete N        takes line N away
  load FILE       runs over a capture from now on, and over none where no file is named
  save FILE       writes the script
  draw FILE       draws the run as SVG, or as a page where FILE ends in .html
  help            this text
  quit            ends the session; so does the end of the input
Where lines are typed, the key TAB tells what may stand next: words, and the numbers that are in force."""
MOST_TOLD = 8    # so many records of one line are told one by one
QUESTION = "what was changed isn't saved; does the session end all the same (y or n)? "


class Stopped(Exception):
    """The program didn't write a whole report: what it wrote last, and its status."""

    def __init__(self, said: str, status: int) -> None:
        """Keeps what was said, and the status."""
        super().__init__(said)
        self.said, self.status = said, status


def section_of(line: str) -> int | None:
    """Where a line's section stands among the sections; None for a line that is skipped."""
    words = line.split()
    if not words or words[0].startswith("#"):
        return None
    word = SAME.get(words[0], words[0])
    return ORDER.index(word) if word in ORDER else len(ORDER)


def place_for(lines: list[str], line: str) -> int:
    """The index at which a line is added: behind the last line whose section isn't behind its own."""
    section, at = section_of(line), 0
    for index, other in enumerate(lines):
        of = section_of(other)
        if of is not None and section is not None and of <= section:
            at = index + 1
    return at


def text_of(lines: Iterable[str]) -> bytes:
    """The script as a file has it, bytes that aren't UTF-8 too."""
    return "".join(f"{line}\n" for line in lines).encode("utf-8", "surrogateescape")


def as_deed(words: list[str]) -> list[str]:
    """The words of a line, with the lane that may be left out before a deed."""
    is_first_default = words[0] == "default" and len(words) == 3
    return ["lane", "0", *words] if words[0] in DEEDS and not is_first_default else words


def as_line(text: str) -> str:
    """A line as it is kept: a comment as it was typed, and other words one space apart."""
    return text.strip() if text.strip().startswith("#") else " ".join(as_deed(text.split()))


def run(lines: list[str], capture: str | None) -> list[Line]:
    """The lines of the report of a run of the script, over the capture where there is one."""
    with tempfile.TemporaryDirectory() as folder:
        (Path(folder) / "script").write_bytes(text_of(lines))
        words = ["run", "script", *([os.path.abspath(capture)] if capture else [])]
        ran = program.run(words, cwd=folder, stdout=subprocess.PIPE)
    text = ran.stdout.decode("ascii", "replace").splitlines()
    if ran.returncode:
        raise Stopped(text[-1] if text else "the program said nothing", ran.returncode)
    return [read_line(line) for line in text]


def stop_words(stopped: Stopped, lines: list[str], capture: str | None) -> list[str]:
    """A stop in words: of a refused script the line, a mark under the word, and what may stand there."""
    found = re.fullmatch(r"stop ([23]) (?:line|record) (\d+) (?:cause|fault) (\d+)", stopped.said)
    if not found:
        return [stopped.said]
    kind, line, cause = map(int, found.groups())
    if kind == 3 and capture:
        return faults.explain(capture, line, cause)
    name, where = causes.script_cause(cause)
    more = reasons.of_script_line(text_of(lines), line, cause) if line else []
    return [f"cause {cause} ({name}): {where}", *more]


class Past(NamedTuple):
    """What was changed, and what was before it: the script, the report of its run, and the capture."""

    what: str
    lines: list[str]
    report: list[Line]
    capture: str | None


class Session:
    """The script so far, its capture, the report of its last run, what was before each change, and what was saved."""

    def __init__(self, lines: list[str], capture: str | None = None) -> None:
        """Runs the script with which the session begins."""
        self.lines, self.capture, self.report = lines, capture, run(lines, capture)
        self.past: list[Past] = []
        self.saved = lines

    @property
    def is_unsaved(self) -> bool:
        """Whether the script has changed since it was saved, or since the session began."""
        return self.lines != self.saved

    @property
    def script(self) -> Script:
        """The script as it is read."""
        return read_script("\n".join(self.lines))

    def records(self) -> Records | None:
        """The records of the capture; None where there is none."""
        return Records(self.script, Path(self.capture).read_bytes()) if self.capture else None

    # ---- changes

    def change(
        self, what: str, lines: list[str], moved: Callable[[int], int] = lambda line: line, added: int = 0,
    ) -> list[str]:
        """Makes these the lines where the program takes them, and answers what that did.

        `moved` says which number each line has now, 0 for one that is gone; `added` is the number of the new line.
        """
        try:
            report = run(lines, self.capture)
        except Stopped as stopped:
            first, *more = stop_words(stopped, lines, self.capture)
            return [f"not kept: {first}", *more]
        before = {key._replace(line=moved(key.line)): line for key, line in changes.answers(self.report).items()}
        self.keep(what, lines, report, self.capture)
        told = self.tell(added) if added else []
        return [*told, *changes.told(before, changes.answers(report), lines, lambda line: line in (0, added))]

    def keep(self, what: str, lines: list[str], report: list[Line], capture: str | None) -> None:
        """Keeps a change, and what was before it."""
        self.past.append(Past(what, self.lines, self.report, self.capture))
        self.lines, self.report, self.capture = lines, report, capture

    def take(self, text: str) -> list[str]:
        """Takes a line of the script, and answers what it did."""
        line = as_line(text)
        at = place_for(self.lines, line)
        if line.split()[0] == "spin":
            return self.change(line, [*self.lines[:at - 1], line, *self.lines[at:]], added=at)
        moved = lambda number: number + (number > at)
        return self.change(line, [*self.lines[:at], line, *self.lines[at:]], moved, at + 1)

    def name(self, line: str) -> list[str]:
        """Takes a comment that names a number; it stands at the end, and the run stays as it is."""
        self.keep(line, [*self.lines, line.strip()], self.report, self.capture)
        return [f"kept as line {len(self.lines)}"]

    def replace(self, number: str, text: str) -> list[str]:
        """Puts a line in the place of another."""
        at = self.index(number)
        if at is None:
            return [f"there is no line {number}"]
        return self.change(self.lines[at], [*self.lines[:at], as_line(text), *self.lines[at + 1:]], added=at + 1)

    def delete(self, number: str) -> list[str]:
        """Takes a line away."""
        at = self.index(number)
        if at is None:
            return [f"there is no line {number}"]
        gone = self.lines[at]
        moved = lambda line: 0 if line == at + 1 else line - (line > at)
        told = self.change(f"deletion of {gone}", [*self.lines[:at], *self.lines[at + 1:]], moved)
        return told if told and told[0].startswith("not kept") else [f"deleted: {gone}", *told]

    def index(self, number: str) -> int | None:
        """The index of the line of that number; None where there is none."""
        return int(number) - 1 if number.isdecimal() and 0 < int(number) <= len(self.lines) else None

    def load(self, file: str | None) -> list[str]:
        """Runs over a capture from now on, or over none."""
        if file and not os.path.isfile(file):
            return [f"{file} is no file that is there"]
        try:
            report = run(self.lines, file)
        except Stopped as stopped:
            first, *more = stop_words(stopped, self.lines, file)
            return [f"not loaded: {first}", *more]
        before = changes.answers(self.report)
        self.keep(f"load {file}" if file else "load", self.lines, report, file)
        end = report[-1].words
        told = [f"loaded: {end[2]} records, of which {end[4]} are dispatched"] if file else ["no capture is loaded"]
        return [*told, *changes.told(before, changes.answers(report), self.lines, lambda line: False)]

    def undo(self) -> list[str]:
        """Takes back the last change."""
        if not self.past:
            return ["nothing was added"]
        what, self.lines, self.report, self.capture = self.past.pop()
        return [f"taken back: {what}"]

    # ---- what is told

    def tell(self, added: int) -> list[str]:
        """What the added line did; of a line with many records the first ones, and how the others went."""
        bindings = Bindings(self.script)
        teller, told, others = Teller(self.script, bindings), list[str](), list[Line]()
        for line in self.report:
            if line.kind not in ("entry", "job"):
                continue
            event = bindings.take(line.place, teller.script.deeds[line.line].words) if is_accepted(line) else None
            if line.line == added and line.part <= MOST_TOLD:
                told += self.entry(teller, line, event)
            elif line.line == added:
                others.append(line)
        if others:
            told += [f"and {len(others):,} more:", *(f"  {row}" for row in told_of(others))]
        return told or self.quiet(added)

    def quiet(self, added: int) -> list[str]:
        """What is said of a line that has no entry."""
        words = self.lines[added - 1].split()
        if words[0] == "lane":
            return ["kept: no records are left" if self.capture else "kept: no records, since no capture is loaded"]
        if words[0] == "barrier":
            return [f"kept: segment {sum(line.kind == 'segment' for line in self.report) - 1} begins"]
        notes = [line for line in self.report if words[0] == "retire" and line.kind == "retire"
                 and line.index == int(words[1], 0)]
        return [f"kept: {notes[-1].text}"] if notes else [f"kept as line {added}"]

    @staticmethod
    def entry(teller: Teller, line: Line, event: int | None) -> list[str]:
        """An entry or a job in words: its place, its verdict or chain, its answer, and the bindings in their order."""
        rows = teller.entry(line)
        told = [f"place {line.place}, lane {line.lane}, line {line.source}: {rows[0].text}"]
        told += ["  " * row.depth + row.text for row in rows[1:]]
        if event is not None:
            order = [chip_text(teller.script, one) for one in teller.bindings.order(event)]
            told.append(f"  {teller.script.called('event', event)} now runs: {'; '.join(order) or 'nothing'}")
        return told

    def show(self) -> list[str]:
        """The script with its lines' numbers."""
        return [f"{at:>4}  {line}" for at, line in enumerate(self.lines, 1)]

    def shown_report(self) -> list[str]:
        """The report of the run, as the program wrote it."""
        return [line.text for line in self.report]

    def why(self, line: str) -> list[str]:
        """Why a line of the script came to what it did."""
        number, _, part = line.partition(".")
        if not number.isdecimal() or part and not part.isdecimal():
            return ["why takes the number of a line, as `show` has it"]
        is_wanted = lambda one: one.line == int(number) and (not part or one.part == int(part))
        found = explain(self.script, self.report, self.records(), is_wanted)
        return [text for one in found for text in one.lines] or [f"line {line} has no entry"]

    def save(self, file: str) -> list[str]:
        """Writes the script."""
        fault = written(file, "".join(f"{line}\n" for line in self.lines))
        if not fault:
            self.saved = self.lines
        return [fault or f"written: {len(self.lines)} lines"]

    def draw(self, file: str) -> list[str]:
        """Draws the run as it is now."""
        try:
            drawing = run_picture.draw(self.script, self.report, self.records())
        except TooLarge:
            return ["the run is too long for one picture"]
        text = page(drawing, "a session") if file.endswith(".html") else drawing.text
        return [written(file, text) or f"drawn: {file}"]

    def choices(self, line: str) -> list[str]:
        """The words that may take the place of the last one of a line."""
        script = self.script
        bindings = Bindings(script)
        for one in self.report:
            if is_accepted(one):
                bindings.take(one.place, script.deeds[one.line].words)
        return completing.choices(script, bindings, len(self.lines), line)


def written(file: str, text: str) -> str:
    """Writes a file; answers why it couldn't be, or nothing."""
    try:
        picture.write(text, file)
    except picture.Refused as refused:
        return str(refused)
    return ""


def is_edit(words: list[str]) -> bool:
    """Whether words put a line in the place of another: those of a command `replace` are numbers."""
    return words[0] == "replace" and (len(words) < 3 or not words[2][0].isdecimal())


def answer(session: Session, line: str) -> list[str] | None:
    """What is said to one line of the input; None ends the session."""
    words = line.split()
    if not words or words[0].startswith("#"):
        return session.name(line) if NAMING.fullmatch(line.strip()) else []
    if words in (["quit"], ["exit"]):
        return None
    alone: dict[str, Callable[[], list[str]]] = {
        "undo": session.undo, "show": session.show, "report": session.shown_report, "help": HELP.splitlines,
    }
    with_word = {"save": session.save, "draw": session.draw, "why": session.why, "delete": session.delete}
    if len(words) == 1 and words[0] in alone:
        return alone[words[0]]()
    if words[0] in with_word:
        if len(words) != 2:
            return [f"{words[0]} takes the {'name of a file' if words[0] in ('save', 'draw') else 'number of a line'}"]
        return with_word[words[0]](words[1])
    if words[0] == "load":
        return session.load(words[1] if words[1:] else None) if len(words) < 3 else ["load takes the name of one file"]
    if is_edit(words):
        return session.replace(words[1], line.split(None, 2)[2]) if words[2:] else ["replace takes a number and a line"]
    return session.take(line)


def complete_by(session: Session) -> None:
    """Has the key TAB complete words, where lines are typed and there is a library for it."""
    try:
        import readline
    except ImportError:
        return

    def completed(_: str, state: int) -> str | None:
        """The completion of this number, None behind the last."""
        found = session.choices(readline.get_line_buffer()[:readline.get_endidx()])
        return f"{found[state]}{'' if found[state].endswith('/') else ' '}" if state < len(found) else None

    readline.set_completer_delims(" \t")
    readline.set_completer(completed)
    readline.parse_and_bind("tab: complete")


def inputs(prompt: str) -> Iterator[str]:
    """The lines that are typed, or come from a pipe; an interrupt gives up the line that is being typed."""
    while True:
        try:
            yield input(prompt)
        except EOFError:
            if prompt:
                print()
            return
        except KeyboardInterrupt:
            print()


def first_lines(files: list[str]) -> list[str]:
    """The script with which the session begins, and its lines."""
    if not files:
        return ["spin 2"]
    try:
        text = Path(files[0]).read_text("utf-8", "surrogateescape")
        return [line.rstrip("\r") for line in text.removesuffix("\n").split("\n")]
    except OSError as error:
        status = picture.ABSENT if isinstance(error, FileNotFoundError) else picture.NOT_READ
        raise picture.Refused(f"the script {files[0]} can't be read: {error.strerror}", status)


def is_given_up(session: Session) -> bool:
    """Whether the session ends: where lines would be lost, that is asked."""
    if not session.is_unsaved:
        return True
    try:
        return input(QUESTION).strip().lower() in ("y", "yes")
    except (EOFError, KeyboardInterrupt):
        print()
        return True


def talk(session: Session) -> None:
    """Answers the lines of the input until it ends or the session is quit."""
    is_typed = sys.stdin.isatty()
    if is_typed:
        complete_by(session)
        print("a script grows here line by line; `help` tells how, `quit` ends it")
    while True:
        for line in inputs("spin> " if is_typed else ""):
            told = answer(session, line)
            if told is None:
                break
            print("".join(f"{one}\n" for one in told), end="", flush=True)
        if not is_typed or is_given_up(session):
            return


def main(words: list[str]) -> int:
    """Begins a session with the script, and answers the exit status."""
    if len(words) > 2 or any(word.startswith("-") for word in words):
        program.tell(USAGE)
        return picture.WRONG_WORDS
    if program.command() is None:
        program.tell("a session runs the program at every line, so it needs one that is built: ./spin build makes it")
        return program.NOT_RUN
    capture = words[1] if len(words) > 1 else None
    try:
        lines = first_lines(words)
        talk(Session(lines, capture))
    except picture.Refused as refused:
        program.tell(str(refused))
        return refused.status
    except Stopped as stopped:
        first, *more = stop_words(stopped, lines, capture)
        for text in [f"{''.join(words)}: {first}" if not capture else first, *more]:
            program.tell(text)
        return stopped.status
    return 0
