"""filter: filters captures of any length and number by a script, in pieces side by side, and joins what the pieces leave."""

import argparse
import contextlib
import fcntl
import hashlib
import json
import os
import shutil
import struct
import subprocess
import sys
import tempfile
import time
from collections import Counter
from collections.abc import Iterator, Mapping
from concurrent.futures import FIRST_COMPLETED, Future, ThreadPoolExecutor, wait
from pathlib import Path
from typing import BinaryIO, NoReturn

from wrapper import commands, convert, expression, hits, outputs, program, reasons, usage
from wrapper.bindings import Bindings
from wrapper.counts import read_counts, summary
from wrapper.keeping import PIECES, Made
from wrapper.one_pass import DONE, PLAIN_NAMES, Calls, Key, Task
from wrapper.pieces import HEADER, RECORD_HEADER, Piece, Refused, Walk, find_capture, header_of
from wrapper.program import FILTER, NOT_RUN, tell
from wrapper.reading import read_line, read_script
from wrapper.rounds import Rounds, in_the_way, read_rounds, without_barriers

# Where it isn't said, captures of up to so many bytes are a piece each, and others are cut into pieces of so many records.
WHOLE, PIECE = 268_435_456, 250_000
INTERRUPTED = 130

BAD_SCRIPT, UNSUITED = 2, 12


class Words(argparse.ArgumentParser):
    """Reads the words of the command line; wrong ones are told as the program's status 1."""

    def error(self, message: str) -> NoReturn:
        """Refuses the words."""
        raise Refused(1, message, self.usage or "")


def positive(word: str) -> int:
    """A number from 1 on."""
    if not word.isdecimal() or int(word) == 0:
        raise argparse.ArgumentTypeError(f"{word} is no number from 1 on")
    return int(word)


def part(word: str) -> tuple[int, int]:
    """Which part of how many: K and N of K/N."""
    which, _, of = word.partition("/")
    if not positive(which) <= positive(of):
        raise argparse.ArgumentTypeError(f"{word} is no part")
    return int(which), int(of)


def read_words(words: list[str]) -> argparse.Namespace:
    """What the words ask for."""
    this = commands.named("filter")
    assert this, "its module is here"
    parser = Words(usage=usage.usage_line(this).rstrip(), add_help=False, allow_abbrev=False)
    parser.add_argument("--jobs", type=positive, default=len(os.sched_getaffinity(0)))
    parser.add_argument("--out", type=Path, default=Path("filtered"))
    parser.add_argument("--pcap", action="store_true")
    parser.add_argument("--piece", type=positive)
    parser.add_argument("--part", type=part)
    parser.add_argument("--counts", action="store_true")
    parser.add_argument("--json", action="store_true")
    parser.add_argument("--convert", action="store_true")
    if "-e" in words:
        return expression.read_words(words, parser)
    parser.add_argument("script", metavar="SCRIPT")
    parser.add_argument("captures", metavar="CAPTURE", nargs="+")
    return parser.parse_intermixed_args(words)


class Progress:
    """Tells how many records are done, how fast, and how long it will take: each second on a terminal, else now and then."""

    def __init__(self, size: int) -> None:
        self.left, self.records, self.done = size, 0, 0
        self.since = self.told = time.monotonic()
        self.is_terminal = sys.stderr.isatty()

    def pass_over(self, piece: Piece) -> None:
        """A piece was done by an earlier call."""
        self.left -= piece.end - piece.start

    def add(self, piece: Piece, records: int) -> None:
        """A piece is done."""
        self.pass_over(piece)
        self.done += piece.end - piece.start
        self.records += records
        now = time.monotonic()
        if now - self.told >= (1 if self.is_terminal else 10):
            self.told = now
            self.show(now - self.since)

    def show(self, seconds: float) -> None:
        """Writes the line."""
        left = f", {seconds * self.left / self.done:.0f} s left" if self.done else ""
        line = f"{self.records:,} records, {self.records / seconds:,.0f} a second{left}"
        if self.is_terminal:
            print(f"\rspin: {line}\x1b[K", end="", file=sys.stderr, flush=True)
        else:
            tell(line)

    def end(self) -> None:
        """Leaves the line on a terminal."""
        if self.is_terminal and self.told > self.since:
            print(file=sys.stderr)


class Filter:
    """One call: its script, its captures, and what is known of their pieces."""

    def __init__(self, options: argparse.Namespace) -> None:
        begin = program.command(FILTER)
        if begin is None:
            raise Refused(NOT_RUN, "the program isn't built, and a trial keeps no endpoint's file; build it first")
        self.options, self.calls = options, Calls(begin)
        text = self.read_text()
        self.checksum = hashlib.sha256(text).hexdigest()
        self.rounds, self.given = self.read_rounds(text)
        self.bindings = self.read_bindings() if options.counts or options.json else None
        self.captures = [find_capture(name) for name in options.captures]
        self.folder, self.made = options.out.absolute() / PIECES, Made(options.out)
        # of the endpoints whose frames are asked for, those that received what is no frame
        self.plain: set[str] = set()
        self.pieces: list[int] = []  # how many each capture has
        self.counts: Counter[str] = Counter()

    def read_text(self) -> bytes:
        """The script's bytes."""
        name = self.options.script
        try:
            return Path(name).read_bytes()
        except FileNotFoundError:
            raise Refused(6, f"there is no script {name}") from None
        except OSError as error:
            raise Refused(4, f"{name} can't be read: {error.strerror}") from None

    def read_rounds(self, text: bytes) -> tuple[Rounds, Counter[str]]:
        """The script as the program takes it, and what its commands come to."""
        name, ended = self.options.script, self.calls.over_nothing(text)
        if ended.lines == [f"stop {UNSUITED} segments"]:
            text = without_barriers(text.decode()).encode()
            ended = self.calls.over_nothing(text)
        if ended.status == BAD_SCRIPT:
            raise Refused(BAD_SCRIPT, *reasons.of(program.command(), ["run", name], BAD_SCRIPT))
        if ended.status == UNSUITED:
            why = in_the_way(text.decode(), ended.lines[0].split()[2:])
            raise Refused(BAD_SCRIPT, f"{name} is no script for a filter: {why}")
        if ended.status:
            raise Refused(ended.status, f"on {name} the program ended with status {ended.status}: {' '.join(ended.lines)}")
        counts = read_counts(ended.lines)
        return read_rounds(text.decode()), Counter({it: counts[it] for it in ("accepted", "refused")})

    def read_bindings(self) -> Bindings:
        """The bindings that the script's commands leave, by the report of a run without a capture."""
        script = read_script(self.rounds.text)
        bindings = Bindings(script)
        with tempfile.TemporaryDirectory() as folder:
            (Path(folder) / "script").write_text(self.rounds.text)
            ran = program.run(["run", "script"], cwd=folder, stdin=subprocess.DEVNULL, stdout=subprocess.PIPE)
        for line in map(read_line, ran.stdout.decode().splitlines()):
            if line.kind == "entry" and line.words[1] == "ok":
                bindings.take(line.place, script.deeds[line.line].words)
        return bindings

    def key(self, piece: Piece) -> Key:
        """What a finished piece must have been made of, to be kept."""
        called = self.calls.command
        programs = [[word, os.stat(word).st_size, os.stat(word).st_mtime_ns] for word in called if os.path.isfile(word)]
        return {
            "script": self.checksum, "program": programs, "capture": piece.capture.identity(),
            "range": [piece.start, piece.end, piece.records], "pcap": self.options.pcap,
        }

    def task(self, piece: Piece, folder: Path) -> Task:
        """What is to be done of a piece."""
        declared = set(self.rounds.endpoints.values()) & set(PLAIN_NAMES)
        captured = frozenset(declared - self.plain if self.options.pcap else ())
        return Task(piece, folder, self.key(piece), self.rounds, captured)

    def folders(self) -> Iterator[tuple[int, Path]]:
        """The folders of all pieces, in the captures' order, each with how many parts of a second its capture counts."""
        for at, pieces in enumerate(self.pieces):
            for number in range(pieces):
                yield self.captures[at].second, self.folder / f"{at + 1}-{number + 1}"

    def cut(self) -> Iterator[tuple[Piece, Path]]:
        """The pieces of all captures, each with its folder; those of another part are left out."""
        which, (part, parts) = 0, self.options.part or (1, 1)
        self.pieces = []
        for at, capture in enumerate(self.captures):
            self.pieces.append(0)
            for piece in self.pieces_of(Walk(capture)):
                self.pieces[at] += 1
                which += 1
                if which % parts == part % parts:
                    yield piece, self.folder / f"{at + 1}-{self.pieces[at]}"

    def pieces_of(self, walk: Walk) -> Iterator[Piece]:
        """The pieces of a capture: one, where that has too few bytes for two, and else whole rounds."""
        most, capture = self.options.piece, walk.capture
        if capture.size <= (HEADER + RECORD_HEADER * most if most else WHOLE):
            yield Piece(capture, HEADER, capture.size, None)
            return
        rounds = max(1, (most or PIECE) // self.rounds.step)
        yield from walk.pieces(rounds * self.rounds.step)
        self.counts["cut"] += capture.size - walk.end

    def kept(self, task: Task) -> dict[str, int] | None:
        """The counts of a piece that an earlier call finished; None where it has to be done, also if it is stale."""
        with contextlib.suppress(FileNotFoundError, ValueError):
            done = json.loads((task.folder / DONE).read_text())
            is_stale = any((task.folder / f"{name}.pcap").exists() for name in self.plain)
            if done["key"] == json.loads(json.dumps(task.key)) and not is_stale:
                counts: dict[str, int] = done["counts"]
                return counts
        shutil.rmtree(task.folder, ignore_errors=True)
        return None

    def run_pieces(self) -> None:
        """Runs each piece that isn't kept, side by side."""
        self.counts = Counter(captures=len(self.captures)) + self.given
        progress = Progress(sum(capture.size for capture in self.captures))
        under_way: dict[Future[Mapping[str, int]], Task] = {}
        with ThreadPoolExecutor(self.options.jobs) as pool:
            try:
                for task in (self.task(*cut) for cut in self.cut()):
                    found = self.kept(task)
                    if found is not None:
                        self.take(task, found)
                        progress.pass_over(task.piece)
                        continue
                    under_way[pool.submit(task.run, self.calls)] = task
                    if len(under_way) > self.options.jobs:
                        self.take_done(under_way, progress)
                while under_way:
                    self.take_done(under_way, progress)
            except BaseException:
                self.calls.stop()
                raise
            finally:
                progress.end()

    def take_done(self, under_way: dict[Future[Mapping[str, int]], Task], progress: Progress) -> None:
        """Waits for a piece, and takes what is done."""
        for one in wait(under_way, return_when=FIRST_COMPLETED).done:
            task, counts = under_way.pop(one), one.result()
            self.take(task, counts)
            progress.add(task.piece, counts["records"])

    def take(self, task: Task, counts: Mapping[str, int]) -> None:
        """Takes what a piece left."""
        self.counts.update({name: count for name, count in counts.items() if name not in self.given})
        if self.options.pcap:
            self.plain.update(name for name in PLAIN_NAMES if (task.folder / f"{name}.bin").exists())

    def join(self) -> None:
        """Joins what the endpoints received in the pieces, in the captures' order."""
        for capture in self.captures:
            if find_capture(capture.name) != capture:
                raise Refused(4, f"{capture.name} changed while it was read")
        for name in PLAIN_NAMES:
            if name in self.plain:
                tell(f"not all that {name} received is a frame of the capture, so it stands in {name}.bin")
            self.join_files(f"{name}.pcap")
        for name in outputs.NAMES:
            self.join_files(f"{name}.bin")
        shutil.rmtree(self.folder, ignore_errors=True)
        self.made.end()

    def join_files(self, name: str) -> None:
        """Writes the files of that name in the pieces' folders as one; where there are none, there is none."""
        found = [(second, folder / name) for second, folder in self.folders() if (folder / name).exists()]
        if not found:
            self.made.take_away(name)
            return
        whole, second = self.folder / name, max(capture.second for capture in self.captures)
        with open(whole, "wb") as out:
            if name.endswith(".pcap"):
                out.write(header_of(second, max(capture.snapped for capture in self.captures)))
            for its_second, piece in found:
                with open(piece, "rb") as file:
                    if name.endswith(".pcap"):
                        copy_scaled(file, out, second // its_second)
                    shutil.copyfileobj(file, out)
        self.made.put(whole, name)

    def run(self) -> list[str]:
        """Runs the pieces and, if not only a part of them is asked for, joins them; the lines to be written."""
        self.options.out.mkdir(parents=True, exist_ok=True)
        with open(self.options.out / "lock", "a") as lock:
            try:
                fcntl.flock(lock, (fcntl.LOCK_SH if self.options.part else fcntl.LOCK_EX) | fcntl.LOCK_NB)
            except BlockingIOError:
                raise Refused(NOT_RUN, f"another call works in {self.options.out}") from None
            self.made.begin([*(f"{name}.bin" for name in outputs.NAMES), *(f"{name}.pcap" for name in PLAIN_NAMES)])
            self.folder.mkdir(exist_ok=True)
            self.run_pieces()
            if self.options.part:
                return []
            while any((folder / f"{name}.pcap").exists() for name in self.plain for _, folder in self.folders()):
                self.run_pieces()
            self.join()
            outputs.tell_lost(["run", self.options.script])
            return self.told()

    def told(self) -> list[str]:
        """The lines that tell the counts: of packets alone, or of all that is counted, as a table or as JSON."""
        if self.bindings is None:
            return summary(self.counts, self.rounds.endpoints)
        script = self.bindings.script
        hits.add_lets(self.bindings, self.counts)
        told: hits.Told = {"captures": self.counts["captures"], **hits.found(script, self.bindings, self.counts)}
        return (hits.as_json(told) if self.options.json else hits.as_table(script, told)).splitlines()


def copy_scaled(file: BinaryIO, out: BinaryIO, scale: int) -> None:
    """Passes the header of a capture, and copies its records where each part of a second is several of those that are written."""
    file.seek(HEADER)
    fields = struct.Struct("<IIII")
    while scale > 1 and (header := file.read(RECORD_HEADER)):
        seconds, parts, captured, original = fields.unpack(header)
        out.write(fields.pack(seconds, parts * scale % 2**32, captured, original) + file.read(captured))


def main(words: list[str]) -> int:
    """Filters captures as the words ask for, and answers the exit status."""
    try:
        options, run = read_words(words), lambda options: Filter(options).run()
        with convert.all_converted(options.captures, options.convert) as options.captures:
            lines = expression.run(options, run) if "-e" in words else run(options)
    except outputs.Refused as refused:
        tell(str(refused))
        return refused.status
    except Refused as refused:
        for line in refused.lines:
            tell(line) if not line.startswith(" ") else print(line, file=sys.stderr)
        return refused.status
    except OSError as error:
        tell(f"{error.filename or 'writing failed'}: {error.strerror}")
        return 5
    except KeyboardInterrupt:
        tell("stopped; called again with the same words, it goes on")
        return INTERRUPTED
    print("".join(f"{line}\n" for line in lines), end="")
    return 0
