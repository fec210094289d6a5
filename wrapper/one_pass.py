"""One pass of the program `spinfilter` over a capture, or a piece of one, in a folder that gets its name when all is there.

So whatever stops a call, a folder of that name is a finished piece.
"""

import json
import os
import re
import shutil
import struct
import subprocess
import tempfile
import threading
from collections import Counter
from collections.abc import Mapping, Sequence
from pathlib import Path
from typing import NamedTuple

from wrapper import faults
from wrapper.counts import read_counts
from wrapper.outputs import NAMES
from wrapper.pieces import HEADER, MICROSECONDS, RECORD_HEADER, Piece, Refused, header_of
from wrapper.program import NOT_RUN
from wrapper.rounds import Rounds

DONE = "done.json"
SCRIPT, CAPTURE = "piece.spin", "piece.pcap"

# The endpoints whose files hold what was sent, as it was sent; what is sent to the first can be written as a capture.
PLAIN_NAMES = ("out0", "out1", "out2", "out3")
WRITER = PLAIN_NAMES[0]

# Statuses of the program: a capture that is refused, what can't be written, and what was sent that is no frame.
BAD_CAPTURE, UNWRITTEN, NO_FRAME = 3, (5, 8), 13

# What a finished piece was made of, as JSON has it.
Key = dict[str, object]


class Ended(NamedTuple):
    """How a call of the program ended: its status, and the lines that it wrote."""

    status: int
    lines: list[str]


class Calls:
    """Calls of the program, which are ended all at once where one of them is the last."""

    def __init__(self, command: Sequence[str]) -> None:
        self.command, self.is_stopped = command, False
        self.running: set[subprocess.Popen[str]] = set()
        self.lock = threading.Lock()

    def call(self, words: Sequence[str], folder: Path) -> Ended:
        """Calls the program with these words in the folder."""
        with self.lock:
            if self.is_stopped:
                return Ended(NOT_RUN, [])
            # what may write no more is told so, and isn't ended by a signal
            ran = subprocess.Popen(
                [*self.command, *words], cwd=folder, stdin=subprocess.DEVNULL, stdout=subprocess.PIPE, text=True,
                restore_signals=False,
            )
            self.running.add(ran)
        written, _ = ran.communicate()
        self.running.discard(ran)
        return Ended(ran.returncode if ran.returncode >= 0 else NOT_RUN, written.splitlines())

    def over_nothing(self, text: bytes) -> Ended:
        """How a pass over no record ends: what the program says of a script, and what its commands come to."""
        with tempfile.TemporaryDirectory() as folder:
            (Path(folder) / SCRIPT).write_bytes(text)
            (Path(folder) / CAPTURE).write_bytes(header_of(MICROSECONDS, 0))
            return self.call([SCRIPT, CAPTURE, "--counts"], Path(folder))

    def stop(self) -> None:
        """Ends all calls, and begins no more."""
        with self.lock:
            self.is_stopped = True
            for ran in [*self.running]:
                ran.kill()


class Task(NamedTuple):
    """What is to be done: a piece, its folder, what it is made of, the script, and what is written as captures."""

    piece: Piece
    folder: Path
    key: Key
    rounds: Rounds
    captured: frozenset[str]

    def run(self, calls: Calls) -> Mapping[str, int]:
        """Passes over the piece, leaves its folder, and answers its counts."""
        work = Path(f"{self.folder}.{os.getpid()}")
        shutil.rmtree(work, ignore_errors=True)
        work.mkdir(parents=True)
        try:
            (work / SCRIPT).write_text(self.rounds.text)
            put_piece(self.piece, work / CAPTURE, bool(self.captured))
            counts = self.send_all(calls, work)
            for name in (SCRIPT, CAPTURE):
                os.remove(work / name)
            (work / DONE).write_text(json.dumps({"key": self.key, "counts": counts}))
            os.rename(work, self.folder)
        except OSError:
            # another call that does this part may have been as quick
            if not (self.folder / DONE).exists():
                raise
        finally:
            shutil.rmtree(work, ignore_errors=True)
        return counts

    def send_all(self, calls: Calls, work: Path) -> Counter[str]:
        """Leaves in the folder what each endpoint received, and answers the counts."""
        ended = self.call(calls, work, WRITER if WRITER in self.captured else None)
        if ended.status == NO_FRAME:
            for name in (*(f"{name}.bin" for name in NAMES), f"{WRITER}.pcap"):
                (work / name).unlink(missing_ok=True)
            ended = self.call(calls, work, None)
        counts = read_counts(ended.lines)
        sends = {name: counts[f"send {at}"] for at, name in self.rounds.endpoints.items()}
        for name in self.captured - {WRITER}:
            if sends[name]:
                self.send_frames(calls, work, name)
        if not sends.get(WRITER):
            (work / f"{WRITER}.pcap").unlink(missing_ok=True)
        counts.update({f"bytes {at}": received(work, name, sends[name]) for at, name in self.rounds.endpoints.items()})
        return counts

    def send_frames(self, calls: Calls, work: Path, name: str) -> None:
        """Writes what an endpoint received as a capture, where it is all frames: once more, as if it were the first."""
        with tempfile.TemporaryDirectory(dir=work) as again:
            (Path(again) / SCRIPT).write_text(as_writer(self.rounds.text, name))
            (Path(again) / CAPTURE).symlink_to(f"../{CAPTURE}")
            if self.call(calls, Path(again), WRITER).status == NO_FRAME:
                return
            os.replace(Path(again) / f"{WRITER}.pcap", work / f"{name}.pcap")
        os.remove(work / f"{name}.bin")

    def call(self, calls: Calls, folder: Path, captured: str | None) -> Ended:
        """Passes over the piece once; raises `Refused` where that ends otherwise than well, or at what is no frame."""
        words = [] if captured is None else ["-w", f"{captured}.pcap"]
        ended = calls.call([SCRIPT, CAPTURE, *words, "--counts"], folder)
        if ended.status in (0, NO_FRAME):
            return ended
        last = ended.lines[-1] if ended.lines else ""
        capture = self.piece.capture
        if ended.status == BAD_CAPTURE and self.piece.records is None:
            _, _, _, record, _, fault = last.split()
            raise Refused(BAD_CAPTURE, *faults.explain(capture.name, int(record), int(fault)))
        if ended.status in UNWRITTEN:
            raise Refused(5, f"what is sent can't be written below {folder.parent}; is the disk full?")
        where = f"over {capture.name}, from byte {self.piece.start} on"
        raise Refused(ended.status, f"{where}, the program ended with status {ended.status}: {last}")


def as_writer(text: str, name: str) -> str:
    """The script in which the endpoint of that name and the one whose sends are written as a capture have each other's."""
    other = {name: WRITER, WRITER: name}
    line = rf"(?m)^([ \t]*endpoint[ \t]+\S+[ \t]+)({name}|{WRITER})(?=[ \t\r]*$)"
    return re.sub(line, lambda found: found[1] + other[found[2]], text)


def received(work: Path, name: str, sends: int) -> int:
    """The bytes that were written of what an endpoint received, without lengths and headers."""
    if (work / f"{name}.pcap").exists():
        return (work / f"{name}.pcap").stat().st_size - HEADER - RECORD_HEADER * sends
    file = work / f"{name}.bin"
    if name not in NAMES or not file.exists():
        return 0
    return file.stat().st_size - 4 * sends if name in PLAIN_NAMES else bytes_in(file)


def bytes_in(file: Path) -> int:
    """The bytes of all pieces in an endpoint's file."""
    total = 0
    with open(file, "rb") as content:
        while length := content.read(4):
            size = int.from_bytes(length, "big")
            content.seek(size, os.SEEK_CUR)
            total += size
    return total


def put_piece(piece: Piece, file: Path, keeps_times: bool) -> None:
    """Puts a piece of a capture there as a capture, by a link where it is the whole one.

    The program writes microseconds. Where all of a nanosecond's times are kept, they are handed in as if they were those.
    """
    capture = piece.capture
    is_renamed = keeps_times and capture.second != MICROSECONDS
    if piece.is_whole and not is_renamed:
        file.symlink_to(capture.path)
        return
    with open(capture.path, "rb", buffering=0) as source, open(file, "wb", buffering=0) as target:
        head = os.pread(source.fileno(), HEADER, 0)
        target.write(struct.pack(f"{capture.order}I", 0xA1B2C3D4) + head[4:] if is_renamed else head)
        at = piece.start
        while at < piece.end:
            sent = os.sendfile(target.fileno(), source.fileno(), at, piece.end - at)
            if not sent:
                raise Refused(4, f"{capture.name} became shorter while it was read")
            at += sent
