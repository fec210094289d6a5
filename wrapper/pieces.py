"""Captures of any length, and their pieces, which begin and end at records.

A capture is what docs/FORMATS.md says, without its limit of records. What the program refuses is refused here too, with
the record and its place in the file.
"""

import os
import stat
import struct
from collections.abc import Iterator
from io import FileIO
from typing import NamedTuple

from wrapper import faults

HEADER = 24
RECORD_HEADER = 16
LONGEST = 262_144
BLOCK = 4_194_304

# The numbers that a capture may begin with, and how many parts of a second its records then count.
MICROSECONDS, NANOSECONDS = 1_000_000, 1_000_000_000
MAGICS = {0xA1B2C3D4: MICROSECONDS, 0xA1B23C4D: NANOSECONDS}


class Refused(Exception):
    """What is asked for can't be done: the exit status, by the program's table, and lines that say why."""

    def __init__(self, status: int, *lines: str) -> None:
        super().__init__(*lines)
        self.status, self.lines = status, lines


class Capture(NamedTuple):
    """A capture's file as it was when it was found, and what its header says."""

    name: str
    path: str
    size: int
    changed: int
    order: str
    # parts of a second that its records count, and the greatest number of bytes that it took of a frame
    second: int
    snapped: int

    def identity(self) -> list[str | int]:
        """What tells this capture from others, and from itself after a change."""
        return [self.path, self.size, self.changed]


class Piece(NamedTuple):
    """So many records of a capture, from one place of its file up to another; None where they weren't counted."""

    capture: Capture
    start: int
    end: int
    records: int | None

    @property
    def is_whole(self) -> bool:
        """Whether it is the whole capture."""
        return self.start == HEADER and self.end == self.capture.size


def header_of(second: int, snapped: int) -> bytes:
    """The header of a capture whose records count so many parts of a second, and have at most so many bytes of a frame."""
    magic = next(magic for magic, parts in MAGICS.items() if parts == second)
    return struct.pack("<IHHIIII", magic, 2, 4, 0, 0, snapped, 1)


def order_of(header: bytes) -> str | None:
    """The order of the bytes in a capture's numbers, as struct has it, or None."""
    for order in "><":
        if struct.unpack_from(f"{order}I", header)[0] in MAGICS:
            return order
    return None


def fault_of(header: bytes) -> int | None:
    """The number of the first thing that is wrong with a capture's header, or None."""
    if len(header) < HEADER:
        return 5
    order = order_of(header)
    if not order:
        return 2
    major, minor, _, _, _, link = struct.unpack_from(f"{order}HHIIII", header, 4)
    return 3 if (major, minor) != (2, 4) else 4 if link != 1 else None


def find_capture(name: str) -> Capture:
    """The capture in the file of that name; raises `Refused` where it isn't there or the program refuses its header."""
    try:
        found = os.stat(name)
        if not stat.S_ISREG(found.st_mode):
            raise Refused(4, f"{name} is no file, and only files are cut into pieces")
        with open(name, "rb") as file:
            header = file.read(HEADER)
    except FileNotFoundError:
        raise Refused(6, f"there is no capture {name}") from None
    except OSError as error:
        raise Refused(4, f"{name} can't be read: {error.strerror}") from None
    fault = fault_of(header)
    if fault:
        raise Refused(3, *faults.explain(name, 0, fault))
    order = order_of(header)
    assert order, "a header without a fault has an order"
    magic, _, _, _, _, snapped, _ = struct.unpack(f"{order}IHHIIII", header)
    return Capture(name, os.path.realpath(name), found.st_size, found.st_mtime_ns, order, MAGICS[magic], snapped)


class Walk:
    """Goes through a capture's records. Its end, when all are passed, is that of the last whole one."""

    def __init__(self, capture: Capture) -> None:
        self.capture, self.end, self.records = capture, HEADER, 0
        self.length_of = struct.Struct(f"{capture.order}8xI4x").unpack_from

    def pieces(self, most: int) -> Iterator[Piece]:
        """The pieces of at most so many records, in order; raises `Refused` at a record that the program refuses."""
        with open(self.capture.name, "rb", buffering=0) as file:
            while True:
                start, before = self.end, self.records
                while self.records < before + most and self.pass_block(file, before + most - self.records):
                    pass
                if self.records == before:
                    return
                yield Piece(self.capture, start, self.end, self.records - before)

    def pass_block(self, file: FileIO, most: int) -> int:
        """Passes at most so many whole records, those whose headers lie in the next block, and answers how many."""
        block = os.pread(file.fileno(), min(BLOCK, self.capture.size - self.end), self.end)
        length_of, at, last, count = self.length_of, 0, 0, 0
        try:
            for count in range(1, most + 1):
                (length,) = length_of(block, at)
                if length > LONGEST:
                    raise Refused(3, *faults.explain(self.capture.name, self.records + count, 6))
                last, at = at, at + RECORD_HEADER + length
        except struct.error:  # no whole header is left in the block
            count -= 1
        if self.end + at > self.capture.size:  # the last record isn't whole
            count, at = count - 1, last
        self.end += at
        self.records += count
        return count
