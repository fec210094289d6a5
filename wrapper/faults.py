"""Why a capture is refused, in words: where the fault lies, and what makes the capture readable, where something does.

Nothing is proved of what is told here.
"""

import os
import shlex
import struct
from typing import BinaryIO

from wrapper import causes
from wrapper.program import CALLED

MAGICS = {
    b"\xd4\xc3\xb2\xa1": "<", b"\x4d\x3c\xb2\xa1": "<", b"\xa1\xb2\xc3\xd4": ">", b"\xa1\xb2\x3c\x4d": ">",
}
MAX_LENGTH = 262_144

# What makes several captures of one with too many records.
PIECES = "editcap -F pcap -c 1000000 {0} {1}"

# What other files begin with, what they are, and the command that makes a capture of one.
OTHERS = [
    (b"\x0a\x0d\x0d\x0a", "pcapng", "editcap -F pcap {0} {1}"),
    (b"\x1f\x8b", "gzip", "gunzip -c {0} > {1}"),
    (b"\x28\xb5\x2f\xfd", "zstd", "zstd -dc {0} > {1}"),
    (b"\xfd7zXZ\x00", "xz", "xz -dc {0} > {1}"),
    (b"BZh", "bzip2", "bzip2 -dc {0} > {1}"),
    (b"PK\x03\x04", "zip", "unzip -p {0} > {1}"),
    (b"\x34\xcd\xb2\xa1", "pcap with longer records", "editcap -F pcap {0} {1}"),
    (b"\xa1\xb2\xcd\x34", "pcap with longer records", "editcap -F pcap {0} {1}"),
    (b"snoop\x00\x00\x00", "snoop", "editcap -F pcap {0} {1}"),
]

# Link types that are met.
LINKS = {
    0: "loopback of BSD", 12: "raw IP", 101: "raw IP", 105: "802.11", 108: "loopback of OpenBSD", 113: "Linux cooked",
    127: "802.11 with radiotap", 220: "USB", 228: "raw IPv4", 229: "raw IPv6", 276: "Linux cooked 2, as of tcpdump -i any",
}


def other_name(name: str) -> str:
    """A name for the capture that a command makes, beside this one."""
    stem = name
    for end in (".gz", ".zst", ".xz", ".bz2", ".zip", ".pcapng", ".pcap", ".cap"):
        stem = stem[: -len(end)] if stem.endswith(end) and stem != end else stem
    return f"{stem}.classic.pcap"


def made_of(command: str, name: str) -> str:
    """The command that makes another file of the one of this name."""
    return command.format(shlex.quote(name), shlex.quote(other_name(name)))


def made_by(command: str, name: str) -> str:
    """A line that names the command which makes a capture of the file."""
    return f"make it one with: {made_of(command, name)}"


def of_magic(name: str, head: bytes) -> list[str]:
    """What is said of a file whose first bytes are no magic."""
    begins = f"its first 4 bytes are {head[:4].hex(' ')}, where a classic pcap has d4 c3 b2 a1 or a like magic"
    for magic, what, command in OTHERS:
        if head.startswith(magic):
            return [f"{name} is {what}", made_by(command, name), begins]
    if all(byte in b"\t\n\r" or 0x20 <= byte <= 0x7E for byte in head):
        return [f"{name} is a text; is it SCRIPT, and the words in another order?", begins]
    return [f"{name} is no capture that is known", begins]


def of_version(name: str, head: bytes) -> list[str]:
    """What is said of a capture of another version."""
    major, minor = struct.unpack(f"{MAGICS[head[:4]]}HH", head[4:8])
    is_one = f"{name} is a pcap of version {major}.{minor}, by offset 4, where 2.4 is read"
    return [is_one, made_by("editcap -F pcap {0} {1}", name)]


def of_link(name: str, head: bytes) -> list[str]:
    """What is said of a capture of another link type."""
    from wrapper import convert

    (link,) = struct.unpack(f"{MAGICS[head[:4]]}I", head[20:24])
    known = f" ({LINKS[link]})" if link in LINKS else ""
    told = [f"{name} has frames of link type {link}{known}, by offset 20, where 1 is read, Ethernet"]
    if link in convert.FRAMES:
        return [*told, "with --convert each gets a header of Ethernet without addresses"]
    return [*told, "capture on an interface of Ethernet, as tcpdump -i eth0 -w does"]


def offset_of(file: BinaryIO, order: str, record: int) -> int:
    """Where in a capture the header of the record of this number, counted from 1, begins."""
    at = 24
    for _ in range(record - 1):
        file.seek(at + 8)
        at += 16 + struct.unpack(f"{order}I", file.read(4))[0]
    return at


def of_length(name: str, record: int) -> list[str]:
    """What is said of a record whose captured length is over the limit."""
    with open(name, "rb") as file:
        order = MAGICS[file.read(4)]
        at = offset_of(file, order, record)
        file.seek(at + 8)
        (length,) = struct.unpack(f"{order}I", file.read(4))
    front = made_of(f"head -c {at} {{0}} > {{1}}", name)
    return [
        f"record {record} begins at offset {at} and says a captured length of {length:,}, where at most {MAX_LENGTH:,} "
        "is read",
        f"what stands before it is a capture: {front}",
    ]


def explain(name: str, record: int, fault: int) -> list[str]:
    """The lines that tell of a fault of the capture of this name."""
    called, where = causes.capture_fault(fault)
    by_grammar = f"{name}, record {record}, fault {fault} ({called}): {where}"
    return [*what_it_is(name, record, fault), by_grammar]


def what_it_is(name: str, record: int, fault: int) -> list[str]:
    """What the capture is in place of a good one, as far as its bytes tell, and what helps."""
    try:
        with open(name, "rb") as file:
            head = file.read(24)
        if fault == 5:
            return [f"{name} is no whole header: it has {os.path.getsize(name)} bytes, where the header alone has 24"]
        if fault in (2, 3, 4):
            return {2: of_magic, 3: of_version, 4: of_link}[fault](name, head)
        if fault == 6:
            return of_length(name, record)
        if fault == 7:
            return [f"{name} is too long; {CALLED} filter takes longer captures, and this makes pieces: {made_of(PIECES, name)}"]
    except (OSError, KeyError, struct.error):
        return []
    return []
