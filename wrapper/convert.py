"""Captures of other forms made into what the program reads: by the tools that are installed, each told with its command line.

What is packed is unpacked, pcapng and other forms go through editcap, and frames of other links get a header of Ethernet
in front: cooked ones of Linux, raw IP, and those of loopback interfaces. The addresses of such a header are zeros.
"""

import contextlib
import os
import shlex
import shutil
import stat
import struct
import subprocess
import sys
import tempfile
from collections.abc import Callable, Iterable, Iterator
from pathlib import Path

from wrapper import faults
from wrapper.outputs import Refused
from wrapper.program import tell

# Debian's packages of the tools that `faults` names.
PACKAGES = {"editcap": "wireshark-common", "gunzip": "gzip", "zstd": "zstd", "xz": "xz-utils", "bzip2": "bzip2", "unzip": "unzip"}
HEADER, RECORD_HEADER = 24, 16
ETHERNET, BLANK = 1, bytes(12)

# The status of a capture that is refused, as the program has it.
BAD_CAPTURE = 3

IPV4, IPV6 = b"\x08\x00", b"\x86\xdd"

# How many forms may lie in one another, as a capture of pcapng that was packed twice.
MOST_STEPS = 4


def of_ip(packet: bytes) -> bytes:
    """The type of a frame around this packet, by the version that it says."""
    return IPV6 if packet[:1] and packet[0] >> 4 == 6 else IPV4


def behind_version(packet: bytes) -> bytes:
    """A packet of IP as a frame of Ethernet."""
    return BLANK + of_ip(packet) + packet


def behind_family(frame: bytes) -> bytes:
    """The frame of a loopback interface as one of Ethernet: its first four bytes name the family, of IP in every order."""
    return behind_version(frame[4:])


# How a frame of another link type is made one of Ethernet.
FRAMES: dict[int, Callable[[bytes], bytes]] = {
    0: behind_family, 108: behind_family, 12: behind_version, 101: behind_version,
    228: lambda frame: BLANK + IPV4 + frame, 229: lambda frame: BLANK + IPV6 + frame,
    113: lambda frame: BLANK + frame[14:], 276: lambda frame: BLANK + frame[:2] + frame[20:],
}


def run_tool(name: str, what: str, command: str, source: Path, target: Path) -> None:
    """Runs the tool that makes a file of another, and tells its command line."""
    tool, words = command.split()[0], shlex.split(command.replace("> {1}", ""))
    if not shutil.which(tool):
        missing = f"{tool} isn't installed, which makes a capture of it (Debian: {PACKAGES[tool]})"
        raise Refused(f"{name} is {what}, and {missing}", BAD_CAPTURE)
    tell(f"{name} is {what}; it goes through: {command.format(shlex.quote(name), '..')}")
    given = [word.format(str(source), str(target)) for word in words]
    with open(target if "> {1}" in command else os.devnull, "wb") as out:
        ran = subprocess.run(given, stdin=subprocess.DEVNULL, stdout=out, stderr=subprocess.PIPE)
    if ran.returncode:
        why = ran.stderr.decode(errors="replace").strip().splitlines()
        raise Refused(f"{tool} can't read {name}: {why[-1] if why else f'status {ran.returncode}'}", BAD_CAPTURE)


def put_ethernet(source: Path, target: Path, order: str, frame_of: Callable[[bytes], bytes]) -> None:
    """Writes the capture anew with frames of Ethernet; what is no whole record is left out."""
    fields = struct.Struct(f"{order}IIII")
    with open(source, "rb") as file, open(target, "wb") as out:
        head = file.read(HEADER)
        out.write(head[:20] + struct.pack(f"{order}I", ETHERNET))
        while len(header := file.read(RECORD_HEADER)) == RECORD_HEADER:
            seconds, parts, captured, original = fields.unpack(header)
            if captured > faults.MAX_LENGTH or len(frame := file.read(captured)) < captured:
                why = f"a record of it says {captured:,} bytes, which aren't there or are more than {faults.MAX_LENGTH:,}"
                raise Refused(why, BAD_CAPTURE)
            made = frame_of(frame)
            out.write(fields.pack(seconds, parts, len(made), original + len(made) - captured) + made)


def step(name: str, source: Path, target: Path) -> bool:
    """Makes a file that is nearer to a capture of Ethernet, and answers whether there was anything to be made."""
    with open(source, "rb") as file:
        head = file.read(HEADER)
    for magic, what, command in faults.OTHERS:
        if head.startswith(magic):
            run_tool(name, what, command, source, target)
            return True
    order = faults.MAGICS.get(head[:4])
    if order is None or len(head) < HEADER:
        return False
    (link,) = struct.unpack(f"{order}I", head[20:24])
    if link not in FRAMES:
        return False
    tell(f"{name} has frames of {faults.LINKS[link]}; each gets a header of Ethernet without addresses")
    put_ethernet(source, target, order, FRAMES[link])
    return True


def as_file(name: str, folder: Path) -> Path:
    """The capture as a file that can be read twice: itself, or what a pipe or, for `-`, standard input holds."""
    if name != "-" and not stat.S_ISFIFO(os.stat(name).st_mode):
        return Path(name)
    with open(folder / "piped", "wb") as out, sys.stdin.buffer if name == "-" else open(name, "rb") as source:
        shutil.copyfileobj(source, out)
    return folder / "piped"


def converted(name: str, folder: Path, is_asked: bool) -> str:
    """The name of a capture that can be read twice, and that the program reads where that is asked for."""
    if name != "-" and not os.path.exists(name):
        return name
    source = as_file(name, folder)
    for at in range(MOST_STEPS if is_asked else 0):
        target = folder / f"{at}.pcap"
        if not step(name, source, target):
            break
        source = target
    return os.fspath(source)


@contextlib.contextmanager
def all_converted(names: Iterable[str], is_asked: bool) -> Iterator[list[str]]:
    """The names of captures that can be read twice, and that the program reads where `is_asked`, of these in their order."""
    with tempfile.TemporaryDirectory(prefix="spin-convert-") as folder:
        made = []
        for at, name in enumerate(names):
            place = Path(folder) / str(at)
            place.mkdir()
            made.append(converted(name, place, is_asked))
        yield made


# Where among the words of a command of the program's its capture stands.
PLACES = {"run": 2, "join": 2, "check": 3}
FLAG = "--convert"


@contextlib.contextmanager
def in_words(words: list[str]) -> Iterator[list[str]]:
    """The words of the program's command with a capture that it reads in the place of the one that they name, where they
    have the flag `--convert`; else the words as they are."""
    at = PLACES.get(words[0]) if words else None
    if at is None or FLAG not in words:
        yield words
        return
    words = [word for word in words if word != FLAG]
    with all_converted(words[at : at + 1], True) as made:
        yield [*words[:at], *made, *words[at + 1 :]]
