"""What a run of a program takes: user time, wall time, memory and instructions."""

import os
import re
import select
import shutil
import subprocess
import sys
import time
from collections.abc import Sequence
from pathlib import Path
from typing import NamedTuple

# How often the memory is looked at, in seconds.
EACH = 0.02


class Ran(NamedTuple):
    """What a command writes, its user time, its wall time and its most memory."""

    written: bytes
    user: float
    wall: float
    memory: float


def run(words: Sequence[str], folder: Path) -> Ran:
    """Runs the command, and answers what it took."""
    start, pieces, most = time.monotonic(), list[bytes](), 0.0
    with subprocess.Popen(words, stdout=subprocess.PIPE, stderr=subprocess.DEVNULL, bufsize=0, cwd=folder) as ran:
        # a report is written when all of its segment is done, so the memory is at its most while the pipe is full; what
        # writes little is looked at now and then
        assert ran.stdout
        while not pieces or pieces[-1]:
            most = max(most, memory(ran.pid))
            if select.select([ran.stdout], [], [], EACH)[0]:
                pieces.append(ran.stdout.read(65536))
        _, status, used = os.wait4(ran.pid, 0)
        ran.returncode = os.WEXITSTATUS(status) if os.WIFEXITED(status) else -1
    if status:
        sys.exit(f"bench: {words} ended with status {ran.returncode}")
    return Ran(b"".join(pieces), used.ru_utime, time.monotonic() - start, most)


def memory(pid: int) -> float:
    """The most memory that the process has had so far, in MB, without that of the process which began it."""
    try:
        found = re.search(r"VmHWM:\s*(\d+) kB", Path(f"/proc/{pid}/status").read_text())
        return int(found[1]) / 1024 if found else 0
    except OSError:
        return 0


def instructions(words: Sequence[str], folder: Path) -> float | None:
    """Millions of instructions, or none without valgrind."""
    if not shutil.which("valgrind"):
        return None
    tool = ["valgrind", "--tool=callgrind", f"--callgrind-out-file={folder}/callgrind"]
    ran = subprocess.run([*tool, *words], stdout=subprocess.DEVNULL, stderr=subprocess.PIPE, cwd=folder, text=True)
    return int(re.findall(r"Collected : (\d+)", ran.stderr)[0]) / 1e6
