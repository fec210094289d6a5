"""A trial of the program by `rt try`: the sources as they stand, with checks at run time and without proof.

A trial runs in a folder of its own, in which it finds no file but those that it is handed. So each word that names a file,
a pipe or standard input is replaced by the name of a file with what is read from it, one that names a folder or what can't
be read by that of a folder, and one that names nothing by a name that is nothing there either.
"""

import contextlib
import os
import re
import subprocess
import sys
import tempfile
import threading
import time
from collections.abc import Callable, Iterator
from pathlib import Path

from wrapper import kit, plain
from wrapper.program import CRATE, NOT_RUN, tell

# The commands whose further words name files.
READERS = ("run", "check", "join", "vm")


def has_toolchain(otherwise: str = kit.NOT_FOUND) -> bool:
    """Whether the toolchain is installed; where it isn't, this line is told."""
    try:
        subprocess.run(["rt", "version"], stdout=subprocess.DEVNULL, stderr=subprocess.DEVNULL)
    except OSError:
        tell(otherwise)
        return False
    return True


def passed(since: float) -> str:
    """How long it has been, in words."""
    minutes, seconds = divmod(int(time.monotonic() - since), 60)
    return f"{minutes} min {seconds} s"


@contextlib.contextmanager
def each_minute(say: Callable[[], None]) -> Iterator[None]:
    """Makes this call once a minute, while what stands below this runs."""
    ended = threading.Event()

    def watch() -> None:
        """Makes the call until the end."""
        while not ended.wait(60):
            say()

    thread = threading.Thread(target=watch, daemon=True)
    thread.start()
    try:
        yield
    finally:
        ended.set()
        thread.join()


def handed_in(words: list[str], folder: str | Path, beside: Path) -> tuple[list[str], list[str]]:
    """The words as a trial gets them, and the flags that hand in what they name; `beside` is a folder for what is read."""
    given, flags = list(words), list[str]()
    for at, word in enumerate(words[1:], start=1) if words[:1] and words[0] in READERS else []:
        try:
            file = os.path.join(folder, word)
            content = open(file, "rb").read() if word else None
        except FileNotFoundError:
            content = None
        except OSError:
            given[at] = "."
            continue
        if content is None:
            given[at] = f"absent{at}"
            continue
        given[at] = f"file{at}"
        (beside / given[at]).write_bytes(content)
        flags += ["--data", f"{given[at]}={beside / given[at]}"]
    return given, flags


def ended(words: list[str], stdout: bytes | None, status: int) -> subprocess.CompletedProcess[bytes]:
    """What a run that ended so answers."""
    return subprocess.CompletedProcess(words, status, stdout, b"")


def run(
    words: list[str], cwd: str | Path | None = None, stdout: int | None = None,
) -> subprocess.CompletedProcess[bytes]:
    """Runs the words on the program as it stands, with no proof, and answers what `subprocess.run` would."""
    keeps = stdout == subprocess.PIPE
    why = "the plain program can't be built" if plain.builder() else "cargo isn't found"
    if not has_toolchain(f"{why}, and the command rt isn't found: cargo builds the plain program, rt the proved one"):
        return ended(words, b"", NOT_RUN)
    tell(f"{why}, so this is a trial by rt try: it takes minutes, proves nothing, and keeps no endpoint's file")
    since = time.monotonic()
    with tempfile.TemporaryDirectory() as beside, each_minute(lambda: tell(f"the trial runs, {passed(since)}")):
        given, flags = handed_in(words, cwd or os.getcwd(), Path(beside))
        call = ["rt", "try", *flags, "--", *given]
        tried = subprocess.run(call, cwd=CRATE, stdin=subprocess.DEVNULL, capture_output=True)
    found = re.search(rb"^run=ended status=(\d+) .*\n\Z", tried.stderr, re.MULTILINE)
    if not found:
        sys.stderr.buffer.write(tried.stderr)
        tell("the trial didn't end")
        return ended(words, b"", NOT_RUN)
    if not keeps:
        sys.stdout.buffer.write(tried.stdout)
        sys.stdout.flush()
    return ended(words, tried.stdout if keeps else None, int(found[1]))
