"""Where the program is, whether it is built, and the best way there is to run it."""

from __future__ import annotations

import contextlib
import errno
import os
import sys
from collections.abc import Callable, Iterable, Iterator
from pathlib import Path
from typing import TYPE_CHECKING, NoReturn

if TYPE_CHECKING:
    import subprocess

TOP = Path(__file__).resolve().parent.parent
CRATE = TOP / "crates" / "spin_main"
PROGRAM = CRATE / "out" / "spin_main"

# The crates of the programs that a build makes.
FILTER = "spinfilter"
PROGRAMS = (CRATE.name, FILTER)
NOT_RUN = 126

# Where this is installed there are no sources, and the programs lie beside the wrapper, that of the filter by its name.
INSTALLED = TOP / "program"
NAME, CALLED = ("codzvregi", "codzvregi") if INSTALLED.is_file() else ("spin", "./spin")

# The folders of a crate, and the files in them, from which it is proved and built.
FOLDERS = ("src", "specs", "proofs")
SUFFIXES = (".rt", ".antt")

# What this process has told already: that the plain program runs, or that it can't.
told: set[str] = set()

# Crates by name, each with those that it stands on.
Crates = dict[str, list[str]]


def tell(text: str) -> None:
    """Says a line of the wrapper's own, which is never the program's. Where it can't be said, nothing more is."""
    try:
        print(f"{NAME}: {text}", file=sys.stderr, flush=True)
    except OSError:
        sys.stderr = open(os.devnull, "w")


def below_by_crate() -> Crates:
    """Of each crate of the repository all that it stands on, the kit's libraries too."""
    crates = {}
    for line in (TOP / "crates.txt").read_text().splitlines():
        if line.strip() and not line.startswith("#"):
            head, _, below = line.partition(":")
            crates[head.split()[0]] = below.split()
    return crates


def crates_listed() -> Crates:
    """The repository's crates, each with those of them on which it stands, lowest first."""
    left = below_by_crate()
    listed: Crates = {}
    below = {name: [other for other in others if other in left] for name, others in left.items()}
    while below:
        ready = [name for name, others in below.items() if all(other in listed for other in others)]
        if not ready:
            sys.exit(f"spin: crates.txt: these stand on each other: {', '.join(below)}")
        for name in ready:
            listed[name] = below.pop(name)
    return listed


def stands_on(crates: Crates, tops: Iterable[str] = PROGRAMS) -> list[str]:
    """The names of the crates that these stand on, and their own, lowest first."""
    wanted = set(tops)
    for name in reversed(list(crates)):
        if name in wanted:
            wanted.update(crates[name])
    return [name for name in crates if name in wanted]


def sources(name: str) -> Iterator[str]:
    """The files from which a crate is proved and built; an editor's backups aren't among them."""
    for folder in FOLDERS:
        for at, _, names in os.walk(TOP / "crates" / name / folder):
            for file in names:
                if file.endswith(SUFFIXES) and not file.startswith("."):
                    yield os.path.join(at, file)


def place_of(name: str) -> Path:
    """Where the proved program of a crate is, where it is built."""
    return TOP / "crates" / name / "out" / name


def is_built(name: str = CRATE.name) -> bool:
    """Whether the proved program of a crate is there, and no source of it is newer."""
    file = place_of(name)
    if not os.access(file, os.X_OK):
        return False
    since = os.stat(file).st_mtime
    if any(os.stat(TOP / it).st_mtime > since for it in ("crates.txt", "HANDLES")):
        return False
    return all(os.stat(it).st_mtime <= since for crate in stands_on(crates_listed(), (name,)) for it in sources(crate))


def command(name: str = CRATE.name) -> list[str] | None:
    """The words that begin the command line of the program of this crate; None where only a trial is left.

    It is the one that is installed with this, or the proved program where that is built, else the plain one, which is
    built first if need be. Where the sources can't be built the process ends, with a clear line.
    """
    if INSTALLED.is_file():
        return [str(INSTALLED if name == CRATE.name else TOP / name)]
    if is_built(name):
        return [str(place_of(name))]
    if "no plain program" in told:
        return None
    from wrapper import plain

    file = plain.program(name)
    if file is None:
        told.add("no plain program")
        return None
    tell_plain()
    return [str(file)]


def tell_plain() -> None:
    """Says that it is the plain program that runs: once in a process, and once a day in this clone."""
    import time

    day, noted = time.strftime("%Y-%m-%d"), TOP / "out" / "plain" / "told"
    if "plain" in told or noted.is_file() and noted.read_text() == day:
        return
    told.add("plain")
    tell("the plain program, of which nothing is proved; ./spin build makes the proved one; that is told once a day")
    with contextlib.suppress(OSError):
        noted.write_text(day)


def run(
    words: list[str], cwd: str | Path | None = None, stdin: int | None = None, stdout: int | None = None,
) -> subprocess.CompletedProcess[bytes]:
    """Runs the program on these words as `subprocess.run` would, by the best way there is."""
    import subprocess

    begin = command()
    if begin is not None:
        return subprocess.run([*begin, *words], cwd=cwd, stdin=stdin, stdout=stdout)
    from wrapper import trial

    return trial.run(words, cwd, stdout)


def named_or_proved(words: list[str], at: int) -> str:
    """The program that the words of a script name there, or the proved one; where there is none, the script ends at once."""
    script = os.path.relpath(sys.argv[0], TOP)
    file = os.path.abspath(words[at]) if len(words) > at else str(PROGRAM)
    if len(words) > at and not os.access(file, os.X_OK):
        sys.exit(f"{script}: {words[at]} is no program")
    if len(words) <= at and not is_built():
        stale = "is older than a source" if os.access(PROGRAM, os.X_OK) else "isn't built"
        sys.exit(f"{script}: the proved program {stale}: call ./spin build, or name a program, as that below out/plain")
    return file


def exit_with(main: Callable[[list[str]], int], words: list[str]) -> NoReturn:
    """Ends the process with what `main(words)` answers; an interrupt, a closed pipe or a full disk ends it in one line or none."""
    import signal

    if signal.getsignal(signal.SIGINT) is signal.SIG_DFL:
        signal.signal(signal.SIGINT, signal.default_int_handler)
    try:
        status = main(words)
        sys.stdout.flush()
    except KeyboardInterrupt:
        tell("interrupted")
        status = 130
    except OSError as error:
        if error.errno not in (errno.EPIPE, errno.ENOSPC):
            raise
        # what is left in the list before standard output can go nowhere
        os.dup2(os.open(os.devnull, os.O_WRONLY), 1)
        status = 141
        if error.errno == errno.ENOSPC:
            tell("standard output took no more bytes; is the disk full?")
            status = 5
    sys.exit(status)
