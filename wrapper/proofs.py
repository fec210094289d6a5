"""The gate's own proofs of some crates, and the programs that it builds of them, by a kit that keeps what it proved.

Each crate is proved by `rt ci NAME`, which loads of the crates below it no more than the statements, and what that has
proved the kit keeps: so the next build goes on from there, and the gate, also in another clone on this machine, doesn't
prove it again. It's done over a copy of the crates' files without the edits that must fail, which the gate tries besides.
The copy stands among the temporary files, since the gate wants no crates.txt but the one at the top of its clone.
"""

import contextlib
import os
import shutil
import tempfile
from collections.abc import Collection, Iterator, Sequence
from pathlib import Path

from wrapper import build_queue, build_trees, jobs
from wrapper.program import TOP, Crates

# What a build doesn't read of a crate's folder.
LEFT_OUT = ("out", "must-fail", "README.md")

# How the names of copies begin; the number of the process comes next.
COPIED = "spin-build-"

# What rt says where it has kept what it proved.
KEPT = b"passed, and that is kept"


class NothingKept(Exception):
    """The kit can't keep what it has proved on this machine."""


class Proof(build_queue.Run):
    """A crate that is being proved; the kit says how many jobs it takes, where it is to have more than one."""

    def __init__(self, name: str, count: int, niceness: int, copy: Path) -> None:
        # under CI=true rt ci takes no names, since with names it isn't the gate; neither is this. RT_JOBS is read by
        # rt ci alone, and one that doesn't know it gives each crate as many jobs as it likes
        environment = {"CI": "", **({"RT_JOBS": "1"} if count == 1 else {})}
        super().__init__(name, count, niceness, ["rt", "ci", name], copy, environment)

    def close(self) -> bool:
        """Answers whether the crate was proved."""
        if super().close() and KEPT not in self.log.read_bytes():
            raise NothingKept
        return super().close()


class Programs(build_queue.Run):
    """The call without a name, which proves what isn't proved yet, builds the programs of the copy, and runs them."""

    def __init__(self, name: str, count: int, niceness: int, copy: Path) -> None:
        super().__init__(name, count, niceness, ["rt", "ci"], copy, {})


def copy_to(copy: Path, names: Collection[str]) -> None:
    """Makes the copy, with these crates and no others."""
    for name in names:
        crate = TOP / "crates" / name
        shutil.copytree(crate, copy / "crates" / name, ignore=lambda at, _: LEFT_OUT if at == str(crate) else [])
    build_trees.copy_top(copy, names)
    # the gate wants crates.txt at the top of its repository, which is where this is
    (copy / ".git").mkdir()


@contextlib.contextmanager
def copied(names: Collection[str]) -> Iterator[Path]:
    """The folder of a copy with these crates, which is removed at the end; those of builds that were killed are, too."""
    for other in Path(tempfile.gettempdir()).glob(f"{COPIED}*"):
        process = other.name.removeprefix(COPIED).partition("-")[0]
        if process.isdigit() and not os.path.exists(f"/proc/{process}"):
            shutil.rmtree(other, ignore_errors=True)
    copy = Path(tempfile.mkdtemp(prefix=f"{COPIED}{os.getpid()}-"))
    try:
        copy_to(copy, names)
        yield copy
    finally:
        shutil.rmtree(copy, ignore_errors=True)


def give(file: Path, place: Path) -> None:
    """Puts a program that was built in its place, also where the one that was there runs."""
    place.parent.mkdir(exist_ok=True)
    shutil.copy2(file, place.with_suffix(".new"))
    place.with_suffix(".new").replace(place)


def prove_all(crates: Crates, last: str, copy: Path) -> bool:
    """Proves these crates, `last` in the end with a call that builds all programs, and answers whether all went well."""
    # rt gives a crate half of the processors, and the other half to its tests, of which none here has any
    most = max(1, jobs.processors_there() // 2)

    def begin(name: str, count: int, niceness: int) -> build_queue.Run:
        """Begins the call that proves this crate."""
        kind = Programs if name == last else Proof
        return kind(name, count, niceness, copy)

    others = {name: below for name, below in crates.items() if name != last}
    return build_queue.build_all({**others, last: [*others]}, begin, most, in_advance=True)


def build(crates: Crates, programs: Sequence[str]) -> bool:
    """Proves these crates, puts the programs among them into their folders, and answers whether all went well.

    `crates` has for each crate those that it stands on, lowest first; the first of the programs is proved last. Where what
    was proved isn't kept, `NothingKept` is raised as soon as that is seen.
    """
    with copied(crates) as copy:
        if not prove_all(crates, programs[0], copy):
            return False
        for name in programs:
            give(copy / "crates" / name / "out" / name, TOP / "crates" / name / "out" / name)
    return True
