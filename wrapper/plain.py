"""The plain programs: the sources as ordinary Rust, as tools/plain writes them, built by cargo. Nothing of them is proved.

Where there is rustc and no cargo, rustc builds all crates one after another, each time anew.

What is built lies in out/plain, in a folder named by the checksum of all that it is made from: `work` has the sources as
Rust, `target` what cargo keeps. Two builds wait for each other; one that was killed is begun again by the next.
"""

import contextlib
import os
import sys
from collections.abc import Iterator
from pathlib import Path
from types import ModuleType

from wrapper.program import CRATE, NOT_RUN, PROGRAMS, TOP, crates_listed, stands_on, tell

TOOL = TOP / "tools" / "plain"
OUT = TOP / "out" / "plain"
KEPT = 3

# A host in ordinary Rust, over the sources as `write_sources` leaves them.
HOST = TOP / "examples" / "plain_host"

# What the files are called from which the plain programs are made.
SUFFIXES = (".rt", ".rs", ".toml", ".py")


def inputs() -> list[str | Path]:
    """The files from which the plain programs are made, in a fixed order."""
    folders = [TOOL, *(TOP / "crates" / name / "src" for name in stands_on(crates_listed()))]
    found = [(at, name) for folder in folders for at, _, names in os.walk(folder) for name in names]
    ours = [os.path.join(*it) for it in found if it[1].endswith(SUFFIXES) and not it[1].startswith(".")]
    return [TOP / "crates.txt", *sorted(ours)]


def checksum() -> str:
    """The checksum of these files."""
    import hashlib

    summed = hashlib.sha256()
    for file in inputs():
        with open(file, "rb") as content:
            text = content.read()
        summed.update(f"{os.path.relpath(file, TOP)} {len(text)}\n".encode() + text)
    return summed.hexdigest()[:16]


def program(name: str = CRATE.name) -> Path | None:
    """The file of a plain program, which is built where it isn't there; None where it can't be built on this machine."""
    file = OUT / checksum() / name
    if os.access(file, os.X_OK):
        return file
    if not builder():
        return None
    try:
        with locked():
            return build() / name
    except OSError as fault:
        tell(f"the plain program can't be built: {fault.filename or OUT}: {fault.strerror}")
        return None


def builder() -> str | None:
    """The command that builds it; None where there is none."""
    from shutil import which

    return next((command for command in ("cargo", "rustc") if which(command)), None)


@contextlib.contextmanager
def locked() -> Iterator[None]:
    """No other build runs while what stands below this runs."""
    import fcntl

    OUT.mkdir(parents=True, exist_ok=True)
    with open(OUT / "lock", "w") as lock:
        try:
            fcntl.flock(lock, fcntl.LOCK_EX | fcntl.LOCK_NB)
        except BlockingIOError:
            tell("waiting for another build to end")
            fcntl.flock(lock, fcntl.LOCK_EX)
        yield


def build() -> Path:
    """Builds the plain programs, unless another build has just done so, and answers their folder."""
    told = False
    while True:
        key = checksum()
        folder = OUT / key
        if all(os.access(folder / name, os.X_OK) for name in PROGRAMS):
            return folder
        if not told:
            tell(f"{builder()} builds the plain programs, which takes some ten seconds")
            told = True
        erase = write_sources()
        built = by_cargo() if builder() == "cargo" else by_rustc(erase)
        if checksum() == key:
            keep(built, folder)


def write_sources() -> ModuleType:
    """Writes the sources as Rust, and answers the eraser; a file that can't be erased ends the process."""
    sys.path.insert(0, str(TOOL))
    import erase

    try:
        erase.write_workspace(OUT / "work")
        return erase
    except erase.Refused as refused:
        tell(f"the sources can't be written as ordinary Rust: {refused}")
        sys.exit(NOT_RUN)


def by_cargo() -> Path:
    """Has cargo build the programs, and answers where they lie."""
    words = ["--quiet", "--offline", "--target-dir", str(OUT / "target")]
    call(["cargo", "build", *words, *(f"--package={name}" for name in PROGRAMS)])
    return OUT / "target" / "debug"


def host() -> Path:
    """The file of the host in ordinary Rust, which cargo builds over the sources as Rust."""
    with locked():
        write_sources()
        words = ["--quiet", "--offline", "--manifest-path", str(HOST / "Cargo.toml"), "--target-dir", str(OUT / "target")]
        call(["cargo", "build", *words])
    return OUT / "target" / "debug" / HOST.name


def library_for_c(sanitiser: str | None = None) -> Path:
    """The static library whose calls are for C, which cargo builds of the sources as Rust, all as one module, since a
    call takes a sixth more otherwise; where a sanitiser of rustc's is named, with its code in all but Rust's own
    library."""
    target = OUT / "target"
    variables = {"CARGO_PROFILE_RELEASE_LTO": "fat", "CARGO_PROFILE_RELEASE_CODEGEN_UNITS": "1"}
    if sanitiser:
        target = OUT / f"target_{sanitiser}"
        flags = f"-Zsanitizer={sanitiser} -Cunsafe-allow-abi-mismatch=sanitizer"
        variables = {"RUSTC_BOOTSTRAP": "1", "RUSTFLAGS": flags}
    with locked():
        write_sources()
        words = ["--quiet", "--offline", "--target-dir", str(target), "--release", "--package", "spin_c"]
        call(["cargo", "build", *words], **variables)
    return target / "release" / "libspin_c.a"


def by_rustc(erase: ModuleType) -> Path:
    """Has rustc build the programs, and answers where they lie."""
    target = OUT / "target" / "rustc"
    target.mkdir(parents=True, exist_ok=True)
    for words in erase.calls_of_rustc(OUT / "work", target):
        call(words)
    return target


def call(words: list[str], **variables: str) -> None:
    """Makes a call of a compiler; what it can't build ends the process, with what it says of the sources."""
    import re
    import subprocess

    given = {**os.environ, **variables}
    ran = subprocess.run(words, cwd=OUT / "work", env=given, stdin=subprocess.DEVNULL, capture_output=True, text=True)
    if ran.returncode:
        sys.stderr.write(re.sub(r"(crates/\w+/src/[\w/]+)\.rs\b", r"\1.rt", ran.stderr)[:20_000])
        tell(f"{words[0]} can't build the plain program, for what is told above; it wants Rust 1.85 or later, and a linker")
        sys.exit(NOT_RUN)


def keep(built: Path, folder: Path) -> None:
    """Puts what was built under the name of a folder, whole or not at all, and drops all but the latest few."""
    import shutil

    making = OUT / "making"
    for old in (making, folder):
        shutil.rmtree(old, ignore_errors=True)
    making.mkdir()
    for name in PROGRAMS:
        shutil.copy2(built / name, making / name)
    os.rename(making, folder)
    os.utime(folder)
    others = sorted(OUT.glob("[0-9a-f]" * 16), key=lambda it: it.stat().st_mtime)
    for old in others[:-KEPT]:
        shutil.rmtree(old, ignore_errors=True)
