"""build [--all|--libraries] [--any-logic]: proves the crates that the programs stand on and builds these.

With --all the hosts too. The kit says how (kit.py): where it keeps what it proves of a crate by itself, the proofs are the
gate's own (proofs.py), else the libraries are built, and the programs over them (libraries.py). With --libraries these are
the libraries that the programs stand on and no more: `rt check` goes on from them, for who changes a crate. What was
proved or built stays: the build after one that was killed goes on from there. A kit of another logic than the one that
proved these sources begins only with --any-logic.
"""

import contextlib
import fcntl
import os
import shutil
import signal
import sys
import tempfile
import time
from collections.abc import Iterable, Iterator

from wrapper import jobs, kit, libraries, proofs
from wrapper.program import CRATE, NOT_RUN, PROGRAMS, TOP, Crates, crates_listed, is_built, place_of, stands_on, tell
from wrapper.build_queue import LOGS
from wrapper.trial import passed

HOSTS = ("host_filter", "host_logger", "host_plugins", "host_renewal", "host_workers")

# What has to be free before a build begins, in bytes.
MEMORY, DISK = 3_000_000_000, 6_000_000_000

# How long a build from nothing takes.
TIME = "that takes some 40 minutes on four processors at 2.5 GHz that do nothing else"


def is_ready_to_build() -> bool:
    """Whether a build can begin; where it can't, a line says why."""
    if jobs.memory_free() < MEMORY:
        tell(f"a build wants {MEMORY // 10**9} GB of free memory, and there are {jobs.memory_free() / 1e9:.1f}")
        return False
    try:
        LOGS.mkdir(parents=True, exist_ok=True)
        (CRATE / "out").mkdir(exist_ok=True)
        open(LOGS / "lock", "a").close()
    except OSError as fault:
        tell(f"nothing can be built here: {fault.filename}: {fault.strerror}")
        return False
    for place in (str(TOP), tempfile.gettempdir()):
        if shutil.disk_usage(place).free < DISK:
            tell(f"a build wants {DISK // 10**9} GB of free disk, and there are {shutil.disk_usage(place).free / 1e9:.1f}")
            return False
    return True


@contextlib.contextmanager
def locked() -> Iterator[None]:
    """No other build runs while what stands below this runs."""
    with open(LOGS / "lock", "a") as lock:
        try:
            fcntl.flock(lock, fcntl.LOCK_EX | fcntl.LOCK_NB)
        except BlockingIOError:
            tell("waiting for another build to end")
            fcntl.flock(lock, fcntl.LOCK_EX)
        yield


def stand_below(tops: Iterable[str]) -> Crates:
    """The crates that these stand on and they themselves, lowest first, each with those that it stands on."""
    listed = crates_listed()
    return {name: listed[name] for name in stands_on(listed, tops)}


def prove(way: kit.Way, crates: Crates, programs: tuple[str, ...]) -> bool:
    """Proves these crates as the kit can, with the programs among them, and answers whether they are built."""
    if way is kit.Way.KEPT:
        try:
            return proofs.build(crates, programs)
        except proofs.NothingKept:
            tell("the kit can't keep what it proves here, so rt lib builds the libraries, and rt run the programs")
    return libraries.build(crates, programs)


def build_programs(its: kit.Kit, tops: tuple[str, ...]) -> bool:
    """Builds these programs by this kit, and answers whether they are built."""
    began, since = time.time(), time.monotonic()
    crates = stand_below(tops)
    tell(f"{len(crates)} crates are proved and built by {its.name}, those of the longest chain first; {TIME}")
    if not prove(its.way, crates, tops):
        return False
    # a source that was written since is newer than what was built of it
    for name in tops:
        os.utime(place_of(name), (began, began))
    tell(f"built: {', '.join(str(place_of(name).relative_to(TOP)) for name in tops)}, {passed(since)}")
    return True


def build_libraries(its: kit.Kit) -> bool:
    """Builds the libraries that the programs stand on by this kit, and answers whether they are built."""
    since, crates = time.monotonic(), stand_below(PROGRAMS)
    for name in PROGRAMS:
        del crates[name]
    tell(f"{len(crates)} libraries are proved and built by {its.name}, from which rt check goes on")
    if not libraries.build(crates):
        return False
    tell(f"built: {len(crates)} libraries, {passed(since)}")
    return True


def build(words: list[str], its: kit.Kit) -> bool:
    """Builds what is asked for by this kit, unless it is there, and answers whether it is there now."""
    with locked():
        if not words and all(map(is_built, PROGRAMS)):
            tell("the proved programs are built")
            return True
        if words == ["--libraries"]:
            return build_libraries(its)
        return build_programs(its, (*PROGRAMS, *HOSTS) if words else PROGRAMS)


def where_and_why(fault: OSError) -> str:
    """What the system couldn't do, and why; of many files that couldn't be copied it tells the first."""
    if isinstance(fault, shutil.Error):
        _, place, why = fault.args[0][0]
        return f"{place}: {why}"
    return f"{fault.filename}: {fault.strerror}" if fault.filename else str(fault)


def main(words: list[str]) -> int:
    """Proves and builds what is asked for, and answers the exit status."""
    wanted = [word for word in words if word != kit.ANY_LOGIC]
    if wanted not in ([], ["--all"], ["--libraries"]):
        tell(f"usage: ./spin build [--all|--libraries] [{kit.ANY_LOGIC}]")
        return NOT_RUN
    its = kit.found()
    if its is None or not its.is_allowed(words) or not is_ready_to_build():
        return NOT_RUN
    signal.signal(signal.SIGTERM, lambda *_: sys.exit(143))
    try:
        return 0 if build(wanted, its) else NOT_RUN
    except KeyboardInterrupt:
        tell("interrupted; the next ./spin build goes on from here")
        return 130
    except OSError as fault:
        tell(f"nothing more could be built: {where_and_why(fault)}; the next ./spin build goes on from here")
        return NOT_RUN
