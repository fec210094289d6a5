"""Builds crates, each as soon as those that it stands on are built, several at once; jobs.py has the order."""

import contextlib
import ctypes
import os
import shutil
import signal
import subprocess
import time
from collections.abc import Callable, Mapping, Set
from pathlib import Path

from wrapper import jobs
from wrapper.program import TOP, Crates, tell
from wrapper.progress import Progress
from wrapper.trial import passed

# The outcome of each call of rt lies here, in NAME.log.
LOGS = TOP / "out" / "build"

# The disk is full where less than this is free, in bytes.
LEAST_DISK = 10_000_000

# The C library, and the number of what tells the system which signal a process gets when the one that began it ends.
LIBC, SIGNAL_AT_END = ctypes.CDLL(None), 1

# How long it is between two looks at what runs, in seconds.
LOOK = 0.2


def step_back(niceness: int) -> None:
    """What a call does before it begins: it yields so far, and ends where this process is killed."""
    # of its own it gets a group and no session, since the system may share the processors out by sessions first
    os.setpgrp()
    os.nice(niceness)
    LIBC.prctl(SIGNAL_AT_END, signal.SIGTERM)


class Run:
    """A call of rt that builds a crate with so many jobs, and yields to others as far as `niceness` says."""

    def __init__(
        self, name: str, count: int, niceness: int, words: list[str], folder: Path, environment: Mapping[str, str],
    ) -> None:
        self.name, self.count, self.began = name, count, time.monotonic()
        self.log = LOGS / f"{name}.log"
        with open(self.log, "wb") as log:
            self.child = subprocess.Popen(
                words, cwd=folder, env={**os.environ, **environment}, stdin=subprocess.DEVNULL,
                stdout=log, stderr=subprocess.STDOUT, preexec_fn=lambda: step_back(niceness),
            )

    def close(self) -> bool:
        """What has to be done once the call has ended; answers whether the crate was built."""
        return self.child.returncode == 0

    def kill(self, how: signal.Signals) -> None:
        """Signals the call and all that it has started."""
        with contextlib.suppress(ProcessLookupError):
            os.killpg(self.child.pid, how)

    def stop(self) -> None:
        """Ends the call, at once if need be."""
        self.kill(signal.SIGTERM)
        with contextlib.suppress(subprocess.TimeoutExpired):
            self.child.wait(5)
        self.kill(signal.SIGKILL)
        self.child.wait()

    def why(self) -> str:
        """Why the crate wasn't built, as far as it can be seen without knowing what the checker says."""
        status = self.child.returncode
        # rt ends so where its checker was killed
        killed = -status if status < 0 else 256 - status if status > 192 else 0
        if b"No space left on device" in self.log.read_bytes() or shutil.disk_usage(LOGS).free < LEAST_DISK:
            return "the disk is full"
        if killed:
            return f"rt was killed by signal {killed}" + ", as where memory runs out" * (killed == signal.SIGKILL)
        return f"status {status}"

    def tell_failure(self) -> None:
        """Names the crate, which wasn't built, and the file with what the checker said."""
        log = self.log.relative_to(TOP)
        tell(f"{self.name} can't be built: {self.why()}; what rt said is in {log}, and the next build goes on from here")


# What begins the call that builds a crate, by its name, with so many jobs, and as nice as that.
Begin = Callable[[str, int, int], Run]


class Queue:
    """Crates that wait, that are being built, and that are built."""

    def __init__(self, crates: Crates, begin: Begin, jobs_at_most: int, in_advance: bool) -> None:
        self.crates, self.begin, self.in_advance = crates, begin, in_advance
        self.waiting = list(crates)
        self.running: dict[str, Run] = {}
        self.early: dict[str, Run] = {}
        self.built: set[str] = set()
        self.progress = Progress(len(crates))
        lines = {name: jobs.line_counts(name) for name in crates}
        self.need = {name: jobs.memory_of(*counts) for name, counts in lines.items()}
        self.chain = jobs.chains(crates, {name: sum(counts) for name, counts in lines.items()})
        self.limits = jobs.Limits(jobs.processors_there(), jobs.memory_free(), jobs_at_most)

    def times(self) -> dict[str, float]:
        """When each that is being built began."""
        return {name: run.began for name, run in self.running.items()}

    def stand_on(self, names: Set[str]) -> list[str]:
        """The crates that wait and stand on none but these."""
        return [name for name in self.waiting if set(self.crates[name]) <= names]

    def call(self, name: str, count: int) -> Run:
        """Begins the call that builds the crate."""
        heaviest = max(self.chain[it] for it in (name, *self.waiting, *self.running))
        return self.begin(name, count, jobs.niceness(self.chain[name], heaviest))

    def start(self, name: str, count: int) -> None:
        """Begins the crate, unless it was begun in advance."""
        self.waiting.remove(name)
        run = self.running[name] = self.early.pop(name) if name in self.early else self.call(name, count)
        run.began = time.monotonic()
        self.progress.event(f"{name} begins, {run.count} job{'s' * (run.count > 1)}", self.times())

    def start_all(self) -> None:
        """Begins the crates that may begin now, and one in advance."""
        for name in self.stand_on(self.built):
            if name in self.early:
                self.start(name, 0)
        counts = {name: run.count for name, run in self.running.items()}
        for name, count in jobs.chosen(self.stand_on(self.built), counts, self.limits, self.chain, self.need).items():
            self.start(name, count)
        soon = self.stand_on(self.built | self.running.keys())
        if self.in_advance and not self.early and soon:
            name = max(soon, key=self.chain.__getitem__)
            if not self.built.issuperset(self.crates[name]):
                self.early[name] = self.call(name, min(2, self.limits.jobs))

    def look(self) -> Run | None:
        """Notes which have ended, and answers one that wasn't built, if there is one."""
        for run in [run for run in self.running.values() if run.child.poll() is not None]:
            del self.running[run.name]
            if not run.close():
                return run
            self.built.add(run.name)
            self.progress.done += 1
            self.progress.event(f"{run.name} is built, after {passed(run.began)}", self.times())
        self.progress.look(self.times())
        return None

    def stop(self) -> None:
        """Ends what is being built."""
        self.progress.close()
        for run in (*self.running.values(), *self.early.values()):
            run.stop()


def build_all(crates: Crates, begin: Begin, jobs_at_most: int, in_advance: bool = False) -> bool:
    """Builds these crates, each when those that it stands on are built, and answers whether all are.

    `crates` has for each crate those that it stands on, lowest first, and `begin(name, count, niceness)` begins the call
    that builds one with so many jobs. With `in_advance` such a call itself waits for the crates below its own, and reads their
    sources meanwhile: so that of the heaviest chain begins while these are being built.
    """
    queue = Queue(crates, begin, jobs_at_most, in_advance)
    failed = None
    try:
        while failed is None and (queue.waiting or queue.running):
            queue.start_all()
            time.sleep(LOOK)
            failed = queue.look()
    finally:
        queue.stop()
    if failed:
        failed.tell_failure()
    return failed is None
