"""Which crates are built next, and with how many jobs: the longest chain first, as processors and memory allow."""

import os
import re
from collections.abc import Collection, Mapping
from pathlib import Path
from typing import NamedTuple

from wrapper.program import sources

# The memory that a job takes of a large crate, and of any other, in bytes.
LARGE, SMALL = 3_000_000_000, 1_500_000_000

# The share of the heaviest chain from which on a chain is held for nearly as heavy.
NEARLY = 0.9

# A crate is large where its code or its proofs have more lines than this.
LARGE_CODE, LARGE_PROOFS = 1_000, 3_000


class Limits(NamedTuple):
    """What there is of processors and of free memory in bytes, and how many jobs a call takes at most."""

    processors: int
    memory: int
    jobs: int


def line_counts(name: str) -> tuple[int, int]:
    """The number of lines of a crate's code, and of its definitions and proofs."""
    counts = {".rt": 0, ".antt": 0}
    for file in sources(name):
        with open(file, "rb") as content:
            counts[os.path.splitext(file)[1]] += content.read().count(b"\n")
    return counts[".rt"], counts[".antt"]


def memory_of(code: int, proofs: int) -> int:
    """The memory that a job takes of a crate of so many lines."""
    return LARGE if code > LARGE_CODE or proofs > LARGE_PROOFS else SMALL


def chains(crates: Mapping[str, Collection[str]], weights: Mapping[str, int]) -> dict[str, int]:
    """For each crate the weight of the heaviest chain from it up to a crate on which none stands, its own included.

    `crates` has for each crate those that it stands on, lowest first.
    """
    longest = dict(weights)
    for name in reversed(list(crates)):
        for below in crates[name]:
            longest[below] = max(longest[below], weights[below] + longest[name])
    return longest


def taken(need: int, jobs: int) -> float:
    """The memory that so many jobs take of a crate of which one takes `need`: each further one shares some with it."""
    return need * (1 + 0.6 * (jobs - 1))


def chosen(
    ready: Collection[str], running: Mapping[str, int], limits: Limits, chain: Mapping[str, int],
    need: Mapping[str, int],
) -> dict[str, int]:
    """The crates of `ready` to begin now, each with its number of jobs.

    `running` has the number of jobs of each crate that is being built. In all there are at most twice as many jobs as
    processors, of which those of lighter chains yield to the others, and they take no more than the memory that was free
    when none was running; but where none is running one always begins. Those of the heaviest chains come first. Two jobs
    take more time in all than one: so a second one is for crates whose chain is nearly the heaviest that is left, and more
    are for those that begin where no other wants them.
    """
    left = limits.memory - sum(taken(need[name], jobs) for name, jobs in running.items())
    used = sum(running.values())
    heaviest = max((chain[name] for name in (*ready, *running)), default=0)
    begin: dict[str, int] = {}
    for others, name in reversed([*enumerate(sorted(ready, key=chain.__getitem__))]):
        spare = limits.processors - used - others
        wanted = max(2 if chain[name] >= NEARLY * heaviest else 1, spare)
        wanted = min(wanted, limits.jobs, limits.processors, 2 * limits.processors - used)
        fitting = [jobs for jobs in range(1, wanted + 1) if taken(need[name], jobs) <= left]
        if fitting or not (running or begin):
            begin[name] = max(fitting, default=1)
            left, used = left - taken(need[name], begin[name]), used + begin[name]
    return begin


def niceness(chain: int, heaviest: int) -> int:
    """How far a crate of such a chain yields to others, as the system counts it, where this is the heaviest that is left."""
    return min(19, round(20 * (1 - chain / heaviest))) if heaviest else 0


def processors_there() -> int:
    """The number of processors that this process may use."""
    return len(os.sched_getaffinity(0))


def memory_free() -> int:
    """The memory that is free, in bytes; what files keep in memory counts, since it is given up."""
    found = re.search(r"MemAvailable:\s*(\d+) kB", Path("/proc/meminfo").read_text())
    return int(found[1]) * 1024 if found else 0
