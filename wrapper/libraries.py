"""The libraries that `rt check` goes on from, each built by `rt lib`, and the programs over them, each by `rt run`.

Each is built in a tree of its own, and then goes into its folder. What was built stays: the build after one
that was killed goes on from there.
"""

import os
import time
from collections.abc import Collection

from wrapper import build_queue, build_trees, jobs
from wrapper.program import Crates


class Library(build_queue.Run):
    """A library that is being built."""

    def __init__(self, name: str, count: int, niceness: int, below: list[str]) -> None:
        self.copied_at, self.tree = time.time(), build_trees.make(name, below)
        super().__init__(name, count, niceness, self.words(count), self.tree, {})

    def words(self, count: int) -> list[str]:
        """The call that builds it, with so many jobs."""
        return ["rt", "lib", "--jobs", str(count)]

    def close(self) -> bool:
        """Gives the crate's folder what was built, and answers whether it was."""
        build_trees.clear(self.name, super().close())
        return super().close()

    def stop(self) -> None:
        """Ends the call, and gives the crate's folder the functions that are proved already."""
        super().stop()
        build_trees.clear(self.name, False)


class Program(Library):
    """A program that is being proved and linked, and then run as the gate runs it, but in the folder above its data."""

    def words(self, count: int) -> list[str]:
        """The call that builds and runs it, with so many jobs."""
        file = self.tree / "args"
        given = file.read_text().splitlines() if file.is_file() else []
        beside = [f"data/{word}" if (self.tree / "data" / word).is_file() else word for word in given]
        return ["rt", "run", "--jobs", str(count), "--", *beside]

    def close(self) -> bool:
        """Gives the crate's folder the program, dated so that a source which was written since is newer."""
        program = self.tree / "out" / self.name
        if program.is_file():
            os.utime(program, (self.copied_at, self.copied_at))
        return super().close()


def build(crates: Crates, programs: Collection[str] = ()) -> bool:
    """Builds these crates, the programs among them and else libraries, and answers whether all are built.

    `crates` has for each crate those that it stands on, lowest first.
    """
    def begin(name: str, count: int, niceness: int) -> Library:
        """Begins the call that builds this crate."""
        kind = Program if name in programs else Library
        return kind(name, count, niceness, build_trees.below_all(crates, name))

    return build_queue.build_all(crates, begin, jobs.processors_there())
