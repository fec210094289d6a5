"""The tree in which one crate is built by itself.

A call of rt holds the folder of its crate and of each crate below it until it ends, so two calls that share a crate
below them wait for each other. Each crate is therefore built in a tree of its own: a copy of its sources and of those
below it, with what was built of these. What is built there goes into the crate's own folder at the end.
"""

import fcntl
import os
import re
import shutil
from collections.abc import Collection, Iterable
from pathlib import Path

from wrapper.program import FOLDERS, TOP, Crates

TREES = TOP / "out" / "build" / "trees"

# What rt keeps of the functions that it has proved, so that a later call goes on from there; it writes into these files.
STEPS = ("incremental",)


def link(source: str, target: str) -> None:
    """Gives the file a second name, or copies it where the file system has no links: rt writes into no file of a library."""
    try:
        os.link(source, target)
    except OSError:
        shutil.copy2(source, target)


def copy_top(folder: Path, names: Collection[str]) -> None:
    """Copies what the top of the repository says of these crates: their lines of crates.txt, and HANDLES."""
    lines = (TOP / "crates.txt").read_text().splitlines()
    listed = [line for line in lines if re.split(r"[\s:]", line)[0] in names]
    (folder / "crates.txt").write_text("".join(f"{line}\n" for line in listed))
    shutil.copy2(TOP / "HANDLES", folder)


def copy_below(name: str, tree: Path) -> None:
    """Copies a crate that the tree's crate stands on: its sources, and what was built of it."""
    crate, copied = TOP / "crates" / name, tree / "crates" / name
    for folder in FOLDERS:
        if (crate / folder).is_dir():
            shutil.copytree(crate / folder, copied / folder)
    if (crate / "out" / "rlib").is_dir():
        shutil.copytree(crate / "out" / "rlib", copied / "out" / "rlib", copy_function=link)


def make(name: str, below: list[str]) -> Path:
    """Makes the tree of a crate that stands on these, and answers the crate's folder in it."""
    tree = TREES / name
    # that of a build that was killed is there still
    clear(name, False)
    tree.mkdir(parents=True)
    copy_top(tree, (name, *below))
    for other in below:
        copy_below(other, tree)
    crate, copied = TOP / "crates" / name, tree / "crates" / name
    shutil.copytree(crate, copied, ignore=lambda at, _: ["out"] if at == str(crate) else [])
    if (crate / "out" / "rlib").is_dir():
        shutil.copytree(crate / "out" / "rlib", copied / "out" / "rlib", copy_function=link)
    (copied / "out").mkdir(exist_ok=True)
    move(crate, copied, STEPS)
    return copied


def move(one: Path, other: Path, names: Iterable[str]) -> None:
    """Moves these, where they are there, from what one folder's crate has built to the other's."""
    for name in names:
        if (one / "out" / name).exists():
            shutil.rmtree(other / "out" / name, ignore_errors=True)
            (one / "out" / name).replace(other / "out" / name)


def clear(name: str, is_built: bool) -> None:
    """Removes the tree. What was built in it goes to the crate's own folder, once no call of rt holds that; of a crate
    that wasn't built, the functions that are proved already."""
    crate, copied = TOP / "crates" / name, TREES / name / "crates" / name
    if (copied / "out").is_dir():
        held = os.open(crate, os.O_RDONLY)
        try:
            fcntl.flock(held, fcntl.LOCK_EX)
            (crate / "out").mkdir(exist_ok=True)
            move(copied, crate, os.listdir(copied / "out") if is_built else STEPS)
        finally:
            os.close(held)
    shutil.rmtree(TREES / name, ignore_errors=True)


def below_all(crates: Crates, name: str) -> list[str]:
    """All crates that this one stands on, those below these too; crates.txt has each of them in its line."""
    found: list[str] = []
    for other in crates[name]:
        found += [it for it in (*below_all(crates, other), other) if it not in found]
    return found
