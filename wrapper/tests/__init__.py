"""Tests of the wrapper, the eraser and some tools: wrapper/tests/all runs all, python3 -m unittest one file of them."""

import shutil
from collections.abc import Mapping, Sequence
from pathlib import Path

TOP = Path(__file__).resolve().parent.parent.parent


def make_repository(top: Path, crates: Mapping[str, Sequence[str]]) -> None:
    """Puts the wrapper and these crates, each of a few empty lines, into the folder."""
    shutil.copytree(TOP / "wrapper", top / "wrapper", ignore=shutil.ignore_patterns("__pycache__"))
    shutil.copytree(TOP / "tools" / "plain", top / "tools" / "plain")
    shutil.copy(TOP / "spin", top)
    (top / "crates.txt").write_text("".join(f"{name}: {' '.join(below)}\n" for name, below in crates.items()))
    (top / "HANDLES").write_text("Handles allowed: none.\n")
    for name in crates:
        src = top / "crates" / name / "src"
        src.mkdir(parents=True)
        (src / ("main.rt" if name in ("spin_main", "spinfilter") else "lib.rt")).write_text("\n" * 5)


def stand_in(top: Path, name: str, text: str, *others: str) -> None:
    """Puts a script that stands in for a command into the folder's bin, and the other commands that it needs."""
    (top / "bin").mkdir()
    (top / "bin" / name).write_text(text)
    (top / "bin" / name).chmod(0o755)
    for other in others:
        found = shutil.which(other)
        assert found, f"{other} isn't there"
        (top / "bin" / other).symlink_to(found)
