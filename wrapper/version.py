"""version: tells what this is, of which commit, and which program would run."""

import subprocess
import sys

from wrapper import program
from wrapper.program import TOP, tell

LANGUAGES = "scripts of version 1 to 3, reports and traces of version 1"


def which() -> str:
    """Which program would run."""
    if program.INSTALLED.is_file():
        return (TOP / "proved").read_text().strip()
    return "the proved program is built" if program.is_built() else "the proved program isn't built"


def commit() -> str:
    """The commit that is checked out, as git tells it; empty where there is none."""
    words = ["git", "-C", str(TOP), "describe", "--always", "--dirty"]
    try:
        told = subprocess.run(words, stdout=subprocess.PIPE, stderr=subprocess.DEVNULL)
    except OSError:
        return ""
    return told.stdout.decode().strip() if told.returncode == 0 else ""


def main(words: list[str]) -> int:
    """Writes what this is, and answers the exit status."""
    if words:
        tell("version takes no further word")
        return 1
    release = (TOP / "release").read_text().strip() if program.INSTALLED.is_file() else commit()
    sys.stdout.write(f"{program.NAME} of Codzvregi {release}".rstrip() + f"; {LANGUAGES}; {which()}\n")
    return 0
