"""What a change of a script has changed in its run, line by line."""

from collections.abc import Callable, Iterable, Mapping
from typing import NamedTuple

from wrapper.reading import Line

MOST = 12    # of more lines than so many only their number is told


class Key(NamedTuple):
    """What tells an entry or a job among those of a report: its line, part and kind, and the index of a job."""

    line: int
    part: int
    kind: str
    job: int


def key_of(line: Line) -> Key:
    """What tells this entry or job among those of its report."""
    return Key(line.line, line.part, line.kind, line.index)


def answers(report: Iterable[Line]) -> dict[Key, Line]:
    """The entries and jobs of a report by what tells them."""
    return {key_of(line): line for line in report if line.kind in ("entry", "job")}


def words_of(line: Line) -> str:
    """What an entry or a job was answered."""
    return " ".join(line.words[line.kind == "entry":])


def name_of(key: Key, lines: list[str]) -> str:
    """What is answered: the line of the script, its part, or its job."""
    number, part, kind, index = key
    source = f"{number}.{part}" if part else str(number)
    job = f", job {index}" if kind == "job" else ""
    return f"  line {source}{job}: {lines[number - 1].split(' ', 2)[-1]}"


def told(
    before: Mapping[Key, Line], after: Mapping[Key, Line], lines: list[str], is_own: Callable[[int], bool],
) -> list[str]:
    """What is said of the answers before and after a change; those of lines that are its own are left out."""
    rows = []
    for key, line in after.items():
        old = before.get(key)
        if not is_own(key.line) and (old is None or words_of(old) != words_of(line)):
            was = [f"    was  {words_of(old)}"] if old else []
            rows += [[name_of(key, lines), *was, f"    is   {words_of(line)}"]]
    gone = [key for key in before if key.line and key not in after and not is_own(key.line)]
    rows += [[name_of(key, lines), f"    was  {words_of(before[key])}", "    is   no longer there"] for key in gone]
    if not rows:
        return []
    more = [f"  and {len(rows) - MOST} more"] if len(rows) > MOST else []
    return ["other lines are answered otherwise in this run:", *(text for row in rows[:MOST] for text in row), *more]
