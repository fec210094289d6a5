"""Pages that a script writes, or checks to be as it would write them, and where the links of pages lead."""

import os
import re
import sys
from collections.abc import Iterator, Mapping

TOP = os.path.dirname(os.path.dirname(os.path.realpath(__file__)))


def written(path: str) -> str | None:
    """The text of a page, none where it isn't there."""
    if not os.path.isfile(f"{TOP}/{path}"):
        return None
    with open(f"{TOP}/{path}", encoding="utf-8") as it:
        return it.read()


def settle(texts: Mapping[str, str], tool: str) -> int:
    """Writes the pages, given by their paths, or under `--check` names each that is another; answers the exit status."""
    stale = []
    for path, text in texts.items():
        if "--check" not in sys.argv[1:]:
            with open(f"{TOP}/{path}", "w", encoding="utf-8") as it:
                it.write(text)
        elif written(path) != text:
            stale.append(path)
    for path in stale:
        print(f"{path} is out of date: run tools/{tool}")
    return 1 if stale else 0


def anchor(head: str) -> str:
    """The anchor of a heading."""
    return re.sub(r"[^\w\- ]", "", head.lower()).strip().replace(" ", "-")


def anchors(path: str) -> set[str]:
    """The anchors of a page's headings."""
    with open(path, encoding="utf-8") as it:
        heads = re.findall(r"^#+ (.*)$", it.read(), re.M)
    return {anchor(head) for head in heads}


def is_lost(folder: str, target: str) -> bool:
    """Whether a link of a page in that folder leads to no file, no line of its file, or no heading of its page."""
    file, _, place = target.partition("#")
    full = os.path.normpath(f"{folder}/{file}")
    if not os.path.exists(full):
        return True
    line = re.fullmatch(r"L(\d+)(?:-L\d+)?", place)
    if line:
        with open(full, encoding="utf-8") as it:
            return int(line[1]) > it.read().count("\n") + 1
    return bool(place) and full.endswith(".md") and place not in anchors(full)


def lost_links(path: str) -> Iterator[str]:
    """The links of a page that lead to no file of the repository, or to no place in one."""
    with open(f"{TOP}/{path}", encoding="utf-8") as it:
        text = re.sub(r"^```.*?^```", "", it.read(), flags=re.M | re.S)
    for target in re.findall(r"\]\(([^)\s]+)\)", text):
        if not re.match(r"[a-z]+:|#", target) and is_lost(os.path.dirname(f"{TOP}/{path}"), target):
            yield target
