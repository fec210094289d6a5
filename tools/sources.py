"""What the sources of a crate say: its public names, and of each call its comment and the names of its clauses.

`crate_pages` and `rules` use it.
"""

import os
import re
from collections.abc import Iterator, Sequence
from dataclasses import dataclass, field

TOP = os.path.dirname(os.path.dirname(os.path.realpath(__file__)))
ITEM = r"^pub (?:unsafe )?(?P<kind>fn|struct|enum|trait|const|type) {name}\b"
CLAUSE = re.compile(r"^\s*(requires|ensures)\*?(?: (\w+))? *\*?\{")


@dataclass
class Item:
    """A public item: its kind, the file that it stands in, its comment, and its clauses as pairs of a word and a name."""

    name: str
    kind: str
    file: str
    line: int
    comment: str = ""
    clauses: list[tuple[str, str]] = field(default_factory=list)


def read(path: str) -> list[str]:
    """The lines of a file of the repository."""
    with open(f"{TOP}/{path}", encoding="utf-8") as it:
        return it.read().split("\n")


def crates() -> list[str]:
    """The names of the crates, in the order of crates.txt."""
    lines = [line.split("#")[0].strip() for line in read("crates.txt")]
    return [line.split(":")[0].split()[0] for line in lines if line]


def sources(crate: str) -> list[str]:
    """The source files of a crate."""
    found = []
    for folder, _, files in os.walk(f"{TOP}/crates/{crate}/src"):
        found += [os.path.relpath(f"{folder}/{name}", TOP) for name in files if name.endswith(".rt")]
    return sorted(found)


def public_names(crate: str) -> list[tuple[str, str]]:
    """What `src/lib.rt` hands out: pairs of the path that it takes a name from, and the name."""
    path = f"crates/{crate}/src/lib.rt"
    if not os.path.isfile(f"{TOP}/{path}"):
        return []
    text = "\n".join(read(path))
    found = []
    for where, some, one in re.findall(r"^pub use ([\w:]+?)::(?:\{([^}]*)\}|(\w+));", text, re.M):
        found += [(where, name.strip()) for name in (some or one).split(",") if name.strip()]
    return found


def comment_above(lines: Sequence[str], at: int) -> str:
    """The comment of the item in that line, in one line."""
    words: list[str] = []
    at -= 1
    while at >= 0 and lines[at].strip().startswith(("///", "#[", "//")):
        text = lines[at].strip()
        if text.startswith("///"):
            words.insert(0, text[3:].strip())
        at -= 1
    return " ".join(words).split("  ")[0]


def clauses_below(lines: Sequence[str], at: int) -> list[tuple[str, str]]:
    """The clauses of the function whose head begins in that line."""
    found, depth = list[tuple[str, str]](), 0
    for line in lines[at:]:
        text = line.split("//")[0].rstrip()
        clause = CLAUSE.match(text)
        if clause:
            found.append((clause[1], clause[2] or ""))
        elif depth == 0 and re.search(r"(^|\s)\{\}?$", text):
            break
        depth += text.count("{") - text.count("}")
        if depth == 0 and text.endswith(";"):
            break
    return found


def item(crate: str, name: str) -> Item | None:
    """The public item of that name, or none."""
    wanted = re.compile(ITEM.format(name=re.escape(name)))
    for path in sources(crate):
        lines = read(path)
        for at, line in enumerate(lines):
            found = wanted.match(line)
            if found:
                clauses = clauses_below(lines, at) if found["kind"] == "fn" else []
                return Item(name, found["kind"], path, at + 1, comment_above(lines, at), clauses)
    return None


def blocks_of(lines: Sequence[str], name: str) -> Iterator[tuple[int, int]]:
    """The first and last lines of the inherent blocks and of the trait of that name."""
    head = re.compile(rf"^(?:impl(?:<[^{{]*?>)? |pub trait ){name}\b(?!.* for )")
    for at, line in enumerate(lines):
        if head.match(line):
            end = at
            while end < len(lines) and not lines[end].startswith("}"):
                end += 1
            yield at, end


def methods(crate: str, name: str) -> list[Item]:
    """The public calls of a type, or those of a trait, in the order of the sources."""
    found = []
    for path in sources(crate):
        lines = read(path)
        for first, last in blocks_of(lines, name):
            word = "fn" if lines[first].startswith("pub trait") else "pub fn"
            for at in range(first, last):
                head = re.match(rf"^    {word} (\w+)", lines[at])
                if head:
                    its = clauses_below(lines, at)
                    found.append(Item(head[1], "fn", path, at + 1, comment_above(lines, at), its))
    return found


def end_of(lines: Sequence[str], at: int) -> int:
    """The last line of what begins in that line: a definition ends before a blank line, a function at its own brace."""
    indent = lines[at][: len(lines[at]) - len(lines[at].lstrip(" "))]
    if not re.search(r"\bfn ", lines[at]) and lines[at].rstrip().endswith((";", "}")):
        return at
    closing = at
    while closing < len(lines) and lines[closing].strip():
        if re.search(r"\bfn |pub (struct|enum|trait) ", lines[at]) and lines[closing].rstrip() in (indent + "}", indent + "};"):
            return closing
        closing += 1
    if re.search(r"\bfn |pub (struct|enum|trait) ", lines[at]):
        rest = [it for it in range(closing, len(lines)) if lines[it].rstrip() in (indent + "}", indent + "};")]
        return rest[0] if rest else at
    return closing - 1


def span(path: str, name: str) -> tuple[int, int] | None:
    """The first and last lines, from 1 on, of the definition, function or type of that name in a file, or none."""
    lines = read(path)
    owner, _, plain = name.rpartition("::")
    if path.endswith(".antt"):
        head = re.compile(rf"(?:[a-z]+ )*pub (?:(?:record|data|abbrev) )?{re.escape(plain)}(?![\w'-])")
    else:
        head = re.compile(rf" *(?:pub(?:\([^)]*\))? )?(?:fn|struct|enum|trait|const|type) {re.escape(plain)}\b")
    within = list(blocks_of(lines, owner)) if owner else [(0, len(lines))]
    for first, last in within:
        for at in range(first, last):
            if head.match(lines[at]):
                return at + 1, end_of(lines, at) + 1
    return None
