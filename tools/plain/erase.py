#!/usr/bin/env python3
"""erase.py TARGET: writes the crates of this repository as a cargo workspace, their clauses and ghost items left out.

A file is rewritten line by line: what stands in line 7 of `lanes.rt` stands in line 7 of `lanes.rs`, so what the
compiler says of the one is true of the other. Left out are ghost items, `requires` and `ensures`, `#[tactic(..)]`,
`#[cycle(..)]`, the texts of errors, and derives that Rust doesn't have; DIFFERENCES lists the calls that Rust's library
has in another form. All else stays as it is. A file in which one of these isn't as expected is named with its line, and
nothing is built.
"""

import re
import sys
from collections.abc import Iterable, Iterator
from pathlib import Path
from typing import NoReturn

HERE = Path(__file__).resolve().parent
sys.path.insert(0, str(HERE.parent.parent))
from wrapper.program import TOP, below_by_crate, crates_listed, stands_on

# A library whose calls are for C.
FOR_C = "spin_c"

# The crates that are covered are those that these stand on, and they themselves.
TOPS = (
    *("spin_main", "spinfilter", "host_filter", "host_logger", "host_plugins", "host_renewal", "host_workers"),
    *("spin_host", "spin_whole", FOR_C),
)

# Of the kit's libraries, those that are part of Rust's.
OF_RUST = ("core", "std_alloc", "std_collections", "std_heap")

TOKEN = re.compile(
    r"//[^\n]*|/\*.*?\*/"  # comments
    r"|b?r(?P<hashes>\#*)\".*?\"(?P=hashes)|[bc]?\"(?:[^\"\\]|\\.)*\""  # texts
    r"|b?'(?:[^'\\\n]|\\[^\n][^']*)'|'[A-Za-z_]\w*"  # characters, lifetimes
    r"|\w+|\s+|.",
    re.DOTALL,
)

# Each bracket that closes, with the one that it closes.
CLOSED = {")": "(", "]": "[", "}": "{"}
OPEN = set(CLOSED.values())

# The C runtime calls the program, so that Rust's changes nothing of what it is handed.
STARTED = (
    '#[unsafe(no_mangle)] pub extern "C" fn main(count: i32, words: *const *const ::core::ffi::c_char) -> i32'
    " { ::std::rt::started(count, words, begin) }"
)

# The few places in which Rust's library, or the one that stands in for Rattle's, differs.
DIFFERENCES = [
    (r"\bBox::new\(", "::std::boxed::boxed("),
    (r"\bBox::(into_inner|into_raw_with_allocator|from_raw)\(", r"::std::boxed::\1("),
    (r"\bBox<T, A>", "Box<T>"),
    (r"\.clone\(\)\?", ".clone()"),
    (r"\.to_vec\((?=[^)])", ".copied_by("),
    (r"\buse std::ops::DerefSlice;", "use std::ops::Deref;"),
    (r"\bDerefSlice for ([^{]+)\{(\s*)type Elem = (\w+);", r"Deref for \1{\2type Target = [\3];"),
    (r"\bfmt<W: fmt::Write>\(&self, (\w+): &mut fmt::Formatter<W>\)", r"fmt(&self, \1: &mut fmt::Formatter<'_>)"),
    (r"\bfn main\(rt: HostRuntime\)", f"{STARTED} fn begin(rt: HostRuntime)"),
]


class Refused(Exception):
    """A file that can't be erased, with its line and why."""


def is_space(token: str) -> bool:
    """Whether a token is a comment or white space."""
    return token.isspace() or token.startswith(("//", "/*"))


class Source:
    """A file of Rattle, cut into tokens, and the tokens that are left of it."""

    def __init__(self, name: str, text: str) -> None:
        self.name, self.tokens = name, [found[0] for found in TOKEN.finditer(text)]
        self.left: list[str] = []

    def refuse(self, at: int, why: str) -> NoReturn:
        """Ends at this token."""
        line = 1 + "".join(self.tokens[:at]).count("\n")
        raise Refused(f"{self.name}:{line}: {why}")

    def token(self, at: int) -> str:
        """The token there; an empty one behind the last."""
        return self.tokens[at] if at < len(self.tokens) else ""

    def behind_space(self, at: int) -> int:
        """The first place at or behind this one that is neither comment nor white space."""
        while at < len(self.tokens) and is_space(self.tokens[at]):
            at += 1
        return at

    def behind_word(self, at: int) -> int:
        """The next such place behind the token there."""
        return self.behind_space(at + 1)

    def behind_pair(self, at: int, pair: str = "{}") -> int:
        """The place behind the bracket that closes the one there."""
        if self.token(at) != pair[0]:
            self.refuse(at, f"{pair[0]} is missing")
        depth = 0
        for place in range(at, len(self.tokens)):
            depth += (self.tokens[place] == pair[0]) - (self.tokens[place] == pair[1])
            if not depth:
                return place + 1
        self.refuse(at, f"this {pair[0]} isn't closed")

    def behind_ghost(self, at: int) -> int:
        """The place behind the ghost item there: an import, a member, its type or a fact of a struct."""
        place = self.behind_word(at)
        if self.token(place) == "use":
            while self.token(place) != ";":
                if place >= len(self.tokens):
                    self.refuse(at, "this ghost use has no end")
                place += 1
            return place + 1
        place = self.behind_word(place)
        if self.token(place) not in (":", "="):
            self.refuse(at, "this ghost item has neither a type nor a value")
        end = place
        while self.token(place) in (":", "=", "by"):
            end = self.behind_pair(self.behind_word(place))
            place = self.behind_space(end)
        return place + 1 if self.token(place) in (";", ",") else end

    def behind_clause(self, at: int) -> int:
        """The place behind the clause there."""
        place = self.behind_word(at)
        for pattern in (r"\*", r"\w+", r"\*"):
            if re.fullmatch(pattern, self.token(place)):
                place = self.behind_word(place)
        return self.behind_pair(place)

    def leave_out_visibility(self) -> None:
        """Leaves out the `pub`, or the `pub(crate)`, that stands right before what is left out next."""
        place = len(self.left) - 1
        while place >= 0 and self.left[place].isspace():
            place -= 1
        for words in (["pub"], ["pub", "(", "crate", ")"]):
            begin = place + 1 - len(words)
            if begin >= 0 and self.left[begin : place + 1] == words:
                del self.left[begin:]
                return

    def leave_out(self, at: int, end: int, has_docs: bool = False) -> int:
        """Leaves the tokens out, but for their line ends; an item's comments before it go too."""
        place = len(self.left) - 1
        while has_docs and place >= 0 and (self.left[place].isspace() or self.left[place].startswith("///")):
            if self.left[place].startswith("///"):
                self.left[place] = ""
            place -= 1
        self.left.append("\n" * "".join(self.tokens[at:end]).count("\n"))
        return end

    def behind_attribute(self, at: int) -> int:
        """The place behind the attribute there, of which is kept what Rust has too."""
        begin = at + (self.token(at + 1) == "!")
        end = self.behind_pair(begin + 1, "[]")
        name = self.token(begin + 2)
        if name in ("tactic", "error", "cycle"):
            return self.leave_out(at, end)
        kept = "".join(self.tokens[at:end])
        if name == "derive":
            names = [it for it in re.findall(r"\w+", kept[kept.index("(") :]) if it not in ("Drop", "Error")]
            kept = f"#[derive({', '.join(names)})]" + "\n" * kept.count("\n") if names else ""
        self.left.append(kept)
        return end

    def erase(self) -> str:
        """The text that is left."""
        at = 0
        while at < len(self.tokens):
            token = self.tokens[at]
            if token == "ghost":
                self.leave_out_visibility()
                at = self.leave_out(at, self.behind_ghost(at), has_docs=True)
            elif token in ("requires", "ensures"):
                at = self.leave_out(at, self.behind_clause(at))
            elif token == "#" and self.token(at + 1) in ("[", "!"):
                at = self.behind_attribute(at)
            else:
                self.left.append(token)
                at += 1
        return "".join(self.left)


def check_left(name: str, left: list[str]) -> None:
    """Refuses tokens that can be no Rust: words of a clause, and a bracket without its other."""

    def refuse(at: int, why: str) -> NoReturn:
        """Ends at this token."""
        raise Refused(f"{name}:{1 + ''.join(left[:at]).count(chr(10))}: {why}")

    opened: list[int] = []
    for at, token in enumerate(left):
        if token in OPEN:
            opened.append(at)
        elif token in CLOSED:
            if not opened or left[opened.pop()] != CLOSED[token]:
                refuse(at, f"this {token} closes nothing")
        elif not token.isascii() and not is_space(token) and '"' not in token and "'" not in token:
            refuse(at, f"{token} stands outside a clause")
    if opened:
        refuse(opened[-1], f"this {left[opened[-1]]} isn't closed")


def erased(name: str, text: str) -> str:
    """A file of Rattle as Rust, with the same lines."""
    source = Source(name, text)
    text = source.erase()
    check_left(name, source.left)
    for pattern, instead in DIFFERENCES:
        text = re.sub(pattern, instead, text)
    return text + "\n#[allow(unused_imports)]\nuse std::prelude::*;\n"


# ---- the workspace

MANIFEST = """[workspace]
resolver = "2"
members = ["crates/*"]

[profile.dev]
debug = 0
incremental = false
opt-level = 1
overflow-checks = true
panic = "abort"

[profile.release]
overflow-checks = true
panic = "abort"
"""


def covered() -> list[str]:
    """The names of the crates that are covered, lowest first."""
    return stands_on(crates_listed(), TOPS)


def stands_in(name: str) -> Path | None:
    """The folder of what stands in for a library of the kit; None where nothing does."""
    return HERE / name if (HERE / name / "Cargo.toml").is_file() else None


def packages(name: str, below: Iterable[str]) -> dict[str, tuple[str, Path]]:
    """The packages that a crate stands on, by the names that it calls them, each with its folder."""
    found, crates = {"std": ("plain_std", HERE / "std")}, crates_listed()
    for other in below:
        folder = Path(f"../{other}") if other in crates else stands_in(other)
        if folder:
            found[other] = (other, folder)
        elif other not in OF_RUST:
            raise Refused(f"crates.txt: {name} stands on {other}, for which nothing stands in below tools/plain")
    return found


def manifest(name: str, below: Iterable[str]) -> str:
    """The manifest of a crate that stands on these."""
    kind = '[lib]\ncrate-type = ["staticlib"]\n\n' if name == FOR_C else ""
    text = f'[package]\nname = "{name}"\nversion = "0.1.0"\nedition = "2024"\n\n{kind}[dependencies]\n'
    for alias, (package, folder) in packages(name, below).items():
        text += f'{alias} = {{ package = "{package}", path = "{folder}" }}\n'
    return text


def calls_of_rustc(work: Path, target: Path) -> Iterator[list[str]]:
    """The calls that build the program without cargo, one after another: of what stands in, then of each crate."""
    below = below_by_crate()
    needed = {other for name in stands_on(crates_listed()) for other in below[name] if stands_in(other)}
    std = {"plain_std": ("plain_std", HERE / "std")}
    builds = [("plain_std", HERE / "std" / "src" / "lib.rs", dict[str, tuple[str, Path]]())]
    builds += [(name, HERE / name / "src" / "lib.rs", std) for name in sorted(needed)]
    for name in stands_on(crates_listed()):
        src = work / "crates" / name / "src"
        root = src / "main.rs" if (src / "main.rs").is_file() else src / "lib.rs"
        builds.append((name, root, packages(name, below[name])))
    for name, root, others in builds:
        is_program = root.stem == "main"
        call = ["rustc", "--edition", "2024", "--crate-name", name, "--crate-type", "bin" if is_program else "rlib"]
        call += ["-A", "warnings", "-C", "opt-level=1", "-C", "overflow-checks=on", "-C", "panic=abort"]
        call += ["-L", str(target), str(root)]
        for alias, (package, _) in others.items():
            call += ["--extern", f"{alias}={target}/lib{package}.rlib"]
        yield [*call, "-o", f"{target}/{name if is_program else f'lib{name}.rlib'}"]


def root_of(text: str, is_program: bool) -> str:
    """The first file of a crate, with the attributes of the whole on its first line."""
    return f"#![no_std] #![allow(warnings)] {'#![no_main] ' if is_program else ''}{text}"


def files_of(name: str, below: Iterable[str]) -> dict[str, str]:
    """The files of a crate as Rust, by their places in the workspace."""
    files = {f"crates/{name}/Cargo.toml": manifest(name, below)}
    src = TOP / "crates" / name / "src"
    for file in sorted(src.rglob("*.rt")):
        if file.name.startswith("."):
            continue
        text = erased(str(file.relative_to(TOP)), file.read_text(encoding="utf-8"))
        if file in (src / "lib.rt", src / "main.rt"):
            text = root_of(text, file.stem == "main")
        files[f"crates/{name}/src/{file.relative_to(src).with_suffix('.rs')}"] = text
    return files


def write_workspace(target: Path) -> int:
    """Writes the workspace: only files that change, so that cargo builds only what changed."""
    below, files = below_by_crate(), {"Cargo.toml": MANIFEST}
    for name in covered():
        files.update(files_of(name, below[name]))
    for file in target.glob("crates/**/*"):
        if file.is_file() and str(file.relative_to(target)) not in files:
            file.unlink()
    for place, text in files.items():
        file = target / place
        if not file.is_file() or file.read_text(encoding="utf-8") != text:
            file.parent.mkdir(parents=True, exist_ok=True)
            file.write_text(text, encoding="utf-8")
    return len(files)


def main() -> None:
    """Writes the workspace into the folder that is named."""
    if len(sys.argv) != 2:
        sys.exit("usage: erase.py TARGET")
    try:
        print(f"erase: {write_workspace(Path(sys.argv[1]))} files of {len(covered())} crates")
        print(f"erase: not covered: {', '.join(sorted(set(crates_listed()) - set(covered())))}")
    except Refused as refused:
        sys.exit(f"erase: {refused}")


if __name__ == "__main__":
    main()
