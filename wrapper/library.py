"""library [--plain] [--out FOLDER]: makes the library as it is installed: libcodzvregi.a, libcodzvregi.so.2, its header
codzvregi.h, codzvregi_host.h for functions of the host, and codzvregi.pc for pkg-config.

It is of the proved library of crates/spin_c where `rt lib` has made that and no source is newer, and else, or with
--plain, of the plain one: the same sources as ordinary Rust, of which nothing is proved. A line says which, the call
codzvregi_proved tells it to whoever links the library, and the file `proved` beside it has it. The shared library
exports the interface and nothing else. The files go into out/library, or into FOLDER, each whole or not at all.
"""

import os
import re
import shutil
import subprocess
import sys
import tempfile
from collections.abc import Iterable
from pathlib import Path

from wrapper import plain
from wrapper.program import NOT_RUN, TOP, crates_listed, sources, stands_on, tell

PROVED = TOP / "crates" / "spin_c" / "out" / "libspin_c.a"
HEAP = Path("/opt/rattle/c/liblibc_c.a")
OUT = TOP / "out" / "library"

# The header of the calls, and what an installed one has besides.
C = TOP / "bindings" / "c"
HEADER, MORE = C / "spin.h", C / "installed.h"

# What stands on it for functions of the host, and what the shared library has for languages that aren't C.
ON_IT, TURNS = [C / f"spin_{part}.h" for part in ("names", "table", "bind", "host")], C / "turns.h"

# The release of all that is installed. Its first number is the version of the calls.
RELEASE = "2.0.0"

ARCHIVE, SHARED, LINK = "libcodzvregi.a", "libcodzvregi.so.2", "libcodzvregi.so"
FILES = (ARCHIVE, SHARED, "codzvregi.h", "codzvregi_host.h", "codzvregi.pc", "proved")

NOTHING_PROVED = "the plain library, of which nothing is proved"


class NotMade(Exception):
    """Why no library is made, in a line."""


def is_proved_there() -> bool:
    """Whether the proved library is there, and the allocation that it calls, and no source of it is newer."""
    if not PROVED.is_file() or not HEAP.is_file():
        return False
    since = PROVED.stat().st_mtime
    files = (file for name in stands_on(crates_listed(), ["spin_c"]) for file in sources(name))
    return all(os.stat(file).st_mtime <= since for file in files)


def kit_told() -> str:
    """The line of the kit that is there, by which the proved library is told; where none answers, that."""
    try:
        told = subprocess.run(["rt", "version"], stdin=subprocess.DEVNULL, capture_output=True, text=True)
    except OSError:
        return "a kit that isn't there any more"
    return told.stdout.strip() or "a kit that doesn't tell its name"


def chosen(only_plain: bool) -> tuple[list[Path], str]:
    """What is linked, that of the library first, and what is proved of it in a line."""
    if not only_plain and is_proved_there():
        return [PROVED, HEAP], f"the proved library, each call of it by {kit_told()}"
    if not shutil.which("cargo"):
        proved = "--plain asks for the plain one" if only_plain else "the proved one isn't built"
        raise NotMade(f"{proved}, and there is no cargo, which makes the plain one")
    return [plain.library_for_c()], NOTHING_PROVED


def calls() -> list[str]:
    """The names of the calls that the header declares, and does not define, in its order."""
    texts = "\n".join(file.read_text() for file in (HEADER, MORE, TURNS))
    found = re.findall(r"^[a-z][\w ]*[ *](\w+)\([^{;]*\);", texts, re.MULTILINE)
    return list(dict.fromkeys(found))


def header() -> str:
    """The header as it is installed."""
    return f"{HEADER.read_text()}\n{MORE.read_text()}"


def header_of_hosts() -> str:
    """The header for functions of the host, as it is installed: its parts as one, on the installed header."""
    text = "\n".join(file.read_text() for file in ON_IT)
    include = re.compile(r'^#include "spin(_\w+)?\.h"$', re.MULTILINE)
    return include.sub(lambda found: "" if found[1] else "#include <codzvregi.h>", text)


def for_pkg_config(prefix: str, libraries: str, headers: str) -> str:
    """The text for pkg-config. Its folders are told by the one in which it lies, so an installed tree can be moved."""
    return (
        f"prefix={prefix}\nlibdir={libraries}\nincludedir={headers}\n\n"
        "Name: codzvregi\nDescription: The event dispatcher of SPIN\n"
        f"Version: {RELEASE}\n"
        "Libs: -L${libdir} -lcodzvregi\nLibs.private: -lpthread -lm -ldl\nCflags: -I${includedir}\n"
    )


def call(folder: Path, *words: object) -> str:
    """Makes a call of the compiler, or of what comes with it, in this folder, and answers what it said; one that fails
    is told with the last of that."""
    given = [str(word) for word in words]
    try:
        ran = subprocess.run(
            given, cwd=folder, stdin=subprocess.DEVNULL, stdout=subprocess.PIPE, stderr=subprocess.STDOUT, text=True
        )
    except OSError:
        raise NotMade(f"there is no {words[0]}, without which it can't be linked") from None
    if ran.returncode:
        told = (ran.stdout.strip().splitlines() or [f"status {ran.returncode}"])[-1]
        raise NotMade(f"{words[0]} can't link it: {told[:300]}")
    return ran.stdout


def write_texts(folder: Path, proved: str) -> None:
    """Writes what is text, and the C code of the call that tells what is proved."""
    (folder / "codzvregi.h").write_text(header())
    (folder / "codzvregi_host.h").write_text(header_of_hosts())
    (folder / "codzvregi.pc").write_text(for_pkg_config("${pcfiledir}", "${prefix}", "${prefix}"))
    (folder / "proved").write_text(f"{proved}\n")
    told = proved.replace("\\", "\\\\").replace('"', '\\"')
    (folder / "told.c").write_text(f'const char *codzvregi_proved(void) {{ return "{told}"; }}\n')
    names = " ".join(f"{name};" for name in calls())
    (folder / "exported").write_text(f"CODZVREGI_2 {{ global: {names} local: *; }};\n")


def join(folder: Path, archives: Iterable[Path]) -> None:
    """Joins what the interface wants of all archives into one object, whose other names are its own, so that no host
    has one of them twice."""
    call(folder, "cc", "-std=c11", "-O2", "-fPIC", f"-I{C}", "-c", "told.c", TURNS.with_suffix(".c"))
    wanted = [f"-Wl,-u,{name}" for name in calls()]
    # a group of sections would be one with a host's of the same name, though its names are no host's any more
    how = ["-r", "-nostdlib", "-Wl,--force-group-allocation", "-o", "all.o"]
    call(folder, "cc", *how, *wanted, "told.o", "turns.o", *(Path(archive).resolve() for archive in archives))
    # what rustc leaves there for its own linking is code of a compiler that others can't read
    call(folder, "objcopy", "--remove-section=.llvmbc", "--remove-section=.llvmcmd", "all.o", "bare.o")
    told = call(folder, "nm", "-g", "--defined-only", "bare.o")
    names = {line.split()[-1] for line in told.splitlines() if line.strip()}
    # names that are wanted elsewhere, some of them weakly, stay as they are
    (folder / "hidden").write_text("".join(f"{name}\n" for name in sorted(names.difference(calls()))))
    call(folder, "objcopy", "--localize-symbols=hidden", "bare.o", "codzvregi.o")


def link(folder: Path, archives: Iterable[Path]) -> None:
    """Links the static and the shared library in this folder, where the texts are."""
    join(folder, archives)
    call(folder, "ar", "qcs", ARCHIVE, "codzvregi.o")
    how = [f"-Wl,-soname,{SHARED}", "-Wl,--version-script,exported", "-Wl,--gc-sections", "-Wl,-z,defs"]
    call(folder, "cc", "-shared", "-o", SHARED, *how, "codzvregi.o", "-lpthread", "-lm", "-ldl")


def prepare(folder: Path) -> None:
    """Makes the folder where it isn't there; what can't be written is found before anything is built."""
    try:
        folder.mkdir(parents=True, exist_ok=True)
    except FileExistsError:
        raise NotMade(f"{folder} can't be written: it is no folder") from None
    except OSError as fault:
        raise NotMade(f"{folder} can't be written: {fault.strerror}") from None
    if not os.access(folder, os.W_OK):
        raise NotMade(f"{folder} can't be written: Permission denied")


def make(archives: Iterable[Path], proved: str, folder: Path) -> None:
    """Makes all files of these archives and puts them into the folder, which is there."""
    try:
        with tempfile.TemporaryDirectory(prefix=".making-", dir=folder) as made:
            write_texts(Path(made), proved)
            link(Path(made), archives)
            (Path(made) / LINK).symlink_to(SHARED)
            for name in (*FILES, LINK):
                os.replace(Path(made) / name, folder / name)
    except OSError as fault:
        raise NotMade(f"{folder} can't be written: {fault.strerror}") from None


def asked(words: list[str]) -> tuple[bool, Path] | None:
    """Whether the plain library is asked for, and the folder; none where the words have another form."""
    rest = [word for word in words if word != "--plain"]
    if len(words) - len(rest) > 1 or rest and (len(rest) != 2 or rest[0] != "--out"):
        return None
    return "--plain" in words, Path(os.path.abspath(rest[1])) if rest else OUT


def main(words: list[str]) -> int:
    """Makes the library, and answers the exit status."""
    given = asked(words)
    if given is None:
        tell("usage: spin library [--plain] [--out FOLDER]")
        return 1
    only_plain, folder = given
    try:
        prepare(folder)
        archives, proved = chosen(only_plain)
        make(archives, proved, folder)
    except NotMade as why:
        tell(f"no library is made: {why}")
        return NOT_RUN
    sys.stdout.write(f"{folder}: {proved}\n")
    return 0
