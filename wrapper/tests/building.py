"""What the tests of `./spin build` share: a small repository, in which a script stands in for rt, sleeps, and says what it did."""

import os
import shutil
import subprocess
import tempfile
import time
import unittest
from pathlib import Path

from wrapper import kit
from wrapper.tests import make_repository, stand_in

CRATES: dict[str, list[str]] = {
    "low": [], "left": ["low"], "right": ["low"], "spinfilter": ["left"], "spin_main": ["left", "right"], "aside": ["low"],
}

# By $KIND it is a kit that keeps what `rt ci NAME` proved, one that doesn't, or one that knows a plain `rt ci` alone.
#
# `rt ci NAME` waits for the crates below, proves one, and keeps that in $KEPT; `rt ci` proves the rest, and makes the
# program. `rt lib` builds a crate, over what was built of those below it; `rt run` makes a program, and runs it.
RT = """#!/bin/sh
prove() {
    echo "begin $1" >> "$JOURNAL"
    echo "the checker on $1"
    sleep "${SLEEP:-0.1}"
    [ "$1" = "$FAILS" ] && { ${ENDS:-return 1}; }
    echo "end $1" >> "$JOURNAL"
}
make() {
    mkdir -p "$1/out" && printf '#!/bin/sh\\necho "given $*" >> "$JOURNAL"\\n' > "$1/out/$2"
    chmod +x "$1/out/$2"
}
over() {
    for it in $(sed "s/:.*//" ../../crates.txt); do
        [ -d "../$it/src" ] || exit 2
        [ "$it" = "$1" ] || [ -e "../$it/out/rlib/stamp" ] || exit 2
    done
}
case $1 in
version)
    echo "${LINE:-rattle-kit-0a logic THE_LOGIC}" ;;
help)
    case $KIND in
    plain) echo "  rt ci                   the merge gate: proves every crate from nothing" ;;
    named) echo "  rt ci [NAME..]          the merge gate: proves every crate, or these, from nothing" ;;
    *) echo "  rt ci [--anew] [NAME..] the merge gate: proves every crate, or these, and keeps what passed" ;;
    esac
    echo "  rt must-fail [NAME..]   tries the edits" ;;
ci)
    [ "$KIND" = plain ] && [ -n "$2" ] && exit 2
    [ -d .git ] && [ ! -e crates/low/must-fail ] && { [ "$CI" != true ] || [ -z "$2" ]; } || exit 2
    for it in $([ -n "$2" ] && sed -n "s/^$2://p" crates.txt); do
        echo "wait $it" >> "$JOURNAL"
        while [ ! -e "$KEPT/$it" ]; do sleep 0.05; done
    done
    for it in ${2:-$(sed "s/:.*//" crates.txt)}; do
        exec 9> "$JOURNAL.$it" && flock 9
        if [ ! -e "$KEPT/$it" ]; then
            prove $it || { echo "1 failed"; exit 1; }
            [ -n "$FULL" ] || { mkdir -p "$KEPT" && touch "$KEPT/$it"; }
        fi
        exec 9>&-
    done
    [ -n "$FULL" ] || echo "rt: $2 and the crates below passed, and that is kept."
    [ -n "$2" ] || { make crates/spin_main spin_main && make crates/spinfilter spinfilter; } ;;
lib)
    name=$(basename "$PWD")
    over "$name"
    [ ! -e out/rlib/stamp ] || exit 0
    [ "$name" = low ] || { exec 8< ../low && flock 8; }
    prove "$name" || exit 1
    mkdir -p out/rlib && touch out/rlib/stamp ;;
run)
    name=$(basename "$PWD")
    over "$name"
    while [ "$1" != -- ]; do shift; done
    shift
    prove "$name" && make . "$name" && "out/$name" "$@"
esac
""".replace("THE_LOGIC", kit.LOGIC)


class Building(unittest.TestCase):
    """One build after another in a folder of its own."""

    # The kind of the kit that the script stands in for.
    kind = "kept"

    def setUp(self) -> None:
        self.top = Path(tempfile.mkdtemp())
        self.addCleanup(shutil.rmtree, self.top)
        make_repository(self.top, CRATES)
        (self.top / "crates" / "low" / "must-fail").mkdir()
        (self.top / "tmp").mkdir()
        stand_in(self.top, "rt", RT)
        self.journal = self.top / "journal"

    def begin(self, *words: str, **environment: str) -> subprocess.Popen[str]:
        """Begins a build."""
        given = {"PATH": f"{self.top}/bin:{os.environ['PATH']}", "JOURNAL": str(self.journal), "KIND": self.kind,
                 "KEPT": f"{self.top}/kept", "TMPDIR": f"{self.top}/tmp", "CI": "true", **environment}
        return subprocess.Popen(
            [self.top / "spin", "build", *words], env={**os.environ, **given},
            stdout=subprocess.PIPE, stderr=subprocess.PIPE, text=True, start_new_session=True,
        )

    def build(self, *words: str, **environment: str) -> tuple[int, str]:
        """The status of a build, and what it says."""
        child = self.begin(*words, **environment)
        _, told = child.communicate(timeout=60)
        return child.returncode, told

    def lines(self) -> list[str]:
        """What rt did."""
        return self.journal.read_text().splitlines() if self.journal.is_file() else []

    def begun(self) -> list[str]:
        """The crates at which rt was at work, in order."""
        return [line.split()[1] for line in self.lines() if line.startswith("begin")]

    def assert_in_order(self) -> None:
        """Each crate began when those below it had ended."""
        for name in self.begun():
            for other in CRATES[name]:
                self.assertLess(self.lines().index(f"end {other}"), self.lines().index(f"begin {name}"))

    def assert_side_by_side(self) -> None:
        """Two crates that share one below them didn't wait for each other."""
        begun, ended = ([self.lines().index(f"{word} {name}") for name in ("left", "right")] for word in ("begin", "end"))
        self.assertLess(max(begun), min(ended))

    def wait_for(self, word: str) -> None:
        """Waits until rt did something."""
        for _ in range(200):
            if any(word in line for line in self.lines()):
                return
            time.sleep(0.05)
        self.fail(f"{word} didn't come")
