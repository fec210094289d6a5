"""Tests of the eraser, and of how the plain program is built: a script stands in for cargo."""

import shutil
import subprocess
import sys
import tempfile
import unittest
from pathlib import Path

from wrapper import build
from wrapper.program import PROGRAMS
from wrapper.tests import TOP, make_repository, stand_in

sys.path.insert(0, str(TOP / "tools" / "plain"))
import erase

CARGO = """#!/bin/sh
echo cargo >> "$(dirname "$0")/../journal"
if [ -n "$FAILS" ]; then echo "error at crates/spin_main/src/main.rs:3" >&2; exit 101; fi
sleep "${SLEEP:-0}"
while [ "$1" != --target-dir ]; do shift; done
mkdir -p "$2/debug"
for name in spin_main spinfilter; do
  printf '#!/bin/sh\\necho "the program on $*"\\n' > "$2/debug/$name"
  chmod +x "$2/debug/$name"
done
"""

RUSTC = """#!/bin/sh
for last in "$@"; do :; done
echo "rustc ${last##*/}" >> "$(dirname "$0")/../journal"
printf '#!/bin/sh\\necho "the program on $*"\\n' > "$last"
chmod +x "$last"
"""

RATTLE = """//! A crate.
#![tactic(auto)]
ghost use Rattle.std.specs.Prelude.{◌≡◌,
    ℕ};
/// A word.
#[derive(Clone, Copy, Drop, Error)]
pub struct Word {
    value: u8,
    /// It is small.
    ghost small: { value < 9 } by { done },
}
#[derive(Drop)]
impl Model for Word {
    ghost Value = { ℕ };
    ghost view = { λ w. record { value = w.value } };
}
/// Its double.
#[tactic(auto, using(crate::x))]
fn double(word: &Word) -> Result<Box<u8>, NoMemory>
    requires* held { ⌜ word ⌝ }
    ensures { result ≡ 2 * word.now.value }
{
    let text = "ghost { λ"; // ensures { nothing
    Ok(Box::new(alloc, 2 * word.value)?)
}
"""

RUST = """//! A crate.



/// A word.
#[derive(Clone, Copy)]
pub struct Word {
    value: u8,


}

impl Model for Word {


}
/// Its double.

fn double(word: &Word) -> Result<Box<u8>, NoMemory>


{
    let text = "ghost { λ"; // ensures { nothing
    Ok(::std::boxed::boxed(alloc, 2 * word.value)?)
}
"""


class Eraser(unittest.TestCase):
    """What is left of a file."""

    def test_each_line_that_is_left_stays_where_it_is(self) -> None:
        left = erase.erased("lib.rt", RATTLE).splitlines()
        self.assertEqual([line.rstrip() for line in left][: RUST.count("\n")], RUST.splitlines())

    def test_what_cannot_be_erased_is_named_with_its_line(self) -> None:
        for text, line in [
            ("fn f()\n    ensures = {}\n", 2), ("\nghost name;\n", 2), ("ghost use A.{b}", 1), ("fn f() {\n{\n}\n", 1),
            ("fn f() }\n", 1), ("fn f(x: ℕ) {}\n", 1), ("fn f()\n    requires { a\n{}\n", 2),
        ]:
            with self.assertRaisesRegex(erase.Refused, rf"^lib\.rt:{line}: ", msg=text):
                erase.erased("lib.rt", text)


class Plain(unittest.TestCase):
    """Calls of ./spin where cargo is found."""

    def setUp(self) -> None:
        self.top = Path(tempfile.mkdtemp())
        self.addCleanup(shutil.rmtree, self.top)
        crates: dict[str, list[str]] = {name: [] for name in (*PROGRAMS, *build.HOSTS)}
        make_repository(self.top, crates)
        stand_in(self.top, "cargo", CARGO, "sh", "env", "python3", "dirname", "mkdir", "chmod", "sleep")

    def begin(self, *flags: str, **environment: str) -> subprocess.Popen[str]:
        """Begins a run."""
        return subprocess.Popen(
            [self.top / "spin", *flags, "run", "x"], env={"PATH": f"{self.top}/bin", **environment},
            stdout=subprocess.PIPE, stderr=subprocess.PIPE, text=True,
        )

    def spin(self, *flags: str, **environment: str) -> tuple[int, str, list[str]]:
        """The status of a run, what is written, and the lines that are told."""
        child = self.begin(*flags, **environment)
        written, told = child.communicate(timeout=60)
        return child.returncode, written, told.splitlines()

    def builds(self) -> int:
        """How often cargo was called."""
        journal = self.top / "journal"
        return len(journal.read_text().splitlines()) if journal.is_file() else 0

    def test_it_is_built_once_and_again_where_a_source_is_another(self) -> None:
        first, second = self.spin(), self.spin()
        self.assertEqual([first[:2], second[:2]], [(0, "the program on run x\n")] * 2)
        self.assertEqual(self.builds(), 1)
        source = self.top / "crates" / "spin_main" / "src" / "main.rt"
        source.with_name("main.rt~").write_text("a backup")
        source.with_name(".#main.rt").symlink_to("nowhere")
        self.spin()
        self.assertEqual(self.builds(), 1)
        source.write_text("// another\n")
        self.spin()
        self.assertEqual(self.builds(), 2)

    def test_that_nothing_of_it_is_proved_is_told_once_a_day(self) -> None:
        first, second = self.spin(), self.spin()
        self.assertEqual([len(first[2]), len(second[2])], [2, 0])
        self.assertIn("of which nothing is proved; ./spin build makes the proved one", first[2][1])
        (self.top / "out" / "plain" / "told").write_text("2001-01-01")
        self.assertEqual([len(self.spin("--quiet")[2]), len(self.spin()[2])], [0, 1])

    def test_rustc_builds_it_where_there_is_no_cargo(self) -> None:
        (self.top / "bin" / "cargo").unlink()
        (self.top / "bin" / "rustc").write_text(RUSTC)
        (self.top / "bin" / "rustc").chmod(0o755)
        self.assertEqual(self.spin()[:2], (0, "the program on run x\n"))
        self.assertEqual((self.top / "journal").read_text(), "rustc libplain_std.rlib\nrustc spin_main\nrustc spinfilter\n")

    def test_two_builds_wait_for_each_other(self) -> None:
        first = self.begin(SLEEP="2")
        while not self.builds():
            self.assertIsNone(first.poll())
        second = self.spin()
        first.communicate(timeout=60)
        self.assertEqual((second[0], second[2][0], self.builds()), (0, "spin: waiting for another build to end", 1))

    def test_a_source_that_cannot_be_erased_is_named(self) -> None:
        (self.top / "crates" / "spin_main" / "src" / "main.rt").write_text("\nghost name;\n")
        status, written, told = self.spin()
        self.assertEqual((status, written), (126, ""))
        self.assertIn("crates/spin_main/src/main.rt:2: this ghost item has neither a type nor a value", told[-1])

    def test_what_cargo_cannot_build_is_told_in_the_words_of_the_sources(self) -> None:
        status, written, told = self.spin(FAILS="1")
        self.assertEqual((status, written), (126, ""))
        self.assertEqual(told[-2], "error at crates/spin_main/src/main.rt:3")
        self.assertEqual(self.spin()[0], 0)

    def test_where_nothing_can_be_written_one_line_says_so(self) -> None:
        (self.top / "out").write_text("no folder")
        status, written, told = self.spin()
        self.assertEqual((status, written, len(told)), (126, "", 2), told)
        self.assertIn(f"{self.top}/out", told[0])


if __name__ == "__main__":
    unittest.main()
