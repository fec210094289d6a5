"""Tests of tools/take, over the crates of this repository."""

import shutil
import subprocess
import tempfile
import unittest
from pathlib import Path

from wrapper.tests import TOP


class Take(unittest.TestCase):
    """Calls in a repository of its own."""

    def setUp(self) -> None:
        self.top = Path(tempfile.mkdtemp())
        self.addCleanup(shutil.rmtree, self.top)

    def take(self, *names: str) -> int:
        """The status of a call."""
        return subprocess.run([TOP / "tools" / "take", *names], cwd=self.top, capture_output=True).returncode

    def test_crates_come_with_what_they_stand_on_and_again_in_place_of_what_was_there(self) -> None:
        (self.top / "crates.txt").write_text("my_host: spin_word\nspin_values: other\n")
        for _ in range(2):
            self.assertEqual(self.take("spin_word"), 0)
            lines = (self.top / "crates.txt").read_text().splitlines()
            self.assertEqual(lines, ["my_host: spin_word", "spin_values: thiserror", "spin_word: spin_values"])
            word = self.top / "crates" / "spin_word"
            self.assertFalse((word / "src" / "old.rt").exists())
            self.assertEqual(sorted(it.name for it in word.iterdir() if it.name != "out"), ["README.md", "proofs", "specs", "src"])
            (word / "src" / "old.rt").write_text("")
        self.assertEqual(sorted(it.name for it in (self.top / "crates").iterdir()), ["spin_values", "spin_word"])

    def test_other_names_are_refused(self) -> None:
        self.assertEqual([self.take(), self.take("spin_word", "other")], [1, 1])
        self.assertEqual(list(self.top.iterdir()), [])


if __name__ == "__main__":
    unittest.main()
