"""Tests of the tree in which one crate is built by itself."""

import tempfile
import unittest
from pathlib import Path
from unittest import mock

from wrapper import build_trees
from wrapper.tests import make_repository


class Trees(unittest.TestCase):
    """Trees of a crate that stands on another."""

    def setUp(self) -> None:
        folder = tempfile.TemporaryDirectory()
        self.addCleanup(folder.cleanup)
        self.top = Path(folder.name)
        make_repository(self.top, {"low": [], "high": ["low"]})
        for name, value in (("TOP", self.top), ("TREES", self.top / "out" / "trees")):
            patch = mock.patch.object(build_trees, name, value)
            patch.start()
            self.addCleanup(patch.stop)

    def made(self, name: str, *parts: str) -> Path:
        """Puts a file there that was made of a crate."""
        file = self.top.joinpath("crates", name, "out", *parts)
        file.parent.mkdir(parents=True, exist_ok=True)
        file.write_text("made\n")
        return file

    def test_it_has_the_sources_and_what_was_built_of_the_crates_below(self) -> None:
        self.made("low", "rlib", "stamp")
        tree = build_trees.make("high", ["low"])
        self.assertTrue((tree / "src" / "lib.rt").is_file())
        self.assertTrue((tree.parent / "low" / "out" / "rlib" / "stamp").is_file())
        self.assertEqual((tree.parent.parent / "crates.txt").read_text(), "low: \nhigh: low\n")

    def test_what_was_proved_goes_there_and_comes_back(self) -> None:
        kept = self.made("high", "incremental", "function")
        tree = build_trees.make("high", ["low"])
        self.assertFalse(kept.exists())
        (tree / "out" / "high").write_text("a program\n")
        build_trees.clear("high", False)
        self.assertEqual((kept.exists(), (kept.parent.parent / "high").exists()), (True, False))
        self.assertFalse(tree.exists())

    def test_what_was_built_goes_into_the_crates_folder(self) -> None:
        tree = build_trees.make("high", [])
        (tree / "out" / "high").write_text("a program\n")
        build_trees.clear("high", True)
        self.assertEqual((self.top / "crates" / "high" / "out" / "high").read_text(), "a program\n")

    def test_what_a_killed_build_had_proved_comes_back(self) -> None:
        self.made("high", "incremental", "function")
        build_trees.make("high", ["low"])
        again = build_trees.make("high", ["low"])
        self.assertTrue((again / "out" / "incremental" / "function").is_file())


if __name__ == "__main__":
    unittest.main()
