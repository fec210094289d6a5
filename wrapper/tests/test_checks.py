"""Tests of tools/checks and tools/packages: scripts stand in for the parts, and for apt-get."""

import importlib.machinery
import importlib.util
import os
import subprocess
import sys
import tempfile
import unittest
from contextlib import redirect_stdout
from io import StringIO, TextIOWrapper, BytesIO
from pathlib import Path
from types import ModuleType
from unittest import mock

from wrapper.tests import TOP


def tool(name: str) -> ModuleType:
    """A script of tools as a module."""
    loader = importlib.machinery.SourceFileLoader(name, str(TOP / "tools" / name))
    spec = importlib.util.spec_from_loader(name, loader)
    assert spec, "a loader has a specification"
    made = importlib.util.module_from_spec(spec)
    with mock.patch.object(sys, "dont_write_bytecode", True):
        loader.exec_module(made)
    return made


class Folder(unittest.TestCase):
    """Scripts in a folder of their own."""

    def setUp(self) -> None:
        folder = tempfile.TemporaryDirectory()
        self.addCleanup(folder.cleanup)
        self.folder = Path(folder.name)

    def script(self, name: str, text: str) -> str:
        """Puts a script of sh there, and answers its path."""
        (self.folder / name).write_text(f"#!/bin/sh\n{text}\n")
        (self.folder / name).chmod(0o755)
        return str(self.folder / name)


class Checks(Folder):
    """The parts of the gate, their table and the line that counts them."""

    def checked(self, **texts: str) -> tuple[int, list[str]]:
        """The status over parts that are such scripts, and all lines that are written."""
        checks = tool("checks")
        parts = [(self.script(name, text), f"what {name} shows") for name, text in texts.items()]
        content = BytesIO()
        written = TextIOWrapper(content, write_through=True)
        with mock.patch.object(checks, "PARTS", parts), redirect_stdout(written):
            status = checks.main(["61"])
        lines = content.getvalue().decode().splitlines()
        return status, [line.replace(f"{self.folder}/", "") for line in lines]

    def test_parts_that_pass_are_counted_with_the_proofs(self) -> None:
        status, lines = self.checked(one="echo 7 passed, 0 failed", two="exit 0")
        self.assertEqual((status, lines[-1]), (0, "3 passed, 0 failed, 0 skipped"))
        self.assertEqual(lines[:6], ["", "one: what one shows", "7 passed, 0 failed", "", "two: what two shows", ""])
        table = ["part time", "rt ci 1:01 passed", "one 0:00 passed", "two 0:00 passed"]
        self.assertEqual([" ".join(line.split()) for line in lines[6:-1]], table)

    def test_a_part_that_fails_does_not_keep_the_next_from_running(self) -> None:
        status, lines = self.checked(one="exit 3", two="echo here")
        self.assertEqual((status, lines[-1]), (1, "2 passed, 1 failed, 0 skipped"))
        self.assertIn("here", lines)
        self.assertIn(["one", "0:00", "failed:", "status", "3"], [line.split() for line in lines])

    def test_what_a_part_skips_is_told_with_why_and_counted(self) -> None:
        piece = "the dear piece skipped: there is no cargo"
        status, lines = self.checked(one=f"echo one: {piece}", two="echo two skipped: all is lost")
        self.assertEqual((status, lines[-1]), (0, "2 passed, 0 failed, 2 skipped"))
        rows = [line.split() for line in lines]
        self.assertIn(piece.split(), rows)
        self.assertIn("two 0:00 skipped: all is lost".split(), rows)
        self.assertIn("one 0:00 passed".split(), rows)

    def test_what_is_not_there_fails(self) -> None:
        checks = tool("checks")
        with mock.patch.object(checks, "PARTS", [("tools/nothing", "nothing")]), redirect_stdout(StringIO()) as written:
            self.assertEqual(checks.main([]), 1)
        self.assertEqual(written.getvalue().splitlines()[-1], "0 passed, 1 failed, 0 skipped")

    def test_each_part_is_there(self) -> None:
        for call, _ in tool("checks").PARTS:
            self.assertTrue(os.access(TOP / call.split()[0], os.X_OK), call)


@unittest.skipIf(os.geteuid(), "only root installs packages")
class Packages(Folder):
    """What is installed where nothing is there."""

    packages = tool("packages").PACKAGES
    names = [package.name for package in packages]

    def install(self, apt_get: str) -> tuple[int, list[str]]:
        """The status, and what is written, where this stands in for apt-get."""
        self.script("apt-get", apt_get)
        for name in ("sh", "env", "timeout"):
            (self.folder / name).symlink_to(f"/usr/bin/{name}")
        words = [sys.executable, str(TOP / "tools" / "packages"), "--install"]
        ran = subprocess.run(words, env={"PATH": str(self.folder)}, capture_output=True, text=True, timeout=60)
        self.assertEqual(ran.stderr, "")
        return ran.returncode, ran.stdout.splitlines()

    def test_what_is_missing_is_installed_without_a_question(self) -> None:
        commands = " ".join(package.command for package in self.packages)
        made = f"for it in {commands}; do /usr/bin/ln -s /usr/bin/true ${{0%/*}}/$it; done"
        status, lines = self.install(f"echo $DEBIAN_FRONTEND $* >> $0.calls; case $* in *--no-download*) {made};; esac")
        self.assertEqual((status, lines), (0, [f"packages: installing {', '.join(self.names)}"]))
        calls = (self.folder / "apt-get.calls").read_text().splitlines()
        self.assertEqual(len(calls), 2)
        for call in calls:
            self.assertTrue(call.startswith("noninteractive -qq -y "), call)
            self.assertTrue(call.endswith(f" --no-remove install {' '.join(self.names)}"), call)

    def test_without_a_network_one_line_says_so(self) -> None:
        status, lines = self.install("echo $* >> $0.calls; echo W: first; echo E: no network; exit 100")
        self.assertEqual((status, len(lines)), (1, 2))
        self.assertEqual(lines[1], f"packages: {', '.join(self.names)} couldn't be installed: E: no network")
        self.assertEqual(len((self.folder / "apt-get.calls").read_text().splitlines()), 2 + len(self.names))

    def test_one_that_is_not_to_be_had_does_not_keep_the_others_away(self) -> None:
        commands = " ".join(package.command for package in self.packages if package.name != "valgrind")
        made = f"for it in {commands}; do /usr/bin/ln -sf /usr/bin/true ${{0%/*}}/$it; done"
        status, lines = self.install(f"case $* in *valgrind*) echo E: unknown; exit 100;; *--no-download*) {made};; esac")
        self.assertEqual((status, lines[1:]), (1, ["packages: valgrind couldn't be installed: E: unknown"]))


if __name__ == "__main__":
    unittest.main()
