"""Tests of a trial: a script stands in for rt, which writes the words and the files that it is handed."""

import os
import shutil
import subprocess
import tempfile
import unittest
from pathlib import Path

from wrapper.tests import make_repository, stand_in

RT = """#!/bin/sh
[ "$1" = version ] && exit 0
echo "$@" | sed "s/=[^ ]*file/=file/g"
for word in "$@"; do case "$word" in file?=*) cat "${word#*=}";; esac; done
echo "run=ended status=${STATUS:-0} output=any" >&2
"""


class Trial(unittest.TestCase):
    """Calls of ./spin where rt is found and cargo isn't."""

    def setUp(self) -> None:
        self.folder = Path(tempfile.mkdtemp())
        self.addCleanup(shutil.rmtree, self.folder)
        make_repository(self.folder, {"spin_main": []})
        stand_in(self.folder, "rt", RT, "sh", "sed", "cat", "env", "python3")
        (self.folder / "script").write_text("the script\n")

    def spin(self, *words: str, **environment: str) -> tuple[int, str, str]:
        """The status, what is written and what is told."""
        environment = {"PATH": f"{self.folder}/bin", **environment}
        ran = subprocess.run(
            [self.folder / "spin", "--quiet", *words], env=environment, cwd=self.folder,
            capture_output=True, text=True, input="from standard input\n",
        )
        return ran.returncode, ran.stdout, ran.stderr

    def test_it_says_at_once_what_it_is_and_has_the_status_of_the_program(self) -> None:
        status, _, told = self.spin("run", "script", STATUS="4")
        self.assertEqual((status, told.count("\n")), (4, 1))
        self.assertIn("takes minutes, proves nothing, and keeps no endpoint's file", told)

    def test_files_and_pipes_are_handed_in(self) -> None:
        _, written, _ = self.spin("run", "script", "/dev/stdin")
        words = "try --data file1=file1 --data file2=file2 -- run file1 file2\n"
        self.assertEqual(written, words + "the script\nfrom standard input\n")

    def test_a_folder_is_a_folder_and_what_is_missing_is_missing(self) -> None:
        self.assertEqual(self.spin("run", str(self.folder))[1], "try -- run .\n")
        self.assertEqual(self.spin("check", "nowhere", "script/more")[1], "try -- check absent1 .\n")
        self.assertEqual(self.spin("run", "")[1], "try -- run absent1\n")

    def test_a_number_is_no_file(self) -> None:
        (self.folder / "7").write_text("")
        self.assertEqual(self.spin("gen", "7")[1], "try -- gen 7\n")

    def test_without_cargo_and_rt_one_line_says_what_is_missing(self) -> None:
        (self.folder / "bin" / "rt").unlink()
        status, written, told = self.spin("run", "script")
        self.assertEqual((status, written, told.count("\n")), (126, "", 1))
        self.assertIn("cargo isn't found", told)
        self.assertIn("rt isn't found", told)

    def test_a_closed_pipe_ends_without_a_word(self) -> None:
        reader, writer = os.pipe()
        os.close(reader)
        environment = {"PATH": f"{self.folder}/bin"}
        ran = subprocess.run([self.folder / "spin", "--quiet", "run", "script"], cwd=self.folder, env=environment, stdout=writer, stderr=subprocess.PIPE)
        os.close(writer)
        self.assertEqual((ran.returncode, ran.stderr.count(b"\n")), (141, 1))


if __name__ == "__main__":
    unittest.main()
