"""Tests of `./spin build` with a kit that keeps what it proves: the gate's command proves the crates and builds the program."""

import signal
import subprocess
import unittest
from unittest import mock

from wrapper import build
from wrapper.tests.building import Building


class Build(Building):
    """The program."""

    def test_what_the_program_stands_on_is_proved_and_the_program_put_in_its_place(self) -> None:
        status, told = self.build()
        self.assertEqual(status, 0, told)
        self.assertEqual(sorted(self.begun()), ["left", "low", "right", "spin_main", "spinfilter"])
        self.assert_in_order()
        for name in ("spin_main", "spinfilter"):
            self.assertTrue((self.top / "crates" / name / "out" / name).is_file())
        self.assertIn("left begins", told)
        self.assertIn("spin_main is built", told)
        self.assertIn("spin: built: crates/spin_main/out/spin_main", told)

    def test_crates_that_share_one_below_them_do_not_wait_for_each_other(self) -> None:
        self.assertEqual(self.build(SLEEP="1")[0], 0)
        self.assert_side_by_side()

    def test_that_of_the_heaviest_chain_begins_in_advance(self) -> None:
        self.build(SLEEP="1")
        self.assertLess(self.lines().index("wait low"), self.lines().index("end low"))

    def test_what_is_built_is_not_built_again(self) -> None:
        self.build()
        self.assertEqual(self.build(), (0, "spin: the proved programs are built\n"))

    def test_the_copy_is_removed_and_that_of_a_killed_build_too(self) -> None:
        left = self.top / "tmp" / "spin-build-999999999-x" / "crates"
        left.mkdir(parents=True)
        child = self.begin(SLEEP="30")
        self.wait_for("begin low")
        self.assertEqual(len(list((self.top / "tmp").iterdir())), 1)
        child.terminate()
        child.communicate(timeout=20)
        self.assertEqual(list((self.top / "tmp").iterdir()), [])

    def test_a_crate_that_fails_is_named_with_the_file_of_what_the_checker_said(self) -> None:
        status, told = self.build(FAILS="left")
        self.assertEqual(status, 126)
        self.assertNotIn("the checker on left", told)
        line = "spin: left can't be built: status 1; what rt said is in out/build/left.log, and the next build goes on from here"
        self.assertEqual(told.splitlines()[-1], line)
        self.assertIn("the checker on left\n", (self.top / "out" / "build" / "left.log").read_text())
        self.assertNotIn("spin_main", self.begun())

    def test_the_next_build_goes_on_from_what_was_proved(self) -> None:
        self.build(FAILS="spin_main")
        self.assertEqual((self.build()[0], self.begun().count("low"), self.begun().count("spin_main")), (0, 1, 2))

    def test_an_interrupt_ends_in_one_line_and_kills_what_runs(self) -> None:
        child = self.begin(SLEEP="30.25")
        self.wait_for("begin low")
        child.send_signal(signal.SIGINT)
        _, told = child.communicate(timeout=20)
        self.assertEqual((child.returncode, told.splitlines()[-1]), (130, "spin: interrupted; the next ./spin build goes on from here"))
        self.assertNotIn("Traceback", told)
        self.assertEqual(subprocess.run(["pgrep", "-f", "sleep 30.25"], stdout=subprocess.DEVNULL).returncode, 1)
        self.assertEqual(self.build()[0], 0)

    def test_a_second_build_waits_for_the_first(self) -> None:
        first = self.begin(SLEEP="1")
        self.wait_for("begin low")
        status, told = self.build()
        first.communicate(timeout=60)
        self.assertEqual((status, told.splitlines()), (0, ["spin: waiting for another build to end", "spin: the proved programs are built"]))

    def test_a_source_that_changes_meanwhile_is_newer(self) -> None:
        child = self.begin(SLEEP="0.5")
        self.wait_for("end low")
        (self.top / "crates" / "low" / "src" / "lib.rt").write_text("\n")
        child.communicate(timeout=60)
        self.assertIn("are proved and built", self.build()[1])

    def test_too_little_memory_or_disk_is_told_before_it_begins(self) -> None:
        for what, small in [("memory", ("jobs.memory_free", 10**9)), ("disk", ("shutil.disk_usage", mock.Mock(free=10**9)))]:
            with mock.patch.object(build, "tell") as told, mock.patch(f"wrapper.build.{small[0]}", return_value=small[1]):
                self.assertFalse(build.is_ready_to_build())
            self.assertRegex(told.call_args.args[0], rf"^a build wants \d GB of free {what}, and there are 1\.0$")


if __name__ == "__main__":
    unittest.main()
