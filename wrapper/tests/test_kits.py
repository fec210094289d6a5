"""Tests of `./spin build` with each kind of kit, and with an `rt` that is none's or that ends as it shouldn't."""

import errno
import re
import time
import unittest
from unittest import mock

from wrapper import build, kit
from wrapper.tests import TOP
from wrapper.tests.building import Building

# Of the help of a kit that knows a plain `rt ci` alone.
PLAIN = """
  rt ci                   the merge gate, at the top of the repository: sets aside what earlier runs left, proves
                          every crate and its tests from nothing, tries each must-fail edit, and runs each program
  rt must-fail [NAME..]   tries the edits crates/NAME/must-fail/*.edit alone: the prover must refuse each
is run in. rt ci runs it outside the repository, as nobody where rt runs as root, for at most 120 seconds.
check    checks the crate, says how far it is as it goes, and keeps its work in out/ for the next check
"""


class Ways(unittest.TestCase):
    """How a kit proves a crate by itself, by what it says."""

    def test_a_name_behind_rt_ci_and_what_is_kept_are_looked_for(self) -> None:
        named = PLAIN.replace("rt ci  ", "rt ci [NAME..]  ")
        anew = PLAIN.replace("rt ci  ", "rt ci [--anew] [NAME..]  ")
        kept = f"{PLAIN}    rt ci NAME ..         proves these crates, and those that\n        they stand on, and what passed is kept\n"
        ways = [kit.Way.PLAIN, kit.Way.NAMED, kit.Way.KEPT, kit.Way.KEPT]
        self.assertEqual([kit.way_of(text) for text in (PLAIN, named, anew, kept)], ways)

    def test_the_readme_names_kits_of_the_logic_that_proved_the_sources(self) -> None:
        kits = re.findall(r"`(rattle-kit-\w+) logic (\w+)`", (TOP / "README.md").read_text())
        self.assertGreaterEqual(len(kits), 2)
        self.assertEqual({logic for _, logic in kits}, {kit.LOGIC})


class Plain(Building):
    """A kit that knows a plain `rt ci` alone."""

    kind = "plain"

    def test_libraries_are_built_and_the_program_over_them(self) -> None:
        status, told = self.build()
        self.assertEqual(status, 0, told)
        self.assertEqual(sorted(self.begun()), ["left", "low", "right", "spin_main", "spinfilter"])
        self.assert_in_order()
        for name in ("spin_main", "spinfilter"):
            self.assertTrue((self.top / "crates" / name / "out" / name).is_file())
        self.assertTrue((self.top / "crates" / "left" / "out" / "rlib" / "stamp").is_file())
        self.assertIn("spin: built: crates/spin_main/out/spin_main", told)
        self.assertEqual(self.build(), (0, "spin: the proved programs are built\n"))

    def test_crates_that_share_one_below_them_do_not_wait_for_each_other(self) -> None:
        self.assertEqual(self.build(SLEEP="1")[0], 0)
        self.assert_side_by_side()

    def test_the_program_is_run_as_the_gate_runs_it(self) -> None:
        crate = self.top / "crates" / "spin_main"
        (crate / "data").mkdir()
        (crate / "data" / "first").write_text("")
        (crate / "args").write_text("run\nfirst\n")
        self.assertEqual(self.build()[0], 0)
        self.assertIn("given run data/first", self.lines())

    def test_a_build_that_was_killed_is_gone_on_with(self) -> None:
        child = self.begin(SLEEP="2")
        self.wait_for("begin left")
        child.terminate()
        child.communicate(timeout=20)
        self.assertEqual((self.build()[0], self.begun().count("low"), self.begun().count("left")), (0, 1, 2))

    def test_a_build_that_was_killed_at_once_leaves_nothing_that_runs(self) -> None:
        child = self.begin(SLEEP="2")
        self.wait_for("begin left")
        child.kill()
        child.communicate(timeout=20)
        time.sleep(3)
        self.assertNotIn("end left", self.lines())
        self.assertTrue((self.top / "out" / "build" / "trees" / "left").is_dir())
        self.assertEqual((self.build()[0], self.begun().count("low")), (0, 1))

    def test_a_program_that_fails_is_named_and_not_built(self) -> None:
        status, told = self.build(FAILS="spin_main")
        self.assertEqual((status, len(re.findall("can't be built: status 1", told))), (126, 1))
        self.assertFalse((self.top / "crates" / "spin_main" / "out" / "spin_main").exists())

    def test_a_source_that_changes_meanwhile_is_newer(self) -> None:
        child = self.begin(SLEEP="0.5")
        self.wait_for("begin spin_main")
        (self.top / "crates" / "low" / "src" / "lib.rt").write_text("\n")
        child.communicate(timeout=60)
        self.assertIn("are proved and built", self.build()[1])


class Named(Plain):
    """A kit that knows `rt ci NAME`, and keeps nothing."""

    kind = "named"


class KeptNowhere(Building):
    """A kit that keeps what `rt ci NAME` proved, on a machine where it can't."""

    def test_the_first_crate_shows_it_and_libraries_are_built(self) -> None:
        status, told = self.build(FULL="1")
        self.assertEqual(status, 0, told)
        self.assertEqual((self.begun()[:2], sorted(self.begun()[2:])), (["low", "low"], ["left", "right", "spin_main", "spinfilter"]))
        self.assertIn("spin: the kit can't keep what it proves here, so rt lib builds the libraries", told)


class Refused(Building):
    """What ends a build in one line."""

    def refused(self, *words: str, **environment: str) -> str:
        """The one line of a build that fails at once, in which nothing was begun."""
        status, told = self.build(*words, **environment)
        self.assertEqual((status, told.count("\n"), self.begun()), (126, 1, []), told)
        return told

    def failed(self, **environment: str) -> str:
        """The last line of a build in which one crate failed."""
        status, told = self.build(**environment)
        self.assertEqual(status, 126)
        self.assertNotIn("the checker on", told)
        return told.splitlines()[-1]

    def test_an_rt_of_no_kit(self) -> None:
        told = self.refused(LINE="RT 5.0\nand more")
        self.assertIn("bin/rt is the rt of no Rattle kit: to `rt version` it answers RT 5.0\n", told)
        (self.top / "bin" / "rt").write_text("no program\n")
        alone = f"{self.top}/bin:/usr/bin:/bin"
        self.assertIn("to `rt version` it answers Exec format error", self.refused(PATH=alone))

    def test_no_rt(self) -> None:
        (self.top / "bin" / "rt").unlink()
        self.assertIn("rt isn't found", self.refused(PATH="/usr/bin:/bin"))

    def test_a_kit_of_another_logic_begins_only_where_that_is_asked_for(self) -> None:
        line = "rattle-kit-99z logic 0123456789abcdef"
        told = self.refused("--all", LINE=line)
        self.assertIn("nothing was begun: rattle-kit-99z has the logic 0123456789abcdef, and these sources were", told)
        self.assertEqual(self.build("--any-logic", LINE=line)[0], 0)

    def test_other_words(self) -> None:
        self.assertIn("usage: ./spin build [--all|--libraries] [--any-logic]", self.refused("--every"))

    def test_an_rt_that_is_killed(self) -> None:
        for kind in ("kept", "plain"):
            told = self.failed(FAILS="left", ENDS="kill -9 0", KIND=kind)
            self.assertIn("left can't be built: rt was killed by signal 9, as where memory runs out; what rt", told)
        self.assertIn("left can't be built: rt was killed by signal 9", self.failed(FAILS="left", ENDS="exit 247"))

    def test_a_disk_that_is_full_by_what_rt_says(self) -> None:
        told = self.failed(FAILS="left", ENDS="eval echo No space left on device; exit 2")
        self.assertIn("left can't be built: the disk is full; what rt said is in out/build/left.log", told)

    def test_a_disk_that_is_full_by_what_the_system_says(self) -> None:
        full = OSError(errno.ENOSPC, "No space left on device", "/some/file")
        many = build.shutil.Error([("one", "/some/file", "No space left on device"), ("two", "other", "why")])
        for fault in (full, many):
            self.assertEqual(build.where_and_why(fault), "/some/file: No space left on device")
        its = kit.Kit("a kit", kit.LOGIC, kit.Way.PLAIN)
        with mock.patch.object(kit, "found", return_value=its), mock.patch.object(build, "tell") as told:
            with mock.patch.multiple(build, is_ready_to_build=lambda: True, build=mock.Mock(side_effect=full)):
                self.assertEqual(build.main([]), build.NOT_RUN)
        self.assertIn("nothing more could be built: /some/file: No space left on device", told.call_args.args[0])


if __name__ == "__main__":
    unittest.main()
