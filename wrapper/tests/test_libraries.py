"""Tests of `./spin build --libraries`, which has `rt lib` build each crate that others stand on."""

import signal
import unittest

from wrapper.tests.building import Building


class Libraries(Building):
    """The libraries that rt check goes on from."""

    def test_each_crate_waits_for_those_below_and_no_other_is_built(self) -> None:
        status, told = self.build("--libraries")
        self.assertEqual(status, 0, told)
        begun = self.begun()
        self.assertEqual((begun[0], sorted(begun[1:])), ("low", ["left", "right"]))
        self.assert_in_order()
        self.assertIn("left begins", told)
        self.assertIn("spin: built: 3 libraries", told)

    def test_crates_that_share_one_below_them_do_not_wait_for_each_other(self) -> None:
        self.assertEqual(self.build("--libraries", SLEEP="1")[0], 0)
        self.assert_side_by_side()

    def test_a_crate_that_fails_is_named_with_the_file_of_what_the_checker_said(self) -> None:
        status, told = self.build("--libraries", FAILS="low")
        self.assertEqual((status, self.begun()), (126, ["low"]))
        self.assertIn("spin: low can't be built: status 1; what rt said is in out/build/low.log", told)
        self.assertEqual(self.build("--libraries")[0], 0)

    def test_an_interrupt_ends_in_one_line(self) -> None:
        child = self.begin("--libraries", SLEEP="30.75")
        self.wait_for("begin low")
        child.send_signal(signal.SIGINT)
        _, told = child.communicate(timeout=20)
        self.assertEqual((child.returncode, told.splitlines()[-1]), (130, "spin: interrupted; the next ./spin build goes on from here"))


if __name__ == "__main__":
    unittest.main()
