"""Tests of a session: what may stand next in a line that is typed, and what it says after a change."""

import unittest

from wrapper import changes, completing, places
from wrapper.bindings import Bindings
from wrapper.causes import FORMATS
from wrapper.reading import read_line, read_script

SCRIPT = """spin 2
modules 2
event 0 0 w:w last
event 1 0 b last
endpoint 0 out0
handler 1 w:w result a0
handler 2 b
guard 1 w < a0 10
lane 0 install 0 0 1 1 free plain
lane 0 install 1 0 2 0 free plain
lane 0 install 0 0 1 0 free plain
"""


class Completing(unittest.TestCase):
    """The words and numbers that may stand next."""

    def choices(self, line: str) -> list[str]:
        """The choices for a line, where three bindings are live."""
        script = read_script(SCRIPT)
        bindings = Bindings(script)
        for place, deed in enumerate(script.deeds.values(), 1):
            bindings.take(place, deed.words)
        return completing.choices(script, bindings, 11, line)

    def test_words_of_lines_and_of_the_session(self) -> None:
        self.assertEqual(self.choices("re"), ["report", "replace", "retire", "remove"])
        self.assertEqual(self.choices("ra"), ["raise"])
        self.assertIn("load", self.choices(""))

    def test_numbers_in_force(self) -> None:
        self.assertEqual(self.choices("raise "), ["0", "1"])
        self.assertEqual(self.choices("install 0 "), ["0", "1"])
        self.assertEqual(self.choices("install 0 1 "), ["1", "2"])
        self.assertEqual(self.choices("lane 3 install 0 1 1 "), ["0", "1"])
        self.assertEqual(self.choices("remove 0 0 "), ["1", "3"])
        self.assertEqual(self.choices("install 0 0 1 0 before "), ["1", "3"])
        self.assertEqual(self.choices("replace 1 0 "), ["2"])
        self.assertEqual(self.choices("handler "), ["3"])
        self.assertEqual(self.choices("event "), ["2"])
        self.assertEqual(self.choices("why 1"), ["1", "10", "11"])

    def test_fixed_words(self) -> None:
        self.assertEqual(self.choices("install 0 0 1 0 "), ["free", "first", "last", "before", "after"])
        self.assertEqual(self.choices("install 0 0 1 0 free p"), ["plain"])
        self.assertEqual(self.choices("guard 2 w a"), ["all", "any"])
        self.assertEqual(self.choices("handler 3 w l"), ["layer"])
        self.assertEqual(self.choices("rule 0 1 1 install a"), ["any"])

    def test_nothing_where_words_cannot_stand(self) -> None:
        self.assertEqual(self.choices("install x "), [])
        self.assertEqual(self.choices("frob "), [])
        self.assertEqual(self.choices("barrier "), [])
        self.assertEqual(self.choices("show "), [])


class Changes(unittest.TestCase):
    """What is said of other lines."""

    def test_many_lines_are_cut(self) -> None:
        before = changes.answers([read_line(f"0 0 {at} raise = nohandler") for at in range(1, 21)])
        after = changes.answers([read_line(f"0 0 {at} raise = done") for at in range(1, 21)])
        told = changes.told(before, after, [f"lane 0 raise {at}" for at in range(20)], lambda line: line == 3)
        self.assertEqual(told[1:4], ["  line 1: raise 0", "    was  = nohandler", "    is   = done"])
        self.assertEqual(told[-1], "  and 7 more")
        self.assertNotIn("  line 3: raise 2", told)

    def test_nothing_has_changed(self) -> None:
        answers = changes.answers([read_line("0 0 1 raise = done")])
        self.assertEqual(changes.told(answers, answers, ["lane 0 raise 0"], lambda line: False), [])


class Forms(unittest.TestCase):
    """How lines are written."""

    def test_forms_are_those_of_the_formats(self) -> None:
        text = FORMATS.read_text()
        for form in [*places.FORMS.values(), *places.DEED_FORMS.values(), places.WIDE_INSTALL]:
            self.assertIn(f"`{form}`", text)


if __name__ == "__main__":
    unittest.main()
