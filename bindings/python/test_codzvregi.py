"""Tests of the package over the library that SPIN_LIBRARY names: worked cases of the repository, and how answers are
told. Run by `python3 -m unittest` in this folder."""

import os
import sys
import threading
import unittest
from collections.abc import Iterator
from pathlib import Path
from typing import Any

import codzvregi
from codzvregi import Command, Job, Kind, Mode, Op, Place, Refusal, Reply, Row, Step, StepKind

TOP = Path(__file__).resolve().parent.parent.parent
sys.path.append(str(TOP / "cases"))
import made  # the captures of the worked cases

CASES = TOP / "cases" / "check_reports"
SCRIPT = b"spin 1\nevent 0 0 -:w last\nhandler 1 -:w result 7\nlane 0 install 0 0 1 0 free plain\nlane 0 raise 0\n"
REPORT = b"report 1\nsegment 0 at 0\n1 0 4 install ok\n1 0 5 raise run 0 1 result 7 = value 7\nend 1\n"

# What a command is handed by name, which a test may have wrong.
Words = dict[str, Any]

# The endpoints that stand where the program runs.
STANDING = ("out0", "out1", "out2", "out3", "echo")


def judged_cases() -> Iterator[tuple[str, bytes, bytes, bytes | None, str]]:
    """The worked cases of reports that are judged: the name, the script, the report, the capture or none, the answer. A
    report that isn't there counts only behind a bad script or capture, and one that is too large only on a shelf."""
    captures = dict(made.captures())
    for words in sorted(CASES.glob("*.args")):
        case, named = CASES / words.stem, words.read_text().split()
        answer = (CASES / f"{case.name}.stdout").read_text()
        if len(named) in (1, 2) and not answer.startswith(("stop 6", "stop 10")):
            report = CASES / named[0]
            text = report.read_bytes() if report.is_file() else b""
            yield case.name, case.read_bytes(), text, captures[named[1]] if named[1:] else None, answer


class Judging(unittest.TestCase):
    """What judge answers."""

    def setUp(self) -> None:
        self.library = codzvregi.Library(os.environ["SPIN_LIBRARY"])

    def told(self, script: bytes, report: bytes, packets: bytes | None) -> str:
        """The answer in the words of the program."""
        try:
            return "yes\n" if self.library.judge(script, report, STANDING, packets) else "no\n"
        except codzvregi.BadCapture as bad:
            return f"stop 3 record {bad.record} fault {bad.fault}\n"
        except codzvregi.BadScript as fault:
            return f"stop 2 line {fault.line} cause {fault.cause}\n"

    def test_version(self) -> None:
        self.assertEqual(self.library.version(), 2)

    def test_what_is_proved(self) -> None:
        self.assertEqual(self.library.proved(), "a library that is being tested")

    def test_no_library(self) -> None:
        with self.assertRaisesRegex(codzvregi.NoLibrary, "can't be loaded: /nowhere"):
            codzvregi.Library("/nowhere")

    def test_worked_cases(self) -> None:
        cases = list(judged_cases())
        self.assertGreater(len(cases), 30)
        for name, script, report, packets, answer in cases:
            with self.subTest(name):
                self.assertEqual(self.told(script, report, packets), answer)

    def test_examples(self) -> None:
        for report in sorted((TOP / "examples").glob("*.report")):
            script = report.with_suffix(".spin")
            capture = report.with_suffix(".pcap")
            packets = capture.read_bytes() if capture.exists() else None
            if b"native" not in script.read_bytes():
                with self.subTest(report.stem):
                    self.assertTrue(self.library.judge(script.read_bytes(), report.read_bytes(), STANDING, packets))

    def test_each_byte_counts(self) -> None:
        for at in range(len(REPORT)):
            other = REPORT[:at] + bytes([REPORT[at] ^ 1]) + REPORT[at + 1 :]
            self.assertFalse(self.library.judge(SCRIPT, other))

    def test_a_text_that_is_no_script(self) -> None:
        with self.assertRaises(codzvregi.BadScript) as told:
            self.library.judge(b"spin 1\nevent\n", REPORT)
        self.assertEqual((told.exception.line, told.exception.cause), (2, 11))
        said = "end: the line ends too early, or a word is left over"
        self.assertTrue(str(told.exception).startswith(f"line 2 is bad: cause 11, {said}"))

    def test_captures(self) -> None:
        names = ("packets.spin", "packets.report", "packets.pcap")
        script, report, packets = ((TOP / "examples" / name).read_bytes() for name in names)
        self.assertFalse(self.library.judge(script, report, STANDING))
        self.assertFalse(self.library.judge(script, report, STANDING, packets[:-1]))
        with self.assertRaises(codzvregi.BadCapture) as told:
            self.library.judge(script, report, STANDING, b"")
        self.assertEqual((told.exception.record, told.exception.fault), (0, 5))
        said = "short: where fewer than 24 bytes are there"
        self.assertEqual(str(told.exception), f"record 0 is bad: fault 5, {said}")

    def test_empty_texts(self) -> None:
        self.assertFalse(self.library.judge(SCRIPT, b""))
        with self.assertRaises(codzvregi.BadScript):
            self.library.judge(b"", b"")

    def test_names_with_blanks_are_left_out(self) -> None:
        self.assertTrue(self.library.judge(SCRIPT, REPORT, ["out0 out1", ""]))


class Lanes(unittest.TestCase):
    """What a lane answers."""

    SCRIPT = (
        b"spin 1\nmodules 2\nevent 0 0 w:w last\nhandler 1 w:w result + a0 1\nhandler 2 w:w result + a0 2\n"
        b"handler 3 -:w result 9\nrule 0 1 1 any any all deny\n"
    )

    def setUp(self) -> None:
        self.library = codzvregi.Library(os.environ["SPIN_LIBRARY"])

    def test_raises_by_the_commands_before_them(self) -> None:
        with self.library.open(self.SCRIPT) as lane:
            self.assertEqual(lane.raise_event(0, 41), Reply(0, Kind.NO_HANDLER, None, 0))
            self.assertEqual(lane.command(0, Op.INSTALL, handler=1), 1)
            self.assertEqual(lane.raise_event(0, 41), Reply(1, Kind.VALUE, 42, 2))
            self.assertEqual(lane.command(0, Op.REPLACE, target=1, handler=2), 2)
            self.assertEqual(lane.raise_event(0, 41).value, 43)
            self.assertEqual(lane.command(0, Op.REMOVE, target=1), 3)
            self.assertEqual(lane.command(0, Op.SET_DEFAULT, handler=1), 4)
            self.assertEqual(lane.raise_event(0, 1), Reply(4, Kind.DEFAULT_VALUE, 2, 2))

    def test_refused_raises_and_commands_change_nothing(self) -> None:
        with self.library.open(self.SCRIPT) as lane:
            self.assertEqual(lane.raise_event(1, 41).kind, Kind.UNKNOWN_EVENT)
            self.assertEqual(lane.raise_event(0).kind, Kind.WRONG_ARGUMENTS)
            wrong: list[tuple[int, Words]] = [
                (6, {"handler": 3}), (3, {"handler": 9}), (9, {"handler": 1, "requester": 1})
            ]
            for number, words in wrong:
                with self.assertRaises(codzvregi.Refused) as refused:
                    lane.command(0, Op.INSTALL, **words)
                self.assertEqual((refused.exception.refusal, refused.exception.place), (number, 0))
                said = f"refused {number} {Refusal(number).name.lower()}{' 1' if number == 9 else ''} at 0"
                self.assertEqual(str(refused.exception), said)
            self.assertEqual(lane.raise_event(0, 1).place, 0)
            unused, far = {"target": 1, "handler": 1}, {"before": [4097]}
            none: list[tuple[Any, Words]] = [(7, {}), (0, {}), (Op.REMOVE, unused), (Op.INSTALL, far)]
            for op, words in none:
                with self.assertRaises(codzvregi.NoCommand):
                    lane.command(0, op, **words)
            for event, word in ((256, 1), (0, -1), (0, 2**64)):
                with self.assertRaises(ValueError):
                    lane.raise_event(event, word)

    def test_numbers_without_room(self) -> None:
        wide: tuple[Words, ...] = (
            {"handler": 1024}, {"handler": -1}, {"target": 8192}, {"requester": 256}, {"guard": 1024}, {"place": 8},
        )
        lists: tuple[Words, ...] = ({"before": [65535]}, {"after": [-1]}, {"before": [1, 2, 3, 4, 5]})
        with self.library.open(self.SCRIPT) as lane:
            for words in (*wide, *lists):
                with self.subTest(**words), self.assertRaises(ValueError):
                    lane.command(0, Op.INSTALL, **words)
            numbers: list[tuple[int, Any]] = [(64, Op.INSTALL), (-1, Op.INSTALL), (0, 8)]
            for event, op in numbers:
                with self.assertRaises(ValueError):
                    lane.command(event, op, handler=1)
            self.assertEqual(lane.command(0, Op.INSTALL, handler=1), 1)

    def test_places_and_modes(self) -> None:
        with self.library.open(self.SCRIPT) as lane:
            installs: tuple[Words, ...] = (
                {"handler": 1}, {"handler": 2, "before": [1]}, {"handler": 2, "after": [2, 1]},
                {"handler": 1, "place": Place.FIRST}, {"handler": 1, "place": Place.LAST, "mode": Mode.FILTER},
                {"handler": 2, "mode": Mode.ASYNC},
            )
            for place, words in enumerate(installs, 1):
                self.assertEqual(lane.command(0, Op.INSTALL, **words), place)
            lane.raise_event(0, 10)
            ran = [(step.kind, step.number) for step in lane.steps() if step.number is not None]
            jobs = [number for kind, number in ran if kind is StepKind.JOB]
            order = [number for kind, number in ran if kind is StepKind.RUN]
            self.assertEqual((jobs, order[0], order[-1]), ([6], 4, 5))
            self.assertLess(order.index(2), order.index(1))
            self.assertLess(order.index(1), order.index(3))

    TRAIL = (
        b"spin 1\nevent 0 0 bw:w last\nevent 1 0 b last\nevent 2 0 bwww last\nendpoint 0 out0\n"
        b"handler 1 bw:w send 0 0 1 up 1 1 b 0 0 result a1\nhandler 2 b layer ipv4 2\nhandler 3 bw:w result a1\n"
    )

    def test_steps_are_those_of_the_last_raise(self) -> None:
        with self.library.open(self.TRAIL) as lane:
            with self.assertRaisesRegex(codzvregi.Fault, "no reply"):
                lane.steps()
            lane.command(0, Op.INSTALL, handler=1)
            lane.command(1, Op.INSTALL, handler=2)
            self.assertEqual(lane.raise_event(0, b"bcd", 7), Reply(2, Kind.VALUE, 7, 7))
            self.assertEqual(
                lane.steps(),
                [
                    *(Step(StepKind.RUN, 0, 1), Step(StepKind.SEND, number=0, data=b"cd")),
                    Step(StepKind.RESULT, value=7),
                    *(Step(StepKind.UP, 1), Step(StepKind.RUN, 1, 2), Step(StepKind.DROPPED, number=1)),
                    Step(StepKind.BACK, answer=Kind.DONE),
                ],
            )
            with self.assertRaises(codzvregi.NoStep):
                lane.step(7)
            self.assertEqual(lane.raise_event(0, 7, b"").kind, Kind.WRONG_ARGUMENTS)
            self.assertEqual(lane.steps(), [])
            lane.command(0, Op.SET_DEFAULT, handler=3)
            with self.assertRaisesRegex(codzvregi.Fault, "no reply"):
                lane.step(0)

    def test_bytes_are_sent_as_they_are_handed_in(self) -> None:
        with self.library.open(self.TRAIL) as lane:
            lane.command(0, Op.INSTALL, handler=1)
            for data in (b"", b"x", bytes(range(256)) * 200):
                lane.raise_event(0, data, 1)
                self.assertEqual(lane.step(1).data, data[1:])

    def take_part(self, seat: codzvregi.Lane, told: list[tuple[int, int, Reply]]) -> None:
        """Sets the default again and again, raises, and gives the seat back where it isn't the opener's."""
        for turn in range(100):
            handler = 1 + (turn + seat.number) % 2
            told.append((seat.command(0, Op.SET_DEFAULT, handler=handler), handler, seat.raise_event(0, 10)))
        if seat.number:
            seat.give_back()

    def test_seats_on_threads_over_renewals(self) -> None:
        opener = self.library.open(self.SCRIPT, 8)
        for last in (False, False, True):
            seats = [opener, *(opener.seat(number) for number in range(1, 8))]
            told: list[list[tuple[int, int, Reply]]] = [[] for _ in seats]
            threads = [threading.Thread(target=self.take_part, args=it) for it in zip(seats, told)]
            for thread in threads:
                thread.start()
            for thread in threads:
                thread.join()
            answers = [it for each in told for it in each]
            handlers = {place: handler for place, handler, _ in answers}
            self.assertEqual(sorted(handlers), list(range(1, 801)))
            for _, _, reply in answers:
                self.assertEqual((reply.kind, reply.value), (Kind.DEFAULT_VALUE, 10 + handlers[reply.place]))
            opener.end() if last else opener.renew()
        self.assertEqual([row.command.handler for row in opener.rows()], [handlers[at] for at in range(1, 801)])
        opener.close()

    def test_renewals(self) -> None:
        with self.library.open(self.SCRIPT) as lane:
            with self.assertRaises(codzvregi.NoBinding):
                lane.number_before(1)
            for _ in range(3):
                lane.command(0, Op.INSTALL, handler=1)
            lane.command(0, Op.REMOVE, target=1)
            lane.renew()
            self.assertEqual([lane.number_before(number) for number in (1, 2)], [2, 3])
            for number in (0, 3):
                with self.assertRaises(codzvregi.NoBinding):
                    lane.number_before(number)
            self.assertEqual(lane.raise_event(0, 41), Reply(2, Kind.VALUE, 42, 4))
            for turn in range(3000):
                lane.command(0, Op.REPLACE, target=1, handler=1 + turn % 2)
            lane.renew()
            for turn in range(3000):
                lane.command(0, Op.REPLACE, target=1, handler=1 + turn % 2)

    def test_renewals_by_seats_that_come_home(self) -> None:
        opener = self.library.open(self.SCRIPT, 3)
        with opener:
            for turn in range(40):
                first, second = (opener.seat(number) for number in (1, 2))
                self.assertEqual((opener.gather(), first.command(0, Op.INSTALL, handler=1)), (2, 1))
                for seat, why in ((opener, codzvregi.Taken), (second, codzvregi.NoLane)):
                    for call in (seat.renew, seat.end):
                        with self.assertRaises(why):
                            call()
                with self.assertRaises(codzvregi.NoLane):
                    opener.give_back()
                self.assertEqual(second.raise_event(0, 41).value, 42)
                first.command(0, Op.REMOVE, target=1)
                first.give_back()
                self.assertEqual(opener.gather(), 1)
                second.close()
                self.assertEqual(opener.gather(), 0)
                with self.assertRaises(codzvregi.Closed):
                    first.raise_event(0, 1)
                opener.renew()

    def test_ends(self) -> None:
        with self.library.open(self.SCRIPT, 2) as opener:
            with opener.seat(1) as seat:
                seat.command(0, Op.INSTALL, handler=1)
                opener.command(0, Op.INSTALL, handler=2, after=[1], place=Place.LAST)
            with self.assertRaises(codzvregi.NoRow):
                opener.row(0)
            self.assertEqual(opener.end(), 2)
            rows = [
                Row(1, Command(0, Op.INSTALL, handler=1)),
                Row(0, Command(0, Op.INSTALL, handler=2, after=(1,), place=Place.LAST)),
            ]
            self.assertEqual(opener.rows(), rows)
            with self.assertRaises(codzvregi.NoRow):
                opener.row(2)
            calls = (opener.renew, opener.end, opener.gather, opener.give_back, lambda: opener.raise_event(0, 1))
            for call in (*calls, opener.steps, lambda: opener.seat(1), lambda: opener.job(0)):
                with self.assertRaises(codzvregi.Ended):
                    call()

    def test_rows_are_those_of_their_commands(self) -> None:
        wide = Command(63, Op.REPLACE, 255, 1023, 1023, 4096)
        far = Command(1, Op.INSTALL, 2, 3, 4, 0, Place.LAST, Mode.FILTER, (0, 1, 4096), (2, 3, 4, 5))
        for command in (wide, far, Command(0, Op.NO_DEFAULT), Command(5, Op.SET_DEFAULT, 1, 2)):
            self.assertEqual(Row.of(command.row()), Row(0, command))

    JOBS = (
        b"spin 1\nevent 0 0 bw:w last\nevent 1 0 b last\nendpoint 0 out0\nhandler 1 bw:w up 1 1 b 0 0 result a1\n"
        b"handler 2 b send 0 0 1\nhandler 3 bw:w result + a1 1\n"
    )

    def test_jobs_are_done_on_the_bindings_of_their_raise(self) -> None:
        with self.library.open(self.JOBS, 2) as lane, lane.seat(1) as other:
            with self.assertRaises(codzvregi.NoReply):
                lane.job(0)
            other.command(0, Op.INSTALL, handler=1)
            other.command(1, Op.INSTALL, handler=2, mode=Mode.ASYNC)
            other.command(0, Op.INSTALL, handler=3, mode=Mode.ASYNC)
            lane.raise_event(0, b"abc", 7)
            other.command(0, Op.REMOVE, target=3)
            sends = [Step(StepKind.RUN, 1, 2), Step(StepKind.SEND, number=0, data=b"bc")]
            gives = [Step(StepKind.RUN, 0, 3), Step(StepKind.RESULT, value=8)]
            done = [Job(0, Reply(3, Kind.DONE, None, 2), sends), Job(1, Reply(3, Kind.VALUE, 8, 2), gives)]
            for _ in range(2):
                self.assertEqual(list(lane.jobs()), done)
            self.assertEqual(lane.job(1), done[1])
            with self.assertRaises(codzvregi.NoJob):
                lane.job(2)
            self.assertEqual(lane.later(0, b"abc", 7), Reply(4, Kind.QUEUED, None, 0))
            self.assertEqual([job.reply for job in lane.jobs()], [Reply(4, Kind.VALUE, 7, 6)])
            self.assertEqual((lane.later(9).kind, list(lane.jobs())), (Kind.UNKNOWN_EVENT, []))
            with self.assertRaises(ValueError):
                lane.later(256)

    def test_refusals_tell_their_rule_and_their_cycle(self) -> None:
        with self.library.open(self.SCRIPT) as lane:
            for after in ((), (1,)):
                lane.command(0, Op.INSTALL, handler=1, after=after)
            with self.assertRaises(codzvregi.Refused) as denied:
                lane.command(0, Op.INSTALL, handler=1, requester=1)
            with self.assertRaises(codzvregi.Refused) as conflict:
                lane.command(0, Op.INSTALL, handler=1, after=[2], before=[1])
            self.assertEqual((denied.exception.rule, denied.exception.cycle), (1, ()))
            self.assertEqual((conflict.exception.rule, conflict.exception.cycle), (None, (1, 2, 3)))
            self.assertEqual(str(conflict.exception), "refused 11 conflict 1 2 3 at 2")

    def test_texts(self) -> None:
        self.assertTrue(self.library.cause_text(4).startswith("keyword: "))
        self.assertTrue(self.library.fault_text(5).startswith("short: "))
        self.assertEqual((self.library.cause_text(25), self.library.fault_text(0)), ("", ""))

    def test_no_hub_has_no_lanes_or_9(self) -> None:
        for lanes in (-1, 0, 9, 256):
            with self.assertRaises(codzvregi.NoLane):
                self.library.open_lanes(self.SCRIPT, lanes)

    def test_a_closed_lane(self) -> None:
        lane = self.library.open(self.SCRIPT)
        lane.close()
        lane.close()
        with self.assertRaisesRegex(codzvregi.Fault, "closed"):
            lane.raise_event(0, 1)

    def test_no_lane_over_a_text_that_is_no_script(self) -> None:
        with self.assertRaises(codzvregi.BadScript) as told:
            self.library.open(b"spin 1\nbad\n")
        self.assertEqual((told.exception.line, told.exception.cause), (2, 4))


if __name__ == "__main__":
    unittest.main()
