"""Functions of the host's: what they are handed, what they may do, and what becomes of a raise that they end."""

import os
import threading
import unittest
from typing import Any

import codzvregi
from codzvregi import Event, Kind, Outcome, StepKind

LIBRARY = codzvregi.Library(os.environ.get("SPIN_LIBRARY"))
EVENTS: dict[str, str | Event] = {"Low": Event("Bw:w", "fold + a0 a1"), "Middle": "W:w", "High": "b", "Plain": "w"}


class Functions(unittest.TestCase):
    """One hub with some events."""

    def setUp(self) -> None:
        script = codzvregi.Script(
            EVENTS, handlers={"add": ("W:w", "set 0 + a0 1 result a0"), "up": ("Bw:w", "send 0 0 0 up 1 1 w a1")},
            guards={"small": ("w", "< a0 10")}, modules=("net", "app"), endpoints=("out0",),
        )
        self.lane = LIBRARY.open(script)
        self.addCleanup(self.lane.close)
        self.calls: list[object] = []

    def test_filter_guard_and_fold(self) -> None:
        lane = self.lane

        @lane.on("Low", filter=True, first=True)
        def strip(data: bytes, port: int) -> tuple[bytes, int]:
            return data[1:], port

        @lane.on("Low", guard=lambda data, port: port == 53)
        def name(data: bytes, port: int) -> int:
            return 100

        @lane.on("Low", before=["name"])
        def count(data: bytes, port: int) -> int:
            self.calls.append(data)
            return len(data)

        self.assertEqual(lane.raise_("Low", b"xyz", 53), (Kind.VALUE, 102, 3))
        self.assertEqual(lane.raise_("Low", b"xyz", 80).value, 2)
        self.assertEqual(self.calls, [b"yz", b"yz"])
        self.assertEqual([lane.binding(it) for it in ("strip", "name", "count")], [1, 2, 3])

    def test_raise_within_and_unbinding(self) -> None:
        lane = self.lane

        @lane.on("Low")
        def low(data: bytes, port: int) -> int | None:
            self.calls.append(lane.firing.number)
            return lane.raise_("Middle", port).value

        @lane.on("Middle")
        def once(word: int) -> int:
            lane.unbind("Middle", "once")
            lane.bind("Middle", lambda word: 7, name="later")
            with self.assertRaises(codzvregi.Downward):
                lane.raise_("Low", b"", 1)
            with self.assertRaises(codzvregi.Shared):
                lane.renew()
            self.assertEqual(lane.raise_("High", b"").kind, Kind.NO_HANDLER)
            return word + 1

        self.assertEqual([lane.raise_("Low", b"", 41).value for _ in range(2)], [42, 7])
        self.assertEqual(self.calls, [1, 1])
        self.assertEqual(lane._functions.entries.keys(), {1, 4})

    def test_replacing_from_within(self) -> None:
        lane = self.lane

        def first(word: int) -> int:
            lane.rebind("Middle", "it", second)
            return 1

        def second(word: int) -> int:
            return 2

        lane.bind("Middle", first, name="it")
        lane.bind("Middle", lambda word: None, name="other")
        self.assertEqual([lane.raise_("Middle", 1).value for _ in range(3)], [1, 2, 2])
        lane.bind_default("Middle", lambda word: 9)
        for name in ("it", "other"):
            lane.unbind("Middle", name)
        self.assertEqual(lane.raise_("Middle", 1)[:2], (Kind.DEFAULT_VALUE, 9))
        lane.bind_default("Middle")
        self.assertEqual(lane.raise_("Middle", 1).kind, Kind.NO_HANDLER)

    def test_outcomes_acts_and_steps(self) -> None:
        lane, steps = self.lane, list[codzvregi.Step]()
        lane.watch(steps.append)
        lane.bind("Low", handler="up", guard=lambda data, port: port == 1, name="up")
        lane.bind("Middle", lambda word: Outcome.AS_DECLARED, handler="add", filter=True)
        lane.bind("Middle", lambda word: Outcome.PASS if word > 2 else lane.send("out0", b"two"))
        lane.bind("Middle", lambda word: self.calls.append(word))
        lane.raise_("Low", b"data", 1)
        kinds = (StepKind.RUN, StepKind.SEND, StepKind.UP, StepKind.RUN, StepKind.RESULT)
        self.assertEqual([step.kind for step in steps][: len(kinds)], list(kinds))
        self.assertEqual([step.data for step in steps if step.kind is StepKind.SEND], [b"data", b"two"])
        self.assertEqual((steps[-1].kind, steps[-1].answer, steps[-1].value), (StepKind.BACK, Kind.VALUE, 2))
        self.assertEqual(self.calls, [2])
        self.assertEqual(lane.raise_("Low", b"", 2).kind, Kind.NO_HANDLER)

    def test_exceptions_abandon(self) -> None:
        lane = self.lane

        @lane.on("Low")
        def low(data: bytes, port: int) -> int:
            try:
                lane.raise_("Middle", port)
            except ZeroDivisionError:
                self.calls.append("caught")
            return 1

        lane.bind("Middle", lambda word: 1 // (word - 1))
        with self.assertRaises(codzvregi.Abandoned):
            lane.raise_("Low", b"", 1)
        self.assertEqual((self.calls, lane.is_raising), (["caught"], False))
        self.assertEqual(lane.raise_("Low", b"", 2).value, 1)
        with self.assertRaises(ZeroDivisionError):
            lane.raise_("Middle", 1)

    def test_what_may_not_be_given(self) -> None:
        lane = self.lane
        lane.bind("Plain", lambda word: 1, name="result")
        with self.assertRaises(codzvregi.GiftRefused) as told:
            lane.raise_("Plain", 1)
        self.assertEqual((told.exception.why, told.exception.binding), (2, 1))
        lane.bind("Middle", lambda word: (word + 1,))
        with self.assertRaisesRegex(codzvregi.GiftRefused, "only a filter"):
            lane.raise_("Middle", 1)
        lane.bind("Low", lambda data, port: (data, port + 1), filter=True)
        with self.assertRaisesRegex(codzvregi.GiftRefused, "may not be"):
            lane.raise_("Low", b"", 1)
        lane.bind("High", lambda data: "text")
        with self.assertRaises(TypeError):
            lane.raise_("High", b"")
        wrong: list[tuple[tuple[Any, ...], type[Exception]]] = [((2**64,), ValueError), (("text",), TypeError)]
        for args, why in wrong:
            with self.assertRaises(why):
                lane.raise_("Middle", *args)
        self.assertEqual(lane.raise_("Middle").kind, Kind.WRONG_ARGUMENTS)
        self.assertEqual(lane.raise_("Middle", *range(9)).kind, Kind.WRONG_ARGUMENTS)
        self.assertEqual(lane.raise_(9).kind, Kind.UNKNOWN_EVENT)
        with self.assertRaises(codzvregi.NoName):
            lane.raise_("None")

    def test_jobs(self) -> None:
        lane = self.lane
        lane.bind("Plain", self.calls.append, apart=True)
        lane.bind("Plain", lambda word: lane.raise_("High", b"j"), apart=True, when="small")
        lane.bind("High", self.calls.append)
        self.assertEqual(lane.raise_("Plain", 5).kind, Kind.DONE)
        self.assertEqual(self.calls, [])
        self.assertEqual((lane.run_jobs(), self.calls, lane.run_jobs()), (2, [5, b"j"], 0))

    def test_closing_within(self) -> None:
        self.lane.bind("Plain", lambda word: self.lane.close())
        with self.assertRaises(codzvregi.Abandoned):
            self.lane.raise_("Plain", 1)
        with self.assertRaises(codzvregi.Closed):
            self.lane.raise_("Plain", 1)

    def test_renewal(self) -> None:
        lane = self.lane
        lane.bind("Plain", lambda word: self.calls.append("gone"), name="gone")
        lane.bind("Plain", lambda word: self.calls.append("stays"), name="stays")
        lane.bind_default("High", lambda data: self.calls.append("default"))
        lane.unbind("Plain", "gone")
        lane.renew()
        self.assertEqual(lane.binding("stays"), 1)
        lane.raise_("Plain", 1)
        lane.raise_("High", b"")
        self.assertEqual(self.calls, ["stays", "default"])

    def test_refusals(self) -> None:
        lane = self.lane
        kept = Event("w", owner="net", rules=("0 255 install any all deny",))
        ruled = LIBRARY.open(codzvregi.Script({"Kept": kept}, modules=("net", "app")))
        with self.assertRaises(codzvregi.Refused) as told:
            ruled.bind("Kept", lambda word: None, module="app")
        self.assertEqual((told.exception.refusal.name, told.exception.rule), ("DENIED", 1))
        ruled.close()
        lane.bind("Plain", lambda word: None, name="a")
        lane.bind("Plain", lambda word: None, name="b", after=["a"])
        with self.assertRaises(codzvregi.Refused) as told:
            lane.bind("Plain", lambda word: None, before=["a"], after=["b"])
        self.assertEqual(told.exception.cycle, (1, 2, 3))
        with self.assertRaisesRegex(codzvregi.BadScript, "line 2 is bad: cause 7, "):
            LIBRARY.open({"Wrong": "x"})
        with self.assertRaises(codzvregi.NoName):
            lane.bind("Plain", module="none")

    def test_spent(self) -> None:
        lane = LIBRARY.open({f"E{at}": "w" for at in range(64)})
        for at in range(63):
            for _ in range(2):
                lane.bind(at, lambda word, up=at + 1: lane.raise_(up, word) and None)
        with self.assertRaises(codzvregi.Spent):
            lane.raise_("E0", 1)
        lane.close()

    def test_threads(self) -> None:
        """Eight seats bind, raise and unbind; each function runs on the thread that raises."""
        first = LIBRARY.open({"E": "w:w", "F": "w:w"}, 8)
        seats = [first, *(first.seat(at) for at in range(1, 8))]
        failed: list[BaseException] = []

        def work(seat: codzvregi.Host) -> None:
            try:
                me = threading.get_ident()

                def here(word: int) -> int | None:
                    return seat.number if threading.get_ident() == me else None

                seat.bind("E", here, name=f"of {seat.number}")
                for word in range(100):
                    seat.raise_("E", word)
                    seat.bind("F", lambda word: word, name=f"f {seat.number}")
                    assert seat.raise_("F", word).value == word
                    seat.unbind("F", f"f {seat.number}")
            except BaseException as why:
                failed.append(why)

        threads = [threading.Thread(target=work, args=(seat,)) for seat in seats]
        for thread in threads:
            thread.start()
        for thread in threads:
            thread.join()
        self.assertEqual(failed, [])
        self.assertEqual(first.raise_("F", 1).kind, Kind.NO_HANDLER)
        for seat in reversed(seats):
            seat.close()


if __name__ == "__main__":
    unittest.main()
