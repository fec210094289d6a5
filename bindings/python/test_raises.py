"""Open raises, call by call, against a model of their definition; and functions of the host."""

import ctypes
import os
import random
import unittest
from collections.abc import Sequence
from typing import Any

import raise_model as model
from raise_model import Binding, Event, Gift, Handler, Model, Step, Thing, Told, Value

import codzvregi
from codzvregi import Mode, Op, Place
from codzvregi._calls import SpinAnswer, SpinArg, SpinRaising, SpinStep

LIBRARY = codzvregi.Library(os.environ.get("SPIN_LIBRARY"))
SEQUENCES = int(os.environ.get("SPIN_SEQUENCES", "2000"))

EVENTS = [Event("Wb", True, True), Event("W", True, False), Event("wB", False, False), Event("W", True, True)]
SCRIPT = b"""spin 3
event 0 0 Wb:w fold + a0 a1
event 1 0 W:w last
event 2 0 wB last
event 3 0 W:w fold + a0 a1
endpoint 0 out0
handler 1 Wb:w
handler 2 Wb:w result + a0 1 result + a0 2
handler 3 Wb:w set 0 + a0 3 result + a0 0
handler 4 Wb:w send 0 1 0 up 1 1 w a0
handler 5 W:w
handler 6 W:w result + a0 7
handler 7 W:w up 3 1 w a0
handler 8 wB
handler 9 wB send 0 1 0
guard 1 wb < a0 40
guard 2 w < a0 40
"""
HANDLERS = {
    1: Handler(), 2: Handler((("result", 0, 1), ("result", 0, 2))), 3: Handler((("set", 0, 3), ("result", 0, 0))),
    4: Handler((("send", 1), ("up", 1, 0))), 5: Handler(), 6: Handler((("result", 0, 7),)), 7: Handler((("up", 3, 0),)),
    8: Handler(), 9: Handler((("send", 1),)),
}
GUARDS = {1: (0, 40), 2: (0, 40)}
OF_EVENT = [(1, 2, 3, 4), (5, 6, 7), (8, 9), (5, 6)]
GUARD_OF = [(0, 0, 1), (0, 0, 2), (0, 0, 1), (0, 0, 2)]


class Called:
    """The library's calls, on one lane and one raising handle, as the model has them."""

    def __init__(self) -> None:
        self.lane = LIBRARY.open(SCRIPT)
        self.calls, self.held = LIBRARY._calls, SpinRaising(None)
        self.at, self.answer = ctypes.byref(self.held), SpinAnswer()

    @staticmethod
    def laid(args: Sequence[Value]) -> tuple[bytes, Any]:
        data, laid = b"", list[SpinArg]()
        for arg in args:
            laid.append(SpinArg(0, arg, 0) if isinstance(arg, int) else SpinArg(1, len(data), len(arg)))
            data += b"" if isinstance(arg, int) else arg
        return data, (SpinArg * len(laid))(*laid)

    def begin(self, event: int, args: Sequence[Value]) -> Told:
        data, laid = self.laid(args)
        words = self.lane._at, self.at, data, len(data), laid, len(args), event, ctypes.byref(self.answer)
        return self.calls.spin_begin(*words), self.answer.kind

    def within(self, event: int, args: Sequence[Value]) -> Told:
        data, laid = self.laid(args)
        words = self.at, event, data, len(data), laid, len(args), ctypes.byref(self.answer)
        return self.calls.spin_within(*words), self.answer.kind

    def next(self) -> tuple[int, Step]:
        step = SpinStep()
        number = self.calls.spin_next(self.at, ctypes.byref(step))
        return number, (step.kind, step.event, step.number, step.answer, step.value)

    def do(self) -> Told:
        number = self.calls.spin_do(self.at, ctypes.byref(self.answer))
        return number, self.answer.steps

    def gave(self, gifts: Sequence[Gift]) -> Told:
        data, packed = b"", list[int]()
        for kind, index, value in gifts:
            packed += (kind, index, *((value, 0) if isinstance(value, int) else (len(data), len(value))))
            data += b"" if isinstance(value, int) else value
        given = (ctypes.c_uint64 * (len(packed) + 1))(*packed)
        words = self.at, data, len(data), given, len(gifts), ctypes.byref(self.answer)
        number = self.calls.spin_gave(*words)
        return number, self.answer.kind if number == 25 else self.answer.steps

    def declined(self) -> int:
        return int(self.calls.spin_declined(self.at))

    def abandon(self) -> int:
        return int(self.calls.spin_abandon(self.at))

    def args(self) -> tuple[int, list[Value]]:
        """All arguments, and the number behind them."""
        args = list[Value]()
        while True:
            arg, buffer = SpinArg(), ctypes.create_string_buffer(64)
            number = self.calls.spin_argument(self.at, len(args), buffer, 64, ctypes.byref(arg))
            if number:
                return number, args
            args.append(arg.at if arg.kind == 0 else buffer.raw[: arg.length])

    def given(self) -> tuple[int, list[Thing]]:
        """What the last answer gave."""
        told = list[Thing]()
        while True:
            step, length = SpinStep(), ctypes.c_uint64()
            number = self.calls.spin_given(self.at, len(told), ctypes.byref(step))
            if number:
                return number, told
            buffer = ctypes.create_string_buffer(64)
            self.calls.spin_given_bytes(self.at, len(told), buffer, 64, ctypes.byref(length))
            kinds: dict[int, Thing] = {
                1: ("run", step.number), 2: ("result", step.value), 4: ("up", step.event), 7: ("job", step.number),
                3: ("send", step.number, buffer.raw[: length.value]),
            }
            told.append(kinds[step.kind])

    def close(self) -> None:
        self.calls.spin_forget(self.at)
        self.lane.close()


def random_args(chance: random.Random, event: int) -> list[Value]:
    """Arguments that mostly fit an event."""
    kinds = EVENTS[event % 4].params.lower()
    if chance.random() < 0.1:
        kinds = chance.choice(("", "w", "wb", "bw", "wwwwwwwww"))
    return [
        chance.randrange(60) if kind == "w" else bytes(chance.choices(b"abc", k=chance.randrange(4))) for kind in kinds
    ]


def random_gift(chance: random.Random) -> Gift:
    """A thing that is given, right or wrong."""
    kind = chance.choice((0, 0, 1, 2, 3, 3)) if chance.random() < 0.98 else 4
    index = 0 if kind == 0 else chance.choice((0, 0, 1, 1, 2, 7, 300 if chance.random() < 0.1 else 1))
    return kind, index, chance.randrange(90) if kind in (0, 1) else bytes(chance.choices(b"xyz", k=chance.randrange(4)))


class Differential(unittest.TestCase):
    """Random sequences of calls: each tells what the model does."""

    def command(self, chance: random.Random, called: Called, whole: Model) -> None:
        """A command, mostly one that is accepted."""
        event = chance.randrange(4)
        now, what = whole.events[event], chance.random()
        if what < 0.7:
            handler, guard = chance.choice(OF_EVENT[event]), chance.choice(GUARD_OF[event])
            mode = Mode.FILTER if handler == 3 else chance.choice((Mode.PLAIN, Mode.PLAIN, Mode.FILTER, Mode.ASYNC))
            place = chance.choice((Place.FREE, Place.FREE, Place.FIRST, Place.LAST))
            number = called.lane.command(event, Op.INSTALL, handler=handler, guard=guard, mode=mode, place=place)
            self.assertEqual(number, whole.place + 1)
            whole.command((event, model.bound(now, Binding(number, handler, guard, place, mode))))
        elif what < 0.85 and now.bindings:
            number = chance.choice(now.bindings).number
            called.lane.command(event, Op.REMOVE, target=number)
            whole.command((event, model.unbound(now, number)))
        elif event != 0:
            handler = chance.choice(OF_EVENT[event])
            called.lane.command(event, Op.SET_DEFAULT, handler=handler)
            whole.command((event, model.replace(now, default=handler)))

    def one_call(self, chance: random.Random, called: Called, whole: Model) -> None:
        """One call, of both."""
        event = chance.choice((0, 0, 0, 1, 2, 3, 4 if chance.random() < 0.1 else 1))
        args, gifts = random_args(chance, event), [random_gift(chance) for _ in range(chance.choice((0, 1, 1, 2)))]
        weights: tuple[float, ...] = (3, 8, 4, 5, 2, 3, 2, 0.3)
        if chance.random() < 0.8:  # what may come next
            is_due = bool(whole.frames) and whole.frames[-1].due is not None
            if is_due:
                weights = 0, 0, 4, 5, 2, 3, 2, 0
            else:
                weights = (0, 1, 0, 0, 0, 0, 0.2, 0) if whole.frames else (1, 0, 0, 0, 0, 0, 0, 0)
        what = chance.choices(range(8), weights)[0]
        if what == 0:
            self.assertEqual(called.begin(event, args), whole.begin(event, args))
        elif what == 1:
            self.assertEqual(called.next(), whole.next())
        elif what == 2:
            self.assertEqual(called.do(), whole.do())
        elif what == 3:
            self.assertEqual(called.gave(gifts), whole.gave(gifts))
        elif what == 4:
            self.assertEqual(called.declined(), whole.declined())
        elif what == 5:
            self.assertEqual(called.within(event, args), whole.within(event, args))
        elif what == 6:
            self.command(chance, called, whole)
        else:
            self.assertEqual(called.abandon(), whole.abandon())

    def test_sequences(self) -> None:
        """Some begin over a hub with bindings; all see commands come between."""
        for seed in range(SEQUENCES):
            chance, called, whole = random.Random(seed), Called(), Model(EVENTS, HANDLERS, GUARDS)
            with self.subTest(seed=seed):
                for _ in range(chance.randrange(12)):
                    self.command(chance, called, whole)
                for _ in range(30):
                    self.one_call(chance, called, whole)
                    is_open = bool(whole.frames)
                    self.assertEqual(called.args(), (12, whole.frames[-1].args) if is_open else (4, []))
                    told = [it[:2] if it[0] == "up" else it for it in whole.given] if is_open else []
                    self.assertEqual(called.given(), (10 if is_open else 4, told))
            called.close()


if __name__ == "__main__":
    unittest.main()
