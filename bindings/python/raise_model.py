"""An open raise as its definition has it (crates/spin_host/specs/OpenRaises.antt), over lists, for test_raises.py: the
firings of a raise on the bindings of one place, what each may come to, and the raises within it."""

from collections.abc import Iterable, Mapping, Sequence
from dataclasses import dataclass, field, replace
from typing import Any

PLAIN, FILTER, ASYNC = range(3)
FREE, FIRST, LAST = range(3)
MOST = 4096

# What an argument is, what is given, and the number of an error with what is told besides.
Value = int | bytes
Gift = tuple[int, int, Value]
Told = tuple[int, int]
Step = tuple[int, ...]
Thing = tuple[Any, ...]


@dataclass(frozen=True)
class Handler:
    """Its steps: ("result", index, plus), ("set", index, plus), ("send", index), ("up", event, index)."""

    steps: tuple[Thing, ...] = ()


@dataclass(frozen=True)
class Binding:
    number: int
    handler: int
    guard: int
    place: int
    mode: int


@dataclass(frozen=True)
class Event:
    """Its parameters, as letters; whether it gives a result; whether results are added; its bindings in order and its
    default."""

    params: str
    gives: bool
    adds: bool
    bindings: tuple[Binding, ...] = ()
    default: int = 0

    def fits(self, args: Sequence[Value]) -> bool:
        kinds = "".join("w" if isinstance(arg, int) else "b" for arg in args)
        return kinds == self.params.lower()


def in_order(bindings: Iterable[Binding]) -> tuple[Binding, ...]:
    """Those that are first, those that are free, those that are last, each by their numbers."""
    return tuple(sorted(bindings, key=lambda it: ((FIRST, FREE, LAST).index(it.place), it.number)))


@dataclass
class Frame:
    """One raise: how far it has come, what is due, and the raises upwards that are still to be opened."""

    event: int
    args: list[Any]
    by_act: bool
    rest: list[Binding]
    fired: bool = False
    results: list[int] = field(default_factory=list)
    by_default: tuple[int, ...] | None = None
    asked: bool = False
    due: Binding | None = None
    ups: list[tuple[int, list[Any]]] = field(default_factory=list)


class Model:
    """A hub with one lane, and the raise that is open on it, if one is: the innermost frame last."""

    def __init__(
        self, events: Iterable[Event], handlers: Mapping[int, Handler], guards: Mapping[int, tuple[int, int]]
    ) -> None:
        self.events, self.handlers, self.guards = list(events), handlers, guards
        self.place, self.started = 0, 0
        self.frames: list[Frame] = []
        self.pinned: list[Event] = []
        self.given: list[Thing] = []

    # --- Commands ---

    def command(self, change: tuple[int, Event]) -> None:
        """An accepted command: a change of one event."""
        event, to = change
        self.place += 1
        self.events[event] = to

    # --- Opening ---

    def begin(self, event: int, args: Sequence[Value]) -> Told:
        """The number of an error, and the kind."""
        if self.frames:
            return 5, 0
        return self._open(event, args, list(self.events))

    def within(self, event: int, args: Sequence[Value]) -> Told:
        if not self.frames:
            return 4, 0
        if self.frames[-1].due is None:
            return 23, 0
        if event >= len(self.events) or not self.pinned[event].fits(args):
            return self._open(event, args, self.pinned)
        if event <= self.frames[-1].event:
            return 24, 0
        return self._open(event, args, self.pinned)

    def _open(self, event: int, args: Sequence[Value], events: list[Event]) -> Told:
        if event >= len(events):
            return 22, 5
        if not events[event].fits(args):
            return 22, 6
        if not self.frames:
            self.started, self.pinned, self.given = 0, events, []
        self.frames.append(Frame(event, list(args), False, list(events[event].bindings)))
        return 0, 0

    # --- What comes next ---

    def next(self) -> tuple[int, Step]:
        """What spin_next tells: a number, and a step without its length."""
        if not self.frames:
            return 4, (0, 0, 0, 0, 0)
        self.given = []
        frame = self.frames[-1]
        if frame.ups:
            event, args = frame.ups.pop(0)
            self.frames.append(Frame(event, args, True, list(self.pinned[event].bindings)))
            return 0, (4, event, 0, 0, 0)
        if frame.due is not None:
            return 0, self._told(frame, frame.due)
        due = self._find(frame)
        if due is None:
            return 0, self._end()
        if self.started == MOST:
            return 0, (9, 0, 0, 0, 0)
        self.started += 1
        frame.due = due
        return 0, self._told(frame, due)

    @staticmethod
    def _told(frame: Frame, due: Binding) -> Step:
        return 1, frame.event, due.number, due.mode, due.handler

    def _find(self, frame: Frame) -> Binding | None:
        """The first binding left whose guard holds on the arguments as they stand, or the default."""
        for at, binding in enumerate(frame.rest):
            if self._holds(binding.guard, frame.args):
                frame.rest = frame.rest[at:]
                return binding
        frame.rest = []
        default = self.pinned[frame.event].default
        return Binding(0, default, 0, FREE, PLAIN) if default and not frame.fired and not frame.asked else None

    def _holds(self, guard: int, args: Sequence[Any]) -> bool:
        if not guard:
            return True
        index, below = self.guards[guard]
        return bool(args[index] < below)

    def _end(self) -> Step:
        frame = self.frames.pop()
        event = self.pinned[frame.event]
        if frame.by_default is not None:
            answer = (3, frame.by_default[-1]) if frame.by_default else (4, 0)
        elif not frame.fired:
            answer = 0, 0
        elif not frame.results:
            answer = 1, 0
        else:
            answer = 2, sum(frame.results) % 2**64 if event.adds else frame.results[-1]
        kind = 5 if frame.by_act else 8
        return kind, 0, 0 if frame.by_act else len(self.frames), *answer

    # --- Answers ---

    def do(self) -> Told:
        """The number of an error, and how many things were given."""
        if not self.frames:
            return 4, 0
        frame = self.frames[-1]
        due = frame.due
        if due is None:
            return 23, 0
        if due.mode == ASYNC:
            return 0, self._settle(due, [], [("job", due.number)])
        given: list[Thing] = [("run", due.number)]
        for kind, *how in self.handlers[due.handler].steps:
            if kind == "result":
                given.append(("result", (frame.args[how[0]] + how[1]) % 2**64))
            elif kind == "set":
                frame.args[how[0]] = (frame.args[how[0]] + how[1]) % 2**64
            elif kind == "send":
                given.append(("send", 0, frame.args[how[0]]))
            else:
                given.append(("up", how[0], [frame.args[how[1]]]))
                frame.ups.append((how[0], [frame.args[how[1]]]))
        return 0, self._settle(due, [it[1] for it in given if it[0] == "result"], given)

    def gave(self, gifts: Sequence[Gift]) -> Told:
        """Gifts are (kind, index, value), as the library has them."""
        if not self.frames:
            return 4, 0
        frame = self.frames[-1]
        if any(kind > 3 or kind and index > 255 for kind, index, _ in gifts):
            return 12, 0
        due = frame.due
        if due is None:
            return 23, 0
        why = self._gift_fault(self.pinned[frame.event], due.mode, gifts)
        if why:
            return 25, why
        if due.mode == ASYNC:
            return 0, self._settle(due, [], [("job", due.number)])
        given: list[Thing] = [("run", due.number)]
        for kind, index, value in gifts:
            if kind == 0:
                given.append(("result", value))
            elif kind == 3:
                given.append(("send", index, value))
            else:
                frame.args[index] = value
        return 0, self._settle(due, [it[1] for it in given if it[0] == "result"], given)

    @staticmethod
    def _gift_fault(event: Event, mode: int, gifts: Sequence[Gift]) -> int:
        changes = [gift for gift in gifts if gift[0] in (1, 2)]
        if mode == ASYNC and gifts:
            return 1
        if not event.gives and any(kind == 0 for kind, _, _ in gifts):
            return 2
        if mode != FILTER and changes:
            return 3
        if any(index >= len(event.params) for _, index, _ in changes):
            return 4
        if any((event.params[index].lower() == "w") != (kind == 1) for kind, index, _ in changes):
            return 5
        return 6 if any(event.params[index].islower() for _, index, _ in changes) else 0

    def _settle(self, due: Binding, results: list[int], given: list[Thing]) -> int:
        """The firing is answered, and gave this, to which an open raise appends until what comes next is asked."""
        frame = self.frames[-1]
        if due.number == 0:
            frame.by_default, frame.asked = tuple(results), True
        else:
            frame.results += results[-1:]
            frame.rest = frame.rest[1:]
        frame.fired, frame.due = True, None
        self.given += given
        return len(self.given)

    def declined(self) -> int:
        if not self.frames:
            return 4
        frame = self.frames[-1]
        if frame.due is None:
            return 23
        self.started -= 1
        if frame.due.number == 0:
            frame.asked = True
        else:
            frame.rest = frame.rest[1:]
        frame.due = None
        return 0

    def abandon(self) -> int:
        if not self.frames:
            return 4
        self.frames = []
        return 0


def bound(event: Event, binding: Binding) -> Event:
    """The event with a binding more."""
    return replace(event, bindings=in_order((*event.bindings, binding)))


def unbound(event: Event, number: int) -> Event:
    """The event without a binding."""
    return replace(event, bindings=tuple(it for it in event.bindings if it.number != number))
