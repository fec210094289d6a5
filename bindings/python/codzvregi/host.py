"""Handlers and guards that are functions of the host's, over the open raises of the library: it says which run, in
which order and on which arguments, and what a raise answers; this module calls them. Of it nothing is proved."""

import ctypes
from collections.abc import Callable, Iterable, Iterator
from enum import Enum
from typing import NamedTuple, TypeVar

from codzvregi import _raising, faults
from codzvregi._calls import Error, SpinAnswer
from codzvregi._raising import END, GIVES_RESULT, RUN, SPENT, UP, Gift, Raising, Step, Told, Turn, Value
from codzvregi.commands import Mode, Op, Place
from codzvregi.functions import Entry, Functions, Guard, Handler
from codzvregi.lanes import Lane, step_of
from codzvregi.names import Declared, Script, number_in, script_of
from codzvregi.replies import KINDS, Kind, make_tuple
from codzvregi.replies import Step as ToldStep

# The numbers of modes.
FILTER, ASYNC = int(Mode.FILTER), int(Mode.ASYNC)

_Function = TypeVar("_Function", bound=Handler)

# What is named where a binding or a default is meant.
Which = int | str


class Outcome(Enum):
    """What a handler may answer besides what it gives: PASS is as if its guard hadn't held, and AS_DECLARED has the
    handler's act done as the script declares it."""

    PASS = 1
    AS_DECLARED = 2


class Answer(NamedTuple):
    """What a raise is answered, with the value where it has one, and how many commands were accepted before it."""

    kind: Kind
    value: int | None
    place: int


class Firing(NamedTuple):
    """A firing that is due: the event, the number of the binding, 0 being the default, the handler's and the mode."""

    event: int
    number: int
    handler: int
    mode: Mode


# Those of a function that has given none by a call. Nothing is put into it.
_NO_GIFTS: list[Gift] = []


class _Level:
    """A raise under way: the arguments as they were raised, and as they are known to stand, if they are; how many
    raises upwards of acts are open in it; the place of its bindings, and its firing, as they were told; and what the
    firing's function has given by calls."""

    is_changed, ups = False, 0
    gifts: list[Gift] = _NO_GIFTS

    def __init__(self, args: tuple[Value, ...], told: Turn) -> None:
        self.raised = args
        self.args: tuple[Value, ...] | None = args
        self.place, self.due = told[0], told

    def put(self, gift: Gift) -> None:
        """Keeps what a function gives by a call."""
        self.gifts = [*self.gifts, gift]


class Host(Lane):
    """A seat whose bindings may be functions. A function is called with the arguments of the raise, and what it answers
    is what it gives: None nothing, a number the result, a tuple the arguments for those behind it, of a filter, or an
    Outcome. An exception of it abandons the raise, and goes up. A raise from within a function is one within the raise
    under way, of a greater event, on the same bindings."""

    def __init__(self, calls: ctypes.CDLL, number: int = 0, shared: tuple[Script, Functions] | None = None) -> None:
        super().__init__(calls, number)
        self.script, self._functions = shared or (Script({}), Functions())
        self._functions.seats.append(self)
        self._raising, self.is_raising = Raising(calls, self._lane), False
        self._events: dict[str | int, int] = dict(self.script.events.items())
        self._events.update((number, number) for number in self.script.events.values())
        # the handler without steps of event 0; that of event k is k more, and no other is that of any
        self._own = self.script.own_handler(0) if self.script.events else -(2**8)
        self._level: _Level | None = None
        self._left: list[tuple[Handler, tuple[Value, ...]]] = []
        self._watch: Callable[[ToldStep], object] | None = None

    @classmethod
    def open_declared(cls, calls: ctypes.CDLL, declared: Declared, lanes: int) -> "Host":
        """The opener of a hub over a script, or what it declares by names."""
        text, script = script_of(declared)
        host = cls(calls, 0, (script, Functions()))
        host._ask(calls.spin_open_lanes, text, len(text), lanes, host._at)
        return host

    def seat(self, number: int) -> "Host":
        """The seat of another lane, as of Lane. The functions of bindings are those of all seats."""
        if not 0 <= number < 2**8:
            raise faults.NoLane("there is no such lane")
        seat = Host(self._calls, number, (self.script, self._functions))
        self._tell(self._calls.spin_seat(self._at, number, seat._at))
        return seat

    def __enter__(self) -> "Host":
        return self

    def close(self) -> None:
        """Closes it; a raise that is open on it is abandoned, and who raised is told Closed."""
        self._raising.forget()
        super().close()
        if self in self._functions.seats:
            self._functions.seats.remove(self)

    def renew(self) -> None:
        """Renews its hub, as of Lane, and gives the functions the numbers that their bindings have now."""
        with self._functions.lock:
            super().renew()
            self._functions.renumber(self._numbers_before())

    def _numbers_before(self) -> Iterator[int]:
        """The numbers that the live bindings had before the last renewal."""
        number = 0
        while True:
            number += 1
            try:
                before = self.number_before(number)
            except faults.NoBinding:
                return
            yield before

    def watch(self, function: Callable[[ToldStep], object] | None) -> None:
        """Has this function told each step of raises: what acts and functions give and send, and what is raised
        upwards."""
        self._watch = function

    def binding(self, which: Which) -> int:
        """The number of a binding by its name."""
        return number_in(self._functions.names, which, "binding")

    def on(
        self, event: str | int, *, guard: Guard | str | int | None = None, when: str | int = 0, name: str | None = None,
        first: bool = False, last: bool = False, before: Iterable[Which] = (), after: Iterable[Which] = (),
        filter: bool = False, apart: bool = False, module: str | int = 0,
    ) -> Callable[[_Function], _Function]:
        """Binds the function that stands below it to the event, as bind does."""

        def bound(function: _Function) -> _Function:
            self.bind(
                event, function, guard=guard, when=when, name=name, first=first, last=last, before=before, after=after,
                filter=filter, apart=apart, module=module,
            )
            return function

        return bound

    def bind(
        self, event: str | int, function: Handler | None = None, *, handler: str | int = 0,
        guard: Guard | str | int | None = None, when: str | int = 0, name: str | None = None, first: bool = False,
        last: bool = False, before: Iterable[Which] = (), after: Iterable[Which] = (), filter: bool = False,
        apart: bool = False, module: str | int = 0,
    ) -> int:
        """Binds a function to an event, for a module, and answers the binding's number. `guard` is a function that is
        asked first, with the arguments, or a guard of the script's; `when` is one of the script's besides. `handler`
        is one of the script's, whose act is done where there is no function; else it is the one without steps. It
        goes first, last, before those bindings and after these. A filter may change arguments. Apart it is left to a
        job, for run_jobs. The binding's name is `name`, or the function's. Refused says why it isn't bound."""
        number = number_in(self.script.events, event, "event")
        called, coded = (guard, when) if callable(guard) else (None, when if guard is None else guard)
        place = Place.FIRST if first else Place.LAST if last else Place.FREE
        with self._functions.lock:
            bound = self.command(
                number, Op.INSTALL, requester=number_in(self.script.modules, module, "module"),
                handler=self._handler(number, handler), guard=number_in(self.script.guards, coded, "guard"),
                place=place, mode=Mode.FILTER if filter else Mode.ASYNC if apart else Mode.PLAIN,
                before=tuple(map(self.binding, before)), after=tuple(map(self.binding, after)),
            )
            named = name if name is not None else getattr(function, "__name__", None)
            self._functions.enter(bound, Entry(bound, function, called, named))
        return bound

    def _handler(self, event: int, handler: str | int) -> int:
        """The number of a handler; that of the event's own, where it is 0 and the script has names."""
        number = number_in(self.script.handlers, handler, "handler")
        return self.script.own_handler(event) if number == 0 and self.script.events else number

    def unbind(self, event: str | int, which: Which, *, module: str | int = 0) -> int:
        """Removes a binding, by its number or name. A raise under way still calls its function."""
        number = self.binding(which)
        with self._functions.lock:
            requester = number_in(self.script.modules, module, "module")
            on = number_in(self.script.events, event, "event")
            place = self.command(on, Op.REMOVE, requester=requester, target=number)
            self._functions.remove(number, place)
        return place

    def rebind(
        self, event: str | int, which: Which, function: Handler | None = None, *, handler: str | int = 0,
        guard: Guard | str | int | None = None, when: str | int = 0, module: str | int = 0,
    ) -> int:
        """Gives a binding another function, handler and guard, as of bind. A raise under way still calls the one
        before."""
        number, target = number_in(self.script.events, event, "event"), self.binding(which)
        called, coded = (guard, when) if callable(guard) else (None, when if guard is None else guard)
        with self._functions.lock:
            place = self.command(
                number, Op.REPLACE, requester=number_in(self.script.modules, module, "module"), target=target,
                handler=self._handler(number, handler), guard=number_in(self.script.guards, coded, "guard"),
            )
            name = next((name for name, key in self._functions.names.items() if key == target), None)
            self._functions.enter(target, Entry(place, function, called, name))
            self._functions.gone.append(target)
        self._functions.sweep()
        return place

    def bind_default(
        self, event: str | int, function: Handler | None = None, *, handler: str | int = 0, module: str | int = 0
    ) -> int:
        """Sets the event's default, a function or a handler of the script's; or takes it away, where neither is
        given."""
        number, key = number_in(self.script.events, event, "event"), -1 - number_in(self.script.events, event, "event")
        requester = number_in(self.script.modules, module, "module")
        with self._functions.lock:
            if function is None and handler == 0:
                place = self.command(number, Op.NO_DEFAULT, requester=requester)
            else:
                place = self.command(
                    number, Op.SET_DEFAULT, requester=requester, handler=self._handler(number, handler)
                )
            self._functions.enter(key, Entry(place, function, None))
            self._functions.gone.append(key)
        self._functions.sweep()
        return place

    @property
    def firing(self) -> Firing:
        """The firing whose function is called."""
        _, _, _, event, number, mode, handler = self._within().due
        return Firing(event, number, handler, Mode(mode))

    def _within(self) -> _Level:
        """The raise under way."""
        if self._level is None:
            raise faults.NotDue("no function is called")
        return self._level

    def give(self, word: int) -> None:
        """Gives a result, from within a function. The last one counts, and that which the function answers is the
        last."""
        self._within().put((_raising.GIVES_RESULT, 0, word))

    def change(self, index: int, to: Value) -> None:
        """Changes an argument for those behind, from within a filter."""
        kind = _raising.GIVES_WORD if isinstance(to, int) else _raising.GIVES_BYTES
        self._within().put((kind, index, to))

    def send(self, endpoint: str | int, data: bytes) -> None:
        """Sends bytes to an endpoint, from within a function: a step, which watch is told."""
        number = number_in(self.script.endpoints, endpoint, "endpoint")
        self._within().put((_raising.GIVES_SEND, number, data))

    def raise_(self, event: str | int, *args: Value) -> Answer:
        """Raises an event on these arguments, words and bytes, and calls what is bound. From within a function it is a
        raise within the one under way. Why it is abandoned is told by an exception: that of a function, GiftRefused,
        Spent, or NoMemory; Downward says that an event isn't raised within one that is no less, and changes nothing."""
        number = self._events.get(event)
        if number is None or len(args) > 8:
            number = self._event(event)
            if len(args) > 8:  # no event takes so many, so nothing runs
                told_so = self.raise_event(number, *args)
                return Answer(told_so.kind, None, told_so.place)
        around, raising = self._level, self._raising
        self.is_raising = True
        try:
            error, told = raising.begin(number, args, around is not None)
            if error and error != Error.NO_MEMORY:
                return self._not_begun(error, told)
            self._level = level = _Level(args, told)
            return self._go_through(level, error, told)
        except BaseException:
            if self._level is not around:
                raising.abandon()
            raise
        finally:
            self._level = around
            if around is None:
                self.is_raising = False
                if self._functions.gone:
                    self._functions.sweep()

    def _not_begun(self, error: int, told: Turn) -> Answer:
        """What a raise answers that isn't begun."""
        if error == Error.NOT_RAISED:
            return Answer(KINDS[told[1]], None, told[0])
        if error == Error.CLOSED and self._level is None:
            raise faults.Closed("the lane is closed")
        raise self._fault_of(error)

    def _event(self, event: str | int) -> int:
        """The number of an event."""
        number = number_in(self.script.events, event, "event")
        if not 0 <= number < 2**8:
            raise ValueError("an event is a number below 256")
        return number

    def _fault_of(self, number: int) -> faults.Fault:
        """The fault that an open raise's call tells."""
        if number == Error.GIFT_REFUSED:
            return faults.GiftRefused(self._raising.kind(), self._within().due[4])
        if number == Error.CLOSED:
            return faults.Abandoned("the raise was abandoned")
        return self._fault(number, SpinAnswer())

    def _go_through(self, level: _Level, error: int, told: Turn) -> Answer:
        """Goes through the firings of a raise that was begun, to its end."""
        entries, place, raising = self._functions.entries, level.place, self._raising
        while not error:
            _, _, kind, event, number, answer, value = told
            if kind == RUN:
                level.due = told
                entry = entries.get(number or -1 - event)
                if entry is None or entry.since > place or answer or entry.guard or level.args is None:
                    error, told = self._answer(level, self._entry(level, event, number), answer)
                    continue
                given = entry.handler(*level.args) if entry.handler else Outcome.AS_DECLARED
                if given.__class__ is int and not level.gifts and self._watch is None:
                    error, told = raising.gave_result(given)
                elif given is None and value - event == self._own and not level.gifts and self._watch is None:
                    error, told = raising.did()  # to have nothing done gives nothing
                else:
                    error, told = self._take(level, given, answer)
            elif kind == END:
                return make_tuple(Answer, (KINDS[answer], value if answer == 2 or answer == 3 else None, place))
            elif kind == SPENT:
                raise faults.Spent("no more handlers may start")
            else:
                self._turn(level, (kind, event, number, answer, value, 0))
                error, told = raising.next()
        raise self._fault_of(error)

    def _turn(self, level: _Level, step: Step) -> None:
        """A raise upwards that an act asked for begins, or ends: its arguments are others."""
        level.ups += 1 if step[0] == UP else -1
        level.args = level.raised if level.ups == 0 and not level.is_changed else None
        if self._watch is not None:
            self._watch(step_of(Told(*step), b""))

    def _entry(self, level: _Level, event: int, number: int) -> Entry | None:
        """What stands for the binding that is due. Where nothing does, another seat may be about to enter it."""
        functions = self._functions
        entry = functions.find(number or -1 - event, level.place)
        if entry is None and level.due[6] > len(self.script.handlers) and self._events:
            with functions.lock:
                entry = functions.find(number or -1 - event, level.place)
        return entry

    def _answer(self, level: _Level, entry: Entry | None, mode: int) -> tuple[int, Turn]:
        """Answers the firing that is due, by what stands for it, or else its act."""
        if entry is None:
            return self._do(level, mode)
        args = level.args
        if args is None:
            error, args = self._raising.args()
            if error:
                raise self._fault_of(error)
            level.args = args
        if entry.guard is not None and not entry.guard(*args):
            return self._raising.next(self._raising.declined())
        if entry.handler is None:
            return self._do(level, mode)
        if mode == ASYNC:
            self._left.append((entry.handler, args))
            return self._hand_in(level, mode)
        return self._take(level, entry.handler(*args), mode)

    def _take(self, level: _Level, given: object, mode: int) -> tuple[int, Turn]:
        """Takes what a function answered, besides what it gave by calls."""
        if given is Outcome.PASS or given is Outcome.AS_DECLARED:
            level.gifts = _NO_GIFTS
            if given is Outcome.AS_DECLARED:
                return self._do(level, mode)
            return self._raising.next(self._raising.declined())
        if isinstance(given, int):
            level.put((GIVES_RESULT, 0, int(given)))
        elif isinstance(given, tuple):
            self._change_all(level, given)
        elif given is not None:
            raise TypeError(f"a handler answers a number, a tuple of arguments, an Outcome or None, and not {given!r}")
        return self._hand_in(level, mode)

    def _change_all(self, level: _Level, args: tuple[Value, ...]) -> None:
        """Changes the arguments that aren't as they were."""
        before = level.args or ()
        if len(args) != len(before):
            raise TypeError(f"a filter answers as many arguments as there are, {len(before)} and not {len(args)}")
        for index, (old, new) in enumerate(zip(before, args)):
            if old != new:
                self.change(index, new)

    def _hand_in(self, level: _Level, mode: int) -> tuple[int, Turn]:
        """Hands in what a function gave."""
        gifts, level.gifts = level.gifts, _NO_GIFTS
        error = self._raising.gave(gifts)
        return self._after(level, mode if gifts else Mode.PLAIN, error)

    def _do(self, level: _Level, mode: int) -> tuple[int, Turn]:
        """Has the declared act done."""
        if self._watch is None and mode != FILTER:
            return self._raising.did()
        return self._after(level, mode, self._raising.do())

    def _after(self, level: _Level, mode: int, error: int) -> tuple[int, Turn]:
        """What comes after an answer, of which the steps are told. Behind a filter the arguments may be others than
        those that are known."""
        if mode == FILTER:
            level.args = None
            level.is_changed = level.is_changed or level.ups == 0
        if self._watch is not None and not error:
            for index in range(self._raising.steps()):
                failed, step, sent = self._raising.given(index)
                if failed:
                    raise self._fault_of(failed)
                if step[0] != UP:  # that is told when it begins
                    self._watch(step_of(Told(*step), sent))
        return self._raising.next(error)

    def run_jobs(self) -> int:
        """Runs the functions that were left to jobs, in order, with those that are left meanwhile, and answers how
        many. What a job raises is a raise of its own. One that raises an exception is dropped, and the exception goes
        up."""
        if self._level is not None:
            raise faults.NotDue("jobs run after the raise")
        ran = 0
        while self._left:
            function, args = self._left.pop(0)
            function(*args)
            ran += 1
        return ran
