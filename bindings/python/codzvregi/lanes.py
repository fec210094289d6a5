"""The seats of hubs, on which is bound and raised."""

import ctypes
from collections.abc import Callable, Iterable, Iterator, Sequence
from struct import Struct
from struct import error as NoRoom
from types import TracebackType
from typing import Any

from codzvregi import faults
from codzvregi._calls import Error, SpinAnswer, SpinArg, SpinLane, SpinRow, SpinStep
from codzvregi._raising import Told
from codzvregi.commands import Command, Mode, Op, Place, Refusal, Row
from codzvregi.replies import KINDS, Job, Reply, Step, StepKind, make_tuple, value_of
from codzvregi.scripts import cause_text

# What the numbers say that tell nothing more.
_FAULTS: dict[int, tuple[type[faults.Fault], str]] = {
    Error.NO_MEMORY: (faults.NoMemory, "there was no memory"),
    Error.CLOSED: (faults.Closed, "the lane is closed"),
    Error.NO_COMMAND: (faults.NoCommand, "that is no command"),
    Error.FULL: (faults.Full, "the log is full"),
    Error.NO_REPLY: (faults.NoReply, "no reply is kept"),
    Error.NO_STEP: (faults.NoStep, "the reply has no such step"),
    Error.NO_LANE: (faults.NoLane, "there is no such lane"),
    Error.TAKEN: (faults.Taken, "the seat is taken"),
    Error.NO_BINDING: (faults.NoBinding, "no such binding was renewed"),
    Error.SHARED: (faults.Shared, "the hub is shared"),
    Error.NO_JOB: (faults.NoJob, "the reply has no such job"),
    Error.ENDED: (faults.Ended, "the hub was ended"),
    Error.NO_ROW: (faults.NoRow, "the log has no such row"),
    Error.NO_ARGUMENT: (faults.NoArgument, "there is no such argument"),
    Error.NOT_DUE: (faults.NotDue, "no firing waits for its answer"),
    Error.DOWNWARD: (faults.Downward, "only a greater event is raised from within"),
}


# The parts of bindings/c/turns.h's struct for a raise: where the handle lies, the event with its words, of which NoRoom
# says that not all have room, and what is told.
_PLACE, _ANSWER = Struct("=Q"), Struct("=2I2Q")
_WORDS = [Struct(f"=B7x{1 + count}Q").pack_into for count in range(9)]
_AT_EVENT, _AT_ANSWER = 8, 11 * 8
_answer_in = _ANSWER.unpack_from


# How many steps are asked for at once.
_MANY = 64


def fault_of(number: int, answer: SpinAnswer) -> faults.Fault:
    """The fault that a number tells, but what has to be asked for besides."""
    if number == Error.BAD_SCRIPT:
        return faults.BadScript(answer.place, answer.kind)
    if number == Error.REFUSED:
        refusal = Refusal(answer.kind)
        has_rule = refusal in (Refusal.DENIED, Refusal.FORCED_MODE)
        return faults.Refused(refusal, answer.place, answer.value if has_rule else None)
    kind, said = _FAULTS.get(number, (faults.Fault, f"the library answered {number}"))
    return kind(said)


def _given(args: Sequence[int | bytes]) -> "tuple[bytes, ctypes.Array[SpinArg]]":
    """Arguments as they are handed in: all bytes, and what each argument is."""
    data, given = bytearray(), []
    for arg in args:
        given.append(SpinArg(0, arg, 0) if isinstance(arg, int) else SpinArg(1, len(data), len(arg)))
        data += b"" if isinstance(arg, int) else arg
    return bytes(data), (SpinArg * len(given))(*given)


def _want_room(event: int, args: Sequence[int | bytes]) -> None:
    """Raises a ValueError where a number has no room."""
    if not 0 <= event < 2**8 or not all(0 <= arg < 2**64 for arg in args if isinstance(arg, int)):
        raise ValueError("an event is a number below 256, and a word one below 2**64")


def _reply(place: int, number: int, value: int, steps: int) -> Reply:
    """The reply of these numbers."""
    kind = KINDS[number]
    return make_tuple(Reply, (place, kind, value_of(kind, value), steps))


def _reply_of(told: SpinAnswer) -> Reply:
    """The reply that is told."""
    return _reply(told.place, told.kind, told.value, told.steps)


def step_of(told: SpinStep | Told, data: bytes) -> Step:
    """The step that is told, which sends these bytes."""
    kind = StepKind(told.kind)
    answer = KINDS[told.answer] if kind is StepKind.BACK else None
    has_event = kind in (StepKind.RUN, StepKind.UP, StepKind.JOB)
    has_number = kind in (StepKind.RUN, StepKind.SEND, StepKind.DROPPED, StepKind.JOB)
    has_value = kind is StepKind.RESULT or answer is not None and value_of(answer, 1) is not None
    return Step(
        *(kind, told.event if has_event else None, told.number if has_number else None),
        *(answer, told.value if has_value else None, data),
    )


class Lane:
    """A seat of a hub over a script: what the script declares, and the bindings that commands of all its seats made. It
    is closed where a `with` ends, and a seat that was handed out comes home then. Seats of one hub may be used at once,
    each by one thread at a time. The seat of lane 0 is the hub's opener: it hands the others out, renews and ends."""

    def __init__(self, calls: ctypes.CDLL, number: int = 0) -> None:
        self._calls, self._lane, self.number, self._rows = calls, SpinLane(None), number, 0
        self._at = ctypes.byref(self._lane)
        # what a raise of words is handed and tells, by one place, which is handed in for less and needn't be tested
        self._raise_words = calls["codzvregi_raise_words"]
        self._raised = ctypes.create_string_buffer(_AT_ANSWER + _ANSWER.size)
        self._asked = ctypes.byref(self._raised)
        _PLACE.pack_into(self._raised, 0, ctypes.addressof(self._lane))

    @classmethod
    def open(cls, calls: ctypes.CDLL, script: bytes, lanes: int) -> "Lane":
        """The opener of a hub over the script."""
        lane = cls(calls)
        lane._ask(calls.spin_open_lanes, bytes(script), len(script), lanes, lane._at)
        return lane

    def __enter__(self) -> "Lane":
        return self

    def __exit__(self, *_: type[BaseException] | BaseException | TracebackType | None) -> None:
        self.close()

    def _ask(self, call: Callable[..., int], *words: Any) -> SpinAnswer:
        """Makes the call, and answers what it tells; or raises the fault that its number tells."""
        answer = SpinAnswer()
        number = call(*words, ctypes.byref(answer))
        if number:
            raise self._fault(number, answer)
        return answer

    def _tell(self, number: int, answer: SpinAnswer = SpinAnswer()) -> None:
        """Raises the fault that a number tells."""
        if number:
            raise self._fault(number, answer)

    def _fault(self, number: int, answer: SpinAnswer) -> faults.Fault:
        """The fault that a number tells, with the cause's sentence or the cycle."""
        fault = fault_of(number, answer)
        if isinstance(fault, faults.BadScript):
            return faults.BadScript(fault.line, fault.cause, cause_text(self._calls, fault.cause))
        if isinstance(fault, faults.Refused):
            cycle = [self._ask(self._calls.spin_cycle, self._at, at).value for at in range(answer.steps)]
            return faults.Refused(fault.refusal, fault.place, fault.rule, cycle)
        return fault

    def seat(self, number: int) -> "Lane":
        """The seat of another lane, which this one, the hub's opener, hands out where it is at home."""
        if not 0 <= number < 2**8:
            raise faults.NoLane("there is no such lane")
        seat = Lane(self._calls, number)
        self._tell(self._calls.spin_seat(self._at, number, seat._at))
        return seat

    def give_back(self) -> None:
        """Closes it, and its seat comes home, to be handed out again. The opener isn't given back."""
        self._ask(self._calls.spin_return, self._at)

    def gather(self) -> int:
        """Takes the seats in that came home, by the opener, and answers how many are still out."""
        return int(self._ask(self._calls.spin_gather, self._at).value)

    def raise_event(self, event: int, *args: int | bytes) -> Reply:
        """Raises the event with these arguments, words from 0 to 2**64 - 1 and bytes."""
        count = len(args)
        try:
            _WORDS[count](self._raised, _AT_EVENT, event, count, *args)
        except (NoRoom, IndexError):  # not all are words, or they are many
            return self._raise_any(event, args)
        number = self._raise_words(self._asked)
        told = _answer_in(self._raised, _AT_ANSWER)
        if number:
            raise self._fault(number, SpinAnswer(*told))
        return _reply(*told)

    def _raise_any(self, event: int, args: Sequence[int | bytes]) -> Reply:
        """Raises the event with these arguments."""
        _want_room(event, args)
        data, given = _given(args)
        return _reply_of(self._ask(self._calls.spin_raise, self._at, event, data, len(data), given, len(args)))

    def later(self, event: int, *args: int | bytes) -> Reply:
        """Leaves a raise of the event with these arguments to a job, which is the one job of its reply."""
        _want_room(event, args)
        data, given = _given(args)
        return _reply_of(self._ask(self._calls.spin_later, self._at, event, data, len(data), given, len(args)))

    def _step(self, index: int, step: Callable[..., int], send: Callable[..., int]) -> Step:
        """The step that one call tells, and the other the bytes of."""
        told = SpinStep()
        self._tell(step(self._at, index, ctypes.byref(told)))
        return self._sent(told, index, send)

    def _sent(self, told: SpinStep, index: int, send: Callable[..., int]) -> Step:
        """The step that was told, with its bytes, which a call tells."""
        if not told.length:
            return step_of(told, b"")
        buffer, length = ctypes.create_string_buffer(told.length), ctypes.c_uint64()
        self._tell(send(self._at, index, buffer, told.length, ctypes.byref(length)))
        return step_of(told, buffer.raw)

    def step(self, index: int) -> Step:
        """The step at an index, counted from 0, of the reply to the last raise, which is kept until the next raise,
        command or renewal."""
        return self._step(index, self._calls.spin_step, self._calls.spin_step_bytes)

    def steps(self) -> list[Step]:
        """All steps of that reply."""
        steps: list[Step] = []
        told, count = (SpinStep * _MANY)(), ctypes.c_uint64(_MANY)
        while count.value == _MANY:
            number = self._calls.spin_steps(self._at, len(steps), told, _MANY, ctypes.byref(count))
            self._tell(0 if number == Error.NO_STEP else number)
            send, first = self._calls.spin_step_bytes, len(steps)
            steps += [self._sent(told[at], first + at, send) for at in range(count.value)]
        return steps

    def job(self, index: int) -> Job:
        """Does the job at an index, counted from 0, of those that the reply to the last raise leaves, in the order of
        its steps. It is done on the bindings of that raise, whatever was bound since, and may be done again."""
        reply = _reply_of(self._ask(self._calls.spin_job, self._at, index))
        calls = self._calls.spin_job_step, self._calls.spin_job_bytes
        return Job(index, reply, [self._step(at, *calls) for at in range(reply.steps)])

    def jobs(self) -> Iterator[Job]:
        """Does the jobs of that reply one after another, each as it is asked for."""
        index = 0
        while True:
            try:
                done = self.job(index)
            except faults.NoJob:
                return
            yield done
            index += 1

    def command(
        self, event: int, op: Op, *, requester: int = 0, handler: int = 0, guard: int = 0, target: int = 0,
        place: Place = Place.FREE, mode: Mode = Mode.PLAIN, before: Iterable[int] = (), after: Iterable[int] = (),
    ) -> int:
        """Does the command of these fields, which commands.Command tells, and answers its place: the number, too, of
        the binding that it installs. A refused one is raised. Full says of an install besides that with it, and one by
        each other lane, 4,096 bindings would be live, so that after a renewal nothing could be removed."""
        given = requester, handler, guard, target, place, mode
        row = Command(event, op, *given, tuple(before), tuple(after)).row()
        return int(self._ask(self._calls.spin_command, self._at, SpinRow(*row)).place)

    def renew(self) -> None:
        """Renews its hub, by the opener, where no seat is out: it goes on over a new log, so that its bindings may
        change again, and nothing is lost that is bound. The live bindings are numbered anew, from 1 on in the order of
        their numbers."""
        self._ask(self._calls.spin_renew, self._at)

    def number_before(self, number: int) -> int:
        """Which number the binding of this number had before the last renewal."""
        return int(self._ask(self._calls.spin_before, self._at, (number - 1) % 2**64).value)

    def end(self) -> int:
        """Ends its hub, by the opener, where no seat is out, and answers how many rows its log has: the commands that
        were accepted since it was opened or renewed, which with all that was answered are one history."""
        self._rows = int(self._ask(self._calls.spin_end, self._at).value)
        return self._rows

    def row(self, index: int) -> Row:
        """The row at an index, counted from 0, of the log of a hub that was ended."""
        words = SpinRow()
        self._tell(self._calls.spin_row_at(self._at, index, words))
        return Row.of(list(words))

    def rows(self) -> list[Row]:
        """All rows of the log of its hub, once it was ended."""
        return [self.row(index) for index in range(self._rows)]

    def close(self) -> None:
        """Closes it, where it is open; a seat that was handed out comes home."""
        if self._lane.at is not None:
            self._ask(self._calls.spin_close, self._at)
