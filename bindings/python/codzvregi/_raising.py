"""An open raise, as the library's calls have it: numbers and bytes, in buffers that are used again."""

import ctypes
from collections.abc import Sequence
from struct import Struct
from struct import error as NoRoom
from typing import Any, NamedTuple, SupportsIndex

from codzvregi._calls import Error, SpinRaising

# What spin_next tells, as the numbers of a step.
RUN, RESULT, SEND, UP, BACK, DROPPED, JOB, END, SPENT = range(1, 10)

# What a handler gives.
GIVES_RESULT, GIVES_WORD, GIVES_BYTES, GIVES_SEND = range(4)

# The parts of bindings/c/turns.h's struct for an open raise: what begins a raise of so many words; bytes, and so many
# arguments; what gifts have, a gift, and what is told, an answer and a step; and where each of the later ones lies.
_WORDS = [Struct(f"={3 + count}Q").pack_into for count in range(9)]
_RAISED = [Struct(f"={2 + 3 * count}Q").pack_into for count in range(9)]
_GIFTS, _GIFT, _WORD, _TOLD = Struct("=3Q"), Struct("=4Q"), Struct("=Q"), Struct("=2I16x4IQ8x")
_AT_LANE = _WORD.size
_AT_BYTES = _AT_LANE + (3 + 8) * _WORD.size
_AT_GIFTS = _AT_BYTES + (2 + 3 * 8) * _WORD.size
_AT_FIRST = _AT_GIFTS + _GIFTS.size
_AT_WORD = _AT_FIRST + 2 * _WORD.size
_AT_TOLD = _AT_FIRST + 8 * _GIFT.size
_AT_STEPS = _AT_TOLD + 2 * _WORD.size
_STEP, _ARG = Struct("=4I2Q"), Struct("=3Q")
_told_in, _put_word = _TOLD.unpack_from, _WORD.pack_into

Value = int | bytes
Gift = tuple[int, int, Value]

# An answer's place and kind, and a step's kind, event, number, answer and value.
Turn = tuple[int, int, int, int, int, int, int]
Step = tuple[int, int, int, int, int, int]


class Told(NamedTuple):
    """A step, as the library tells it."""

    kind: int
    event: int
    number: int
    answer: int
    value: int
    length: int


class Raising:
    """A raising handle beside the handle of a seat. Each call answers the number of an error; those that go on tell
    what comes next besides."""

    def __init__(self, calls: ctypes.CDLL, lane: Any) -> None:
        self._calls, self._held = calls, SpinRaising(None)
        self._lane_at, self._held_at = ctypes.addressof(lane), ctypes.addressof(self._held)
        self.at = ctypes.byref(self._held)
        self._turn = ctypes.create_string_buffer(_AT_TOLD + _TOLD.size)
        self._asked, self._room = ctypes.byref(self._turn), ctypes.create_string_buffer(2048)
        self._room_at = ctypes.addressof(self._room)
        self._answer = ctypes.byref(self._turn, _AT_TOLD)
        self._step = ctypes.byref(self._turn, _AT_TOLD + _TOLD.size - _STEP.size)
        # these take a microsecond and wait for nobody, so no other thread of Python's is let in; and what they are
        # handed needn't be tested
        held = ctypes.PyDLL(calls._name, handle=calls._handle)
        self._begin, self._begin_words = held.codzvregi_begin, held.codzvregi_begin_words
        self._gave, self._do, self._next = held.codzvregi_gave, held.codzvregi_do, held.spin_next
        _WORD.pack_into(self._turn, 0, self._held_at)
        self._lay_gifts(b"", [(GIVES_RESULT, 0, 0)])

    def _hold(self, data: bytes) -> int:
        """Puts bytes where the library reads them, and answers where that is."""
        length = len(data)
        if length > len(self._room):
            self._room = ctypes.create_string_buffer(2 * length)
            self._room_at = ctypes.addressof(self._room)
        if length:
            ctypes.memmove(self._room_at, data, length)
        return self._room_at

    def begin(self, event: int, args: Sequence[Value], is_within: bool) -> tuple[int, Turn]:
        """Begins a raise of at most 8 arguments, or one within a firing that waits for its answer."""
        lane, count = 0 if is_within else self._lane_at, len(args)
        try:
            _WORDS[count](self._turn, _AT_LANE, lane, event, count, *args)
        except NoRoom:
            return self._begin_any(event, args, lane)
        return self._begin_words(self._asked), _told_in(self._turn, _AT_TOLD)  # type: ignore[return-value]

    def _begin_any(self, event: int, args: Sequence[Value], lane: int) -> tuple[int, Turn]:
        """Begins one whose arguments aren't all words."""
        data = b""
        words: list[int] = []
        for arg in args:
            if isinstance(arg, SupportsIndex):
                words += (0, int(arg), 0)
            else:
                more = bytes(arg)
                words += (1, len(data), len(more))
                data += more
        try:
            _WORDS[0](self._turn, _AT_LANE, lane, event, len(args))
            _RAISED[len(args)](self._turn, _AT_BYTES, self._hold(data), len(data), *words)
        except NoRoom:
            raise ValueError("a word is a number below 2**64") from None
        return self._begin(self._asked), _told_in(self._turn, _AT_TOLD)  # type: ignore[return-value]

    def next(self, error: int = 0) -> tuple[int, Turn]:
        """What comes next, where there was no error."""
        error = error or self._next(self.at, self._step)
        return error, _told_in(self._turn, _AT_TOLD)  # type: ignore[return-value]

    def gave_result(self, word: int) -> tuple[int, Turn]:
        """The host's handler ran, and gave this result and nothing else."""
        try:
            _put_word(self._turn, _AT_WORD, word)
        except NoRoom:
            raise ValueError("a result is a number below 2**64") from None
        return self._gave(self._asked), _told_in(self._turn, _AT_TOLD)  # type: ignore[return-value]

    def did(self) -> tuple[int, Turn]:
        """The declared act is done."""
        return self._do(self._asked), _told_in(self._turn, _AT_TOLD)  # type: ignore[return-value]

    def _lay_gifts(self, data: bytes, gifts: Sequence[Gift]) -> None:
        """Puts at most 8 gifts where they are read."""
        _GIFTS.pack_into(self._turn, _AT_GIFTS, len(gifts), self._hold(data), len(data))
        from_, at = 0, _AT_FIRST
        for kind, index, to in gifts:
            is_word = isinstance(to, int)
            word, length = (to, 0) if isinstance(to, int) else (from_, len(to))
            _GIFT.pack_into(self._turn, at, kind, index, word, length)
            at, from_ = at + _GIFT.size, from_ if is_word else from_ + length

    def gave(self, gifts: Sequence[Gift]) -> int:
        """It gave these."""
        data = b"".join(to for _, _, to in gifts if not isinstance(to, int))
        try:
            if len(gifts) <= 8:
                self._lay_gifts(data, gifts)
                at = ctypes.byref(self._turn, _AT_FIRST)
                return int(self._calls.spin_gave(self.at, self._room, len(data), at, len(gifts), self._answer))
            return self._gave_many(data, gifts)
        except NoRoom:
            raise ValueError("a word is a number below 2**64") from None
        finally:
            self._lay_gifts(b"", [(GIVES_RESULT, 0, 0)])

    def _gave_many(self, data: bytes, gifts: Sequence[Gift]) -> int:
        """It gave these, which are more than there is room for."""
        packed, from_ = b"", 0
        for kind, index, to in gifts:
            packed += _GIFT.pack(kind, index, *((to, 0) if isinstance(to, int) else (from_, len(to))))
            from_ += 0 if isinstance(to, int) else len(to)
        given = ctypes.create_string_buffer(packed)
        return int(self._calls.spin_gave(self.at, data, len(data), given, len(gifts), self._answer))

    def kind(self) -> int:
        """The kind of what the last call answered."""
        return int(_told_in(self._turn, _AT_TOLD)[1])

    def steps(self) -> int:
        """How many things the last answer gave."""
        return int(_WORD.unpack_from(self._turn, _AT_STEPS)[0])

    def do(self) -> int:
        """The declared act is done, and what comes next isn't told."""
        return int(self._calls.spin_do(self.at, self._answer))

    def declined(self) -> int:
        """The host's guard didn't hold."""
        return int(self._calls.spin_declined(self.at))

    def abandon(self) -> int:
        """Ends what is open, and keeps the room."""
        return int(self._calls.spin_abandon(self.at))

    def forget(self) -> int:
        """Closes the handle."""
        return int(self._calls.spin_forget(self.at))

    def argument(self, index: int) -> tuple[int, Value]:
        """An argument of the innermost raise, as it stands."""
        told = ctypes.create_string_buffer(_ARG.size)
        error = self._calls.spin_argument(self.at, index, self._room, len(self._room), told)
        kind, at, length = _ARG.unpack_from(told)
        if error == Error.TOO_SMALL:
            self._room = ctypes.create_string_buffer(2 * length)
            self._room_at = ctypes.addressof(self._room)
            error = self._calls.spin_argument(self.at, index, self._room, len(self._room), told)
        return error, at if kind == 0 else self._room.raw[:length]

    def args(self) -> tuple[int, tuple[Value, ...]]:
        """All arguments of the innermost raise, as they stand."""
        args: list[Value] = []
        while True:
            error, arg = self.argument(len(args))
            if error:
                return 0 if error == Error.NO_ARGUMENT else error, tuple(args)
            args.append(arg)

    def given(self, index: int) -> tuple[int, Step, bytes]:
        """What the last answer gave, one by one, with the bytes that it sends."""
        told = ctypes.create_string_buffer(_STEP.size)
        error = self._calls.spin_given(self.at, index, told)
        kind, event, number, answer, value, length = _STEP.unpack_from(told)
        sent = b""
        if not error and kind == SEND and length:
            buffer, wanted = ctypes.create_string_buffer(length), ctypes.c_uint64()
            error = self._calls.spin_given_bytes(self.at, index, buffer, length, ctypes.byref(wanted))
            sent = buffer.raw
        return error, (kind, event, number, answer, value, length), sent
