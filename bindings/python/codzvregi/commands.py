"""Commands, by which bindings change, and the rows that stand for them."""

from collections.abc import Iterable, Sequence
from dataclasses import dataclass
from enum import IntEnum


class Op(IntEnum):
    """What a command does."""

    INSTALL = 1
    REMOVE = 2
    REPLACE = 3
    SET_DEFAULT = 4
    NO_DEFAULT = 5


class Place(IntEnum):
    """Where a binding goes: anywhere, before each that isn't first too, or behind each that isn't last too."""

    FREE = 0
    FIRST = 1
    LAST = 2


class Mode(IntEnum):
    """How a binding's handler runs: during the raise; so, and it may change the arguments for those behind it; or
    later, as a job."""

    PLAIN = 0
    FILTER = 1
    ASYNC = 2


class Refusal(IntEnum):
    """Why a command is refused, as reports name it."""

    UNKNOWN_EVENT = 1
    UNKNOWN_MODULE = 2
    UNKNOWN_HANDLER = 3
    UNKNOWN_GUARD = 4
    UNKNOWN_BINDING = 5
    WRONG_TYPE = 6
    DOWNWARD = 7
    WRONG_MODE = 8
    DENIED = 9
    TOO_MANY = 10
    CONFLICT = 11
    FORCED_MODE = 12


# The fields of a row's first word: the name, the lowest bit, and how many there are.
_FIELDS = (
    *(("mode", 0, 2), ("place", 2, 3), ("guard", 15, 10), ("handler", 25, 10)),
    *(("requester", 35, 8), ("event", 43, 6), ("op", 53, 3)),
)

# Where its lane stands.
_LANE = 49

# What stands in a list of bindings where there is none.
_NONE = 2**16 - 1


def _unlisted(word: int) -> tuple[int, ...]:
    """The numbers of bindings that such a word lists."""
    return tuple(number for number in (word >> 16 * at & _NONE for at in range(4)) if number != _NONE)


def _listed(numbers: Iterable[int]) -> int:
    """At most four numbers of bindings as one word."""
    listed = sorted(numbers)
    if len(listed) > 4 or not all(0 <= number < _NONE for number in listed):
        raise ValueError(f"a command names at most four bindings before it and four after it, each below {_NONE}")
    return sum((listed[at] if at < len(listed) else _NONE) << 16 * at for at in range(4))


@dataclass(frozen=True)
class Command:
    """A command on an event's bindings, which module `requester` asks for. A field that its op doesn't use is as it is
    where it isn't given. `target` is the binding that is removed, or gets another handler and guard. A binding that is
    installed goes before those that `before` has the numbers of, up to four, and behind those of `after`."""

    event: int
    op: Op
    requester: int = 0
    handler: int = 0
    guard: int = 0
    target: int = 0
    place: Place = Place.FREE
    mode: Mode = Mode.PLAIN
    before: tuple[int, ...] = ()
    after: tuple[int, ...] = ()

    def row(self) -> tuple[int, int, int, int]:
        """The four words that stand for it. A number that has no room in them is a ValueError."""
        first = 0
        for name, bit, width in _FIELDS:
            number = getattr(self, name)
            if not 0 <= number < 2**width:
                raise ValueError(f"{name} is a number below {2**width}, and not {number}")
            first |= number << bit
        if not 0 <= self.target < 2**13:
            raise ValueError(f"target is a number below {2**13}, and not {self.target}")
        return first, self.target, _listed(self.before), _listed(self.after)


@dataclass(frozen=True)
class Row:
    """A row of the log of a hub that was ended: the lane that gave the command, and the command."""

    lane: int
    command: Command

    @staticmethod
    def of(words: Sequence[int]) -> "Row":
        """The row of these four words."""
        first, target, before, after = words
        found = {name: first >> bit & 2**width - 1 for name, bit, width in _FIELDS}
        event, requester, handler, guard = (found[name] for name in ("event", "requester", "handler", "guard"))
        how = Op(found["op"]), requester, handler, guard, target, Place(found["place"]), Mode(found["mode"])
        return Row(first >> _LANE & 15, Command(event, *how, _unlisted(before), _unlisted(after)))
