"""What a raise comes to: its reply, and the reply's steps."""

from dataclasses import dataclass
from enum import IntEnum
from typing import NamedTuple


class Kind(IntEnum):
    """What a raise is answered; from UNKNOWN_EVENT to TOO_MANY_HANDLERS it is refused, and as QUEUED left to a job."""

    NO_HANDLER = 0
    DONE = 1
    VALUE = 2
    DEFAULT_VALUE = 3
    DEFAULT = 4
    UNKNOWN_EVENT = 5
    WRONG_ARGUMENTS = 6
    TOO_MANY_HANDLERS = 7
    QUEUED = 8


class StepKind(IntEnum):
    """What a step is: a handler runs; its act gives a result, or sends bytes; a raise upwards begins, and ends; the act
    drops a packet; a handler is left to a job."""

    RUN = 1
    RESULT = 2
    SEND = 3
    UP = 4
    BACK = 5
    DROPPED = 6
    JOB = 7


# Makes a tuple of a type; the type's own way takes twice as long.
make_tuple = tuple.__new__

# By number: calling an enum to find a member takes ten times as long.
KINDS = tuple(Kind)


class Reply(NamedTuple):
    """The reply to a raise: how many commands were accepted before it, what it is answered, the value where there is
    one, and the number of its steps."""

    place: int
    kind: Kind
    value: int | None
    steps: int


class Step(NamedTuple):
    """A step of a reply. A handler that runs or is left to a job has its event and the number of its binding, 0 being
    the default; a raise upwards its event; a send the number of its endpoint and the bytes; a packet that is dropped
    the number of the fault of its headers; the end of a raise upwards the kind of its answer; and this or a result the
    value, where there is one."""

    kind: StepKind
    event: int | None = None
    number: int | None = None
    answer: Kind | None = None
    value: int | None = None
    data: bytes = b""


@dataclass(frozen=True)
class Job:
    """A job that was done: its index in the reply that left it, its own reply, at the place of that one, and steps."""

    index: int
    reply: Reply
    steps: list[Step]


def value_of(kind: Kind, value: int) -> int | None:
    """The value of an answer of this kind, where it has one."""
    return value if kind is Kind.VALUE or kind is Kind.DEFAULT_VALUE else None
