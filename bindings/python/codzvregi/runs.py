"""Whole runs of scripts."""

import ctypes
from collections.abc import Iterable
from dataclasses import dataclass

from codzvregi._calls import Error, SpinRan, SpinSending
from codzvregi.scripts import names_of, unread

# The room of a run's first buffers: bytes of the report, sends, and bytes of these. Most runs need no more.
_ROOM = SpinRan(2**16, 2**10, 2**16)


@dataclass(frozen=True)
class Sent:
    """Bytes that an endpoint received, which has this number in the script."""

    endpoint: int
    data: bytes


@dataclass(frozen=True)
class Run:
    """What a whole run hands out: the report of one legal history of the script, and what endpoints received in it, in
    order. What was lost isn't among that."""

    report: bytes
    sends: tuple[Sent, ...]


def run(calls: ctypes.CDLL, script: bytes, packets: bytes | None, standing: Iterable[str]) -> Run:
    """Runs the script whole, as Library.run tells it."""
    given = bytes(script), bytes(packets or b""), names_of(standing)
    texts = [it for text in given for it in (text, len(text))]
    room, number = _ROOM, Error.TOO_SMALL
    while number == Error.TOO_SMALL:
        report, data = (ctypes.create_string_buffer(size + 1) for size in (room.report, room.bytes))
        sends, ran = (SpinSending * room.sends)(), SpinRan()
        buffers = report, room.report, sends, room.sends, data, room.bytes
        number = calls.spin_run_text(*texts, packets is not None, *buffers, ctypes.byref(ran))
        room = ran
    if number != Error.OK:
        raise unread(calls, number, ran.line, ran.cause)
    sent = ctypes.string_at(data, ran.bytes)
    told = sends[: ran.sends]
    return Run(
        ctypes.string_at(report, ran.report),
        tuple(Sent(it.endpoint, sent[it.at : it.at + it.length]) for it in told),
    )
