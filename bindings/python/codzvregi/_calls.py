"""The calls of the shared library, with what they are handed, as bindings/c/spin.h has them."""

import ctypes
import os
from enum import IntEnum
from os import PathLike, fspath
from pathlib import Path
from typing import Any

from codzvregi.faults import NoLibrary

# The version of the calls, and the shared library, whose number it is.
VERSION = 2
NAME = f"libcodzvregi.so.{VERSION}"


class Error(IntEnum):
    """What a call answers: 0, or the number of an error."""

    OK = 0
    NO_MEMORY = 1
    BAD_SCRIPT = 2
    NO_HISTORY = 3
    CLOSED = 4
    OPEN = 5
    NO_COMMAND = 6
    FULL = 7
    REFUSED = 8
    NO_REPLY = 9
    NO_STEP = 10
    TOO_SMALL = 11
    NO_ARGUMENT = 12
    NO_LANE = 13
    TAKEN = 14
    NO_BINDING = 15
    BAD_CAPTURE = 16
    SHARED = 17
    NO_JOB = 18
    ENDED = 19
    NO_ROW = 20
    NO_TEXT = 21
    NOT_RAISED = 22
    NOT_DUE = 23
    DOWNWARD = 24
    GIFT_REFUSED = 25


class SpinFault(ctypes.Structure):
    """As struct spin_fault."""

    _fields_ = [("line", ctypes.c_uint32), ("cause", ctypes.c_uint32)]


class SpinSending(ctypes.Structure):
    """As struct spin_sending."""

    _fields_ = [("endpoint", ctypes.c_uint64), ("at", ctypes.c_uint64), ("length", ctypes.c_uint64)]


class SpinRan(ctypes.Structure):
    """As struct spin_ran."""

    _fields_ = [
        *(("report", ctypes.c_uint64), ("sends", ctypes.c_uint64), ("bytes", ctypes.c_uint64)),
        *(("line", ctypes.c_uint32), ("cause", ctypes.c_uint32)),
    ]


class SpinAnswer(ctypes.Structure):
    """As struct spin_answer."""

    _fields_ = [
        *(("place", ctypes.c_uint32), ("kind", ctypes.c_uint32)),
        *(("value", ctypes.c_uint64), ("steps", ctypes.c_uint64)),
    ]


class SpinArg(ctypes.Structure):
    """As struct spin_arg."""

    _fields_ = [("kind", ctypes.c_uint64), ("at", ctypes.c_uint64), ("length", ctypes.c_uint64)]


class SpinStep(ctypes.Structure):
    """As struct spin_step."""

    _fields_ = [
        *(("kind", ctypes.c_uint32), ("event", ctypes.c_uint32), ("number", ctypes.c_uint32)),
        *(("answer", ctypes.c_uint32), ("value", ctypes.c_uint64), ("length", ctypes.c_uint64)),
    ]


class SpinLane(ctypes.Structure):
    """As struct spin_lane."""

    _fields_ = [("at", ctypes.c_void_p)]


class SpinRaising(ctypes.Structure):
    """As struct spin_raising."""

    _fields_ = [("at", ctypes.c_void_p)]


# A row is four words.
SpinRow = ctypes.c_uint64 * 4

# The types of what is handed in: a text with its length, a list with its, an index; or where a buffer lies.
_BYTE, _SIZE, _NUMBER, _INDEX = ctypes.c_uint8, ctypes.c_size_t, ctypes.c_uint32, ctypes.c_uint64
_TEXT: list[Any] = [ctypes.c_char_p, _SIZE]
_FAULT, _ANSWER, _STEP = ctypes.POINTER(SpinFault), ctypes.POINTER(SpinAnswer), ctypes.POINTER(SpinStep)
_LANE, _ROW, _LENGTH = ctypes.POINTER(SpinLane), ctypes.POINTER(SpinRow), ctypes.POINTER(_INDEX)
_RAISING, _PLACE = ctypes.POINTER(SpinRaising), ctypes.c_void_p
_ARGS = [ctypes.POINTER(SpinArg), _SIZE]
_SENDS, _RAN = [ctypes.POINTER(SpinSending), _SIZE], ctypes.POINTER(SpinRan)

# What each call is handed. Each answers a number.
_GIVEN: dict[str, list[Any]] = {
    "spin_version": [],
    "spin_check": [*_TEXT, *_TEXT, *_TEXT, _FAULT],
    "spin_check_packets": [*_TEXT, *_TEXT, *_TEXT, *_TEXT, _FAULT],
    "spin_run_text": [*_TEXT, *_TEXT, *_TEXT, _NUMBER, *_TEXT, *_SENDS, *_TEXT, _RAN],
    "spin_open_lanes": [*_TEXT, _BYTE, _LANE, _ANSWER],
    "spin_seat": [_LANE, _BYTE, _LANE],
    "spin_raise": [_LANE, _BYTE, *_TEXT, *_ARGS, _ANSWER],
    "spin_later": [_LANE, _BYTE, *_TEXT, *_ARGS, _ANSWER],
    "spin_step": [_LANE, _INDEX, _STEP],
    "spin_steps": [_LANE, _INDEX, _STEP, _SIZE, _LENGTH],
    "spin_step_bytes": [_LANE, _INDEX, *_TEXT, _LENGTH],
    "spin_job": [_LANE, _INDEX, _ANSWER],
    "spin_job_step": [_LANE, _INDEX, _STEP],
    "spin_job_bytes": [_LANE, _INDEX, *_TEXT, _LENGTH],
    "spin_command": [_LANE, _ROW, _ANSWER],
    "spin_cycle": [_LANE, _INDEX, _ANSWER],
    "spin_return": [_LANE, _ANSWER],
    "spin_gather": [_LANE, _ANSWER],
    "spin_renew": [_LANE, _ANSWER],
    "spin_before": [_LANE, _INDEX, _ANSWER],
    "spin_end": [_LANE, _ANSWER],
    "spin_row_at": [_LANE, _INDEX, _ROW],
    "spin_close": [_LANE, _ANSWER],
    "codzvregi_raise_words": [_PLACE],
    "codzvregi_begin": [_PLACE],
    "codzvregi_begin_words": [_PLACE],
    "codzvregi_gave": [_PLACE],
    "codzvregi_do": [_PLACE],
    "spin_begin": [_LANE, _RAISING, *_TEXT, _PLACE, _SIZE, _BYTE, _PLACE],
    "spin_within": [_RAISING, _BYTE, *_TEXT, _PLACE, _SIZE, _PLACE],
    "spin_next": [_RAISING, _PLACE],
    "spin_argument": [_RAISING, _INDEX, _PLACE, _SIZE, _PLACE],
    "spin_do": [_RAISING, _PLACE],
    "spin_given": [_RAISING, _INDEX, _PLACE],
    "spin_given_bytes": [_RAISING, _INDEX, _PLACE, _SIZE, _LENGTH],
    "spin_gave": [_RAISING, *_TEXT, _PLACE, _SIZE, _PLACE],
    "spin_declined": [_RAISING],
    "spin_abandon": [_RAISING],
    "spin_forget": [_RAISING],
    "spin_cause_text": [_NUMBER, *_TEXT, _LENGTH],
    "spin_fault_text": [_NUMBER, *_TEXT, _LENGTH],
}


def load(path: str | PathLike[str] | None) -> ctypes.CDLL:
    """The calls of the shared library of this path. Where none is given it is the one that CODZVREGI_LIBRARY names,
    else the one in this package, else the system's."""
    within = Path(__file__).parent / NAME
    usual = fspath(within) if within.is_file() else NAME
    file = os.environ.get("CODZVREGI_LIBRARY", usual) if path is None else fspath(path)
    try:
        calls = ctypes.CDLL(file)
        if calls.spin_version() != VERSION:
            raise NoLibrary(f"{file} has version {calls.spin_version()} of the calls, and not {VERSION}")
        for name, given in _GIVEN.items():
            call = getattr(calls, name)
            call.argtypes, call.restype = given, _NUMBER
        calls.codzvregi_proved.argtypes, calls.codzvregi_proved.restype = [], ctypes.c_char_p
    except (OSError, AttributeError) as why:
        raise NoLibrary(f"the library can't be loaded: {why}") from None
    return calls
