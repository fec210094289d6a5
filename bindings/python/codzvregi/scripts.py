"""Scripts and captures: why they are refused, and reports of runs, which are judged."""

import ctypes
from collections.abc import Callable, Iterable

from codzvregi import faults
from codzvregi._calls import Error, SpinFault


def _text_of(tell: Callable[..., int], number: int) -> str:
    """The text that the call has under a number, "" where it has none."""
    length = ctypes.c_uint64()
    tell(number, ctypes.create_string_buffer(1), 0, ctypes.byref(length))
    buffer = ctypes.create_string_buffer(length.value + 1)
    tell(number, buffer, length.value, ctypes.byref(length))
    return buffer.value.decode()


def cause_text(calls: ctypes.CDLL, cause: int) -> str:
    """The sentence of why a script is refused, by the number of the cause; "" where there is none such."""
    return _text_of(calls.spin_cause_text, cause)


def fault_text(calls: ctypes.CDLL, fault: int) -> str:
    """The sentence of why a capture is refused, by the number of the fault; "" where there is none such."""
    return _text_of(calls.spin_fault_text, fault)


def names_of(standing: Iterable[str]) -> bytes:
    """The names that may be those of endpoints, with blanks between them."""
    return " ".join(name for name in standing if not set(name) & set(" \t")).encode()


def unread(calls: ctypes.CDLL, number: int, line: int, cause: int) -> faults.Fault:
    """Why a script or its capture isn't read."""
    if number == Error.NO_MEMORY:
        return faults.NoMemory("there was no memory")
    if number == Error.BAD_SCRIPT:
        return faults.BadScript(line, cause, cause_text(calls, cause))
    if number == Error.BAD_CAPTURE:
        return faults.BadCapture(line, cause, fault_text(calls, cause))
    return faults.Fault(f"the library answered {number}")


def judge(
    calls: ctypes.CDLL, script: bytes, report: bytes, standing: Iterable[str], packets: bytes | None
) -> bool:
    """Whether the report is that of one legal history of the script, as Library.judge tells it."""
    given = [bytes(script), *([] if packets is None else [bytes(packets)]), bytes(report), names_of(standing)]
    texts = [it for text in given for it in (text, len(text))]
    fault = SpinFault()
    check = calls.spin_check if packets is None else calls.spin_check_packets
    number = check(*texts, ctypes.byref(fault))
    if number not in (Error.OK, Error.NO_HISTORY):
        raise unread(calls, number, fault.line, fault.cause)
    return bool(number == Error.OK)
