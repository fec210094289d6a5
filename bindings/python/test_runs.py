"""What Library.run answers: over the worked cases, what the program does with them, byte for byte."""

import os
import re
import unittest
from collections.abc import Iterable, Iterator
from importlib.machinery import SourceFileLoader
from importlib.util import module_from_spec, spec_from_loader
from pathlib import Path
from typing import Any

import codzvregi
from codzvregi import Run, Sent

TOP = Path(__file__).resolve().parent.parent.parent
SCRIPT = (
    b"spin 1\nevent 0 0 b last\nendpoint 0 out0\nendpoint 1 out1\nhandler 1 b send 0 0 1 send 1 0 0 send 0 0 2\n"
    b"lane 0 install 0 0 1 0 free plain\nlane 0 raise 0 x010203\n"
)
REPORT = b"report 1\nsegment 0 at 0\n1 0 6 install ok\n1 0 7 raise run 0 1 send 0 2 send 1 3 send 0 1 = done\n"

# What names natives in a script.
NATIVES = re.compile(rb"\bnative\b|^authoriser\b", re.MULTILINE)

# The endpoints that stand where the program runs.
STANDING = ("out0", "out1", "out2", "out3", "echo")


def cases_of_run() -> Iterator[tuple[str, bytes, bytes | None, bytes, dict[str, bytes]]]:
    """The worked cases of `run` that end with a report, or refuse a script or a capture: the name, the script, the
    capture or none, what is written, and what endpoints leave. The program reads a capture as it goes, and has done
    something where it refuses one; a whole run hasn't. Cases with natives, which are the program's own, aren't among
    them."""
    loader = SourceFileLoader("cases_check", str(TOP / "cases" / "check"))
    spec = spec_from_loader(loader.name, loader)
    assert spec is not None
    check: Any = module_from_spec(spec)
    loader.exec_module(check)
    cases, files = check.gather()
    for name, case in cases.items():
        command, named = case.words[0], case.words[2:]
        is_read = command == "run" and len(named) <= 1 and all(word in files for word in named)
        status = check.status_of(case.stdout)
        if is_read and status in (0, 2, 3) and not NATIVES.search(case.script):
            told = (case.stdout.splitlines(keepends=True)[-1], {}) if status else (case.stdout, case.sent)
            yield name, case.script, files[named[0]] if named else None, *told


def summed(data: bytes) -> int:
    """The sum of the 16-bit words of bytes, with the carries added."""
    total = sum(int.from_bytes(data[at : at + 2].ljust(2, b"\0"), "big") for at in range(0, len(data), 2))
    while total > 0xFFFF:
        total = (total & 0xFFFF) + (total >> 16)
    return total


def echo_reply(data: bytes) -> bytes | None:
    """What the program's endpoint `echo` replies, or None, as to a request of over 65,535 bytes."""
    if not 8 <= len(data) <= 0xFFFF or data[:2] != b"\x08\0" or summed(data) != 0xFFFF:
        return None
    return b"\0\0" + (0xFFFF - summed(data[4:])).to_bytes(2, "big") + data[4:]


def files_of(script: bytes, sends: Iterable[Sent]) -> dict[str, bytes]:
    """What the program's endpoints leave in their files, of these sends."""
    words = [line.split() for line in script.decode().splitlines()]
    names = {int(line[1]): line[2] for line in words if line[:1] == ["endpoint"]}
    files = dict[str, bytes]()
    for sent in sends:
        name = names[sent.endpoint]
        data = echo_reply(sent.data) if name == "echo" else sent.data
        if data is not None:
            files[f"{name}.bin"] = files.get(f"{name}.bin", b"") + len(data).to_bytes(4, "big") + data
    return files


class Running(unittest.TestCase):
    """What run answers."""

    def setUp(self) -> None:
        self.library = codzvregi.Library(os.environ["SPIN_LIBRARY"])

    def told(self, script: bytes, packets: bytes | None) -> tuple[bytes, dict[str, bytes]]:
        """What the program writes, and its endpoints leave."""
        try:
            run = self.library.run(script, packets, STANDING)
        except codzvregi.BadCapture as bad:
            return f"stop 3 record {bad.record} fault {bad.fault}\n".encode(), {}
        except codzvregi.BadScript as bad:
            return f"stop 2 line {bad.line} cause {bad.cause}\n".encode(), {}
        return run.report, files_of(script, run.sends)

    def test_worked_cases(self) -> None:
        cases = list(cases_of_run())
        self.assertGreater(sum(case[3].startswith(b"report 1\n") for case in cases), 120)
        self.assertGreater(sum(bool(case[4]) for case in cases), 10)
        for name, script, packets, written, left in cases:
            with self.subTest(name):
                self.assertEqual(self.told(script, packets), (written, left))

    def test_what_is_lost_is_not_handed_out(self) -> None:
        sends = [Sent(0, b"\2\3"), Sent(1, b"\1\2\3"), Sent(0, b"\3")]
        for standing in (("out0", "out1"), ("out1",), ("out0",), (), ("out0 out1",)):
            lost = [f"lost {at} {(2, 1)[at]}\n".encode() for at in (0, 1) if f"out{at}" not in standing]
            kept = tuple(sent for sent in sends if f"out{sent.endpoint}" in standing)
            run = self.library.run(SCRIPT, None, standing)
            self.assertEqual(run, Run(REPORT + b"".join(lost) + b"end 1\n", kept))
            self.assertTrue(self.library.judge(SCRIPT, run.report, standing))

    def test_more_than_the_first_buffers_hold(self) -> None:
        raises = b"".join(b"lane 0 raise 0 x%08x\n" % at for at in range(3000))
        head = SCRIPT[: SCRIPT.index(b"lane 0 raise")]
        run = self.library.run(head + raises, None, STANDING)
        self.assertEqual((len(run.sends), len(run.report) > 2**16), (9000, True))
        self.assertEqual([int(sent.data.hex(), 16) for sent in run.sends[1::3]], list(range(3000)))
        self.assertTrue(self.library.judge(head + raises, run.report, STANDING))

    def test_refusals(self) -> None:
        with self.assertRaises(codzvregi.BadScript):
            self.library.run(b"spin 9\n", None)
        with self.assertRaises(codzvregi.BadCapture) as told:
            self.library.run(SCRIPT, b"")
        self.assertEqual((told.exception.record, told.exception.fault), (0, 5))
        self.assertTrue(told.exception.text.startswith("short: "))


if __name__ == "__main__":
    unittest.main()
