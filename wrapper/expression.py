"""`filter -e`: filters captures by an expression of tcpdump's, by way of a script whose guards say what the expression says."""

import argparse
import shutil
import sys
import tempfile
from collections.abc import Callable, Iterable
from pathlib import Path

from wrapper import bpf
from wrapper.pieces import Refused, find_capture, header_of

PACKETS = 1000


def script(expression: str) -> str:
    """A script that sends the frames to endpoint `out0` which the expression lets through."""
    try:
        tests = bpf.tests(expression)
    except bpf.Unsuited as why:
        raise Refused(1, f"the expression can't be said by guards: {why}") from None
    lines = [f"# {' '.join(expression.split())}", "spin 3", "event 0 0 b last", "endpoint 0 out0", "handler 1 b send 0 0 0"]
    lines += [f"guard {at} b {test}" for at, test in enumerate(tests, 1)]
    lines += [f"lane 0 install 0 0 1 {at} free before 0 after 0 plain" for at in range(1, len(tests) + 1)]
    return "".join(f"{line}\n" for line in [*lines, f"lane 0 packet 0 {PACKETS}"])


def empty_capture(captures: Iterable[str]) -> bytes:
    """A capture without records, as the frames of these would be written."""
    found = [find_capture(name) for name in captures]
    return header_of(max(it.second for it in found), max(it.snapped for it in found))


def run(options: argparse.Namespace, run_filter: Callable[[argparse.Namespace], list[str]]) -> list[str]:
    """Runs the filter as the options ask for, by `run_filter` over options of a script's, and answers the lines to be written."""
    text = script(options.expression)
    if options.script_only:
        return text.splitlines()
    if not options.captures:
        raise Refused(1, "which captures?", options.usage)
    with tempfile.TemporaryDirectory() as folder:
        options.script = Path(folder) / "expression.spin"
        options.script.write_text(text)
        options.pcap, target = True, options.write
        if target is None:
            return run_filter(options)
        options.out = Path(f"{target}.pieces")
        lines = run_filter(options)
    if options.part is None:
        received = options.out / "out0.pcap"
        if received.exists():
            shutil.move(received, target)
        else:
            target.write_bytes(empty_capture(options.captures))
        shutil.rmtree(options.out)
    return lines


def read_words(words: list[str], parser: argparse.ArgumentParser) -> argparse.Namespace:
    """What the words ask for; the parser knows the flags that both forms of `filter` have."""
    parser.add_argument("-e", dest="expression", required=True)
    parser.add_argument("-w", dest="write", type=Path)
    parser.add_argument("--script", dest="script_only", action="store_true")
    parser.add_argument("captures", metavar="CAPTURE", nargs="*")
    options = parser.parse_intermixed_args(words)
    options.usage = parser.usage
    return options


if __name__ == "__main__":
    sys.exit("this is a part of ./spin filter")
