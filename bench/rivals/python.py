#!/usr/bin/env python3
"""python.py RIVAL COUNT TRIES: what one raise with one handler takes in Python, in nanoseconds: the least of so many
tries, each of COUNT raises.

RIVAL is `list`, a list of functions by hand, `blinker`, `pluggy`, or this library: `coded`, with a handler of the
script, or `function`, with a function of the host's. The status is 3 where the rival isn't installed.
"""

import sys
import time
from collections.abc import Callable
from importlib import import_module
from pathlib import Path

WORD = 41

Raise = Callable[[int], int | None]


def by_hand() -> Raise:
    """A list of functions, of which the last result stands."""
    handlers: list[Callable[[int], int]] = [lambda word: word + 1]

    def raise_word(word: int) -> int | None:
        result = None
        for handler in handlers:
            result = handler(word)
        return result

    return raise_word


def by_blinker() -> Raise:
    """A signal of blinker's."""
    signal = import_module("blinker").Signal()

    def handler(word: int) -> int:
        return word + 1

    signal.connect(handler, weak=False)
    return lambda word: int(signal.send(word)[-1][1])


def by_pluggy() -> Raise:
    """A hook of pluggy's."""
    pluggy = import_module("pluggy")

    class Specification:
        @pluggy.HookspecMarker("rival")
        def raised(self, word: int) -> int:
            raise NotImplementedError

    class Plugin:
        @pluggy.HookimplMarker("rival")
        def raised(self, word: int) -> int:
            return word + 1

    manager = pluggy.PluginManager("rival")
    manager.add_hookspecs(Specification)
    manager.register(Plugin())
    return lambda word: int(manager.hook.raised(word=word)[-1])


def by_coded_handler() -> Raise:
    """This library, with a handler of the script."""
    sys.path.insert(0, str(Path(__file__).resolve().parents[2] / "bindings" / "python"))
    import codzvregi

    lane = codzvregi.Library().open(b"spin 1\nevent 0 0 w:w last\nhandler 1 w:w result + a0 1\n")
    lane.command(0, codzvregi.Op.INSTALL, handler=1)
    return lambda word: lane.raise_event(0, word).value


def by_function() -> Raise:
    """This library, with a handler that is a function of the host's."""
    sys.path.insert(0, str(Path(__file__).resolve().parents[2] / "bindings" / "python"))
    import codzvregi

    lane = codzvregi.Library().open({"raised": "w:w"})
    lane.bind("raised", lambda word: word + 1)
    return lambda word: lane.raise_("raised", word).value


RIVALS = {
    "list": by_hand, "blinker": by_blinker, "pluggy": by_pluggy, "coded": by_coded_handler, "function": by_function,
}


def main() -> int:
    """Measures, prints the nanoseconds of one raise, and answers the exit status."""
    rival, count, tries = sys.argv[1], int(sys.argv[2]), int(sys.argv[3])
    try:
        raise_word = RIVALS[rival]()
    except ImportError:
        return 3
    least = float("inf")
    for _ in range(tries):
        began = time.perf_counter()
        for _ in range(count):
            if raise_word(WORD) != WORD + 1:
                return 1
        took = time.perf_counter() - began
        least = min(least, took)
    print(round(least / count * 1e9))
    return 0


if __name__ == "__main__":
    sys.exit(main())
