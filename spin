#!/usr/bin/env -S python3 -IS
"""spin [--quiet] COMMAND WORD..: runs the program with these words in the folder where it is called, or a command of its own.

Where the proved program is built and no source is newer, it is that program that runs. Where it isn't, it is the plain
program, built by cargo, and without cargo a trial: nothing has proved these, and a line on standard error says so. The
exit status is the program's; 126 says that it didn't run. Where it isn't 0, standard error tells what it means, but for
--quiet. The commands are those of `wrapper/commands.py`: each of the wrapper's own is a module of `wrapper` with
`main(words) -> int`.
"""

import importlib
import os
import signal
import sys

# Until the first command begins, an interrupt ends this at once.
if signal.getsignal(signal.SIGINT) is signal.default_int_handler:
    signal.signal(signal.SIGINT, signal.SIG_DFL)
from pathlib import Path

TOP = Path(__file__).resolve().parent
sys.pycache_prefix = str(TOP / "out" / "python")
sys.path.insert(0, str(TOP))
# where this is installed nothing is left that wasn't installed
sys.dont_write_bytecode = (TOP / "program").is_file()
from wrapper import commands, program


def open_streams() -> None:
    """Where standard output or error is closed, what the wrapper writes there goes nowhere, and not to the other."""
    for name in ("stdout", "stderr"):
        if getattr(sys, name) is None:
            setattr(sys, name, open(os.devnull, "w"))


def main(words: list[str]) -> int:
    """Runs a command of the wrapper's own, or the program, and answers the exit status."""
    quiet = words[:1] == [commands.QUIET]
    words = words[1:] if quiet else words
    if quiet:
        program.told.add("plain")
    name = commands.FLAGS.get(words[0], words[0]) if words else ""
    if commands.is_programs(name) and not commands.asks_help(words):
        from wrapper import ending

        return ending.main(words, quiet)
    if commands.named(name) and not commands.asks_help(words):
        return importlib.import_module(f"wrapper.{commands.module_of(name)}").main(words[1:])
    from wrapper import usage

    return usage.answer(name, words)


if __name__ == "__main__":
    open_streams()
    program.exit_with(main, sys.argv[1:])
