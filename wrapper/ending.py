"""Runs the program where its flags say, and tells on standard error what its status means where that isn't 0.

Standard output is the program's own, which no byte of it passes through here, but where counts are asked for in the
place of the report. What is told is found afterwards: the program is asked by `check`, which sends nothing, why it
stopped. Nothing is proved of what is told.
"""

import contextlib
import os
import signal
import sys
from collections.abc import Iterator
from types import FrameType
from typing import IO

from wrapper import outputs, program
from wrapper.program import tell

FORWARDED = (signal.SIGINT, signal.SIGTERM, signal.SIGHUP, signal.SIGQUIT)


def waited_for(command: list[str], out: IO[bytes] | None = None) -> int:
    """Runs a command line as if it stood in the wrapper's place, signals too, and answers its status, or less a signal.

    What it writes goes into the open file `out` where there is one.
    """
    mask = signal.pthread_sigmask(signal.SIG_BLOCK, FORWARDED)
    actions = [(os.POSIX_SPAWN_DUP2, out.fileno(), 1)] if out else []
    child = os.posix_spawn(command[0], command, os.environ, setsigmask=mask, file_actions=actions)

    def forward(number: int, _: FrameType | None) -> None:
        """Hands the signal on to the program."""
        # the program may have ended by the same signal, where that came to both
        with contextlib.suppress(ProcessLookupError):
            os.kill(child, number)

    for number in FORWARDED:
        if signal.getsignal(number) != signal.SIG_IGN:
            signal.signal(number, forward)
    signal.pthread_sigmask(signal.SIG_SETMASK, mask)
    _, how = os.waitpid(child, 0)
    return os.waitstatus_to_exitcode(how)


def end_by(number: int) -> None:
    """Ends this process by the signal that ended the program."""
    signal.signal(number, signal.SIG_DFL)
    os.kill(os.getpid(), number)


def wrapped(lines: list[str], columns: int) -> list[str]:
    """The lines cut at their blanks to fit so many columns, but for marks and the lines above them, which stay whole."""
    import re
    import textwrap

    width, told = max(40, columns - 1), list[str]()
    for line, below in zip(lines, [*lines[1:], ""]):
        if any(re.fullmatch(" *\\^~*", one) for one in (line, below)):
            told.append(line)
        else:
            told += textwrap.wrap(
                line, width - 6 * (line[:1] != " "),
                subsequent_indent="      ", break_long_words=False, break_on_hyphens=False,
            )
    return told


@contextlib.contextmanager
def inside(folder: str | None) -> Iterator[None]:
    """What stands below this is done in that folder, where one is named."""
    if folder is None:
        yield
        return
    here = os.open(".", os.O_RDONLY | os.O_CLOEXEC)
    try:
        os.chdir(folder)
        yield
    finally:
        os.fchdir(here)
        os.close(here)


def tell_reasons(command: list[str] | None, words: list[str], status: int, folder: str = ".") -> None:
    """Tells what the status means of words that ran in a folder; where that fails, the status stays the program's."""
    from wrapper import reasons

    try:
        lines = reasons.of(command, words, status, folder)
    except Exception as why:  # a mistake in what is told must not hide the program's answer
        lines = [f"what status {status} means can't be told: {why!r}"]
    if sys.stderr.isatty():
        lines = wrapped(lines, os.get_terminal_size(sys.stderr.fileno()).columns)
    for line in lines:
        tell(line) if line[:1] != " " else print(line, file=sys.stderr)


def run(command: list[str], words: list[str], flags: outputs.Flags, is_last: bool) -> int:
    """Runs the program where the flags say, as the last thing in its place; its status, or less a signal."""
    elsewhere = words if flags.out is None else outputs.from_elsewhere(words)
    line = [*command, *elsewhere]
    if flags.counts:
        return counted(line, words[1:2], flags)
    with inside(flags.out):
        return os.execv(line[0], line) if is_last else waited_for(line)


def counted(line: list[str], script: list[str], flags: outputs.Flags) -> int:
    """Runs the program and writes its counts in the place of the report, which stands where there is no whole one."""
    import shutil
    import tempfile

    from wrapper import hits, reading

    with tempfile.TemporaryFile() as out:
        with inside(flags.out):
            status = waited_for(line, out)
        out.seek(0)
        if status:
            shutil.copyfileobj(out, sys.stdout.buffer)
        else:
            with open(script[0], encoding="ascii") as file:
                text = reading.read_script(file.read())
            told = hits.hits_of(text, (reading.read_line(one.decode()) for one in out))
            sys.stdout.write(hits.as_json(told) if flags.json else hits.as_table(text, told))
    sys.stdout.flush()
    return status


def tell_end(command: list[str] | None, words: list[str], status: int, flags: outputs.Flags) -> None:
    """Tells what the status means, and of a whole run what it has lost."""
    if status:
        tell_reasons(command, words, status, flags.out or ".")
    else:
        outputs.tell_lost(words)


def run_to_its_end(command: list[str] | None, words: list[str], quiet: bool) -> int:
    """Runs the program as flags and words say, tells what its status means unless that isn't wanted, and answers it."""
    from wrapper import convert

    flags, words = outputs.read_flags(words)
    if command is None and (flags.out is not None or flags.counts):
        why = "the program isn't built, and a trial keeps no endpoint's file and isn't counted"
        raise outputs.Refused(why, program.NOT_RUN)
    outputs.prepare(flags, words, quiet)
    with convert.in_words(words) as read:
        if command is None:
            status = program.run(read).returncode
        else:
            # with nothing to be told, and nothing to be taken away, the program takes this process over
            status = run(command, read, flags, quiet and read is words)
        if not quiet and status >= 0:
            # standard error may take no more bytes
            with contextlib.suppress(OSError):
                tell_end(command, read, status, flags)
    return status


def main(words: list[str], quiet: bool) -> int:
    """Runs the program on these words, and ends with its status."""
    command = program.command()
    try:
        status = run_to_its_end(command, words, quiet)
    except outputs.Refused as refused:
        tell(str(refused))
        return refused.status
    if status < 0:
        end_by(-status)
    # nothing is left to be done, and an interpreter that ends in order takes as long as a small run
    os._exit(status)
