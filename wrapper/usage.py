"""help: tells of the commands in a line each, of one of them, or of the nearest to a word that is none."""

import difflib
import sys
from collections.abc import Sequence

from wrapper import commands, flags
from wrapper.program import CALLED, INSTALLED, NAME, tell

FLAGS_LINES = [
    ("-h, --help", "this text; behind a command the text of that command"),
    ("--version", "as version"),
    ("--quiet", "before a command: nothing is told beside what it writes"),
]

# Before what is said of the program, and behind it: where this is installed there is no repository.
FIRST, LAST = ("", "To read on: man codzvregi.\n") if INSTALLED.is_file() else (
    "Example, on a fresh clone:\n  ./spin run examples/first.spin\n\n",
    """\
To read on: README.md, what there is; docs/FORMATS.md, scripts, reports,
captures, causes and statuses; examples/, scripts that teach, each with its
report; man docs/spin.1.
""",
)

BELOW = f"""\
{FIRST}Standard output and the status of the first five are the program's, byte for
byte. Where its status isn't 0, standard error tells what that means. Nothing
is proved of what is told there.

{LAST}"""


def columns(pairs: Sequence[tuple[str, str]]) -> str:
    """Lines of two columns, indented."""
    width = max(len(left) for left, _ in pairs)
    return "".join(f"  {left:{width}}  {right}\n" for left, right in pairs)


def whole() -> str:
    """The text of all commands."""
    rows = [(command.name, command.line) for command in commands.every()]
    return (
        f"{NAME}: an event dispatcher, whose program is proved\n\n"
        f"usage: {CALLED} [--quiet] COMMAND WORD..\n\n"
        f"{columns(rows)}\n{columns(FLAGS_LINES)}\n"
        f"{CALLED} help COMMAND tells a command's words.\n\n{BELOW}"
    )


def usage_line(command: commands.Command) -> str:
    """The usage line of a command."""
    return f"usage: {CALLED} {command.name} {command.words}".rstrip() + "\n"


def of_one(command: commands.Command) -> str:
    """The text of one command."""
    known = flags.FLAGS.get(command.name)
    told = f"{columns(known)}\n" if known else ""
    return f"{usage_line(command)}\n{command.name}: {command.line}\n\n{told}Example:\n  {CALLED} {command.example}\n"


def nearest(word: str, among: Sequence[str]) -> str | None:
    """The word among these that is nearest to this one; None where none is near."""
    found = difflib.get_close_matches(word, among, n=1, cutoff=0.5)
    return found[0] if found else None


def mistyped(word: str) -> int:
    """Tells that the word is no command, which is the nearest one, and answers the status."""
    near = nearest(word, [command.name for command in commands.every()] + [commands.QUIET, *commands.FLAGS])
    tell(f"{word!a} is no command" + (f"; the nearest is {near}" if near else f"; {CALLED} help tells them"))
    return 1


def no_words() -> int:
    """Tells the usage where no words are given, and answers the status."""
    sys.stderr.write(whole())
    return 1


def answer(name: str, words: list[str]) -> int:
    """Answers words that no command takes, or that ask for the help of one."""
    if not words:
        return no_words()
    return main([name]) if commands.named(name) else mistyped(name)


def main(words: list[str]) -> int:
    """Writes the text of all commands, or of the one that is named, and answers the exit status."""
    if len(words) > 1:
        tell("help takes one word at most")
        return 1
    if not words:
        sys.stdout.write(whole())
        return 0
    command = commands.named(words[0])
    if command is None:
        return mistyped(words[0])
    sys.stdout.write(of_one(command))
    return 0
