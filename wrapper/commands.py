"""The one table of the commands of `./spin`: those of the program, and those of the wrapper, each a module.

The help, the man page and the completions are made from it. A command of the wrapper's own is described where its module is.
"""

from typing import NamedTuple

from wrapper.program import TOP


class Command(NamedTuple):
    """A command: its name, its words, what it does in a line, and an example.

    A word in capitals stands for what the caller gives; one in brackets may be left out; `..` is one or more.
    """

    name: str
    words: str
    line: str
    example: str


PROGRAM = [
    Command("run", "SCRIPT [PACKETS] [--out FOLDER] [--append] [--convert] [--counts [--json]]",
            "runs a script, over a capture or none, and writes its report", "run examples/first.spin"),
    Command("check", "SCRIPT REPORT [PACKETS] [--convert]", "judges a report: yes where it is some run's, no where it is none's",
            "check examples/first.spin examples/first.report"),
    Command("join", "SCRIPT PACKETS [--out FOLDER] [--append] [--convert] [--counts [--json]]",
            "runs a script over a capture whose fragments are made whole", "join examples/join/fragments.spin examples/join/fragments.pcap"),
    Command("vm", "SCRIPT TRACE", "runs a trace of memory accesses, whose faults are events",
            "vm examples/vm/pager.spin examples/vm/accesses.trace"),
    Command("gen", "NUMBER [--out FOLDER] [--append]", "runs a large script made from a number, and writes six counts",
            "gen 1"),
]

WRAPPER = [
    Command("build", "[--all|--libraries] [--any-logic]",
            "proves and builds the program; with --all the hosts too", "build"),
    Command("library", "[--plain] [--out FOLDER]",
            "makes the library that C, C++, Python and Rust link, proved or plain", "library"),
    Command("session", "[SCRIPT [PACKETS]]", "a prompt that keeps a script growing and tells what each line did",
            "session examples/first.spin"),
    Command("explain", "SCRIPT [LINE] [PACKETS] [--report REPORT] [--convert]",
            "tells why each raise and command came to what it did", "explain examples/filters.spin 19"),
    Command("picture", "run|climb SCRIPT REPORT [PACKETS] [--html] [--convert] [--out FILE]",
            "draws a run, or the climb of its packets, as SVG",
            "picture run examples/first.spin examples/first.report"),
    Command("filter", "SCRIPT CAPTURE.. [-e EXPRESSION] [-w FILE] [--script] [--jobs N] [--out FOLDER] [--pcap] [--piece N]"
            " [--part K/N] [--convert] [--counts [--json]]",
            "filters captures of any length by a script, in pieces side by side",
            "filter examples/packets.spin examples/packets.pcap"),
    Command("help", "[COMMAND]", "tells of the commands, or of one", "help run"),
    Command("version", "", "tells what this is, and which program would run", "version"),
]

# The modules of those commands whose own name Python has for a function.
MODULES = {"help": "usage"}

# The flags that may stand in the place of a command.
FLAGS = {"-h": "help", "--help": "help", "--version": "version"}

# The flag that comes before a command.
QUIET = "--quiet"


def module_of(name: str) -> str:
    """The module of `wrapper` that is this command of the wrapper's own."""
    return MODULES.get(name, name)


def is_there(command: Command) -> bool:
    """Whether the module of a command of the wrapper's own is there."""
    return (TOP / "wrapper" / f"{module_of(command.name)}.py").is_file()


def of_wrapper() -> list[Command]:
    """The wrapper's own commands that are there."""
    return [command for command in WRAPPER if is_there(command)]


def every() -> list[Command]:
    """All commands that are there, the program's first."""
    return [*PROGRAM, *of_wrapper()]


def named(name: str) -> Command | None:
    """The command of this name; None where there is none."""
    return next((command for command in every() if command.name == name), None)


def is_programs(name: str) -> bool:
    """Whether the program knows a command of this name."""
    return any(command.name == name for command in PROGRAM)


def asks_help(words: list[str]) -> bool:
    """Whether a word behind the command asks for its help."""
    return any(word in ("-h", "--help") for word in words[1:])


def operands(command: Command) -> str:
    """The words of a command without the flags, which are the wrapper's own."""
    return command.words.partition(" [--")[0]


def how_many(command: Command) -> tuple[int, int]:
    """The least and the greatest number of words behind a command of the program's."""
    words = operands(command).split()
    return sum(not word.startswith("[") for word in words), len(words)
