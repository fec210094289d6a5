"""What may stand next in a line that is typed into a session: words of the language, and the numbers in force."""

import os

from wrapper import places
from wrapper.bindings import Bindings
from wrapper.reading import COMMANDS, Script

# The words that begin deeds, before which a session puts the lane.
DEEDS = (*COMMANDS, "raise", "later", "packet")

# Words of the session, each with what it takes.
OWN = {
    "undo": "", "show": "", "report": "", "help": "", "quit": "", "why": "line", "delete": "line", "replace": "line",
    "save": "file", "draw": "file", "load": "file",
}

THINGS = {
    "event": ("the number of an event",), "handler": ("the number of a handler",),
    "guard": ("the number of a guard", "the number of a guard, 0 for none"),
    "endpoint": ("the number of an endpoint",), "module": ("the number of a module", "the number of the owner"),
    "binding": ("the number of a binding", "the number of a binding, greater than the one before it"),
}
NEW = {"event": "events", "handler": "handlers", "guard": "guards", "endpoint": "endpoints"}


def files(partial: str) -> list[str]:
    """The files whose names begin so, folders with a slash."""
    folder, base = os.path.split(partial)
    try:
        names = sorted(name for name in os.listdir(folder or ".") if name.startswith(base))
    except OSError:
        return []
    found = [os.path.join(folder, name) for name in names]
    return [f"{name}/" if os.path.isdir(name) else name for name in found]


def numbers(script: Script, bindings: Bindings, name: str, words: list[str]) -> list[int]:
    """The numbers in force of what is called so, where the words of a line so far name an event."""
    if name.startswith("the number of the ") and name.rpartition(" ")[2] in NEW:
        kind = name.rpartition(" ")[2]
        return [len(getattr(script, NEW[kind])) + (kind in ("handler", "guard"))]
    kind = next((kind for kind, names in THINGS.items() if name in names), "")
    if kind == "module":
        return list(range(script.modules))
    if kind == "binding":
        event = places.number_of(words[3]) if len(words) > 3 else None
        return sorted(bindings.events[event].live) if event in bindings.events else []
    found = sorted(getattr(script, NEW[kind])) if kind else []
    return [0, *found] if name.endswith("0 for none") else found


def wanted_words(want: places.Want | None, script: Script, bindings: Bindings, words: list[str]) -> list[str]:
    """The words that may stand where this is wanted."""
    if want is None:
        return []
    if want.kind in ("number", "rising"):
        return list(map(str, numbers(script, bindings, want.name, words)))
    if want.kind == "expression":
        return [f"a{at}" for at in range(8)] + list(places.EXPRESSIONS)
    if want.kind in ("signature", "guard signature") and want.behind:
        return ["native"]
    if want.kind == "handler or any":
        return ["any", *map(str, sorted(script.handlers))]
    return places.fixed_words(want)


def choices(script: Script, bindings: Bindings, count: int, line: str) -> list[str]:
    """The words that may take the place of the last one of a line, which may be empty, in a script of so many lines."""
    words = line.split()
    partial = "" if not words or line.endswith((" ", "\t")) else words.pop()
    if not words:
        found = [*OWN, *places.lines(script.version), *DEEDS]
    elif words[0] in OWN and len(words) == 1 and (words[0] != "replace" or not partial):
        numbered = [str(at) for at in range(1, count + 1)] if OWN[words[0]] else []
        found = files(partial) if OWN[words[0]] == "file" else numbered
    else:
        words = ["lane", "0", *words] if words[0] in DEEDS else words
        found = wanted_words(places.next_wanted(words, script.version), script, bindings, words)
    return [word for word in dict.fromkeys(found) if word.startswith(partial)]
