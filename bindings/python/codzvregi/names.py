"""Scripts that declare events, handlers and guards by names. The numbers below stay: each name is one."""

from collections.abc import Iterable, Mapping
from dataclasses import dataclass
from typing import NamedTuple

from codzvregi.faults import NoName


@dataclass(frozen=True)
class Event:
    """What an event takes and gives: its signature, as scripts have it, with w for a word and b for bytes, W and B
    where a filter may change it, and `:w` behind them where the event gives a result; how results are merged; the
    module that owns it; a default handler; and the owner's rules, as scripts have them behind `rule` and the
    event."""

    signature: str
    merge: str = "last"
    owner: str | int = 0
    default: str | int | None = None
    rules: tuple[str, ...] = ()
    authoriser: str | None = None


class Unit(NamedTuple):
    """A handler or a guard that the script has: its signature, and its steps or its test; or, with the signature
    "native", the name of a native one."""

    signature: str
    does: str


def number_in(numbers: Mapping[str, int], name: str | int, what: str) -> int:
    """The number of a name; a number stays itself. NoName is raised where nothing has the name."""
    if isinstance(name, str):
        if name not in numbers:
            raise NoName(f"there is no {what} {name!r}")
        return numbers[name]
    return name


def _numbered(names: Iterable[str], first: int) -> dict[str, int]:
    """Names with their numbers, in their order."""
    return {name: number for number, name in enumerate(names, first)}


class Script:
    """A script that declares these, by names: events by their signatures or as Event; handlers and guards by what is
    behind their numbers in a script, signature and steps or test; modules and endpoints. Behind the handlers stands,
    for each event, one without steps, which is bound where a function of the host's takes its place."""

    def __init__(
        self, events: Mapping[str, str | Event], *, handlers: Mapping[str, tuple[str, str]] | None = None,
        guards: Mapping[str, tuple[str, str]] | None = None, modules: Iterable[str] = (), endpoints: Iterable[str] = (),
    ) -> None:
        self.declared = {name: it if isinstance(it, Event) else Event(it) for name, it in events.items()}
        self.coded = {name: Unit(*it) for name, it in (handlers or {}).items()}
        self.tests = {name: Unit(*it) for name, it in (guards or {}).items()}
        self.events, self.handlers = _numbered(self.declared, 0), _numbered(self.coded, 1)
        self.guards, self.modules = _numbered(self.tests, 1), _numbered(modules, 0)
        self.endpoints = _numbered(endpoints, 0)

    def own_handler(self, event: int) -> int:
        """The number of the handler without steps of an event."""
        return len(self.handlers) + 1 + event

    def _lines(self) -> Iterable[str]:
        """Its lines."""
        yield "spin 3"
        if self.modules:
            yield f"modules {len(self.modules)}"
        for name, it in self.declared.items():
            owner = number_in(self.modules, it.owner, "module")
            yield f"event {self.events[name]} {owner} {it.signature} {it.merge}"
        yield from (f"endpoint {number} {name}" for name, number in self.endpoints.items())
        own = {f"own {name}": Unit(it.signature, "") for name, it in self.declared.items()}
        for word, units in (("handler", self.coded | own), ("guard", self.tests)):
            yield from (f"{word} {number} {it.signature} {it.does}" for number, it in enumerate(units.values(), 1))
        for name, it in self.declared.items():
            yield from (f"rule {self.events[name]} {rule}" for rule in it.rules)
            if it.authoriser is not None:
                yield f"authoriser {self.events[name]} {it.authoriser}"
        for name, it in self.declared.items():
            if it.default is not None:
                yield f"default {self.events[name]} {number_in(self.handlers, it.default, 'handler')}"

    def text(self) -> bytes:
        """The text of it."""
        return "".join(f"{line.rstrip()}\n" for line in self._lines()).encode()


# What Library.open takes: a text, a script, or events by their signatures.
Declared = bytes | Script | Mapping[str, str | Event]


def script_of(declared: Declared) -> tuple[bytes, Script]:
    """The text, and what it declares by names; a text of the host's own has none."""
    if isinstance(declared, Script):
        return declared.text(), declared
    if isinstance(declared, Mapping):
        script = Script(declared)
        return script.text(), script
    return bytes(declared), Script({})
