"""The live bindings of each event after each accepted command, and the order in which they run.

They are worked from the script and from what the report accepted, by the definitions in specs/. It is for pictures: what
proves nothing, and judges nothing.
"""

import heapq
from collections.abc import Sequence
from dataclasses import dataclass, field, replace
from typing import NamedTuple

from wrapper.reading import Script, number

RANK = {"first": 0, "free": 1, "last": 2}


@dataclass
class Binding:
    """A binding: its number, module, handler, own guard, imposed guards, place, constraints and mode."""

    number: int
    event: int
    module: int
    handler: int
    guard: int
    imposed: tuple[int, ...]
    place: str
    before: tuple[int, ...]
    after: tuple[int, ...]
    mode: str

    @property
    def guards(self) -> tuple[int, ...]:
        """All guards that have to hold, its own first."""
        return ((self.guard,) if self.guard else ()) + self.imposed


@dataclass
class Wish:
    """Where an install asks to stand: its place, the bindings it wants to go before and after, and its mode."""

    place: str
    before: tuple[int, ...] = ()
    after: tuple[int, ...] = ()
    mode: str = "plain"


# Live bindings by number.
Live = dict[int, Binding]


@dataclass
class Event:
    """An event's live bindings by number, and its default, 0 where it has none."""

    live: Live = field(default_factory=dict)
    default: int = 0


class Effect(NamedTuple):
    """What a rule brings to a binding: imposed guards, and a forced place and mode, `keep` where nothing is forced."""

    imposed: tuple[int, ...] = ()
    place: str = "keep"
    mode: str = "keep"


def read_wish(version: int, words: list[str]) -> Wish:
    """What an install asks for, from its words behind the guard."""
    if version < 3:
        if words[0] == "before":
            return Wish("free", before=(number(words[1]),), mode=words[2])
        if words[0] == "after":
            return Wish("free", after=(number(words[1]),), mode=words[2])
        return Wish(words[0], mode=words[1])
    count = number(words[2])
    before, rest = words[3:3 + count], words[3 + count:]
    count = number(rest[1])
    return Wish(words[0], tuple(map(number, before)), tuple(map(number, rest[2:2 + count])), rest[2 + count])


def matches(rule: Sequence[str], module: int, kind: str, handler: int, is_foreign: bool) -> bool:
    """Whether a rule speaks of the command; it is foreign where it changes a binding of another module."""
    low, high, what, which, own = rule[:5]
    if not number(low) <= module <= number(high) or what not in ("any", kind):
        return False
    return (which == "any" or number(which) == handler) and (own == "all" or not is_foreign)


def effect_of(script: Script, event: int, module: int, kind: str, handler: int, is_foreign: bool) -> Effect:
    """What the rule that lets the command through brings: imposed guards, a forced place and a forced mode."""
    if number(script.events[event][0]) != module:
        for rule in script.rules.get(event, []):
            if matches(rule, module, kind, handler, is_foreign):
                words = rule[5:]
                if words[0] not in ("impose", "force"):
                    break
                end = 2 + number(words[1])
                place, mode = words[end:] if words[0] == "force" else ("keep", "keep")
                return Effect(tuple(map(number, words[2:end])), place, mode)
    return Effect()


class Bindings:
    """The events' bindings; `take` follows an accepted command."""

    def __init__(self, script: Script) -> None:
        """Begins with the script's first defaults and no binding."""
        self.script = script
        self.events = {event: Event(default=script.defaults.get(event, 0)) for event in script.events}
        self.past: dict[int, list[tuple[int, Binding]]] = {}
        self.orders: dict[int, list[Binding]] = {}

    def take(self, place: int, words: list[str]) -> int:
        """Follows the accepted command that has this place, and answers its event's number."""
        kind, event, module = words[0], number(words[1]), number(words[2])
        self.orders.pop(event, None)
        if kind == "install":
            self.install(place, event, module, words)
        elif kind == "remove":
            del self.events[event].live[number(words[3])]
        elif kind == "replace":
            self.replace(place, event, module, words)
        else:
            self.events[event].default = number(words[3]) if kind == "default" else 0
        return event

    def install(self, place: int, event: int, module: int, words: list[str]) -> None:
        """Adds the binding, with what the owner's rule brings."""
        handler = number(words[3])
        wish = read_wish(self.script.version, words[5:])
        imposed, where, how = effect_of(self.script, event, module, "install", handler, False)
        if where != "keep":
            wish = replace(wish, place=where, before=(), after=())
        mode = "async" if how == "async" else wish.mode
        guards = number(words[4]), imposed
        one = Binding(place, event, module, handler, *guards, wish.place, wish.before, wish.after, mode)
        self.keep(place, one)

    def replace(self, place: int, event: int, module: int, words: list[str]) -> None:
        """Gives a binding another handler and other guards."""
        old, handler = self.events[event].live[number(words[3])], number(words[4])
        imposed, _, _ = effect_of(self.script, event, module, "replace", handler, old.module != module)
        self.keep(place, replace(old, handler=handler, guard=number(words[5]), imposed=imposed))

    def keep(self, place: int, one: Binding) -> None:
        """Makes it the binding of its number from this place on."""
        self.events[one.event].live[one.number] = one
        self.past.setdefault(one.number, []).append((place, one))

    def at(self, place: int, which: int) -> Binding:
        """The binding of that number as it was at the place."""
        return [one for since, one in self.past[which] if since <= place][-1]

    def order(self, event: int) -> list[Binding]:
        """The event's live bindings in the order in which they run."""
        if event not in self.orders:
            self.orders[event] = least_order(list(self.events[event].live.values()))
        return self.orders[event]


def precedes(one: Binding, other: Binding) -> bool:
    """Whether the one binding must run before the other."""
    return (RANK[one.place] < RANK[other.place] or other.number in one.before or one.number in other.after)


def least_order(bindings: Sequence[Binding]) -> list[Binding]:
    """The bindings in the least lawful order."""
    waits = {one.number: 0 for one in bindings}
    behind: dict[int, list[int]] = {one.number: [] for one in bindings}
    for one in bindings:
        for other in bindings:
            if one is not other and precedes(one, other):
                behind[one.number].append(other.number)
                waits[other.number] += 1
    by_number = {one.number: one for one in bindings}
    free = [which for which in waits if not waits[which]]
    heapq.heapify(free)
    order = []
    while free:
        which = heapq.heappop(free)
        order.append(by_number[which])
        for later in behind[which]:
            waits[later] -= 1
            if not waits[later]:
                heapq.heappush(free, later)
    return order
