"""The functions of a host's that stand for bindings, which all seats of a hub share."""

import threading
from collections.abc import Callable, Iterator
from dataclasses import dataclass, field
from typing import Any, Protocol

# A handler and a guard of the host's, which are called with the arguments of the raise.
Handler = Callable[..., Any]
Guard = Callable[..., Any]


@dataclass
class Entry:
    """What stands for a binding from a place on, and what stood for it before."""

    since: int
    handler: Handler | None
    guard: Guard | None
    name: str | None = None
    older: "Entry | None" = None


class Raises(Protocol):
    """A seat, of which is asked whether a raise is open on it."""

    is_raising: bool


@dataclass
class Functions:
    """By the numbers of bindings, and, for defaults, by events below 0: the event k at -1 - k. What is taken out stays
    until no raise is open any more that began before: a raise tells what was bound when it began."""

    entries: dict[int, Entry] = field(default_factory=dict)
    names: dict[str, int] = field(default_factory=dict)
    seats: list[Raises] = field(default_factory=list)
    lock: Any = field(default_factory=threading.RLock)
    gone: list[int] = field(default_factory=list)

    def find(self, key: int, place: int) -> Entry | None:
        """What stands for a key at a place."""
        entry = self.entries.get(key)
        while entry is not None and entry.since > place:
            entry = entry.older
        return entry

    def enter(self, key: int, entry: Entry) -> None:
        """Enters what stands for a key from now on."""
        entry.older = self.entries.get(key)
        self.entries[key] = entry
        if entry.name is not None:
            self.names[entry.name] = key

    def remove(self, key: int, place: int) -> None:
        """Takes out what stands for a key, from a place on."""
        if key in self.entries:
            self.enter(key, Entry(place, None, None))
            self.names = {name: number for name, number in self.names.items() if number != key}
            self.gone.append(key)
            self.sweep()

    def sweep(self) -> None:
        """Lets go of what was taken out, or stood before something else, where no raise is open."""
        with self.lock:
            if any(seat.is_raising for seat in self.seats):
                return
            for key in self.gone:
                entry = self.entries.pop(key, None)
                if entry is not None and (entry.handler or entry.guard):
                    self.entries[key] = entry
                    entry.older = None
            self.gone.clear()

    def renumber(self, before: Iterator[int]) -> None:
        """Gives each the number that its binding has now: the k-th of these is the number that k had."""
        now = {old: number for number, old in enumerate(before, 1)}
        held = {now.get(key, key): entry for key, entry in self.entries.items() if key in now or key < 0}
        self.entries.clear()
        for key, entry in held.items():
            self.entries[key] = Entry(0, entry.handler, entry.guard, entry.name)
        self.names = {it.name: key for key, it in self.entries.items() if it.name is not None}
