"""How often bindings and guards were hit, how raises were answered, what was dropped, and what endpoints were sent.

The counts of a run are taken from its report, line by line; those of `filter` are its program's. Either way they come as a
table or as JSON. A guard's count is how often a binding that it guards was let run. Nothing is proved of them.
"""

import json
import re
from collections import Counter
from collections.abc import Iterable
from typing import Any

from wrapper.bindings import Binding, Bindings
from wrapper.counts import ANSWERS, DROPS, REFUSALS
from wrapper.reading import COMMANDS, NAMED, Line, Script
from wrapper.told import endpoint_words

# What is said of a run: values of JSON by their names.
Told = dict[str, Any]

STEP = re.compile(r" (run|job|send|drop) (\w+)(?: ([0-9]+))?")


class Hits:
    """The counts of a report's lines so far, each under its name, as `run 0 1` or `bytes 0`."""

    def __init__(self, script: Script) -> None:
        """Begins before the first line."""
        self.script, self.bindings = script, Bindings(script)
        self.counts: Counter[str] = Counter()

    def take(self, line: Line) -> None:
        """Takes a line of the report."""
        if line.kind == "entry" and line.words[0] in COMMANDS:
            self.counts["accepted" if line.words[1] == "ok" else "refused"] += 1
            if line.words[1] == "ok":
                self.bindings.take(line.place, self.script.deeds[line.line].words)
        elif line.kind in ("entry", "job"):
            self.take_reply(line)
        elif line.kind == "lost":
            self.counts[f"lost {line.index}"] += int(line.words[0])
        elif line.kind == "end" and len(line.words) > 1:
            self.counts.update(records=int(line.words[2]), used=int(line.words[4]), cut=int(line.words[6]))

    def take_reply(self, line: Line) -> None:
        """Takes an entry of a raise, or a job; a job's answer isn't a raise's."""
        is_job = line.kind == "job"
        self.counts["jobs"] += is_job
        if line.is_refused and not is_job:
            self.counts[line.words[line.words.index("refused") + 2]] += 1
        elif not is_job and "=" in line.words:
            self.counts[line.words[len(line.words) - line.words[::-1].index("=")]] += 1
        # the handler that a job is left runs without a test of its guards
        untested = is_job and self.script.deeds[line.line].words[0] != "later"
        for found in STEP.finditer(f" {' '.join(line.words)}"):
            self.take_step(line.place, untested, found[1], found[2], found[3])
            untested = False

    def take_step(self, place: int, untested: bool, kind: str, first: str, second: str) -> None:
        """Takes a step."""
        if kind == "drop":
            self.counts[f"drop {first}"] += 1
        elif kind == "send":
            self.counts.update({f"send {first}": 1, f"bytes {first}": int(second)})
        else:
            self.counts[f"{'left' if kind == 'job' else 'run'} {first} {second}"] += 1
            if second != "0" and not untested:
                self.counts.update(f"guard {guard}" for guard in self.bindings.at(place, int(second)).guards)


def hits_of(script: Script, lines: Iterable[Line]) -> Told:
    """What a report's lines tell, as `found` has it."""
    hits = Hits(script)
    for line in lines:
        hits.take(line)
    return found(script, hits.bindings, hits.counts)


def add_lets(bindings: Bindings, counts: Counter[str]) -> None:
    """Adds to the counts of bindings that didn't change meanwhile what hangs on how often their guards let them run."""
    for number, past in bindings.past.items():
        one = past[-1][1]
        lets = counts[f"let {one.event} {number}"]
        counts.update({f"guard {guard}": lets for guard in one.guards})
        if one.mode == "async":
            counts[f"left {one.event} {number}"] = lets


def of_binding(one: Binding, counts: Counter[str]) -> dict[str, int | list[int]]:
    """What is said of a binding."""
    name = f"{one.event} {one.number}"
    return {
        "binding": one.number, "event": one.event, "module": one.module, "handler": one.handler,
        "guards": list(one.guards), "runs": counts[f"run {name}"], "left": counts[f"left {name}"],
    }


def names_of(script: Script, kind: str) -> dict[int, str]:
    """The names that comments give to numbers of this kind."""
    return {number: name for (of, number), name in sorted(script.names.items()) if of == kind}


def found(script: Script, bindings: Bindings, counts: Counter[str]) -> Told:
    """The counts as plain values, zeros too."""
    defaults = {event: counts[f"run {event} 0"] for event in script.events}
    defaults = {event: runs for event, runs in defaults.items() if runs or bindings.events[event].default}
    return {
        **{name: counts[name] for name in ("records", "used", "cut") if name in counts},
        "commands": {name: counts[name] for name in ("accepted", "refused")},
        "answers": {name: counts[name] for name in ANSWERS},
        "refusals": {name: counts[name] for name in REFUSALS},
        "jobs": counts["jobs"],
        "bindings": [of_binding(past[-1][1], counts) for _, past in sorted(bindings.past.items())],
        "defaults": [{"event": event, "runs": runs} for event, runs in defaults.items()],
        "guards": [{"guard": guard, "hits": counts[f"guard {guard}"]} for guard in script.guards],
        "drops": {name: counts[f"drop {name}"] for name in DROPS},
        "endpoints": [
            {"endpoint": at, "name": words[0], "sends": counts[f"send {at}"], "bytes": counts[f"bytes {at}"],
             "lost": counts[f"lost {at}"]}
            for at, words in script.endpoints.items()
        ],
        "names": {kind: names for kind in NAMED if (names := names_of(script, kind))},
    }


def as_json(told: Told) -> str:
    """The counts as JSON."""
    return json.dumps(told, indent=1) + "\n"


def rows_of(script: Script, told: Told) -> list[tuple[str, int, str]]:
    """The rows of the table: what is counted, how often, and what else there is to it."""
    rows = [(name, told[name], "") for name in ("captures", "records", "used", "cut") if name in told]
    rows += [(f"commands {name}", count, "") for name, count in told["commands"].items()]
    rows += [(f"answered {name}", count, "") for name, count in told["answers"].items()]
    rows += [(f"refused {name}", count, "") for name, count in told["refusals"].items()]
    rows.append(("jobs", told["jobs"], ""))
    called = script.called
    for one in told["bindings"]:
        name = f"#{one['binding']} of {called('event', one['event'])}, {called('handler', one['handler'])}"
        guards = "".join(f", {called('guard', guard)}" for guard in one["guards"])
        rows.append((name + guards, one["runs"], f"and {one['left']} left to jobs" if one["left"] else ""))
    rows += [(f"default of {script.called('event', one['event'])}", one["runs"], "") for one in told["defaults"]]
    rows += [(f"{script.called('guard', one['guard'])} let run", one["hits"], "") for one in told["guards"]]
    rows += [(f"dropped {name}", count, "") for name, count in told["drops"].items()]
    for one in told["endpoints"]:
        lost = f"; lost pieces: {one['lost']}" if one["lost"] else ""
        rows.append((f"sent to {endpoint_words(script, one['endpoint'])}", one["sends"], f"{one['bytes']} bytes{lost}"))
    return rows


def as_table(script: Script, told: Told) -> str:
    """The counts as a table."""
    rows = rows_of(script, told)
    widths = max(len(row[0]) for row in rows), max(len(str(row[1])) for row in rows)
    return "".join(f"{name:{widths[0]}}  {count:>{widths[1]}}  {more}".rstrip() + "\n" for name, count, more in rows)
