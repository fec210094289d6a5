"""All packets of a run as one icicle: how they climb through layers and guards, where they are dropped, what is sent.

Each bar stands below the one from which its packets came, and is as wide as they are many. The report is read line by
line, and what is kept is a tree of the ways that packets take, whose size is bounded.
"""

from collections.abc import Iterable
from dataclasses import dataclass, field
from typing import NamedTuple

from wrapper.bindings import Bindings
from wrapper.reading import COMMANDS, Line, Script, Step, number, read_reply
from wrapper.records import Records
from wrapper.svg import LINE, Drawn, Sheet, legend, marks, width_of, wrapped
from wrapper.told import endpoint_words, guard_text, refusal_words

WIDTH, HIGH, EDGE = 1180, 26, 10
DEEPEST = 60          # a way is followed over so many bars
MOST_NODES = 20_000   # further ways are counted together
NARROWEST = 4         # bars of fewer pixels are drawn as one
OTHER = "other ways"


class Bar(NamedTuple):
    """A bar of a packet's way: its label, its kind of box, what its title adds, and its events and bindings."""

    label: str
    kind: str
    more: str
    found: dict[str, set[int]]


@dataclass
class Node:
    """A bar: its kind of box, how many packets came there, what its title adds, and the bars below it."""

    kind: str
    count: int = 0
    more: str = ""
    found: dict[str, set[int]] = field(default_factory=dict)
    below: dict[str, "Node"] = field(default_factory=dict)


class Shown(NamedTuple):
    """A bar in its place: its upper left corner, how wide it is, its label, and what it shows."""

    y: float
    x: float
    wide: float
    label: str
    node: Node


class Climb:
    """The tree of the ways that the packets of a report take."""

    def __init__(self, script: Script) -> None:
        """Begins with no packet."""
        self.script, self.bindings = script, Bindings(script)
        self.root, self.nodes = Node("packet"), 0
        self.replies: dict[tuple[object, ...], list[Bar]] = {}

    def take(self, line: Line) -> None:
        """Takes a line of the report: an accepted command is followed, and a packet is counted."""
        if line.kind != "entry":
            return
        if line.words[0] in COMMANDS and line.words[1] == "ok":
            self.bindings.take(line.place, self.script.deeds[line.line].words)
            self.replies.clear()
        elif line.words[0] == "packet":
            self.packet(line)

    def packet(self, line: Line) -> None:
        """Counts a packet along its way; packets of one reply since the last command take one way."""
        known = (line.line, *line.words)
        way = self.replies.get(known)
        if way is None:
            way = self.way(line)
            if len(self.replies) < MOST_NODES:
                self.replies[known] = way
        self.root.count += 1
        node = self.root
        for bar in way:
            node = self.below(node, bar)
            node.count += 1

    def below(self, node: Node, bar: Bar) -> Node:
        """That bar below another one; where there is no room for it, the one for other ways."""
        if bar.label not in node.below:
            if self.nodes >= MOST_NODES:
                bar = Bar(OTHER, "plain", "", {})
            self.nodes += bar.label not in node.below
            node.below.setdefault(bar.label, Node(bar.kind, 0, bar.more, bar.found))
        return node.below[bar.label]

    def way(self, line: Line) -> list[Bar]:
        """The bars of one packet, from the first: label, kind, what the title adds, and events and bindings."""
        deed = self.script.deeds[line.line].words
        event = number(deed[1])
        way = [Bar(self.script.called("event", event), "packet", "", {"event": {event}})]
        if line.is_refused:
            words = line.words[line.words.index("refused") + 1:]
            return [*way, Bar(f"✗ {refusal_words(self.script, deed, words)}", "refused", "", {"event": {event}})]
        steps, _ = read_reply(line.words[1:])
        if not steps:
            return [*way, self.stopped(event)]
        self.follow(line.place, steps, way)
        if len(way) > DEEPEST:
            way = way[:DEEPEST] + [Bar("and so on", "plain", "", {})]
        return way

    def stopped(self, event: int) -> Bar:
        """The bar of packets for which no guard of an event holds."""
        return Bar(f"no guard of event {event} holds", "plain", self.script.called("event", event), {"event": {event}})

    def follow(self, place: int, steps: Iterable[Step], way: list[Bar]) -> None:
        """Adds the bars of these steps to a way; results, which differ from packet to packet, are left out."""
        for step in steps:
            if step.kind in ("run", "job"):
                way.append(self.run(place, step))
            elif step.kind == "up":
                event = int(step.words[0])
                way.append(Bar(f"↑ {self.script.called('event', event)}", "packet", "", {"event": {event}}))
                if not step.inner:
                    way.append(self.stopped(event))
                self.follow(place, step.inner, way)
            elif step.kind == "send":
                way.append(Bar(f"sends to {endpoint_words(self.script, int(step.words[0]))}", "send", "", {}))
            elif step.kind == "drop":
                way.append(Bar(f"✗ drops it: {step.words[0].replace('_', ' ')}", "refused", "", {}))

    def run(self, place: int, step: Step) -> Bar:
        """The bar of a handler that runs or is left to a job, with its guards."""
        event, which = map(int, step.words)
        if not which:
            return Bar(f"the default of {self.script.called('event', event)}", "ok", "", {"event": {event}})
        one = self.bindings.at(place, which)
        act = self.script.handlers[one.handler]
        layer = f" {act[act.index('layer') + 1]}" if "layer" in act else ""
        called = self.script.called
        guards = "".join(f", if {guard_text(self.script, guard)}" for guard in one.guards)
        left = ": left to a job" if step.kind == "job" else ""
        label = f"#{which} {called('handler', one.handler)}{layer}{guards}{left}"
        rows = [f"{called('handler', one.handler)} {' '.join(act)}"]
        rows += [f"{called('guard', guard)} {' '.join(self.script.guards[guard])}" for guard in one.guards]
        kind = "later" if step.kind == "job" else "ok"
        return Bar(label, kind, "\n".join(rows), {"event": {event}, "binding": {which}})


class ClimbPicture:
    """The drawing of the tree."""

    def __init__(self, climb: Climb) -> None:
        """Takes the tree that is drawn."""
        self.climb, self.sheet = climb, Sheet(WIDTH)
        self.total = max(1, climb.root.count)
        self.found: list[Shown] = []
        self.listed: list[str] = []
        self.values: dict[str, set[int]] = {"event": set(), "binding": set()}

    def draw(self) -> str:
        """The picture's text."""
        count = self.climb.root.count
        self.sheet.text(EDGE, 20, f"{count:,} packets as they climb; each bar is as wide as its packets are many", "h")
        kinds = {"packet": "an event is raised", "ok": "a handler runs: its guards hold", "send": "sends"}
        kinds |= {"later": "left to a job", "refused": "✗ dropped or refused"}
        top = legend(self.sheet, EDGE, 42, kinds) + 6
        self.bars(self.climb.root, EDGE, top)
        self.found.sort(key=lambda bar: bar[:2])
        for bar in self.found:
            self.bar(*bar)
        y = max((bar.y for bar in self.found), default=top) + HIGH + 22
        if self.listed:
            self.sheet.text(EDGE, y, "bars too narrow for their words, from left to right in each row:", "faint")
            y = self.draw_list(y + 17)
        return self.sheet.write(y, f"{count} packets as they climb")

    def bars(self, node: Node, x: float, y: float) -> None:
        """Finds the bars below one bar, the widest first."""
        rest, scale = 0, (WIDTH - 2 * EDGE) / self.total
        for label, one in sorted(node.below.items(), key=lambda item: (-item[1].count, item[0])):
            if one.count * scale < NARROWEST:
                rest += one.count
                continue
            self.found.append(Shown(y, x, one.count * scale, label, one))
            self.bars(one, x, y + HIGH)
            x += one.count * scale
        if rest:
            self.found.append(Shown(y, x, max(rest * scale, 1), "ways too narrow to be drawn", Node("plain", rest)))

    def bar(self, y: float, x: float, wide: float, label: str, one: Node) -> None:
        """Draws one bar with its label, or with a number under which it is listed."""
        name = f"{label} · {one.count:,}"
        share = f"{name} of {self.total:,} packets, {100 * one.count / self.total:.3g} %"
        for of, found in one.found.items():
            self.values[of] |= found
        self.sheet.begin("item bar", f"{share}\n{one.more}".rstrip(), marks(one.found))
        self.sheet.box(x, y, max(wide - 1, 0.5), HIGH - 2, f"{one.kind} fill" if one.kind != "plain" else "plain")
        room = 8
        if width_of(name) + room > wide:
            self.listed.append(share)
            name, room = str(len(self.listed)), 4
        if width_of(name) + room <= wide:
            self.sheet.text(x + room / 2, y + 16, name)
        self.sheet.end()

    def draw_list(self, y: float) -> float:
        """Draws the list of the narrow bars, and answers where it ends."""
        for key, share in enumerate(self.listed, 1):
            for text in wrapped(f"{key}  {share}", WIDTH - 2 * EDGE):
                self.sheet.text(EDGE, y, text)
                y += LINE
        return y


def draw(script: Script, lines: Iterable[Line], _: Records | None = None) -> Drawn:
    """The picture of all packets of a report's lines, which are read one by one."""
    climb = Climb(script)
    for line in lines:
        climb.take(line)
    picture = ClimbPicture(climb)
    return Drawn(picture.draw(), picture.values, (), script.names)
