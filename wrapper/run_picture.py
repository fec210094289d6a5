"""A run as one picture: lanes side by side, time downwards, a band for each segment and place, bindings in their order.

It draws what the report says, and needs a report that was judged a run's. Beside that it draws what is found where an
entry is worked anew: guards that didn't hold, and arguments that changed. Of a large run many entries are drawn as one.
"""

from collections.abc import Iterable, Mapping, Set

from wrapper.bindings import Binding, Bindings
from wrapper.folding import Band, Box, bands_of, head_of, is_accepted, is_large, told_of
from wrapper.frames import frame_words
from wrapper.reading import COMMANDS, DECLARED, Line, Script, all_steps, number, reply_of
from wrapper.records import Records
from wrapper.svg import CHAR, KINDS, LINE, PAD, Drawn, Sheet, legend, marks, width_of, wrapped
from wrapper.told import Row, Teller, guard_text
from wrapper.why import Because, explain

GUTTER, SIDE, TRACK, TRACKS = 58, 430, 5, 6
STEP = 9            # how far each level of a reply stands to the right
REPEAT = 900        # so many pixels below the last ones the lanes' names stand again
WHOLE_CHIPS = 12    # of more bindings only the changed one is written out, and the others tell theirs as titles
DECLARED_MOST = 80
MARKS = {"plain": "", "filter": " filter", "async": " async"}


def constraints(one: Binding) -> str:
    """Where a binding wants to stand, in words."""
    words = [] if one.place == "free" else [one.place]
    for name, numbers in (("before", one.before), ("after", one.after)):
        words += [name, *map(str, numbers)] if numbers else []
    return " ".join(words)


def chip_text(script: Script, one: Binding) -> str:
    """A binding as its chip says it: who asked for it, where there are several modules, and under which guards."""
    guards = [f"if {guard_text(script, one.guard)}"] if one.guard else []
    guards += [f"imposed if {guard_text(script, which)}" for which in one.imposed]
    name = f"#{one.number} {script.called('handler', one.handler)}{MARKS[one.mode]}"
    asked = [f"by {script.called('module', one.module)}"] if script.modules > 1 else []
    return " ".join([name, *asked, *guards, constraints(one)]).strip()


def segments_of(lines: Iterable[Line]) -> list[list[Line]]:
    """The entries, jobs and losses of each segment of a report."""
    segments: list[list[Line]] = []
    for line in lines:
        if line.kind == "segment":
            segments.append([])
        elif line.kind in ("entry", "job", "lost"):
            segments[-1].append(line)
    return segments


def explained(
    script: Script, lines: Iterable[Line], records: Records | None, bands: Iterable[Band],
) -> dict[str, Because]:
    """Why the first line of each box says what it does; what a job was left by is worked for it too."""
    first = [box[0] for band in bands for box in band.boxes]
    wanted = {line.text for line in first}
    left_by = {(line.lane, line.source) for line in first if line.kind == "job"}
    is_wanted = lambda line: line.text in wanted or (line.lane, line.source) in left_by
    return {found.line.text: found for found in explain(script, lines, records, is_wanted)}


def short_chip(one: Binding) -> str:
    """A binding among many."""
    return f"#{one.number}" + {"plain": "", "filter": "f", "async": "a"}[one.mode] + ("g" if one.guards else "")


class RunPicture:
    """The drawing of one run."""

    def __init__(self, script: Script, lines: list[Line], records: Records | None = None) -> None:
        """Lays out the columns for the lanes that have entries; without records nothing is worked anew of packets."""
        self.script, self.lines, self.records = script, lines, records
        self.segments = segments_of(lines)
        self.bands = [bands_of(script, found, is_large(lines)) for found in self.segments]
        self.because = explained(script, lines, records, [band for bands in self.bands for band in bands])
        self.whys: list[str] = []
        self.bindings = Bindings(script)
        self.teller = Teller(script, self.bindings)
        self.lanes = sorted({line.lane for line in lines if line.kind in ("entry", "job")}) or [0]
        self.each = {1: 430, 2: 400, 3: 340, 4: 320}.get(len(self.lanes), 290)
        self.side = GUTTER + self.each * len(self.lanes)
        self.sheet = Sheet(self.side + SIDE)
        self.y, self.named = 0.0, 0.0
        self.left: dict[tuple[int, str], tuple[float, float, float]] = {}
        self.tracks: dict[int, int] = {}
        self.values: dict[str, set[int]] = {"lane": set(), "event": set(), "binding": set()}

    def at(self, lane: int) -> float:
        """Where the column of a lane begins."""
        return GUTTER + self.each * self.lanes.index(lane)

    def draw(self) -> str:
        """Draws all, and answers the picture's text."""
        self.heading()
        notes, bands = list[Line](), iter(zip(self.segments, self.bands))
        for line in self.lines:
            if line.kind == "segment":
                self.segment_head(line, notes)
                self.segment(*next(bands))
                notes = []
            elif line.kind == "retire":
                notes.append(line)
            elif line.kind == "end":
                self.foot(line)
        return self.sheet.write(self.y, "a run of the dispatcher, lane by lane, time downwards")

    # ---- what stands at the top

    def declared(self) -> list[str]:
        """What the script declares, in its own words."""
        script = self.script
        rows = [f"{script.called('module', which)}" for kind, which in sorted(script.names) if kind == "module"]
        for kind in DECLARED:
            rows += [f"{script.called(kind, which)}: {' '.join(words)}" if (kind, which) in script.names else
                     f"{kind} {which} {' '.join(words)}" for which, words in getattr(script, DECLARED[kind]).items()]
        for event, rules in script.rules.items():
            rows += [f"rule {at} of event {event}: {' '.join(words)}" for at, words in enumerate(rules, 1)]
        rows += [f"authoriser of event {event}: {name}" for event, name in script.authorisers.items()]
        called = lambda which: script.called("handler", which)
        rows += [f"default of event {event}: {called(which)}" for event, which in script.defaults.items()]
        if len(rows) > DECLARED_MOST:
            rows = rows[:DECLARED_MOST] + [f"and {len(rows) - DECLARED_MOST} more lines"]
        return rows

    def heading(self) -> None:
        """The legend, and what the script declares in two columns."""
        kinds = {self.kind_of(line) for line in self.lines if line.kind in ("entry", "job")}
        kinds |= {"send"} if any(self.sends(line) for line in self.lines) else set()
        kinds |= {"retire"} if any(line.kind == "retire" for line in self.lines) else set()
        self.y = legend(self.sheet, 8, 18, {kind: of[2] for kind, of in KINDS.items() if kind in kinds}) + 12
        half = self.sheet.width / 2 - 8
        rows = [wrapped(text, half - 16) for text in self.declared()]
        middle = (sum(map(len, rows)) + 1) // 2
        x, y, done = 8.0, self.y, 0
        for shown in rows:
            if x == 8 and done >= middle:
                x, y = half + 8, self.y
            for at, text in enumerate(shown):
                self.sheet.text(x + (12 if at else 0), y, text, "faint")
                y += LINE
            done += len(shown)
        self.y += middle_height(rows, middle) + 2

    def lane_names(self) -> None:
        """The names of the columns."""
        self.sheet.text(8, self.y + 12, "place", "faint")
        for lane in self.lanes:
            self.sheet.text(self.at(lane) + TRACK * TRACKS + 6, self.y + 12, f"lane {lane}", "b")
        self.sheet.text(self.side + 8, self.y + 12, "the event's bindings as they run; the changed one is filled", "b")
        self.y += 18
        self.named = self.y

    def segment_head(self, line: Line, notes: list[Line]) -> None:
        """The band of a segment, its retirements in it."""
        self.sheet.box(0, self.y, self.sheet.width, 22, "band")
        x = 8.0
        text = f"segment {line.index} at place {line.place}"
        self.sheet.text(x, self.y + 15, text, "h")
        x += len(text) * 8 + 20
        for note in notes:
            name = self.teller.endpoint(note.index)
            text = f"{name} is retired" if note.words == ["ok"] else f"{name}: none stands to be retired"
            if x + width_of(text) + 14 > self.sheet.width:
                self.y, x = self.y + 22, 8
                self.sheet.box(0, self.y, self.sheet.width, 22, "band")
            self.sheet.box(x, self.y + 3, width_of(text) + 10, 16, "retire fill", note.text)
            self.sheet.text(x + 5, self.y + 15, text)
            x += width_of(text) + 18
        self.y += 26
        self.lane_names()

    # ---- a segment

    def segment(self, lines: list[Line], bands: Iterable[Band]) -> None:
        """The bands of a segment's places, of its jobs and of its deliveries."""
        self.left, self.tracks = {}, dict.fromkeys(self.lanes, 0)
        sources = {(line.lane, line.source) for line in lines if line.kind == "job"}
        for band in bands:
            self.band(band, sources)
        self.deliveries(lines)

    def band(self, band: Band, sources: Set[tuple[int, str]]) -> None:
        """The boxes of one place, of several, or of the jobs, and the bindings beside them."""
        if self.y - self.named > REPEAT:
            self.lane_names()
        top = self.y
        self.sheet.path(f"M0 {top:.7g}H{self.sheet.width:.0f}", "rule")
        self.sheet.text(8, top + 15, band.label, "b")
        right = self.changed([line for box in band.boxes for line in box if is_accepted(line)], top + 3)
        ends = dict.fromkeys(self.lanes, top + 3)
        for box in band.boxes:
            lane = box[0].lane
            left = [line for line in box if line.kind == "entry" and (lane, line.source) in sources]
            where = self.at(lane), ends[lane], left
            ends[lane] += self.many(box, *where) if len(box) > 1 else self.entry(box[0], *where)
        self.y = max(right, *ends.values()) + 3

    def changed(self, accepted: Iterable[Line], y: float) -> float:
        """Follows accepted commands, and draws the bindings of the events that they change; answers where they end."""
        places: dict[int, set[int]] = {}
        for line in sorted(accepted, key=lambda one: one.place):
            event = self.bindings.take(line.place, self.script.deeds[line.line].words)
            places.setdefault(event, set()).add(line.place)
        for event, changed in places.items():
            y = self.order(event, changed, y)
        return y

    @staticmethod
    def kind_of(line: Line) -> str:
        """Which kind of box a line has."""
        if line.is_refused:
            return "refused"
        if line.kind == "job":
            return "later"
        return "ok" if line.words[0] in COMMANDS else line.words[0]

    def found(self, line: Line) -> dict[str, set[int]]:
        """The events and bindings that a line speaks of."""
        deed = self.script.deeds[line.line].words
        events, bindings = {number(deed[1])}, set[int]()
        if is_accepted(line) and deed[0] == "install":
            bindings.add(line.place)
        elif deed[0] in ("remove", "replace"):
            bindings.add(number(deed[3]))
        for step in all_steps((reply_of(line) or ([], ""))[0]):
            if step.kind in ("run", "job"):
                events.add(int(step.words[0]))
                bindings |= {int(step.words[1])} - {0}
            elif step.kind == "up":
                events.add(int(step.words[0]))
        return {"lane": {line.lane}, "event": events, "binding": bindings}

    def rows_of(self, line: Line, why: Because) -> list[Row]:
        """The rows of the box of an entry or a job: of a packet with its addresses."""
        rows = self.teller.entry(line, why.outcome.root if why.outcome and why.agrees else None)
        if line.part and line.kind == "entry" and self.records is not None:
            rows.insert(1, Row(frame_words(self.records.frame(line.line, line.part)), 1))
        return rows

    def entry(self, line: Line, x: float, y: float, left: list[Line]) -> float:
        """The box of an entry or a job; answers its height with the room below it."""
        why = self.because[line.text]
        self.sheet.begin(f"item {line.kind}", line.text, self.data(self.found(line), why.lines))
        lead = "" if line.kind == "job" else line.source
        return self.box([line], self.rows_of(line, why), lead, (x, y), left)

    def many(self, box: Box, x: float, y: float, left: list[Line]) -> float:
        """The box of many entries or jobs; answers its height with the room below it."""
        found: dict[str, set[int]] = {}
        for line in box:
            for name, of in self.found(line).items():
                found.setdefault(name, set()).update(of)
        rows = told_of(box)
        head = f"{head_of(self.script, box)}, lines {box[0].source} to {box[-1].source}"
        lines = [head, *(f"  {row}" for row in rows), "the first of them:", *self.because[box[0].text].lines]
        data = f'{self.data(found, lines)} data-count="{len(box)}"'
        self.sheet.begin(f"item {box[0].kind}", f"{head}: from `{box[0].text}` to `{box[-1].text}`", data)
        return self.box(box, [Row(head, 0, "b"), *(Row(row, 1) for row in rows)], "", (x, y), left)

    def data(self, found: Mapping[str, set[int]], why: Iterable[str]) -> str:
        """The attributes by which a page finds a box, and why it says what it does."""
        for name, of in found.items():
            self.values[name] |= of
        self.whys.append("\n".join(why))
        return f'{marks(found)} data-why="{len(self.whys) - 1}"'

    def box(self, lines: Box, rows: list[Row], lead: str, corner: tuple[float, float], left: list[Line]) -> float:
        """Draws the box of these lines at the left of a corner, and what joins it to others; answers its height."""
        x, y = corner[0] + TRACK * TRACKS + 4, corner[1]
        wide, shown = self.each - TRACK * TRACKS - 12, list[tuple[float, str, str]]()
        for row in rows:
            indent = row.depth * STEP + (width_of(f"{lead} ") if lead and not row.depth else 0)
            for at, text in enumerate(wrapped(row.text, wide - 2 * PAD - indent - 2 * CHAR)):
                shown.append((indent + (2 * CHAR if at else 0), text, row.look))
        high = LINE * len(shown) + PAD
        one = next((line for line in lines if not line.is_refused), lines[0])
        self.sheet.box(x, y, wide, high, f"{self.kind_of(one)} fill")
        if lead:
            self.sheet.text(x + PAD, y + LINE - 1, lead, "faint")
        for at, (indent, text, look) in enumerate(shown):
            self.sheet.text(x + PAD + indent, y + LINE * (at + 1) - 1, text, look)
        self.sheet.end()
        self.leave(left, x, y)
        if lines[0].kind == "job":
            self.join(lines[0], x, y + high / 2)
        return high + 4

    def leave(self, lines: list[Line], x: float, y: float) -> None:
        """Keeps where entries stand that have left jobs, and by which track these are joined to them."""
        if lines:
            track = self.tracks[lines[0].lane]
            self.tracks[lines[0].lane] = (track + 1) % TRACKS
        for line in lines:
            self.left[line.lane, line.source] = x, y + 8, x - 4 - TRACK * (track + 1)

    def join(self, line: Line, x: float, y: float) -> None:
        """Joins a job, or the first of many, to the entry that left it."""
        there, above, track = self.left[line.lane, line.source]
        shape = f"M{there:.5g} {above:.7g}H{track:.5g}V{y:.7g}H{x:.5g}m-5 -3l5 3l-5 3"
        self.sheet.path(shape, "later item join", f"line {line.source} left this job", marks(self.found(line)))

    # ---- bindings and deliveries

    def order(self, event: int, changed: Set[int], y: float) -> float:
        """The bindings of an event in their order, as chips, those changed at these places filled; where they end."""
        order = self.bindings.order(event)
        is_short = len(order) > WHOLE_CHIPS
        left = self.side + 8
        name = self.script.called("event", event)
        self.sheet.text(left, y + 13, name, "faint")
        first = left + 62
        x: float = first
        if width_of(name) > 58:
            y += LINE + 3
        most = self.sheet.width - 8
        high = 19
        is_whole = lambda one: not is_short or one.number in changed
        chips = [(one, chip_text(self.script, one) if is_whole(one) else short_chip(one)) for one in order]
        for one, text in chips:
            shown = wrapped(text, most - first - 12)
            wide = max(map(width_of, shown)) + 10
            if x > first and x + wide > most:
                x, y, high = first, y + high + 3, 19
            high = max(high, LINE * len(shown) + 4)
            is_new = self.bindings.past[one.number][-1][0] in changed
            self.sheet.box(x, y, wide, LINE * len(shown) + 4, "ok solid" if is_new else "plain", self.chip_title(one))
            for at, line in enumerate(shown):
                self.sheet.text(x + 5, y + 13 + LINE * at, line)
            x += wide + 4
        return self.default_chip(event, x, y, high, bool(order))

    def default_chip(self, event: int, x: float, y: float, high: float, has_bindings: bool) -> float:
        """The event's default behind its bindings, and a word where it has neither; answers where they end."""
        default = self.bindings.events[event].default
        text = "" if has_bindings else "no binding, no default"
        text = f"default: {self.script.called('handler', default)}" if default else text
        if text:
            if x + width_of(text) + 10 > self.sheet.width - 8:
                x, y, high = self.side + 70, y + high + 3, 19
            self.sheet.text(x + 5, y + 13, text, "faint")
        return y + high + 3

    def chip_title(self, one: Binding) -> str:
        """What a chip tells: the binding in full, with its handler and guards as the script has them."""
        called = self.script.called
        asked = f"asked for by {called('module', one.module)}: {chip_text(self.script, one)}"
        rows = [f"binding {one.number} of {called('event', one.event)}, {asked}"]
        rows.append(f"{called('handler', one.handler)} {' '.join(self.script.handlers[one.handler])}")
        rows += [f"{called('guard', which)} {' '.join(self.script.guards[which])}" for which in one.guards]
        return "\n".join(rows)

    @staticmethod
    def sends(line: Line) -> list[tuple[int, int]]:
        """The sends of a line: endpoints and lengths."""
        if line.kind not in ("entry", "job"):
            return []
        steps = all_steps((reply_of(line) or ([], ""))[0])
        return [(int(step.words[0]), int(step.words[1])) for step in steps if step.kind == "send"]

    def deliveries(self, lines: list[Line]) -> None:
        """What a segment's sends come to, endpoint by endpoint."""
        sent: dict[int, tuple[int, int]] = {}
        lost = {line.index: line for line in lines if line.kind == "lost"}
        for line in lines:
            for endpoint, length in self.sends(line):
                count, total = sent.get(endpoint, (0, 0))
                sent[endpoint] = count + 1, total + length
        if not sent:
            return
        self.sheet.path(f"M0 {self.y:.7g}H{self.sheet.width:.0f}", "rule")
        self.sheet.text(8, self.y + 15, "sent", "b")
        x, y = float(GUTTER), self.y + 3
        for endpoint, (count, total) in sorted(sent.items()):
            text = f"{self.teller.endpoint(endpoint)} ← {count} piece{'s' * (count > 1)}, {total} bytes"
            note = lost.get(endpoint)
            if note:
                text += f"; {'all' if int(note.words[0]) == count else note.words[0]} lost"
            wide = width_of(text) + 12
            if x > GUTTER and x + wide > self.sheet.width - 8:
                x, y = GUTTER, y + 24
            self.sheet.box(x, y, wide, 20, "send fill", note.text if note else text)
            self.sheet.text(x + 6, y + 14, text)
            x += wide + 8
        self.y = y + 27

    def foot(self, line: Line) -> None:
        """The report's last line."""
        self.sheet.box(0, self.y, self.sheet.width, 22, "band", line.text)
        words = line.words
        text = f"the end: {words[0]} commands were accepted"
        if len(words) > 1:
            text += f"; of {words[2]} records {words[4]} were dispatched, and the cut rest has {words[6]} bytes"
        self.sheet.text(8, self.y + 15, text, "b")
        self.y += 26


def middle_height(rows: Iterable[list[str]], middle: int) -> int:
    """How high the first of two columns is that part these rows in their middle."""
    first = second = 0
    for shown in rows:
        if first < middle:
            first += len(shown)
        else:
            second += len(shown)
    return LINE * max(first, second)


def draw(script: Script, lines: Iterable[Line], records: Records | None = None) -> Drawn:
    """The picture of a run, with what each box did and why."""
    picture = RunPicture(script, list(lines), records)
    return Drawn(picture.draw(), picture.values, picture.whys, script.names)
