"""What lines of a report say, in words: rows of text for pictures and for the session."""

from collections.abc import Iterable
from dataclasses import dataclass

from wrapper.bindings import Binding, Bindings
from wrapper.reading import Line, Script, Step, number, reply_of
from wrapper.replay import Changed, Gave, Met, Raised, words_of_done
from wrapper.svg import shortened
from wrapper.values import Argument

# So many bindings whose guards don't hold are told one by one.
MOST_PASSED = 3

# A guard's text is cut to so many letters.
GUARD_MOST = 60


@dataclass
class Row:
    """A row of text: how deep it stands, and how it looks: `b` bold, `faint`, or plain."""

    text: str
    depth: int = 0
    look: str = ""


def value_text(value: Argument) -> str:
    """An argument."""
    return str(value) if isinstance(value, int) else shortened(f"x{value.hex()}").replace("(", " (")


def guard_text(script: Script, which: int) -> str:
    """A guard as its script has it, behind its name where it has one."""
    text = " ".join(script.guards[which][1:])
    text = f"({text if len(text) <= GUARD_MOST else text[:GUARD_MOST - 2] + ' …'})"
    return " ".join([*filter(None, [script.names.get(("guard", which))]), text])


def binding_words(script: Script, one: Binding) -> str:
    """A binding's handler, and its mode where it isn't plain."""
    mode = "" if one.mode == "plain" else f" {one.mode}"
    return f"#{one.number} {script.called('handler', one.handler)}{mode}"


def endpoint_words(script: Script, which: int) -> str:
    """An endpoint with its name, and behind it the one that a comment gives."""
    words = [f"endpoint {which}", *script.endpoints.get(which, [])]
    given = script.names.get(("endpoint", which))
    return " ".join([*words, f"({given})"] if given else words)


def rule_words(script: Script, event: int, which: int) -> str:
    """The rule of the event's owner by which something was refused."""
    if not which:
        return f"no rule of {script.called('event', event)} allows it"
    rules = script.rules.get(event)
    if not rules:
        return f"rule {which} of {script.authorisers.get(event, 'the authoriser')}"
    low, high, kind, handler, own = rules[which - 1][:5]
    effect = " ".join(rules[which - 1][5:])
    return f"rule {which}: modules {low} to {high}, {kind}, handler {handler}, {own}: {effect}"


def refusal_words(script: Script, deed: list[str], words: list[str]) -> str:
    """Why a command or a raise was refused, in words; the words are those behind `refused`."""
    name = words[1].replace("_", " ")
    if words[1] in ("denied", "forced_mode"):
        return f"{name}: {rule_words(script, number(deed[1]), int(words[2]))}"
    if words[1] == "conflict":
        return f"{name}: {' before '.join([*words[2:], words[2]])}"
    if words[1] in ("wrong_args", "wrong_type"):
        event = number(deed[1])
        return f"{name}: {script.called('event', event)} has the signature {script.events[event][1]}"
    return name


class Teller:
    """Tells steps of replies, with the bindings as they were at a place."""

    def __init__(self, script: Script, bindings: Bindings) -> None:
        """Takes the script, and the bindings that are followed beside it."""
        self.script, self.bindings = script, bindings

    def run(self, place: int, words: list[str]) -> str:
        """A handler that runs."""
        event, which = map(int, words)
        if not which:
            return f"{self.script.called('event', event)}: its default"
        return binding_words(self.script, self.bindings.at(place, which))

    def endpoint(self, which: int | str) -> str:
        """An endpoint with its name."""
        return endpoint_words(self.script, int(which))

    def step(self, place: int, step: Step) -> str:
        """One step that isn't a raise upwards."""
        if step.kind == "run":
            return self.run(place, step.words)
        if step.kind == "result":
            return f"gives {step.words[0]}"
        if step.kind == "send":
            return f"sends {step.words[1]} bytes to {self.endpoint(step.words[0])}"
        if step.kind == "drop":
            return f"drops it: {step.words[0].replace('_', ' ')}"
        return f"{self.run(place, step.words)}: left to a job"

    def steps(self, place: int, steps: Iterable[Step], depth: int) -> list[Row]:
        """The rows of steps; a result stands behind its handler."""
        rows: list[Row] = []
        for step in steps:
            if step.kind == "up":
                rows.append(Row(f"↑ raises {self.script.called('event', step.words[0])}", depth + 1))
                rows += self.steps(place, step.inner, depth + 2)
                rows.append(Row(f"= {step.answer}", depth + 2, "faint"))
            elif step.kind == "result" and rows and rows[-1].text.startswith(("#", "event")):
                rows[-1].text += f" gives {step.words[0]}"
            else:
                rows.append(Row(self.step(place, step), depth + (step.kind not in ("run", "job"))))
        return rows

    def raised(self, raised: Raised, depth: int = 1) -> list[Row]:
        """The rows of a raise that was worked anew: as those of its steps, with what the report doesn't tell."""
        rows, passed = list[Row](), list[Met]()
        for met in raised.met:
            if met.runs:
                rows += self.passed_over(passed, depth) + self.met(met, depth)
                passed = []
            else:
                passed.append(met)
        return rows + self.passed_over(passed, depth)

    def name_of(self, met: Met) -> str:
        """A binding, or the event's default, that a raise came to."""
        event = self.script.called("event", met.event)
        return binding_words(self.script, met.binding) if met.binding else f"{event}: its default"

    def met(self, met: Met, depth: int) -> list[Row]:
        """The rows of a binding, or a default, that runs or is left to a job."""
        name = self.name_of(met)
        rows = [Row(f"{name}: left to a job" if met.is_left else name, depth)]
        for done in met.did:
            if isinstance(done, Changed):
                change = f"a{done.argument}: {value_text(done.before)} → {value_text(done.after)}"
                rows.append(Row(change, depth + 1, "b"))
            elif isinstance(done, Gave) and len(rows) == 1:
                rows[0].text += f" gives {done.value}"
            else:
                kind, *words = words_of_done(done)
                rows.append(Row(self.step(0, Step(kind, words)), depth + 1))
        for up in met.ups:
            rows.append(Row(f"↑ raises {self.script.called('event', up.event)}", depth + 1))
            rows += [*self.raised(up, depth + 2), Row(f"= {up.answer}", depth + 2, "faint")]
        return rows

    def passed_over(self, passed: list[Met], depth: int) -> list[Row]:
        """The rows of bindings, one after another, of which a guard didn't hold; many are told in one row."""
        if len(passed) > MOST_PASSED:
            numbers = " ".join(f"#{met.number}" for met in passed)
            return [Row(f"✗ no guard holds of {len(passed)} bindings: {numbers}", depth, "faint")]
        rows = []
        for met in passed:
            failed = next(guard for guard in met.tested if not guard.holds)
            name = [*["imposed"] * failed.is_imposed, *filter(None, [self.script.names.get(("guard", failed.number))])]
            test = " ".join([*name, failed.text])
            rows.append(Row(f"✗ {self.name_of(met)}: {test}: no", depth, "faint"))
        return rows

    def reply(self, line: Line) -> list[Row]:
        """The rows of a reply and of its answer."""
        steps, answer = reply_of(line) or ([], "")
        return [*self.steps(line.place, steps, 1), Row(f"= {answer}", 1, "b")]

    def head(self, line: Line) -> str:
        """What was asked, as the script has it."""
        deed = self.script.deeds[line.line].words
        if line.kind == "job":
            which = f", its job {line.index}" if line.index else ""
            return f"job of line {line.source}{which}"
        if line.part:
            return f"packet {line.part} of {self.script.called('event', number(deed[1]))}"
        text = " ".join(shortened(word) for word in deed)
        # constraints that name nobody say nothing
        return text.replace(" before 0 after 0", "") if deed[0] == "install" else text

    def named(self, deed: list[str]) -> str:
        """What the numbers of a command stand for, where comments name them."""
        by_deed = {"install": "event module handler guard", "replace": "event module - handler guard"}
        kinds = by_deed.get(deed[0], "event module handler" if deed[0] == "default" else "event module")
        known = [(kind, number(word)) for kind, word in zip(kinds.split(), deed[1:]) if kind != "-"]
        return ", ".join(self.script.called(*one) for one in known if one in self.script.names)

    def entry(self, line: Line, root: Raised | None = None) -> list[Row]:
        """The rows of an entry or a job, its head first; with the raise that was worked anew, they tell more."""
        deed = self.script.deeds[line.line].words
        head = Row(self.head(line), 0, "b")
        if line.is_refused:
            words = line.words[line.words.index("refused") + 1:]
            return [head, Row(f"✗ refused: {refusal_words(self.script, deed, words)}", 1)]
        if line.kind == "entry" and line.words[1:] == ["ok"]:
            head.text = f"✓ {head.text}"
            return [head]
        if line.kind == "entry" and line.words[0] == "later":
            return [head, Row("left to a job", 1)]
        if root is not None:
            return [head, *self.raised(root), Row(f"= {root.answer}", 1, "b")]
        return [head, *self.reply(line)]
