"""Why each entry and job of a report came to what it did, in words: what the report tells, and what a replay finds.

`Why` goes through a report line by line, works each one anew at the bindings as they stood there, and compares what it
comes to with what the report says. Nothing is proved of what is told here.
"""

from collections.abc import Callable, Iterable, Iterator
from dataclasses import dataclass

from wrapper.bindings import Bindings
from wrapper.frames import frame_words
from wrapper.reading import COMMANDS, Line, Script, number
from wrapper.records import Records
from wrapper.replay import Changed, Done, Gave, Met, Outcome, Raised, Replay, Sent, Tested, values_of
from wrapper.told import Teller, binding_words, refusal_words, value_text
from wrapper.values import Argument
from wrapper.verdicts import Judge

INDENT = "  "


@dataclass
class Because:
    """What is said of a line of a report: lines of text, what the replay comes to, and whether the report says so."""

    line: Line
    lines: list[str]
    outcome: Outcome | None = None
    agrees: bool = True


def values_text(values: Iterable[Argument]) -> str:
    """Arguments in a row."""
    return ", ".join(map(value_text, values)) or "no argument"


def length_text(length: int) -> str:
    """So many bytes."""
    return f"{length} byte{'s' * (length != 1)}"


class Why:
    """Goes through a report and says why."""

    def __init__(self, script: Script, records: Records | None = None) -> None:
        """Begins before the first line; without the records nothing is worked of packets."""
        self.script, self.records = script, records
        self.bindings = Bindings(script)
        self.replay, self.judge = Replay(script, self.bindings), Judge(script, self.bindings)
        self.teller = Teller(script, self.bindings)
        self.jobs: dict[tuple[int, str], dict[int, Outcome]] = {}

    def take(self, line: Line, is_wanted: bool = True) -> Because | None:
        """Takes a line of the report; why it says so, where that is wanted of an entry or a job, else None."""
        if line.kind not in ("entry", "job"):
            return None
        deed = self.script.deeds[line.line].words
        is_command = line.kind == "entry" and deed[0] in COMMANDS
        found = self.because(line, deed, is_command) if is_wanted else None
        if is_command and line.words[1] == "ok":
            event = self.bindings.take(line.place, deed)
            if found:
                found.lines += self.order(event)
        return found

    def because(self, line: Line, deed: list[str], is_command: bool) -> Because:
        """Why a line says what it does."""
        if is_command:
            return self.of_command(line, deed)
        if line.kind == "job":
            outcome = self.jobs.get((line.lane, line.source), {}).get(line.index)
        else:
            outcome = self.worked(line, deed)
        if outcome is None:
            rows = [INDENT * row.depth + row.text for row in self.teller.entry(line)[1:]]
            return Because(line, [self.head(line), *rows, f"{INDENT}its record isn't at hand, so nothing more is told"])
        told = [self.head(line), *self.of_frame(line), *self.of_outcome(line, deed, outcome)]
        said = line.words if line.kind == "job" else line.words[1:]
        return self.compared(Because(line, told, outcome), outcome.words, said)

    def of_frame(self, line: Line) -> list[str]:
        """What the frame of a packet is."""
        if not line.part or line.kind != "entry" or self.records is None:
            return []
        return [f"{INDENT}{frame_words(self.records.frame(line.line, line.part))}"]

    def worked(self, line: Line, deed: list[str]) -> Outcome | None:
        """What a raise comes to, and with it the jobs that it leaves; None where its record isn't at hand."""
        if not line.part:
            given = values_of(deed[2:])
        elif self.records is None:
            return None
        else:
            given = [self.records.frame(line.line, line.part)]
        outcome = self.replay.deed(number(deed[1]), given, deed[0] == "later")
        if outcome.calls:
            calls = enumerate(outcome.calls)
            self.jobs[line.lane, line.source] = {index: self.replay.job(call) for index, call in calls}
        return outcome

    @staticmethod
    def compared(found: Because, words: list[str], said: list[str]) -> Because:
        """What is told, with a line more where the report says something else."""
        if words != said:
            found.agrees = False
            came = f"{INDENT}! worked anew this comes to `{' '.join(words)}`"
            found.lines.append(f"{came}, and the report says otherwise: `{' '.join(said)}`")
        return found

    def head(self, line: Line) -> str:
        """What was asked, and where it stands."""
        deed = self.script.deeds[line.line].words
        named = self.teller.named(deed) if deed[0] in COMMANDS else ""
        more = f" ({named})" if named else ""
        return f"line {line.source}, lane {line.lane}, at place {line.place}: {self.teller.head(line)}{more}"

    def order(self, event: int) -> list[str]:
        """The bindings of an event after a command, in the order in which they run."""
        order = [binding_words(self.script, one) for one in self.bindings.order(event)]
        default = self.bindings.events[event].default
        order += [f"its default, where none runs, is {self.script.called('handler', default)}"] if default else []
        return [f"{INDENT}{self.script.called('event', event)} now runs: {'; '.join(order) or 'nothing'}"]

    # ---- commands

    def of_command(self, line: Line, deed: list[str]) -> Because:
        """Why a command was accepted or refused."""
        verdict, said = self.judge.judge(deed), line.words[1:]
        told = [self.head(line), *(INDENT + rule for rule in verdict.rules)]
        if said[0] == "refused":
            told.append(f"{INDENT}✗ refused: {refusal_words(self.script, deed, said[1:])}")
            told += [f"{INDENT * 2}{verdict.why}"] if verdict.why else []
        else:
            told.append(f"{INDENT}✓ accepted" + (f": it is binding #{line.place}" if deed[0] == "install" else ""))
        # which cycle a conflict tells isn't fixed
        least = 3 if "conflict" in said else len(said)
        return self.compared(Because(line, told), verdict.words, said[:least])

    # ---- raises

    def of_outcome(self, line: Line, deed: list[str], outcome: Outcome) -> list[str]:
        """What is said of a raise or a job."""
        if outcome.root is not None:
            rows = self.of_raised(outcome.root, line.kind == "job" and deed[0] != "later")
            return [INDENT + row for row in rows]
        if outcome.words == ["queued"]:
            return [f"{INDENT}left to a job as a whole"]
        return [f"{INDENT}✗ {self.of_refused(deed, outcome.words[2])}"]

    def of_refused(self, deed: list[str], name: str) -> str:
        """Why a raise was refused."""
        if name == "unknown_event":
            return f"refused: no event {number(deed[1])} is declared"
        if name == "wrong_args":
            signature = self.script.events[number(deed[1])][1]
            given = "one frame" if deed[0] == "packet" else values_text(values_of(deed[2:]))
            return f"refused: {self.script.called('event', number(deed[1]))} takes {signature}, and this is {given}"
        return "refused: it starts more than 4,096 handlers"

    def of_raised(self, raised: Raised, is_bound: bool = False) -> list[str]:
        """A raise: its arguments, each binding in order, and its answer. A bound one is the job of a binding."""
        event = self.script.called("event", raised.event)
        count = sum(met.binding is not None for met in raised.met)
        told = [] if is_bound else [f"{event} is raised with {values_text(raised.arguments)}; "
                                    f"{count or 'no'} binding{'s' * (count != 1)} in order"]
        for met in raised.met:
            told += self.of_met(met, is_bound)
        merge = " ".join(self.script.events[raised.event][2:])
        told += [f"results are merged by {merge}: {'; then '.join(raised.merges)}"] * bool(raised.merges)
        return [*told, f"= {raised.answer}"]

    def of_met(self, met: Met, is_bound: bool) -> list[str]:
        """A binding, or the default, that a raise came to."""
        if met.binding is None:
            name = f"no binding ran, so the default does: {self.script.called('handler', met.handler)}"
        else:
            how = "is left to a job" if met.is_left else "runs" if met.runs else "doesn't run"
            guards = "; its guards aren't tested in a job" if is_bound else "" if met.tested else ", no guard"
            name = f"{binding_words(self.script, met.binding)}{guards}: {how}"
        return [name, *(INDENT + row for row in [*map(self.of_tested, met.tested), *self.of_did(met)])]

    def of_tested(self, tested: Tested) -> str:
        """A guard that was tested, with the values put in."""
        name = ("imposed " if tested.is_imposed else "") + self.script.called("guard", tested.number)
        test = " ".join(self.script.guards[tested.number][1:])
        return f"{name} ({test}): {tested.text}: {'yes' if tested.holds else 'no'}"

    def of_did(self, met: Met) -> list[str]:
        """What a handler did: its steps, and its raises upwards."""
        told = [f"with {values_text(met.before)}"] if met.is_left else []
        told += map(self.of_step, met.did)
        for up in met.ups:
            told += ["it raises upwards:", *(INDENT + row for row in self.of_raised(up))]
        return told

    def of_step(self, done: Done) -> str:
        """One step."""
        if isinstance(done, Changed):
            worked = done.text if done.text == str(done.after) else f"{done.text} = {done.after!s}"
            return f"a{done.argument} was {value_text(done.before)} and is {worked}"
        if isinstance(done, Gave):
            return f"gives {done.value}" if done.text == str(done.value) else f"gives {done.text} = {done.value}"
        if isinstance(done, Sent):
            return f"sends {length_text(done.length)} to {self.teller.endpoint(done.endpoint)}"
        return f"layer {done.layer} drops it: {done.fault.replace('_', ' ')}"


def explain(
    script: Script, lines: Iterable[Line], records: Records | None = None,
    is_wanted: Callable[[Line], bool] = lambda line: True,
) -> Iterator[Because]:
    """Why each entry and job of a report that is wanted says what it does."""
    why = Why(script, records)
    for line in lines:
        found = why.take(line, is_wanted(line))
        if found is not None:
            yield found
