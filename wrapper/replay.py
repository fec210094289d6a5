"""Raises and jobs worked anew, binding by binding, by the definitions in specs/.

It works from a script and from the bindings as the report has them, and keeps what the report doesn't tell: bindings
that didn't run, the tests of guards, and arguments before and after. Nothing is proved of it; what it comes to is
compared with the report.
"""

from collections.abc import Callable, Iterable, Mapping
from dataclasses import dataclass, field
from typing import NamedTuple

from wrapper.bindings import Binding, Bindings
from wrapper.layers import LAYERS
from wrapper.reading import Script, number
from wrapper.values import Argument, Code, bytes_at

MOST_STARTS = 4096

# The program's natives, as scripts would write them: docs/FORMATS.md, Natives.
NATIVE_HANDLERS = {"first_word": ["b:w", "result", "f", "0", "0", "8"]}
NATIVE_GUARDS = {"is_ipv4": ["b", "==", "f", "0", "12", "2", "0x0800"]}


class Spent(Exception):
    """More handlers were to start than a raise may start."""


@dataclass
class Tested:
    """A guard that was tested: its number, whether the owner imposed it, its text with the values, whether it holds."""

    number: int
    is_imposed: bool
    text: str
    holds: bool


class Changed(NamedTuple):
    """A handler set an argument: which one, its value before and after, and the text of the expression."""

    argument: int
    before: Argument
    after: Argument
    text: str


class Gave(NamedTuple):
    """A handler gave a result, and the text of the expression."""

    value: int
    text: str


class Sent(NamedTuple):
    """A handler sent so many bytes to an endpoint."""

    endpoint: int
    length: int


class Dropped(NamedTuple):
    """A handler's layer dropped what it read, for this fault."""

    layer: str
    fault: str


# What a handler did.
Done = Changed | Gave | Sent | Dropped


@dataclass
class Met:
    """A binding that a raise came to, None for the event's default; the arguments before and after, and what it did, in
    order."""

    event: int
    binding: Binding | None
    handler: int
    tested: list[Tested] = field(default_factory=list)
    runs: bool = True
    is_left: bool = False
    before: list[Argument] = field(default_factory=list)
    after: list[Argument] = field(default_factory=list)
    did: list[Done] = field(default_factory=list)
    ups: list["Raised"] = field(default_factory=list)

    @property
    def number(self) -> int:
        """The binding's number, 0 for the default."""
        return self.binding.number if self.binding else 0

    @property
    def result(self) -> int | None:
        """The last result that it gave, None where there is none."""
        return next((one.value for one in reversed(self.did) if isinstance(one, Gave)), None)


@dataclass
class Raised:
    """A raise of one event: its arguments, the bindings that it came to, the merged results, and its answer."""

    event: int
    arguments: list[Argument]
    met: list[Met] = field(default_factory=list)
    merges: list[str] = field(default_factory=list)
    answer: str = ""


@dataclass
class Call:
    """What is left to a job: a binding of an event, None for a whole raise, and the arguments."""

    event: int
    binding: Binding | None
    arguments: list[Argument]


@dataclass
class Outcome:
    """What a deed or a job comes to: its raise, None where there is none; the report's words; the calls it leaves."""

    root: Raised | None
    words: list[str]
    calls: list[Call] = field(default_factory=list)


def code_of(table: Mapping[int, list[str]], natives: Mapping[str, list[str]], which: int) -> list[str]:
    """The signature and the code of a handler or a guard; a native's is what the program was handed in with it."""
    words = table[which]
    return natives[words[1]] if words[0] == "native" else words


def handler_code(script: Script, which: int) -> list[str]:
    """The signature and the steps of a handler."""
    return code_of(script.handlers, NATIVE_HANDLERS, which)


def guard_code(script: Script, which: int) -> list[str]:
    """The signature and the test of a guard."""
    return code_of(script.guards, NATIVE_GUARDS, which)


def kinds(signature: str) -> str:
    """The kinds of a signature's parameters."""
    return "" if signature.startswith("-") else signature.split(":")[0].lower()


def kinds_of(arguments: Iterable[Argument]) -> str:
    """The kinds of arguments."""
    return "".join("w" if isinstance(one, int) else "b" for one in arguments)


def values_of(words: Iterable[str]) -> list[Argument]:
    """The arguments that the words of a raise write."""
    return [bytes.fromhex(word[1:]) if word.startswith("x") else number(word) for word in words]


def words_of_done(done: Done) -> list[str]:
    """What a report says of what a handler did; nothing of an argument that it set."""
    match done:
        case Gave(value):
            return ["result", str(value)]
        case Sent(endpoint, length):
            return ["send", str(endpoint), str(length)]
        case Dropped(_, fault):
            return ["drop", fault]
    return []


def words_of_met(met: Met) -> list[str]:
    """What a report says of a binding that a raise came to."""
    if not met.runs:
        return []
    words = ["job" if met.is_left else "run", str(met.event), str(met.number)]
    for done in met.did:
        words += words_of_done(done)
    for up in met.ups:
        words += ["up", str(up.event), *words_of(up), "back", *up.answer.split()]
    return words


def words_of(raised: Raised) -> list[str]:
    """What a report says of a raise, but for its answer."""
    return [word for met in raised.met for word in words_of_met(met)]


class Replay:
    """Works raises and jobs at the bindings as they stand."""

    def __init__(self, script: Script, bindings: Bindings) -> None:
        """Takes the script, and the bindings that are followed beside it."""
        self.script, self.bindings = script, bindings
        self.calls: list[Call] = []
        self.starts, self.in_place = 0, False

    def deed(self, event: int, arguments: list[Argument], is_later: bool) -> Outcome:
        """What a raise comes to, or one that is left to a job as a whole."""
        if event not in self.script.events:
            return Outcome(None, ["refused", "1", "unknown_event"])
        if kinds_of(arguments) != kinds(self.script.events[event][1]):
            return Outcome(None, ["refused", "2", "wrong_args"])
        if is_later:
            return Outcome(None, ["queued"], [Call(event, None, arguments)])
        return self.outcome(False, lambda: self.raised(event, arguments))

    def job(self, call: Call) -> Outcome:
        """What the call of a job comes to."""
        one = call.binding
        return self.outcome(True, lambda: self.bound(one, call) if one else self.raised(call.event, call.arguments))

    def outcome(self, in_place: bool, work: Callable[[], Raised]) -> Outcome:
        """What comes of work, in which asynchronous handlers run in place or are left to jobs."""
        self.starts, self.calls, self.in_place = 0, [], in_place
        try:
            root = work()
        except (Spent, RecursionError):
            return Outcome(None, ["refused", "3", "spent"])
        return Outcome(root, [*words_of(root), "=", *root.answer.split()], self.calls)

    def start(self) -> None:
        """Counts a handler that starts, or is left to a job."""
        self.starts += 1
        if self.starts > MOST_STARTS:
            raise Spent

    def bound(self, one: Binding, call: Call) -> Raised:
        """The job of one binding: its handler runs, and its guards aren't tested."""
        met = Met(call.event, one, one.handler, before=list(call.arguments))
        self.act(met, list(call.arguments))
        answer = "done" if met.result is None else f"value {met.result}"
        return Raised(call.event, list(call.arguments), [met], [], answer)

    def raised(self, event: int, arguments: list[Argument]) -> Raised:
        """A raise of one event, with its raises upwards."""
        found, now, results = Raised(event, list(arguments)), list(arguments), list[int]()
        for one in self.bindings.order(event):
            met = self.meet(event, one, now)
            found.met.append(met)
            now = met.after
            if met.runs and one.mode != "async" and met.result is not None:
                results.append(met.result)
        if any(met.runs for met in found.met):
            found.answer = self.merged(event, results, found.merges)
        else:
            found.answer = self.by_default(event, now, found)
        return found

    def meet(self, event: int, one: Binding, arguments: list[Argument]) -> Met:
        """A raise comes to a binding: its guards are tested; where they hold, its handler runs or is left to a job."""
        met = Met(event, one, one.handler, before=list(arguments), after=list(arguments))
        met.tested = [self.tested(which, which in one.imposed, arguments) for which in one.guards]
        met.runs = all(guard.holds for guard in met.tested)
        met.is_left = met.runs and one.mode == "async" and not self.in_place
        if met.is_left:
            self.start()
            self.calls.append(Call(event, one, list(arguments)))
        elif met.runs:
            self.act(met, list(arguments))
        return met

    def tested(self, which: int, is_imposed: bool, arguments: list[Argument]) -> Tested:
        """A guard, tested on arguments."""
        holds, text = Code(guard_code(self.script, which)[1:], arguments).test()
        return Tested(which, is_imposed, text, holds)

    def by_default(self, event: int, arguments: list[Argument], found: Raised) -> str:
        """The answer where no binding ran: that of the event's default, if it has one."""
        default = self.bindings.events[event].default
        if not default:
            return "nohandler"
        met = Met(event, None, default, before=list(arguments))
        found.met.append(met)
        self.act(met, list(arguments))
        return "default" if met.result is None else f"default {met.result}"

    def merged(self, event: int, results: list[int], merges: list[str]) -> str:
        """The answer of handlers that ran, by the event's merge; how results were merged is added to `merges`."""
        if not results:
            return "done"
        fold, found = self.script.events[event][3:], results[0]
        for result in results[1:]:
            if fold:
                found, text = Code(fold, [found, result]).expression()
                merges.append(f"{text} = {found}")
            else:
                found = result
        if len(results) > 1 and not fold:
            merges.append(f"{', '.join(map(str, results))}: the last one")
        return f"value {found}"

    def act(self, met: Met, arguments: list[Argument]) -> None:
        """Does a handler's steps, and then its raises upwards."""
        self.start()
        ups: list[tuple[int, list[Argument]]] = []
        code = Code(handler_code(self.script, met.handler)[1:], arguments)
        while code.is_left:
            self.step(code, met.did, ups)
        met.after = arguments
        met.ups = [self.raised(event, given) for event, given in ups]

    @staticmethod
    def step(code: Code, did: list[Done], ups: list[tuple[int, list[Argument]]]) -> None:
        """Does one step on the arguments of the code."""
        kind, arguments = code.word(), code.arguments
        if kind == "set":
            which = code.number()
            value, text = code.expression()
            before = arguments[which]
            arguments[which] = value if isinstance(before, int) else before
            did.append(Changed(which, before, arguments[which], text))
        elif kind == "send":
            endpoint = code.number()
            did.append(Sent(endpoint, len(bytes_at(arguments, code.number(), code.number()))))
        elif kind == "result":
            did.append(Gave(*code.expression()))
        elif kind == "up":
            event, count = code.number(), code.number()
            ups.append((event, [part(code) for _ in range(count)]))
        else:
            layer, event = code.word(), code.number()
            found = LAYERS[layer](arguments)
            did.append(Dropped(layer, found)) if isinstance(found, str) else ups.append((event, found))


def part(code: Code) -> Argument:
    """A part of a raise upwards."""
    if code.word() == "w":
        return code.expression()[0]
    return bytes_at(code.arguments, code.number(), code.number())
