"""Why a call has no answer."""

from collections.abc import Sequence

from codzvregi.commands import Refusal


class Fault(Exception):
    """Why a call has no answer."""


class NoLibrary(Fault):
    """There is no library, or the one that is named can't be loaded or has another version of the calls."""


class NoMemory(Fault):
    """There was no memory."""


class BadScript(Fault):
    """The text is no script: its first bad line, counted from 1 and 0 where it is too large, and the cause's number
    with its sentence."""

    def __init__(self, line: int, cause: int, text: str = "") -> None:
        super().__init__(f"line {line} is bad: cause {cause}, {text}")
        self.line, self.cause, self.text = line, cause, text


class BadCapture(Fault):
    """The bytes are refused as a capture: at which record, counted from 1, or 0 for its header, and the fault's number
    with its sentence."""

    def __init__(self, record: int, fault: int, text: str = "") -> None:
        super().__init__(f"record {record} is bad: fault {fault}, {text}")
        self.record, self.fault, self.text = record, fault, text


class Refused(Fault):
    """The command is refused and changes nothing: why, and how many commands were accepted before it; `rule` is the
    number of the rule by which it is, 0 where none allows it, and `cycle` the bindings of a conflict, in which the one
    that would be installed has the number that it would get."""

    def __init__(self, refusal: Refusal, place: int, rule: int | None = None, cycle: Sequence[int] = ()) -> None:
        more = [] if rule is None else [str(rule)]
        told = [str(refusal.value), refusal.name.lower(), *more, *map(str, cycle)]
        super().__init__(f"refused {' '.join(told)} at {place}")
        self.refusal, self.place, self.rule, self.cycle = refusal, place, rule, tuple(cycle)


class Closed(Fault):
    """The lane is closed."""


class NoCommand(Fault):
    """A field is used that the op doesn't use, or no such op is there."""


class Full(Fault):
    """The log has as many commands as it holds."""


class NoReply(Fault):
    """No reply is kept: nothing was raised yet, or a command or a renewal was done since."""


class NoStep(Fault):
    """The reply has no step of that index."""


class NoJob(Fault):
    """The reply leaves no job of that index."""


class NoLane(Fault):
    """No hub has so many lanes, or the hub no such lane; or this is its opener, which isn't given back, or isn't."""


class Taken(Fault):
    """The seat of the lane is out; or some seat is, so that the hub is neither renewed nor ended."""


class NoBinding(Fault):
    """The last renewal numbered no such binding, or there was none."""


class Shared(Fault):
    """A seat that came home is still being given back: the hub may be asked again."""


class Ended(Fault):
    """The hub was ended: its opener tells rows, and is closed."""


class NoRow(Fault):
    """The log has no row of that index, or the hub wasn't ended."""


class NoName(Fault):
    """Nothing has that name."""


class NoArgument(Fault):
    """An argument is neither a word nor bytes, or there is none of that index, or there are more than any event has."""


class NotDue(Fault):
    """No firing waits for its answer: no function is called."""


class Downward(Fault):
    """From within a raise only an event with a greater number is raised. Nothing is changed."""


class Spent(Fault):
    """4,096 handlers have started in the raise, and one more would: it was abandoned."""


class Abandoned(Fault):
    """The raise was abandoned, by what was raised or closed within it."""


# Why what a function gives is refused, by numbers from 1 on.
_GIFTS = (
    *("what runs apart gives the raise nothing", "the event gives no result", "only a filter changes arguments"),
    *("there is no argument of that number", "an argument is of the wrong kind"),
    "an argument is changed that may not be",
)


class GiftRefused(Fault):
    """What the function of a binding gives is refused, and the raise was abandoned: the number of why, and that of the
    binding."""

    def __init__(self, why: int, binding: int) -> None:
        super().__init__(f"binding {binding}: {_GIFTS[why - 1]}")
        self.why, self.binding = why, binding
