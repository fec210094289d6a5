"""What may stand at each place of a script's line, and the first word of a line that can't stand where it does.

The tables are those of docs/FORMATS.md. Nothing is proved of them: they serve to mark a word that the program has refused.
"""

import re
from collections.abc import Iterable, Mapping
from typing import NamedTuple


class Want(NamedTuple):
    """What is wanted at a place."""

    kind: str
    name: str
    # the range of a number
    low: int = 0
    high: int = 0
    # fixed words, each with what is wanted behind it
    choices: Mapping[str, tuple["Want", ...]] = {}
    # what is wanted behind a signature that is written out, and as often as a number says behind that
    behind: tuple["Want", ...] = ()
    # of numbers that rise, how many there are from this one on
    left: int = 0


class Placed(NamedTuple):
    """A word at its place: which word of the line it is, what was wanted there, and how deep it lies in expressions and
    tests."""

    at: int
    want: Want
    word: str
    depth: int


class Fault(NamedTuple):
    """Why a line's words can't stand: the cause's number, which word it is, and what was wanted there.

    Where the line ends too early, that word is the one behind the last.
    """

    cause: int
    at: int
    want: Want | None


# Fixed words, each with what is wanted behind it.
Choices = Mapping[str, tuple[Want, ...]]

# What is wanted behind a word, or the number of the cause why it can't stand.
After = tuple[Want, ...] | int

GREATEST = 2**64 - 1


def number(name: str, low: int, high: int) -> Want:
    """A number in a range."""
    return Want("number", name, low, high)


def fixed(name: str, choices: str, **more: tuple[Want, ...]) -> Want:
    """One of several fixed words, each with what is wanted behind it."""
    return Want("fixed", name, choices={**dict.fromkeys(choices.split(), ()), **more})


EVENT = number("the number of an event", 0, 63)
NEW_EVENT = number("the number of the event", 0, 63)
MODULE = number("the number of a module", 0, 255)
OWNER = number("the number of the owner", 0, 255)
HANDLER = number("the number of a handler", 1, 1023)
NEW_HANDLER = number("the number of the handler", 1, 1023)
GUARD = number("the number of a guard", 1, 1023)
NEW_GUARD = number("the number of the guard", 1, 1023)
ASKED_HANDLER = number("the number of a handler", 0, 1023)
ASKED_GUARD = number("the number of a guard, 0 for none", 0, 1023)
ENDPOINT = number("the number of an endpoint", 0, 63)
NEW_ENDPOINT = number("the number of the endpoint", 0, 63)
ARGUMENT = number("the number of an argument", 0, 7)
BYTES_ARGUMENT = number("the number of an argument of bytes", 0, 7)
OFFSET = number("an offset in bytes", 0, 65535)
WIDTH = number("a width in bytes, 1, 2, 4 or 8", 0, 255)
COUNT_OF_BYTES = number("a number of bytes", 0, 65535)
TARGET = number("the number of a binding", 0, 1023)
WIDE_TARGET = number("the number of a binding", 0, 4096)
NAME = Want("name", "a name of 1 to 16 letters, digits, `_` and `.`")
SIGNATURE = Want("signature", "a signature")
GUARD_SIGNATURE = Want("guard signature", "a signature")
EXPRESSION = Want("expression", "an expression")
TEST = Want("test", "a test")
STEPS = Want("steps", "a step")
BINDINGS = Want("bindings", "how many numbers of bindings follow", 0, 4)

SIDES = (EXPRESSION, EXPRESSION)
EXPRESSIONS: Choices = {"f": (BYTES_ARGUMENT, OFFSET, WIDTH), "+": SIDES, "&": SIDES, "|": SIDES}
TESTS: Choices = {
    "true": (), "==": SIDES, "!=": SIDES, "<": SIDES, "<=": SIDES, "has": (BYTES_ARGUMENT, COUNT_OF_BYTES),
    "not": (TEST,), "all": (TEST, TEST), "any": (TEST, TEST),
}
PART = Want("part", "a part", choices={"w": (EXPRESSION,), "b": (BYTES_ARGUMENT, OFFSET)})
LAYER = fixed("the headers to read", "ipv4 udp")
STEP_WORDS: Choices = {
    "set": (ARGUMENT, EXPRESSION), "send": (ENDPOINT, BYTES_ARGUMENT, OFFSET), "result": (EXPRESSION,),
    "up": (EVENT, Want("counted", "how many parts follow", 0, 8, behind=(PART,))), "layer": (LAYER, EVENT),
}
MERGE = fixed("the merge", "last", fold=(EXPRESSION,))
OP = fixed("what the rule is about", "install remove replace default nodefault any")
OWN = fixed("of which bindings", "own all")
QUOTA = number("a quota", 0, 1000)
FORCED_PLACE = fixed("the forced place", "keep first last")
FORCED_MODE = fixed("the forced mode", "keep async")
PLACE = fixed("the place", "free first last")
SPOT = fixed("the place", "free first last", before=(TARGET,), after=(TARGET,))
MODE = fixed("the mode", "plain filter async")
BEFORE, AFTER = fixed("bindings that it precedes", "before"), fixed("bindings that it follows", "after")
RULE_HANDLER = Want("handler or any", "the number of a handler", 1, 1023)
VALUES = Want("values", "a value", 0, 8)


def effects(version: int) -> Want:
    """What a rule may decide, in a script of this version."""
    choices: dict[str, tuple[Want, ...]] = {"allow": (), "deny": (), "quota": (QUOTA,)}
    choices["impose"] = (Want("counted", "how many guards follow", 1, 4, behind=(GUARD,)),)
    if version >= 2:
        choices["force"] = (Want("counted", "how many guards follow", 0, 4, behind=(GUARD,)), FORCED_PLACE, FORCED_MODE)
    return Want("fixed", "what the rule decides", choices=choices)


def deeds(version: int) -> Want:
    """What a lane may be told, in a script of this version."""
    target = WIDE_TARGET if version == 3 else TARGET
    place = (PLACE, BEFORE, BINDINGS, AFTER, BINDINGS) if version == 3 else (SPOT,)
    return Want("fixed", "a deed", choices={
        "raise": (EVENT, VALUES), "later": (EVENT, VALUES),
        "install": (EVENT, MODULE, ASKED_HANDLER, ASKED_GUARD, *place, MODE),
        "remove": (EVENT, MODULE, target),
        "replace": (EVENT, MODULE, target, ASKED_HANDLER, ASKED_GUARD),
        "default": (EVENT, MODULE, ASKED_HANDLER), "nodefault": (EVENT, MODULE),
        "packet": (EVENT, number("how many records at most", 1, 65536)),
    })


def lines(version: int) -> dict[str, tuple[Want, ...]]:
    """The words that begin lines, each with what is wanted behind it, in a script of this version."""
    return {
        "modules": (number("how many modules there are", 1, 256),),
        "event": (NEW_EVENT, OWNER, SIGNATURE, MERGE),
        "endpoint": (NEW_ENDPOINT, NAME),
        "handler": (NEW_HANDLER, SIGNATURE._replace(behind=(STEPS,))),
        "guard": (NEW_GUARD, GUARD_SIGNATURE._replace(behind=(TEST,))),
        "rule": (EVENT, MODULE, MODULE, OP, RULE_HANDLER, OWN, effects(version)),
        "authoriser": (EVENT, NAME),
        "default": (EVENT, HANDLER),
        "lane": (number("the number of a lane", 0, 255), deeds(version)),
        "barrier": (),
        "retire": (ENDPOINT,),
    }


def number_of(word: str) -> int | None:
    """The number that a word is; None where it is none."""
    if re.fullmatch("[0-9]+", word):
        # a number of so many digits is too great, unless zeros lead it
        digits = word.lstrip("0") or "0"
        found = int(digits) if len(digits) <= 20 else GREATEST + 1
    elif re.fullmatch("0x[0-9a-fA-F]{1,16}", word):
        found = int(word, 16)
    else:
        return None
    return found if found <= GREATEST else None


def in_range(word: str, low: int, high: int) -> int | None:
    """The number that a word is, where it lies in the range; else None."""
    found = number_of(word)
    return found if found is not None and low <= found <= high else None


def chosen(word: str, choices: Choices) -> After:
    """What is wanted behind a fixed word, or cause 9."""
    return choices.get(word, 9)


def after_number(want: Want, word: str) -> After:
    """What is wanted behind a number of this kind, or cause 6."""
    found = in_range(word, want.low, want.high)
    if found is None:
        return 6
    if want.kind == "counted":
        return want.behind * found
    if want.kind == "bindings":
        return (rising(0, found),) if found else ()
    if want.kind == "rising" and want.left > 1:
        return (rising(found + 1, want.left - 1),)
    return ()


def rising(low: int, left: int) -> Want:
    """The number of a binding, which is greater than the one before it, and so many in all."""
    name = "the number of a binding" + (", greater than the one before it" if low else "")
    return Want("rising", name, low, 4096, left=left)


def after_signature(want: Want, word: str) -> After:
    """What is wanted behind a signature, or cause 7."""
    form = "-|[wbWB]{1,8}" if want.kind == "guard signature" else "(-|[wbWB]{1,8})(:w)?"
    if want.behind and word == "native":
        return (NAME,)
    return want.behind if re.fullmatch(form, word) else 7


def after_value(want: Want, word: str) -> After:
    """What is wanted behind a value of a raise, or a cause."""
    if not want.high:
        return 11
    more = (want._replace(high=want.high - 1),)
    if word.startswith("x"):
        return more if re.fullmatch("x([0-9a-fA-F]{2})*", word) else 10
    return more if number_of(word) is not None else 6


def accepts(want: Want, word: str) -> After:
    """What is wanted behind a word that stands where this is wanted, or the number of the cause why it can't."""
    if want.kind in ("number", "counted", "bindings", "rising"):
        return after_number(want, word)
    if want.kind in ("signature", "guard signature"):
        return after_signature(want, word)
    if want.kind == "values":
        return after_value(want, word)
    if want.kind == "name":
        return () if re.fullmatch("[A-Za-z0-9_.]{1,16}", word) else 8
    if want.kind == "test":
        return chosen(word, TESTS)
    if want.kind == "steps":
        return (*STEP_WORDS[word], STEPS) if word in STEP_WORDS else 9
    if want.kind in ("fixed", "part"):
        return chosen(word, want.choices)
    if word[0] in "0123456789":
        low, high = (want.low, want.high) if want.kind == "handler or any" else (0, GREATEST)
        return () if in_range(word, low, high) is not None else 6
    if want.kind == "handler or any":
        return () if word == "any" else 9
    return () if re.fullmatch("a[0-7]", word) else chosen(word, EXPRESSIONS)


def steps(words: list[str], version: int) -> tuple[list[Placed], list[tuple[Want, int]], Fault | None]:
    """The words of a line at their places, what is still wanted behind them, the next last, and the first fault."""
    wants = [(want, 1) for want in reversed(lines(version)[words[0]])]
    placed: list[Placed] = []
    for at, word in enumerate(words[1:], start=1):
        if not wants:
            return placed, wants, Fault(11, at, None)
        want, depth = wants.pop()
        more = accepts(want, word)
        if isinstance(more, int):
            return placed, wants, Fault(more, at, want)
        placed.append(Placed(at, want, word, depth))
        inner = depth + 1 if want.kind in ("expression", "test") else 1
        wants += [(after, inner) for after in reversed(more)]
    return placed, wants, None


def walk(words: list[str], version: int) -> tuple[list[Placed], Fault | None]:
    """The words of a line at their places, and the first fault; None where the words can stand so."""
    placed, wants, fault = steps(words, version)
    if not fault and any(want.kind not in ("steps", "values") for want, _ in wants):
        fault = Fault(11, len(words), wants[-1][0])
    return placed, fault


def next_wanted(words: list[str], version: int) -> Want | None:
    """What is wanted behind the words that begin a line; None where nothing is, or they can't stand so."""
    if words[0] not in lines(version):
        return None
    _, wants, fault = steps(words, version)
    return wants[-1][0] if wants and not fault else None


# How each line and each deed is written, as docs/FORMATS.md has it.
FORMS = {
    "modules": "modules N", "event": "event E OWNER SIG MERGE", "endpoint": "endpoint P NAME",
    "handler": "handler H SIG STEPS", "guard": "guard G SIG TEST",
    "rule": "rule E LOW HIGH OP HANDLER OWN EFFECT", "authoriser": "authoriser E NAME", "default": "default E H",
    "lane": "lane L DEED", "retire": "retire P",
}
DEED_FORMS = {
    "install": "install E M H G PLACE MODE", "remove": "remove E M N", "replace": "replace E M N H G",
    "default": "default E M H", "nodefault": "nodefault E M", "raise": "raise E VALUES", "later": "later E VALUES",
    "packet": "packet E N",
}
WIDE_INSTALL = "install E M H G PLACE before K NUMBERS after K NUMBERS MODE"


def form_of(words: list[str], version: int) -> str:
    """How a line that begins so is written; empty where no line does."""
    if words[0] == "lane" and len(words) > 2 and words[2] in DEED_FORMS:
        is_wide = version == 3 and words[2] == "install"
        return f"lane L {WIDE_INSTALL if is_wide else DEED_FORMS[words[2]]}"
    return FORMS.get(words[0], "")


SPOKEN = {
    "expression": "a number, `a0` to `a7`, `f A OFFSET WIDTH`, or `+`, `&` or `|` and two expressions",
    "signature": "`-`, or 1 to 8 of the letters `w`, `b`, `W`, `B`; then optionally `:w`",
    "guard signature": "`-`, or 1 to 8 of the letters `w`, `b`, `W`, `B`",
    "values": "a number below 2^64, or `x` and an even number of hexadecimal digits",
}


def fixed_words(want: Want) -> list[str]:
    """The fixed words that may stand at a place."""
    by_kind: dict[str, Choices] = {
        "test": TESTS, "steps": STEP_WORDS, "expression": EXPRESSIONS, "handler or any": {"any": ()},
    }
    return list(by_kind.get(want.kind) or want.choices)


def either(words: Iterable[str]) -> str:
    """Words in backticks, the last behind `or`."""
    quoted = [f"`{word}`" for word in words]
    return quoted[0] if len(quoted) == 1 else f"{', '.join(quoted[:-1])} or {quoted[-1]}"


def wanted(want: Want | None) -> str:
    """What may stand at a place, in words, and what it is there."""
    if want is None:
        return "nothing more, since the line ends here"
    if want.kind == "values" and not want.high:
        return "nothing more, since a raise has at most 8 values"
    if want.kind == "name":
        return want.name
    if want.kind == "handler or any":
        text = "a number from 1 to 1023, or `any`"
    elif want.kind in ("number", "counted", "bindings", "rising"):
        text = f"a number from {want.low} to {want.high}"
    else:
        text = SPOKEN.get(want.kind) or either(fixed_words(want))
        text += ", or `native`" * (want.kind in ("signature", "guard signature") and bool(want.behind))
    return f"{text} ({want.name})"
