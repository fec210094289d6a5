"""Commands judged anew, by the definitions in specs/: which rule of an event's owner decides, and why one is refused.

Nothing is proved of it; what it comes to is compared with the report.
"""

from dataclasses import dataclass, field

from wrapper.bindings import Binding, Bindings, Live, Wish, effect_of, least_order, matches, read_wish
from wrapper.reading import Script, number
from wrapper.replay import guard_code, handler_code, kinds

# The program's native authoriser, as rules would write it.
OWN_TWO = [["0", "255", "any", "any", "own", "quota", "2"]]
NUMBERS = {
    "unknown_event": 1, "unknown_module": 2, "unknown_handler": 3, "unknown_guard": 4, "unknown_binding": 5,
    "wrong_type": 6, "downward": 7, "wrong_mode": 8, "denied": 9, "too_many": 10, "conflict": 11, "forced_mode": 12,
}


@dataclass
class Asked:
    """A command: its kind, event and module, the binding that it names, and the handler and the guard that it uses."""

    kind: str
    event: int
    module: int
    target: int = 0
    handler: int = 0
    guard: int = 0
    wish: Wish | None = None


@dataclass
class Verdict:
    """What is answered: the report's words, the rules that were gone through, and why."""

    words: list[str]
    rules: list[str] = field(default_factory=list)
    why: str = ""


def read_asked(version: int, words: list[str]) -> Asked:
    """What the words of a command ask for."""
    if words[0] == "install":
        event, module, handler, guard = map(number, words[1:5])
        return Asked("install", event, module, 0, handler, guard, read_wish(version, words[5:]))
    event, module, *found = map(number, words[1:])
    if words[0] == "default":
        return Asked("default", event, module, handler=found[0])
    target, handler, guard = [*found, 0, 0, 0][:3]
    return Asked(words[0], event, module, target, handler, guard)


def steps_raise_down(script: Script, asked: Asked) -> bool:
    """Whether the handler raises an event that isn't greater than the command's."""
    words = handler_code(script, asked.handler)[1:]
    raised = [number(words[at + 1]) for at, word in enumerate(words) if word == "up"]
    raised += [number(words[at + 2]) for at, word in enumerate(words) if word == "layer"]
    return any(event <= asked.event for event in raised)


class Judge:
    """Judges a command at the bindings as they stand."""

    def __init__(self, script: Script, bindings: Bindings) -> None:
        """Takes the script, and the bindings that are followed beside it."""
        self.script, self.bindings = script, bindings

    def judge(self, words: list[str]) -> Verdict:
        """What is answered to the words of a command."""
        asked = read_asked(self.script.version, words)
        if asked.event not in self.script.events:
            return self.refused("unknown_event", f"no event {asked.event} is declared")
        if asked.module >= self.script.modules:
            return self.refused("unknown_module", f"there are {self.script.modules} modules, counted from 0")
        live = self.bindings.events[asked.event].live
        found = self.of_units(asked, live)
        if found:
            return self.refused(*found)
        return self.by_owner(asked, live)

    @staticmethod
    def refused(name: str, why: str) -> Verdict:
        """A refusal."""
        return Verdict(["refused", str(NUMBERS[name]), name], [], why)

    def handler(self, asked: Asked) -> str:
        """The handler that a command uses."""
        return self.script.called("handler", asked.handler)

    def of_units(self, asked: Asked, live: Live) -> tuple[str, str] | None:
        """What is wrong with the handler, guard and bindings that a command names, and why; None where all is well."""
        script, signature = self.script, self.script.events[asked.event][1]
        event = script.called("event", asked.event)
        uses_handler, uses_guard = asked.kind in ("install", "replace", "default"), asked.kind in ("install", "replace")
        if uses_handler and asked.handler not in script.handlers:
            return "unknown_handler", f"no handler {asked.handler} is declared"
        if uses_guard and asked.guard and asked.guard not in script.guards:
            return "unknown_guard", f"no guard {asked.guard} is declared"
        named = [asked.target] if asked.kind in ("remove", "replace") else []
        named += [*asked.wish.before, *asked.wish.after] if asked.wish else []
        for one in named:
            if one not in live:
                return "unknown_binding", f"{self.script.called('event', asked.event)} has no live binding #{one}"
        if uses_handler and handler_code(script, asked.handler)[0] != signature:
            its = f"{self.handler(asked)} has the signature {handler_code(script, asked.handler)[0]}"
            return "wrong_type", f"{its}, and {event} {signature}"
        if uses_guard and asked.guard and kinds(guard_code(script, asked.guard)[0]) != kinds(signature):
            its = f"{script.called('guard', asked.guard)} asks of {guard_code(script, asked.guard)[0]}"
            return "wrong_type", f"{its}, and {event} has {signature}"
        return self.of_steps(asked, live) if uses_handler else None

    def of_steps(self, asked: Asked, live: Live) -> tuple[str, str] | None:
        """What is wrong with the steps of the handler, and why; None where they are well."""
        if steps_raise_down(self.script, asked):
            return "downward", f"{self.handler(asked)} raises an event that isn't greater than {asked.event}"
        mode = asked.wish.mode if asked.wish else live[asked.target].mode if asked.kind == "replace" else "plain"
        if "set" in handler_code(self.script, asked.handler) and mode != "filter":
            return "wrong_mode", f"{self.handler(asked)} changes an argument, which only a filter may do"
        return None

    def by_owner(self, asked: Asked, live: Live) -> Verdict:
        """What the owner's rules answer, and what comes of it."""
        which, is_allowed, rules = self.decided(asked, live)
        verdict = Verdict(["ok"], rules)
        if not is_allowed:
            verdict.words = ["refused", "9", "denied", str(which)]
        elif asked.wish:
            self.of_install(asked, asked.wish, live, which, verdict)
        return verdict

    def of_install(self, asked: Asked, wish: Wish, live: Live, which: int, verdict: Verdict) -> None:
        """What comes of an install that the owner allows."""
        most = 64 if self.script.version == 3 else 32
        imposed, place, mode = effect_of(self.script, asked.event, asked.module, "install", asked.handler, False)
        one = Binding(4097, asked.event, asked.module, asked.handler, asked.guard, imposed, wish.place,
                      wish.before, wish.after, wish.mode)
        if place != "keep":
            one.place, one.before, one.after = place, (), ()
        if mode == "async" and "set" in handler_code(self.script, asked.handler):
            verdict.words = ["refused", "12", "forced_mode", str(which)]
            verdict.why = f"{self.handler(asked)} changes an argument, so it can't be left to jobs"
        elif len(live) >= most:
            verdict.words = ["refused", "10", "too_many"]
            verdict.why = f"{self.script.called('event', asked.event)} has {len(live)} live bindings already"
        elif len(least_order([*live.values(), one])) <= len(live):
            verdict.words = ["refused", "11", "conflict"]
            verdict.why = "with it the bindings would have no order, since some would have to run before each other"

    def decided(self, asked: Asked, live: Live) -> tuple[int, bool, list[str]]:
        """The number of the rule that decides, whether it allows, and what is said of the rules up to it."""
        if number(self.script.events[asked.event][0]) == asked.module:
            return 0, True, [f"{self.script.called('module', asked.module)} owns the event, so no rule is asked"]
        native, told = self.script.authorisers.get(asked.event), list[str]()
        rules = OWN_TWO if native else self.script.rules.get(asked.event, [])
        is_foreign = asked.target != 0 and live[asked.target].module != asked.module
        for which, rule in enumerate(rules, 1):
            low, high, kind, handler, own, *effect = rule
            name = f"rule {which}" + (f" of {native}" if native else "")
            text = f"{name}: modules {low} to {high}, {kind}, handler {handler}, {own}: {' '.join(effect)}"
            if matches(rule, asked.module, asked.kind, asked.handler, is_foreign):
                is_allowed, why = self.effect(asked, effect, live)
                return which, is_allowed, [*told, f"{text}: it decides: {why}"]
            told.append(f"{text}: it doesn't speak of this")
        return 0, False, [*told, "no rule speaks of this, so it is denied"]

    def effect(self, asked: Asked, effect: list[str], live: Live) -> tuple[bool, str]:
        """Whether a rule that decides allows the command, and why."""
        if effect[0] == "deny":
            return False, "denied"
        if effect[0] == "quota" and asked.kind == "install":
            has = sum(one.module == asked.module for one in live.values())
            is_allowed = has < number(effect[1])
            said = f"{self.script.called('module', asked.module)} has {has} live binding{'s' * (has != 1)} of the event"
            return is_allowed, f"{said}: {'allowed' if is_allowed else 'denied'}"
        if effect[0] in ("impose", "force") and asked.kind in ("install", "replace"):
            count = number(effect[1])
            guards = ", ".join(self.script.called("guard", number(guard)) for guard in effect[2:2 + count])
            more = [f"under {guards} as well"] if count else []
            if effect[0] == "force" and asked.kind == "install":
                place, mode = effect[2 + count:]
                more += [f"to run {place}"] if place != "keep" else []
                more += ["to be left to jobs"] if mode == "async" else []
            return True, ", ".join(["allowed", *more])
        return True, "allowed"
