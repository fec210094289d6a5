"""tcpdump's filter expressions as tests of a frame.

libpcap compiles an expression to a program of loads, masks and forward jumps (McCanne and Jacobson, *The BSD Packet
Filter*, 1993). Here its paths become a formula over fields of the frame: where a load takes its place from a byte of the
frame, as behind an IPv4 header, each value of that byte is a case of its own. The formula is then cut into disjoint tests,
of which each is small enough for a guard. What a guard can't say is refused by name.
"""

from __future__ import annotations

import ctypes
import ctypes.util
import heapq
from collections.abc import Callable, Iterable, Sequence
from typing import NamedTuple

ETHERNET, LONGEST, ANY_NETMASK = 1, 262_144, 0xFFFFFFFF
WORD = 0xFFFFFFFF

# How large a guard's test may be, and how many bindings an event may have in scripts of version 3.
MOST_NODES, MOST_DEPTH, MOST_BINDINGS = 64, 8, 64

# How many states of the program are tried before it is given up.
MOST_STATES = 20_000


class Unsuited(Exception):
    """The expression can't be said by guards, or isn't one."""


class Instruction(ctypes.Structure):
    """An instruction as libpcap has it."""

    _fields_ = [("code", ctypes.c_ushort), ("jt", ctypes.c_ubyte), ("jf", ctypes.c_ubyte), ("k", ctypes.c_uint32)]


class Code(ctypes.Structure):
    """A program as libpcap has it."""

    _fields_ = [("length", ctypes.c_uint), ("at", ctypes.POINTER(Instruction))]


def compiled(expression: str) -> list[tuple[int, int, int, int]]:
    """The program of an expression, for frames of Ethernet."""
    name = ctypes.util.find_library("pcap")
    if name is None:
        raise Unsuited("libpcap isn't installed, which reads the expression (Debian's package libpcap0.8)")
    library = ctypes.CDLL(name)
    library.pcap_open_dead.restype = ctypes.c_void_p
    library.pcap_geterr.restype = ctypes.c_char_p
    handle = ctypes.c_void_p(library.pcap_open_dead(ETHERNET, LONGEST))
    code = Code()
    try:
        if library.pcap_compile(handle, ctypes.byref(code), expression.encode(), 1, ctypes.c_uint32(ANY_NETMASK)):
            raise Unsuited(f"libpcap says: {library.pcap_geterr(handle).decode(errors='replace')}")
        found = [(it.code, it.jt, it.jf, it.k) for it in code.at[: code.length]]
        library.pcap_freecode(ctypes.byref(code))
        return found
    finally:
        library.pcap_close(handle)


# ---- values


class Field(NamedTuple):
    """The number in so many bytes of the frame, from an offset on."""

    offset: int
    width: int


class Reckoning(NamedTuple):
    """What a sign makes of two values."""

    sign: str
    left: Value
    right: Value


Value = int | Field | Reckoning


def shown(value: Value) -> list[str]:
    """The words of a value, in a script's prefix form."""
    if isinstance(value, int):
        return [str(value)]
    if isinstance(value, Field):
        return ["f", "0", str(value.offset), str(value.width)]
    if value.sign not in "+&|":
        raise Unsuited(f"no guard can reckon with {value.sign}")
    # a sum of a guard has 64 bits, and one of the program 32
    words = [value.sign, *shown(value.left), *shown(value.right)]
    return ["&", *words, str(WORD)] if value.sign == "+" else words


def fields(value: Value) -> set[tuple[Field, int]]:
    """The fields that a value is made of, each with the bits of it that count."""
    if isinstance(value, int):
        return set()
    if isinstance(value, Field):
        return {(value, (1 << 8 * value.width) - 1)}
    if value.sign == "&" and isinstance(value.right, int) and isinstance(value.left, Field):
        return {(value.left, value.right & (1 << 8 * value.left.width) - 1)}
    return fields(value.left) | fields(value.right)


RECKONED: dict[str, Callable[[int, int], int]] = {
    "+": lambda a, b: a + b, "-": lambda a, b: a - b, "*": lambda a, b: a * b, "|": lambda a, b: a | b,
    "&": lambda a, b: a & b, "<<": lambda a, b: a << b if b < 32 else 0, ">>": lambda a, b: a >> b, "^": lambda a, b: a ^ b,
}


def made(sign: str, left: Value, right: Value) -> Value:
    """The value of two, reckoned where both are numbers."""
    if isinstance(left, int) and isinstance(right, int):
        if sign in "/%":
            raise Unsuited("no guard can divide")
        return RECKONED[sign](left, right) & WORD
    if isinstance(left, int) and sign in "+&|":
        left, right = right, left
    if sign == "-" and isinstance(right, int):
        sign, right = "+", -right & WORD
    return left if (sign, right) in (("+", 0), ("|", 0), ("<<", 0), (">>", 0)) else Reckoning(sign, left, right)


def put_in(value: Value, field: Field, mask: int, bits: int) -> Value:
    """The value where these bits of the field are known."""
    if isinstance(value, int):
        return value
    if value == field or value == Reckoning("&", field, mask):
        return bits
    if isinstance(value, Field):
        return value
    return made(value.sign, put_in(value.left, field, mask, bits), put_in(value.right, field, mask, bits))


# ---- formulas


class Has(NamedTuple):
    """The frame has so many bytes."""

    length: int


class Comparison(NamedTuple):
    """Two values compare as the sign says."""

    sign: str
    left: Value
    right: Value


class Joined(NamedTuple):
    """`all` of these hold, or `any` of them."""

    word: str
    parts: tuple[Test, ...]


# What is neither true nor false of every frame, and what may be.
Test = Has | Comparison | Joined
Formula = bool | Test

CONTRARY = {"==": "!=", "!=": "==", "<": ">=", ">=": "<", "<=": ">", ">": "<="}


def compare(sign: str, left: Value, right: Value) -> bool | Comparison:
    """A comparison, decided where both are numbers."""
    if isinstance(left, int) and isinstance(right, int):
        return {"==": left == right, "!=": left != right, "<": left < right, "<=": left <= right}[sign]
    return Comparison(sign, left, right)


def contrary(test: Comparison) -> Comparison:
    """What holds just where the comparison doesn't."""
    sign, left, right = test
    swapped = {"<": Comparison("<=", right, left), "<=": Comparison("<", right, left)}
    return swapped.get(sign) or Comparison(CONTRARY[sign], left, right)


def parts_of(formula: Formula, word: str) -> tuple[Test, ...]:
    """The parts of a formula that this word joins; of another one itself, and of what is plainly true or false none."""
    if isinstance(formula, bool):
        return ()
    return formula.parts if isinstance(formula, Joined) and formula.word == word else (formula,)


def every(tests: Iterable[Formula]) -> Formula:
    """All of these hold; of lengths only the greatest is asked for."""
    found, length = list[Test](), 0
    for test in tests:
        if test is False:
            return False
        for part in parts_of(test, "all"):
            if isinstance(part, Has):
                length = max(length, part.length)
            elif part not in found:
                found.append(part)
    found = [Has(length), *found] if length else found
    return True if not found else found[0] if len(found) == 1 else Joined("all", tuple(found))


def some(tests: Iterable[Formula]) -> Formula:
    """One of these holds."""
    found: list[Test] = []
    for test in tests:
        if test is True:
            return True
        for part in parts_of(test, "any"):
            if part in found:
                continue
            # what stands behind a single comparison may hold where that does, so it stays behind it
            first = max((at + 1 for at, other in enumerate(found) if isinstance(other, Comparison)), default=0)
            joined = next(((at, one) for at, other in enumerate(found) if at >= first and (one := merged(other, part))), None)
            if joined:
                found[joined[0]] = joined[1]
            else:
                found.append(part)
    return False if not found else found[0] if len(found) == 1 else Joined("any", tuple(found))


def merged(one: Test, other: Test) -> Test | None:
    """Two conjunctions that differ in one equation of the same value as one; None where they don't."""
    ones, others = parts_of(one, "all"), parts_of(other, "all")
    if len(ones) < 2 or len(ones) != len(others):
        return None
    left = [part for part in ones if part not in others]
    right = [part for part in others if part not in ones]
    if len(left) != 1 or len(right) != 1 or not are_equations(left[0], right[0]):
        return None
    whole = every([part if part != left[0] else some([left[0], right[0]]) for part in ones])
    assert not isinstance(whole, bool), "no part of it is plainly true or false"
    return whole


def are_equations(one: Test, other: Test) -> bool:
    """Whether both are equations of the same value, or choices of such."""
    values = set()
    for part in (*parts_of(one, "any"), *parts_of(other, "any")):
        if not isinstance(part, Comparison) or part.sign != "==":
            return False
        values.add(part.left)
    return len(values) == 1


def rules_out(formula: Formula, test: Comparison) -> bool:
    """Whether no frame for which the formula holds passes the test, which is an equation: the formula has another one."""
    if isinstance(formula, (bool, Has)):
        return formula is False
    if isinstance(formula, Joined):
        how = any if formula.word == "all" else all
        return how(rules_out(part, test) for part in formula.parts)
    return formula.sign == test.sign == "==" and formula.left == test.left and formula.right != test.right


def either(test: bool | Comparison, then: Formula, other: Formula) -> Formula:
    """The one where the test holds, the other where it doesn't. Of the parts no two hold at once, but that a single
    comparison may hold where one behind it does."""
    if isinstance(test, bool):
        return then if test else other
    if then == other:
        return then
    if then is True or other is True:
        return some([test, other] if then is True else [contrary(test), then])
    # behind a single comparison there may be what holds where it does, so the two stay together
    parts = parts_of(other, "any")
    is_apart = rules_out(other, test) or not any(isinstance(part, Comparison) for part in parts)
    kept = parts if is_apart else (other,)
    rest = [part if rules_out(part, test) else every([contrary(test), part]) for part in kept]
    return some([every([test, then]), *rest])


# ---- the program's paths


class State(NamedTuple):
    """Where the program stands, what its registers and its memory hold, and how long the frame is known to be."""

    at: int
    a: Value = 0
    x: Value = 0
    memory: tuple[Value, ...] = (0,) * 16
    length: int = 0

    def loaded(self, name: str, value: Value) -> State:
        """The state with a value in the register of that name."""
        return self._replace(a=value) if name == "a" else self._replace(x=value)

    def known(self, field: Field, mask: int, bits: int) -> State:
        """The state where these bits of a field are known."""
        a, x, *memory = (put_in(value, field, mask, bits) for value in (self.a, self.x, *self.memory))
        return self._replace(a=a, x=x, memory=tuple(memory))


SIGNS = {0x00: "+", 0x10: "-", 0x20: "*", 0x30: "/", 0x40: "|", 0x50: "&", 0x60: "<<", 0x70: ">>", 0x90: "%", 0xA0: "^"}
WIDTHS = {0x00: 4, 0x08: 2, 0x10: 1}


class Paths:
    """The formula of a program's paths that accept."""

    def __init__(self, program: list[tuple[int, int, int, int]]) -> None:
        self.program = program
        self.found: dict[State, Formula] = {}
        # how many states were begun
        self.states = 0

    def formula(self, state: State) -> Formula:
        """What must hold of a frame, so that the program accepts it from this state on."""
        if state not in self.found:
            if self.states >= MOST_STATES:
                raise Unsuited("the expression has too many cases")
            self.states += 1
            self.found[state] = self.step(state, *self.program[state.at])
        return self.found[state]

    def step(self, state: State, code: int, jt: int, jf: int, k: int) -> Formula:
        """The formula by the instruction at which the state stands."""
        kind, behind = code & 7, state._replace(at=state.at + 1)
        if kind in (0, 1):
            return self.load(state, behind, code, k)
        if kind in (2, 3):
            memory = list(state.memory)
            memory[k] = state.a if kind == 2 else state.x
            return self.formula(behind._replace(memory=tuple(memory)))
        if kind == 4:
            return self.formula(behind._replace(a=self.reckon(state, code, k)))
        if kind == 5:
            return self.jump(state, code, jt, jf, k)
        if kind == 6:
            if code & 0x18 == 0x10:
                return self.by_cases(state, state.a, lambda _, bits: bits != 0)
            return k != 0
        return self.formula(behind._replace(x=state.a) if code & 0xF8 == 0 else behind._replace(a=state.x))

    def reckon(self, state: State, code: int, k: int) -> Value:
        """What a reckoning makes of the accumulator."""
        if code & 0xF0 == 0x80:
            return made("-", 0, state.a)
        return made(SIGNS[code & 0xF0], state.a, state.x if code & 8 else k)

    def load(self, state: State, behind: State, code: int, k: int) -> Formula:
        """A load into one of the registers: of a number, of memory, or of the frame, which must be long enough."""
        name, mode, x = "ax"[code & 1], code & 0xE0, state.x if code & 0xE0 == 0x40 else 0
        if mode == 0x00:
            return self.formula(behind.loaded(name, k))
        if mode == 0x60:
            return self.formula(behind.loaded(name, state.memory[k]))
        if mode == 0x80:
            raise Unsuited("no guard knows how long a frame was before it was cut, so len, less and greater can't be said")
        if not isinstance(x, int):
            return self.by_cases(state, x, lambda known, _: self.formula(known))
        width = 1 if mode == 0xA0 else WIDTHS[code & 0x18]
        offset = k + x
        if offset > 65_535:
            return False
        value: Value = Field(offset, width)
        if mode == 0xA0:
            value = made("<<", Reckoning("&", value, 15), 2)
        length = max(state.length, offset + width)
        rest = self.formula(behind._replace(length=length).loaded(name, value))
        return every([Has(length), rest]) if length > state.length else rest

    def jump(self, state: State, code: int, jt: int, jf: int, k: int) -> Formula:
        """A jump, always or by a comparison of the accumulator."""
        if code & 0xF0 == 0:
            return self.formula(state._replace(at=state.at + 1 + k))
        right = state.x if code & 8 else k
        for value in (state.a, right):
            if any(sign not in "+&|f" for sign in signs(value)):
                return self.by_cases(state, value, lambda known, _: self.formula(known))
        test = {
            0x10: lambda: compare("==", state.a, right), 0x20: lambda: compare("<", right, state.a),
            0x30: lambda: compare("<=", right, state.a), 0x40: lambda: compare("!=", made("&", state.a, right), 0),
        }[code & 0xF0]()
        then = self.formula(state._replace(at=state.at + 1 + jt)) if test is not False else False
        other = self.formula(state._replace(at=state.at + 1 + jf)) if test is not True else False
        return either(test, then, other)

    def by_cases(self, state: State, value: Value, formula: Callable[[State, Value], Formula]) -> Formula:
        """The formula for each value that the bits may have on which this value hangs, each with its equation."""
        hangs_on = list(fields(value))
        if not hangs_on:
            return formula(state, value)
        field, mask = hangs_on[0]
        if len(hangs_on) > 1 or mask.bit_count() > 4:
            raise Unsuited("a place in the frame hangs on more than four bits of it, which are too many cases")
        cases, bits = list[Formula](), mask
        while True:
            test = Comparison("==", Reckoning("&", field, mask), bits)
            cases.append(every([test, formula(state.known(field, mask, bits), put_in(value, field, mask, bits))]))
            if not bits:
                return some(reversed(cases))
            bits = (bits - 1) & mask


def signs(value: Value) -> list[str]:
    """The signs of a value."""
    if isinstance(value, int):
        return []
    return ["f"] if isinstance(value, Field) else [value.sign, *signs(value.left), *signs(value.right)]


# ---- tests that are small enough


def measured(words: list[str]) -> tuple[int, int, list[str]]:
    """The nodes and the depth of a value's words."""
    if words[0] == "f":
        return 1, 1, words[4:]
    if words[0] not in "+&|":
        return 1, 1, words[1:]
    left, deep, rest = measured(words[1:])
    right, deeper, rest = measured(rest)
    return 1 + left + right, 1 + max(deep, deeper), rest


def written(formula: Formula) -> tuple[int, int, list[str]]:
    """The depth, the nodes and the words of a test; of many parts those that are shallow are put together first."""
    if isinstance(formula, bool):
        return 1, 1, ["true"] if formula else ["not", "true"]
    if isinstance(formula, Has):
        return 1, 1, ["has", "0", str(formula.length)]
    if isinstance(formula, Comparison):
        left, right = shown(formula.left), shown(formula.right)
        (nodes, deep, _), (more, deeper, _) = measured(left), measured(right)
        return 1 + max(deep, deeper), 1 + nodes + more, [formula.sign, *left, *right]
    parts = [(depth, at, nodes, words) for at, (depth, nodes, words) in enumerate(map(written, formula.parts))]
    heapq.heapify(parts)
    while len(parts) > 1:
        depth, at, nodes, words = heapq.heappop(parts)
        deeper, _, more, others = heapq.heappop(parts)
        heapq.heappush(parts, (1 + deeper, at, 1 + nodes + more, [formula.word, *words, *others]))
    return parts[0][0], parts[0][2], parts[0][3]


def fits(formula: Formula) -> bool:
    """Whether the formula can be one guard's test."""
    depth, nodes, _ = written(formula)
    return depth <= MOST_DEPTH and nodes <= MOST_NODES


def disjoint(parts: Iterable[Test]) -> list[Formula]:
    """The parts of an `any`, each behind the contraries of those single comparisons that stand before it and that it
    doesn't rule out."""
    before, found = list[Comparison](), list[Formula]()
    for part in parts:
        found.append(every([*(contrary(test) for test in before if not rules_out(part, test)), part]))
        if isinstance(part, Comparison):
            before.append(part)
    return found


def cut(formula: Formula, beside: Sequence[Formula] = ()) -> list[Formula]:
    """Disjoint tests, each small enough for a guard, of which one holds just where the formula and what is beside it do."""
    whole = every([*beside, formula])
    if whole is False:
        return []
    if fits(whole):
        return [whole]
    if isinstance(formula, Joined) and formula.word == "all":
        choices = [part for part in formula.parts if isinstance(part, Joined) and part.word == "any"]
        wide = max(choices, key=lambda part: written(part)[1], default=None)
        if wide is not None:
            return cut(wide, (*beside, *(part for part in formula.parts if part is not wide)))
    if not isinstance(formula, Joined) or formula.word != "any":
        raise Unsuited(f"a part of the expression is larger than a guard's test may be, {MOST_NODES} nodes of {MOST_DEPTH} levels")
    found, group = list[Formula](), list[Formula]()
    for part in disjoint(formula.parts):
        if group and not fits(every([*beside, some([*group, part])])):
            found += cut(some(group), beside)
            group = []
        group.append(part)
        if not fits(every([*beside, part])):
            found += cut(part, beside)
            group = []
    return found + (cut(some(group), beside) if group else [])


def tests(expression: str) -> list[str]:
    """The words of disjoint tests of a frame, of which one holds just where tcpdump's filter lets the frame through."""
    formula = Paths(compiled(expression)).formula(State(0))
    found = [" ".join(written(test)[2]) for test in cut(formula)]
    if len(found) > MOST_BINDINGS:
        raise Unsuited(f"the expression wants {len(found)} guards, and an event has at most {MOST_BINDINGS} bindings")
    return found
