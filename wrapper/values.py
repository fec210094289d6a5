"""Expressions and tests of scripts: their values over arguments, and their text with the values put in.

An argument is a number or bytes. Nothing is proved of what is worked here.
"""

import re
from collections.abc import Callable, Iterable, Sequence

from wrapper.reading import number

# An argument of a raise.
Argument = int | bytes

WORD = 1 << 64
WIDTHS = (1, 2, 4, 8)
COMPARES: dict[str, Callable[[int, int], bool]] = {
    "==": lambda left, right: left == right, "!=": lambda left, right: left != right,
    "<": lambda left, right: left < right, "<=": lambda left, right: left <= right,
}
SUMS: dict[str, Callable[[int, int], int]] = {
    "+": lambda left, right: (left + right) % WORD, "&": lambda left, right: left & right,
    "|": lambda left, right: left | right,
}
JOINS: dict[str, tuple[str, Callable[[Iterable[bool]], bool]]] = {"all": (" and ", all), "any": (" or ", any)}


def word_at(arguments: Sequence[Argument], which: int) -> int:
    """The number that an argument is; 0 where it is none."""
    found = arguments[which] if which < len(arguments) else 0
    return found if isinstance(found, int) else 0


def bytes_at(arguments: Sequence[Argument], which: int, start: int = 0) -> bytes:
    """The bytes of an argument from there on; none where it is none."""
    found = arguments[which] if which < len(arguments) else b""
    return b"" if isinstance(found, int) else found[start:]


def field(content: bytes, offset: int, width: int) -> int:
    """The number in so many bytes; 0 where they reach past the end."""
    if width not in WIDTHS or offset + width > len(content):
        return 0
    return int.from_bytes(content[offset:offset + width], "big")


def in_brackets(text: str) -> str:
    """A text that stands within another one."""
    return f"({text})" if " " in text else text


def alike(text: str, other: str) -> str:
    """A number in hexadecimal digits where the other side of a comparison is written so."""
    if text.isdigit() and re.fullmatch("0[xX][0-9a-fA-F]+", other):
        return f"0x{int(text):0{len(other) - 2}x}"
    return text


class Code:
    """Words in prefix form, read one after another over arguments."""

    def __init__(self, words: list[str], arguments: list[Argument]) -> None:
        """Begins with the first word."""
        self.words, self.arguments, self.at = words, arguments, 0

    @property
    def is_left(self) -> bool:
        """Whether a word is left."""
        return self.at < len(self.words)

    def word(self) -> str:
        """The next word."""
        self.at += 1
        return self.words[self.at - 1]

    def number(self) -> int:
        """The number that the next word is."""
        return number(self.word())

    def expression(self) -> tuple[int, str]:
        """The value of the next expression, and its text."""
        word = self.word()
        if word in SUMS:
            (left, one), (right, other) = self.expression(), self.expression()
            return SUMS[word](left, right), f"{in_brackets(one)} {word} {in_brackets(other)}"
        if word == "f":
            content = bytes_at(self.arguments, self.number())
            found = field(content, self.number(), self.number())
            return found, str(found)
        if word.startswith("a"):
            found = word_at(self.arguments, int(word[1:]))
            return found, str(found)
        return number(word), word

    def test(self, is_part: bool = False) -> tuple[bool, str]:
        """Whether the next test holds, and its text; of a part of a greater one it says where it doesn't."""
        word = self.word()
        if word in JOINS:
            return self.joined(word)
        if word == "not":
            holds, text = self.test()
            return not holds, f"not ({text})"
        if word == "true":
            return True, "true"
        if word == "has":
            length, least = len(bytes_at(self.arguments, self.number())), self.number()
            holds, text = length >= least, f"{length} >= {least} bytes"
        else:
            (left, one), (right, other) = self.expression(), self.expression()
            sides = in_brackets(alike(one, other)), in_brackets(alike(other, one))
            holds, text = COMPARES[word](left, right), f"{sides[0]} {word} {sides[1]}"
        return holds, f"{text} (no)" if is_part and not holds else text

    def joined(self, word: str) -> tuple[bool, str]:
        """Whether both of the next two tests hold, or one of them, and their text."""
        between, how = JOINS[word]
        found = []
        for _ in range(2):
            inner = self.words[self.at]
            holds, text = self.test(True)
            found.append((holds, f"({text})" if inner in JOINS and inner != word else text))
        return how(holds for holds, _ in found), between.join(text for _, text in found)
