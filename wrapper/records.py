"""The frames of a capture that packet lines of a script take: in the order of the text, whatever their lanes."""

import struct

from wrapper.pieces import HEADER, RECORD_HEADER, order_of
from wrapper.reading import Script, number


class Records:
    """The records of a capture that the program has read, found one after another as they are asked for."""

    def __init__(self, script: Script, content: bytes) -> None:
        """Takes the script, and the bytes of the capture."""
        self.content = content
        self.firsts: dict[int, int] = {}
        self.places: list[tuple[int, int]] = []
        self.end, self.length = HEADER, struct.Struct(f"{order_of(content)}8xI4x")
        count = 0
        for line, deed in script.deeds.items():
            if deed.words[0] == "packet":
                self.firsts[line] = count
                count += number(deed.words[2])

    def frame(self, line: int, part: int) -> bytes:
        """The frame that is a part of a packet line, counted from 1."""
        which = self.firsts[line] + part - 1
        while len(self.places) <= which:
            (length,) = self.length.unpack_from(self.content, self.end)
            start = self.end + RECORD_HEADER
            self.places.append((start, start + length))
            self.end = start + length
        start, end = self.places[which]
        return self.content[start:end]
