"""How far a build is, told on standard error: on a terminal in one line that changes, else in lines."""

import shutil
import sys
import time
from collections.abc import Mapping

from wrapper.program import tell
from wrapper.trial import passed

# How long it is between two lines that say how far it is, in seconds.
SAY = 60


class Progress:
    """Says what begins and ends, and at least once a minute how far it is."""

    def __init__(self, count: int) -> None:
        self.count, self.done, self.since = count, 0, time.monotonic()
        self.on_terminal, self.said = sys.stderr.isatty(), time.monotonic()

    def line(self, running: Mapping[str, float]) -> str:
        """How far it is."""
        names = ", ".join(f"{name} ({passed(began)})" for name, began in running.items())
        left = self.count - self.done - len(running)
        return f"{self.done} of {self.count} crates are built, {left} wait, {passed(self.since)}; now {names or 'none'}"

    def event(self, text: str, running: Mapping[str, float]) -> None:
        """Says that something began or ended; `running` has the crates that are being built, each with when it began."""
        if self.on_terminal:
            self.look(running)
        else:
            tell(f"{text}; {self.done} of {self.count} crates are built, {passed(self.since)}")
            self.said = time.monotonic()

    def look(self, running: Mapping[str, float]) -> None:
        """Says how far it is, where that is due."""
        if self.on_terminal:
            width = shutil.get_terminal_size().columns - 1
            sys.stderr.write(f"\r\x1b[K{f'spin: {self.line(running)}'[:width]}")
            sys.stderr.flush()
        elif time.monotonic() - self.said >= SAY:
            tell(self.line(running))
            self.said = time.monotonic()

    def close(self) -> None:
        """Clears the line that changes."""
        if self.on_terminal:
            sys.stderr.write("\r\x1b[K")
            sys.stderr.flush()
