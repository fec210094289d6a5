"""The shared library."""

from collections.abc import Iterable
from os import PathLike

from codzvregi import faults, runs, scripts
from codzvregi._calls import load
from codzvregi.host import Host
from codzvregi.names import Declared


class Library:
    """The calls of a shared library: of the one at this path or, where none is given, the installed one."""

    def __init__(self, path: str | PathLike[str] | None = None) -> None:
        self._calls = load(path)

    def open(self, script: Declared, lanes: int = 1) -> Host:
        """The opener of a hub of 1 to 8 lanes over the script, which is a text or declared by names: what it declares,
        with nothing bound. Its lane lines aren't done. It has the seat of lane 0, and `Host.seat` hands the others
        out."""
        if not 0 <= lanes < 2**8:
            raise faults.NoLane("there is no such lane")
        return Host.open_declared(self._calls, script, lanes)

    def open_lanes(self, script: Declared, lanes: int) -> list[Host]:
        """All seats of a hub of 1 to 8 lanes over the script, the k-th being that of lane k."""
        first = self.open(script, lanes)
        return [first, *(first.seat(number) for number in range(1, lanes))]

    def cause_text(self, cause: int) -> str:
        """The sentence of why a script is refused, by the number of the cause; "" where there is none such."""
        return scripts.cause_text(self._calls, cause)

    def fault_text(self, fault: int) -> str:
        """The sentence of why a capture is refused, by the number of the fault; "" where there is none such."""
        return scripts.fault_text(self._calls, fault)

    def version(self) -> int:
        """The version of the calls. It grows where one of them is changed."""
        return int(self._calls.spin_version())

    def proved(self) -> str:
        """What is proved of the library that is loaded, in a line: by which kit, or that it is the plain one, of which
        nothing is. Nothing is proved of this call itself."""
        return str(self._calls.codzvregi_proved().decode())

    def judge(
        self, script: bytes, report: bytes, standing: Iterable[str] = (), packets: bytes | None = None
    ) -> bool:
        """Whether the report is that of one legal history of the script, with the capture that these packets are the
        bytes of, or without one, `standing` being the names of the endpoints that stood. A name that has a blank is
        that of no endpoint."""
        return scripts.judge(self._calls, script, report, standing, packets)

    def run(self, script: bytes, packets: bytes | None = None, standing: Iterable[str] = ()) -> runs.Run:
        """Runs the script whole, with the capture that these packets are the bytes of, or without one, `standing` being
        the names of the endpoints that stand: each segment lane after lane, and the jobs of each deed at once, on no
        thread. A name that has a blank is that of no endpoint."""
        return runs.run(self._calls, script, packets, standing)


def proved() -> str:
    """What is proved of the installed library, in a line."""
    return Library().proved()
