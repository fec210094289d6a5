"""The event dispatcher of SPIN for hosts in Python: the calls of the library of crates/spin_c, which are proved.

Of this package nothing is proved. It loads the shared library that was installed with it, or another one that is named:

    import codzvregi

    lane = codzvregi.Library().open({"Udp.PacketArrived": "bw:w"})

    @lane.on("Udp.PacketArrived", guard=lambda packet, port: port == 53)
    def answer_name(packet, port):
        return len(packet)

    print(lane.raise_("Udp.PacketArrived", b"name", 53).value)

Why a call has no answer is told by an exception, a Fault. What is proved of the library that is loaded, `proved()`
tells.
"""

from codzvregi.commands import Command, Mode, Op, Place, Refusal, Row
from codzvregi.faults import (
    Abandoned, BadCapture, BadScript, Closed, Downward, Ended, Fault, Full, GiftRefused, NoArgument, NoBinding,
    NoCommand, NoJob, NoLane, NoLibrary, NoMemory, NoName, NoReply, NoRow, NoStep, NotDue, Refused, Shared, Spent,
    Taken,
)
from codzvregi.host import Answer, Firing, Host, Outcome
from codzvregi.lanes import Lane
from codzvregi.library import Library, proved
from codzvregi.names import Event, Script
from codzvregi.replies import Job, Kind, Reply, Step, StepKind
from codzvregi.runs import Run, Sent

__all__ = [
    *("Abandoned", "Answer", "BadCapture", "BadScript", "Closed", "Command", "Downward", "Ended", "Event", "Fault"),
    *("Firing", "Full", "GiftRefused", "Host", "Job", "Kind", "Lane", "Library", "Mode", "NoArgument", "NoBinding"),
    *("NoCommand", "NoJob", "NoLane", "NoLibrary", "NoMemory", "NoName", "NoReply", "NoRow", "NoStep", "NotDue", "Op"),
    *("Outcome", "Place", "Refusal", "Refused", "Reply", "Row", "Run", "Script", "Sent", "Shared", "Spent", "Step"),
    *("StepKind", "Taken", "proved"),
]
