"""What `headline` starts from, and in which order: the headline and its words, the first hour, and the contracts below it.

A definition is named by its crate and its name.
"""

from typing import NamedTuple


class Apart(NamedTuple):
    """What is named on the path and goes by itself: how it is asked for, what it begins with, its title, and what it says."""

    option: str
    roots: list[str]
    title: str
    says: str


CALL, SOURCE = "pub fn spin<", "crates/spin_cli/src/top.rt"
# The clauses that the headline is: its condition, and what status 0 means.
CLAUSES = ["sincere", "headline"]
# The clauses that say the same of another command, and what they rest on beside.
BESIDE = ["headline_joined"]
BESIDE_IS = "what the clause *headline_joined* rests on beside, which says the same of `join` over the joined capture"
# What is named on the path and goes one level deeper, by itself: a table that is only looked up, and `IsScript`.
APART = [
    Apart("--lines", ["spin_grammar:line_form"], "The words of each line", "the words of each line"),
    Apart("--standards",
          ["spin_headers:ether_of", "spin_headers:ipv4_of", "spin_headers:udp_of", "spin_headers:ipv4_payload",
           "spin_headers:udp_payload", "spin_headers:Ether", "spin_headers:Ipv4", "spin_headers:Udp"],
          "Tables that are taken from standards", "the headers of Ethernet, IPv4 and UDP, taken from RFC 894, 791 and 768"),
    Apart("--natives",
          ["spin_objects:Natives", "spin_objects:native_handlers", "spin_objects:native_guards", "spin_objects:native_authorisers"],
          "The natives as they are handed in", "the natives as they are handed in"),
    Apart("--script", ["spin_script:IsScript"], "When the text of a script is accepted",
          "when the text of a script is accepted, no line of it being refused"),
]

HEADLINE = (
    "For every script, capture and interleaving of the lanes, what the program writes is one legal history of the plain "
    "dispatcher: each deed of each lane stands in it once, in its lane's order and within its segment; each raise answers by "
    "the bindings in force at its place; each refusal names its rule and changes nothing; and each endpoint has received "
    "exactly its sends of that history, until retired."
)

# Each part of the headline, what it means, and the definitions that say it.
WORDS = [
    ("For every script", "the text that was read under the script's name says that script, line by line, and no line of it "
     "is refused", ["spin_cli:WasRunWhole", "spin_inputs:SaysScript", "spin_script:IsScript"]),
    ("capture", "the records are those of the capture's file, up to a rest that is empty or cut; none where no capture is named",
     ["spin_inputs:IsNamedCapture", "spin_inputs:HasFileHeader", "spin_inputs:HoldsRecords"]),
    ("and interleaving of the lanes", "the clause has no premise on the order of the lanes' steps",
     ["spin_cli:Headline"]),
    ("what the program writes", "the bytes appended to the sink are the report's text, where shelf and sink tell what they hold; "
     "standard output tells nothing, and a folder doesn't tell its files by name",
     ["spin_cli:WasRunWhole", "spin_report:report_text"]),
    ("is one legal history of the plain dispatcher", "the entries, segment after segment, are legal from the start",
     ["spin_report:IsRun", "spin_report:IsLegal"]),
    ("each deed of each lane stands in it once, in its lane's order and within its segment", "a packet line has as many deeds as "
     "records are left for it, at most its number, in the order of the text", ["spin_report:IsWoven", "spin_report:asked_in"]),
    ("each raise answers by the bindings in force at its place", "each entry is a step of the plain dispatcher at the state that "
     "the entries before it made", ["spin_report:Answers", "spin_proto:IsDeedReply"]),
    ("each refusal names its rule and changes nothing", "the first refusal that applies is told, and the state stays",
     ["spin_table:IsStep", "spin_table:refusal_of"]),
    ("and each endpoint has received exactly its sends of that history, until retired", "each endpoint that tells its pieces has "
     "gained exactly the pieces sent to its name while it stood, in the order of the entries and then of the jobs; those that "
     "stand are those that stood and weren't retired",
     ["spin_report:IsSegmentRun", "spin_endpoint:all_received", "spin_endpoint:all_retired"]),
    ("where the status is 0 under `run`", "the words are `run NAME` or `run NAME PACKETS`, and the shelf tells its files; "
     "of `join NAME PACKETS` the clause *headline_joined* says the same, over the joined capture",
     ["spin_cli:Headline", "spin_cli:HeadlineJoined"]),
    ("and the natives do what they were handed in with", "the call's one condition", ["spin_objects:IsSincere"]),
    ("with one lane", "a law beside the clause: there is one such history, but for the cycle that a conflict tells, that of the"
     " plain dispatcher as a function of script, capture and endpoints", ["spin_plain:OneLaneIsPlain", "spin_plain:plain_history"]),
]

# The first hour: its parts in reading order, each with what it begins with.
PARTS = [
    ("From the clause to a run", "What status 0 means under `run`, and what is seen before and after the call.",
     ["spin_cli:Headline"]),
    ("Run", "Which histories are those of a script: segment after segment, with what is retired, sent and lost.",
     ["spin_report:HistorySeen", "spin_report:RunPoint", "spin_report:IsRun"]),
    ("Legal", "Which entries and jobs answer what a segment asks of its lanes.", ["spin_report:IsWoven"]),
    ("Step", "What becomes of a command at a state.", ["spin_table:IsStep"]),
    ("Reply", "What a raise, or the call of a job, comes to at a state.", ["spin_proto:IsDeedReply", "spin_proto:IsJobReply"]),
    ("Report", "The lines of a history's report.", ["spin_report:report_text"]),
    ("Script", "What the text under the script's name says, and what natives it may name.",
     ["spin_inputs:SaysScript", "spin_script:ScriptData", "spin_script:natives_seen", "spin_script:NativeData"]),
    ("Capture", "The records of the capture that is named.", ["spin_inputs:IsNamedCapture"]),
]

# Where the first hour stops: these, and what only they cite, come behind it.
DEEPER = [
    "spin_table:refusal_on", "spin_table:event_after", "spin_place:HasLawfulOrder", "spin_place:IsCycle",
    "spin_place:IsTheOrder", "spin_table:bindings_after",
    "spin_proto:raised", "spin_proto:raised_after", "spin_proto:job_of", "spin_proto:reply_of", "spin_proto:are_fit",
    "spin_report:entry_line", "spin_report:job_line",
    "spin_inputs:script_with", "spin_grammar:LineMeaning", "spin_inputs:IsSignature",
    "spin_grammar:number", "spin_grammar:hex_bytes", "spin_outside:Keep",
    "spin_objects:HandlerUnit", "spin_objects:GuardUnit",
]
# The definitions that the page shows with their texts.
SHOWN = ["spin_cli:Headline", "spin_cli:WasRunWhole"]
# Types of the sources that come behind the first hour, too: long lists of cases, and what acts and policies are made of.
LATER_TYPES = ["Command", "Refusal", "JobCall", "End", "RunEnd", "Test", "Rule", "Act", "EventType"]

# The contracts that alone tie what is seen to calls, and how two values are seen: the file, and where the text begins.
# The clauses of LEFT_OUT are left out: only another clause needs them, the bound on how much of a file is read.
LEFT_OUT = ["named", "under", "none_left"]
CONTRACTS = [
    ("Shelf", "crates/spin_outside/src/shelf.rt", "pub trait Shelf"),
    ("Sink", "crates/spin_outside/src/sink.rt", "pub trait Sink"),
    ("Endpoint", "crates/spin_endpoint/src/endpoint.rt", "pub trait Endpoint"),
    ("EndsSeen of Ends", "crates/spin_endpoint/src/ends.rt", "impl EndsSeen for Ends"),
    ("Handler", "crates/spin_objects/src/object.rt", "pub trait Handler"),
    ("Guard", "crates/spin_objects/src/object.rt", "pub trait Guard"),
    ("Authoriser", "crates/spin_policy/src/authoriser.rt", "pub trait Authoriser"),
    ("Sincere of Natives", "crates/spin_objects/src/natives.rt", "impl Sincere for Natives"),
]

TRUSTED = """Whoever believes the definitions believes what the clause says. Besides them these are trusted:

- the toolchain and its checker, and the C library;
- the statements of the standard library and of the kit's crates, whose words the definitions use (`Option`, lists, `map`, sorting) and this page leaves out;
- that files, standard output and files of endpoints do what `FolderShelf`, `StdSink` and `FileEnd` ask of them. The folder doesn't tell its files by name, and the other two tell nothing of what they took, so of these the clause speaks of counts alone;
- that `main` hands in the working folder, standard output and the five endpoints, which no clause says.

Nothing is claimed of time, fairness or progress of a lane, nor that memory is there.
"""
