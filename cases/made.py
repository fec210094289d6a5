"""Cases that are too long, or too many, to stand as files: each is a name, a script and what must be written. And the
captures that cases name."""

import re
import struct
from collections.abc import Iterable, Iterator, Sequence
from pathlib import Path
from typing import NamedTuple

HEAD = "spin 1\nevent 0 0 - last\nhandler 1 -\n"
WIDE_HEAD = HEAD.replace("spin 1", "spin 3")
INSTALL = "lane 0 install 0 0 1 0 free plain\n"
WIDE_INSTALL = "lane 0 install 0 0 1 0 free before 0 after 0 plain\n"
DEFAULT = "lane 0 default 0 0 1\n"

# A case: its name, its script, and what must be written.
Made = tuple[str, str, str]


def report(entries: Iterable[str], end: int) -> str:
    """The report of one segment with these entries, after which so many commands were accepted."""
    return "".join(f"{line}\n" for line in ["report 1", "segment 0 at 0", *entries, f"end {end}"])


def stop(line: int, cause: int) -> str:
    """What is written where a script is refused at a line."""
    return f"stop 2 line {line} cause {cause}\n"


def accepted(word: str, count: int) -> list[str]:
    """The entries of so many commands, which stand from line 4 on."""
    return [f"{number} 0 {3 + number} {word} ok" for number in range(1, count + 1)]


def limits() -> Iterator[Made]:
    """As many of a kind as there may be, and one more."""
    for limit, head, install in [(32, HEAD, INSTALL), (64, WIDE_HEAD, WIDE_INSTALL)]:
        refused = f"{limit} 0 {limit + 4} install refused 10 too_many"
        entries = accepted("install", limit) + [refused]
        yield f"binding_{limit + 1}_of_an_event", head + install * (limit + 1), report(entries, limit)
    # Binding 1 is first, so that none can go before it.
    first = INSTALL.replace("free", "first")
    script = HEAD + first + INSTALL * 31 + INSTALL.replace("free", "before 1")
    entries = accepted("install", 32) + ["32 0 36 install refused 10 too_many"]
    yield "too_many_bindings_count_before_a_conflict", script, report(entries, 32)
    for limit, head in [(1000, HEAD), (4096, WIDE_HEAD)]:
        whole = report(accepted("default", limit), limit)
        yield f"commands_{limit}", head + DEFAULT * limit, whole
        yield f"commands_{limit + 1}", head + DEFAULT * (limit + 1), stop(limit + 4, 13)
    yield "nodes_of_an_act", "spin 1\nhandler 1 -:w" + " result 1" * 32 + "\n", report([], 0)
    yield "too_many_nodes_of_an_act", "spin 1\nhandler 1 -:w" + " result 1" * 33 + "\n", stop(2, 15)
    yield "bytes_of_a_text", "spin 1\n" + "#" * 1_048_569, report([], 0)
    yield "too_many_bytes_of_a_text", "spin 1\n" + "#" * 1_048_570, stop(0, 1)
    yield "a_very_deep_merge", "spin 1\nevent 0 0 - fold" + " +" * 500_000, stop(2, 11)
    yield "a_very_long_act", "spin 1\nhandler 1 -:w" + " result + 1 1" * 75_000, stop(2, 15)


def raises() -> Iterator[Made]:
    """A raise of event 0 raises event 1 so often, and each of these event 2 64 times."""
    leaf = "up 2 run 2 3 back done"
    branch = " ".join(["up 1 run 1 2"] + [leaf] * 64 + ["back done"])
    for ups, answer in [
        (63, " ".join(["raise run 0 1"] + [branch] * 63 + ["= done"])),
        (64, "raise refused 3 spent"),
    ]:
        events = "".join(f"event {number} 0 - last\n" for number in range(3))
        handlers = f"handler 1 -{' up 1 0' * ups}\nhandler 2 -{' up 2 0' * 64}\nhandler 3 -\n"
        deeds = "".join(f"lane 0 install {n} 0 {n + 1} 0 free plain\n" for n in range(3)) + "lane 0 raise 0\n"
        installed = [f"{number} 0 {7 + number} install ok" for number in range(1, 4)]
        script = "spin 1\n" + events + handlers + deeds
        yield f"a_raise_that_starts_{1 + 65 * ups}_handlers", script, report(installed + [f"3 0 11 {answer}"], 3)


def sum_of_nodes(nodes: int) -> str:
    """A sum of so many nodes, a power of two less one, whose depth is small."""
    if nodes == 1:
        return " 0"
    return " +" + sum_of_nodes(nodes // 2) * 2


DEEP_SUM = " + 0" * 8 + " 0"

# Steps of a handler of bytes and a word, each with the cause that it is alone, in the order of the causes.
STEPS = [
    (" result" + DEEP_SUM, 14), (" result 1" * 33, 15), (" result a7", 16), (" result a0", 17),
    (" set 1 1", 18), (" result 1", 19), (" send 0 0 0", 20), (" up 0 0", 21),
]


def test_of_leaves(leaves: int) -> str:
    """A test of so many comparisons, a power of two, whose depth is small."""
    if leaves == 1:
        return " == 1 1"
    return " all" + test_of_leaves(leaves // 2) * 2


# Tests of a guard of bytes, and expressions of a merge; two of them stand behind a word for both.
TESTS = [(" not" * 8 + " true", 14), (test_of_leaves(32), 15), (" == a7 0", 16), (" == a0 0", 17)]
MERGES = [(DEEP_SUM, 14), (sum_of_nodes(127), 15), (" a2", 16), (" f 0 0 1", 17)]


def pairs() -> Iterator[Made]:
    """Two causes in one line, of which the first counts; and both count after a number that isn't the next one."""
    for what, line, front, both, parts in [
        ("steps", 3, "spin 1\nevent 0 0 w last\nhandler {} bw", "", STEPS),
        ("tests", 2, "spin 1\nguard {} b", " all", TESTS),
        ("merges", 2, "spin 1\nevent {} 1 - fold", " +", MERGES),
    ]:
        first = 0 if what == "merges" else 1
        for at, (later, cause) in enumerate(parts):
            number = front.format(first + 1)
            yield f"{what}_of_cause_{cause}_behind_a_wrong_number", f"{number}{later}\n", stop(line, 12)
            for part, counts in parts[:at]:
                script = f"{front.format(first)}{both}{later}{part}\n"
                yield f"{what}_of_cause_{cause}_and_{counts}", script, stop(line, counts)


# For each cause that a line may be bad for: lines before it, and that line.
BAD_LINES = {
    4: ("", "events"), 5: ("modules 2\n", "modules 3"), 6: ("", "modules 0"), 7: ("", "event 0 0 x last"),
    8: ("", "endpoint 0 a-b"), 9: ("", "event 0 0 - first"), 10: ("", "lane 0 raise 0 x1"), 11: ("", "event 0 0 -"),
    12: ("", "event 1 0 - last"), 13: ("lane 0 packet 0 65536\n", "lane 0 raise 0"),
    14: ("", "handler 1 -:w result" + DEEP_SUM), 15: ("", "handler 1 -:w" + " result 1" * 33),
    16: ("", "handler 1 -:w result a0"), 17: ("", "handler 1 b:w result a0"), 18: ("", "handler 1 w set 0 1"),
    19: ("", "handler 1 - result 1"), 20: ("", "handler 1 b send 0 0 0"), 21: ("event 0 0 w last\n", "handler 1 - up 0 0"),
    22: ("", "handler 1 native other"), 23: ("endpoint 0 a\n", "endpoint 1 a"), 24: ("", "lane 8 raise 0"),
}


def lines() -> Iterator[Made]:
    """What is wrong with a line as a whole counts before what is wrong with its words."""
    for cause, (before, bad) in BAD_LINES.items():
        line = 2 + before.count("\n")
        yield f"line_of_cause_{cause}", f"spin 1\n{before}{bad}", stop(line, cause)
        yield f"line_of_cause_{cause}_not_ascii", f"spin 1\n{before}{bad}\x01\n", stop(line, 2)
        yield f"line_of_cause_{cause}_without_a_version", f"{bad}\n", stop(1, 3)
        # The others belong to the last section, or are out of order anyhow.
        if cause not in (4, 5, 10, 13, 24):
            yield f"line_of_cause_{cause}_behind_a_barrier", f"spin 1\n{before}barrier\n{bad}", stop(line + 1, 5)


# Lines behind `event 0 0 w last` that differ in one thing, with what each is refused for; 0 is nothing.
CODE_LINES = [
    ("handler 1 Wbw set 0 f 1 0 2", 0), ("handler 1 Wbw set 0 f 1 0 3", 17), ("handler 1 Wbw set 1 f 1 0 2", 17),
    ("handler 1 Wbw set 2 f 1 0 2", 18), ("handler 1 Wbw set 3 f 1 0 3", 16),
    ("handler 1 Wbw up 0 1 w" + " + 0" * 7 + " 0", 0), ("handler 1 Wbw up 0 1 w" + DEEP_SUM, 14),
    ("handler 1 Wbw layer ipv4 0", 17), ("handler 1 Wbw layer udp 0", 17), ("handler 1 Wbw result a0", 19),
    ("guard 1 wbw has 1 0", 0), ("guard 1 wbw has 2 0", 17), ("guard 1 wbw has 3 0", 16),
]


def code() -> Iterator[Made]:
    """Handlers, guards and merges with one fault, and others that just have none."""
    for at, (line, cause) in enumerate(CODE_LINES):
        yield f"code_line_{at}", f"spin 1\nevent 0 0 w last\n{line}\n", stop(3, cause) if cause else report([], 0)
    yield "a_merge_of_both_arguments", "spin 1\nevent 0 0 w fold + a0 a1\n", report([], 0)
    yield "a_merge_of_a_third_argument", "spin 1\nevent 0 0 w fold + a0 a2\n", stop(2, 16)


ETHER = "0200000000020200000000010800"
TCP_HEADER = "4500003c1c4640004006b1e6ac100a63ac100a0c"
TO_1024 = "00350400000a"


def prefixes(layer: str, kinds: str, texts: Sequence[tuple[str, str]]) -> tuple[str, str]:
    """Raises of a layer's handler on prefixes of bytes: each text is the words of a raise and what it comes to."""
    head = f"spin 1\nevent 0 0 {kinds} last\nevent 1 0 {'bwww' if layer == 'ipv4' else 'bwwww'}:w last\n"
    units = f"handler 1 {kinds} layer {layer} 1\n" + {
        "ipv4": "handler 2 bwww:w result + a1 & a3 0xff\n", "udp": "handler 2 bwwww:w result + a1 a2\n"
    }[layer]
    installs = "".join(f"lane 0 install {n} 0 {n + 1} 0 free plain\n" for n in range(2))
    raises = "".join(f"lane 0 raise 0 {words}\n" for words, _ in texts)
    entries = [f"{n} 0 {5 + n} install ok" for n in (1, 2)]
    entries += [f"2 0 {8 + at} raise run 0 1 {what} = done" for at, (_, what) in enumerate(texts)]
    return head + units + installs + raises, report(entries, 2)


def headers() -> Iterator[Made]:
    """Every prefix of a packet and of datagrams; options, fragments and another address."""

    def read(value: int) -> str:
        """What a header comes to that is read, where the handler behind it gives this value."""
        return f"up 1 run 1 2 result {value} back value {value}"

    packet = TCP_HEADER + "00" * 44
    texts = [("x" + ETHER + packet[: 2 * n], "drop short" if n < 20 else "drop total_length" if n < 60 else read(18)) for n in range(65)]
    options = "46000018000140004011" + "23d00a0000010a00000201010101"
    for bytes_, what in [
        (options, read(19)), (options[:-2], "drop header_length"), (options[:-2] + "02", "drop checksum"),
        ("4500001400012000401146d60a0000010a000002", "drop fragment"),
        ("4500001c00010002401166cc0a0000010a000002" + "00" * 8, "drop fragment"),
        ("45000014000180004011e6d50a0000010a000002", read(19)),
        ("450000131c4640004006b1e7ac100a63ac100a0c" + "00" * 44, "drop total_length"),
        (packet[:20] + "b1e7" + packet[24:118], "drop total_length"),
    ]:
        texts.append(("x" + ETHER + bytes_, what))
    yield "prefixes_of_an_ipv4_packet", *prefixes("ipv4", "b", texts)
    ends = " 17 0x0a000001 0x0a000002"
    texts = []
    for sum_, whole in [("8640", read(1077)), ("0000", read(1077)), ("8641", "drop checksum")]:
        datagram = TO_1024 + sum_ + "6162ff"
        for n in range(12):
            what = "drop short" if n < 8 else "drop udp_length" if n < 10 else whole
            texts.append(("x" + datagram[: 2 * n] + ends, what))
    texts.append(("x" + TO_1024 + "86406162 17 0x0a000001 0x0a000001", "drop checksum"))
    texts.append(("x00350400000700" + ends, "drop short"))
    yield "prefixes_of_datagrams", *prefixes("udp", "bwww", texts)


# ---- the smallest example of each status, cause, fault and refusal, which examples/smallest.txt shows

USAGE = "usage: spin run SCRIPT [PACKETS] | spin gen NUMBER | spin check SCRIPT REPORT [PACKETS] | spin join SCRIPT PACKETS | spin vm SCRIPT TRACE\n"
TWO_EVENTS = ["event 0 0 b last", "event 1 0 bwww last", "handler 1 b layer ipv4 1", INSTALL.strip()]
TWO_LAYERS = ["event 0 0 bwww last", "event 1 0 bwwww last", "handler 1 bwww layer udp 1", INSTALL.strip()]


def of_causes() -> Iterator[tuple[int, list[str], int]]:
    """For each cause the lines behind `spin 1` of a script that is refused for it, and that line's number."""
    for cause, (before, bad) in BAD_LINES.items():
        yield cause, before.splitlines() + [bad], 2 + before.count("\n")


def of_refusals() -> Iterator[tuple[str, list[str], list[str]]]:
    """What the dispatcher refuses: the lines behind the version, and the entries."""
    ok, head = "install ok", ["event 0 0 - last", "handler 1 -", INSTALL.strip()]
    first = INSTALL.strip().replace("free", "first")
    yield "install refused 1 unknown_event", [INSTALL.strip()], []
    yield "install refused 2 unknown_module", ["event 0 0 - last", "lane 0 install 0 1 1 0 free plain"], []
    yield "install refused 3 unknown_handler", ["event 0 0 - last", INSTALL.strip()], []
    yield "install refused 4 unknown_guard", head[:2] + ["lane 0 install 0 0 1 1 free plain"], []
    yield "remove refused 5 unknown_binding", ["event 0 0 - last", "lane 0 remove 0 0 1"], []
    yield "install refused 6 wrong_type", ["event 0 0 w last"] + head[1:], []
    yield "install refused 7 downward", ["event 0 0 - last", "handler 1 - up 0 0", INSTALL.strip()], []
    yield "install refused 8 wrong_mode", ["event 0 0 W last", "handler 1 W set 0 1", INSTALL.strip()], []
    yield "nodefault refused 9 denied 0", ["modules 2", "event 0 0 - last", "lane 0 nodefault 0 1"], []
    yield "install refused 11 conflict 1 2", head[:2] + [first, first.replace("first", "before 1")], [ok]
    yield "raise refused 1 unknown_event", ["lane 0 raise 0"], []
    yield "raise refused 2 wrong_args", ["event 0 0 - last", "lane 0 raise 0 1"], []
    for drop, bytes_ in [
        ("short", ""), ("version", "55" + "00" * 19), ("header_length", "44" + "00" * 19),
        ("total_length", "45000013" + "00" * 16), ("checksum", "45000014" + "00" * 16),
        ("fragment", "4500001400012000401146d60a0000010a000002"),
    ]:
        raised = f"lane 0 raise 0 x{ETHER}{bytes_}"
        yield f"raise run 0 1 drop {drop} = done", TWO_EVENTS + [raised], [ok]
    raised = "lane 0 raise 0 x0035040000070000 17 1 2"
    yield "raise run 0 1 drop udp_length = done", TWO_LAYERS + [raised], [ok]


def of_captures() -> Iterator[tuple[str, str]]:
    """The name of a capture that is refused, or isn't there, and what stands instead of a report."""
    yield "next.pcapng", "stop 3 record 0 fault 2"
    yield "version.pcap", "stop 3 record 0 fault 3"
    yield "link.pcap", "stop 3 record 0 fault 4"
    yield "empty.pcap", "stop 3 record 0 fault 5"
    yield "nowhere.pcap", "stop 6 packets"


class Smallest(NamedTuple):
    """A smallest example: its name, its lines, further words of the command line, and what must be written."""

    name: str
    lines: list[str]
    words: list[str]
    stdout: str


def smallest() -> Iterator[Smallest]:
    """Each smallest example."""
    yield Smallest("smallest_report", ["spin 1"], [], report([], 0))
    yield Smallest("smallest_usage", ["spin 1"], ["packets", "more"], USAGE)
    yield Smallest("smallest_cause_2", ["spin 1", "\x01"], [], stop(2, 2))
    yield Smallest("smallest_cause_3", ["spin 9"], [], stop(1, 3))
    for cause, lines_, line in of_causes():
        yield Smallest(f"smallest_cause_{cause}", ["spin 1"] + lines_, [], stop(line, cause))
    for at, (last, lines_, before) in enumerate(of_refusals()):
        line = len(lines_) + 1 - len(before)
        entries = [f"{n} 0 {line + n - 1} {text}" for n, text in enumerate(before, 1)]
        entries.append(f"{len(before)} 0 {len(lines_) + 1} {last}")
        yield Smallest(f"smallest_refusal_{at}", ["spin 1"] + lines_, [], report(entries, len(before)))
    forced = ["modules 2", "event 0 0 W last", "handler 1 W set 0 1", "rule 0 1 1 any any all force 0 keep async"]
    forced += ["lane 0 install 0 1 1 0 free filter"]
    entry = "0 0 6 install refused 12 forced_mode 1"
    yield Smallest("smallest_forced_mode", ["spin 2"] + forced, [], report([entry], 0))
    for capture, told in of_captures():
        yield Smallest(f"smallest_{capture.replace('.', '_')}", ["spin 1"], [capture], f"{told}\n")
    long_ = "report 1\nsegment 0 at 0\nstop 3 record 3 fault 6\n"
    yield Smallest("smallest_long_pcap", ["spin 1"], ["long.pcap"], long_)


SHOWN = re.compile(r"^(stop|usage|end|.* refused|.* drop ).*$")


# The page of the smallest examples, and how it begins.
SMALLEST = Path(__file__).resolve().parent.parent / "examples" / "smallest.txt"
ABOUT = """\
The smallest script that comes to each status, cause, fault, refusal and drop: the line that a person meets, further words
of the command line, and the script, indented. Each is a worked case. `python3 cases/made.py` writes this page.
"""


def page() -> str:
    """The page of the smallest examples."""
    parts = [ABOUT]
    for _, lines_, words, stdout in smallest():
        told = [line for line in stdout.splitlines() if SHOWN.match(line)]
        shown = [line for line in told if not line.startswith("end")] or told
        script = "".join(f"    {line}\n" for line in lines_).replace("\x01", "\\x01")
        further = f"  with {' '.join(words)}\n" if words else ""
        parts.append(f"{shown[0]}\n{further}{script}")
    return "\n".join(parts)


def cases() -> Iterator[Made]:
    """All cases that are made."""
    for make in (limits, raises, pairs, lines, code, headers):
        yield from make()


def frame_header(destination: int, source: int, kind: str) -> bytes:
    """A header of Ethernet."""
    return bytes.fromhex(f"0200000000{destination:02}0200000000{source:02}{kind}")


ARP = bytes.fromhex(
    "ffffffffffff02000000000108060001080006040001" "0200000000010a000001" "0000000000000a000002"
)
TCP = frame_header(2, 1, "0800") + bytes.fromhex(TCP_HEADER) + bytes(40)
QUERY = frame_header(2, 1, "0800") + bytes.fromhex(
    "4500002f00024000401126ba0a0000010a000002" "c0000035001b14ea" "12340100000100000000000001610000010001"
)
ANSWER = frame_header(1, 2, "0800") + bytes.fromhex(
    "4500003f00034000401126a90a0000020a000001" "0035c000002b427e"
    "1234818000010001000000000161000001" "0001c00c000100010000003c00040a000003"
)


def capture_header(order: str = "<", magic: int = 0xA1B2C3D4, minor: int = 4, link: int = 1) -> bytes:
    """The header of a capture whose numbers have the least byte first, or with `>` the greatest."""
    return struct.pack(f"{order}IHHIIII", magic, 2, minor, 0, 0, 262_144, link)


# The two fragments of a datagram to port 53, the first of which has its header, and the second its last eight bytes.
FRAGMENTS = [
    frame_header(2, 1, "0800") + bytes.fromhex(
        "4500002400012000401146c60a0000010a000002" "00350400001800000000000000000000"
    ),
    frame_header(2, 1, "0800") + bytes.fromhex("4500001c00010002401166cc0a0000010a000002") + bytes(8),
]


def records(frames: Iterable[bytes], order: str = "<") -> Iterator[bytes]:
    """These frames as the records of a capture."""
    for number, frame in enumerate(frames, 1):
        yield struct.pack(f"{order}IIII", 1_700_000_000 + number, 0, len(frame), len(frame)) + frame


def example_capture() -> bytes:
    """The capture of the example of packets: ARP, TCP, a query of DNS and its answer, twice."""
    return capture_header() + b"".join(records([ARP, TCP, QUERY, ANSWER] * 2))


def captures() -> Iterator[tuple[str, bytes]]:
    """The captures, each with its name. Those of examples lie beside them, as `python3 cases/made.py` writes them."""
    mixed = list(records([ARP, TCP, QUERY, ANSWER] * 10))
    yield "packets.pcap", example_capture()
    short = [bytes([number]) * number for number in range(1, 5)]
    too_long = struct.pack("<IIII", 0, 0, 262_145, 262_145)
    yield "dns.pcap", capture_header() + b"".join(mixed)
    yield "cut.pcap", capture_header() + b"".join(mixed[:2]) + bytes(5)
    yield "four.pcap", capture_header() + b"".join(records(short))
    yield "long.pcap", capture_header() + b"".join(records(short[:2])) + too_long
    yield "longest.pcap", capture_header() + too_long
    yield "header.pcap", capture_header()
    yield "short.pcap", capture_header()[:23]
    yield "big.pcap", capture_header(">", 0xA1B23C4D) + b"".join(records(short, ">"))
    yield "version.pcap", capture_header(minor=3)
    yield "link.pcap", capture_header(link=113)
    yield "empty.pcap", b""
    yield "fragments.pcap", capture_header() + b"".join(records(FRAGMENTS))
    yield "fragments_turned.pcap", capture_header() + b"".join(records(reversed(FRAGMENTS)))
    yield "fragment_twice.pcap", capture_header() + b"".join(records(FRAGMENTS[:1] * 2))
    yield "next.pcapng", bytes.fromhex("0a0d0d0a1c0000004d3c2b1a01000000ffffffffffffffff1c000000")


def traces() -> Iterator[tuple[str, bytes]]:
    """The traces that are too long to lie beside their cases, each with its name."""
    regions = "".join(f"region 0 {2 * at} 1 r\n" for at in range(257))
    yield "regions.trace", f"vm 1\nspace 0\n{regions}".encode()
    yield "large.trace", b"vm 1\n" + b"#" * 1_048_572
    yield "largest.trace", b"vm 1\n" + b"#" * 1_048_571


def reports() -> Iterator[tuple[str, bytes]]:
    """The reports that are too long to lie beside their cases, each with its name."""
    yield "largest.report", b"#" * 67_108_864
    yield "large.report", b"#" * 67_108_865


if __name__ == "__main__":
    SMALLEST.write_text(page())
    examples, made = Path(__file__).resolve().parent.parent / "examples", dict(captures())
    for name in ("packets.pcap", "join/fragments.pcap"):
        (examples / name).write_bytes(made[Path(name).name])
