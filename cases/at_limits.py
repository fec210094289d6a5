"""Cases that stand at limits: as much of a kind as there may be. docs/FORMATS.md names the case of each limit."""

import struct
from collections.abc import Iterable, Iterator
from typing import NamedTuple

import made

# The most bytes of a script and of a trace, and of a report that `check` reads.
TEXT = 1_048_576
REPORT = 67_108_864

# The most deeds of a script, bindings of an event, commands and places, and handlers or guards.
DEEDS = 65_536
LIVE = 64
PLACES = 4096
UNITS = 1023
EVENTS = 64
ENDPOINTS = 64

# The most records of a capture, bytes of a record, and bytes of a datagram's payload.
RECORDS = 1_048_576
CAPTURED = 262_144
PAYLOAD = 65_515

# The most bytes of a message that has a reply.
ECHO = 65_535

# The most bytes of a file's name, of most systems.
FILE_NAME = 255


class Limit(NamedTuple):
    """A case: its name, its script, the words of the command line, what must be written, and what is sent."""

    name: str
    script: str
    words: list[str]
    stdout: str
    sent: dict[str, bytes]


def case(name: str, script: str, stdout: str, *more: str, command: str = "run", **sent: bytes) -> Limit:
    """A case of this command with these further words, which sends these bytes to the files of endpoints."""
    left = {f"{end}.bin": content for end, content in sent.items()}
    return Limit(f"limit_{name}", script, [command, "case", *more], stdout, left)


def piece(content: bytes) -> bytes:
    """A piece as the file of an endpoint has it."""
    return struct.pack(">I", len(content)) + content


def filled(script: str) -> str:
    """The script with a line behind it that makes it as long as one may be."""
    return script + "#" * (TEXT - len(script))


def counting(count: int) -> bytes:
    """So many bytes, none of which begins another 251 of them like the one before."""
    return bytes(at % 251 for at in range(count))


# ---- deeds


def raises() -> Iterator[Limit]:
    """As many raises as there may be, in a text that is as long as one may be; by one lane, and by eight."""
    head = "spin 1\nevent 0 0 - last\n"
    for name, lanes in [("deeds", 1), ("lanes", 8)]:
        script = filled(head + "".join(f"lane {at % lanes} raise 0\n" for at in range(DEEDS)))
        order = sorted(range(DEEDS), key=lambda at: (at % lanes, at))
        yield case(name, script, made.report([f"0 {at % lanes} {at + 3} raise = nohandler" for at in order], 0))


def jobs() -> Iterator[Limit]:
    """As many jobs as there may be deeds."""
    script = "spin 1\nevent 0 0 - last\n" + "lane 0 later 0\n" * DEEDS
    entries = [f"0 0 {at + 3} later queued" for at in range(DEEDS)]
    yield case("jobs", script, made.report(entries + [f"job 0 0 {at + 3} 0 = nohandler" for at in range(DEEDS)], 0))


def live() -> Iterator[Limit]:
    """Each event has as many bindings as there may be, which is as many commands as there may be; each is raised."""
    head = ["spin 3"] + [f"event {event} 0 -:w fold + a0 a1" for event in range(EVENTS)] + ["handler 1 -:w result 1"]
    installs = [f"lane 0 install {at // LIVE} 0 1 0 free before 0 after 0 plain" for at in range(PLACES)]
    raised = [f"lane 0 raise {event}" for event in range(EVENTS)]
    entries = [f"{at + 1} 0 {len(head) + 1 + at} install ok" for at in range(PLACES)]
    for event in range(EVENTS):
        steps = " ".join(f"run {event} {LIVE * event + at + 1} result 1" for at in range(LIVE))
        entries.append(f"{PLACES} 0 {len(head) + 1 + PLACES + event} raise {steps} = value {LIVE}")
    yield case("live", "\n".join(head + installs + raised), made.report(entries, PLACES))


def last_number() -> Iterator[Limit]:
    """The last command removes the binding of the greatest number that one may remove."""
    installed = made.WIDE_INSTALL
    script = made.WIDE_HEAD + made.DEFAULT * (PLACES - 2) + installed + f"lane 0 remove 0 0 {PLACES - 1}\n"
    entries = made.accepted("default", PLACES - 2)
    entries += [f"{PLACES - 1} 0 {PLACES + 2} install ok", f"{PLACES} 0 {PLACES + 3} remove ok"]
    yield case("numbers", script, made.report(entries, PLACES))


# ---- declarations


def units() -> Iterator[Limit]:
    """As many modules, events, handlers and guards as there may be, of which the last ones serve."""
    head = ["spin 1", "modules 256"] + [f"event {event} 255 -:w last" for event in range(EVENTS)]
    head += [f"handler {number} -:w result {number}" for number in range(1, UNITS + 1)]
    head += [f"guard {number} - == {number} {number}" for number in range(1, UNITS + 1)]
    head += [f"default {event} {UNITS - event}" for event in range(EVENTS)]
    deeds = ["lane 7 raise 63", f"lane 7 install 63 255 {UNITS} {UNITS} free plain", "lane 7 raise 63"]
    line, default = len(head) + 1, UNITS - EVENTS + 1
    entries = [
        f"0 7 {line} raise run 63 0 result {default} = default {default}",
        f"1 7 {line + 1} install ok",
        f"1 7 {line + 2} raise run 63 1 result {UNITS} = value {UNITS}",
    ]
    yield case("units", "\n".join(head + deeds), made.report(entries, 1))


def rules() -> Iterator[Limit]:
    """As many rules of each event as there may be, the last of which imposes as many guards as one may."""
    head = ["spin 2", "modules 256"] + [f"event {event} 0 w last" for event in range(EVENTS)] + ["handler 1 w"]
    head += [f"guard {number} w != a0 {number}" for number in range(1, 5)]
    for event in range(EVENTS):
        head += [f"rule {event} {module} {module} any any all quota 1000" for module in range(1, 16)]
        head += [f"rule {event} 255 255 install any all force 4 1 2 3 4 first async"]
    deeds = ["lane 0 install 63 15 1 0 free plain", "lane 0 install 63 255 1 0 free plain"]
    deeds += [f"lane 0 raise 63 {word}" for word in (0, 4)]
    line = len(head) + 1
    entries = [f"{at + 1} 0 {line + at} install ok" for at in range(2)]
    entries += [f"2 0 {line + 2} raise job 63 2 run 63 1 = done", f"2 0 {line + 3} raise run 63 1 = done"]
    entries += [f"job 2 0 {line + 2} 0 run 63 2 = done"]
    yield case("rules", "\n".join(head + deeds), made.report(entries, 2))


def endpoints() -> Iterator[Limit]:
    """As many endpoints as there may be, with names as long as there may be: each loses a send, and is retired."""
    head = ["spin 1", "event 0 0 b last"] + [f"endpoint {at} endpoint_name_{at:02}" for at in range(ENDPOINTS)]
    head += ["handler 1 b" + "".join(f" send {at} 0 0" for at in range(ENDPOINTS)), made.INSTALL.strip()]
    script = head + ["lane 0 raise 0 x00", "barrier"] + [f"retire {at}" for at in range(ENDPOINTS)]
    sends = " ".join(f"send {at} 1" for at in range(ENDPOINTS))
    told = ["report 1", "segment 0 at 0", f"1 0 {len(head)} install ok"]
    told += [f"1 0 {len(head) + 1} raise run 0 1 {sends} = done"]
    told += [f"lost {at} 1" for at in range(ENDPOINTS)] + [f"retire {at} unknown" for at in range(ENDPOINTS)]
    yield case("endpoints", "\n".join(script), "\n".join(told + ["segment 1 at 1", "end 1", ""]))


def parameters() -> Iterator[Limit]:
    """As many parameters, values and parts as there may be, and tests and sums as long or as deep as they may be."""
    kinds = "wwwwwwbW"
    leaves = " != a7 8"
    for _ in range(4):
        leaves = f" all{leaves}{leaves}"
    head = [f"spin 1\nevent 0 0 {kinds}:w fold{' + a1' * 7} a0", f"event 1 0 {kinds}:w last"]
    head += [f"handler 1 {kinds}:w set 7 8 result{' + a7' * 7} a7"]
    parts = "".join(" b 6 0" if at == 6 else f" w a{at}" for at in range(8))
    head += [f"handler 2 {kinds}:w up 1 8{parts} result f 6 0 8", f"handler 3 {kinds}:w result a7"]
    head += [f"guard 1 {kinds.lower()} not{leaves}", f"guard 2 {kinds.lower()}{' not' * 6} == a7 8"]
    deeds = ["lane 0 install 0 0 1 0 first filter", "lane 0 install 0 0 2 1 free plain"]
    deeds += ["lane 0 install 0 0 3 2 last plain", "lane 0 install 1 0 3 0 free plain"]
    entries = [f"{at} 0 {8 + at} install ok" for at in range(1, 5)]
    steps = "run 0 1 result 64 run 0 2 result 9 up 1 run 1 4 result 8 back value 8 run 0 3 result 8"
    entries += [f"4 0 13 raise {steps} = value {64 + 7 * 9 + 7 * 8}"]
    raised = "lane 0 raise 0 1 2 3 4 5 6 x0000000000000009 7"
    yield case("parameters", "\n".join(head + deeds + [raised]), made.report(entries, 4))


def orders() -> Iterator[Limit]:
    """A binding that goes behind as many others, and before as many, as one may name."""
    head = ["spin 3", "event 0 0 - last", "handler 1 -"]
    deeds = [made.WIDE_INSTALL.strip()] * 8
    deeds += ["lane 0 install 0 0 1 0 free before 4 5 6 7 8 after 4 1 2 3 4 plain", "lane 0 raise 0"]
    entries = made.accepted("install", 9)
    entries.append("9 0 13 raise " + " ".join(f"run 0 {number}" for number in (1, 2, 3, 4, 9, 5, 6, 7, 8)) + " = done")
    yield case("orders", "\n".join(head + deeds), made.report(entries, 9))


def greatest() -> Iterator[Limit]:
    """The greatest numbers that stand in deeds, none of which is declared; in the word of a lane; and of a width."""
    deeds = [
        "install 63 255 1023 1023 before 1023 plain", "remove 63 255 1023", "replace 63 255 1023 1023 1023",
        "default 63 255 1023", "nodefault 63 255", f"raise 63 {2**64 - 1}", "later 63 0xffffffffffffffff",
    ]
    entries = [f"0 7 {at} {deed.split()[0]} refused 1 unknown_event" for at, deed in enumerate(deeds, 2)]
    yield case("greatest", "spin 1\n" + "".join(f"lane 7 {deed}\n" for deed in deeds), made.report(entries, 0))
    yield case("lane_number", "spin 1\nlane 255 raise 0\n", made.stop(2, 24))
    yield case("width", "spin 1\nguard 1 b == f 0 65535 255 0\n", made.stop(2, 17))


# ---- replies


def wide(events: Iterable[str], handlers: Iterable[str], bindings: Iterable[int]) -> tuple[list[str], list[str]]:
    """A script's lines that bind handler K + 1 so often to event K, and the entries of these."""
    head = ["spin 3", *events, *handlers]
    installs = [
        f"lane 0 install {event} 0 {event + 1} 0 free before 0 after 0 plain"
        for event, count in enumerate(bindings) for _ in range(count)
    ]
    return head + installs, [f"{at} 0 {len(head) + at} install ok" for at in range(1, len(installs) + 1)]


def steps() -> Iterator[Limit]:
    """As many handlers as one raise may start, 4,096, of which 4,032 give 32 results each; and send 64 times each."""
    events = ["event 0 0 - last", "event 1 0 -:w last"]
    script, entries = wide(events, [f"handler 1 -{' up 1 0' * 63}", f"handler 2 -:w{' result 1' * 32}"], [LIVE, 1])
    inner = f"up 1 run 1 {LIVE + 1}{' result 1' * 32} back value 1"
    outer = " ".join(f"run 0 {at} " + " ".join([inner] * 63) for at in range(1, LIVE + 1))
    entries.append(f"{LIVE + 1} 0 {len(script) + 1} raise {outer} = done")
    yield case("steps", "\n".join([*script, "lane 0 raise 0"]), made.report(entries, LIVE + 1))
    events = ["event 0 0 b last", "event 1 0 b last", "endpoint 0 out0"]
    script, entries = wide(events, ["handler 1 b up 1 1 b 0 0", f"handler 2 b{' send 0 0 0' * 64}"], [LIVE, LIVE - 1])
    inner = " ".join(f"run 1 {LIVE + at}{' send 0 0' * 64}" for at in range(1, LIVE))
    outer = " ".join(f"run 0 {at} up 1 {inner} back done" for at in range(1, LIVE + 1))
    entries.append(f"{2 * LIVE - 1} 0 {len(script) + 1} raise {outer} = done")
    sent = piece(b"") * (LIVE * (LIVE - 1) * 64)
    yield case("sends", "\n".join([*script, "lane 0 raise 0 x"]), made.report(entries, 2 * LIVE - 1), out0=sent)


def long_report() -> Iterator[Limit]:
    """A report that is as long as one may be which `check` reads; the words of its last raises make it so long."""
    most, place = 2**64 - 1, LIVE + 1
    results = f" result {most}" * 32
    events = ["event 0 0 -:w last", "event 1 0 w:w last"]
    script, entries = wide(events, [f"handler 1 -:w{results}", "handler 2 w:w result a0"], [LIVE, 1])
    many = "raise " + " ".join(f"run 0 {at}{results}" for at in range(1, place)) + f" = value {most}"
    raised = (REPORT - len(made.report(entries, place))) // (len(many) + 20)
    first = len(script) + 1
    entries += [f"{place} 0 {first + at} {many}" for at in range(raised)]
    # One that is refused makes the number of characters that are left even.
    entries.append(f"{place} 0 {first + raised} raise refused 2 wrong_args")
    left, line = REPORT - len(made.report(entries, place)), first + raised + 1
    # Each of the last raises is told by so many characters and twice its word's digits, of which there are 1 to 20.
    told = len(f"{place} 0 {line} raise run 1 {place} result  = value \n")
    count = -(-left // (told + 40))
    digits = (left - count * told) // 2
    words = [10 ** ((digits + at) // count - 1) for at in range(count)]
    for at, word in enumerate(words):
        entries.append(f"{place} 0 {line + at} raise run 1 {place} result {word} = value {word}")
    deeds = ["lane 0 raise 0"] * raised + ["lane 0 raise 0 1"] + [f"lane 0 raise 1 {word}" for word in words]
    yield case("report", "\n".join(script + deeds), made.report(entries, place))


# ---- texts


def barriers() -> Iterator[Limit]:
    """As many segments as a text has room for, and as many retirements before one."""
    count = (TEXT - len("spin 1\n")) // len("barrier\n")
    told = "".join(f"segment {at} at 0\n" for at in range(count + 1))
    yield case("segments", "spin 1\n" + "barrier\n" * count, f"report 1\n{told}end 0\n")
    head = "spin 1\nendpoint 0 a\nbarrier\n"
    count = (TEXT - len(head)) // len("retire 0\n")
    told = "segment 0 at 0\n" + "retire 0 unknown\n" * count + "segment 1 at 0\n"
    yield case("retirements", head + "retire 0\n" * count, f"report 1\n{told}end 0\n")


def value() -> Iterator[Limit]:
    """A value as long as a text has room for, whose last byte is read, and which is sent."""
    head = "spin 1\nevent 0 0 b:w last\nendpoint 0 out0\nhandler 1 b:w send 0 0 0 send 0 0 65535\n"
    head += made.INSTALL + "lane 0 raise 0 x"
    content = counting((TEXT - len(head)) // 2)
    entries = ["1 0 5 install ok", f"1 0 6 raise run 0 1 send 0 {len(content)} send 0 {len(content) - 65_535} = done"]
    sent = piece(content) + piece(content[65_535:])
    yield case("value", head + content.hex(), made.report(entries, 1), out0=sent)


# ---- captures

# The name of a capture of no records.
LONG_NAME = "n" * (FILE_NAME - len(".pcap")) + ".pcap"


def frame(number: int) -> bytes:
    """A frame that is this number."""
    return struct.pack(">I", number)


# What stands beside the offset of a fragment where more follow, and of a packet that may not be fragmented.
MORE = 0x2000
WHOLE = 0x4000


def datagram(flags: int, content: bytes) -> bytes:
    """The frame of a datagram, or of a fragment of one, with these flags and offset."""
    words = struct.pack(">BBHHHBBH", 0x45, 0, 20 + len(content), 1, flags, 64, 17, 0)
    words += bytes.fromhex("0a0000010a000002")
    total = sum(struct.unpack(">10H", words))
    check = 0xFFFF - (total % 0xFFFF or 0xFFFF)
    return made.frame_header(2, 1, "0800") + words[:10] + struct.pack(">H", check) + words[12:] + content


def fragments() -> list[bytes]:
    """The frames of as many fragments as a datagram may have, of the longest one."""
    content = counting(PAYLOAD)
    return [datagram(at // 8 | (MORE if at + 8 < PAYLOAD else 0), content[at : at + 8]) for at in range(0, PAYLOAD, 8)]


def captured() -> Iterator[Limit]:
    """As many records as a packet line may want and as a capture may have, one as long as may be, and a long name."""
    script = f"spin 1\nevent 0 0 b:w last\nhandler 1 b:w result f 0 0 4\ndefault 0 1\nlane 0 packet 0 {DEEDS}\n"
    entries = [f"0 0 5.{at} packet run 0 0 result {at} = default {at}" for at in range(1, DEEDS + 1)]
    told = made.report(entries, 0).replace("end 0\n", f"end 0 records {DEEDS} used {DEEDS} cut 0\n")
    yield case("packets", script, told, "packets_limit.pcap")
    segment = "report 1\nsegment 0 at 0\n"
    yield case("records", "spin 1\n", f"{segment}end 0 records {RECORDS} used 0 cut 0\n", "records_limit.pcap")
    yield case("records_and_more", "spin 1\n", f"{segment}stop 3 record {RECORDS + 1} fault 7\n", "records_over.pcap")
    yield case("file_name", "spin 1\n", f"{segment}end 0 records 0 used 0 cut 0\n", LONG_NAME)
    content = counting(CAPTURED)
    script = "spin 1\nevent 0 0 b:w last\nendpoint 0 out0\nhandler 1 b:w send 0 0 0 send 0 0 65535 result f 0 65535 8\n"
    word = int.from_bytes(content[65_535:65_543], "big")
    sends = f"send 0 {CAPTURED} send 0 {CAPTURED - 65_535}"
    entries = [f"0 0 6.1 packet run 0 0 {sends} result {word} = default {word}"]
    told = made.report(entries, 0).replace("end 0\n", "end 0 records 1 used 1 cut 0\n")
    sent = piece(content) + piece(content[65_535:])
    yield case("frame", script + "default 0 1\nlane 0 packet 0 2\n", told, "frame_limit.pcap", out0=sent)


def joined() -> Iterator[Limit]:
    """The longest datagram, of as many fragments as it may have, is joined and sent."""
    parts, whole = len(fragments()), datagram(WHOLE, counting(PAYLOAD))
    script = "spin 1\nevent 0 0 b last\nendpoint 0 out0\nhandler 1 b send 0 0 0\nguard 1 b has 0 65535\n"
    script += made.INSTALL.replace("1 0 free", "1 1 free") + f"lane 0 packet 0 {parts}\n"
    entries = ["1 0 6 install ok"] + [f"1 0 7.{at} packet = nohandler" for at in range(1, parts)]
    entries += [f"1 0 7.{parts} packet run 0 1 send 0 {len(whole)} = done"]
    told = made.report(entries, 1).replace("end 1\n", f"end 1 records {parts} used {parts} cut 0\n")
    yield case("joined", script, told, "fragments_limit.pcap", command="join", out0=piece(whole))


def echoed() -> Iterator[Limit]:
    """The longest message that has a reply, and one that is longer by a byte."""
    script = "spin 1\nevent 0 0 b last\nendpoint 0 echo\nhandler 1 b send 0 0 0\n" + made.INSTALL
    entries, replies = ["1 0 5 install ok"], b""
    for at, length in enumerate((ECHO, ECHO + 1)):
        rest = counting(length - 4)
        total = sum(struct.unpack(f">{(len(rest) + 1) // 2}H", rest + bytes(len(rest) % 2)))
        sums = [(kind, 0xFFFF - ((kind + total) % 0xFFFF or 0xFFFF)) for kind in (0x0800, 0)]
        request, reply = (struct.pack(">HH", *both) for both in sums)
        script += f"lane 0 raise 0 x{(request + rest).hex()}\n"
        entries.append(f"1 0 {6 + at} raise run 0 1 send 0 {length} = done")
        replies += piece(reply + rest) if length <= ECHO else b""
    yield case("echo", script, made.report(entries, 1), echo=replies)


# ---- traces

# The most spaces of a trace, regions of a space, and pages of an address; and the greatest frame.
SPACES = 64
REGIONS = 256
PAGES = 2**52
FRAME = 65_535


def trace() -> str:
    """As many spaces with as many regions as there may be, and two accesses to the last page of each."""
    lines = ["vm 1"] + [f"space {space}" for space in range(SPACES)]
    lines += [f"region {space} {PAGES - 1 - 2 * at} 1 r" for space in range(SPACES) for at in range(REGIONS)]
    return "\n".join(lines + [f"access {space} {4096 * (PAGES - 1)} r" for space in range(SPACES) for _ in range(2)])


def pages() -> Iterator[Limit]:
    """The first access to a page is a fault, which is answered with the greatest frame; the second finds it."""
    script = "spin 1\n" + "".join(f"event {event} 0 www:w last\n" for event in range(3))
    script += f"handler 1 www:w result {FRAME}\ndefault 0 1\n"
    told, first = ["vm 1"], 2 + SPACES * (1 + REGIONS)
    for line in range(first, first + 2 * SPACES, 2):
        told.append(f"{line} page_not_present run 0 0 result {FRAME} = default {FRAME} frame {FRAME}")
        told.append(f"{line + 1} frame {FRAME}")
    yield case("spaces", script, "\n".join(told + [f"end {SPACES}", ""]), "spaces_limit.trace", command="vm")


# ---- all


def cases() -> Iterator[Limit]:
    """All cases."""
    for make in (raises, jobs, live, last_number, units, rules, endpoints, parameters, orders, greatest):
        yield from make()
    for make in (steps, long_report, barriers, value, captured, joined, echoed, pages):
        yield from make()


def files() -> Iterator[tuple[str, bytes]]:
    """The captures and the trace that these name."""
    header = made.capture_header()
    yield "packets_limit.pcap", header + b"".join(made.records(frame(at) for at in range(1, DEEDS + 1)))
    yield "records_limit.pcap", header + bytes(16) * RECORDS
    yield "records_over.pcap", header + bytes(16) * RECORDS + b"\0"
    yield "frame_limit.pcap", header + b"".join(made.records([counting(CAPTURED)]))
    yield "fragments_limit.pcap", header + b"".join(made.records(fragments()))
    yield LONG_NAME, header
    yield "spaces_limit.trace", trace().encode()
