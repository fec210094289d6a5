"""What is made from a number, made a second time and by itself: the script, the capture, and the six lines that a run of
them is told in. Called with numbers, it prints what the rows `generated` of crates/spin_driver are answered of each,
and the summary.
"""

import hashlib
import struct
import sys
from collections.abc import Callable, Iterator

LANES = range(8)
PLACES = ("free", "first", "last")
HEAD = [
    "spin 1",
    "modules 1",
    *(f"event {number} 0 w:w fold + a0 a1" for number in LANES),
    "event 8 0 b last",
    "event 9 0 bwww last",
    "event 10 0 bwwww last",
    "endpoint 0 out0",
    *(f"handler {number} w:w result + a0 {number}" for number in range(1, 5)),
    "handler 5 b layer ipv4 9",
    "handler 6 bwww layer udp 10",
    "handler 7 bwwww send 0 0 0",
    *(f"guard {number} w == & a0 3 {number - 1}" for number in range(1, 5)),
    "guard 5 b == f 0 12 2 2048",
    "guard 6 bwww == a1 17",
    "guard 7 bwwww < a2 512",
    *(f"lane 0 install {3 + unit} 0 {unit} {unit} free plain" for unit in (5, 6, 7)),
]
SOURCE, DESTINATION = bytes([10, 0, 0, 1]), bytes([10, 0, 0, 2])


def drawing(number: int) -> Callable[[int], int]:
    """The one row of numbers: each call draws the next, below the one that is given."""
    state = number

    def draw(below: int) -> int:
        """The next number."""
        nonlocal state
        state = (6364136223846793005 * state + 1442695040888963407) % 2**64
        return (state >> 33) % below

    return draw


def script(draw: Callable[[int], int]) -> Iterator[str]:
    """The lines of the script."""
    yield from HEAD
    for _ in range(4):
        yield "barrier"
        for lane in LANES:
            for number in range(500):
                if number % 20:
                    yield f"lane {lane} raise {lane} {draw(65536)}"
                else:
                    place, handler, guard = PLACES[draw(3)], 1 + draw(4), draw(5)
                    yield f"lane {lane} install {lane} 0 {handler} {guard} {place} plain"
    yield "barrier"
    for lane in LANES:
        yield f"lane {lane} packet 8 125"


def checksum(octets: bytes) -> bytes:
    """The checksum of RFC 1071 of an even number of bytes."""
    total = sum(struct.unpack(f">{len(octets) // 2}H", octets))
    while total >> 16:
        total = (total & 0xFFFF) + (total >> 16)
    return struct.pack(">H", 0xFFFF - total)


def frame(number: int, port: int) -> bytes:
    """The frame of a record: a datagram to this port, which has the record's number."""
    payload = struct.pack(">Q", number)
    ports = struct.pack(">HHH", 40000, port, 16)
    whole = checksum(SOURCE + DESTINATION + bytes([0, 17, 0, 16]) + ports + bytes(2) + payload)
    datagram = ports + (whole if any(whole) else b"\xff\xff") + payload
    front = struct.pack(">BBHHHBB", 0x45, 0, 36, number, 0x4000, 64, 17)
    packet = front + checksum(front + bytes(2) + SOURCE + DESTINATION) + SOURCE + DESTINATION
    return bytes.fromhex("0200000000020200000000010800") + packet + datagram


def generated(number: int) -> tuple[str, list[int], bytes]:
    """The script, the ports of the capture's records, and the capture."""
    draw = drawing(number)
    text = "".join(f"{line}\n" for line in script(draw))
    ports = [draw(1024) for _ in range(1000)]
    capture = struct.pack("<IHHIIII", 0xA1B2C3D4, 2, 4, 0, 0, 262_144, 1)
    for at, port in enumerate(ports):
        capture += struct.pack("<IIII", at, 0, 50, 50) + frame(at, port)
    return text, ports, capture


def summary(number: int) -> str:
    """The six lines. Each lane works on its own event, so they are the same in whatever order the lanes come."""
    text, ports, _ = generated(number)
    guards: dict[str, list[int]] = {}
    entries = accepted = refused = runs = sends = 0
    for line in text.splitlines()[len(HEAD) - 3 :]:
        match line.split():
            case ["lane", _, "install", event, _, _, guard, _, _]:
                bound = guards.setdefault(event, [])
                entries += 1
                if len(bound) < 32:
                    accepted += 1
                    bound.append(int(guard))
                else:
                    refused += 1
            case ["lane", _, "raise", event, value]:
                entries += 1
                runs += sum(guard in (0, 1 + int(value) % 4) for guard in guards.get(event, []))
    for port in ports:
        # the frame's handler and the packet's, and then the datagram's, which sends
        entries += 1
        runs += 2 + (port < 512)
        sends += port < 512
    counts = {"gen": number, "entries": entries, "accepted": accepted, "refused": refused, "runs": runs, "sends": sends}
    return "".join(f"{word} {count}\n" for word, count in counts.items())


def sent(number: int) -> bytes:
    """What the file of the endpoint receives: a piece for each datagram to a port below 512, in the records' order."""
    _, ports, _ = generated(number)
    return b"".join(struct.pack(">IQ", 8, at) for at, port in enumerate(ports) if port < 512)


def main() -> None:
    """Prints what is made of each number that is given."""
    for word in sys.argv[1:]:
        text, _, capture = generated(int(word))
        first = text.splitlines()[len(HEAD) + 1 : len(HEAD) + 3]
        digests = [hashlib.md5(octets).hexdigest() for octets in (text.encode(), capture)]
        print(*first, len(text), len(capture), *digests, summary(int(word)), sep="\n")


if __name__ == "__main__":
    main()
