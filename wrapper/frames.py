"""What a frame is, in words: its addresses and ports, by its own headers. Nothing is proved of it."""

import socket

from wrapper.layers import ipv4
from wrapper.values import bytes_at, field, word_at

IPV4, IPV6 = 0x0800, 0x86DD
TYPES = {
    0x0806: "ARP", 0x8100: "a frame with a VLAN tag", 0x8847: "MPLS", 0x8863: "PPPoE", 0x8864: "PPPoE", 0x88CC: "LLDP",
}
PROTOCOLS = {1: "ICMP", 2: "IGMP", 6: "TCP", 17: "UDP", 47: "GRE", 50: "ESP", 58: "ICMPv6", 132: "SCTP"}
WITH_PORTS = (6, 17, 132)


def ways(source: str, target: str, protocol: int, payload: bytes) -> str:
    """From where a packet comes and where it goes, with ports where it has some."""
    name = PROTOCOLS.get(protocol, f"protocol {protocol}")
    if protocol not in WITH_PORTS or len(payload) < 4:
        return f"{name} {source} → {target}"
    ports = field(payload, 0, 2), field(payload, 2, 2)
    between = "." if ":" in source else ":"
    return f"{name} {source}{between}{ports[0]} → {target}{between}{ports[1]}"


def of_ipv4(frame: bytes) -> str:
    """A frame of IPv4; one that the step `layer ipv4` drops is told with the fault."""
    found = ipv4([frame])
    if isinstance(found, str):
        return f"IPv4 with a fault: {found.replace('_', ' ')}"
    source, target = (socket.inet_ntop(socket.AF_INET, word_at(found, at).to_bytes(4, "big")) for at in (2, 3))
    return ways(source, target, word_at(found, 1), bytes_at(found, 0))


def of_ipv6(frame: bytes) -> str:
    """A frame of IPv6; what stands between its header and the ports isn't passed over."""
    packet = frame[14:]
    if len(packet) < 40:
        return "IPv6 with a fault: short"
    source, target = (socket.inet_ntop(socket.AF_INET6, packet[at:at + 16]) for at in (8, 24))
    return ways(source, target, packet[6], packet[40:])


def frame_words(frame: bytes) -> str:
    """What a frame is."""
    if len(frame) < 14:
        return f"a frame of {len(frame)} bytes"
    kind = field(frame, 12, 2)
    if kind == IPV4:
        return of_ipv4(frame)
    return of_ipv6(frame) if kind == IPV6 else TYPES.get(kind, f"a frame of type 0x{kind:04x}")
