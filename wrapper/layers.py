"""The headers that steps of handlers read: IPv4 behind a header of Ethernet, and UDP, by RFC 791, 768 and 1071.

Each answers the arguments of the raise upwards, or the word for its first fault. Nothing is proved of it.
"""

from collections.abc import Callable, Sequence

from wrapper.values import Argument, bytes_at, field, word_at

ADDRESS = 0xFFFFFFFF


def total(content: bytes) -> int:
    """The sum of the words of 16 bits, with the carries added."""
    padded = content + b"\x00" * (len(content) % 2)
    found = sum(field(padded, at, 2) for at in range(0, len(padded), 2))
    while found > 0xFFFF:
        found = (found & 0xFFFF) + (found >> 16)
    return found


def ipv4(arguments: Sequence[Argument]) -> list[Argument] | str:
    """The payload, the protocol and the addresses of a frame's packet, or its first fault."""
    packet = bytes_at(arguments, 0, 14)
    if len(packet) < 20:
        return "short"
    header, length = (packet[0] & 15) * 4, field(packet, 2, 2)
    if packet[0] >> 4 != 4:
        return "version"
    if not 20 <= header <= len(packet):
        return "header_length"
    if not header <= length <= len(packet):
        return "total_length"
    if total(packet[:header]) != 0xFFFF:
        return "checksum"
    if field(packet, 6, 2) & 0x3FFF:
        return "fragment"
    return [packet[header:length], packet[9], field(packet, 12, 4), field(packet, 16, 4)]


def udp(arguments: Sequence[Argument]) -> list[Argument] | str:
    """The payload, the ports and the addresses of a datagram, or its first fault."""
    datagram = bytes_at(arguments, 0)
    source, target = word_at(arguments, 2) & ADDRESS, word_at(arguments, 3) & ADDRESS
    if len(datagram) < 8:
        return "short"
    length = field(datagram, 4, 2)
    if not 8 <= length <= len(datagram):
        return "udp_length"
    front = source.to_bytes(4, "big") + target.to_bytes(4, "big") + bytes([0, 17]) + datagram[4:6]
    if field(datagram, 6, 2) and total(front + datagram[:length]) != 0xFFFF:
        return "checksum"
    return [datagram[8:length], field(datagram, 0, 2), field(datagram, 2, 2), source, target]


LAYERS: dict[str, Callable[[Sequence[Argument]], list[Argument] | str]] = {"ipv4": ipv4, "udp": udp}
