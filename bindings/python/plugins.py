#!/usr/bin/env python3
"""plugins.py [LIBRARY]: a host whose plug-ins are functions: it counts packets, and tells the first one to a name
server."""

import sys

import codzvregi

Packet = codzvregi.Event("Bw:w", merge="fold + a0 a1")  # bytes that a filter may change, a port; results are added
lane = codzvregi.Library(*sys.argv[1:]).open({"Net.Packet": Packet, "Net.Name": "b"})


@lane.on("Net.Packet", filter=True, first=True)
def strip_tag(packet: bytes, port: int) -> tuple[bytes, int]:
    return packet[2:], port  # for those behind


@lane.on("Net.Packet", guard=lambda packet, port: port == 53)
def to_name_server(packet: bytes, port: int) -> int:
    lane.raise_("Net.Name", packet)  # upwards, from within
    return 100


@lane.on("Net.Packet")
def count(packet: bytes, port: int) -> int:
    return len(packet)


@lane.on("Net.Name")
def first_name(packet: bytes) -> None:
    print("name:", packet.decode())
    lane.unbind("Net.Name", "first_name")  # what is raised from now on doesn't see it


for port in (53, 80, 53):
    print(port, lane.raise_("Net.Packet", b"\x00\x07name", port).value)
lane.close()
