# A datagram in two fragments: over the joined capture the second record is the whole datagram, which `run` never sees.
spin 1
event 0 0 b last
event 1 0 bwww last
event 2 0 bwwww last
endpoint 0 out0
handler 1 b layer ipv4 1
handler 2 bwww layer udp 2
handler 3 bwwww send 0 0 0
lane 0 install 0 0 1 0 free plain
lane 0 install 1 0 2 0 free plain
lane 0 install 2 0 3 0 free plain
barrier
lane 0 packet 0 10
