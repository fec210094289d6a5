# A packet filter: of the capture packets.pcap the datagrams of DNS go to an endpoint, and everything else is let go.
spin 1
event 0 0 b last
event 1 0 bwww last
event 2 0 bwwww last
endpoint 0 out0
handler 1 b layer ipv4 1
handler 2 bwww layer udp 2
handler 3 bwwww send 0 0 0

# A frame of IPv4, and so not of ARP; a packet of UDP, and so not of TCP; a datagram from port 53 or to it.
guard 1 b == f 0 12 2 0x0800
guard 2 bwww == a1 17
guard 3 bwwww any == a1 53 == a2 53
lane 0 install 0 0 1 1 free plain
lane 0 install 1 0 2 2 free plain
lane 0 install 2 0 3 3 free plain
barrier

# Each record of the capture is a part of this line: ARP, TCP, a query and its answer, and these four once more.
lane 0 packet 0 100

# What the numbers stand for.
# event 0 is Ethernet.PacketArrived
# event 1 is IP.PacketArrived
# event 2 is UDP.PacketArrived
# handler 1 is ReadIP
# handler 2 is ReadUDP
# handler 3 is Send
# guard 1 is IsIP
# guard 2 is IsUDP
# guard 3 is IsDNS
# endpoint 0 is Datagrams
