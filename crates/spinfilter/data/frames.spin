spin 1
event 0 0 b last
endpoint 0 out0
handler 1 b send 0 0 0
guard 1 b all == f 0 12 2 0x0800 all == f 0 14 1 0x45 all == f 0 23 1 17 any == f 0 34 2 53 == f 0 36 2 53
lane 0 install 0 0 1 1 free plain
lane 0 packet 0 1000
