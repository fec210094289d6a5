# A handler, a guard and an authoriser that are the program's own objects, and no code of the script.
spin 1
modules 3
event 0 0 b:w fold + a0 a1
handler 1 native first_word
guard 1 native is_ipv4

# The authoriser answers for module 0, which owns the event: others may have two bindings each, and change their own.
authoriser 0 own_two
lane 0 install 0 1 1 0 free plain
lane 0 install 0 1 1 1 free plain
lane 0 install 0 1 1 0 free plain

# The first eight bytes are a number, 5. Of the two frames only the second one has the type of IPv4, 0x0800.
lane 0 raise 0 x0000000000000005000000000806
lane 0 raise 0 x0000000000000005000000000800

# Module 2 may not remove what module 1 has bound, and module 1 may.
lane 0 remove 0 2 1
lane 0 remove 0 1 1

# What the numbers stand for.
# event 0 is Ethernet.PacketArrived
# handler 1 is FirstWord
# guard 1 is IsIP
