# The owner of an event decides what other modules may do with it.
spin 2
modules 3
event 0 0 w:w last
handler 1 w:w result a0
guard 1 w <= a0 9

# Module 1 may have two bindings, and may change its own. What module 2 installs runs first, and under guard 1.
rule 0 1 1 any any own quota 2
rule 0 2 2 install any all force 1 1 first keep

lane 0 install 0 1 1 0 free plain
lane 0 install 0 1 1 0 free plain
lane 0 install 0 1 1 0 free plain
lane 0 install 0 2 1 0 last plain
lane 0 raise 0 5
lane 0 raise 0 50

# No rule lets module 2 remove a binding, and rule 1 lets module 1 remove its own.
lane 0 remove 0 2 1
lane 0 remove 0 1 1

# What the numbers stand for.
# module 0 is Owner
# module 1 is Cache
# module 2 is Monitor
# event 0 is Page.Read
# handler 1 is Echo
# guard 1 is OneDigit
