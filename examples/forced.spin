# An owner may force a place, or a job, upon the bindings of other modules.
spin 2
modules 3
event 0 0 W:w last
handler 1 W:w result a0
handler 2 W:w set 0 7
guard 1 w < a0 5

# What module 1 binds runs first, whatever it asks for, and only where guard 1 holds. What module 2 binds is left to jobs.
rule 0 1 1 install any all force 1 1 first keep
rule 0 2 2 install any all force 0 keep async
lane 0 install 0 0 1 0 free plain
lane 0 install 0 1 2 0 last filter
lane 0 raise 0 3
lane 0 raise 0 9
lane 0 install 0 2 1 0 free plain
lane 0 raise 0 9

# A handler that changes an argument can't be left to a job, so module 2 may not bind it.
lane 0 install 0 2 2 0 free filter

# What the numbers stand for.
# module 0 is Owner
# module 1 is First
# module 2 is Later
# event 0 is Number.Given
# handler 1 is Give
# handler 2 is MakeSeven
# guard 1 is BelowFive
