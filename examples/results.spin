# What a raise answers: the last result, all results combined, the default's, or that nothing ran.
spin 1
event 0 0 w:w last
event 1 0 w:w fold + a0 a1
event 2 0 w last
handler 1 w:w result + a0 1
handler 2 w:w result + a0 2
handler 3 w
guard 1 w < a0 10

# Both events have the same two handlers. Event 0 answers the last result, and event 1 the sum of the two.
lane 0 install 0 0 1 0 free plain
lane 0 install 0 0 2 0 free plain
lane 0 install 1 0 1 0 free plain
lane 0 install 1 0 2 1 free plain
lane 0 raise 0 5
lane 0 raise 1 5

# The guard of binding 4 doesn't hold, so the one result that is left is the answer.
lane 0 raise 1 50

# Event 2 gives no result. Nothing runs at first; then its default, which no longer runs once a handler does.
lane 0 raise 2 5
lane 0 default 2 0 3
lane 0 raise 2 5
lane 0 install 2 0 3 1 free plain
lane 0 raise 2 5
lane 0 raise 2 50
lane 0 nodefault 2 0
lane 0 raise 2 50

# What the numbers stand for.
# event 0 is Last.Asked
# event 1 is Sum.Asked
# event 2 is Nothing.Asked
# handler 1 is AddOne
# handler 2 is AddTwo
# handler 3 is Note
# guard 1 is BelowTen
