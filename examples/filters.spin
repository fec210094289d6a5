# Guards choose which handlers run; filters change what later ones see.
spin 1
event 0 0 W:w fold + a0 a1
event 1 0 w last
handler 1 W:w set 0 + a0 10
handler 2 W:w result a0
handler 3 W:w result 1 up 1 1 w a0
handler 4 w
guard 1 w < a0 10

# Handler 3 gives 1 and raises event 1, but only where the argument is below 10. The results of event 0 are added.
lane 0 install 0 0 2 0 free plain
lane 0 install 0 0 3 1 free plain
lane 0 install 1 0 4 0 free plain
lane 0 raise 0 3

# The filter runs first and makes 3 into 13, so the guard doesn't hold when its binding is reached.
lane 0 install 0 0 1 0 first filter
lane 0 raise 0 3

# A handler that changes an argument can't be plain.
lane 0 install 0 0 1 0 free plain

# What the numbers stand for.
# event 0 is Sum.Asked
# event 1 is Small.Seen
# handler 1 is AddTen
# handler 2 is Give
# handler 3 is TellSmall
# handler 4 is Note
# guard 1 is BelowTen
