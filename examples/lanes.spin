# Two lanes run side by side, as if on two threads. A barrier ends a segment: all lanes do what stands before it
# first.
spin 1
event 0 0 w:w last
handler 1 w:w result + a0 1
handler 2 w:w result + a0 2

# Only lane 0 asks for something here. Its install is the first accepted command: place 1.
lane 0 install 0 0 1 0 free plain
barrier

# Both lanes raise in this segment. Nobody changes a binding meanwhile, so each raise stands at place 1, whoever comes
# first, and the report has the entries of one place lane by lane.
lane 1 raise 0 10
lane 0 raise 0 20
lane 1 raise 0 30
barrier

# Lane 1 replaces the handler of binding 1 and sees its own change; behind the barrier lane 0 sees it too.
lane 1 replace 0 0 1 2 0
lane 1 raise 0 40
barrier
lane 0 raise 0 50
