# Where bindings go: first, last, before another, or anywhere.
spin 1
event 0 0 - last
handler 1 -

# Five bindings of event 0. Each has the place of its install as its number.
lane 0 install 0 0 1 0 free plain
lane 0 install 0 0 1 0 first plain
lane 0 install 0 0 1 0 before 1 plain
lane 0 install 0 0 1 0 last plain
lane 0 install 0 0 1 0 free plain
lane 0 raise 0

# A constraint on a binding that was removed lapses.
lane 0 remove 0 0 1
lane 0 raise 0

# Binding 2 is first, so none can go before it. The refusal names a cycle, and changes nothing.
lane 0 install 0 0 1 0 before 2 plain
