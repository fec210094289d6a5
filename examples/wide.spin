# In version 3 a binding may name up to four others that it goes before, and four that it goes after.
spin 3
event 0 0 - last
handler 1 -
lane 0 install 0 0 1 0 free before 0 after 0 plain
lane 0 install 0 0 1 0 free before 0 after 0 plain
lane 0 install 0 0 1 0 last before 0 after 0 plain

# Binding 4 goes before 1 and 2, binding 5 before 2 and after 1. Of all orders that keep this, the least one is taken.
lane 0 install 0 0 1 0 free before 2 1 2 after 0 plain
lane 0 install 0 0 1 0 free before 1 2 after 1 1 plain
lane 0 raise 0

# One that goes before 1 and after 5 would close a cycle: 1 before 5, 5 before 6, 6 before 1.
lane 0 install 0 0 1 0 free before 1 1 after 1 5 plain

# A constraint on a removed binding lapses, and none may name it any more.
lane 0 remove 0 0 5
lane 0 install 0 0 1 0 free before 1 1 after 1 5 plain
lane 0 install 0 0 1 0 free before 1 1 after 0 plain
lane 0 raise 0
