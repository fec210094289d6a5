# A pager: where a page isn't there it gives the frame of the page's number and 1. The other faults have no handler.
spin 1
event 0 0 www:w last
event 1 0 www:w last
event 2 0 www:w last
handler 1 www:w result + a1 1
lane 0 install 0 0 1 0 free plain
