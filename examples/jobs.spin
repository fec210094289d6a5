# Work that is left for later, and endpoints that receive bytes.
spin 1
event 0 0 b:w last
endpoint 0 out0
endpoint 1 printer
handler 1 b:w result f 0 0 2 send 0 0 2
handler 2 b:w send 1 0 0

# Handler 1 gives the number in the first two bytes and sends the others to out0. It is bound asynchronously, so each
# raise leaves it to a job, whose result isn't part of the raise's answer.
lane 0 install 0 0 1 0 free async
lane 0 raise 0 x0102aabb

# A later raise is a job as a whole; in a job the asynchronous handler runs in place.
lane 0 later 0 x0304cc

# The program hands in no endpoint named printer: what is sent to it is lost and counted.
lane 0 install 0 0 2 0 free plain
lane 0 raise 0 x0506dd
barrier

# Once it is retired, out0 receives nothing more. Its file out0.bin has three pieces, each behind its length in four
# bytes: 00000002 aabb, 00000001 cc, 00000001 dd.
retire 0
lane 0 raise 0 x0708ee

# What the numbers stand for.
# event 0 is Text.Arrived
# handler 1 is Number
# handler 2 is Print
# endpoint 1 is Printer
