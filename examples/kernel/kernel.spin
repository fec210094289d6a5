# What the kernel declares: its events and handlers, and the rules by which it, their owner, lets others bind.
spin 3
modules 8
event 0 0 w last
event 1 0 W:w last
event 2 0 ww:w last
event 3 0 ww:w last
event 4 0 w last
event 5 0 w last
event 6 0 b last
event 7 0 w:w fold + a0 a1
endpoint 0 out0

# The first pager's frames lie from 128 MB on, the second's from 144 MB. Handler 5 raises a tick on as a second.
handler 1 ww:w result & a0 0xffff
handler 2 ww:w result + & a0 0xfff 0x9000
handler 3 ww:w result 1
handler 4 w
handler 5 w up 5 1 w a0
handler 6 W:w set 0 & a0 0xdf
handler 7 W:w result a0
handler 8 b send 0 0 0
handler 9 w:w result a0
guard 1 w == & a0 3 0
guard 2 ww all <= 0x48000 a0 < a0 0x48200
guard 3 w all <= 97 a0 <= a0 122
guard 4 w == & a0 15 0

# Of the clock the watchdog gets every fourth tick, and the tracer's handlers are asynchronous whatever it asks. Whom no
# rule names is denied.
rule 0 2 2 install any all impose 1 1
rule 1 3 3 any any own allow
rule 2 1 1 any any own allow
rule 3 4 4 any any own allow
rule 4 7 7 install any all force 0 keep async
rule 4 7 7 any any own allow
rule 7 5 5 any any own allow

# event 0 is Clock.Tick
# event 1 is Console.Key
# event 2 is Memory.PageNotPresent
# event 3 is Memory.ProtectionFault
# event 4 is Trap.Breakpoint
# event 5 is Clock.Second
# event 6 is Console.Line
# event 7 is Visit
# endpoint 0 is Console
# handler 1 is PageIn
# handler 2 is PageInElsewhere
# handler 3 is AllowWrite
# handler 4 is Hear
# handler 5 is OnToSecond
# handler 6 is UpperCase
# handler 7 is Echo
# handler 8 is SendLine
# handler 9 is Give
# guard 1 is EachFourth
# guard 2 is InRegion
# guard 3 is IsLetter
# guard 4 is EachSixteenth
# module 0 is Kernel
# module 1 is Pagers
# module 2 is Watchdog
# module 3 is Console
# module 4 is Writes
# module 5 is Visitor
# module 6 is Stranger
# module 7 is Tracer
