"""Traces, scripts and reports by which the launcher is tested, and what is said of those that are bad."""
HEADER = "kaffe 1\nkernel 200 2\ntype Node ref ref int\nlimit root 1000\nlimit a root hard 120\nlimit b root soft 400\nproc p1 a\nproc p2 b\nshared s\n"
SECOND = HEADER.replace("kaffe 1", "kaffe 2")
SCRIPT = HEADER.replace("kaffe 1", "spawn 1").replace("shared s", "child c p1")
# For each reason traces that are bad by it: the text, the line, and a part of what is said of it.
BAD = [
    (1, "x" * 17_000_000, 0, "The input has 17000000 bytes."),
    (2, HEADER + "p1 new r0 " + "N" * 5000 + "\n", 10, "The line has 5010 bytes."),
    (3, HEADER + "p1 drop r0\r\n", 10, "Byte 11 of the line is 13, a carriage return"),
    (3, HEADER + "p1\tdrop r0\n", 10, "Byte 3 of the line is 9, a tab"),
    (4, "kaffe 3\n", 1, "Allowed here is 'kaffe 1' or 'kaffe 2'."),
    (4, HEADER + "p1 kill p2\n", 10, "'kill' is an operation of the second version, of which the first line is 'kaffe 2'."),
    (4, HEADER + "p1 resize none 7\n", 10, "'resize' is an operation of the second version"),
    (4, SECOND + "p1 kill\n", 10, "'kill' is written 'p1 kill P'."),
    (4, SECOND + "p1 resize a\n", 10, "'resize' is written 'p1 resize L n'."),
    (4, "kaffe 1\nproc p1 a\n", 2, "Allowed here is 'kernel CEILING FIELDS'."),
    (4, HEADER + "p1 new r0\n", 10, "'new' is written 'p1 new rD T'."),
    (4, HEADER + "p1  drop r0\n", 10, "Words are not separated by single spaces"),
    (4, HEADER + "\n", 10, "The line is empty."),
    (4, HEADER + "p1 free r0\n", 10, "There is no operation 'free'."),
    (4, HEADER + "p1 exit\nlimit c root soft 1\n", 11, "Allowed here is an operation"),
    (5, HEADER + "p1 drop r16\n", 10, "'r16' is in the place of a register, r0 to r15."),
    (5, HEADER + "p1 load r0 r1 007\n", 10, "'007' is in the place of a number from 0 to 15."),
    (5, "kaffe 1\nkernel 200 17\n", 2, "'17' is in the place of a number from 0 to 16."),
    (5, SECOND + "p1 resize a 1099511627776\n", 10, "'1099511627776' is in the place of a number of bytes below 2^40."),
    (6, HEADER + "shared graph\n", 10, "'graph' is a word of the formats"),
    (6, HEADER + "shared 2nd\n", 10, "'2nd' is no name"),
    (7, HEADER + "shared p2\n", 10, "'p2' was declared in line 8."),
    (8, HEADER + "p1 new r0 Leaf\n", 10, "There is no type 'Leaf'; declared are Node."),
    (8, "kaffe 1\nkernel 200 2\nlimit root 9\nproc p1 b\n", 4, "There is no limit 'b'; declared are root."),
    (8, SECOND + "p1 kill s\n", 10, "There is no process 's'; declared are p1, p2."),
    (8, SECOND + "p1 resize p2 80\n", 10, "There is no limit 'p2'; declared are root, a, b."),
    (9, "kaffe 1\nkernel 200 2\ntype T" + " int" * 17 + "\n", 3, "There are 17 fields."),
    (10, "kaffe 1\nkernel 31 2\n", 2, "A directory of 2 fields takes 32 bytes."),
    (10, "kaffe 1\nkernel 200 2\nlimit root 100\nlimit a root soft 300\nlimit b a hard 60\nlimit c a hard 41\n", 6, "'root' has 40 bytes left of 100, and 41 are asked for."),
    (11, HEADER + "p1 exit\np1 drop r0\n", 11, "'p1 exit' is line 10."),
    (11, SECOND + "p1 exit\np1 kill p2\n", 11, "'p1 exit' is line 10."),
    (12, "", 1, "What may come next is 'kaffe 1' or 'kaffe 2'."),
    (12, "kaffe 1\nkernel 200 2\nlimit root 9\n", 4, "'proc NAME LIMIT'"),
    (4, SCRIPT + "p1 kill c\n", 10, "Line 10 of the trace: p1 kill c"),
    (14, SCRIPT + "p2 spawn c 80\n", 10, "Line 10 of the trace: p2 spawn c 80"),
    (15, SCRIPT + "c new r0 Node\n", 10, "Line 10 of the trace: c new r0 Node"),
]
TRACE = HEADER + "p1 new r0 Node\np2 drop r0\np1 collect\np2 drop r1\n"
EVENTS = "report 1\np1 new r0 Node = p1.1\np2 drop r0 = ok\np1 collect = ok\nended p1 0 0 0 0\np2 drop r1 = ok\n"
REST = """graph
kernel.1 kernel directory null null
p1.1 p1 Node null null 0
roots
p1 r0 p1.1
exits
shares
faults
p1 0
p2 0
charges
kernel 32 of 200
limit root 120 of 1000
limit a 40 of 120
limit b 0 of 400
process p1 40
process p2 0
shared s 0 unmade
end
"""
# Reports that are refused: the text, the line, the rule, and a part of what is said.
REFUSED = [
    ("", 1, 1, "the first line"),
    (EVENTS.replace("= ok", "= okay", 1) + REST, 3, 2, "'okay' is no reply"),
    (EVENTS.replace("p2 drop r0", "p2 drop r2") + REST, 3, 2, "The next operation of 'p2' in the trace is 'p2 drop r0'."),
    (EVENTS.replace("= p1.1", "= p1.2") + REST, 2, 2, "the machine answers it otherwise there"),
    (EVENTS + "p1 exit = ok\n" + REST, 7, 2, "no further operation of 'p1': it has 2."),
    (EVENTS.replace("ended", "endet") + REST, 5, 2, "It is no event line"),
    (EVENTS, 7, 3, "There is no line 'graph'."),
    (EVENTS.replace("ended p1 0 0 0 0\n", "") + REST, 6, 4, "The collection of 'p1' is open"),
    (EVENTS.replace("p2 drop r1 = ok\n", "") + REST, 6, 4, "'p2' has done 1 of its 2 operations; the next one is 'p2 drop r1'."),
    (EVENTS + REST.replace("p2 0\nch", "p2 1\nch"), 16, 5, "section 'faults'"),
    (EVENTS + REST + "end\n", 26, 5, "Nothing may come after the line 'end'."),
    (EVENTS + REST[:-4], 25, 5, "breaks off in the section 'charges'"),
]
# A process that ends another one, and sets a maximum.
SECOND_TRACE = SECOND.replace("proc p1 a\n", "proc p0 root\nproc p1 a\n") + "p1 new r0 Node\np0 kill p1\np1 drop r0\np0 resize a 80\np2 kill p1\n"
SECOND_EVENTS = "report 1\np1 new r0 Node = p1.1\np0 kill p1 = ok\np0 resize a 80 = ok\np2 kill p1 = fault ProcNotBelow p1\n"
SECOND_REST = """graph
kernel.1 kernel directory null null
p1.1 kernel Node null null 0
roots
exits
shares
faults
p0 0
p1 0
p2 1
charges
kernel 72 of 200
limit root 80 of 1000
limit a 0 of 80
limit b 0 of 400
process p0 0
process p1 0
process p2 0
shared s 0 unmade
end
"""
SECOND_REFUSED = [
    (SECOND_EVENTS.replace("p0 resize", "p1 drop r0 = ok\np0 resize") + SECOND_REST, 4, 2, "'p1' does nothing more: it was ended by line 3, 'p0 kill p1 = ok'."),
    (SECOND_EVENTS.replace("80 = ok", "80 = fault InUse a") + SECOND_REST, 4, 2, "the machine answers it otherwise there"),
    (SECOND_EVENTS.replace("ProcNotBelow p1", "ProcBelow p1") + SECOND_REST, 5, 2, "'fault ProcBelow p1' is no reply"),
    (SECOND_EVENTS.replace("p0 resize a 80 = ok\n", "") + SECOND_REST, 5, 4, "'p0' has done 1 of its 2 operations; the next one is 'p0 resize a 80'."),
    (SECOND_EVENTS + SECOND_REST.replace("0 of 80", "0 of 120"), 19, 5, "section 'charges'"),
]
WRONG_WORDS = [[], ["x"], ["run", "a", "b"], ["big"], ["big", "0"], ["big", "007"], ["big", "5001"], ["big", "1", "2"], ["check", "a", "b", "c"], ["audit", "a", "b", "c"], ["Run"], [""]]
