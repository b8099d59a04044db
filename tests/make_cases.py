#!/usr/bin/env python3
"""Makes crates/questions/stdin and crates/questions/stdout, the cases that the gate runs through the program `questions`.

Run it at the repository's root: python3 tests/make_cases.py. It needs the standard library alone, and writes the same files every time.

Each case is a question line with the answer line that document 01 ("the paper") asks for, with request 2 of document 02 where a DO is run and
request 4 of it where a command is asked, or request 1 or 3 with the forms of docs/TEXT.md where a class text is read or written. The answers are
written here by hand, from those; none is taken from the program. Sheets are put together by the small functions below, which only lay out bytes;
they know no rule of the paper but its layouts. Texts are spelled out; only where a sheet's text is read back is it laid out by a function,
`spelt`, which is held to texts that are spelled out. Five cases search all of 2 to the 20th configurations, which takes compiled code seconds;
`rt try` runs out of its own limits there, and says so, on the interpreter and where it checks the compiler's assumptions.
"""
import os

QUESTIONS, ANSWERS = [], []


def case(question, answer):
    QUESTIONS.append(question)
    ANSWERS.append(answer)


# ---------------------------------------------------------------------------------------------------------------- the layouts of the paper

EVERYONE = 255                                     # the pattern of all children, FwCHILDREN
ANY_IN, ANY_NOT_IN, ALL_IN, ALL_NOT_IN = range(4)  # the atoms' kinds
MOVE_TO, DO, STAY = range(3)                       # the referrers


def u16(n):
    return n.to_bytes(2, "little")


def u32(n):
    return n.to_bytes(4, "little")


def names(*ns):
    """A name set: bit n stands for name n."""
    return sum(1 << n for n in ns)


def klass(*ns):
    return u32(names(*ns))


def state(whens, actions):
    return u16(whens) + u16(actions)


def when(guard, referrer, target=0):
    return u16(guard) + bytes([referrer, target])


def atom(kind, pattern, *ns):
    return bytes([kind, pattern, 0, 0]) + u32(names(*ns))


AND = bytes([4, 0, 0, 0, 0, 0, 0, 0])
OR = bytes([5, 0, 0, 0, 0, 0, 0, 0])
NOT = bytes([6, 0, 0, 0, 0, 0, 0, 0])


def action(command, statements):
    return bytes([command, 0]) + u16(statements)


def send(command, pattern=EVERYONE):
    return [bytes([0, command, pattern, 0, 0, 0, 0, 0])]


def go(own_state):
    return [bytes([1, own_state, 0, 0, 0, 0, 0, 0])]


def branch(guard, then=(), other=()):
    """An if: its record, its then-part, its else-part. A part is a list of records."""
    return [bytes([2, 0]) + u16(guard) + u16(len(then)) + u16(len(other))] + list(then) + list(other)


def raw(classes=(), states=(), whens=(), guards=(), actions=(), statements=()):
    """A sheet of these records, whatever they are."""
    bodies = [b"".join(records) for records in (classes, states, whens, guards, actions, statements)]
    contents, start = b"", 24
    for body in bodies:
        contents += u16(start) + u16(len(body))
        start += len(body)
    return contents + b"".join(bodies)


def sheet(classes, guards, states):
    """A sheet from its states: each is (its when clauses, its action clauses), an action clause being (command, list of records)."""
    return raw(
        classes,
        [state(len(whens), len(actions)) for whens, actions in states],
        [clause for whens, _ in states for clause in whens],
        guards,
        [action(command, len(body)) for _, actions in states for command, body in actions],
        [record for _, actions in states for _, body in actions for record in body],
    )


def patched(bytes_, at, *values):
    b = bytearray(bytes_)
    b[at:at + len(values)] = bytes(values)
    return bytes(b)


def hexed(b):
    return b.hex() if b else "-"


def pairs(children):
    return b"".join(bytes(c) for c in children)


# ------------------------------------------------------------------------------------------------------------------------- the questions


def judge(s):
    return "judge " + hexed(s)


def probe(s, children, q):
    return "probe %s %s %d" % (hexed(s), hexed(pairs(children)), q)


def phase(s, children, q, buffer):
    return "phase %s %s %d %s" % (hexed(s), hexed(pairs(children)), q, hexed(buffer))


def command(s, children, q, m, buffer):
    return "command %s %s %d %d %s" % (hexed(s), hexed(pairs(children)), q, m, hexed(buffer))


def loop(s, present, buffer):
    return "loop %s %d %s" % (hexed(s), present, hexed(buffer))


def accepted(s):
    case(judge(s), "accepted")


def refused(number, s):
    case(judge(s), "refused %d" % number)


# --------------------------------------------------------------------------------------------------------------- "Sheets to try", items 1 to 11

A = bytes.fromhex("18000400 1C000800 24000800 2C001000 3C000000 3C000000 07000000 01000000 01000000 00000001 01000000 0100000002000000 0000000002000000")
COLD, HOT, FAULT = (0, 0), (0, 1), (0, 2)
assert len(A) == 60
assert A == sheet([klass(0, 1, 2)], [atom(ANY_NOT_IN, 0, 1), atom(ANY_IN, 0, 1)], [([when(0, MOVE_TO, 1)], []), ([when(1, MOVE_TO, 0)], [])])
B = patched(A, 52, 2)
C = sheet(
    [klass(0, 1, 2)], [atom(ANY_NOT_IN, 0, 1), atom(ALL_IN, 0, 1)],
    [([when(0, MOVE_TO, 1)], [(9, send(4) + branch(1, go(1)) + send(5))]), ([when(1, MOVE_TO, 0)], [])])
SIX = bytes.fromhex("a1a2a3a4a5a6")

accepted(A)
accepted(B)
accepted(C)
# 1 to 3
case(loop(A, 1, SIX), "loop 3 0 00000001a5a6")
case(loop(B, 1, SIX), "free 1 a1a2a3a4a5a6")
case(loop(A, 0, b""), "free 0 -")
case(loop(B, 0, b""), "free 1 -")
case(loop(A, 0, SIX), "free 0 a1a2a3a4a5a6")
# 4 and 5
case(phase(A, [HOT], 1, SIX), "none 0 1 0 - a1a2a3a4a5a6")
case(phase(A, [COLD, HOT], 0, b""), "loop 0 2 0 - -")
case(phase(A, [COLD, HOT], 1, SIX), "loop 1 2 0 - a1a2a3a4a5a6")
case(probe(A, [COLD, HOT], 0), "clause 0 0 1")
case(probe(A, [COLD, HOT], 1), "clause 0 0 0")
case(probe(A, [HOT], 0), "none")
case(phase(A, [HOT], 0, b""), "none 0 0 0 - -")
case(phase(A, [FAULT], 0, SIX), "none 1 1 0 - a1a2a3a4a5a6")
case(phase(A, [], 0, b""), "none 0 0 0 - -")
case(phase(B, [], 1, SIX), "none 0 1 0 - a1a2a3a4a5a6")
# 6 and 7, with the when phase behind the command: HOT leads from 1 to 0, and any child that is not HOT from 0 to 1
case(command(C, [HOT], 0, 9, SIX), "handled 1 3 none 0 1 0 - 000004a4a5a6")
case(command(C, [COLD], 0, 9, SIX), "handled 0 6 none 1 1 0 - 000004000005")
case(command(C, [HOT], 0, 7, SIX), "ignored 0 0 none 0 0 0 - a1a2a3a4a5a6")
case(command(C, [HOT], 1, 9, SIX), "ignored 1 0 none 0 1 0 - a1a2a3a4a5a6")
case(command(C, [HOT], 0, 7, b""), "ignored 0 0 none 0 0 0 - -")
case(command(C, [COLD], 0, 9, SIX[:5]), "refused 15 a1a2a3a4a5")
case(command(C, [HOT], 0, 9, SIX[:3]), "handled 1 3 none 0 1 0 - 000004")
case(command(C, [HOT], 0, 9, SIX[:2]), "refused 15 a1a2")
# with no child ALL in HOT is true: nothing is sent, and the node moves, and back
case(command(C, [], 0, 9, b""), "handled 1 0 none 0 1 0 - -")
# 8
case(loop(A, 2, SIX), "refused 13 a1a2a3a4a5a6")
case(loop(A, 1, SIX[:5]), "refused 15 a1a2a3a4a5")
case(loop(B, 1, SIX[:5]), "refused 15 a1a2a3a4a5")
# 9
refused(2, A[:59])
refused(1, b"")
refused(5, patched(A, 52, 7))
refused(6, patched(A, 36, 2))
refused(7, patched(A, 39, 2))
# 10
case(probe(A, [(0, 3)], 0), "refused 10")
case(phase(A, [(0, 3)], 0, b""), "refused 10 -")
case(command(A, [(0, 3)], 0, 0, SIX), "refused 10 a1a2a3a4a5a6")
case(probe(A, [HOT], 2), "refused 11")
case(phase(A, [HOT], 2, SIX), "refused 11 a1a2a3a4a5a6")
case(command(A, [HOT], 2, 0, SIX), "refused 11 a1a2a3a4a5a6")
case(command(A, [HOT], 0, 64, SIX), "refused 12 a1a2a3a4a5a6")

# ------------------------------------------------------------------------------------------------------------------- 1 and 2: length and contents

SMALLEST = sheet([], [], [([], [])])  # one state and nothing else
assert len(SMALLEST) == 28
accepted(SMALLEST)
refused(1, SMALLEST[:23])
refused(1, bytes(23))
refused(1, b"\x00")
refused(2, SMALLEST[:24])
refused(2, bytes(24))
refused(2, raw())  # 24 bytes, S of 0
refused(2, SMALLEST[:27])
refused(2, SMALLEST + b"\x00")
refused(2, A + b"\x00")
refused(2, A + A)

# the longest sheet: every count at its largest
LONGEST = sheet(
    [klass(c) for c in range(8)], [atom(k % 4, k % 8, k % 32) for k in range(1024)],
    [([when(8 * q + i, MOVE_TO, i) for i in range(8)], [(8 * i, send(63, i) + branch(1000 + i, go(31)) + send(0)) for i in range(8)]) for q in range(32)])
assert len(LONGEST) == 18616
accepted(LONGEST)
refused(1, LONGEST + b"\x00")
refused(2, LONGEST[:18615])
refused(1, bytes(18617))
refused(2, bytes(18616))

# each count at its limit and one over it
accepted(sheet([klass(0)] * 8, [], [([], [])]))
refused(2, sheet([klass(0)] * 9, [], [([], [])]))
accepted(sheet([], [], [([], [])] * 32))
refused(2, sheet([], [], [([], [])] * 33))
refused(2, sheet([klass(0)], [atom(ANY_IN, 0, 0)], []))
ONE = [atom(ANY_IN, EVERYONE, 0)]
accepted(sheet([], ONE, [([when(0, STAY)] * 256, [])]))
refused(2, sheet([], ONE, [([when(0, STAY)] * 257, [])]))
accepted(sheet([], ONE * 1024, [([], [])]))
refused(2, sheet([], ONE * 1025, [([], [])]))
accepted(sheet([], [], [([], [(m, []) for m in range(64)])] * 4))
refused(2, sheet([], [], [([], [(m, []) for m in range(64)])] * 4 + [([], [(0, [])])]))
accepted(sheet([], [], [([], [(0, send(0) * 1024)])]))
refused(2, sheet([], [], [([], [(0, send(0) * 1025)])]))

# contents that do not follow one another, or that hold no whole number of records
refused(2, patched(A, 0, 25))                       # the first body does not start at byte 24
refused(2, patched(A, 0, 0x18, 1))                  # its start is 280: the high byte counts
refused(2, patched(A, 4, 29))                       # a gap before the states
refused(2, patched(A, 8, 0x20))                     # the when clauses overlap the states
refused(2, patched(A, 20, 0))                       # the last body starts elsewhere
refused(2, patched(A, 22, 8))                       # the last body ends past the sheet
refused(2, patched(A, 18, 4, 0))                    # one action clause that is not there
refused(2, patched(A, 4, 0x1C, 0, 8, 1))            # the states' length is 264: the high byte counts
refused(2, raw([klass(0), b"\x00"], [state(0, 0)]))             # 5 bytes of child classes
refused(2, raw([], [state(0, 0), b"\x00\x00"]))                 # 6 bytes of states
refused(2, raw([], [state(0, 0)], [], [AND[:4]]))               # 4 bytes of guard records
refused(2, raw([], [state(0, 0)], [], [], [], [send(0)[0][:4]]))  # 4 bytes of statements
refused(2, raw([], [state(0, 0)], [], [], [b"\x00"]))           # 1 byte of action clauses
# lengths that wrap round to the right end: 65,532 bytes from byte 24 on end at byte 20 modulo 65,536
refused(2, u16(24) + u16(65532) + u16(20) + u16(8) + (u16(28) + u16(0)) * 4 + state(0, 0))
refused(2, u16(24) + u16(0) + u16(24) + u16(4) + u16(28) + u16(65532) + u16(24) + u16(0) + u16(24) + u16(4) + u16(28) + u16(0) + state(0, 0))

# --------------------------------------------------------------------------------------------------------------------------- 3 and 4

refused(3, sheet([klass()], [], [([], [])]))
refused(3, sheet([klass(0)] * 7 + [klass()], [], [([], [])]))
accepted(sheet([klass(31)], [], [([], [])]))
accepted(sheet([klass(*range(32))] * 8, [], [([], [])]))

refused(4, raw([], [state(1, 0)]))
refused(4, raw([], [state(0, 1)]))
refused(4, raw([], [state(0, 0)], [when(0, STAY)], ONE))
refused(4, raw([], [state(0, 0)], [], [], [action(0, 0)]))
refused(4, raw([], [state(1, 0), state(1, 0)], [when(0, STAY)], ONE))
refused(4, raw([], [state(1, 1)], [when(0, STAY)], ONE, [action(0, 0)] * 2))
refused(4, raw([], [state(256, 0)], [when(0, STAY)], ONE))
accepted(raw([], [state(0, 0), state(1, 1)], [when(0, STAY)], ONE, [action(0, 0)]))
# counts that would wrap in 16 bits
refused(4, raw([], [state(32768, 0), state(32768, 0)]))
refused(4, raw([], [state(0, 32768), state(0, 32768)]))
refused(4, raw([], [state(65535, 0), state(2, 0)], [when(0, STAY)], ONE))
refused(4, raw([], [state(0, 65535), state(0, 2)], [], [], [action(0, 0)]))
refused(4, raw([], [state(65535, 65535)] * 32))

# --------------------------------------------------------------------------------------------------------------------------- 5: guard records


def with_guards(*records):
    """One class, one state, and guard records that no clause uses."""
    return sheet([klass(0, 1)], records, [([], [])])


for kind in range(4):
    accepted(with_guards(atom(kind, 0, 0)))
    accepted(with_guards(atom(kind, EVERYONE, 31)))
    refused(5, with_guards(atom(kind, 0)))                      # an empty name set
    refused(5, with_guards(atom(kind, 1, 0)))                   # a pattern that is K
    refused(5, with_guards(atom(kind, 254, 0)))
    refused(5, with_guards(patched(atom(kind, 0, 0), 2, 1)))
    refused(5, with_guards(patched(atom(kind, 0, 0), 3, 1)))
for operator in (AND, OR, NOT):
    accepted(with_guards(operator))                             # it dangles, and nothing uses it
    for at in range(1, 8):
        refused(5, with_guards(patched(operator, at, 1)))
refused(5, with_guards(patched(NOT, 1, EVERYONE)))
refused(5, with_guards(patched(AND, 0, 7)))
refused(5, with_guards(patched(atom(ANY_IN, 0, 0), 0, 7)))
refused(5, with_guards(patched(atom(ANY_IN, 0, 0), 0, 255)))
refused(5, with_guards(atom(ANY_IN, 0, 0), atom(ANY_IN, 0, 0), bytes(8)))
accepted(with_guards(atom(ANY_IN, 0, 2, 30, 31)))               # names that the class lacks
accepted(with_guards(bytes([0, 0, 0, 0, 0, 0, 0, 128])))
accepted(sheet([], [atom(ANY_IN, EVERYONE, 0)], [([], [])]))    # K of 0: only the pattern of all children
refused(5, sheet([], [atom(ANY_IN, 0, 0)], [([], [])]))
accepted(sheet([klass(0)] * 8, [atom(ANY_IN, 7, 0)], [([], [])]))
refused(5, sheet([klass(0)] * 8, [atom(ANY_IN, 8, 0)], [([], [])]))
accepted(with_guards(*[NOT] * 1024))                            # an unused chain that is too deep and runs past the end

# --------------------------------------------------------------------------------------------------------------------------- 6: guards of when clauses

LEAF = atom(ANY_IN, EVERYONE, 0)


def begun(place, *records):
    """One state with one when clause whose guard begins at a place."""
    return sheet([], records, [([when(place, STAY)], [])])


accepted(begun(0, LEAF))
refused(6, begun(1, LEAF))
refused(6, begun(256, LEAF))
refused(6, begun(65535, LEAF))
refused(6, begun(0))
refused(6, begun(0, NOT))
refused(6, begun(0, AND, LEAF))
refused(6, begun(0, OR, LEAF, NOT))
refused(6, begun(1, LEAF, AND, LEAF))
accepted(begun(0, AND, LEAF, LEAF))
accepted(begun(0, OR, NOT, LEAF, NOT, LEAF))
accepted(begun(0, LEAF, NOT))                                   # the operator behind it is not its own
accepted(begun(1, NOT, LEAF, AND))
refused(6, sheet([], [LEAF], [([when(0, STAY)], []), ([when(0, STAY), when(1, STAY)], [])]))
# at most 16 operators on one path
accepted(begun(0, *[NOT] * 16, LEAF))
refused(6, begun(0, *[NOT] * 17, LEAF))
accepted(begun(1, *[NOT] * 17, LEAF))                           # counted from where this guard begins
accepted(sheet([], [NOT] * 17 + [LEAF], [([], [])]))            # and of guards that are used
accepted(begun(0, *[AND, LEAF] * 16, LEAF))                     # on the right operand's path
refused(6, begun(0, *[AND, LEAF] * 17, LEAF))
accepted(begun(0, *[OR] * 16, *[LEAF] * 17))                    # on the left operand's path
refused(6, begun(0, *[OR] * 17, *[LEAF] * 18))
accepted(begun(0, *[AND, NOT, LEAF] * 15, OR, LEAF, LEAF))      # 16 on the longest path of a mixed one
refused(6, begun(0, *[AND, NOT, LEAF] * 15, OR, LEAF, NOT, LEAF))
accepted(begun(0, AND, *[NOT] * 15, LEAF, *[NOT] * 15, LEAF))   # 31 operators, of which 16 lie on one path
refused(6, begun(0, AND, *[NOT] * 15, LEAF, *[NOT] * 16, LEAF))
# shared records: every when clause begins in the middle of the one before
accepted(sheet([], [AND, NOT, LEAF, OR, LEAF, LEAF], [([when(p, STAY) for p in (0, 1, 2, 3, 4, 5, 0)], [])]))

# --------------------------------------------------------------------------------------------------------------------------- 7: referrers and targets


def referring(referrer, target):
    """Two states; the first has one when clause and two action clauses, the second three action clauses."""
    return sheet([], [LEAF], [([when(0, referrer, target)], [(0, []), (1, [])]), ([], [(0, []), (1, []), (2, [])])])


accepted(referring(MOVE_TO, 0))
accepted(referring(MOVE_TO, 1))
refused(7, referring(MOVE_TO, 2))
refused(7, referring(MOVE_TO, 255))
accepted(referring(DO, 0))
accepted(referring(DO, 1))
refused(7, referring(DO, 2))                                    # the next state's clause
refused(7, referring(DO, 255))
accepted(referring(STAY, 0))
refused(7, referring(STAY, 1))
refused(7, referring(3, 0))
refused(7, referring(255, 0))
refused(7, sheet([], [LEAF], [([when(0, DO, 0)], []), ([], [(0, [])])]))
accepted(sheet([], [LEAF], [([], []), ([when(0, DO, 0)], [(0, [])])]))
refused(7, sheet([], [LEAF], [([when(0, STAY)] * 3, []), ([when(0, STAY), when(0, MOVE_TO, 2)], [])]))
accepted(sheet([], [LEAF], [([when(0, MOVE_TO, 31)], [])] * 32))
refused(7, sheet([], [LEAF], [([when(0, MOVE_TO, 32)], [])] * 32))

# --------------------------------------------------------------------------------------------------------------------------- 8: action clauses

accepted(sheet([], [], [([], [(63, [])])]))
refused(8, sheet([], [], [([], [(64, [])])]))
refused(8, sheet([], [], [([], [(0, []), (255, [])])]))
refused(8, raw([], [state(0, 1)], [], [], [bytes([0, 1, 0, 0])]))
refused(8, raw([], [state(0, 2)], [], [], [action(0, 0), bytes([1, 255, 0, 0])]))
refused(8, sheet([], [], [([], [(5, []), (5, [])])]))
refused(8, sheet([], [], [([], [(5, []), (6, []), (5, [])])]))
refused(8, sheet([], [], [([], [(5, [])]), ([], [(6, []), (5, []), (6, [])])]))
accepted(sheet([], [], [([], [(5, []), (6, [])]), ([], [(6, []), (5, [])])]))    # the same command in another state
refused(8, raw([], [state(0, 1)], [], [], [action(0, 1)]))
refused(8, raw([], [state(0, 1)], [], [], [action(0, 0)], send(0)))
refused(8, raw([], [state(0, 2)], [], [], [action(0, 1), action(1, 1)], send(0) * 3))
refused(8, raw([], [state(0, 1)], [], [], [action(0, 256)], send(0)))
refused(8, raw([], [state(0, 0)], [], [], [], send(0)))                          # statements of no clause
# counts that would wrap in 16 bits
refused(8, raw([], [state(0, 2)], [], [], [action(0, 32768), action(1, 32768)]))
refused(8, raw([], [state(0, 2)], [], [], [action(0, 65535), action(1, 2)], send(0)))
accepted(raw([], [state(0, 2)], [], [], [action(0, 1), action(1, 2)], send(0) * 3))

# --------------------------------------------------------------------------------------------------------------------------- 9: statements


def doing(*records):
    """One class, two states, guards 0 (an atom) and 1 (a not that runs past the end); one action clause of these records."""
    return sheet([klass(0)], [LEAF, NOT], [([], [(0, list(records))]), ([], [])])


accepted(doing())
accepted(doing(*send(63, 0)))
accepted(doing(*send(0, EVERYONE)))
refused(9, doing(*send(64)))
refused(9, doing(*send(255)))
refused(9, doing(*send(0, 1)))                                  # a pattern that is K
refused(9, doing(*send(0, 254)))
for at in range(3, 8):
    refused(9, doing(patched(send(0)[0], at, 1)))
accepted(doing(*go(1)))
refused(9, doing(*go(2)))
refused(9, doing(*go(255)))
for at in range(2, 8):
    refused(9, doing(patched(go(0)[0], at, 1)))
refused(9, doing(patched(send(0)[0], 0, 3)))
refused(9, doing(patched(send(0)[0], 0, 255)))
refused(9, doing(*go(0), *send(64)))                            # it can never run, and is judged all the same
refused(9, doing(*branch(0, go(0) + send(0, 9))))
accepted(doing(*branch(0)))                                     # an if with empty parts
refused(9, doing(patched(branch(0)[0], 1, 1)))
refused(9, doing(*branch(2)))                                   # its guard begins past the end
refused(9, doing(*branch(65535)))
refused(9, doing(*branch(1)))                                   # its guard runs past the end
accepted(sheet([], [NOT] * 16 + [LEAF], [([], [(0, branch(0))])]))
refused(9, sheet([], [NOT] * 17 + [LEAF], [([], [(0, branch(0))])]))
accepted(sheet([], [NOT] * 17 + [LEAF], [([], [(0, branch(1))])]))


def if_record(then, other, guard=0):
    """An if's record alone."""
    return bytes([2, 0]) + u16(guard) + u16(then) + u16(other)


# parts that leave what encloses them
accepted(doing(if_record(1, 1), *send(0), *send(0)))
refused(9, doing(if_record(1, 0)))
refused(9, doing(if_record(0, 1)))
refused(9, doing(if_record(2, 0), *send(0)))
refused(9, doing(if_record(1, 1), *send(0)))
refused(9, doing(if_record(65535, 65535), *send(0)))
refused(9, doing(if_record(65535, 1)))                          # the sum would wrap in 16 bits
refused(9, doing(if_record(1, 65535), *send(0)))
refused(9, doing(if_record(32768, 32768)))
refused(9, doing(if_record(1, 0), if_record(1, 0), *send(0)))   # the inner then-part leaves the outer one, and not the clause
refused(9, doing(if_record(1, 1), if_record(0, 1), *send(0)))   # the inner else-part leaves the outer then-part
refused(9, doing(if_record(0, 1), if_record(1, 0), *send(0)))   # the inner then-part leaves the outer else-part
accepted(doing(if_record(2, 0), if_record(1, 0), *send(0)))
refused(9, sheet([], [LEAF], [([], [(0, [if_record(1, 0)]), (1, send(0))])]))   # it leaves its clause
refused(9, sheet([], [LEAF], [([], [(0, [if_record(1, 0)])]), ([], [(0, send(0))])]))
accepted(sheet([], [LEAF], [([], [(0, [if_record(0, 0)]), (1, send(0))])]))


def nested(depth, inner=(), by_else=False):
    """Ifs, each in the then-part (or the else-part) of the one before."""
    part = list(inner)
    for _ in range(depth):
        part = branch(0, [], part) if by_else else branch(0, part)
    return part


# at most 8 deep; the ninth is refused even if it is empty
accepted(doing(*nested(8)))
accepted(doing(*nested(8, send(0))))
refused(9, doing(*nested(9)))
refused(9, doing(*nested(9, send(0))))
accepted(doing(*nested(8, send(0), by_else=True)))
refused(9, doing(*nested(9, by_else=True)))
refused(9, doing(*nested(8, nested(1, by_else=True))))
accepted(doing(*nested(4, nested(4, send(0), by_else=True))))
accepted(doing(*(nested(8) * 9)))                               # one behind the other is no deeper
refused(9, doing(*nested(3), *nested(9)))
accepted(doing(*branch(0, nested(7), nested(7))))
refused(9, doing(*branch(0, nested(7), nested(8))))
accepted(doing(*branch(0, [record for _ in range(3) for record in nested(7, send(1))], nested(7))))

# --------------------------------------------------------------------------------------------------------------------------- the order of the refusals

# A sheet with all the faults 3 to 9 at once, from which they are taken away one by one.
F3, F4, F5, F6, F7, F8, F9 = range(3, 10)


def faulty(*faults):
    f = set(faults)
    return raw(
        [klass(0), klass() if F3 in f else klass(1)],
        [state(1, 1), state(2 if F4 in f else 1, 1)],
        [when(0, 3 if F7 in f else STAY), when(9 if F6 in f else 0, STAY)],
        [LEAF, patched(LEAF, 3, 1) if F5 in f else LEAF],
        [action(0, 1), action(64 if F8 in f else 0, 1)],
        send(0, 2 if F9 in f else 0) + send(0))


accepted(faulty())
refused(3, faulty(F3, F4, F5, F6, F7, F8, F9))
refused(4, faulty(F4, F5, F6, F7, F8, F9))
refused(5, faulty(F5, F6, F7, F8, F9))
refused(6, faulty(F6, F7, F8, F9))
refused(7, faulty(F7, F8, F9))
refused(8, faulty(F8, F9))
refused(9, faulty(F9))
refused(3, faulty(F3, F9))
refused(4, faulty(F4, F9))
refused(5, faulty(F5, F8))
refused(6, faulty(F6, F9))
refused(7, faulty(F7, F9))
refused(2, faulty(F3, F4, F5, F6, F7, F8, F9) + b"\x00")
refused(1, faulty(F3, F4, F5, F6, F7, F8, F9)[:20])
refused(2, patched(faulty(F3, F5), 0, 0))
# a sheet is refused before the question is looked at
case(probe(faulty(F9), [(9, 9)], 255), "refused 9")
case(phase(faulty(F6), [(9, 9)], 255, b""), "refused 6 -")
case(command(faulty(F8), [(9, 9)], 255, 255, SIX), "refused 8 a1a2a3a4a5a6")
case(loop(faulty(F3), 255, SIX), "refused 3 a1a2a3a4a5a6")
case(probe(b"", [], 0), "refused 1")
case(phase(b"", [], 0, SIX), "refused 1 a1a2a3a4a5a6")
case(command(b"", [], 0, 0, b""), "refused 1 -")
case(loop(b"", 0, b""), "refused 1 -")
case(loop(A[:59], 1, SIX), "refused 2 a1a2a3a4a5a6")
# 10 before 11 before 12 before 15; 13 before 14 before 15
case(probe(A, [(0, 3)], 2), "refused 10")
case(command(C, [(0, 3)], 2, 64, b""), "refused 10 -")
case(command(C, [COLD], 2, 64, b""), "refused 11 -")
case(command(C, [COLD], 0, 64, b""), "refused 12 -")
case(command(C, [COLD], 0, 9, b""), "refused 15 -")
TWENTY_ONE = sheet([klass(*range(21))], [], [([], [])])
case(loop(TWENTY_ONE, 3, b""), "refused 13 -")
case(loop(TWENTY_ONE, 1, b""), "refused 14 -")
case(loop(A, 1, b""), "refused 15 -")

# --------------------------------------------------------------------------------------------------------------------------- 10, 11, 12: lists, states, commands

LISTS = sheet([klass(0, 31), klass(1)], [LEAF], [([], [(63, send(1))]), ([], [])])
case(probe(LISTS, [], 0), "none")
case(probe(LISTS, [(0, 0), (0, 31), (1, 1)], 1), "none")
case(probe(LISTS, [(0, 1)], 0), "refused 10")                   # a name of the other class
case(probe(LISTS, [(1, 0)], 0), "refused 10")
case(probe(LISTS, [(0, 32)], 0), "refused 10")                  # 32 is not name 0
case(probe(LISTS, [(1, 33)], 0), "refused 10")
case(probe(LISTS, [(0, 64)], 0), "refused 10")
case(probe(LISTS, [(0, 63)], 0), "refused 10")
case(probe(LISTS, [(0, 255)], 0), "refused 10")
case(probe(LISTS, [(0, 224)], 0), "refused 10")
case(probe(LISTS, [(2, 0)], 0), "refused 10")                   # class K
case(probe(LISTS, [(255, 0)], 0), "refused 10")
case(probe(LISTS, [(0, 0), (0, 0), (2, 0)], 0), "refused 10")
case(probe(LISTS, [(2, 0), (0, 0), (0, 0)], 0), "refused 10")
case("probe %s 00 0" % LISTS.hex(), "refused 10")               # odd
case("probe %s 000000 0" % LISTS.hex(), "refused 10")
case("phase %s 000000 0 a1" % LISTS.hex(), "refused 10 a1")
case("command %s 000000 0 63 a1" % LISTS.hex(), "refused 10 a1")
case(probe(SMALLEST, [], 0), "none")
case(probe(SMALLEST, [(0, 0)], 0), "refused 10")                # K of 0
MANY = [(0, 0), (0, 31), (1, 1), (0, 0)] * 1024
case(probe(LISTS, MANY, 0), "none")                             # 4,096 children
case(phase(LISTS, MANY + [(0, 0)], 0, b""), "refused 10 -")     # 4,097
case(probe(LISTS, [], 2), "refused 11")
case(probe(LISTS, [], 255), "refused 11")
case(phase(LISTS, [], 2, SIX), "refused 11 a1a2a3a4a5a6")
case(command(LISTS, [], 2, 0, b""), "refused 11 -")
case(command(LISTS, [(0, 31)], 0, 63, SIX), "handled 0 3 none 0 0 0 - 000001a4a5a6")
case(command(LISTS, [(0, 31)], 1, 63, SIX), "ignored 1 0 none 1 0 0 - a1a2a3a4a5a6")
case(command(LISTS, [(0, 31)], 0, 62, SIX), "ignored 0 0 none 0 0 0 - a1a2a3a4a5a6")
case(command(LISTS, [(0, 31)], 0, 64, SIX), "refused 12 a1a2a3a4a5a6")
case(command(LISTS, [(0, 31)], 1, 255, SIX), "refused 12 a1a2a3a4a5a6")

# --------------------------------------------------------------------------------------------------------------------------- atoms and the probe

# State q has one when clause, whose guard is record q: the four atoms on class 0, then the four on all children; the set is {1}.
ATOMS = sheet(
    [klass(0, 1, 2), klass(0, 1)], [atom(kind, pattern, 1) for pattern in (0, EVERYONE) for kind in range(4)],
    [([when(q, STAY)], []) for q in range(8)])
TRUE, FALSE = "clause 0 2 0", "none"
for children, truths in [
        # the list                 class 0: ANY in, ANY not in, ALL in, ALL not in; all children: the same
        ([],                       [FALSE, FALSE, TRUE, TRUE, FALSE, FALSE, TRUE, TRUE]),
        ([(0, 1)],                 [TRUE, FALSE, TRUE, FALSE, TRUE, FALSE, TRUE, FALSE]),
        ([(0, 0)],                 [FALSE, TRUE, FALSE, TRUE, FALSE, TRUE, FALSE, TRUE]),
        ([(0, 0), (0, 1)],         [TRUE, TRUE, FALSE, FALSE, TRUE, TRUE, FALSE, FALSE]),
        ([(0, 1), (0, 1), (0, 1)], [TRUE, FALSE, TRUE, FALSE, TRUE, FALSE, TRUE, FALSE]),
        ([(1, 1)],                 [FALSE, FALSE, TRUE, TRUE, TRUE, FALSE, TRUE, FALSE]),
        ([(1, 0)],                 [FALSE, FALSE, TRUE, TRUE, FALSE, TRUE, FALSE, TRUE]),
        ([(1, 0), (0, 1)],         [TRUE, FALSE, TRUE, FALSE, TRUE, TRUE, FALSE, FALSE]),
        ([(1, 1), (0, 2)],         [FALSE, TRUE, FALSE, TRUE, TRUE, TRUE, FALSE, FALSE]),
]:
    for q, truth in enumerate(truths):
        case(probe(ATOMS, children, q), truth)

# and, or, not over two atoms: x is "some child has name 0", y is "some child has name 1"
X, Y = atom(ANY_IN, EVERYONE, 0), atom(ANY_IN, EVERYONE, 1)
TABLE = [[AND, X, Y], [OR, X, Y], [NOT, X], [AND, NOT, X, Y], [NOT, OR, X, Y], [OR, AND, X, Y, NOT, X]]
WITH = {"": [], "x": [(0, 0)], "y": [(0, 1)], "xy": [(0, 1), (0, 0)]}
places, flat = [], []
for guard in TABLE:
    places.append(len(flat))
    flat += guard
OPERATORS = sheet([klass(0, 1)], flat, [([when(p, STAY)], []) for p in places])
for who, truths in [("", [0, 0, 1, 0, 1, 1]), ("x", [0, 1, 0, 0, 0, 0]), ("y", [0, 1, 1, 1, 0, 1]), ("xy", [1, 1, 0, 0, 0, 1])]:
    for q, truth in enumerate(truths):
        case(probe(OPERATORS, WITH[who], q), TRUE if truth else FALSE)
# sixteen nots are even, from the record behind the first of them they are fifteen
NOTS = sheet([klass(0, 1)], [NOT] * 16 + [X], [([when(0, STAY)], []), ([when(1, STAY)], [])])
case(probe(NOTS, [(0, 0)], 0), TRUE)
case(probe(NOTS, [(0, 0)], 1), FALSE)
case(probe(NOTS, [(0, 1)], 0), FALSE)
case(probe(NOTS, [(0, 1)], 1), TRUE)

# the first clause whose guard is true, with its number, referrer and target
ORDER = sheet(
    [klass(0, 1, 2)], [atom(ANY_IN, 0, n) for n in range(3)],
    [([when(0, DO, 1), when(1, MOVE_TO, 1), when(0, STAY), when(2, STAY)], [(7, []), (8, [])]),
     ([when(2, DO, 0), when(1, DO, 2)], [(9, []), (10, []), (63, [])])])
case(probe(ORDER, [(0, 0)], 0), "clause 0 1 1")
case(probe(ORDER, [(0, 1)], 0), "clause 1 0 1")
case(probe(ORDER, [(0, 2)], 0), "clause 3 2 0")
case(probe(ORDER, [(0, 2), (0, 1), (0, 0)], 0), "clause 0 1 1")
case(probe(ORDER, [(0, 2), (0, 1)], 0), "clause 1 0 1")
case(probe(ORDER, [], 0), "none")
case(probe(ORDER, [(0, 0)], 1), "none")
case(probe(ORDER, [(0, 1)], 1), "clause 1 1 2")
case(probe(ORDER, [(0, 1), (0, 2)], 1), "clause 0 1 0")
# the last of 256 clauses
LAST = sheet([klass(0, 1)], [X, Y], [([when(0, MOVE_TO, 0)] * 255 + [when(1, STAY)], [])])
case(probe(LAST, [(0, 1)], 0), "clause 255 2 0")
case(probe(LAST, [(0, 1), (0, 0)], 0), "clause 0 0 0")
case(phase(LAST, [(0, 1)], 0, b""), "stay 0 0 0 - -")

# --------------------------------------------------------------------------------------------------------------------------- the when phase

# DO names the command of its action clause, which is the state's own: clause 2 of state 1 is the fifth of the sheet
case(phase(ORDER, [(0, 0)], 0, SIX), "do 0 0 0 8 a1a2a3a4a5a6")
case(phase(ORDER, [(0, 1)], 0, b""), "do 1 1 0 63 -")
case(phase(ORDER, [(0, 1), (0, 2)], 0, SIX), "do 1 1 0 9 a1a2a3a4a5a6")
case(phase(ORDER, [(0, 2)], 0, b""), "stay 0 0 0 - -")
case(phase(ORDER, [(0, 1)], 1, SIX), "do 1 0 0 63 a1a2a3a4a5a6")
case(phase(ORDER, [(0, 0)], 1, b""), "none 1 0 0 - -")
# a move to the own state is a move
ALWAYS = atom(ALL_IN, EVERYONE, 0)   # true of the empty list
OWN = sheet([], [ALWAYS], [([when(0, MOVE_TO, 0)], [])])
case(phase(OWN, [], 0, SIX), "loop 0 1 0 - a1a2a3a4a5a6")
case(probe(OWN, [], 0), "clause 0 0 0")
OWN_THREE = sheet([], [ALWAYS], [([when(0, MOVE_TO, 1)], []), ([when(0, MOVE_TO, 1)], []), ([], [])])
case(phase(OWN_THREE, [], 0, b""), "loop 1 3 0 - -")
case(phase(OWN_THREE, [], 1, SIX), "loop 1 3 0 - a1a2a3a4a5a6")
case(phase(OWN_THREE, [], 2, b""), "none 2 0 0 - -")
# a ring of 32, a ring of 31 with a way into it, a chain of 31 moves
RING = sheet([], [ALWAYS], [([when(0, MOVE_TO, (q + 1) % 32)], []) for q in range(32)])
case(phase(RING, [], 0, SIX), "loop 0 32 0 - a1a2a3a4a5a6")
case(phase(RING, [], 5, b""), "loop 5 32 0 - -")
case(phase(RING, [], 31, SIX), "loop 31 32 0 - a1a2a3a4a5a6")
case(phase(RING, [], 32, b""), "refused 11 -")
INTO = sheet([], [ALWAYS], [([when(0, MOVE_TO, q + 1 if q < 31 else 1)], []) for q in range(32)])
case(phase(INTO, [], 0, SIX), "loop 1 32 0 - a1a2a3a4a5a6")   # one move to 1, then 31 round the ring
case(phase(INTO, [], 1, b""), "loop 2 32 0 - -")               # 31 moves round the ring, and one
CHAIN = sheet([], [ALWAYS], [([when(0, MOVE_TO, q + 1)], []) for q in range(31)] + [([], [])])
case(phase(CHAIN, [], 0, SIX), "none 31 31 0 - a1a2a3a4a5a6")
case(phase(CHAIN, [], 30, b""), "none 31 1 0 - -")
case(phase(CHAIN, [], 31, SIX), "none 31 0 0 - a1a2a3a4a5a6")
CHAIN_STAY = sheet([], [ALWAYS], [([when(0, MOVE_TO, q + 1)], []) for q in range(31)] + [([when(0, STAY)], [])])
case(phase(CHAIN_STAY, [], 0, b""), "stay 31 31 0 - -")
CHAIN_DO = sheet([], [ALWAYS], [([when(0, MOVE_TO, q + 1)], []) for q in range(31)] + [([when(0, DO, 1)], [(3, []), (2, [])])])
case(phase(CHAIN_DO, [], 0, SIX), "do 31 31 0 2 a1a2a3a4a5a6")
# backwards
DOWN = sheet([], [ALWAYS], [([], [])] + [([when(0, MOVE_TO, q - 1)], []) for q in range(1, 32)])
case(phase(DOWN, [], 31, b""), "none 0 31 0 - -")
# S of 1
case(phase(SMALLEST, [], 0, SIX), "none 0 0 0 - a1a2a3a4a5a6")

# --------------------------------------------------------------------------------------------------------------------------- commands

# class 0 has names 0 to 7, class 1 has name 0; guard n: some child of class 0 has name n
WISHES = [atom(ANY_IN, 0, n) for n in range(8)]


def acting(*actions, states=3):
    """State 0 with these action clauses, and two more states. There is no when clause: behind a command the phase ends where it left the node."""
    return sheet([klass(*range(8)), klass(0)], WISHES, [([], list(actions))] + [([], [])] * (states - 1))


KEPT = bytes(range(0xC0, 0xD8))  # 24 bytes
assert KEPT.hex() == "c0c1c2c3c4c5c6c7c8c9cacbcccdcecfd0d1d2d3d4d5d6d7"
# an empty clause is handled
case(command(acting((5, [])), [(0, 0)], 0, 5, KEPT), "handled 0 0 none 0 0 0 - " + KEPT.hex())
case(command(acting((5, [])), [(0, 0)], 0, 5, b""), "handled 0 0 none 0 0 0 - -")
# the clause is found among others; each state has its own
FOUND = sheet([klass(0)], [], [([], [(1, send(11)), (2, send(12)), (3, [])]), ([], [(2, send(22)), (1, send(21) + go(0))])])
case(command(FOUND, [(0, 0)], 0, 1, SIX), "handled 0 3 none 0 0 0 - 00000ba4a5a6")
case(command(FOUND, [(0, 0)], 0, 2, SIX), "handled 0 3 none 0 0 0 - 00000ca4a5a6")
case(command(FOUND, [(0, 0)], 0, 3, SIX), "handled 0 0 none 0 0 0 - a1a2a3a4a5a6")
case(command(FOUND, [(0, 0)], 0, 0, SIX), "ignored 0 0 none 0 0 0 - a1a2a3a4a5a6")
case(command(FOUND, [(0, 0)], 1, 1, SIX), "handled 0 3 none 0 0 0 - 000015a4a5a6")
case(command(FOUND, [(0, 0)], 1, 2, SIX), "handled 1 3 none 1 0 0 - 000016a4a5a6")
case(command(FOUND, [(0, 0)], 1, 3, SIX), "ignored 1 0 none 1 0 0 - a1a2a3a4a5a6")
# do: to the children of its pattern, in list order, with their places in the whole list
PATTERNS = acting((0, send(1, 0) + send(2, 1) + send(3)))
THREE = [(1, 0), (0, 4), (1, 0)]
case(command(PATTERNS, THREE, 0, 0, KEPT), "handled 0 18 none 0 0 0 - 010001" "000002" "020002" "000003" "010003" "020003" "d2d3d4d5d6d7")
case(command(PATTERNS, THREE, 0, 0, KEPT[:18]), "handled 0 18 none 0 0 0 - 010001000002020002000003010003020003")
case(command(PATTERNS, THREE, 0, 0, KEPT[:17]), "refused 15 " + KEPT[:17].hex())
case(command(PATTERNS, THREE, 0, 0, b""), "refused 15 -")
case(command(PATTERNS, [], 0, 0, b""), "handled 0 0 none 0 0 0 - -")
case(command(PATTERNS, [(1, 0)], 0, 0, SIX), "handled 0 6 none 0 0 0 - 000002000003")
# places of 256 and over: low byte first
PLACES = acting((0, send(9, 1)))
LONG_LIST = [(0, 0)] * 255 + [(1, 0), (1, 0)] + [(0, 0)] * 42 + [(1, 0)]
case(command(PLACES, LONG_LIST, 0, 0, KEPT), "handled 0 9 none 0 0 0 - ff0009" "000109" "2b0109" + KEPT[9:].hex())
# 4,096 children: 12,288 bytes, and room for one less
ALL_SENT = b"".join(u16(place) + b"\x3f" for place in range(4096))
ROOM = b"\xee" * 12288
case(command(acting((0, send(63))), [(1, 0)] * 4096, 0, 0, ROOM), "handled 0 12288 none 0 0 0 - " + ALL_SENT.hex())
case(command(acting((0, send(63))), [(1, 0)] * 4096, 0, 0, ROOM[:-1]), "refused 15 " + ROOM[:-1].hex())
# move_to ends the clause: what stands behind it is not run
MOVES = acting((0, send(1) + go(2) + send(2)), (1, go(1)), (2, go(0)))
case(command(MOVES, [(0, 0)], 0, 0, SIX), "handled 2 3 none 2 0 0 - 000001a4a5a6")
case(command(MOVES, [(0, 0)], 0, 0, SIX[:3]), "handled 2 3 none 2 0 0 - 000001")
case(command(MOVES, [(0, 0)], 0, 1, SIX), "handled 1 0 none 1 0 0 - a1a2a3a4a5a6")
case(command(MOVES, [(0, 0)], 0, 2, SIX), "handled 0 0 none 0 0 0 - a1a2a3a4a5a6")
# if: the then-part where the guard is true, else the else-part; then what stands behind both
BRANCHES = acting((0, send(1) + branch(0, send(2), send(3)) + send(4)))
case(command(BRANCHES, [(0, 0)], 0, 0, KEPT[:12]), "handled 0 9 none 0 0 0 - 000001" "000002" "000004" "c9cacb")
case(command(BRANCHES, [(0, 1)], 0, 0, KEPT[:12]), "handled 0 9 none 0 0 0 - 000001" "000003" "000004" "c9cacb")
case(command(acting((0, branch(0, [], send(3)))), [(0, 0)], 0, 0, SIX), "handled 0 0 none 0 0 0 - a1a2a3a4a5a6")
case(command(acting((0, branch(0, [], send(3)))), [(0, 1)], 0, 0, SIX), "handled 0 3 none 0 0 0 - 000003a4a5a6")
# a move_to in a nested part ends the whole clause, not the part alone
INSIDE = acting((0, branch(0, branch(1, go(2) + send(9)) + send(1), branch(2, [], go(1)) + send(2)) + send(3)))
case(command(INSIDE, [(0, 0), (0, 1)], 0, 0, KEPT[:12]), "handled 2 0 none 2 0 0 - " + KEPT[:12].hex())
case(command(INSIDE, [(0, 0)], 0, 0, KEPT[:12]), "handled 0 6 none 0 0 0 - 000001000003" + KEPT[6:12].hex())
case(command(INSIDE, [(0, 3)], 0, 0, KEPT[:12]), "handled 1 0 none 1 0 0 - " + KEPT[:12].hex())
case(command(INSIDE, [(0, 2)], 0, 0, KEPT[:12]), "handled 0 6 none 0 0 0 - 000002000003" + KEPT[6:12].hex())
# what was sent before a move_to in a part is kept, and the room is that of this run alone
BEFORE = acting((0, send(1) + branch(0, send(2) + go(1)) + send(3) + send(4) + send(5)))
case(command(BEFORE, [(0, 0)], 0, 0, SIX), "handled 1 6 none 1 0 0 - 000001000002")
case(command(BEFORE, [(0, 1)], 0, 0, SIX), "refused 15 a1a2a3a4a5a6")
case(command(BEFORE, [(0, 1)], 0, 0, KEPT[:12]), "handled 0 12 none 0 0 0 - 000001000003000004000005")


def ladder(n):
    """Ifs eight deep: each sends n where name n is there and goes on inside, else sends 32 + n; behind its inside it sends 16 + n."""
    if n == 8:
        return go(2)
    return branch(n, send(n, 1) + ladder(n + 1) + send(16 + n, 1), send(32 + n, 1))


EIGHT = acting((0, ladder(0) + send(50, 1)))
accepted(EIGHT)


def sent(*commands):
    """Commands to the child at place 0, the only one of class 1."""
    return b"".join(bytes([0, 0, m]) for m in commands)


FIFTY = b"\xaa" * 60
for have, commands, q in [
        ([], [32, 50], 0),
        ([0], [0, 33, 16, 50], 0),
        ([0, 1], [0, 1, 34, 17, 16, 50], 0),
        ([1, 2, 3], [32, 50], 0),
        ([0, 1, 2, 3, 4, 5, 6], [0, 1, 2, 3, 4, 5, 6, 39, 22, 21, 20, 19, 18, 17, 16, 50], 0),
        ([0, 1, 2, 3, 4, 5, 6, 7], [0, 1, 2, 3, 4, 5, 6, 7], 2),
]:
    got = sent(*commands)
    children = [(1, 0)] + [(0, n) for n in have]
    case(command(EIGHT, children, 0, 0, FIFTY), "handled %d %d none %d 0 0 - %s" % (q, len(got), q, (got + FIFTY[len(got):]).hex()))
    case(command(EIGHT, children, 0, 0, FIFTY[:len(got)]), "handled %d %d none %d 0 0 - %s" % (q, len(got), q, got.hex()))
    case(command(EIGHT, children, 0, 0, FIFTY[:len(got) - 1]), "refused 15 " + FIFTY[:len(got) - 1].hex())
# the same through else-parts: with no child of class 0 every guard is false
ELSE = []
for n in reversed(range(8)):
    ELSE = branch(n, go(1), send(n) + ELSE)
case(command(acting((0, ELSE + send(8))), [(1, 0)], 0, 0, FIFTY[:27]), "handled 0 27 none 0 0 0 - " + sent(0, 1, 2, 3, 4, 5, 6, 7, 8).hex())
case(command(acting((0, ELSE + send(8))), [(0, 7)], 0, 0, FIFTY[:24]), "handled 1 21 none 1 0 0 - " + sent(0, 1, 2, 3, 4, 5, 6).hex() + "aaaaaa")
case(command(acting((0, ELSE + send(8))), [(0, 0)], 0, 0, b""), "handled 1 0 none 1 0 0 - -")
# 1,024 statements, each to one child
case(command(sheet([klass(0)], [], [([], [(0, send(7) * 1024)])]), [(0, 0)], 0, 0, b"\xee" * 3073), "handled 0 3072 none 0 0 0 - " + "000007" * 1024 + "ee")
case(command(sheet([klass(0)], [], [([], [(0, send(7) * 1024)])]), [(0, 0)], 0, 0, b"\xee" * 3071), "refused 15 " + "ee" * 3071)
# a state's own clauses and the longest sheet: state 31, command 56 is its eighth clause; guard 1,007 is ALL not in {15} of class 7. Behind
# it the third when clause, ALL in of class 2, which has no child, is the first that is true, and leads to state 2; there it does so again
case(command(LONGEST, [(7, 7), (0, 0)], 31, 56, KEPT), "handled 31 3 loop 2 32 0 - 00003f" + KEPT[3:].hex())

# --------------------------------------------------------------------------------------------------------------------------- DOs in the when phase

# class 0 has names 0 to 7, class 1 has name 0; guard n: some child of class 0 has name n; guard 8 is always true
SURE = 8


def node(*states):
    """A sheet of these states, with those classes and guards."""
    return sheet([klass(*range(8)), klass(0)], WISHES + [atom(ALL_IN, EVERYONE, *range(32))], states)


# a DO whose clause reaches a move_to makes one move, and the node probes on: here it ends by no clause, by STAY, by a DO, whose command is
# named and which has run, too. What the DOs sent stands in the buffer
SETTLING = node(
    ([when(0, DO, 0), when(1, DO, 1), when(2, DO, 2)], [(10, send(20) + go(1)), (11, send(21) + go(2)), (12, send(22) + go(3))]),
    ([], []),
    ([when(SURE, STAY)], []),
    ([when(SURE, DO, 1)], [(30, send(40)), (31, send(41))]))
accepted(SETTLING)
case(phase(SETTLING, [(0, 0)], 0, SIX), "none 1 1 3 - 000014a4a5a6")
case(phase(SETTLING, [(0, 1)], 0, SIX), "stay 2 1 3 - 000015a4a5a6")
case(phase(SETTLING, [(0, 2)], 0, SIX), "do 3 1 6 31 000016000029")
case(phase(SETTLING, [(0, 2), (0, 0)], 0, SIX), "none 1 1 6 - 000014010014")   # the first true clause alone runs
case(phase(SETTLING, [(0, 3)], 0, SIX), "none 0 0 0 - a1a2a3a4a5a6")
case(phase(SETTLING, [(0, 2)], 1, SIX), "none 1 0 0 - a1a2a3a4a5a6")
case(phase(SETTLING, [(0, 2)], 2, SIX), "stay 2 0 0 - a1a2a3a4a5a6")
case(phase(SETTLING, [(0, 2)], 3, SIX), "do 3 0 3 31 000029a4a5a6")
# the probe names the DO and runs nothing; a command runs its own clause, and the DO of the state that it leaves runs behind it
case(probe(SETTLING, [(0, 2)], 0), "clause 2 1 2")
case(probe(SETTLING, [(0, 2)], 3), "clause 0 1 1")
case(command(SETTLING, [(0, 2)], 0, 12, SIX), "handled 3 3 do 3 0 3 31 000016000029")
case(command(SETTLING, [(0, 2)], 3, 30, SIX), "handled 3 3 do 3 0 3 31 000028000029")
# the room is that of the whole phase: exactly that is enough, one byte less is refused, and nothing is written, not even what would fit
case(phase(SETTLING, [(0, 2)], 0, SIX[:5]), "refused 15 a1a2a3a4a5")
case(phase(SETTLING, [(0, 2)], 0, SIX[:3]), "refused 15 a1a2a3")
case(phase(SETTLING, [(0, 2)], 0, b""), "refused 15 -")
case(phase(SETTLING, [(0, 0)], 0, SIX[:3]), "none 1 1 3 - 000014")
case(phase(SETTLING, [(0, 0)], 0, SIX[:2]), "refused 15 a1a2")
case(phase(SETTLING, [(0, 1)], 0, SIX[:3]), "stay 2 1 3 - 000015")
case(phase(SETTLING, [(0, 1)], 0, SIX[:2]), "refused 15 a1a2")
case(phase(SETTLING, [(0, 2)], 3, SIX[:3]), "do 3 0 3 31 000029")
case(phase(SETTLING, [(0, 2)], 3, SIX[:2]), "refused 15 a1a2")
case(phase(SETTLING, [(0, 2)], 3, b""), "refused 15 -")
# where nothing is sent, no room is needed
case(phase(SETTLING, [], 3, b""), "do 3 0 0 31 -")
case(phase(SETTLING, [], 3, SIX), "do 3 0 0 31 a1a2a3a4a5a6")
case(phase(SETTLING, [(0, 3)], 0, b""), "none 0 0 0 - -")
# 15 comes last, behind 10 and 11
case(phase(SETTLING, [(0, 8)], 4, b""), "refused 10 -")
case(phase(SETTLING, [(0, 2), (2, 0)], 0, SIX[:1]), "refused 10 a1")
case(phase(SETTLING, [(0, 2)], 4, b""), "refused 11 -")
case(phase(SETTLING, [(0, 2)], 255, SIX[:5]), "refused 11 a1a2a3a4a5")
case(phase(patched(SETTLING, 0, 25), [(0, 2)], 0, b""), "refused 2 -")

# a DO whose clause moves to the own state makes a move: its guard is still true, so it ends as a loop, whatever it sends
OWN_DO = node(([when(SURE, DO, 0)], [(5, send(1) + go(0))]))
case(phase(OWN_DO, [], 0, b""), "loop 0 1 0 - -")
case(phase(OWN_DO, [(1, 0)], 0, b""), "loop 0 1 0 - -")
case(phase(OWN_DO, [(1, 0)], 0, SIX), "loop 0 1 0 - a1a2a3a4a5a6")
case(phase(OWN_DO, [(1, 0)], 0, SIX[:2]), "loop 0 1 0 - a1a2")
case(phase(OWN_DO, [(1, 0)], 1, b""), "refused 11 -")
case(command(OWN_DO, [(1, 0)], 0, 5, SIX), "handled 0 3 loop 0 1 0 - 000001a4a5a6")
RETRY = node(([when(SURE, MOVE_TO, 1)], []), ([when(1, STAY), when(SURE, DO, 0)], [(5, send(1) + branch(0, go(1), send(2)))]), ([], []))
case(phase(RETRY, [(0, 0)], 0, SIX), "loop 1 3 0 - a1a2a3a4a5a6")
case(phase(RETRY, [(0, 0)], 1, b""), "loop 1 3 0 - -")
case(phase(RETRY, [(0, 2)], 0, SIX), "do 1 1 6 5 000001000002")            # the if is false: no move_to is reached
case(phase(RETRY, [(0, 2)], 1, SIX[:5]), "refused 15 a1a2a3a4a5")
case(phase(RETRY, [(0, 0), (0, 1)], 1, b""), "stay 1 0 0 - -")             # an earlier clause is true

# a DO whose clause is empty, or ends without a move_to, ends the phase, and the clauses behind it are not tried
EMPTY_DO = node(([when(0, DO, 0), when(SURE, MOVE_TO, 1)], [(63, [])]), ([when(1, DO, 0)], [(0, branch(2, go(0)))]))
case(phase(EMPTY_DO, [(0, 0)], 0, SIX), "do 0 0 0 63 a1a2a3a4a5a6")
case(phase(EMPTY_DO, [(0, 0)], 0, b""), "do 0 0 0 63 -")
case(phase(EMPTY_DO, [(0, 1)], 0, SIX), "do 1 1 0 0 a1a2a3a4a5a6")
case(phase(EMPTY_DO, [(0, 2)], 0, b""), "none 1 1 0 - -")
case(phase(EMPTY_DO, [(0, 1), (0, 2)], 1, b""), "loop 1 2 0 - -")          # 1, 0, 1 in two moves
case(phase(EMPTY_DO, [(0, 1), (0, 2)], 0, SIX), "loop 0 2 0 - a1a2a3a4a5a6")
case(phase(EMPTY_DO, [(0, 0), (0, 1), (0, 2)], 1, b""), "do 0 1 0 63 -")

# what is sent stands in the order in which it was run, each do in list order with places of the asked list: 1, 2, 3, 4. What stands behind
# the move_to that is reached, 9, is not run
IN_ORDER = node(
    ([when(SURE, DO, 0)], [(7, send(1, 0) + send(2, 1) + go(1) + send(9))]),
    ([when(SURE, MOVE_TO, 2)], []),
    ([when(SURE, DO, 1)], [(7, send(9)), (8, send(3) + branch(4, go(3) + send(9), send(9)) + send(9))]),
    ([when(4, DO, 0)], [(6, send(4, 1))]))
case(phase(IN_ORDER, THREE, 0, KEPT), "do 3 3 24 6 010001" "000002" "020002" "000003" "010003" "020003" "000004" "020004")
case(phase(IN_ORDER, THREE, 0, KEPT[:23]), "refused 15 " + KEPT[:23].hex())
case(phase(IN_ORDER, THREE, 1, KEPT), "do 3 2 15 6 000003" "010003" "020003" "000004" "020004" + KEPT[15:].hex())
case(phase(IN_ORDER, THREE, 1, KEPT[:15]), "do 3 2 15 6 000003010003020003000004020004")
case(phase(IN_ORDER, THREE, 1, KEPT[:14]), "refused 15 " + KEPT[:14].hex())
case(phase(IN_ORDER, [(1, 0), (0, 5)], 0, KEPT), "do 2 2 24 8 010001" "000002" "000003" "010003" "000009" "010009" "000009" "010009")   # no name 4
# the children do not change meanwhile: the if and the next probe find what the first guard found
STILL = node(([when(0, DO, 0)], [(1, send(2) + branch(0, send(3) + go(1), go(2)))]), ([when(0, DO, 0), when(SURE, STAY)], [(1, send(4))]), ([], []))
case(phase(STILL, [(0, 0)], 0, KEPT[:12]), "do 1 1 9 1 000002" "000003" "000004" "c9cacb")
# a DO names a clause of its own state, the last of 64 too
OWN_CLAUSES = node(([when(0, DO, 1)], [(1, go(0)), (2, go(1))]), ([when(0, DO, 2)], [(9, go(0)), (8, go(1)), (7, send(5))]))
case(phase(OWN_CLAUSES, [(0, 0)], 0, SIX), "do 1 1 3 7 000005a4a5a6")
LAST_CLAUSE = node(
    ([when(SURE, DO, 63)], [(63 - m, go(0)) for m in range(63)] + [(0, go(1))]),
    ([when(SURE, DO, 62)], [(m, go(0)) for m in range(62)] + [(62, send(62))]))
case(phase(LAST_CLAUSE, [(1, 0)], 0, SIX), "do 1 1 3 62 00003ea4a5a6")
# the last of 256 when clauses
LAST_DO = node(([when(0, MOVE_TO, 0)] * 255 + [when(1, DO, 0)], [(4, send(6) + go(1))]), ([], []))
case(phase(LAST_DO, [(0, 1)], 0, SIX), "none 1 1 3 - 000006a4a5a6")
case(phase(LAST_DO, [(0, 1), (0, 0)], 0, SIX), "loop 0 2 0 - a1a2a3a4a5a6")
# several when clauses run the same clause, whose if asks the children, not which of them it was
SAME = node(([when(0, DO, 0), when(1, DO, 0), when(2, DO, 1), when(3, DO, 0)], [(7, send(1) + branch(1, go(1))), (8, go(1))]), ([], []))
case(phase(SAME, [(0, 0)], 0, SIX), "do 0 0 3 7 000001a4a5a6")
case(phase(SAME, [(0, 1)], 0, SIX), "none 1 1 3 - 000001a4a5a6")
case(phase(SAME, [(0, 2)], 0, SIX), "none 1 1 0 - a1a2a3a4a5a6")
case(phase(SAME, [(0, 3)], 0, SIX), "do 0 0 3 7 000001a4a5a6")
case(phase(SAME, [(0, 0), (0, 1)], 0, SIX), "none 1 1 6 - 000001010001")
case(phase(SAME, [(0, 3), (0, 1)], 0, SIX), "none 1 1 6 - 000001010001")

# a phase that loops, through DOs alone or mixed with MOVE_TO, writes nothing and needs no room, whatever it sent on its way
DO_TWO = node(([when(SURE, DO, 0)], [(1, send(2) + go(1))]), ([when(SURE, DO, 0)], [(1, send(3) + go(0))]))
MIXED_TWO = node(([when(SURE, MOVE_TO, 1)], []), ([when(SURE, DO, 0)], [(1, send(3) + go(0))]))
for two in (DO_TWO, MIXED_TWO):
    case(phase(two, [(1, 0)], 0, b""), "loop 0 2 0 - -")
    case(phase(two, [(1, 0)], 0, SIX), "loop 0 2 0 - a1a2a3a4a5a6")
    case(phase(two, [(1, 0)], 1, SIX[:2]), "loop 1 2 0 - a1a2")
    case(phase(two, [], 1, b""), "loop 1 2 0 - -")
DO_TAIL = node(([when(SURE, DO, 0)], [(1, send(2) + go(1))]), ([when(SURE, DO, 0)], [(1, send(3) + go(2))]), ([when(SURE, MOVE_TO, 1)], []))
case(phase(DO_TAIL, [(1, 0)], 0, SIX), "loop 1 3 0 - a1a2a3a4a5a6")        # 1, 2, 1
case(phase(DO_TAIL, [(1, 0)], 1, b""), "loop 2 3 0 - -")
case(phase(DO_TAIL, [(1, 0)], 2, SIX[:1]), "loop 1 3 0 - a1")
# S moves decide, whatever makes them: a chain of 31 DOs, that ends by no clause, by STAY, by a DO; rings of 32; a ring of 31 with a way into it


def do_chain(*last):
    """Thirty-one states, each of which sends its number and moves to the next by a DO, and the last one."""
    return node(*[([when(SURE, DO, 0)], [(q, send(q) + go(q + 1))]) for q in range(31)], last)


DO_CHAIN = do_chain([], [])
CHAIN_SENT = sent(*range(31))
NINETY_NINE = b"\xbb" * 99
case(phase(DO_CHAIN, [(1, 0)], 0, NINETY_NINE), "none 31 31 93 - " + CHAIN_SENT.hex() + "bbbbbbbbbbbb")
case(phase(DO_CHAIN, [(1, 0)], 0, NINETY_NINE[:93]), "none 31 31 93 - " + CHAIN_SENT.hex())
case(phase(DO_CHAIN, [(1, 0)], 0, NINETY_NINE[:92]), "refused 15 " + "bb" * 92)
case(phase(DO_CHAIN, [(1, 0)], 30, SIX), "none 31 1 3 - 00001ea4a5a6")
case(phase(DO_CHAIN, [(1, 0)], 31, SIX), "none 31 0 0 - a1a2a3a4a5a6")
case(phase(DO_CHAIN, [], 0, b""), "none 31 31 0 - -")
DO_CHAIN_STAY = do_chain([when(SURE, STAY)], [])
case(phase(DO_CHAIN_STAY, [(1, 0)], 0, NINETY_NINE), "stay 31 31 93 - " + CHAIN_SENT.hex() + "bbbbbbbbbbbb")
DO_CHAIN_DO = do_chain([when(SURE, DO, 1)], [(3, send(60)), (2, send(61) + send(62))])
case(phase(DO_CHAIN_DO, [(1, 0)], 0, NINETY_NINE), "do 31 31 99 2 " + CHAIN_SENT.hex() + "00003d" "00003e")
case(phase(DO_CHAIN_DO, [(1, 0)], 0, NINETY_NINE[:98]), "refused 15 " + "bb" * 98)
DO_RING = do_chain([when(SURE, DO, 0)], [(31, send(31) + go(0))])
for q in (0, 5, 31):
    case(phase(DO_RING, [(1, 0)], q, b""), "loop %d 32 0 - -" % q)
    case(phase(DO_RING, [(1, 0)], q, NINETY_NINE), "loop %d 32 0 - %s" % (q, "bb" * 99))
MIXED_RING = node(*[([when(SURE, DO, 0)], [(q, send(q) + go(q + 1))]) if q % 2 == 0 else ([when(SURE, MOVE_TO, (q + 1) % 32)], []) for q in range(32)])
case(phase(MIXED_RING, [(1, 0)], 0, SIX), "loop 0 32 0 - a1a2a3a4a5a6")
case(phase(MIXED_RING, [(1, 0)], 31, b""), "loop 31 32 0 - -")
DO_INTO = do_chain([when(SURE, DO, 0)], [(31, go(1))])
case(phase(DO_INTO, [(1, 0)], 0, b""), "loop 1 32 0 - -")
case(phase(DO_INTO, [(1, 0)], 1, SIX), "loop 2 32 0 - a1a2a3a4a5a6")

# ifs eight deep, in then-parts and in else-parts; what they send before a move_to is kept
EIGHT_DO = node(([when(SURE, DO, 0)], [(0, ladder(0) + send(50, 1))]), ([], []), ([when(SURE, STAY)], []))
for have, commands in [
        ([], [32, 50]),
        ([0], [0, 33, 16, 50]),
        ([1, 2, 3], [32, 50]),
        ([0, 1, 2, 3, 4, 5, 6], [0, 1, 2, 3, 4, 5, 6, 39, 22, 21, 20, 19, 18, 17, 16, 50]),
]:
    got = sent(*commands)
    children = [(1, 0)] + [(0, n) for n in have]
    case(phase(EIGHT_DO, children, 0, FIFTY), "do 0 0 %d 0 %s" % (len(got), (got + FIFTY[len(got):]).hex()))
    case(phase(EIGHT_DO, children, 0, FIFTY[:len(got) - 1]), "refused 15 " + FIFTY[:len(got) - 1].hex())
EVERY_NAME = [(1, 0)] + [(0, n) for n in range(8)]
case(phase(EIGHT_DO, EVERY_NAME, 0, FIFTY), "stay 2 1 24 - " + sent(0, 1, 2, 3, 4, 5, 6, 7).hex() + FIFTY[24:].hex())
case(phase(EIGHT_DO, EVERY_NAME, 0, FIFTY[:24]), "stay 2 1 24 - " + sent(0, 1, 2, 3, 4, 5, 6, 7).hex())
case(phase(EIGHT_DO, EVERY_NAME, 0, FIFTY[:23]), "refused 15 " + FIFTY[:23].hex())
ELSE_DO = node(([when(SURE, DO, 0)], [(0, ELSE + send(8))]), ([], []))
case(phase(ELSE_DO, [(1, 0)], 0, FIFTY[:27]), "do 0 0 27 0 " + sent(0, 1, 2, 3, 4, 5, 6, 7, 8).hex())
case(phase(ELSE_DO, [(1, 0)], 0, FIFTY[:26]), "refused 15 " + FIFTY[:26].hex())
case(phase(ELSE_DO, [(0, 7)], 0, FIFTY[:24]), "none 1 1 21 - " + sent(0, 1, 2, 3, 4, 5, 6).hex() + "aaaaaa")
case(phase(ELSE_DO, [(0, 0)], 0, b""), "none 1 1 0 - -")
INSIDE_DO = node(
    ([when(SURE, DO, 0)], [(0, branch(0, branch(1, go(2) + send(9)) + send(1), branch(2, [], go(1)) + send(2)) + send(3))]),
    ([when(SURE, STAY)], []),
    ([], []))
case(phase(INSIDE_DO, [(0, 0), (0, 1)], 0, KEPT[:12]), "none 2 1 0 - " + KEPT[:12].hex())
case(phase(INSIDE_DO, [(0, 0)], 0, KEPT[:12]), "do 0 0 6 0 000001000003" + KEPT[6:12].hex())
case(phase(INSIDE_DO, [(0, 3)], 0, KEPT[:12]), "stay 1 1 0 - " + KEPT[:12].hex())
case(phase(INSIDE_DO, [(0, 2)], 0, KEPT[:12]), "do 0 0 6 0 000002000003" + KEPT[6:12].hex())

# places of 256 and over; 4,096 children; 1,024 statements
PLACES_DO = node(([when(0, DO, 0)], [(0, send(9, 1) + go(1))]), ([when(0, DO, 0)], [(1, send(10, 1))]))
case(phase(PLACES_DO, LONG_LIST, 0, KEPT), "do 1 1 18 1 ff0009" "000109" "2b0109" "ff000a" "00010a" "2b010a" + KEPT[18:].hex())
ALL_DO = node(([when(SURE, DO, 0)], [(0, send(63))]))
case(phase(ALL_DO, [(1, 0)] * 4096, 0, ROOM), "do 0 0 12288 0 " + ALL_SENT.hex())
case(phase(ALL_DO, [(1, 0)] * 4096, 0, ROOM[:-1]), "refused 15 " + ROOM[:-1].hex())
case(phase(ALL_DO, [(1, 0)] * 4097, 0, ROOM), "refused 10 " + ROOM.hex())
MANY_SENDS = node(([when(SURE, DO, 0)], [(0, send(7) * 1023 + go(1))]), ([], []))
case(phase(MANY_SENDS, [(1, 0)], 0, b"\xee" * 3070), "none 1 1 3069 - " + "000007" * 1023 + "ee")
case(phase(MANY_SENDS, [(1, 0)], 0, b"\xee" * 3068), "refused 15 " + "ee" * 3068)
# the longest sheet. Its guard k is an atom of kind k % 4 on class k % 8 and name k % 32. With one child, of class 0 in name 0, the states 0,
# 4, 8, .. run their clause 0, whose if is false; the others run their clause 2, since ALL is true of no child, and so is its if
LONGEST_DO = sheet(
    [klass(c) for c in range(8)], [atom(k % 4, k % 8, k % 32) for k in range(1024)],
    [([when(8 * q + i, DO, i) for i in range(8)], [(8 * i, send(63, i) + branch(1000 + i, go((q + 1) % 32)) + send(0)) for i in range(8)]) for q in range(32)])
assert len(LONGEST_DO) == 18616
case(phase(LONGEST_DO, [(0, 0)], 0, KEPT), "do 0 0 6 0 00003f000000" + KEPT[6:].hex())
case(phase(LONGEST_DO, [(0, 0)], 1, KEPT), "do 4 3 6 0 00003f000000" + KEPT[6:].hex())
case(phase(LONGEST_DO, [(0, 0)], 31, KEPT[:6]), "do 0 1 6 0 00003f000000")
case(phase(LONGEST_DO, [], 7, KEPT), "loop 7 32 0 - " + KEPT.hex())
# as much as a line holds: 20 commands to each of 4,096 children, a move, and 21 more
LINE_DO = node(([when(SURE, DO, 0)], [(0, send(1) * 20 + go(1))]), ([when(SURE, DO, 0)], [(2, send(2) * 21)]))
MUCH = b"\xdd" * (524283 - len(LINE_DO) - 2 * 4096)
MUCH_SENT = b"".join(u16(place) + b"\x01" for place in range(4096)) * 20 + b"".join(u16(place) + b"\x02" for place in range(4096)) * 21
assert len(MUCH_SENT) == 503808
case(phase(LINE_DO, [(1, 0)] * 4096, 0, MUCH), "do 1 1 503808 2 " + (MUCH_SENT + MUCH[503808:]).hex())
assert len(QUESTIONS[-1]) == 1048576

# --------------------------------------------------------------------------------------------------------------------------- a command and the when phase behind it

# 01's sheet C again, where the answer is not that of its cases 6 and 7: both children are told, COLD leads to HOLD and holds there, the
# ignored command is followed by the phase all the same, FAULT leads to HOLD
case(command(C, [COLD, HOT], 0, 9, KEPT[:12]), "handled 0 12 none 1 1 0 - 000004" "010004" "000005" "010005")
case(command(C, [COLD], 1, 9, SIX), "ignored 1 0 none 1 0 0 - a1a2a3a4a5a6")
case(command(C, [FAULT], 0, 7, SIX), "ignored 0 0 none 1 1 0 - a1a2a3a4a5a6")
case(command(C, [], 1, 9, b""), "ignored 1 0 none 0 1 0 - -")
# sheet A has no action clause: every command is ignored, and the loop of its case 5 stands behind it
case(command(A, [COLD, HOT], 0, 0, b""), "ignored 0 0 loop 0 2 0 - -")
case(command(A, [COLD, HOT], 1, 63, SIX), "ignored 1 0 loop 1 2 0 - a1a2a3a4a5a6")

# every ending behind a command that is handled, wherever it was asked, and behind one that is ignored. Command t leads to state t; state 0
# has no when clause, 1 stays, 2 runs its command 20, 3 moves to itself. The phase is the left state's, not the asked one's
TO = [(t, send(10 + t) + go(t)) for t in range(4)]
ENDINGS = node(([], TO), ([when(SURE, STAY)], TO), ([when(SURE, DO, 4)], TO + [(20, send(21))]), ([when(SURE, MOVE_TO, 3)], TO))
for t, own, behind, more in [
        (0, "00000a", "none 0 0 0 -", ""),
        (1, "00000b", "stay 1 0 0 -", ""),
        (2, "00000c", "do 2 0 3 20", "000015"),
        (3, "00000d", "loop 3 4 0 -", ""),
]:
    later = len(more) // 2
    for q in range(4):
        case(command(ENDINGS, [(1, 0)], q, t, KEPT[:9]), "handled %d 3 %s %s" % (t, behind, own + more + KEPT[3 + later:9].hex()))
    case(command(ENDINGS, [(1, 0)], t, 9, KEPT[:9]), "ignored %d 0 %s %s" % (t, behind, more + KEPT[later:9].hex()))
    # the room is that of what is written: exactly that, and a byte less
    case(command(ENDINGS, [(1, 0)], 0, t, KEPT[:3 + later]), "handled %d 3 %s %s" % (t, behind, own + more))
    case(command(ENDINGS, [(1, 0)], 0, t, KEPT[:2 + later]), "refused 15 " + KEPT[:2 + later].hex())
# what is ignored sends nothing itself, but the phase behind it may need room
case(command(ENDINGS, [(1, 0)], 2, 9, SIX[:3]), "ignored 2 0 do 2 0 3 20 000015")
case(command(ENDINGS, [(1, 0)], 2, 9, SIX[:2]), "refused 15 a1a2")
case(command(ENDINGS, [(1, 0)], 2, 9, b""), "refused 15 -")
case(command(ENDINGS, [(1, 0)], 3, 9, b""), "ignored 3 0 loop 3 4 0 - -")
# with no child nothing is sent, and no room is needed
case(command(ENDINGS, [], 0, 2, b""), "handled 2 0 do 2 0 0 20 -")
case(command(ENDINGS, [], 0, 3, b""), "handled 3 0 loop 3 4 0 - -")
case(command(ENDINGS, [], 2, 9, b""), "ignored 2 0 do 2 0 0 20 -")

# behind an ignored command the phase moves by DOs and writes from the buffer's front on
case(command(SETTLING, [(0, 0)], 0, 9, SIX), "ignored 0 0 none 1 1 3 - 000014a4a5a6")
case(command(SETTLING, [(0, 1)], 0, 9, SIX), "ignored 0 0 stay 2 1 3 - 000015a4a5a6")
case(command(SETTLING, [(0, 2)], 0, 9, SIX), "ignored 0 0 do 3 1 6 31 000016000029")
case(command(SETTLING, [(0, 2)], 0, 9, SIX[:5]), "refused 15 a1a2a3a4a5")
case(command(SETTLING, [(0, 2)], 1, 12, b""), "ignored 1 0 none 1 0 0 - -")       # a clause of state 0 is none of state 1
# the command leaves the state whatever the when clauses of the asked one would have done
case(command(SETTLING, [(0, 0)], 0, 11, SIX), "handled 2 3 stay 2 0 0 - 000015a4a5a6")
case(command(SETTLING, [(0, 1)], 0, 10, SIX), "handled 1 3 none 1 0 0 - 000014a4a5a6")
case(command(SETTLING, [(0, 0)], 0, 12, SIX), "handled 3 3 do 3 0 3 31 000016000029")
case(command(SETTLING, [(0, 0)], 0, 12, SIX[:5]), "refused 15 a1a2a3a4a5")        # the command's own 3 bytes would fit

# the command's own sends come first, the phase's directly behind them, each do in list order with places of the asked list
case(command(IN_ORDER, THREE, 0, 7, KEPT), "handled 1 9 do 3 2 15 6 010001" "000002" "020002" "000003" "010003" "020003" "000004" "020004")
case(command(IN_ORDER, THREE, 0, 7, KEPT[:23]), "refused 15 " + KEPT[:23].hex())
case(command(IN_ORDER, THREE, 2, 7, KEPT), "handled 2 9 do 3 1 15 6 000009" "010009" "020009" "000003" "010003" "020003" "000004" "020004")
case(command(IN_ORDER, THREE, 2, 8, KEPT), "handled 3 9 do 3 0 6 6 000003" "010003" "020003" "000004" "020004" + KEPT[15:].hex())
case(command(IN_ORDER, THREE, 1, 7, KEPT[:15]), "ignored 1 0 do 3 2 15 6 000003" "010003" "020003" "000004" "020004")
case(command(IN_ORDER, THREE, 1, 7, KEPT[:14]), "refused 15 " + KEPT[:14].hex())
# a command that does not move, and then a DO of the same state that does, and a DO that closes the phase
ALARM = node(([when(0, DO, 1)], [(1, send(1)), (2, send(2) + go(1))]), ([when(1, DO, 0)], [(3, send(3))]))
case(command(ALARM, [(0, 0)], 0, 1, SIX), "handled 0 3 none 1 1 3 - 000001000002")
case(command(ALARM, [(0, 0), (0, 1)], 0, 1, KEPT), "handled 0 6 do 1 1 12 3 000001" "010001" "000002" "010002" "000003" "010003" + KEPT[18:].hex())
case(command(ALARM, [(0, 0), (0, 1)], 0, 1, KEPT[:17]), "refused 15 " + KEPT[:17].hex())
case(command(ALARM, [(0, 0), (0, 1)], 0, 2, KEPT[:12]), "handled 1 6 do 1 0 6 3 000002" "010002" "000003" "010003")
case(command(ALARM, [(0, 2)], 0, 1, SIX), "handled 0 3 none 0 0 0 - 000001a4a5a6")
case(command(ALARM, [(0, 1)], 1, 1, SIX), "ignored 1 0 do 1 0 3 3 000003a4a5a6")
# the children do not change meanwhile: the guards of the phase find what the command's if found
case(command(STILL, [(0, 0)], 0, 1, KEPT[:12]), "handled 1 6 do 1 0 3 1 000002" "000003" "000004" "c9cacb")
case(command(STILL, [(0, 1)], 0, 1, SIX), "handled 2 3 none 2 0 0 - 000002a4a5a6")

# the same clause may run as the command and again as a DO: both are written
case(command(SETTLING, [(0, 2)], 3, 31, SIX), "handled 3 3 do 3 0 3 31 000029000029")
case(command(SETTLING, [(0, 2)], 3, 31, SIX[:5]), "refused 15 a1a2a3a4a5")
case(command(IN_ORDER, THREE, 3, 6, KEPT), "handled 3 6 do 3 0 6 6 000004" "020004" "000004" "020004" + KEPT[12:].hex())
TWICE = "000003" "010003" "000009" "010009" "000009" "010009"                    # no name 4: the if takes its else-part, and nothing moves
case(command(IN_ORDER, [(1, 0), (0, 5)], 2, 8, FIFTY[:36]), "handled 2 18 do 2 0 18 8 " + TWICE + TWICE)
case(command(IN_ORDER, [(1, 0), (0, 5)], 2, 8, FIFTY[:35]), "refused 15 " + FIFTY[:35].hex())
case(command(RETRY, [(0, 2)], 1, 5, KEPT[:12]), "handled 1 6 do 1 0 6 5 000001" "000002" "000001" "000002")
case(command(EMPTY_DO, [(0, 0)], 0, 63, b""), "handled 0 0 do 0 0 0 63 -")       # an empty clause, twice

# a loop behind a command: the command's own sends alone are written and need room; what the ring's DOs sent, by the same clause too, is not
case(command(DO_TWO, [(1, 0)], 0, 1, SIX), "handled 1 3 loop 1 2 0 - 000002a4a5a6")
case(command(DO_TWO, [(1, 0)], 0, 1, SIX[:3]), "handled 1 3 loop 1 2 0 - 000002")
case(command(DO_TWO, [(1, 0)], 0, 1, SIX[:2]), "refused 15 a1a2")
case(command(DO_TWO, [(1, 0)], 0, 1, b""), "refused 15 -")
case(command(DO_TWO, [(1, 0)], 1, 1, SIX), "handled 0 3 loop 0 2 0 - 000003a4a5a6")
case(command(DO_TWO, [(1, 0)], 1, 2, b""), "ignored 1 0 loop 1 2 0 - -")
case(command(DO_TWO, [(1, 0)], 1, 2, SIX), "ignored 1 0 loop 1 2 0 - a1a2a3a4a5a6")
case(command(MIXED_TWO, [(1, 0)], 1, 1, SIX[:3]), "handled 0 3 loop 0 2 0 - 000003")
case(command(MIXED_TWO, [(1, 0)], 0, 1, b""), "ignored 0 0 loop 0 2 0 - -")
case(command(DO_TAIL, [(1, 0)], 0, 1, SIX), "handled 1 3 loop 2 3 0 - 000002a4a5a6")           # 2, 1, 2
case(command(DO_RING, [(1, 0)], 5, 5, SIX), "handled 6 3 loop 6 32 0 - 000005a4a5a6")
case(command(DO_RING, [(1, 0)], 31, 31, SIX[:3]), "handled 0 3 loop 0 32 0 - 00001f")
case(command(DO_RING, [(1, 0)], 31, 30, b""), "ignored 31 0 loop 31 32 0 - -")
case(command(RETRY, [(0, 0)], 0, 5, b""), "ignored 0 0 loop 1 3 0 - -")                        # 1, and then twice to itself

# a move_to to the own state is handled, the state the same, and the phase follows; what stands behind the move_to is not run
HOME = node(([when(0, MOVE_TO, 1)], [(7, send(1) + go(0) + send(9))]), ([], []))
case(command(HOME, [(0, 0)], 0, 7, SIX), "handled 0 3 none 1 1 0 - 000001a4a5a6")
case(command(HOME, [(0, 1)], 0, 7, SIX), "handled 0 3 none 0 0 0 - 000001a4a5a6")
case(command(RETRY, [(0, 0)], 1, 5, SIX), "handled 1 3 loop 1 3 0 - 000001a4a5a6")
case(command(RETRY, [(0, 0), (0, 1)], 1, 5, SIX), "handled 1 6 stay 1 0 0 - 000001010001")

# the command's move_to does not count among the moves, nor to the S that decide: with S of 1, of 2, and of 32, where it leads back to the
# beginning of a chain of 31
case(command(node(([], [(0, go(0))])), [], 0, 0, b""), "handled 0 0 none 0 0 0 - -")
BACK_TWO = node(([when(SURE, MOVE_TO, 1)], []), ([], [(0, send(5) + go(0))]))
case(command(BACK_TWO, [(1, 0)], 1, 0, SIX), "handled 0 3 none 1 1 0 - 000005a4a5a6")
case(command(BACK_TWO, [(1, 0)], 0, 0, SIX), "ignored 0 0 none 1 1 0 - a1a2a3a4a5a6")
BACK = do_chain([], [(40, send(40) + go(0))])
case(command(BACK, [(1, 0)], 31, 40, NINETY_NINE), "handled 0 3 none 31 31 93 - 000028" + CHAIN_SENT.hex() + "bbbbbb")
case(command(BACK, [(1, 0)], 31, 40, NINETY_NINE[:96]), "handled 0 3 none 31 31 93 - 000028" + CHAIN_SENT.hex())
case(command(BACK, [(1, 0)], 31, 40, NINETY_NINE[:95]), "refused 15 " + "bb" * 95)
case(command(BACK, [(1, 0)], 0, 0, NINETY_NINE[:93]), "handled 1 3 none 31 30 90 - " + CHAIN_SENT.hex())
BACK_STAY = do_chain([when(SURE, STAY)], [(40, go(0))])
case(command(BACK_STAY, [(1, 0)], 31, 40, NINETY_NINE[:93]), "handled 0 0 stay 31 31 93 - " + CHAIN_SENT.hex())
BACK_DO = do_chain([when(SURE, DO, 1)], [(40, send(40) + go(0)), (41, send(41))])
case(command(BACK_DO, [(1, 0)], 31, 40, NINETY_NINE), "handled 0 3 do 31 31 96 41 000028" + CHAIN_SENT.hex() + "000029")
case(command(BACK_DO, [(1, 0)], 31, 40, NINETY_NINE[:98]), "refused 15 " + "bb" * 98)
# one move more is a loop, whether the command moved or not
BACK_RING = do_chain([when(SURE, MOVE_TO, 0)], [(40, send(40) + go(0)), (41, send(41))])
case(command(BACK_RING, [(1, 0)], 31, 40, SIX[:3]), "handled 0 3 loop 0 32 0 - 000028")
case(command(BACK_RING, [(1, 0)], 31, 41, SIX[:3]), "handled 31 3 loop 31 32 0 - 000029")

# 12 where the state has no such clause, too, and before 15; 11 before 12, 10 before 11, the sheet before all; also where the phase loops
case(command(SETTLING, [(0, 2)], 3, 64, b""), "refused 12 -")
case(command(SETTLING, [(0, 2)], 3, 64, SIX), "refused 12 a1a2a3a4a5a6")
case(command(SETTLING, [(0, 2)], 1, 255, SIX), "refused 12 a1a2a3a4a5a6")
case(command(SETTLING, [(0, 2)], 3, 63, SIX), "ignored 3 0 do 3 0 3 31 000029a4a5a6")
case(command(SETTLING, [(0, 2)], 4, 64, b""), "refused 11 -")
case(command(SETTLING, [(0, 8)], 4, 64, SIX), "refused 10 a1a2a3a4a5a6")
case(command(patched(SETTLING, 0, 25), [(0, 8)], 4, 64, SIX), "refused 2 a1a2a3a4a5a6")
case(command(OWN_DO, [(1, 0)], 0, 64, b""), "refused 12 -")
case(command(OWN_DO, [(1, 0)], 1, 5, b""), "refused 11 -")
case(command(OWN_DO, [(1, 1)], 0, 5, b""), "refused 10 -")
case(command(OWN_DO, [(1, 0)], 0, 5, b""), "refused 15 -")

# the longest sheet with DOs, from state 0, where the same clause runs twice, from state 1, and with the empty list, whose ring is 32 long
case(command(LONGEST_DO, [(0, 0)], 0, 0, KEPT), "handled 0 6 do 0 0 6 0 00003f000000" "00003f000000" + KEPT[12:].hex())
case(command(LONGEST_DO, [(0, 0)], 1, 16, KEPT[:6]), "handled 2 0 do 4 2 6 0 00003f000000")
case(command(LONGEST_DO, [], 7, 16, KEPT), "handled 8 0 loop 8 32 0 - " + KEPT.hex())
# as much as a line holds, of the command's own sends and of the phase's: 20 to each of 4,096 children, and 21 more
LINE_COMMAND = node(([], [(0, send(1) * 20 + go(1))]), ([when(SURE, DO, 0)], [(2, send(2) * 21)]))
MUCH = b"\xdd" * (524281 - len(LINE_COMMAND) - 2 * 4096)
case(command(LINE_COMMAND, [(1, 0)] * 4096, 0, 0, MUCH), "handled 1 245760 do 1 0 258048 2 " + (MUCH_SENT + MUCH[503808:]).hex())
assert len(QUESTIONS[-1]) == 1048576
# neither count passes 65,535, but their sum, 73,728, does; less 65,536 it is 8,192
SUM = node(([], [(0, send(1) * 3 + go(1))]), ([when(SURE, DO, 0)], [(2, send(2) * 3)]))
case(command(SUM, [(1, 0)] * 4096, 0, 0, b"\xdd" * 8192), "refused 15 " + "dd" * 8192)
case(command(SUM, [(1, 0)] * 4096, 0, 0, b"\xdd" * 73727), "refused 15 " + "dd" * 73727)

# --------------------------------------------------------------------------------------------------------------------------- the loop question

# 13: a present bit not below K
case(loop(SMALLEST, 0, b""), "free 0 -")                        # K of 0
case(loop(SMALLEST, 1, b""), "refused 13 -")
case(loop(SMALLEST, 128, SIX), "refused 13 a1a2a3a4a5a6")
EIGHT_CLASSES = sheet([klass(c) for c in range(8)], [], [([], [])])
case(loop(EIGHT_CLASSES, 255, bytes(16)), "free 0 " + "00" * 16)
case(loop(EIGHT_CLASSES, 255, bytes(15)), "refused 15 " + "00" * 15)
case(loop(sheet([klass(0)] * 7, [], [([], [])]), 128, bytes(16)), "refused 13 " + "00" * 16)
case(loop(sheet([klass(0)] * 7, [], [([], [])]), 127, bytes(14)), "free 0 " + "00" * 14)
# the last name of the last class
LAST_CELL = sheet([klass(c) for c in range(7)] + [klass(31)], [atom(ANY_IN, 7, 31)], [([when(0, MOVE_TO, 0)], [])])
case(loop(LAST_CELL, 128, SIX), "loop 1 0 071fa3a4a5a6")
case(loop(LAST_CELL, 255, bytes(16)), "loop 255 0 " "0000" "0101" "0202" "0303" "0404" "0505" "0606" "071f")
case(loop(LAST_CELL, 127, bytes(14)), "free 0 " + "00" * 14)
# no class present: the empty list is the one configuration
case(loop(OWN, 0, b""), "loop 0 0 -")
case(loop(OWN, 0, SIX), "loop 0 0 a1a2a3a4a5a6")
case(loop(RING, 0, b""), "loop 0 0 -")
case(loop(INTO, 0, b""), "loop 0 1 -")                          # 0 leads into the loop and does not return to itself
case(loop(OWN_THREE, 0, b""), "loop 0 1 -")
case(loop(CHAIN, 0, b""), "free 31 -")                          # S - 1 moves
case(loop(CHAIN_STAY, 0, b""), "free 31 -")
case(loop(CHAIN_DO, 0, b""), "free 31 -")
case(loop(DOWN, 0, b""), "free 31 -")
# the smallest state that returns to itself: 2, 3 and 4 do, 0 and 1 lead there
TWO_LOOPS = sheet([], [ALWAYS], [([when(0, MOVE_TO, t)], []) for t in (4, 0, 2, 4, 3)])
case(loop(TWO_LOOPS, 0, b""), "loop 0 2 -")
# 3 and 4 do, the others lead there
TAIL = sheet([], [ALWAYS], [([when(0, MOVE_TO, t)], []) for t in (1, 3, 0, 4, 3)])
case(loop(TAIL, 0, b""), "loop 0 3 -")
# a loop through a clause that an earlier true clause hides is none
HIDDEN = sheet([klass(0, 1)], [X, Y], [([when(0, STAY), when(1, MOVE_TO, 1)], []), ([when(0, MOVE_TO, 0)], [])])
case(loop(HIDDEN, 1, SIX), "free 1 a1a2a3a4a5a6")
SHOWN = sheet([klass(0, 1)], [X, Y], [([when(1, MOVE_TO, 1), when(0, STAY)], []), ([when(0, MOVE_TO, 0)], [])])
case(loop(SHOWN, 1, SIX), "loop 3 0 00000001a5a6")
# a class of one name: present, its only configuration is 1; with none present the loop is gone
SINGLE = sheet([klass(31)], [atom(ANY_IN, 0, 31)], [([when(0, MOVE_TO, 0)], [])])
case(loop(SINGLE, 1, SIX), "loop 1 0 001fa3a4a5a6")
case(loop(SINGLE, 1, SIX[:2]), "loop 1 0 001f")
case(loop(SINGLE, 1, SIX[:1]), "refused 15 a1")
case(loop(SINGLE, 0, b""), "free 0 -")
# numbers in which a present class is empty are skipped: the loop wants class 1 without children
EMPTY = sheet([klass(0, 5), klass(3)], [AND, atom(ALL_IN, 1, 0), atom(ANY_IN, 0, 5)], [([when(0, MOVE_TO, 0)], [])])
case(loop(EMPTY, 3, SIX), "free 0 a1a2a3a4a5a6")
case(loop(EMPTY, 1, SIX), "loop 2 0 0005a3a4a5a6")
case(loop(EMPTY, 2, SIX), "free 0 a1a2a3a4a5a6")
# bits: the names of the lowest present class in rising order, then the next present class. Classes 1 {2, 9, 30} and 3 {0, 31}:
# 30 of class 1 is bit 2, 31 of class 3 is bit 4
BITS = sheet(
    [klass(0), klass(2, 9, 30), klass(7), klass(0, 31)], [AND, atom(ANY_IN, 1, 30), atom(ANY_IN, 3, 31)],
    [([when(0, MOVE_TO, 1)], []), ([when(0, MOVE_TO, 1)], []), ([when(0, MOVE_TO, 0)], [])])
TEN = bytes(range(0x51, 0x5B))
case(loop(BITS, 10, TEN), "loop 20 1 " "011e" "031f" + TEN[4:].hex())
case(loop(BITS, 10, TEN[:9]), "refused 15 " + TEN[:9].hex())
case(loop(BITS, 26, TEN), "refused 13 " + TEN.hex())
# with classes 0 and 2 present too they are bits 0 and 4, and the others are 1 to 3 and 5, 6: both lists begin with the lowest classes
FOURTEEN = bytes(range(0x51, 0x5F))
case(loop(BITS, 15, FOURTEEN), "loop %d 1 " % (1 + 8 + 16 + 64) + "0000" "011e" "0207" "031f" + FOURTEEN[8:].hex())
case(loop(BITS, 15, FOURTEEN[:13]), "refused 15 " + FOURTEEN[:13].hex())
# all children: the present ones. Loop where all are in name 1: the class with name 0 alone is not present
THOSE = sheet([klass(0), klass(1)], [atom(ALL_IN, EVERYONE, 1)], [([when(0, MOVE_TO, 0)], [])])
case(loop(THOSE, 3, SIX), "free 0 a1a2a3a4a5a6")
case(loop(THOSE, 2, SIX), "loop 1 0 0101a3a4a5a6")
case(loop(THOSE, 1, SIX), "free 0 a1a2a3a4a5a6")
case(loop(THOSE, 0, b""), "loop 0 0 -")
# "ANY not in" is not the opposite of "ANY in", and one child per class is not enough: the loop wants two children
case(loop(sheet([klass(4, 6)], [atom(ANY_IN, 0, 4), atom(ANY_NOT_IN, 0, 4)], [([when(0, MOVE_TO, 1)], []), ([when(1, MOVE_TO, 0)], [])]), 1, SIX),
     "loop 3 0 00040006a5a6")
# every state is a start: only 2 and 3 go round
case(loop(sheet([klass(0)], [X], [([], []), ([], []), ([when(0, MOVE_TO, 3)], []), ([when(0, MOVE_TO, 2)], [])]), 1, SIX), "loop 1 2 0000a3a4a5a6")
# the largest number of moves is reached in one configuration and from one state alone: name 0 alone lets 1 -> 2 -> 3, name 1 stops it
LONGEST_WAY = sheet([klass(0, 1)], [Y, X], [([], []), ([when(0, STAY), when(1, MOVE_TO, 2)], []), ([when(1, MOVE_TO, 3)], []), ([], [])])
case(loop(LONGEST_WAY, 1, SIX), "free 2 a1a2a3a4a5a6")
# S of 32: with name n the node goes from n to n + 1. The chain of 31 moves wants every name: N of 5, moves only through the five
FIVE = sheet(
    [klass(0, 1, 2, 3, 4)], [atom(ANY_IN, 0, n) for n in range(5)],
    [([when(q % 5, MOVE_TO, q + 1)], []) for q in range(31)] + [([], [])])
case(loop(FIVE, 1, TEN), "free 31 " + TEN.hex())
# the ring of 32 closes in the last configuration alone
FIVE_RING = sheet([klass(0, 1, 2, 3, 4)], [atom(ANY_IN, 0, n) for n in range(5)], [([when(q % 5, MOVE_TO, (q + 1) % 32)], []) for q in range(32)])
case(loop(FIVE_RING, 1, TEN), "loop 31 0 " "00000001000200030004")
# N of 20 is answered, 21 is refused
TWENTY = sheet([klass(*range(20))], [], [([], [])])
FORTY = b"\x77" * 40
case(loop(TWENTY, 1, FORTY), "free 0 " + FORTY.hex())
case(loop(TWENTY, 1, FORTY[:39]), "refused 15 " + FORTY[:39].hex())
case(loop(TWENTY_ONE, 1, b"\x77" * 42), "refused 14 " + "77" * 42)
case(loop(sheet([klass(*range(32))] * 8, [], [([], [])]), 255, b""), "refused 14 -")
SPLIT = [klass(*range(7)), klass(*range(8, 15)), klass(*range(16, 23))]
case(loop(sheet(SPLIT, [], [([], [])]), 7, FORTY), "refused 14 " + FORTY.hex())   # 21 in three classes


def every_name(atoms):
    """The and of all these atoms, as a tree that is no deeper than it must be."""
    if len(atoms) == 1:
        return atoms
    half = len(atoms) // 2
    return [AND] + every_name(atoms[:half]) + every_name(atoms[half:])


# a loop in the last configuration alone: every one of 20 names is wanted
LAST_OF_ALL = sheet([klass(*range(12, 32))], every_name([atom(ANY_IN, 0, n) for n in range(12, 32)]), [([when(0, MOVE_TO, 0)], [])])
case(loop(LAST_OF_ALL, 1, FORTY), "loop 1048575 0 " + "".join("00%02x" % n for n in range(12, 32)))
# 20 names in two classes, free: 1 -> 0 where a child of class 1 is in name 9
FREE_TWENTY = sheet([klass(*range(10)), klass(*range(10))], [atom(ANY_IN, 1, 9)], [([], []), ([when(0, MOVE_TO, 0)], [])])
case(loop(FREE_TWENTY, 3, FORTY), "free 1 " + FORTY.hex())
# of 21 names 20 are present
TWENTY_OF = sheet([klass(0), klass(*range(20))], [atom(ANY_IN, 1, 2)], [([when(0, MOVE_TO, 0)], [])])
case(loop(TWENTY_OF, 3, FORTY), "refused 14 " + FORTY.hex())
case(loop(TWENTY_OF, 2, FORTY), "loop 4 0 0102" + FORTY[2:].hex())
case(loop(TWENTY_OF, 1, FORTY), "free 0 " + FORTY.hex())

# --------------------------------------------------------------------------------------------------------------------------- DOs in the loop question

# a DO that moves counts, its ifs asked of the configuration's children, and no command is written: with name 0 alone the if is false
DO_PRESS = sheet(
    [klass(0, 1)], [X, Y],
    [([when(0, DO, 0)], [(1, send(3) + branch(1, send(6) + go(1)) + send(4))]), ([when(0, DO, 0)], [(2, send(5) + go(0))])])
case(loop(DO_PRESS, 1, SIX), "loop 3 0 00000001a5a6")
case(loop(DO_PRESS, 1, SIX[:3]), "refused 15 a1a2a3")
case(loop(DO_PRESS, 0, b""), "free 0 -")
# the move_to in the else-part: now with name 0 alone
ELSE_PRESS = sheet([klass(0, 1)], [X, Y], [([when(0, DO, 0)], [(1, branch(1, send(3), go(1)))]), ([when(0, DO, 0)], [(2, go(0))])])
case(loop(ELSE_PRESS, 1, SIX), "loop 1 0 0000a3a4a5a6")
# the guard of the if shares records with that of the when clause: y runs the clause, which moves where not x and y
SHARED_PRESS = sheet([klass(0, 1)], [AND, NOT, X, Y], [([when(3, DO, 0)], [(1, branch(0, go(0)))])])
case(loop(SHARED_PRESS, 1, SIX), "loop 2 0 0001a3a4a5a6")
# a DO to the own state; an if that does not let it
SIXTEEN = bytes(range(0x60, 0x70))
case(loop(OWN_DO, 0, b""), "loop 0 0 -")
case(loop(OWN_DO, 2, SIX), "loop 1 0 0100a3a4a5a6")
case(loop(RETRY, 1, SIXTEEN), "loop 1 1 0000" + SIXTEEN[2:].hex())
case(loop(RETRY, 2, SIX), "free 1 a1a2a3a4a5a6")
# a DO that does not move ends the phase as before, and hides the clauses behind it; one that moves leads to its own target
HIDING = [klass(0, 1)], [X, Y]
case(loop(sheet(*HIDING, [([when(0, DO, 0), when(1, MOVE_TO, 1)], [(0, send(0))]), ([when(0, MOVE_TO, 0)], [])]), 1, SIX), "free 1 a1a2a3a4a5a6")
case(loop(sheet(*HIDING, [([when(0, DO, 0), when(1, MOVE_TO, 1)], [(0, [])]), ([when(0, MOVE_TO, 0)], [])]), 1, SIX), "free 1 a1a2a3a4a5a6")
case(loop(sheet(*HIDING, [([when(0, DO, 0), when(1, MOVE_TO, 1)], [(0, go(1))]), ([when(0, MOVE_TO, 0)], [])]), 1, SIX), "loop 1 0 0000a3a4a5a6")
case(loop(sheet(*HIDING, [([when(0, DO, 0), when(1, MOVE_TO, 1)], [(0, go(2))]), ([when(0, MOVE_TO, 0)], []), ([], [])]), 1, SIX), "free 2 a1a2a3a4a5a6")
# an action clause that no when clause runs makes no move
case(loop(sheet(*HIDING, [([when(0, STAY)], [(0, go(0))])]), 1, SIX), "free 0 a1a2a3a4a5a6")
case(loop(sheet(*HIDING, [([when(0, DO, 1)], [(0, go(0)), (1, [])]), ([when(0, DO, 0)], [(0, []), (1, go(1))])]), 1, SIX), "free 0 a1a2a3a4a5a6")
# 0, 1 without name 0 and with names 1 and 2: no smaller number has both
case(loop(EMPTY_DO, 1, SIXTEEN), "loop 6 0 00010002" + SIXTEEN[4:].hex())
case(loop(SETTLING, 1, SIXTEEN), "free 1 " + SIXTEEN.hex())
case(loop(SETTLING, 0, b""), "free 0 -")
# chains and rings of DOs; the smallest state that returns to itself
case(loop(DO_CHAIN, 0, b""), "free 31 -")
case(loop(DO_CHAIN, 2, SIX), "free 31 a1a2a3a4a5a6")
case(loop(DO_CHAIN_STAY, 0, b""), "free 31 -")
case(loop(DO_CHAIN_DO, 0, b""), "free 31 -")
case(loop(DO_RING, 0, b""), "loop 0 0 -")
case(loop(MIXED_RING, 0, SIX), "loop 0 0 a1a2a3a4a5a6")
case(loop(DO_INTO, 0, b""), "loop 0 1 -")
case(loop(DO_TAIL, 0, b""), "loop 0 1 -")
case(loop(MIXED_TWO, 2, SIX), "loop 1 0 0100a3a4a5a6")
case(loop(node(*[([when(SURE, DO, 0)], [(0, go(t))]) for t in (4, 0, 2, 4, 3)]), 0, b""), "loop 0 2 -")
# the largest number of moves is reached in one configuration and from one state alone: with name 1 the if holds state 1 back
case(loop(sheet([klass(0, 1)], [Y, X], [([], []), ([when(1, DO, 0)], [(0, branch(0, [], go(2)))]), ([when(1, DO, 0)], [(0, go(3))]), ([], [])]), 1, SIX),
     "free 2 a1a2a3a4a5a6")
# S of 32: state q goes on where name q modulo 5 is there, so the chain of 31 and the ring of 32 want every name
ANYWAY = atom(ALL_IN, EVERYONE, *range(32))


def five_by_do(states, last):
    """Each state runs a clause whose if moves on to the next of so many; and the last one."""
    return sheet(
        [klass(0, 1, 2, 3, 4)], [atom(ANY_IN, 0, n) for n in range(5)] + [ANYWAY],
        [([when(5, DO, 0)], [(q, branch(q % 5, send(1) + go((q + 1) % 32), send(2)))]) for q in range(states)] + last)


case(loop(five_by_do(31, [([], [])]), 1, TEN), "free 31 " + TEN.hex())
case(loop(five_by_do(32, []), 1, TEN), "loop 31 0 " "00000001000200030004")
# ifs eight deep: through the then-parts all eight names are wanted, through the else-parts the last one alone
DEEP_THEN, DEEP_ELSE = go(0), branch(7, go(0))
for n in reversed(range(8)):
    DEEP_THEN = branch(n, DEEP_THEN, send(n))
for n in reversed(range(7)):
    DEEP_ELSE = branch(n, send(n), DEEP_ELSE)
case(loop(node(([when(SURE, DO, 0)], [(0, DEEP_THEN)])), 1, SIXTEEN), "loop 255 0 " "00000001000200030004000500060007")
case(loop(node(([when(SURE, DO, 0)], [(0, DEEP_ELSE)])), 1, SIXTEEN), "loop 128 0 0007" + SIXTEEN[2:].hex())
case(loop(node(([when(6, DO, 0)], [(0, go(0))])), 1, SIXTEEN), "loop 64 0 0006" + SIXTEEN[2:].hex())
# numbers in which a present class is empty are skipped: the if wants class 1 without children
EMPTY_IF = sheet([klass(0, 5), klass(3)], [atom(ALL_IN, 1, 0), atom(ANY_IN, 0, 5)], [([when(1, DO, 0)], [(0, branch(0, go(0)))])])
case(loop(EMPTY_IF, 3, SIX), "free 0 a1a2a3a4a5a6")
case(loop(EMPTY_IF, 1, SIX), "loop 2 0 0005a3a4a5a6")
case(loop(EMPTY_IF, 2, SIX), "free 0 a1a2a3a4a5a6")
# 20 names, of which an if under a DO wants every one: to the own state, a loop in the last configuration alone; to another, one move there
TWENTY_WANTED = every_name([atom(ANY_IN, 0, n) for n in range(12, 32)])
TWENTY_GUARDS = TWENTY_WANTED + [ANYWAY]
LAST_BY_DO = sheet([klass(*range(12, 32))], TWENTY_GUARDS, [([when(len(TWENTY_WANTED), DO, 0)], [(0, send(1) + branch(0, send(2) + go(0), send(3)))])])
case(loop(LAST_BY_DO, 1, FORTY), "loop 1048575 0 " + "".join("00%02x" % n for n in range(12, 32)))
FREE_BY_DO = sheet([klass(*range(12, 32))], TWENTY_GUARDS, [([when(len(TWENTY_WANTED), DO, 0)], [(0, send(1) + branch(0, send(2) + go(1), send(3)))]), ([], [])])
case(loop(FREE_BY_DO, 1, FORTY), "free 1 " + FORTY.hex())

# --------------------------------------------------------------------------------------------------------------------- class texts that are read


def record(name):
    """A name record: the name, and zeros behind it."""
    return name.encode().ljust(32, b"\x00")


def named(*ns):
    """A list of child state names or of commands, or a table of own states."""
    return b"".join(record(n) for n in ns)


def kin(*classes):
    """A list of child classes, each (its name, its name set)."""
    return b"".join(record(n) + u32(s) for n, s in classes)


def read(text, lists, sheet_buffer, table_buffer):
    """The lists are child state names, commands and child classes."""
    if isinstance(text, str):
        text = text.encode()
    return "read " + " ".join(hexed(b) for b in (text, *lists, sheet_buffer, table_buffer))


ROOM, TABLE = b"\x5a" * 40000, b"\xa5" * 2000
READ_SHEETS = []


def reads(text, lists, s, *own):
    """The text is read as the sheet s, with these own states; three bytes behind the sheet are kept, and one behind the table."""
    READ_SHEETS.append((lists, s, own))
    t = named(*own)
    case(read(text, lists, ROOM[:len(s) + 3], TABLE[:len(t) + 1]), "read %d %d %s5a5a5a %sa5" % (len(s), len(own), s.hex(), t.hex()))


def unread(number, text, lists, m=400, n=70):
    """The text is refused, and the buffers of m and n bytes are as they were."""
    case(read(text, lists, ROOM[:m], TABLE[:n]), "refused %d %s %s" % (number, hexed(ROOM[:m]), hexed(TABLE[:n])))


def wrong(marked, lists, m=3, n=0):
    """16; a caret marks the place, and is no part of the text."""
    place = marked.index("^")
    case(read(marked.replace("^", "", 1), lists, ROOM[:m], TABLE[:n]), "refused 16 %d %s %s" % (place, hexed(ROOM[:m]), hexed(TABLE[:n])))


# sheet A
PRESS = """class: $FWPART_$TOP$PRESS
  state: READY
    when ( $ANY$HEATER not_in_state HOT ) move_to HOLD
  state: HOLD
    when ( $ANY$HEATER in_state HOT ) move_to READY
"""
HEATERS = (named("COLD", "HOT", "FAULT"), b"", kin(("HEATER", names(0, 1, 2))))
OWN = named("READY", "HOLD")
reads(PRESS, HEATERS, A, "READY", "HOLD")
# room that just suffices, and one byte too few in the one buffer, the other, both
case(read(PRESS, HEATERS, ROOM[:60], TABLE[:64]), "read 60 2 %s %s" % (A.hex(), OWN.hex()))
unread(15, PRESS, HEATERS, 59, 64)
unread(15, PRESS, HEATERS, 60, 63)
unread(15, PRESS, HEATERS, 59, 63)
unread(15, PRESS, HEATERS, 0, 200)
unread(15, PRESS, HEATERS, 200, 0)
unread(15, PRESS, HEATERS, 0, 0)
case(read(PRESS, HEATERS, ROOM[:200], TABLE[:100]), "read 60 2 %s %s" % ((A + ROOM[60:200]).hex(), (OWN + TABLE[64:100]).hex()))

# document 000, Listing 1
reads("""class: $FWPART_$TOP$RPC
  state: ON
    when ( $ANY$FwCHILDREN in_state ERROR ) move_to ERROR
    action: RESET
      do OFF $ALL$FwCHILDREN
  state: ERROR
    when ( $ANY$FwCHILDREN in_state ON ) move_to ON
""", (named("ON", "ERROR"), named("RESET", "OFF"), b""),
      sheet([], [atom(ANY_IN, EVERYONE, 1), atom(ANY_IN, EVERYONE, 0)], [([when(0, MOVE_TO, 1)], [(0, send(1))]), ([when(1, MOVE_TO, 0)], [])]), "ON", "ERROR")

# document 002, Listing 1: four of its states are not in the part that is shown
CHAMBER = """class: $FWPART_$TOP$RPC_Chamber_CLASS
  state: OFF
    when ( ( $ANY$FwCHILDREN in_state ERROR ) or
           ( $ANY$FwCHILDREN in_state TRIPPED ) ) move_to ERROR

    when ( $ANY$RPC_HV in_state {RAMPING_UP,
                                RAMPING_DOWN} ) move_to RAMPING
  when ( ( $ALL$RPC_LV in_state ON ) and
         ( $ALL$RPC_HV in_state STANDBY ) ) move_to STANDBY

  when ( ( $ALL$RPC_HV in_state ON ) and
         ( $ALL$RPC_LV in_state ON ) ) move_to ON

  when ( ( $ALL$FwCHILDREN in_state ON ) and
         ( $ALL$RPC_T in_state OK ) ) move_to ON

  action: STANDBY
    do STANDBY $ALL$RPC_HV
    do ON $ALL$RPC_LV
  action: OFF
    do OFF $ALL$FwCHILDREN
  action: ON
    do ON $ALL$FwCHILDREN
"""
CHAMBERS = (
    named("ERROR", "TRIPPED", "RAMPING_UP", "RAMPING_DOWN", "ON", "STANDBY", "OK"), named("STANDBY", "OFF", "ON"),
    kin(("RPC_HV", names(2, 3, 4, 5)), ("RPC_LV", names(4)), ("RPC_T", names(6))))
unread(17, CHAMBER, CHAMBERS)
reads(CHAMBER + "state: ERROR state: RAMPING state: STANDBY state: ON", CHAMBERS,
      sheet(
          [klass(2, 3, 4, 5), klass(4), klass(6)],
          [OR, atom(ANY_IN, EVERYONE, 0), atom(ANY_IN, EVERYONE, 1), atom(ANY_IN, 0, 2, 3), AND, atom(ALL_IN, 1, 4), atom(ALL_IN, 0, 5), AND, atom(ALL_IN, 0, 4),
           atom(ALL_IN, 1, 4), AND, atom(ALL_IN, EVERYONE, 4), atom(ALL_IN, 2, 6)],
          [([when(0, MOVE_TO, 1), when(3, MOVE_TO, 2), when(4, MOVE_TO, 3), when(7, MOVE_TO, 4), when(10, MOVE_TO, 4)],
            [(0, send(0, 0) + send(2, 1)), (1, send(1)), (2, send(2))])] + [([], [])] * 4),
      "OFF", "ERROR", "RAMPING", "STANDBY", "ON")
# Listing 2, inside a class
reads("""class: $FWPART_$TOP$C state: OFF action: STANDBY
  do STANDBY $ALL$RPC_HV
  do ON $ALL$RPC_LV
  if ( $ALL$RPC_LV in_state ON ) then
    do ON $ALL$RPC_HV
    if ( $ALL$RPC_HV in_state ON ) then
      move_to ON
    endif
  else
    do STANDBY $ALL$RPC_LV
    do STANDBY $ALL$RPC_HV
    do STANDBY $ALL$FwCHILDREN
  endif
state: ON""", (named("ON"), named("STANDBY", "ON"), kin(("RPC_HV", 1), ("RPC_LV", 1))),
      sheet(
          [klass(0), klass(0)], [atom(ALL_IN, 1, 0), atom(ALL_IN, 0, 0)],
          [([], [(0, send(0, 0) + send(1, 1) + branch(0, send(1, 0) + branch(1, go(1)), send(0, 1) + send(0, 0) + send(0)))]), ([], [])]),
      "OFF", "ON")
# Listing 3: dots stand nowhere. Without them and with a head and HVMIXED it is read, and loops as the document says
EXCERPT = """state: ANALOG_ON_RED
...
when ( $ANY$TkPowerGroup not_in_state DIGITAL_ON_RED ) move_to LVMIXED
...

state: LVMIXED
...
when ( $ANY$TkPowerGroup in_state {ON, HVMIXED} ) move_to HVMIXED
when ( $ALL$FwCaenChannelCtrl in_state ON and
      $ALL$TkPowerGroup in_state ANALOG_ON_RED ) move_to ANALOG_ON_RED
...
"""
GROUPS = (named("ANALOG_ON_RED", "ON", "HVMIXED", "DIGITAL_ON_RED"), b"", kin(("TkPowerGroup", names(0, 1, 2, 3)), ("FwCaenChannelCtrl", names(1))))
wrong("class: $FWPART_$TOP$C " + EXCERPT.replace(".", "^.", 1), GROUPS)
GROUP = sheet(
    [klass(0, 1, 2, 3), klass(1)], [atom(ANY_NOT_IN, 0, 3), atom(ANY_IN, 0, 1, 2), AND, atom(ALL_IN, 1, 1), atom(ALL_IN, 0, 0)],
    [([when(0, MOVE_TO, 1)], []), ([when(1, MOVE_TO, 2), when(2, MOVE_TO, 0)], []), ([], [])])
reads("class: $FWPART_$TOP$C " + EXCERPT.replace(".", "") + "state: HVMIXED", GROUPS, GROUP, "ANALOG_ON_RED", "LVMIXED", "HVMIXED")
case(phase(GROUP, [(0, 0), (1, 1)], 0, b""), "loop 1 3 0 - -")

# ------------------------------------------------------------------------------------------------------------------- the forms of the class text

H = "class: $FWPART_$TOP$X state: A "
PQ = (named("P", "Q"), named("go", "stop"), kin(("K", names(0, 1)), ("L", names(1))))
KL = [klass(0, 1), klass(1)]
a, b, c = "$ANY$K in_state P", "$ANY$K in_state Q", "$ALL$L not_in_state P"
ra, rb, rc = atom(ANY_IN, 0, 0), atom(ANY_IN, 0, 1), atom(ALL_NOT_IN, 1, 0)


def guarded(guard, *records):
    """A guard, and its records."""
    reads(H + "when " + guard + " move_to A", PQ, sheet(KL, records, [([when(0, MOVE_TO, 0)], [])]), "A")


# a class has one state and nothing else; white space is blank, tab, line feed and carriage return, and parts two runs alone
reads("class: $FWPART_$TOP$X state: A", (b"", b"", b""), SMALLEST, "A")
reads("class:$FWPART_$TOP$X\tstate:A", (b"", b"", b""), SMALLEST, "A")
reads("\r\n\t class:\n$FWPART_$TOP$\rX \t\r\n state:\r\nA\n\n", (b"", b"", b""), SMALLEST, "A")
reads("class:$FWPART_$TOP$X state:A when(not($ANY$K in_state{P,Q}))move_to A", PQ, sheet(KL, [NOT, atom(ANY_IN, 0, 0, 1)], [([when(0, MOVE_TO, 0)], [])]), "A")
wrong("class: $FWPART_$TOP$X^\x0bstate: A", PQ)
wrong("class: $FWPART_$TOP$X^\x0cstate: A", PQ)
wrong("class: $FWPART_$TOP$X^\x00state: A", PQ)
# the lists' classes stand in the sheet, used or not; the class's own name stands nowhere
reads("class: $FWPART_$TOP$K state: P state: go state: L", PQ, sheet(KL, [], [([], [])] * 3), "P", "go", "L")
reads("class: $FWPART_$TOP$X state: A", (named("P", "Q"), b"", kin(("P", 3), ("Q", 2))), sheet(KL, [], [([], [])]), "A")
# names of 1 and of 31 characters; names that are nearly words of the grammar
LONG = "abcdefghijklmnopqrstuvwxyz_0123"
assert len(LONG) == 31
reads("class: $FWPART_$TOP$%s state: %s state: 9 state: _" % (LONG, LONG), PQ, sheet(KL, [], [([], [])] * 3), LONG, "9", "_")
wrong(H + "state: ^%s4" % LONG, PQ)
wrong("class: $FWPART_$TOP$^%s4 state: A" % LONG, PQ)
NEARLY = ["When", "any", "classes", "state_", "action0", "empty", "wait", "in_states", "do_", "not_", "IF", "FWPART", "top", "all"]
reads("class: $FWPART_$TOP$X " + " ".join("state: " + n for n in NEARLY), PQ, sheet(KL, [], [([], [])] * len(NEARLY)), *NEARLY)
for reserved in "class state action when move_to do stay_in_state if then else endif and or not in_state not_in_state FwCHILDREN FWPART_ TOP ANY ALL".split():
    wrong("class: $FWPART_$TOP$X state: ^" + reserved, PQ, 1, 1)
# guards: not before and before or, equals from the left, brackets as they stand; needless ones count for nothing
guarded(a, ra)
guarded(f"( {a} )", ra)
guarded("(" * 40 + a + ")" * 40, ra)
guarded(f"{a} and {b} and {c}", AND, AND, ra, rb, rc)
guarded(f"{a} or {b} or {c}", OR, OR, ra, rb, rc)
guarded(f"{a} and ({b} and {c})", AND, ra, AND, rb, rc)
guarded(f"{a} or ({b} or {c})", OR, ra, OR, rb, rc)
guarded(f"{a} or {b} and {c}", OR, ra, AND, rb, rc)
guarded(f"{a} and {b} or {c}", OR, AND, ra, rb, rc)
guarded(f"({a} or {b}) and {c}", AND, OR, ra, rb, rc)
guarded(f"{a} and ({b} or {c})", AND, ra, OR, rb, rc)
guarded(f"not {a} and {b} or {c}", OR, AND, NOT, ra, rb, rc)
guarded(f"not ({a} and {b}) or {c}", OR, NOT, AND, ra, rb, rc)
guarded(f"not ({a} and {b} or {c})", NOT, OR, AND, ra, rb, rc)
guarded(f"not not {a}", NOT, NOT, ra)
guarded(f"not (not ({a}))", NOT, NOT, ra)
guarded(f"{a} or not {b} and not not {c}", OR, ra, AND, NOT, rb, NOT, NOT, rc)
guarded(f"({a} or {b}) and ({b} or {c}) or {c} and {a}", OR, AND, OR, ra, rb, OR, rb, rc, AND, rc, ra)
guarded(f"((({a}) or (({b})))) and (({c}))", AND, OR, ra, rb, rc)
# atoms and sets: a name twice in braces, and a name that the class lacks
guarded("$ANY$FwCHILDREN not_in_state Q", atom(ANY_NOT_IN, EVERYONE, 1))
guarded("$ALL$L in_state {P}", atom(ALL_IN, 1, 0))
guarded("$ALL$FwCHILDREN in_state {Q, P}", atom(ALL_IN, EVERYONE, 0, 1))
guarded("$ANY$K not_in_state { Q , Q,P ,Q }", atom(ANY_NOT_IN, 0, 0, 1))
# every referrer; STAY's target is 0, whatever stands behind it; guards stand in the order of the words when and if
reads(f"""class: $FWPART_$TOP$X
  state: A
    when {a} stay_in_state
    when {b} stay_in_state A
    when {c} stay_in_state B
    when {a} move_to B
    when {b} do stop
    when {c} do go
    action: go
      if {b} then
        do stop $ALL$K
        if {c} and {a} then move_to A endif
      else
        do go $ALL$FwCHILDREN
      endif
      move_to B
    action: stop
  state: B
    when {a} stay_in_state
  state: C
    action: stop
      if {a} then endif
      if {b} then else endif
      if {c} then else do go $ALL$L endif
    action: go
""", PQ, sheet(
    KL, [ra, rb, rc, ra, rb, rc, rb, AND, rc, ra, ra, ra, rb, rc],
    [([when(0, STAY), when(1, STAY), when(2, STAY), when(3, MOVE_TO, 1), when(4, DO, 1), when(5, DO, 0)],
      [(0, branch(6, send(1, 0) + branch(7, go(0)), send(0)) + go(1)), (1, [])]),
     ([when(10, STAY)], []),
     ([], [(1, branch(11) + branch(12) + branch(13, [], send(0, 1))), (0, [])])]), "A", "B", "C")
reads(H + f"when {a} stay_in_state state: B", PQ, sheet(KL, [ra], [([when(0, STAY)], []), ([], [])]), "A", "B")
reads(H + f"when {a} stay_in_state action: go", PQ, sheet(KL, [ra], [([when(0, STAY)], [(0, [])])]), "A")
reads(H + f"when {a} stay_in_state", PQ, sheet(KL, [ra], [([when(0, STAY)], [])]), "A")
# the first command of a list and the last, a state that stands behind, a list of 64 commands and one of 32 names
MANY = (named(*["n%d" % n for n in range(32)]), named(*["c%d" % m for m in range(64)]), kin(*[("k%d" % k, 1 << (31 - k)) for k in range(8)]))
MANY_K = [klass(31 - k) for k in range(8)]
reads(H + "when $ANY$k7 in_state {n31,n0} move_to Z action: c63 do c0 $ALL$k7 action: c0 do c63 $ALL$k0 move_to Z state: Z", MANY,
      sheet(MANY_K, [atom(ANY_IN, 7, 0, 31)], [([when(0, MOVE_TO, 1)], [(63, send(0, 7)), (0, send(63, 0) + go(1))]), ([], [])]), "A", "Z")

# --------------------------------------------------------------------------------------------------------- 16: a caret marks the word that cannot stand

K = (named("P"), named("go", "stop"), kin(("K", 1)))
for marked in [
        "^", " \t\r\n^", "^x", "^$", "^state: A", "^class", "class: ^", "class:^:", "^class $FWPART_$TOP$X state: A", "class: $FWPART_$TOP$^",
        "class: $FWPART_$TOP$X ^",
        "class: $FWPART_$TOP$X ^sta",
        "class: $FWPART_$TOP$X ^state A",
        "class: $FWPART_$TOP$X ^state : A",
        "class: ^$FWPART_$TOP X state: A",
        "class: ^X state: A",
        "class: $FWPART_$TOP$X state: ^when",
        "class: $FWPART_$TOP$X state: A^-B",
        "class: $FWPART_$TOP$X ^Y state: A",
        "H ^class: $FWPART_$TOP$Y state: B",
        "H ^A", "H ^do go", "H ^move_to A", "H ^}", "H state: ^", "H state: B ^state", "H ^!", "H ^#x", "H state: ^state: B",
        "H when ^", "H when ^when", "H when ^A", "H when ( ^)", "H when not ^",
        "H when ^$any$K in_state P",
        "H when ^$ ANY$K in_state P", "H when $ANY$^$ANY$K in_state P", "H when $ANY$^in_state P", "H when $ANY$K ^in P", "H when $ANY$K ^P",
        "H when $ANY$K in_state ^FwCHILDREN move_to A", "H when $ANY$K in_state {^} move_to A", "H when $ANY$K in_state {P ^Q} move_to A",
        "H when $ANY$K in_state {^", "H when $ANY$K in_state {P^", "H when $ANY$K in_state {P^;Q}",
        "H when $ANY$K in_state {P,^}",
        "H when ( $ANY$K in_state P ^move_to A",
        "H when $ANY$K in_state P ^) move_to A",
        "H when $ANY$K in_state P ^", "H when $ANY$K in_state P and ^", "H when $ANY$K in_state P ^not $ANY$K in_state P move_to A",
        "H when $ANY$K in_state P or ^and", "H when $ANY$K in_state P ^then", "H when $ANY$K in_state P ^$ANY$K in_state P", "H when $ANY$K ^not in_state P",
        "H when $ANY$K in_state P move_to ^", "H when $ANY$K in_state P move_to A ^A", "H when $ANY$K in_state P do ^$ALL$K", "H when $ANY$K in_state P do go ^$ALL$K",
        "H when $ANY$K in_state P do go ^stop", "H when $ANY$K in_state P stay_in_state A ^A", "H when $ANY$K in_state P stay_in_state ^do go",
        "H when $ANY$K in_state P move_to^: A",
        "H action: ^", "H action: ^when", "H action: go ^go", "H action: go ^stay_in_state", "H action: go ^endif", "H action: go ^else", "H action: go ^then",
        "H action: go ^when $ANY$K in_state P move_to A",
        "H action: go do stop ^$ANY$K",
        "H action: go do ^$ALL$K", "H action: go do stop ^", "H action: go do stop $ALL$^{K}", "H action: go do stop $ALL$K ^K",
        "H action: go move_to ^", "H action: go if ^then endif", "H action: go if $ANY$K in_state P ^do stop $ALL$K endif", "H action: go if $ANY$K in_state P then ^",
        "H action: go if $ANY$K in_state P then move_to A ^state: B", "H action: go if $ANY$K in_state P then ^action: stop", "H action: go if $ANY$K in_state P then endif ^endif",
        "H action: go if $ANY$K in_state P then else ^else endif",
        "H action: go if $ANY$K in_state P then endif ^else endif",
        "H action: go if $ANY$K in_state P then if $ANY$K in_state P then else endif else endif ^else endif",
        "H action: go if $ANY$K in_state P then else if $ANY$K in_state P then endif ^else endif endif",
        "H action: go if $ANY$K in_state P then else if $ANY$K in_state P then else endif ^else endif endif",
        "H action: go if $ANY$K in_state P then move_to A else move_to A ^",
        "H action: go ^wait", "H action: go ^empty", "H action: go do stop $ALL$^*"]:
    wrong(marked.replace("H ", H, 1) if marked.startswith("H ") else marked, K)
# bytes over 127 are words that stand nowhere
case(read(H.encode() + b"\xc3\xa9", K, b"", b""), "refused 16 %d - -" % len(H))
case(read(b"\xff", K, b"\x01", b"\x02"), "refused 16 0 01 02")
# deep brackets and ifs, one that is open or closed too much; ifs deeper than 8, with an else that is one too many
wrong(H + "when " + "(" * 300 + a + ")" * 299 + " ^move_to A", PQ)
wrong(H + "when " + "(" * 300 + a + ")" * 300 + "^) move_to A", PQ)
DEEP_IF = "action: go " + f"if {a} then " * 20
wrong(H + DEEP_IF + "else " + "endif else " * 19 + "endif ^else", PQ)
wrong(H + DEEP_IF + "else ^else", PQ)
wrong(H + DEEP_IF + "else endif " * 10 + "^action: stop", PQ)
# 16 comes before every other number: an unknown name, a list that is not right, a limit, no room
wrong(H + "when $ANY$none in_state none move_to none ^none", (b"\x01", b"\x02", b"\x03"), 0, 0)

# ------------------------------------------------------------------------------------------------------------------------------ 17: names

SMALL_TEXT = "class: $FWPART_$TOP$X state: A"
# lists: part records, ill-formed names, names twice
for at in range(3):
    width = 36 if at == 2 else 32
    behind = bytes(4) if at == 2 else b""

    def one_list(b):
        return tuple(b if i == at else PQ[0] if i == 0 and at == 2 else b"" for i in range(3))

    for name in [bytes(32), b"x" * 32, b"\x00x".ljust(32, b"\x00"), b"x\x00y".ljust(32, b"\x00"), b"x-y".ljust(32, b"\x00"), b"x ".ljust(32, b"\x00"),
                 b"when".ljust(32, b"\x00"), b"ANY".ljust(32, b"\x00"), b"class:".ljust(32, b"\x00"), b"\xc3\xa9".ljust(32, b"\x00"), b"FwCHILDREN".ljust(32, b"\x00")]:
        unread(17, SMALL_TEXT, one_list(name + u32(1)[:len(behind)]), 40, 40)
    good = record("fine") + u32(1)[:len(behind)]
    unread(17, SMALL_TEXT, one_list(good[:width - 1]), 40, 40)
    unread(17, SMALL_TEXT, one_list(good + b"\x00"), 40, 40)
    unread(17, SMALL_TEXT, one_list(b"\x00"), 40, 40)
    unread(17, SMALL_TEXT, one_list(good + good), 40, 40)
    unread(17, SMALL_TEXT, one_list(good + record("other") + u32(2)[:len(behind)] + good), 40, 40)
    reads(SMALL_TEXT, one_list(good + record("finer") + u32(2)[:len(behind)]), sheet([klass(0), klass(1)] if at == 2 else [], [], [([], [])]), "A")
    reads(SMALL_TEXT, one_list(record(LONG) + u32(1)[:len(behind)]), sheet([klass(0)] if at == 2 else [], [], [([], [])]), "A")
# a set bit without a name
unread(17, SMALL_TEXT, (named("P"), b"", kin(("K", 2))))
unread(17, SMALL_TEXT, (named("P", "Q"), b"", kin(("K", names(0, 31)))))
unread(17, SMALL_TEXT, (b"", b"", kin(("K", 1))))
# names of the text that are not known: child state, class, command, own state
for text in [
        f"when {a} or $ANY$K in_state R move_to A", "when $ANY$K in_state {P,R} move_to A", "when $ANY$K in_state go move_to A", "when $ANY$M in_state P move_to A",
        "when $ANY$P in_state P move_to A", f"when {a} move_to B", f"when {a} move_to a", f"when {a} stay_in_state B", f"when {a} do go", f"when {a} do halt action: go",
        f"when {a} do stop action: go state: B action: stop", "action: halt", "action: P", "action: go do halt $ALL$K", "action: go do stop $ALL$M", "action: go do A $ALL$K",
        "action: go move_to B", f"action: go if {a} then move_to B endif", "action: go if $ANY$X in_state P then endif", "action: go if $ANY$K in_state A then endif",
        f"action: go if {a} then else do go $ALL$A endif", "state: A", "state: B state: C state: B", "action: go action: go", "action: go action: stop action: go",
        "state: B action: go do stop $ALL$K action: go"]:
    unread(17, H + text, PQ)
# the same command in two states, a state that stands before or behind, one word in all the lists
reads(H + "action: go state: B action: go move_to A", PQ, sheet(KL, [], [([], [(0, [])]), ([], [(0, go(0))])]), "A", "B")
reads(H.replace("state: A", "state: W") + "when $ANY$W in_state W move_to W action: W do W $ALL$W", (named("W"), named("W"), kin(("W", 1))),
      sheet([klass(0)], [atom(ANY_IN, 0, 0)], [([when(0, MOVE_TO, 0)], [(0, send(0, 0))])]), "W")

# ----------------------------------------------------------------------------------------------------------------------------- 18: limits


def few(n, letter="n"):
    return named(*["%s%d" % (letter, i) for i in range(n)])


def limited(text, lists, s, *own):
    """The text is read, in buffers that just suffice."""
    READ_SHEETS.append((lists, s, own))
    t = named(*own)
    case(read(text, lists, ROOM[:len(s)], TABLE[:len(t)]), "read %d %d %s %s" % (len(s), len(own), s.hex(), t.hex()))


unread(18, SMALL_TEXT, (few(33), b"", b""))
unread(18, SMALL_TEXT, (few(1000), b"", b""))
unread(18, SMALL_TEXT, (b"", few(65), b""))
unread(18, SMALL_TEXT, (named("P"), b"", kin(*[("k%d" % k, 1) for k in range(9)])))
unread(18, SMALL_TEXT, (named("P"), b"", kin(("K", 0))))
unread(18, SMALL_TEXT, (named("P"), b"", kin(("K", 1), ("L", 0))))
OWN32 = ["s%d" % q for q in range(32)]
limited("class: $FWPART_$TOP$X " + " ".join("state:" + q for q in OWN32), PQ, sheet(KL, [], [([], [])] * 32), *OWN32)
unread(18, "class: $FWPART_$TOP$X " + " ".join("state: s%d" % q for q in range(33)), PQ)
unread(18, "class: $FWPART_$TOP$X " + " ".join("state: s%d" % q for q in range(300)), PQ)
# 17 behind the 33rd state comes before 18
unread(17, "class: $FWPART_$TOP$X " + " ".join("state: s%d" % q for q in range(40)) + " state: s39", PQ)
unread(17, "class: $FWPART_$TOP$X " + " ".join("state: s%d" % q for q in range(40)) + " action: go move_to s40", PQ)
unread(18, "class: $FWPART_$TOP$X " + " ".join("state: s%d" % q for q in range(40)) + " action: go move_to s39", PQ)
limited(H + f"when {a} stay_in_state " * 256, PQ, sheet(KL, [ra] * 256, [([when(i, STAY) for i in range(256)], [])]), "A")
unread(18, H + f"when {a} stay_in_state " * 257, PQ)
limited("class: $FWPART_$TOP$X" + "".join(" state: s%d" % q + "".join(" action: c%d" % m for m in range(64)) for q in range(4)), MANY,
        sheet(MANY_K, [], [([], [(m, []) for m in range(64)])] * 4), "s0", "s1", "s2", "s3")
unread(18, "class: $FWPART_$TOP$X" + "".join(" state: s%d" % q + "".join(" action: c%d" % m for m in range(64)) for q in range(4)) + " state: Z action: c0", MANY)
limited(H + "action: go " + "move_to A " * 1024, PQ, sheet(KL, [], [([], [(0, go(0) * 1024)])]), "A")
unread(18, H + "action: go " + "move_to A " * 1025, PQ)
limited(H + "action: go " + f"if {a} then do go $ALL$K endif " * 512, PQ,
        sheet(KL, [ra] * 512, [([], [(0, [r for i in range(512) for r in branch(i, send(0, 0))])])]), "A")
unread(18, H + "action: go " + f"if {a} then do go $ALL$K endif " * 512 + "action: stop move_to A", PQ)
limited(H + f"when {a} and {b} or not {c} move_to A " * 170 + f"when not not not {a} stay_in_state", PQ,
        sheet(KL, [OR, AND, ra, rb, NOT, rc] * 170 + [NOT, NOT, NOT, ra], [([when(6 * i, MOVE_TO, 0) for i in range(170)] + [when(1020, STAY)], [])]), "A")
unread(18, H + f"when {a} and {b} or not {c} move_to A " * 170 + f"when not not not not {a} stay_in_state", PQ)
# operators on one path: 16 and 17, of each kind; brackets are none
guarded("not " * 16 + a, *[NOT] * 16, ra)
unread(18, H + "when " + "not " * 17 + a + " move_to A", PQ)
guarded(f"{a} and " * 16 + b, *[AND] * 16, *[ra] * 16, rb)
unread(18, H + "when " + f"{a} and " * 17 + b + " move_to A", PQ)
guarded(f"{a} or (" * 16 + b + ")" * 16, *[OR, ra] * 16, rb)
unread(18, H + "when " + f"{a} or (" * 17 + b + ")" * 17 + " move_to A", PQ)
guarded("((" + f"{a} or (" * 16 + b + ")" * 16 + "))", *[OR, ra] * 16, rb)
guarded(f"{a} and " * 8 + "not " * 8 + b, *[AND] * 8, *[ra] * 8, *[NOT] * 8, rb)
guarded(f"{a} and " * 15 + "not " * 15 + b, *[AND] * 15, *[ra] * 15, *[NOT] * 15, rb)
unread(18, H + "when " + f"{a} and " * 15 + "not " * 16 + b + " move_to A", PQ)
# ifs: 8 and 9 deep, in then-parts and in else-parts
limited(H + "action: go " + f"if {a} then " * 8 + "move_to A " + "endif " * 8, PQ,
        sheet(KL, [ra] * 8, [([], [(0, [r for i in range(8) for r in branch(i, [b""] * (8 - i))[:1]] + go(0))])]), "A")
unread(18, H + "action: go " + f"if {a} then " * 9 + "move_to A " + "endif " * 9, PQ)
limited(H + "action: go " + f"if {a} then else " * 8 + "endif " * 8, PQ,
        sheet(KL, [ra] * 8, [([], [(0, [r for i in range(8) for r in branch(i, [], [b""] * (7 - i))[:1]])])]), "A")
unread(18, H + "action: go " + f"if {a} then else " * 9 + "endif " * 9, PQ)
# 17 before 18 before 15
unread(17, H + "when " + "not " * 17 + "$ANY$M in_state P move_to A", PQ, 0, 0)
unread(17, H + "action: go " * 2, (few(33), named("go"), b""), 0, 0)
unread(18, H + "when " + "not " * 17 + a + " move_to A", PQ, 0, 0)
unread(18, SMALL_TEXT, (few(33), b"", b""), 0, 0)
unread(15, SMALL_TEXT, PQ, 0, 0)

# ------------------------------------------------------------------------------------------------------------------ class texts that are written


def write(s, own_name, own, lists, buffer):
    """The own name and the table of own states are bytes; the lists are child state names, commands and child classes."""
    return "write " + " ".join(hexed(b) for b in (s, own_name, own, *lists, buffer))


def writes(text, s, lists, own_name, *own, kept=3):
    """The class of the sheet s is written as this text, and so many bytes behind it are kept."""
    t, behind = text.encode(), b"\x5a" * kept
    case(write(s, record(own_name), named(*own), lists, b"\xa5" * len(t) + behind), "written %d %s" % (len(t), (t + behind).hex()))


def unwritten(number, s, own_name, own, lists, m=4):
    """The names, as bytes, or the sheet are refused, and the buffer of m bytes is as it was."""
    case(write(s, own_name, own, lists, ROOM[:m]), "refused %d %s" % (number, hexed(ROOM[:m])))


# sheet A; room that just suffices, one byte too few, none, more than enough
X_PRESS = record("PRESS")
assert len(PRESS) == 162
writes(PRESS, A, HEATERS, "PRESS", "READY", "HOLD")
writes(PRESS, A, HEATERS, "PRESS", "READY", "HOLD", kept=0)
writes(PRESS, A, HEATERS, "PRESS", "READY", "HOLD", kept=1000)
unwritten(15, A, X_PRESS, OWN, HEATERS, 161)
unwritten(15, A, X_PRESS, OWN, HEATERS, 1)
unwritten(15, A, X_PRESS, OWN, HEATERS, 0)
# one state and nothing else, with no list
writes("class: $FWPART_$TOP$X\n  state: A\n", SMALLEST, (b"", b"", b""), "X", "A")
writes("class: $FWPART_$TOP$X\n  state: A\n", SMALLEST, (b"", b"", b""), "X", "A", kept=0)
unwritten(15, SMALLEST, record("X"), record("A"), (b"", b"", b""), 32)
# document 000, Listing 1, byte for byte
writes("""class: $FWPART_$TOP$RPC
  state: ON
    when ( $ANY$FwCHILDREN in_state ERROR ) move_to ERROR
    action: RESET
      do OFF $ALL$FwCHILDREN
  state: ERROR
    when ( $ANY$FwCHILDREN in_state ON ) move_to ON
""", sheet([], [atom(ANY_IN, EVERYONE, 1), atom(ANY_IN, EVERYONE, 0)], [([when(0, MOVE_TO, 1)], [(0, send(1))]), ([when(1, MOVE_TO, 0)], [])]),
       (named("ON", "ERROR"), named("RESET", "OFF"), b""), "RPC", "ON", "ERROR")
# sheet C, whose when and if share a guard record: read back, each has its own
FURNACE = """class: $FWPART_$TOP$PRESS
  state: READY
    when ( $ANY$HEATER not_in_state HOT ) move_to HOLD
    action: c9
      do c4 $ALL$FwCHILDREN
      if ( $ALL$HEATER in_state HOT ) then
        move_to HOLD
      endif
      do c5 $ALL$FwCHILDREN
  state: HOLD
    when ( $ALL$HEATER in_state HOT ) move_to READY
"""
FURNACES = (HEATERS[0], named(*["c%d" % m for m in range(10)]), HEATERS[2])
UNSHARED = sheet(
    [klass(0, 1, 2)], [atom(ANY_NOT_IN, 0, 1), atom(ALL_IN, 0, 1), atom(ALL_IN, 0, 1)],
    [([when(0, MOVE_TO, 1)], [(9, send(4) + branch(1, go(1)) + send(5))]), ([when(2, MOVE_TO, 0)], [])])
writes(FURNACE, C, FURNACES, "PRESS", "READY", "HOLD")
reads(FURNACE, FURNACES, UNSHARED, "READY", "HOLD")
writes(FURNACE, UNSHARED, FURNACES, "PRESS", "READY", "HOLD")
# sheet B: where the text of A has an ANY, it has an ALL
writes(PRESS.replace("$ANY$HEATER in_state", "$ALL$HEATER in_state"), B, HEATERS, "PRESS", "READY", "HOLD")
# document 002, Listing 1, with the four states that it does not show
writes("""class: $FWPART_$TOP$RPC_Chamber_CLASS
  state: OFF
    when ( ( $ANY$FwCHILDREN in_state ERROR ) or ( $ANY$FwCHILDREN in_state TRIPPED ) ) move_to ERROR
    when ( $ANY$RPC_HV in_state {RAMPING_UP, RAMPING_DOWN} ) move_to RAMPING
    when ( ( $ALL$RPC_LV in_state ON ) and ( $ALL$RPC_HV in_state STANDBY ) ) move_to STANDBY
    when ( ( $ALL$RPC_HV in_state ON ) and ( $ALL$RPC_LV in_state ON ) ) move_to ON
    when ( ( $ALL$FwCHILDREN in_state ON ) and ( $ALL$RPC_T in_state OK ) ) move_to ON
    action: STANDBY
      do STANDBY $ALL$RPC_HV
      do ON $ALL$RPC_LV
    action: OFF
      do OFF $ALL$FwCHILDREN
    action: ON
      do ON $ALL$FwCHILDREN
  state: ERROR
  state: RAMPING
  state: STANDBY
  state: ON
""", sheet(
    [klass(2, 3, 4, 5), klass(4), klass(6)],
    [OR, atom(ANY_IN, EVERYONE, 0), atom(ANY_IN, EVERYONE, 1), atom(ANY_IN, 0, 2, 3), AND, atom(ALL_IN, 1, 4), atom(ALL_IN, 0, 5), AND, atom(ALL_IN, 0, 4),
     atom(ALL_IN, 1, 4), AND, atom(ALL_IN, EVERYONE, 4), atom(ALL_IN, 2, 6)],
    [([when(0, MOVE_TO, 1), when(3, MOVE_TO, 2), when(4, MOVE_TO, 3), when(7, MOVE_TO, 4), when(10, MOVE_TO, 4)],
      [(0, send(0, 0) + send(2, 1)), (1, send(1)), (2, send(2))])] + [([], [])] * 4),
       CHAMBERS, "RPC_Chamber_CLASS", "OFF", "ERROR", "RAMPING", "STANDBY", "ON")
# Listing 2, inside a class
writes("""class: $FWPART_$TOP$C
  state: OFF
    action: STANDBY
      do STANDBY $ALL$RPC_HV
      do ON $ALL$RPC_LV
      if ( $ALL$RPC_LV in_state ON ) then
        do ON $ALL$RPC_HV
        if ( $ALL$RPC_HV in_state ON ) then
          move_to ON
        endif
      else
        do STANDBY $ALL$RPC_LV
        do STANDBY $ALL$RPC_HV
        do STANDBY $ALL$FwCHILDREN
      endif
  state: ON
""", sheet(
    [klass(0), klass(0)], [atom(ALL_IN, 1, 0), atom(ALL_IN, 0, 0)],
    [([], [(0, send(0, 0) + send(1, 1) + branch(0, send(1, 0) + branch(1, go(1)), send(0, 1) + send(0, 0) + send(0)))]), ([], [])]),
       (named("ON"), named("STANDBY", "ON"), kin(("RPC_HV", 1), ("RPC_LV", 1))), "C", "OFF", "ON")
# Listing 3, without its dots and with HVMIXED
writes("""class: $FWPART_$TOP$TkControlGroup
  state: ANALOG_ON_RED
    when ( $ANY$TkPowerGroup not_in_state DIGITAL_ON_RED ) move_to LVMIXED
  state: LVMIXED
    when ( $ANY$TkPowerGroup in_state {ON, HVMIXED} ) move_to HVMIXED
    when ( ( $ALL$FwCaenChannelCtrl in_state ON ) and ( $ALL$TkPowerGroup in_state ANALOG_ON_RED ) ) move_to ANALOG_ON_RED
  state: HVMIXED
""", GROUP, GROUPS, "TkControlGroup", "ANALOG_ON_RED", "LVMIXED", "HVMIXED")

# every referrer and every statement; a stay_in_state has the state that it stands in; an else where its part is not empty; statements
# behind a move_to
MANIFOLD = sheet(
    KL, [ra, rb, rc, NOT, ra, OR, ra, AND, rb, rc],
    [([when(0, STAY), when(1, MOVE_TO, 2), when(2, DO, 1), when(3, DO, 0), when(5, STAY), when(7, MOVE_TO, 0)],
      [(0, branch(6, send(1, 0) + branch(7, go(0)), send(0)) + go(1) + send(0, 1) + go(2)), (1, [])]),
     ([when(0, STAY)], []),
     ([], [(1, branch(0) + branch(1, go(0)) + branch(2, [], send(0, 1)) + branch(3, branch(0), branch(0, [], branch(1)))), (0, [])])])
writes("""class: $FWPART_$TOP$X
  state: A
    when ( $ANY$K in_state P ) stay_in_state A
    when ( $ANY$K in_state Q ) move_to C
    when ( $ALL$L not_in_state P ) do stop
    when ( not ( $ANY$K in_state P ) ) do go
    when ( ( $ANY$K in_state P ) or ( ( $ANY$K in_state Q ) and ( $ALL$L not_in_state P ) ) ) stay_in_state A
    when ( ( $ANY$K in_state Q ) and ( $ALL$L not_in_state P ) ) move_to A
    action: go
      if ( $ANY$K in_state P ) then
        do stop $ALL$K
        if ( ( $ANY$K in_state Q ) and ( $ALL$L not_in_state P ) ) then
          move_to A
        endif
      else
        do go $ALL$FwCHILDREN
      endif
      move_to B
      do go $ALL$L
      move_to C
    action: stop
  state: B
    when ( $ANY$K in_state P ) stay_in_state B
  state: C
    action: stop
      if ( $ANY$K in_state P ) then
      endif
      if ( $ANY$K in_state Q ) then
        move_to A
      endif
      if ( $ALL$L not_in_state P ) then
      else
        do go $ALL$L
      endif
      if ( not ( $ANY$K in_state P ) ) then
        if ( $ANY$K in_state P ) then
        endif
      else
        if ( $ANY$K in_state P ) then
        else
          if ( $ANY$K in_state Q ) then
          endif
        endif
      endif
    action: go
""", MANIFOLD, PQ, "X", "A", "B", "C")


def guard_written(guard, *records, lists=PQ, classes=KL):
    """A guard's text, and its records."""
    writes("class: $FWPART_$TOP$X\n  state: A\n    when %s move_to A\n" % guard, sheet(classes, records, [([when(0, MOVE_TO, 0)], [])]), lists, "X", "A")


# guards: brackets round every atom and every operator, however they bind
ta, tb, tc = "( $ANY$K in_state P )", "( $ANY$K in_state Q )", "( $ALL$L not_in_state P )"
guard_written(ta, ra)
guard_written(f"( ( {ta} and {tb} ) and {tc} )", AND, AND, ra, rb, rc)
guard_written(f"( {ta} and ( {tb} and {tc} ) )", AND, ra, AND, rb, rc)
guard_written(f"( ( {ta} or {tb} ) or {tc} )", OR, OR, ra, rb, rc)
guard_written(f"( {ta} or ( {tb} or {tc} ) )", OR, ra, OR, rb, rc)
guard_written(f"( {ta} or ( {tb} and {tc} ) )", OR, ra, AND, rb, rc)
guard_written(f"( ( {ta} or {tb} ) and {tc} )", AND, OR, ra, rb, rc)
guard_written(f"( not {tb} )", NOT, rb)
guard_written(f"( not ( not {tb} ) )", NOT, NOT, rb)
guard_written(f"( ( not {ta} ) and {tb} )", AND, NOT, ra, rb)
guard_written(f"( not ( {ta} and {tb} ) )", NOT, AND, ra, rb)
guard_written(f"( ( ( not {ta} ) and {tb} ) or {tc} )", OR, AND, NOT, ra, rb, rc)
guard_written("( not " * 16 + ta + " )" * 16, *[NOT] * 16, ra)
guard_written("( " * 16 + ta + f" and {tb} )" * 16, *[AND] * 16, ra, *[rb] * 16)
guard_written(f"( {ta} or " * 16 + tb + " )" * 16, *[OR, ra] * 16, rb)
# atoms: the four kinds, of a class and of all children
guard_written("( $ANY$K in_state P )", atom(0, 0, 0))
guard_written("( $ANY$K not_in_state P )", atom(1, 0, 0))
guard_written("( $ALL$K in_state P )", atom(2, 0, 0))
guard_written("( $ALL$K not_in_state P )", atom(3, 0, 0))
guard_written("( $ANY$FwCHILDREN in_state Q )", atom(0, EVERYONE, 1))
guard_written("( $ANY$FwCHILDREN not_in_state Q )", atom(1, EVERYONE, 1))
guard_written("( $ALL$FwCHILDREN in_state Q )", atom(2, EVERYONE, 1))
guard_written("( $ALL$FwCHILDREN not_in_state Q )", atom(3, EVERYONE, 1))
# sets of one name, of two, of all 32, in rising order, also with names that the class lacks
guard_written("( $ANY$L in_state {P, Q} )", atom(ANY_IN, 1, 1, 0))
guard_written("( $ALL$k7 in_state n31 )", atom(ALL_IN, 7, 31), lists=MANY, classes=MANY_K)
guard_written("( $ALL$k0 in_state {n0, n31} )", atom(ALL_IN, 0, 31, 0), lists=MANY, classes=MANY_K)
guard_written("( $ANY$k3 not_in_state {n9, n10, n11} )", atom(ANY_NOT_IN, 3, 10, 11, 9), lists=MANY, classes=MANY_K)
guard_written("( $ANY$FwCHILDREN in_state {%s} )" % ", ".join("n%d" % n for n in range(32)), atom(ANY_IN, EVERYONE, *range(32)), lists=MANY, classes=MANY_K)
guard_written("( $ANY$FwCHILDREN in_state {%s} )" % ", ".join("n%d" % n for n in range(31)), atom(ANY_IN, EVERYONE, *range(31)), lists=MANY, classes=MANY_K)
guard_written("( $ANY$FwCHILDREN in_state {%s} )" % ", ".join("n%d" % n for n in range(1, 32, 2)), atom(ANY_IN, EVERYONE, *range(1, 32, 2)), lists=MANY, classes=MANY_K)
# ifs 8 deep, in then-parts and in else-parts: two blanks more for each
DEEP_SHEETS = [[r for i in range(8) for r in branch(0, [b""] * (8 - i))[:1]] + go(0), [r for i in range(8) for r in branch(0, [], [b""] * (8 - i))[:1]] + go(0)]
for between, records in zip(["", "%selse\n"], DEEP_SHEETS):
    ahead = ["  " * level for level in range(3, 12)]
    writes("class: $FWPART_$TOP$X\n  state: A\n    action: go\n" + "".join(f"{i}if {ta} then\n" + (between and between % i) for i in ahead[:8]) + ahead[8] + "move_to A\n"
           + "".join(f"{i}endif\n" for i in reversed(ahead[:8])), sheet(KL, [ra], [([], [(0, records)])]), PQ, "X", "A")
# names of 31 characters, one word for all, an own name that is any other; lists with names that nothing uses
writes(f"class: $FWPART_$TOP${LONG}\n  state: {LONG}\n  state: 9\n  state: _\n", sheet(KL, [], [([], [])] * 3), PQ, LONG, LONG, "9", "_")
writes("class: $FWPART_$TOP$W\n  state: W\n    when ( $ANY$W in_state W ) move_to W\n    action: W\n      do W $ALL$W\n",
       sheet([klass(0)], [atom(ANY_IN, 0, 0)], [([when(0, MOVE_TO, 0)], [(0, send(0, 0))])]), (named("W"), named("W"), kin(("W", 1))), "W", "W")
writes("class: $FWPART_$TOP$X\n  state: A\n", SMALLEST, (few(32), few(64, "c"), b""), "X", "A")
for own_name in ["A", "P", "go", "K"]:
    writes(f"class: $FWPART_$TOP${own_name}\n  state: A\n", sheet(KL, [], [([], [])]), PQ, own_name, "A")
# 32 states; commands 0 and 63
writes("class: $FWPART_$TOP$X\n" + "".join(f"  state: s{q}\n    action: c63\n      do c0 $ALL$k7\n      move_to s{31 - q}\n" for q in range(32)),
       sheet(MANY_K, [], [([], [(63, send(0, 7) + go(31 - q))]) for q in range(32)]), MANY, "X", *OWN32)
# the longest sheet


def numbered(i, n):
    """The atom that is record n of the longest sheet, whose pattern is class i."""
    return "( %s$k%d %s n%d )" % (("$ANY", "$ALL")[n % 4 // 2], i, ("in_state", "not_in_state")[n % 2], n % 32)


writes("class: $FWPART_$TOP$X\n" + "".join(
    f"  state: s{q}\n" + "".join(f"    when {numbered(i, 8 * q + i)} move_to s{i}\n" for i in range(8))
    + "".join(f"    action: c{8 * i}\n      do c63 $ALL$k{i}\n      if {numbered(i, 1000 + i)} then\n        move_to s31\n      endif\n      do c0 $ALL$FwCHILDREN\n"
              for i in range(8)) for q in range(32)), LONGEST, (few(32), few(64, "c"), kin(*[("k%d" % k, 1 << k) for k in range(8)])), "X", *OWN32)

# ------------------------------------------------------------------------------------------------------------------ 19: guard records that are written


def used(records, places, ifs=()):
    """One state with a when for each place, and an action clause with an empty if for each of the others."""
    return sheet(KL, records, [([when(p, STAY) for p in places], [(0, [r for p in ifs for r in branch(p)])] if ifs else [])])


def used_text(guards, ifs=()):
    return ("class: $FWPART_$TOP$X\n  state: A\n" + "".join(f"    when {g} stay_in_state A\n" for g in guards)
            + ("    action: go\n" if ifs else "") + "".join(f"      if {g} then\n      endif\n" for g in ifs))


def full(depth):
    """A guard of 2 to the depth plus 1, less 1, records: its records, and its text."""
    if depth == 0:
        return [ra], ta
    records, text = full(depth - 1)
    return [AND] + records * 2, f"( {text} and {text} )"


X, OWN_A, AB = record("X"), record("A"), named("A", "B")
FOUR, T4 = [NOT, NOT, NOT, ra], f"( not ( not ( not {ta} ) ) )"
FULL, TF = full(7)
assert len(FULL) == 255
# a guard of 255 records four times, and one of 4: 1,024; with one of 5, 1,025
writes(used_text([TF] * 4 + [T4]), used(FULL + FOUR, [0] * 4 + [255]), PQ, "X", "A")
unwritten(19, used(FULL + [NOT] + FOUR, [0] * 4 + [255]), X, OWN_A, PQ)
# one of 4 records 256 times, and so with an if more
writes(used_text([T4] * 256), used(FOUR, [0] * 256), PQ, "X", "A")
unwritten(19, used(FOUR, [0] * 256, [3]), X, OWN_A, PQ)
# ifs alone: 1,024 of one record; 512 of two, and one of one more
writes(used_text([], [ta] * 1024), used([ra], [], [0] * 1024), PQ, "X", "A")
writes(used_text([], [f"( not {ta} )"] * 512), used([NOT, ra], [], [0] * 512), PQ, "X", "A")
unwritten(19, used([NOT, ra], [], [0] * 512 + [1]), X, OWN_A, PQ)
# in nested ifs and in other states too: 1,024, and one more
writes(f"""class: $FWPART_$TOP$X
  state: A
    when {TF} stay_in_state A
    when {TF} stay_in_state A
  state: B
    when {TF} stay_in_state B
    action: go
      if {TF} then
        if {ta} then
        endif
        if {ta} then
        endif
      else
        if {ta} then
          if {ta} then
          endif
        endif
      endif
""", sheet(KL, FULL, [([when(0, STAY)] * 2, []), ([when(0, STAY)], [(0, branch(0, branch(254) * 2, branch(253, branch(254))))])]), PQ, "X", "A", "B")
unwritten(19, sheet(KL, FULL, [([when(0, STAY)] * 2, []), ([when(0, STAY)], [(0, branch(0, branch(254) * 2, branch(253, branch(254), branch(254))))])]), X, AB, PQ)
# 1,024 records that are used once each; one of them a second time
writes(used_text([T4] * 256), used(FOUR * 256, range(0, 1024, 4)), PQ, "X", "A")
unwritten(19, used(FOUR * 256, range(0, 1024, 4), [1023]), X, OWN_A, PQ)
# records that nothing uses are not counted, and not written
writes(used_text([ta]), used([ra] * 1024, [1023]), PQ, "X", "A")
writes(used_text([T4]), used(FULL * 4 + FOUR, [1020]), PQ, "X", "A")
writes("class: $FWPART_$TOP$X\n  state: A\n", with_guards(*[NOT] * 1024), (PQ[0], b"", kin(("K", 3))), "X", "A")
# a guard that begins inside another
writes(used_text([T4, f"( not ( not {ta} ) )", f"( not {ta} )", ta]), used(FOUR, [0, 1, 2, 3]), PQ, "X", "A")

# ------------------------------------------------------------------------------------------------------------------ 17: the names of a text to be written

ALIKE = sheet(KL, [ra], [([when(0, MOVE_TO, 1)], [(1, send(0, 1))]), ([], [])])
ALIKE_TEXT = "class: $FWPART_$TOP$X\n  state: A\n    when ( $ANY$K in_state P ) move_to B\n    action: stop\n      do go $ALL$L\n  state: B\n"
writes(ALIKE_TEXT, ALIKE, PQ, "X", "A", "B")
ILL = [bytes(32), b"x" * 32, b"\x00x".ljust(32, b"\x00"), b"x\x00y".ljust(32, b"\x00"), b"x-y".ljust(32, b"\x00"), b"x ".ljust(32, b"\x00"), b"$x".ljust(32, b"\x00"),
       b"state".ljust(32, b"\x00"), b"TOP".ljust(32, b"\x00"), b"action:".ljust(32, b"\x00"), b"\xc3\xa9".ljust(32, b"\x00"), b"FwCHILDREN".ljust(32, b"\x00")]
# the own name: one record, well formed
for own_name in ILL + [b"", b"X", record("X")[:31], record("X") + b"\x00", record("X") * 2, record("X") + record("Y")]:
    unwritten(17, ALIKE, own_name, AB, PQ)
# the table: as many records as states, well formed, no name twice
for own in [record("A") + n for n in ILL] + [n + record("B") for n in ILL] + [
        b"", named("A"), named("A", "B", "C"), named("A", "A"), AB[:63], AB + b"\x00", AB + bytes(32), named("A", "B") * 2]:
    unwritten(17, ALIKE, X, own, PQ)
writes(ALIKE_TEXT.replace("A\n", "a\n", 1), ALIKE, PQ, "X", "a", "B")
# each list: part records, an ill-formed name, a name twice, used or not
for at in range(3):
    extra = u32(1) if at == 2 else b""

    def listed(b):
        return tuple(b if i == at else PQ[i] for i in range(3))

    for name in ILL:
        unwritten(17, ALIKE, X, AB, listed(PQ[at] + name + extra))
        unwritten(17, ALIKE, X, AB, listed(name + extra + PQ[at][32 + len(extra):]))
    unwritten(17, ALIKE, X, AB, listed(PQ[at][:-1]))
    unwritten(17, ALIKE, X, AB, listed(PQ[at] + b"\x00"))
    unwritten(17, ALIKE, X, AB, listed(PQ[at] + PQ[at]))
    unwritten(17, ALIKE, X, AB, listed(PQ[at] + PQ[at][:32 + len(extra)]))
# a class's set bit without a name; exactly the sheet's classes, in their order, with their sets
unwritten(17, ALIKE, X, AB, (named("P"), PQ[1], PQ[2]))
unwritten(17, ALIKE, X, AB, (b"", PQ[1], PQ[2]))
for classes in [kin(("K", 3)), kin(("K", 3), ("L", 2), ("M", 1)), b"", kin(("K", 2), ("L", 3)), kin(("L", 2), ("K", 3)), kin(("K", 3), ("L", 3)), kin(("K", 1), ("L", 2)),
                kin(("K", 3), ("L", 0)), kin(("K", 3), ("L", names(1, 31))), kin(("K", 7), ("L", 2))]:
    unwritten(17, ALIKE, X, AB, (named("P", "Q", "R"), PQ[1], classes))
unwritten(17, SMALLEST, X, OWN_A, (named("P"), b"", kin(("K", 1))))
writes(ALIKE_TEXT, ALIKE, (named("P", "Q", "R"), named("go", "stop", "more"), PQ[2]), "X", "A", "B")
writes(ALIKE_TEXT.replace("$L", "$K_").replace("$K ", "$L_ "), ALIKE, (PQ[0], PQ[1], kin(("L_", 3), ("K_", 2))), "X", "A", "B")
# over 32 child state names, over 64 commands
unwritten(17, SMALLEST, X, OWN_A, (few(33), b"", b""))
unwritten(17, SMALLEST, X, OWN_A, (few(1000), b"", b""))
unwritten(17, SMALLEST, X, OWN_A, (b"", few(65, "c"), b""))
unwritten(17, SMALLEST, X, OWN_A, (b"", few(1000, "c"), b""))
unwritten(17, SMALLEST, X, OWN_A, (b"", b"", kin(*[("k%d" % k, 1) for k in range(9)])))
# a command without a name: of an action clause, of a do, of a do in each part of an if, behind a move_to
ONLY = (named("P", "Q"), named("go"), PQ[2])
for actions in [[(1, [])], [(0, []), (1, [])], [(0, send(1))], [(0, branch(0, send(1)))], [(0, branch(0, [], send(1)))], [(0, branch(0, branch(0, [], go(0) + send(1))))],
                [(63, [])], [(0, send(0) + send(63))], [(0, go(0) + send(2))]]:
    unwritten(17, sheet(KL, [ra], [([], actions)]), X, OWN_A, ONLY)
    unwritten(17, sheet(KL, [ra], [([], [])] * 2 + [([], actions)]), X, named("A", "B", "C"), ONLY)
writes("class: $FWPART_$TOP$X\n  state: A\n    when ( $ANY$K in_state P ) do go\n    action: go\n", sheet(KL, [ra], [([when(0, DO, 0)], [(0, [])])]), ONLY, "X", "A")
unwritten(17, sheet([], [], [([], [(0, [])])]), X, OWN_A, (b"", b"", b""))
# a set bit without a name: in the guard of a when, of an if, at an operand, in the set of all children
for records in [[atom(ANY_IN, 0, 2)], [atom(ANY_IN, 0, 0, 1, 2)], [atom(ANY_IN, EVERYONE, 31)], [AND, ra, atom(ALL_IN, 1, 0, 2)], [NOT, OR, atom(ALL_NOT_IN, 1, 2), ra]]:
    unwritten(17, used(records, [0]), X, OWN_A, PQ)
    unwritten(17, used(records, [], [0]), X, OWN_A, PQ)
    unwritten(17, used([ra] + records, [0], [0, 0, 1]), X, OWN_A, PQ)
    unwritten(17, sheet(KL, [rb] + records, [([], []), ([], [(1, branch(0, [], branch(0, branch(1))))])]), X, AB, PQ)
    # not in a record that nothing uses
    writes(used_text([tb]), used([rb] + records, [0]), PQ, "X", "A")
    writes(used_text([tb]), used(records + [rb], [len(records)]), PQ, "X", "A")
# an operator that nothing uses, of whose operands one is used
writes(used_text([ta]), used([AND, atom(ANY_IN, 0, 2), ra], [2]), PQ, "X", "A")
# no list of names is needed where no set is written and no class is there
writes("class: $FWPART_$TOP$X\n  state: A\n    action: go\n      move_to A\n", sheet([], [atom(ANY_IN, EVERYONE, 5)], [([], [(0, go(0))])]), (b"", named("go"), b""), "X", "A")

# ------------------------------------------------------------------------------------------------------------------ a text to be written: the order of the refusals

# each of the sheet's own refusals, before 17, 19 and 15
SHEETS_REFUSED = [
    (1, b""), (1, SMALLEST[:23]), (1, LONGEST + b"\x00"), (2, A[:59]), (3, faulty(F3, F4, F5, F6, F7, F8, F9)), (4, faulty(F4, F5, F6, F7, F8, F9)), (5, faulty(F5, F6, F7, F8, F9)),
    (6, faulty(F6, F7, F8, F9)), (7, faulty(F7, F8, F9)), (8, faulty(F8, F9)), (9, faulty(F9))]
FAULTY = (named("P", "Q"), named("go"), kin(("K", 1), ("L", 2)))
for number, s in SHEETS_REFUSED:
    unwritten(number, s, X, AB, FAULTY, 400)
    unwritten(number, s, b"", b"", (b"\x01", b"\x02", b"\x03"), 0)
writes("""class: $FWPART_$TOP$X
  state: A
    when ( $ANY$FwCHILDREN in_state P ) stay_in_state A
    action: go
      do go $ALL$K
  state: B
    when ( $ANY$FwCHILDREN in_state P ) stay_in_state B
    action: go
      do go $ALL$FwCHILDREN
""", faulty(), FAULTY, "X", "A", "B")
# 17 before 19 before 15
OVER = used(FOUR, [0] * 256, [3])
unwritten(17, OVER, X, OWN_A, (PQ[0], b"", PQ[2]))
unwritten(17, OVER, b"", OWN_A, PQ, 0)
unwritten(17, OVER, X, OWN_A, (PQ[0], named("go", "go"), PQ[2]), 0)
unwritten(17, used([NOT, NOT, NOT, atom(ANY_IN, 0, 2)], [0] * 256, [3]), X, OWN_A, PQ, 0)
unwritten(17, ALIKE, X, named("A"), PQ, 0)
unwritten(19, OVER, X, OWN_A, PQ, 0)
unwritten(19, OVER, X, OWN_A, PQ, 40000)
unwritten(15, used(FOUR, [0] * 256), X, OWN_A, PQ, 0)
unwritten(15, ALIKE, X, AB, PQ, 0)
unwritten(15, ALIKE, X, AB, PQ, len(ALIKE_TEXT) - 1)

# ------------------------------------------------------------------------------------------------------------------ texts written and read


def parts(s):
    """The records of each body of a sheet."""
    starts = [(s[4 * i] + 256 * s[4 * i + 1], s[4 * i + 2] + 256 * s[4 * i + 3]) for i in range(6)]
    return [[s[at:at + size] for at in range(start, start + length, size)] for (start, length), size in zip(starts, (4, 4, 4, 8, 4, 8))]


def spelt(s, lists, own_name, *own):
    """The text of a sheet, record by record."""
    _, states, whens, guards, actions, statements = parts(s)
    name, command, kind = ([b[i:i + 32].rstrip(b"\x00").decode() for i in range(0, len(b), size)] for b, size in zip(lists, (32, 32, 36)))
    lines, whens, actions, statements, at = ["class: $FWPART_$TOP$" + own_name], iter(whens), iter(actions), iter(statements), 0

    def relatives(pattern):
        return "FwCHILDREN" if pattern == EVERYONE else kind[pattern]

    def guard():
        nonlocal at
        r, at = guards[at], at + 1
        if r[0] == 6:
            return "( not " + guard() + " )"
        if r[0] > 3:
            return "( " + guard() + (" and " if r[0] == 4 else " or ") + guard() + " )"
        members = [name[n] for n in range(32) if r[4 + n // 8] >> n % 8 & 1]
        members = members[0] if len(members) == 1 else "{" + ", ".join(members) + "}"
        return "( " + ("$ANY$" if r[0] < 2 else "$ALL$") + relatives(r[1]) + (" not_in_state " if r[0] % 2 else " in_state ") + members + " )"

    def guard_from(low, high):
        nonlocal at
        at = low + 256 * high
        return guard()

    def body(count, level):
        while count:
            r, count = next(statements), count - 1
            if r[0] == 0:
                lines.append("  " * level + "do " + command[r[1]] + " $ALL$" + relatives(r[2]))
            elif r[0] == 1:
                lines.append("  " * level + "move_to " + own[r[1]])
            else:
                then, other = r[4] + 256 * r[5], r[6] + 256 * r[7]
                lines.append("  " * level + "if " + guard_from(r[2], r[3]) + " then")
                body(then, level + 1)
                if other:
                    lines.append("  " * level + "else")
                    body(other, level + 1)
                lines.append("  " * level + "endif")
                count -= then + other

    for q, r in enumerate(states):
        lines.append("  state: " + own[q])
        mine, clauses = [next(whens) for _ in range(r[0] + 256 * r[1])], [next(actions) for _ in range(r[2] + 256 * r[3])]
        for w in mine:
            referrer = ["move_to " + own[w[3]] if w[2] == MOVE_TO else "", "do " + command[clauses[w[3]][0]] if w[2] == DO else "", "stay_in_state " + own[q]][w[2]]
            lines.append("    when " + guard_from(w[0], w[1]) + " " + referrer)
        for clause in clauses:
            lines.append("    action: " + command[clause[0]])
            body(clause[2] + 256 * clause[3], 3)
    return "\n".join(lines) + "\n"


# every sheet that a text above was read as is written, and its text read as that sheet, byte for byte
assert spelt(A, HEATERS, "PRESS", "READY", "HOLD") == PRESS and spelt(C, FURNACES, "PRESS", "READY", "HOLD") == FURNACE and spelt(ALIKE, PQ, "X", "A", "B") == ALIKE_TEXT
for lists, s, own in READ_SHEETS:
    text = spelt(s, lists, "X", *own)
    writes(text, s, lists, "X", *own, kept=1)
    case(read(text, lists, ROOM[:len(s)], TABLE[:32 * len(own)]), "read %d %d %s %s" % (len(s), len(own), s.hex(), named(*own).hex()))

# --------------------------------------------------------------------------------------------------------------------------- lines that are no questions

for line in [
        "", " ", "judge", "judge ", "judge  00", "judge 00 ", " judge 00", "judge 00 00", "judges 00", "judg 00", "Judge 00", "judge 0", "judge 000",
        "judge 0G", "judge 0A", "judge 0x00", "judge --", "judge -0", "judge 00-", "judge 00\r", "judge\t00", "judge /0", "judge 0:", "judge 0`", "judge g0",
        "probe 00 -", "probe 00 - 0 0", "probe 00 -  0", "probe 00 - 256", "probe 00 - 1000", "probe 00 - 00", "probe 00 - 01", "probe 00 - 007", "probe 00 - -1",
        "probe 00 - +1", "probe 00 - 1a", "probe 00 - a", "probe 00 - ", "probe 00  0", "probe  - 0", "probe 00 0 0", "probe 0 - 0", "probe 00 - 999",
        "probe 00 - 0/", "probe 00 - 2:", "probe 00 - 300", "probe 00 - 18446744073709551616", "phase 00 -", "phase 00 - 0 0", "phase 00 - x -", "phase zz - 0 -",
        "phase 00 - 0", "phase - - 0", "phase 00 00 100", "phase 00 - 99", "phase " + SETTLING.hex() + " 0000 0", "phase 00 - 0 - -", "phase 00 - 0 ", "phase 00 - 0  -",
        "phase 00 - 256 -", "phase 00 - 00 -", "phase 00 - - -", "phase 00 0 0 -", "phase 0 - 0 -", "phase 00 - 0 A0", "phase 00 - 0 a", "phase 00 - 0 --", "phase  - 0 -",
        "Phase 00 - 0 -", "phases 00 - 0 -", "phas 00 - 0 -",
        "command 00 - 0 0", "command 00 - 0 0 - -", "command 00 - 256 0 -", "command 00 - 0 256 -", "command 00 - 0 0 0", "command 00 - 0 0 ", "command 00 - 0 00 -",
        "command 00 0 0 0 -", "command 0 - 0 0 -", "loop 00 0", "loop 00 0 - -", "loop 00 256 -", "loop 00 - -", "loop 00 0 0", "loop x 0 -", "loop 00 0  ", "free 0", "accepted",
        "read", "read -", "read - - - - -", "read - - - - - - -", "read - - - - -  ", "read  - - - - - -", "read - - - - - ", "read - - - - - 0", "read 0 - - - - -",
        "read - 0g - - - -", "read - - x - - -", "read - - - 0 - -", "read - - - - A0 -", "read - - - - - --", "Read - - - - - -", "reads - - - - - -", "rea - - - - - -",
        "write", "write -", "write - - - - - -", "write - - - - - - - -", "write - - - - - -  ", "write  - - - - - - -", "write - - - - - - ", "write - - - - - - 0",
        "write 0 - - - - - -", "write - 0g - - - - -", "write - - x - - - -", "write - - - 0 - - -", "write - - - - A0 - -", "write - - - - - -- -", "write - - - - - - --",
        "Write - - - - - - -", "writes - - - - - - -", "writ - - - - - - -", "written 0 -"]:
    case(line, "bad line")
# the same forms, right
for line, answer in [
        ("judge 00", "refused 1"), ("judge -", "refused 1"), ("judge 0123456789abcdef", "refused 1"), ("probe 00 - 0", "refused 1"), ("probe 00 - 255", "refused 1"),
        ("probe - - 10", "refused 1"), ("phase 00 00 100 -", "refused 1 -"), ("phase 00 - 99 0123456789abcdef", "refused 1 0123456789abcdef"), ("command - - 0 0 -", "refused 1 -"),
        ("command - 00 255 255 00ff", "refused 1 00ff"), ("loop - 0 -", "refused 1 -"), ("loop 00 255 0123456789abcdef", "refused 1 0123456789abcdef"),
        ("read - - - - - -", "refused 16 0 - -"), ("read 00 00 00 00 00ff ff00", "refused 16 0 00ff ff00"), ("read 20 - - - - 0123456789abcdef", "refused 16 1 - 0123456789abcdef"),
        ("write - - - - - - -", "refused 1 -"), ("write 00 00 00 00 00 00 00ff", "refused 1 00ff"), ("write - 00 - 00 - 00 0123456789abcdef", "refused 1 0123456789abcdef")]:
    case(line, answer)
# a line of 1,048,576 bytes is read, one of 1,048,577 is not, and the line behind it is answered
case("judge " + "ab" * 524285, "refused 1")
assert len(QUESTIONS[-1]) == 1048576
case("judge " + "ab" * 524285 + "c", "bad line")
case("judge " + SMALLEST.hex(), "accepted")
case("x" * 1100000, "bad line")
case(probe(SMALLEST, [], 0), "none")
# so with a class text, whose guard stands in as many brackets as the line holds
DEEP_LISTS = (named("P"), named("go"), kin(("K", 1)))
DEEP_SHEET = sheet([klass(0)], [atom(ANY_IN, 0, 0)], [([when(0, MOVE_TO, 0)], [])])
DEEP = H + "when " + "(" * 262000 + "$ANY$K in_state P" + ")" * 262000 + " move_to A"
limited(DEEP + " " * (524283 - len(DEEP) - 32 - 32 - 36 - len(DEEP_SHEET) - 32), DEEP_LISTS, DEEP_SHEET, "A")
assert len(QUESTIONS[-1]) == 1048576
# and with one that is written, into a buffer as long as the line allows
writes(PRESS, A, (HEATERS[0], named("go"), HEATERS[2]), "PRESS", "READY", "HOLD", kept=523800)
assert len(QUESTIONS[-1]) == 1048576

# --------------------------------------------------------------------------------------------------------------------------- the files


def main():
    to = os.path.join(os.path.dirname(os.path.abspath(__file__)), "..", "crates", "questions")
    with open(os.path.join(to, "stdin"), "w", newline="\n") as f:
        f.write("\n".join(QUESTIONS))    # the last line has no line feed, and is answered all the same
    with open(os.path.join(to, "stdout"), "w", newline="\n") as f:
        f.write("\n".join(ANSWERS) + "\n")
    print("%d cases" % len(QUESTIONS))


main()
