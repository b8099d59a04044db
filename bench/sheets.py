#!/usr/bin/env python3
"""Makes the class sheets that bench/run asks about.

    python3 bench/sheets.py DIR            the sheets whose answers are timed
    python3 bench/sheets.py DIR --small    60 small ones, whose answers are compared

Writes DIR/NAME.sheet for each, and DIR/INDEX: a line NAME, N and a description, with tabs between. The sheets are drawn from fixed
seeds, so they are the same everywhere. Each is checked against the rules of a sheet before it is written.
"""
import os
import sys

ANY_IN, ANY_NOT_IN, ALL_IN, ALL_NOT_IN, AND, OR, NOT = range(7)
MOVE_TO, DO, STAY = range(3)
EVERY_CHILD = 255
LIMITS = dict(classes=8, states=32, whens=256, guards=1024, actions=256, statements=1024)
RECORD_BYTES = dict(classes=4, states=4, whens=4, guards=8, actions=4, statements=8)


class Dice:
    """Numbers drawn from a seed (the generator splitmix64): the same on every machine and in every Python."""

    def __init__(self, seed):
        self.at = seed * 0x2545F4914F6CDD1D % 2**64

    def below(self, n):
        self.at = (self.at + 0x9E3779B97F4A7C15) % 2**64
        z = self.at
        z = (z ^ z >> 30) * 0xBF58476D1CE4E5B9 % 2**64
        z = (z ^ z >> 27) * 0x94D049BB133111EB % 2**64
        return (z ^ z >> 31) % n

    def between(self, low, high):
        return low + self.below(high - low + 1)

    def of(self, things):
        return things[self.below(len(things))]

    def chance(self, percent):
        return self.below(100) < percent


# ---- a sheet, as it is being made

class Sheet:
    """Child classes (name sets), guard records, and states with their when clauses (place, referrer, target) and action clauses
    (command, statements)."""

    def __init__(self, classes, states):
        self.classes = classes
        self.guards = []
        self.whens = [[] for _ in range(states)]
        self.actions = [[] for _ in range(states)]

    def guard(self, tree):
        """Puts a guard behind the records that there are. An atom is (kind, pattern, set), an operator (kind, operand, ..)."""
        place = len(self.guards)
        self.guards += records_of(tree)
        return place

    def when(self, state, tree, referrer, target=0):
        """Adds a when clause; `tree` may also be the place of a guard that is there."""
        place = tree if isinstance(tree, int) else self.guard(tree)
        self.whens[state].append((place, referrer, target))

    def action(self, state, statements):
        """Adds an action clause; its command is its number within the state, which is the answer."""
        self.actions[state].append((len(self.actions[state]), statements))
        return len(self.actions[state]) - 1

    def cells(self):
        """The names of each class, in the order of the bits of a configuration."""
        return [(c, n) for c, names in enumerate(self.classes) for n in range(32) if names >> n & 1]

    def bytes(self):
        states = list(zip(self.whens, self.actions))
        clauses = [clause for _, actions in states for clause in actions]
        bodies = [
            [u32(names) for names in self.classes],
            [u16(len(whens)) + u16(len(actions)) for whens, actions in states],
            [u16(place) + bytes([referrer, target]) for whens, _ in states for place, referrer, target in whens],
            self.guards,
            [bytes([command, 0]) + u16(len(statements)) for command, statements in clauses],
            [record for _, statements in clauses for record in statements],
        ]
        contents, start = b"", 24
        for body in map(b"".join, bodies):
            contents += u16(start) + u16(len(body))
            start += len(body)
        return contents + b"".join(b"".join(body) for body in bodies)


def u16(n):
    return n.to_bytes(2, "little")


def u32(n):
    return n.to_bytes(4, "little")


def records_of(tree):
    if tree[0] >= AND:
        return [bytes([tree[0]]) + bytes(7)] + [record for operand in tree[1:] for record in records_of(operand)]
    kind, pattern, names = tree
    return [bytes([kind, pattern, 0, 0]) + u32(names)]


def do(command, pattern):
    return bytes([0, command, pattern]) + bytes(5)


def move_to(state):
    return bytes([1, state]) + bytes(6)


def if_(place, then_part, else_part):
    return [bytes([2, 0]) + u16(place) + u16(len(then_part)) + u16(len(else_part))] + then_part + else_part


# ---- the check: what loopcheck would refuse is not written

class Refused(Exception):
    """A sheet that would be refused, and why."""


def need(fact, wrong):
    if not fact:
        raise Refused(wrong)


def parts_of(sheet):
    """The records of each body, found by the contents."""
    need(24 <= len(sheet) <= 18616, "%d bytes" % len(sheet))
    parts, expected = {}, 24
    for i, name in enumerate(LIMITS):
        start, length = (int.from_bytes(sheet[at:at + 2], "little") for at in (4 * i, 4 * i + 2))
        size = RECORD_BYTES[name]
        need(start == expected, "%s start at %d, not at %d" % (name, start, expected))
        need(length % size == 0 and length // size <= LIMITS[name], "%s have %d bytes" % (name, length))
        parts[name] = [sheet[at:at + size] for at in range(start, start + length, size)]
        expected = start + length
    need(expected == len(sheet), "the bodies end at %d, the sheet at %d" % (expected, len(sheet)))
    need(parts["states"], "there is no state")
    return parts


def guard_ends(guards):
    """For each record, where its guard ends and how many operators lie on its longest path; None where it runs past the end."""
    found = [None] * (len(guards) + 1)
    for i in reversed(range(len(guards))):
        end, deepest = i + 1, 0
        for _ in range({AND: 2, OR: 2, NOT: 1}.get(guards[i][0], 0)):
            operand = found[end] if end is not None else None
            end, deepest = (operand[0], max(deepest, 1 + operand[1])) if operand else (None, 0)
        found[i] = (end, deepest) if end is not None else None
    return found[:-1]


def readable(ends, place):
    return place < len(ends) and ends[place] is not None and ends[place][1] <= 16


def check(sheet):
    """Gives N. Raises Refused unless the sheet is accepted and N is at most 20."""
    def number(record, at):
        return record[at] + 256 * record[at + 1]

    parts = parts_of(sheet)
    classes = [int.from_bytes(r, "little") for r in parts["classes"]]
    need(all(classes), "a child class has no names")
    for body, at in (("whens", 0), ("actions", 2)):
        need(sum(number(r, at) for r in parts["states"]) == len(parts[body]), "the states' numbers of %s" % body)
    for i, r in enumerate(parts["guards"]):
        atom = r[0] < AND and (r[1] < len(classes) or r[1] == EVERY_CHILD) and not any(r[2:4]) and any(r[4:8])
        need(atom or AND <= r[0] <= NOT and not any(r[1:]), "guard record %d" % i)
    ends = guard_ends(parts["guards"])
    when, action, statement = 0, 0, 0
    for s, r in enumerate(parts["states"]):
        for w in range(when, when + number(r, 0)):
            clause = parts["whens"][w]
            need(readable(ends, number(clause, 0)), "the guard of when clause %d" % w)
            targets = {MOVE_TO: len(parts["states"]), DO: number(r, 2), STAY: 1}
            need(clause[3] < targets.get(clause[2], 0), "the target of when clause %d" % w)
        clauses = parts["actions"][action:action + number(r, 2)]
        need(len({c[0] for c in clauses}) == len(clauses), "state %d has a command twice" % s)
        for clause in clauses:
            need(clause[0] < 64 and clause[1] == 0, "an action clause of state %d" % s)
            need(statement + number(clause, 2) <= len(parts["statements"]), "too few statements")
            check_statements(parts, ends, statement, statement + number(clause, 2), 1)
            statement += number(clause, 2)
        when, action = when + number(r, 0), action + number(r, 2)
    need(statement == len(parts["statements"]), "too many statements")
    names = sum(bin(c).count("1") for c in classes)
    need(names <= 20, "%d names" % names)
    return names


def check_statements(parts, ends, at, behind, deep):
    while at < behind:
        r = parts["statements"][at]
        if r[0] == 2:
            place, then_part, else_part = (r[i] + 256 * r[i + 1] for i in (2, 4, 6))
            middle, last = at + 1 + then_part, at + 1 + then_part + else_part
            need(deep <= 8 and r[1] == 0 and last <= behind and readable(ends, place), "statement %d, an if" % at)
            check_statements(parts, ends, at + 1, middle, deep + 1)
            check_statements(parts, ends, middle, last, deep + 1)
            at = last
        else:
            pattern = r[2] < len(parts["classes"]) or r[2] == EVERY_CHILD
            is_do = r[0] == 0 and r[1] < 64 and pattern and not any(r[3:])
            is_move = r[0] == 1 and r[1] < len(parts["states"]) and not any(r[2:])
            need(is_do or is_move, "statement %d" % at)
            at += 1


# ---- guards

def joined(kind, trees):
    """The trees joined by one operator, in balance."""
    if len(trees) == 1:
        return trees[0]
    half = (len(trees) + 1) // 2
    return (kind, joined(kind, trees[:half]), joined(kind, trees[half:]))


def exactly(sheet, k):
    """True in configuration k and in no other. That a name occurs, and that it does not, is written in two ways."""
    facts = []
    for i, (c, n) in enumerate(sheet.cells()):
        occurs, lacks = (ANY_IN, c, 1 << n), (ALL_NOT_IN, c, 1 << n)
        fact, opposite = (occurs, lacks) if k >> i & 1 else (lacks, occurs)
        facts.append((NOT, opposite) if i % 3 == 1 else fact)
    return joined(AND, facts or [(ALL_IN, EVERY_CHILD, 1)])


def drawn_set(dice, names, percent):
    """Some of the names, at least one. Draws equally often for a small and a large class, so that what follows is the same."""
    drawn = sum(1 << n for n in range(32) if dice.chance(percent))
    one = dice.below(2**16)
    listed = [n for n in range(32) if names >> n & 1] or [one % 32]
    return drawn & names or 1 << listed[one % len(listed)]


def drawn_atom(dice, classes):
    """An atom: of a child class, or of all children; a name is in its set in three of ten cases."""
    every = 0
    for names in classes:
        every |= names
    pattern = dice.below(len(classes)) if classes and dice.chance(65) else EVERY_CHILD
    kind = dice.of([ANY_IN] * 4 + [ALL_IN] * 3 + [ANY_NOT_IN] * 2 + [ALL_NOT_IN])
    return (kind, pattern, drawn_set(dice, every if pattern == EVERY_CHILD else classes[pattern], 30))


def drawn_guard(dice, classes, atoms):
    """A guard of that many atoms."""
    if atoms == 1:
        tree = drawn_atom(dice, classes)
    else:
        left = dice.between(1, atoms - 1)
        tree = (dice.of([AND, AND, OR]), drawn_guard(dice, classes, left), drawn_guard(dice, classes, atoms - left))
    return (NOT, tree) if dice.chance(8) else tree


def sized_guard(dice, classes, records):
    """A guard of that many records, 1 to 5."""
    if records == 1:
        return drawn_atom(dice, classes)
    if records == 2 or records == 4 and dice.chance(30):
        return (NOT, sized_guard(dice, classes, records - 1))
    left = dice.between(1, records - 2)
    return (dice.of([AND, OR]), sized_guard(dice, classes, left), sized_guard(dice, classes, records - 1 - left))


def coin(dice, sheet):
    """An atom on one cell, true in half of all configurations; the cell is one of the first six, which differ within a block, or any."""
    c, n = dice.of([dice.of(sheet.cells()[:6]), dice.of(sheet.cells())])
    return (dice.of([ANY_IN, ALL_NOT_IN]), c, 1 << n)


# ---- statements

def ladder(dice, places, leaf):
    """Ifs inside one another, one for each guard's place; what `leaf` gives stands innermost and in half of the other parts."""
    if not places:
        return leaf()
    inner, other = ladder(dice, places[1:], leaf), leaf() if dice.chance(50) else []
    return if_(places[0], *dice.of([(inner, other), (other, inner)]))


def drawn_statements(dice, places, targets, deep=0):
    """Some statements, with ifs at most eight deep; a move_to leads to one of the targets."""
    statements = []
    for _ in range(dice.of([0, 1, 1, 2])):
        what = dice.below(100)
        if what < 45 and deep < 8:
            parts = [drawn_statements(dice, places, targets, deep + 1) for _ in range(2)]
            statements += if_(dice.of(places), *parts)
        elif what < 75 and targets:
            statements.append(move_to(dice.of(targets)))
        else:
            statements.append(do(dice.below(64), EVERY_CHILD))
    return statements


# ---- the sheets that are timed

def class_sets(counts):
    """Child classes with so many names each: two that they share (ERROR and ON, say), the others their own as far as they go."""
    sets, behind = [], 2
    for count in counts:
        names = [0, 1][:count] + [2 + (behind + i) % 30 for i in range(count - 2)]
        behind += max(count - 2, 0)
        sets.append(sum(1 << n for n in names))
    return sets


def usual(seed, counts):
    """A class like those of the CMS control software: 20 states, some 100 when clauses, guards of one to four atoms. Moves lead to
    later states only, so it is free."""
    dice, states = Dice(seed), 20
    sheet = Sheet(class_sets(counts), states)
    for s in range(states):
        for _ in range(dice.between(1, 2)):
            sheet.action(s, [do(dice.below(20), dice.of([EVERY_CHILD, dice.below(len(counts))])) for _ in range(dice.between(1, 3))])
        for _ in range(dice.between(4, 6)):
            tree = drawn_guard(dice, sheet.classes, dice.between(1, 4))
            known = [place for whens in sheet.whens for place, _, _ in whens]
            again, which, referrer, step = dice.chance(12), dice.below(1000), dice.below(100), dice.below(1000)
            guard = known[which % len(known)] if again and known else tree
            if referrer < 84 and s + 1 < states:
                sheet.when(s, guard, MOVE_TO, s + 1 + step % min(4, states - 1 - s))
            elif referrer < 92:
                sheet.when(s, guard, DO, step % len(sheet.actions[s]))
            else:
                sheet.when(s, guard, STAY)
    return sheet


def doing(seed, counts):
    """A usual class in which half of the moves are made by action clauses: each sends, then has ifs inside one another, eight deep, and
    behind them moves as the when clause did. All moves lead to later states, so it is free."""
    sheet, dice = usual(seed, counts), Dice(100 + seed)
    states = len(sheet.whens)
    for s, whens in enumerate(sheet.whens):
        def leaf():
            return [dice.of([do(dice.below(20), EVERY_CHILD), move_to(s + 1 + dice.below(min(4, states - 1 - s)))])]

        for i, (place, referrer, target) in enumerate(whens):
            if referrer == MOVE_TO and dice.chance(50):
                places = [sheet.guard(coin(dice, sheet)) for _ in range(8)]
                whens[i] = (place, DO, sheet.action(s, [do(i, 0)] + ladder(dice, places, leaf) + [move_to(target)]))
    return sheet


def doing_with_a_loop(seed, counts, k):
    """Such a class with a move back, from the last state to the one before, under an if that is true in configuration k alone."""
    sheet = doing(seed, counts)
    last = len(sheet.whens) - 1
    place, always = sheet.guard(exactly(sheet, k)), sheet.guard((ALL_IN, EVERY_CHILD, 2**32 - 1))
    back = sheet.action(last, [do(1, EVERY_CHILD)] + if_(place, [do(2, 0), move_to(last - 1)], []) + [do(3, EVERY_CHILD)])
    sheet.whens[last].insert(0, (always, DO, back))
    sheet.whens[last - 1].insert(0, (place, MOVE_TO, last))
    return sheet


def usual_with_a_loop(seed, counts, k):
    """A usual class with a move back, from the last state to the one before, in configuration k alone."""
    sheet = usual(seed, counts)
    last = len(sheet.whens) - 1
    place = sheet.guard(exactly(sheet, k))
    sheet.whens[last].insert(0, (place, MOVE_TO, last - 1))
    sheet.whens[last - 1].insert(0, (place, MOVE_TO, last))
    return sheet


def largest():
    """32 states, 256 when clauses, 1,024 guard records, all used; 256 action clauses, 1,024 statements, of which few are run. Where the
    sixth cell is not chosen, each state moves to the next: 31 moves, in every block that counts."""
    dice, states = Dice(31), 32
    sheet = Sheet(class_sets([10, 10]), states)
    of_class, name = sheet.cells()[5]
    sixth = (ANY_IN, of_class, 1 << name)
    for s in range(states):
        sizes = [3, 5, 4, 4, 3, 5, 5]
        for i, size in enumerate(sizes):
            beside = (AND, sixth, sized_guard(dice, sheet.classes, size - 2))
            if s == states - 1 or i == 0:
                sheet.when(s, beside, *dice.of([(STAY, 0), (DO, i)]))
            elif i < 3:
                sheet.when(s, beside, MOVE_TO, dice.between(min(s + 2, states - 1), states - 1))
            else:
                sheet.when(s, sized_guard(dice, sheet.classes, size), MOVE_TO, s + 1)
        names = drawn_set(dice, sheet.classes[1], 40)
        sure = (OR, (ANY_IN, 1, names), (ANY_NOT_IN, 1, names))
        sheet.when(s, sure, *((MOVE_TO, s + 1) if s + 1 < states else (STAY,)))
        for i in range(8):
            place, step = sheet.whens[s][i][0], dice.below(states)
            end = move_to(s + 1 + step % (states - 1 - s)) if s + 1 < states else do(step, 1)
            sheet.action(s, if_(place, [do(i, EVERY_CHILD)], [do(i + 8, 0)]) + [end])
    return sheet


def nested():
    """32 states, 256 when clauses, each of which runs an action clause of its own, 1,024 statements, 1,024 guard records, all used; in each
    state two action clauses have ifs inside one another, eight deep. Where the sixth cell is not chosen, each state moves to the
    next: 31 moves, in every block that counts."""
    dice, states = Dice(47), 32
    sheet = Sheet(class_sets([10, 10]), states)
    of_class, name = sheet.cells()[5]
    sixth = (ANY_IN, of_class, 1 << name)
    for s in range(states):
        def move(target):
            return move_to(target) if s + 1 < states else do(s, EVERY_CHILD)

        def deep():
            inner = if_(sheet.guard(sixth), [move(dice.between(min(s + 1, states - 1), states - 1))], [move(s + 1)])
            for _ in range(7):
                inner = if_(sheet.guard(coin(dice, sheet)), *dice.of([(inner, []), ([], inner)]))
            return inner + [move(s + 1)]

        for i in range(8):
            tree = coin(dice, sheet) if 3 <= i < 7 else (AND, coin(dice, sheet), coin(dice, sheet))
            sure = (OR, (ANY_IN, 1, 1 << i), (ANY_NOT_IN, 1, 1 << i))
            sheet.when(s, sure if i == 7 else tree, DO, i)
            sheet.action(s, deep() if i in (0, 3) else [do(i, EVERY_CHILD)] * (i < 6) + [move(s + 1)])
    return sheet


def rerun():
    """One state with 256 when clauses, all of which run its one action clause, of a thousand statements. Which clause is the first true one
    is told by eight cells, so that a block has 64 first true clauses. The clause's ifs are seldom true: few lanes leave it early."""
    dice = Dice(61)
    sheet = Sheet(class_sets([10, 10]), 2)
    names = [n for n in range(32) if sheet.classes[0] >> n & 1]
    for k in range(256):
        lacking = sum(1 << n for i, n in enumerate(names[:8]) if not k >> i & 1)
        sheet.when(0, (ALL_NOT_IN, 0, lacking or 1 << 31), DO, 0)  # no cell is chosen but those of k; where one of these is not, an earlier clause is true
    statements = []
    for i in range(256):
        names = [n for n in range(32) if sheet.classes[i % 2] >> n & 1]
        few = sum(1 << n for n in {dice.of(names), dice.of(names), dice.of(names)})
        statements += if_(sheet.guard((ALL_IN, i % 2, few)), [do(i % 64, EVERY_CHILD), move_to(1)], [do(i % 64, 0)])
    sheet.action(0, statements)
    return sheet


def shared():
    """256 clauses whose guards begin at few records of one guard, of a thousand records. An or of facts that are seldom true, or the
    not of an and of facts that seldom are not: nearly all of it has to be read before it is known to be false."""
    dice, states = Dice(17), 32
    sheet = Sheet(class_sets([10, 10]), states)

    def seldom(opposite):
        pattern = dice.below(2)
        names = [n for n in range(32) if sheet.classes[pattern] >> n & 1]
        few = sum(1 << n for n in {dice.of(names), dice.of(names), dice.of(names)})
        if dice.chance(50):
            return (ANY_NOT_IN if opposite else ALL_IN, pattern, few)
        return (ANY_IN if opposite else ALL_NOT_IN, pattern, sheet.classes[pattern] & ~few)

    def tree(atoms, level, opposite):
        if atoms == 1:
            return seldom(opposite)
        if level == 4 and dice.chance(50):
            return (NOT, tree(atoms, level + 1, not opposite))
        half = atoms // 2
        return (AND if opposite else OR, tree(half, level + 1, opposite), tree(atoms - half, level + 1, opposite))

    chain = tree(496, 0, False)
    for _ in range(5):
        chain = (OR, seldom(False), chain)
    sheet.guard(chain)
    ends = guard_ends(sheet.guards)
    begins = [i for i in range(len(ends)) if ends[i][0] - i >= 200]
    for s in range(states):
        for i in range(8):
            place = begins[(s + i) % len(begins)]
            if s + 1 < states and i != 3:
                sheet.when(s, place, MOVE_TO, s + 1 + dice.below(min(3, states - 1 - s)))
            else:
                sheet.when(s, place, STAY)
    return sheet


def timed_sheets():
    """(name, sheet, description), in the order of the table."""
    for n in (8, 12, 16, 20):
        yield "usual-%d" % n, usual(1, [n // 4] * 4), "a usual class, 20 states, 4 child classes, free"
    yield "usual-20b", usual(2, [8, 7, 5]), "another usual class, 20 states, 3 child classes, free"
    yield "largest-20", largest(), "the most states, clauses and guard records, free, 31 moves in every block"
    yield "shared-20", shared(), "256 clauses that share one guard of a thousand records, free"
    yield "last-20", usual_with_a_loop(3, [5] * 4, 2**20 - 1), "a usual class, a loop in the last configuration alone"
    yield "first-20", usual_with_a_loop(4, [4, 16], 0b011010), "a usual class, a loop in the first block"
    yield "doing-20", doing(5, [5] * 4), "a usual class, half of its moves made by action clauses with ifs eight deep, free"
    yield "nested-20", nested(), "the most clauses, guard records and statements, every move made by an action clause, free, 31 moves in every block"
    yield "rerun-20", rerun(), "256 clauses that run one action clause of a thousand statements, free"
    yield "do-last-20", doing_with_a_loop(6, [8, 7, 5], 2**20 - 1), "a class like doing-20, a loop in the last configuration alone, under an if"


# ---- the small sheets

KINDS = ("wild", "free", "longest", "one", "tail", "own")


def small_classes(dice, n):
    """Child classes with n names together."""
    classes, most = [], dice.of([1, 3, 6, 9])
    while n > 0 and len(classes) < 7:
        count = dice.between(1, min(n, most))
        names = 0
        while bin(names).count("1") < count:
            names |= 1 << dice.below(dice.of([12, 32]))
        classes.append(names)
        n -= count
    if n > 0:
        classes.append(sum(1 << i + 3 for i in range(n)))
    return classes


def small_guards(dice, sheet):
    """Guards in a row, of which clauses use some, whole or from a record in their middle. Gives the places where one can begin."""
    for _ in range(dice.between(1, 24)):
        sheet.guard(drawn_guard(dice, sheet.classes, dice.of([1, 1, 2, 2, 3, 4, 7])))
    for _ in range(dice.below(4)):
        kind, pattern, _ = drawn_atom(dice, sheet.classes)
        sheet.guard((kind, pattern, 1 + dice.below(2**32 - 1)))  # names that the class lacks, too
    ends = guard_ends(sheet.guards)
    return [i for i in range(len(ends)) if readable(ends, i)]


def reaching(dice, sure, target):
    """Statements that reach a move_to to the target where the guards at `sure` are true; where one is not, they send at most."""
    leaf = [[], [do(dice.below(64), EVERY_CHILD)]]
    statements = [move_to(target)] + dice.of(leaf)
    for _ in range(dice.of([0, 0, 1, 2, 8])):
        statements = if_(dice.of(sure), statements, dice.of(leaf))
    return dice.of(leaf) + statements


def step(dice, sheet, s, sure, target, at=0):
    """Puts a clause into state s at a place, which moves to the target where the guards at `sure` are true: itself, or by an action
    clause that it runs."""
    if dice.chance(50):
        clause = (dice.of(sure), MOVE_TO, target)
    else:
        clause = (dice.of(sure), DO, sheet.action(s, reaching(dice, sure, target)))
    sheet.whens[s].insert(at, clause)


def small_clauses(dice, sheet, kind, places):
    """Action clauses and when clauses of each state. Of a wild sheet they move anywhere, else to later states."""
    states = len(sheet.whens)
    for s in range(states):
        targets = list(range(states)) if kind == "wild" else list(range(s + 1, states))
        for _ in range(dice.below(3)):
            sheet.action(s, drawn_statements(dice, places, targets))
        for _ in range(dice.of([0, 1, 2, 3, 4, 7])):
            referrer, place = dice.below(100), dice.of(places)
            if referrer < 12:
                sheet.when(s, place, STAY)
            elif referrer < 50 and sheet.actions[s]:
                sheet.when(s, place, DO, dice.below(len(sheet.actions[s])))
            elif targets:
                sheet.when(s, place, MOVE_TO, dice.of(targets))


def small(dice, kind, n):
    """A small sheet of a kind, with n names; and what is known of it."""
    states = dice.of([1, 2, 3, 4, 6, 9, 16, 32]) if kind in ("wild", "free") else dice.of([2, 3, 5, 8, 20, 32])
    if kind in ("longest", "own") and dice.chance(20):
        states = 1
    sheet = Sheet(small_classes(dice, n), states)
    places = small_guards(dice, sheet)
    always = sheet.guard((ALL_IN, EVERY_CHILD, 2**32 - 1))
    cells = sheet.cells()
    k = dice.of(counting(cells, 64 if n > 6 else 0) or counting(cells, 0))
    only = sheet.guard(exactly(sheet, k))
    if dice.chance(30):
        sheet.guards += records_of((dice.of([AND, OR, NOT]),))  # an operator without operands, which nothing uses
    small_clauses(dice, sheet, kind, places)
    said, last = "", states - 1
    if kind == "longest":
        for s in range(last):
            step(dice, sheet, s, dice.of([[only], [only, always], [always]]), s + 1)
        said = ", %d moves" % last
    elif kind == "one":
        back = dice.below(states)
        for s in range(back, states):
            step(dice, sheet, s, [only], back if s == last else s + 1)
        said = ", a loop in configuration %d alone" % k
    elif kind == "tail":
        into = dice.between(states // 2, last)
        for s in range(states):
            step(dice, sheet, s, dice.of([[only], [only], [only, always], [always]]), dice.of([into, into, last]))
        said = ", moves into states of a loop"
    elif kind == "own":
        s = dice.below(states)
        step(dice, sheet, s, [dice.of([only] + places)], s, dice.below(len(sheet.whens[s]) + 1))
        said = ", a move to the own state"
    return sheet, "states: %d, child classes: %d%s" % (states, len(sheet.classes), said)


def counting(cells, least):
    """The configurations from `least` on in which every child class occurs."""
    classes = {c for c, _ in cells}
    return [k for k in range(least, 2 ** len(cells)) if {c for i, (c, _) in enumerate(cells) if k >> i & 1} == classes]


def small_sheets(seed=32):
    """(name, sheet, description): ten of each kind, N from 0 to 9; half of them have more than one block of 64 configurations."""
    for i, kind in enumerate(KINDS):
        for j, n in enumerate((0, 1 + i % 2, 3 + i % 2, 5, 6, 7, 7, 8, 8, 9)):
            yield ("%s-%d" % (kind, j),) + small(Dice(1000 * seed + 10 * i + j), kind, n)


# ---- the files

def write(folder, sheets):
    os.makedirs(folder, exist_ok=True)
    lines = []
    for name, sheet, description in sheets:
        content = sheet.bytes()
        try:
            n = check(content)
        except Refused as wrong:
            sys.exit("sheets.py: %s would be refused: %s" % (name, wrong))
        with open(os.path.join(folder, name + ".sheet"), "wb") as f:
            f.write(content)
        lines.append("%s\t%d\t%s\n" % (name, n, description))
    with open(os.path.join(folder, "INDEX"), "w") as f:
        f.writelines(lines)


def main(words):
    folders = [w for w in words if w != "--small"]
    if len(folders) != 1 or len(words) > 2 or folders[0].startswith("-"):
        sys.exit(__doc__)
    write(folders[0], small_sheets() if "--small" in words else timed_sheets())


if __name__ == "__main__":
    main(sys.argv[1:])
