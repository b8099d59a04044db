#!/usr/bin/env python3
"""A second reader of class files, for tests: written from docs/CLASSFILE.md and the sheet's format, it shares nothing with crates/.

    python3 tests/class_reader.py FILE.fsm           write the sheet to standard output, or say what is wrong
    python3 tests/class_reader.py --line FILE.fsm    the line that loopcheck has to print, by trying every child list

It reads by recursive descent and keeps the class as a tree. `line_of` never looks at a sheet.
"""
import re
import sys

CHILDREN = "FwCHILDREN"
RESERVED = set("class state action when move_to do stay_in_state if then else endif and or not in_state not_in_state FwCHILDREN FWPART_ TOP ANY ALL".split())
FIXED = RESERVED - set("class state action FWPART_ TOP ANY ALL".split()) | set("class: state: action: $FWPART_$TOP$ $ANY$ $ALL$ ( ) { } ,".split())
WORD = re.compile(rb"(?:class|state|action)(?![A-Za-z0-9_]):|[A-Za-z0-9_]+|\$FWPART_\$TOP\$|\$ANY\$|\$ALL\$|[^ \t\n\r]")
END = None


class Refused(Exception):
    """Why a class file is refused: number (0 for a head line), line, column (0 for a head line), what for."""

    def __init__(self, number, line, column, why=""):
        Exception.__init__(self, "%d at %d:%d %s" % (number, line, column, why))
        self.number, self.line, self.column, self.why = number, line, column, why


def is_name(word):
    return re.fullmatch(r"[A-Za-z0-9_]{1,31}", word) is not None and word not in RESERVED


# ---- the head

def read_head(data):
    """names, commands, classes (name, states), and where the class text starts."""
    names, commands, classes, at, line = [], [], [], 0, 0
    while True:
        line += 1

        def bad(why):
            return Refused(0, line, 0, why)

        stop = data.find(b"\n", at)
        words = [w.decode("latin-1") for w in re.findall(rb"[^ \t\r\n]+", data[at:len(data) if stop < 0 else stop])]
        if not words and stop >= 0:
            return names, commands, classes, stop + 1
        if not words:
            raise bad("no empty line")
        key, rest = words[0], words[1:]
        if key in ("names", "commands"):
            into, most = (names, 32) if key == "names" else (commands, 64)
            if into:
                raise bad("line twice")
            for w in rest:
                if not is_name(w):
                    raise bad("no name")
                if w in into:
                    raise bad("twice")
                if len(into) == most:
                    raise bad("too many")
                into.append(w)
        elif key == "class":
            if rest:
                if not is_name(rest[0]):
                    raise bad("no name")
                if rest[0] in [c for c, _ in classes]:
                    raise bad("twice")
                if len(classes) == 8:
                    raise bad("too many")
            for i, w in enumerate(rest[1:]):
                if w not in names:
                    raise bad("not listed")
                if w in rest[1:i + 1]:
                    raise bad("twice")
            if stop >= 0 and len(rest) < 2:
                raise bad("no class name" if not rest else "no states")
            if rest:
                classes.append((rest[0], rest[1:]))
        else:
            raise bad("unknown word")
        if stop < 0:
            raise bad("no empty line")
        at = stop + 1


# ---- the text, as a tree

class Reader:
    def __init__(self, data, start):
        self.data = data
        self.words = [(m.group().decode("latin-1"), m.start()) for m in WORD.finditer(data, start)]
        self.at = 0
        self.marks = []  # (what, name, place, state) of every name in the text, in order
        self.state = None
        self.sizes = []  # (what, place) of everything that is counted, in order
        self.deep_guards = []

    def place(self, n=None):
        n = self.at if n is None else n
        return self.words[n][1] if n < len(self.words) else len(self.data)

    def where(self, place):
        return self.data.count(b"\n", 0, place) + 1, place - (self.data.rfind(b"\n", 0, place) + 1) + 1

    def refuse(self, number, place, why=""):
        line, column = self.where(place)
        raise Refused(number, line, column, why)

    def next(self):
        return self.words[self.at][0] if self.at < len(self.words) else END

    def wrong(self):
        self.refuse(16, self.place())

    def take(self, *fixed):
        if self.next() is END or self.next() not in fixed:
            self.wrong()
        self.at += 1
        return self.words[self.at - 1][0]

    def name(self, what):
        word = self.next()
        if word is END or not is_name(word):
            self.wrong()
        self.marks.append((what, word, self.place(), self.state))
        self.at += 1
        return word

    def counted(self, what, n=None):
        self.sizes.append((what, self.place(n)))

    def text(self):
        self.take("class:")
        self.take("$FWPART_$TOP$")
        self.name("the class")
        states = []
        while True:
            if not states or self.next() == "state:":
                self.counted("states")
                self.take("state:")
                self.state = len(states)
                states.append(self.one_state())
            elif self.next() is END:
                return states
            else:
                self.wrong()

    def one_state(self):
        own, whens, actions = self.name("own"), [], []
        while self.next() == "when":
            self.counted("whens")
            self.at += 1
            guard, word = self.guard(), self.take("move_to", "do", "stay_in_state")
            if word == "stay_in_state":
                if self.next() is not END and is_name(self.next()):
                    self.name("state")
                whens.append((guard, (word, None)))
            else:
                whens.append((guard, (word, self.name("state" if word == "move_to" else "referred"))))
        while self.next() == "action:":
            self.counted("actions")
            self.at += 1
            command = self.name("action")
            actions.append((command, self.statements(0)))
        return own, whens, actions

    def statements(self, deep):
        out = []
        while self.next() in ("do", "move_to", "if"):
            self.counted("statements")
            place, word = self.place(), self.take("do", "move_to", "if")
            if word == "do":
                command = self.name("command")
                self.take("$ALL$")
                out.append(("do", command, self.kin()))
            elif word == "move_to":
                out.append(("move_to", self.name("state")))
            else:
                if deep == 8:
                    self.sizes.append(("ifs", place))
                guard = self.guard()
                self.take("then")
                then_part, else_part = self.statements(deep + 1), []
                if self.take("else", "endif") == "else":
                    else_part = self.statements(deep + 1)
                    self.take("endif")
                out.append(("if", guard, then_part, else_part))
        return out

    def kin(self):
        if self.next() == CHILDREN:
            self.at += 1
            return CHILDREN
        return self.name("class")

    def guard(self):
        place, tree = self.place(self.at - 1), self.either()
        if depth(tree) > 16:
            self.deep_guards.append(place)
        return tree

    def either(self):
        left = self.both()
        while self.next() == "or":
            self.counted("guard records")
            self.at += 1
            left = ("or", left, self.both())
        return left

    def both(self):
        left = self.unit()
        while self.next() == "and":
            self.counted("guard records")
            self.at += 1
            left = ("and", left, self.unit())
        return left

    def unit(self):
        nots = 0
        while self.next() == "not":
            self.counted("guard records")
            self.at += 1
            nots += 1
        if self.next() == "(":
            self.at += 1
            inner = self.either()
            self.take(")")
        else:
            quantifier = self.take("not", "(", "$ANY$", "$ALL$")
            kin = self.kin()
            self.counted("guard records")
            side = self.take("in_state", "not_in_state")
            inner = (quantifier.strip("$"), side, kin, self.set())
        for _ in range(nots):
            inner = ("not", inner)
        return inner

    def set(self):
        if self.next() != "{":
            return [self.name("child")]
        self.at += 1
        names = [self.name("child")]
        while self.take(",", "}") == ",":
            names.append(self.name("child"))
        return names


def depth(guard):
    """The operators on the longest path; a guard may be as deep as a text is long."""
    deepest, left = 0, [(guard, 0)]
    while left:
        g, d = left.pop()
        if g[0] in ("and", "or", "not"):
            left += [(part, d + 1) for part in g[1:]]
        else:
            deepest = max(deepest, d)
    return deepest


LIMITS = {"states": 32, "whens": 256, "actions": 256, "statements": 1024, "guard records": 1024, "ifs": 0}


def check_names(reader, names, commands, classes, states):
    own = [s for s, _, _ in states]
    seen, actions = set(), set()
    known = {"child": names, "class": [c for c, _ in classes], "action": commands, "command": commands, "state": own}
    for what, name, place, state in reader.marks:
        if what in known and name not in known[what]:
            reader.refuse(17, place, what)
        if what == "referred" and name not in commands:
            reader.refuse(17, place, "command")
        if what == "referred" and name not in [c for c, _ in states[state][2]]:
            reader.refuse(17, place, "referred")
        if what == "own" and name in seen:
            reader.refuse(17, place, "state twice")
        if what == "action" and (state, name) in actions:
            reader.refuse(17, place, "action twice")
        seen |= {name} if what == "own" else set()
        actions |= {(state, name)} if what == "action" else set()


def check_sizes(reader):
    for limit, most in LIMITS.items():
        places = [place for what, place in reader.sizes if what == limit]
        if len(places) > most:
            reader.refuse(18, places[most], limit)
    if reader.deep_guards:
        reader.refuse(18, reader.deep_guards[0], "depth")


def read(data):
    """The class of a class file: names, commands, classes, states."""
    names, commands, classes, start = read_head(data)
    reader = Reader(data, start)
    states = reader.text()
    check_names(reader, names, commands, classes, states)
    check_sizes(reader)
    return names, commands, classes, states


# ---- its sheet

def u16(n):
    return n.to_bytes(2, "little")


def sheet_of(names, commands, classes, states):
    class_names, own = [c for c, _ in classes], [s for s, _, _ in states]

    def name_set(some):
        return sum(1 << n for n in {names.index(x) for x in some}).to_bytes(4, "little")

    def pattern(kin):
        return 255 if kin == CHILDREN else class_names.index(kin)

    guards = []

    def place_of(guard):
        place = len(guards)
        left = [guard]
        while left:
            g = left.pop()
            if g[0] in ("and", "or", "not"):
                guards.append(bytes([{"and": 4, "or": 5, "not": 6}[g[0]]]) + bytes(7))
                left += g[:0:-1]
            else:
                kind = {"ANY": 0, "ALL": 2}[g[0]] + (g[1] == "not_in_state")
                guards.append(bytes([kind, pattern(g[2]), 0, 0]) + name_set(g[3]))
        return place

    def records(statements):
        out = []
        for s in statements:
            if s[0] == "do":
                out.append(bytes([0, commands.index(s[1]), pattern(s[2])]) + bytes(5))
            elif s[0] == "move_to":
                out.append(bytes([1, own.index(s[1])]) + bytes(6))
            else:
                place = place_of(s[1])
                then_part, else_part = records(s[2]), records(s[3])
                out.append(bytes([2, 0]) + u16(place) + u16(len(then_part)) + u16(len(else_part)))
                out += then_part + else_part
        return out

    state_records, whens, actions, statements = [], [], [], []
    for _, when_clauses, action_clauses in states:
        state_records.append(u16(len(when_clauses)) + u16(len(action_clauses)))
        for guard, (word, name) in when_clauses:
            place = u16(place_of(guard))
            if word == "move_to":
                whens.append(place + bytes([0, own.index(name)]))
            elif word == "do":
                whens.append(place + bytes([1, [c for c, _ in action_clauses].index(name)]))
            else:
                whens.append(place + bytes([2, 0]))
        for command, body in action_clauses:
            part = records(body)
            actions.append(bytes([commands.index(command), 0]) + u16(len(part)))
            statements += part
    contents, start, bodies = b"", 24, b""
    for body in ([name_set(s) for _, s in classes], state_records, whens, guards, actions, statements):
        joined = b"".join(body)
        contents += u16(start) + u16(len(joined))
        start += len(joined)
        bodies += joined
    return contents + bodies


# ---- loopcheck's line, by trying everything

def holds(guard, children):
    if guard[0] == "and":
        return holds(guard[1], children) and holds(guard[2], children)
    if guard[0] == "or":
        return holds(guard[1], children) or holds(guard[2], children)
    if guard[0] == "not":
        return not holds(guard[1], children)
    quantifier, side, kin, names = guard
    facts = [(name in names) == (side == "in_state") for of_class, name in children if kin in (CHILDREN, of_class)]
    return any(facts) if quantifier == "ANY" else all(facts)


def reached(statements, children):
    """The state of the move_to that statements reach with these children, or None."""
    for s in statements:
        to = s[1] if s[0] == "move_to" else None
        if s[0] == "if":
            to = reached(s[2] if holds(s[1], children) else s[3], children)
        if to is not None:
            return to
    return None


def moves_to(whens, actions, children):
    """Where a state with these clauses moves by its first true when clause, itself or by the action clause that it runs; or None."""
    word, name = next((r for guard, r in whens if holds(guard, children)), (None, None))
    if word == "do":
        return reached(dict(actions)[name], children)
    return name if word == "move_to" else None


def line_of(names, commands, classes, states):
    own = [s for s, _, _ in states]
    clauses = {s: (w, a) for s, w, a in states}
    cells = [(c, n) for c, some in classes for n in sorted(some, key=names.index)]
    if len(cells) > 20:
        return "refused 14"
    longest = 0
    for k in range(2 ** len(cells)):
        children = [cell for i, cell in enumerate(cells) if k >> i & 1]
        if any(c not in [of_class for of_class, _ in children] for c, _ in classes):
            continue
        for q, state in enumerate(own):
            walk = [state]
            while True:
                walk.append(moves_to(*clauses[walk[-1]], children))
                if walk[-1] is None or walk[-1] in walk[:-1]:
                    break
            if walk[-1] == state:
                pairs = ["%d:%d" % ([c for c, _ in classes].index(c), names.index(n)) for c, n in children]
                return " ".join(["loop", str(k), str(q)] + pairs)
            if walk[-1] is None:
                longest = max(longest, len(walk) - 2)
    return "free %d" % longest


def main(words):
    if len(words) not in (1, 2) or len(words) == 2 and words[0] != "--line":
        sys.exit(__doc__)
    with open(words[-1], "rb") as f:
        data = f.read()
    try:
        found = read(data)
    except Refused as r:
        print(r, file=sys.stderr)
        return 1
    if len(words) == 2:
        print(line_of(*found))
    else:
        sys.stdout.buffer.write(sheet_of(*found))
    return 0


if __name__ == "__main__":
    sys.setrecursionlimit(1000000)
    sys.exit(main(sys.argv[1:]))
