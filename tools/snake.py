#!/usr/bin/env python3
"""Spells the names of this repository's own definitions, constructors, fields and lemmas in snake case, in the crates below the folder it is run in.

usage: python3 tools/snake.py [--look]

A name of a library keeps its spelling in each file that imports it. Functions of src/, strings and comments of src/ are left alone.
A goal's name in a function's own proof file is left alone. With --look nothing is written; names that would fall together are always said.
"""
import collections
import os
import re
import sys

NAME = r"[^\s(){}.;,@\"«»⌜⌝]+"
DECLARED = re.compile(r"(?m)^ *(?:(?:abbrev|pub|unfoldable|open|data|record|ruleset)\s+)*((?:" + NAME + r" )*?" + NAME + r")(?: \{[^{}\n]*\})* :(?![=:])")
USE = re.compile(r"\buse ([^\s;{]+)(\{[^;}]*\})?(?: as ([^\s;]+))?")
DASHED = re.compile(r"(?<![^\s(){}.;,@\"«»⌜⌝¬])[^\W\d][\w'ℕℤ′]*(?:-[\w'ℕℤ′]+)+(?![^\s(){}.;,@\"«»⌜⌝])")
QUIET = re.compile(r"--(?=[ \n])[^\n]*")
STRING = re.compile(r"\"(?:\\.|[^\"\\])*\"")
RUST = re.compile(r"(//[^\n]*|b?'\"'|\"(?:\\.|[^\"\\])*\")")
SPEC = re.compile(r"(--(?=[ \n])[^\n]*|\"(?:\\.|[^\"\\])*\")")
# constructors whose first word is one of the library's facts by accident
TOLD = {"All-not_in": "all_not_in", "Atom-in": "atom_in", "Conj-in": "conj_in", "Guard-in": "guard_in", "Operand-in": "operand_in", "List-of": "list_of"}


def spelled(name):
    return TOLD.get(name) or (name if re.match(r"All-", name) else name.replace("-", "_").replace("getD_", "get_or_"))


def quiet(text, path, declared, theirs):
    """A comment, in which names stand between backquotes; a string stays."""
    if not text.startswith(("--", "//")):
        return text
    turn = lambda m: spelled(m[0]) if m[0] in declared and m[0] not in theirs else m[0]
    return re.sub(r"`[^`\n]*`", lambda m: DASHED.sub(turn, m[0]), text)


def texts():
    for folder, dirs, files in os.walk("crates"):
        dirs[:] = sorted(d for d in dirs if d != "out")
        for f in sorted(files):
            if f.endswith((".rt", ".antt")):
                yield os.path.join(folder, f)


def crates():
    return {d for d in os.listdir("crates")}


def is_own(path, own):
    steps = path.strip(".").split(".")
    return steps[0] == "Rattle" and len(steps) > 1 and steps[1] in own or steps[0] == "package"


def is_walk(path):
    return "/proofs/" in path and os.path.basename(path) in ("Proof.antt", "Answers.antt", "Invariants.antt")


def imported(code, own):
    """The names that a file brings in from libraries, and those from this repository."""
    theirs, ours = set(), set()
    for path, items, alias in USE.findall(code):
        to = ours if is_own(path, own) else theirs
        to.update(re.findall(NAME, items.strip("{}")) if items else [path.strip(".").split(".")[-1]])
    return theirs, ours


def main():
    look = "--look" in sys.argv
    own = crates()
    code = {p: open(p, encoding="utf-8").read() for p in texts()}
    declared = set()
    external = set()
    for p, t in code.items():
        theirs, _ = imported(t, own)
        external |= theirs
        if p.endswith(".antt") and not is_walk(p):
            for m in DECLARED.finditer(QUIET.sub("", t)):
                declared.update(m[1].split(" "))
    declared = {n for n in declared if "-" in n and DASHED.fullmatch(n)}
    changed = 0
    for p, t in code.items():
        theirs, ours = imported(t, own)
        spoken = re.sub(r"//[^\n]*", "", t) if p.endswith(".rt") else QUIET.sub("", t)

        def turn(m):
            n = m[0]
            if n in theirs or n.startswith("Need-"):
                return n
            if n in declared:
                return spelled(n)
            if is_walk(p) or n in external or p.endswith(".rt") or t[: m.start()].endswith("."):
                return n
            return spelled(n)

        seen = collections.defaultdict(set)
        for k in re.findall(NAME, STRING.sub("", spoken)):
            seen[spelled(k) if k in declared and k not in theirs else k].add(k)
        for new, olds in seen.items():
            if len(olds) > 1:
                print(f"look: {p}: {' '.join(sorted(olds))} fall together as {new}")
        parts = (RUST if p.endswith(".rt") else SPEC).split(t)
        new = "".join(quiet(x, p, declared, theirs) if i % 2 else DASHED.sub(turn, x) for i, x in enumerate(parts))
        new = re.sub(r"(?<![\w.])get_d_past(?!\w)", "get_or_past", new)
        if new != t:
            changed += 1
            if not look:
                with open(p, "w", encoding="utf-8") as f:
                    f.write(new)
    print(f"snake: {len(declared)} names of this repository with dashes; {changed} files")


main()
