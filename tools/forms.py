#!/usr/bin/env python3
"""Counts, in the src/ folders, the places that docs/DESIGN-PASS.md speaks of. tools/forms.py [--list] [FOLDER]

loops     loops that count an index by hand: a `while` or `loop` whose body adds 1 to a variable that its test or an index reads
walks     the other `while` and `loop`
shapes    enums with two cases, one of which holds nothing or a refusal, and structs with a flag beside a value
codes     parameters and fields that hold a kind, a limit or a verb as a u8
twins     pairs of functions of four lines and more that are the same but for names, constants and types
together  runs of three and more parameters, with names and types, that stand in three and more functions
facts     a fact of a `requires` that stands in three and more functions
hand      functions that compare, copy, convert or print by hand, by their names
"""
import collections, pathlib, re, sys


def functions(text):
    """Each function of a file: its name, its line, its head, its body's lines."""
    lines = text.split("\n")
    out, i = [], 0
    while i < len(lines):
        m = re.match(r"^( *)(?:pub(?:\([a-z]+\))? )?(?:extern \"C\" )?fn ([a-z_0-9]+)", lines[i])
        if not m:
            i += 1
            continue
        pad, start = m.group(1), i
        while i < len(lines) and lines[i] != pad + "}" and not (lines[i].startswith(pad + "{") and lines[i].rstrip().endswith("}")):
            i += 1
        body = next((j for j in range(start, i) if lines[j] == pad + "{" or lines[j].rstrip().endswith(" {")), start)
        out.append((m.group(2), start + 1, "\n".join(lines[start:body + 1]), lines[body + 1:i]))
        i += 1
    return out


def bare(line):
    return re.sub(r"//.*", "", line)


def loops(body):
    """The loops of a body: (offset, head, is an index counted by hand)."""
    for k, line in enumerate(body):
        m = re.match(r"^( *)(?:'[a-z]+: )?(while|loop)\b(.*)\{", bare(line))
        if not m:
            continue
        inner = []
        for rest in body[k + 1:]:
            if rest == m.group(1) + "}":
                break
            inner.append(bare(rest))
        text = "\n".join(inner)
        steps = set(re.findall(r"\b([a-z_]+) = \1 \+ 1;", text)) | set(re.findall(r"\b([a-z_]+) \+= 1;", text))
        read = set(re.findall(r"[a-z_]+", m.group(3))) | set(re.findall(r"\[([a-z_]+)\]", text))
        yield k, line.strip(), bool(steps & read)


def shape(body):
    text = " ".join(bare(x).strip() for x in body)
    text = re.sub(r'b?"[^"]*"|b\'[^\']*\'|\b[0-9][0-9a-fx_]*\b', "0", text)
    return re.sub(r"[A-Za-z_][A-Za-z_0-9:]*", "x", text)


def main():
    listed = "--list" in sys.argv
    top = pathlib.Path(next((a for a in sys.argv[1:] if not a.startswith("-")), "."))
    files = sorted(p for p in top.glob("crates/*/src/**/*.rt"))
    found = collections.OrderedDict((k, []) for k in "loops walks shapes codes twins together facts hand".split())
    bodies, groups, facts = [], collections.defaultdict(set), collections.defaultdict(set)
    for p in files:
        text, name = p.read_text(), str(p.relative_to(top / "crates"))
        for fn, at, head, body in functions(text):
            where = f"{name}:{at} {fn}"
            for k, line, counted in loops(body):
                found["loops" if counted else "walks"].append(f"{name}:{at + head.count(chr(10)) + 1 + k} {fn}: {line}")
            if len(body) >= 4:
                bodies.append((shape(body), where))
            first = head.split("\n    requires")[0].split("\n    ensures")[0]
            pars = re.findall(r"\b([a-z_]+): ((?:&(?:'[a-z]+ )?(?:mut )?)?[A-Za-z\[\]0-9; ]+)", first)
            for c in pars:
                if re.search(r"kind|limit|verb|code|what", c[0]) and c[1].strip() in ("u8", "usize", "u64"):
                    found["codes"].append(f"{where}: {c[0]}: {c[1]}")
            for n in (3, 4, 5, 6):
                for i in range(len(pars) - n + 1):
                    groups[tuple(f"{a}: {re.sub(chr(39) + '[a-z]+ ', '', b).strip()}" for a, b in pars[i:i + n])].add(where)
            for clause in re.findall(r"requires (?:[a-z_]+ )?\{ (.*) \}", head):
                for fact in re.split(r" × ", clause):
                    facts[fact.strip("() ")].add(where)
            if re.match(r"(is_same|same|equal|eq|less|cmp|copy|put_copy|to_|as_|from_|.*_number$|.*_as_)", fn):
                found["hand"].append(where)
        for m in re.finditer(r"^(?:pub )?enum ([A-Za-z]+) \{\n((?:    .*\n)+?)\}", text, re.M):
            cases = [c.strip().rstrip(",") for c in m.group(2).split("\n") if c.strip() and not c.strip().startswith("//")]
            plain = [c for c in cases if "(" not in c]
            if len(cases) == 2 and (len(plain) == 1 or any(re.match(r"Refused|Bad|Broken|Forever|Loop", c) for c in cases)):
                found["shapes"].append(f"{name} enum {m.group(1)}: {' | '.join(cases)}")
            elif any(re.match(r"Refused|Bad|Wrong", c) for c in cases):
                found["shapes"].append(f"{name} enum {m.group(1)}: {' | '.join(cases)}")
        for m in re.finditer(r"^(?:pub )?struct ([A-Za-z]+)(?:<'a>)? \{\n((?:    .*\n)+?)\}", text, re.M):
            fields = [c.strip() for c in m.group(2).split("\n") if c.strip()]
            if len(fields) == 2 and any(f.rstrip(",").endswith(": bool") for f in fields):
                found["shapes"].append(f"{name} struct {m.group(1)}: {' '.join(fields)}")
            for f in fields:
                if re.search(r"(kind|limit|verb|code)s?: (u8|usize)", f):
                    found["codes"].append(f"{name} struct {m.group(1)}: {f}")
    by = collections.defaultdict(list)
    for s, where in bodies:
        by[s].append(where)
    found["twins"] = [" ~ ".join(w) for w in by.values() if len(w) > 1]
    seen = []
    for g, where in sorted(groups.items(), key=lambda x: (-len(x[0]), -len(x[1]))):
        if len(where) >= 3 and not any(set(g) <= set(h) and where <= v for h, v in seen):
            seen.append((g, where))
            found["together"].append(f"{', '.join(g)}: {len(where)} functions")
    found["facts"] = [f"{f}: {len(w)} functions" for f, w in sorted(facts.items(), key=lambda x: -len(x[1])) if len(w) >= 3]
    for k, v in found.items():
        print(f"{k}: {len(v)}")
        if listed:
            for x in v:
                print(f"    {x}")


main()
