#!/usr/bin/env python3
"""Asks three programs about the same sheets: loopcheck's (Rattle), sliced C and scalar C. Called by bench/run.

    table.py SHEETS PROGRAM LIMIT COMPILER            prints a table of times
    table.py --small SHEETS PROGRAM LIMIT COMPILER    only compares the answers

SHEETS is a folder of bench/sheets.py, PROGRAM is loopcheck's program, LIMIT the processor seconds after which a program is stopped.
Exits 1 where two programs answer differently; a program that was stopped has no answer.
"""
import os
import platform
import resource
import signal
import subprocess
import sys

ROOT = os.path.dirname(os.path.dirname(os.path.abspath(__file__)))
RUNS = 5
LONG = 2000     # milliseconds: what takes longer is run once
NOISE = 1       # milliseconds: a smaller difference is not counted against the targets
TARGET = 1.5    # times the sliced C


class Result:
    """What a program made of a sheet: its line, or None where it was stopped; and the least processor time, in milliseconds."""

    def __init__(self, answer, time):
        self.answer, self.time = answer, time

    def words(self):
        if self.answer is None:
            return "> %d" % self.time
        return "%.1f" % self.time if self.time < 100 else "%.0f" % self.time


def ask(program, sheet, limit):
    """Runs a program once, by scripts/here, with the sheet as its standard input."""
    def limited():
        resource.setrlimit(resource.RLIMIT_CORE, (0, 0))
        resource.setrlimit(resource.RLIMIT_CPU, (limit, limit))

    with open(sheet, "rb") as given:
        process = subprocess.Popen([os.path.join(ROOT, "scripts", "here"), program], stdin=given, stdout=subprocess.PIPE, preexec_fn=limited)
    with process.stdout as printed:
        answer = printed.read().decode(errors="replace")
    _, status, used = os.wait4(process.pid, 0)
    process.returncode = status
    time = 1000 * (used.ru_utime + used.ru_stime)
    if os.WIFSIGNALED(status) and os.WTERMSIG(status) in (signal.SIGKILL, signal.SIGXCPU) and time > 900 * limit:
        return Result(None, 1000 * limit)
    if status != 0 or answer.count("\n") != 1 or not answer.endswith("\n"):
        how = "signal %d" % os.WTERMSIG(status) if os.WIFSIGNALED(status) else "status %d" % os.WEXITSTATUS(status)
        sys.exit("bench: %s, given %s, printed %r and ended with %s" % (program, sheet, answer, how))
    return Result(answer.rstrip("\n"), time)


def ask_all(programs, sheet, limit, runs):
    """The results of the programs, by their names. They are run in turn, so that none has the quieter machine."""
    results = {}
    for _ in range(runs):
        for name, program in programs.items():
            was = results.get(name)
            if was and (was.answer is None or was.time > LONG):
                continue
            now = ask(program, sheet, limit)
            if was and now.answer is None:
                continue
            if was and was.answer != now.answer:
                sys.exit("bench: %s, given %s, printed '%s' and then '%s'" % (program, sheet, was.answer, now.answer))
            results[name] = Result(now.answer, min(now.time, was.time) if was else now.time)
    return results


def difference(name, results):
    """Says where the answers differ, of those that there are. Whether they do."""
    answers = {who: result.answer for who, result in results.items() if result.answer is not None}
    if len(set(answers.values())) <= 1:
        return False
    print("bench: %s: the answers differ: %s" % (name, "; ".join("%s: %s" % pair for pair in answers.items())), file=sys.stderr)
    return True


def ratio(one, other):
    """How the times compare, where both or one of them is known."""
    if one.answer is None and other.answer is None:
        return ""
    sign = "> " if one.answer is None else "< " if other.answer is None else ""
    times = one.time / other.time
    return sign + ("%.0f" if times >= 10 else "%.2f" if times >= 0.1 else "%.2g") % times


def shortened(answer):
    """An answer without the children."""
    words = (answer or "").split(" ")
    return " ".join(words[:3] + [".."] * (len(words) > 3))


def processor():
    """The machine's kind, and its processor's name where /proc/cpuinfo has one."""
    try:
        with open("/proc/cpuinfo") as f:
            models = [line.split(":", 1)[1].strip() for line in f if line.startswith("model name")]
    except OSError:
        models = []
    return ", ".join([platform.machine()] + models[:1])


def targets(rows):
    """Says on which sheets of N = 20 the targets are not met, and on which that is not known."""
    for times, who, target in ((TARGET, "sliced C", "at most %s times the sliced C" % TARGET), (1, "scalar C", "never slower than the scalar C")):
        over, unknown = [], []
        for name, results in rows:
            mine, other = results["Rattle"], results[who]
            if mine.answer is None and other.answer is None:
                unknown.append(name)
            elif mine.answer is None or other.answer is not None and mine.time > times * other.time + NOISE:
                over.append(name)
        verdict = ["not met on " + ", ".join(over)] * bool(over) + ["not known of %s, where both were stopped" % ", ".join(unknown)] * bool(unknown)
        print("- Target, N = 20: %s: %s" % (target, "; ".join(verdict) or "met on every sheet"))


def table(sheets, programs, limit, compiler):
    native = platform.machine() == "x86_64"
    start = ask_all({"sliced C": programs["sliced C"]}, os.path.join(ROOT, "samples", "A.sheet"), limit, 4 * RUNS)["sliced C"].time
    print("- Machine: %s%s" % (processor(), "" if native else "; the programs are for x86-64 and run under the emulator"))
    print("- C compiler: %s" % compiler)
    print("- Times: milliseconds of processor time (user and system) of a process, the least of %d runs; one run where it takes over %d s" % (RUNS, LONG // 1000))
    print("- In each time: %.1f ms for starting a program (sliced C on samples/A.sheet). Stopped after: %d s" % (start, limit))
    print("\n| sheet | N | answer | Rattle | sliced C | scalar C | Rattle / sliced | Rattle / scalar |\n|---|--:|---|--:|--:|--:|--:|--:|", flush=True)
    rows, differ = [], 0
    for name, n, _ in index(sheets):
        results = ask_all(programs, os.path.join(sheets, name + ".sheet"), limit, RUNS)
        rattle, sliced, scalar = (results[who] for who in programs)
        cells = [name, n, shortened(rattle.answer or sliced.answer), rattle.words(), sliced.words(), scalar.words(), ratio(rattle, sliced), ratio(rattle, scalar)]
        print("| %s |" % " | ".join(cells), flush=True)
        differ += difference(name, results)
        rows += [(name, results)] if n == "20" else []
    print()
    for name, _, description in index(sheets):
        print("- %s: %s" % (name, description))
    if native:
        print()
        targets(rows)
    return differ


def compare(sheets, programs, limit):
    differ, number = 0, 0
    for name, _, _ in index(sheets):
        results = ask_all(programs, os.path.join(sheets, name + ".sheet"), limit, 1)
        stopped = [who for who, result in results.items() if result.answer is None]
        if stopped:
            print("bench: %s: %s was stopped after %d s" % (name, " and ".join(stopped), limit), file=sys.stderr)
        differ += bool(stopped) | difference(name, results)
        number += 1
    if not differ:
        print("bench: %d sheets, three programs, the same answers" % number)
    return differ


def index(sheets):
    with open(os.path.join(sheets, "INDEX")) as f:
        return [line.rstrip("\n").split("\t") for line in f]


def main(words):
    small = words[:1] == ["--small"]
    words = words[small:]
    if len(words) != 4:
        sys.exit(__doc__)
    sheets, program, limit, compiler = words
    folder = os.path.dirname(os.path.abspath(sheets))
    programs = {"Rattle": program, "sliced C": os.path.join(folder, "sliced"), "scalar C": os.path.join(folder, "scalar")}
    differ = compare(sheets, programs, int(limit)) if small else table(sheets, programs, int(limit), compiler)
    if differ:
        print("bench: FAILED: %d sheets have different answers" % differ, file=sys.stderr)
    return 1 if differ else 0


if __name__ == "__main__":
    sys.exit(main(sys.argv[1:]))
