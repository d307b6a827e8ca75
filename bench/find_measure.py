#!/usr/bin/env python3
"""Measures `clap_debug_find`, and holds its answers against what the programs are known to do.

  find_measure.py examples|c|finds [NAME..] [--find F] [--models M,M] [--limit SECONDS]
                                     the programs of examples/, of examples/c by tools/fromc, or of bench/finds, broken and mended,
                                     for the failure or deadlock that their page names
  find_measure.py litmus [--find F]  the tests of examples/litmus, whose verdicts are in their table
  find_measure.py certificates [NAME..] [--find F] [--limit SECONDS]
                                     the certificates of the mended programs of examples/, with 3 outcomes, under TSO, or under PSO
                                     where the broken ones fail there alone: their sizes, and the seconds of search and check
  find_measure.py growth [--find F] [--limit SECONDS]
                                     programs of more and more threads, rounds and outcomes
  find_measure.py seeds PROGRAM MODEL SECONDS [--clap-debug C]
                                     how many of the seeds that `record` can try in so many seconds fail, of the first 30,000

A program that should fail is asked for with up to 8 outcomes. One that shouldn't is asked with 3, 5 and 8 outcomes, as long as
the answer before spoke of outcomes and came within a fifth of a second. Seconds are those of the processor, and MB the largest resident set. A
cell `found 22` says after how many logs, `none 5` that no run of any length fails, `none 5 (3)` that none does with 3 outcomes, `- (5)`
that there was no answer within the limit. Status 1: some answer is wrong, which a line says, or a failure wasn't found.
"""
import argparse
import os
import re
import resource
import subprocess
import sys
import tempfile
from dataclasses import dataclass

sys.dont_write_bytecode = True
import machine
from kept_files import run_main

TOP = os.path.dirname(os.path.dirname(os.path.abspath(__file__)))
ROW = re.compile(r"\| \[([\w-]+)\]\((\S+)/README.md\) \| (.*?) \| (.*?) \| (.*?) \|$")
BOUNDS = [3, 5, 8]
QUICK = 0.2
SEEDS = 30000


@dataclass
class Measured:
    """What a program said, its seconds and its MB."""

    status: int
    line: str
    seconds: float
    megabytes: float


def measured(limit, *words):
    """A run of a program, which ends with the limit of processor seconds; its status is then below 0."""
    def limited():
        resource.setrlimit(resource.RLIMIT_CPU, (limit, limit))
    with tempfile.NamedTemporaryFile("r") as report:
        # (a child of this process would begin with the memory of Python)
        done = subprocess.run(["/usr/bin/time", "-f", "%U %S %M", "-o", report.name, *words], stdout=subprocess.PIPE, stderr=subprocess.DEVNULL,
                              text=True, preexec_fn=limited)
        user, system, kilobytes = map(float, report.read().split("\n")[-2].split())
    status = done.returncode if done.returncode < 128 else 128 - done.returncode
    return Measured(status, done.stdout.strip(), user + system, kilobytes / 1024)


@dataclass
class Case:
    """A program, what it is asked for, and the models under which it comes to that."""

    name: str
    path: str
    kind: str
    models: list


def named(models):
    """The models of a table's cell."""
    return [] if models == "none" else machine.MODELS if models == "each model" else models.lower().replace(",", "").split()


def of_examples(names):
    for line in open(f"{TOP}/examples/README.md", encoding="utf-8"):
        row = ROW.match(line)
        if not row or (names and row[2] not in names) or not os.path.exists(f"{TOP}/examples/{row[2]}/mended.tc"):
            continue
        kind = "deadlock" if "a deadlock" in row[3] else "failure"
        yield Case(row[2], f"{TOP}/examples/{row[2]}/p.tc", kind, named(row[4]))
        yield Case(f"{row[2]}, mended", f"{TOP}/examples/{row[2]}/mended.tc", kind, [])


def of_c(names, folder):
    """A program fails under a model if its table has a schedule there, or under any where its search by all states says so."""
    for line in open(f"{TOP}/examples/c/README.md", encoding="utf-8"):
        cells = [it.strip() for it in line.strip().strip("|").split("|")]
        row = re.match(r"\[(\w+)\]\(\w+\.c\)$", cells[0])
        if not row or len(cells) != 7 or (names and row[1] not in names):
            continue
        kind = "deadlock" if cells[2] == "deadlock" else "failure"
        for mended in (False, True):
            path = f"{folder}/{row[1]}{'-mended' * mended}.tc"
            subprocess.run([f"{TOP}/tools/fromc", f"{TOP}/examples/c/{row[1]}.c", "-o", path, *["-DMENDED"] * mended], check=True,
                           stderr=subprocess.DEVNULL)
            models = [it for it, cell in zip(machine.MODELS, cells[3:6]) if cell.startswith("schedule")]
            yield Case(f"c/{row[1]}{', mended' * mended}", path, kind, [] if mended else models)


def of_finds(names):
    for file in sorted(os.listdir(f"{TOP}/bench/finds")):
        path = f"{TOP}/bench/finds/{file}"
        if not names or file[:-3] in names:
            yield Case(file[:-3], path, "failure", named(open(path).readline().strip().split("under: ")[1]))


class Measuring:
    """Runs of a program over cases; keeps the faults."""

    def __init__(self, find, limit, folder):
        self.find, self.limit, self.out, self.faults = find, limit, f"{folder}/out", []

    def ask(self, case, model, most):
        words = [self.find, case.path, self.out, "--model", model, "--outcomes", str(most), "--logs", "4294967295"]
        return measured(self.limit, *words, *["--deadlock"] * (case.kind == "deadlock"))

    def cell(self, case, model):
        """What is said of a case under a model, in a few words; seconds and MB of the last run that answered."""
        if model in case.models:
            it = self.ask(case, model, BOUNDS[-1])
            if it.status < 0:
                return f"- ({BOUNDS[-1]})", it
            if it.status != 0:
                self.faults.append(f"{case.name} under {model}: {it.line!r}, but it fails")
            return self.short(it), it
        last = None
        for most in BOUNDS:
            it = self.ask(case, model, most)
            if it.status < 0:
                return (self.short(last[0]), last[0]) if last else (f"- ({most})", it)
            if it.status == 0:
                self.faults.append(f"{case.name} under {model}: {it.line!r}, but none fails")
            last = (it, most)
            if it.seconds > QUICK or not it.line.endswith("outcomes"):
                break
        return self.short(last[0]), last[0]

    @staticmethod
    def short(it):
        found = re.match(r"found after (\d+) logs$", it.line)
        none = re.match(r"none in (\d+) logs(?:, (\d+) outcomes)?$", it.line)
        if found:
            return f"found {found[1]}"
        if none:
            return f"none {none[1]}" + (f" ({none[2]})" if none[2] else "")
        return it.line or f"status {it.status}"

    def row(self, case, models):
        cells, seconds, megabytes = [], 0, 0
        for model in models:
            cell, it = self.cell(case, model)
            cells.append(cell)
            seconds += it.seconds
            megabytes = max(megabytes, it.megabytes)
        print(f"| {case.name} | {case.kind} | {' | '.join(cells)} | {seconds:.1f} | {megabytes:.0f} |", flush=True)

    def table(self, cases, models):
        print(f"| program | looked for | {' | '.join(models)} | seconds | MB |\n|{'---|' * (4 + len(models))}", flush=True)
        for case in cases:
            self.row(case, models)


def litmus(measuring, folder):
    """Each test under each model, beside its verdict."""
    count = 0
    for line in open(f"{TOP}/examples/litmus/verdicts.md", encoding="utf-8"):
        row = re.match(r"\| \[(\S+)\]\((\S+\.litmus)\) \| .*? \| (\w+) \| (\w+) \| (\w+) \|", line)
        if not row:
            continue
        path = f"{folder}/{row[1]}.tc"
        subprocess.run([f"{TOP}/tools/litmus.py", f"{TOP}/examples/litmus/{row[2]}", "--program", path], check=True)
        for model, verdict in zip(machine.MODELS, row.groups()[2:]):
            it = measuring.ask(Case(row[1], path, "failure", []), model, 12)
            count += 1
            if it.status != (0 if verdict == "allowed" else 1):
                measuring.faults.append(f"{row[1]} under {model}: {it.line!r}, status {it.status}, but it is {verdict}")
    print(f"{count} verdicts, {len(measuring.faults)} differ")


def certificates(measuring, names):
    print("| example | looked for | answer | seconds | bytes | `--check`, seconds |\n|---|---|---|---|---|---|", flush=True)
    cases = list(of_examples(names))
    for broken, mended in zip(cases[::2], cases[1::2]):
        model = "tso" if "tso" in broken.models else "pso"
        it = measuring.ask(mended, model, BOUNDS[0])
        if not it.line.startswith("none"):
            said = it.line or f"none within {measuring.limit} seconds"
            print(f"| {broken.name} | {broken.kind}, {model} | {said} | {it.seconds:.1f} | | |", flush=True)
            continue
        checked = measured(measuring.limit, measuring.find, mended.path, measuring.out, "--check")
        if checked.status:
            measuring.faults.append(f"{mended.name} under {model}: --check says {checked.line!r}")
        size = os.path.getsize(measuring.out)
        print(f"| {broken.name} | {broken.kind}, {model} | {it.line} | {it.seconds:.1f} | {size:,} | {checked.seconds:.1f} |", flush=True)


def equal_threads(body, globals_, count, joins, end="", locals_=""):
    """Main creates equal threads, and joins them or not."""
    tids = " ".join(f"tid t{k};" for k in range(count))
    creates = " ".join(f"t{k} = create f();" for k in range(count))
    joined = " ".join(f"join(t{k});" for k in range(count)) if joins else ""
    return f"{globals_}\nthread f() {{ {locals_} {body} }}\nmain {{ {tids} {creates} {joined} {end} }}\n"


SPIN = "was = cas(held, 0, 1); while (was) { was = cas(held, 0, 1); } "


def growing():
    """Programs that grow: what grows, by how much, the text, and the bound on outcomes."""
    held = "int held; int x;"
    for count in (2, 3, 4, 5, 6, 8):
        yield "spin lock by cas, joined; threads", count, equal_threads(SPIN + "x = x + 1; stbar(); held = 0;", held, count, True,
                                                                        f"assert(x == {count});", "int was;"), 3
    for count in (2, 3, 4):
        yield "spin lock by cas, each asserts inside; threads", count, equal_threads(
            SPIN + "x = x + 1; assert(x == 1); x = 0; stbar(); held = 0;", held, count, False, "", "int was;"), 2
    for count in (2, 3, 4):
        once = "if (ready == 0) { lock(m); if (ready == 0) { x = 1; stbar(); ready = 1; } unlock(m); } assert(x);"
        yield "double-checked initialisation; threads", count, equal_threads(once, "int ready; int x; mutex m;", count, False), 8
    for count in (2, 3, 4, 5):
        looks = "if (x) { } if (y) { } if (z) { }"
        yield "three looks each, joined; threads", count, equal_threads(looks, "int x; int y; int z;", count, True, "assert(!x);"), 8
    for rounds in (1, 2, 4, 8, 16):
        body = f"while (i < {rounds}) {{ lock(m); x = x + 1; unlock(m); i = i + 1; }}"
        yield "counting under a mutex; rounds", rounds, equal_threads(body, "int x; mutex m;", 2, True, f"assert(x == {2 * rounds});", "int i;"), 20
    for most in (2, 4, 8, 12, 16):
        yield "spin lock by cas, joined; outcomes", most, equal_threads(SPIN + "x = x + 1; stbar(); held = 0;", held, 2, True, "assert(x == 2);",
                                                                        "int was;"), most


def growth(measuring, folder):
    print("| what grows | | answer under pso | seconds | MB |\n|---|---|---|---|---|", flush=True)
    stopped = set()
    for what, size, text, most in growing():
        if what in stopped:
            continue
        path = f"{folder}/p.tc"
        with open(path, "w") as file:
            file.write(text)
        it = measuring.ask(Case(what, path, "failure", []), "pso", most)
        if it.status < 0:
            stopped.add(what)
        answer = f"none within {measuring.limit} seconds" if it.status < 0 else it.line
        print(f"| {what} | {size} | {answer} | {it.seconds:.1f} | {it.megabytes:.0f} |", flush=True)


def seeds(clap_debug, program, model, seconds, folder):
    def spent():
        used = resource.getrusage(resource.RUSAGE_CHILDREN)
        return used.ru_utime + used.ru_stime
    fails, tried = [], 0
    while spent() < seconds and tried < SEEDS:
        words = ["record", program, f"{folder}/log", "--model", model, "--seed", str(tried), "--steps", "20000"]
        if subprocess.call([clap_debug, *words], stdout=subprocess.DEVNULL) == 0:
            fails.append(tried)
        tried += 1
    print(f"{program} under {model}: {len(fails)} of the first {tried} seeds fail, the first is {min(fails, default=None)}; {spent():.1f} seconds")


def main(words):
    parser = argparse.ArgumentParser(usage=__doc__)
    parser.add_argument("what", choices=["examples", "c", "finds", "litmus", "certificates", "growth", "seeds"])
    parser.add_argument("names", nargs="*")
    parser.add_argument("--find", default=f"{TOP}/out/clap_debug_find")
    parser.add_argument("--clap-debug", default=f"{TOP}/out/clap_debug")
    parser.add_argument("--models", default="sc,tso,pso")
    parser.add_argument("--limit", type=int, default=10)
    given = parser.parse_intermixed_args(words)
    with tempfile.TemporaryDirectory() as folder:
        measuring = Measuring(os.path.abspath(given.find), given.limit, folder)
        if given.what == "seeds":
            program, model, seconds = given.names
            return seeds(os.path.abspath(given.clap_debug), program, model, float(seconds), folder)
        if given.what == "litmus":
            litmus(measuring, folder)
        elif given.what == "certificates":
            certificates(measuring, given.names)
        elif given.what == "growth":
            growth(measuring, folder)
        else:
            cases = {"examples": of_examples, "finds": of_finds, "c": lambda names: of_c(names, folder)}[given.what]
            measuring.table(cases(given.names), given.models.split(","))
    print("\n".join(measuring.faults), end="\n" if measuring.faults else "")
    return 1 if measuring.faults else 0


if __name__ == "__main__":
    run_main("find_measure.py", main)
