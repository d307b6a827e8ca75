#!/usr/bin/env python3
"""Gives the clauses of logs to other solvers, and what they say back to the program: a row of bench/results/performance.md for each.

  others.py [--models sc,tso,pso] [--seconds N] [--spoil N] [--false-first] FOLDER..

runs out/clap_debug over each NAME.tc with its NAME.log in the folders, under the log's model where none is given, and both solvers, each
for at most so many processor seconds, 120 where no number is given. Where cadical finds an answer, its own and minisat's are imported
and the schedules replayed. Where it finds none, its proof goes through tools/refutation.py, and the refutation is checked. Each proof
is also spoilt N times at random, a line cut or a literal turned, and given to each model under which the log has a schedule: there
nothing may be accepted. With --false-first our own search gets the same list too, in crates/test_solver/out/test_solver: it tries the
value false first, reads the list and checks what it finds. Ends with 1 where something isn't so.
"""
import argparse
import glob
import math
import os
import random
import resource
import signal
import subprocess
import sys
import tempfile

sys.dont_write_bytecode = True
import machine
from kept_files import run_main

TOP = os.path.dirname(os.path.dirname(os.path.abspath(__file__)))


class Ran:
    """A command's output, status and processor seconds, which have a limit."""

    def __init__(self, limit, *words, stdin=None):
        most = math.ceil(limit)
        before = used()
        ran = subprocess.run(words, stdin=stdin, stdout=subprocess.PIPE, stderr=subprocess.DEVNULL, check=False,
                             preexec_fn=lambda: resource.setrlimit(resource.RLIMIT_CPU, (most, most)))
        self.seconds = used() - before
        self.text, self.status = ran.stdout.decode(), ran.returncode
        self.is_over = ran.returncode == -signal.SIGKILL and self.seconds > 0.9 * most
        self.line = "too long" if self.is_over else self.text.strip()
        self.told = f"{limit:.0f} and more" if self.is_over else f"{self.seconds:.2f}"


def used():
    """The processor seconds of all that has been run and has ended."""
    of = resource.getrusage(resource.RUSAGE_CHILDREN)
    return of.ru_utime + of.ru_stime


class Log:
    """A log under a model, with its files in a folder of its own."""

    def __init__(self, folder, program, log, model, limit):
        self.program, self.log, self.model, self.limit = program, log, model, limit
        self.list, self.answer, self.proof, self.found, self.kept = (
            f"{folder}/{model}.{it}" for it in ("cnf", "answer", "proof", "found", "kept"))
        self.cnf = self.clap("cnf", self.list)
        self.solved = self.clap("solve", self.kept)
        self.cadical = self.run("cadical", "-q", "--no-binary", self.list, self.proof)
        self.minisat = self.run("minisat", "-verb=0", self.list, self.found)

    def run(self, *words):
        return Ran(self.limit, *words)

    def clap(self, command, *files):
        return self.run(f"{TOP}/out/clap_debug", command, self.program, self.log, *files, "--model", self.model)

    def false_first(self):
        """Our search of the list, which tries false first."""
        with open(self.answer, "wb") as row:
            subprocess.run([sys.executable, f"{TOP}/bench/rows.py", self.list], stdout=row, check=True)
        with open(self.answer, "rb") as row:
            return Ran(self.limit, f"{TOP}/crates/test_solver/out/test_solver", stdin=row)

    def refute(self, proof, out):
        return self.run(sys.executable, f"{TOP}/tools/refutation.py", "drat", self.list, proof, self.model, out)

    def check(self, out):
        """The answer of `check`: the model is the refutation's."""
        return self.run(f"{TOP}/out/clap_debug", "check", self.program, self.log, out)

    def imported(self, answer):
        with open(self.answer, "w", encoding="ascii") as file:
            file.write(answer)
        found = self.clap("import", self.answer, self.kept)
        return found, self.run(f"{TOP}/out/clap_debug", "replay", self.program, self.log, self.kept)


def of_minisat(log):
    """The answer of minisat, as solvers of today write it."""
    with open(log.found, encoding="ascii") as file:
        lines = file.read().split("\n")
    return f"s SATISFIABLE\nv {lines[1]}\n" if lines[0] == "SAT" else f"s {lines[0]}\n"


def spoilt(chance, lines):
    """A proof with a line cut or a literal turned."""
    lines = list(lines)
    place = chance.randrange(len(lines))
    words = lines[place].split()
    numbers = [k for k, word in enumerate(words) if word not in ("d", "0")]
    if not numbers or chance.random() < 0.5:
        del lines[place]
        return lines
    k = chance.choice(numbers)
    words[k] = words[k][1:] if words[k].startswith("-") else "-" + words[k]
    lines[place] = " ".join(words)
    return lines


def try_possible(log):
    """The results of the answers, and the number of wrong ones."""
    found, replayed = log.imported(log.cadical.text)
    wrong = (replayed.line != "reproduces") + (found.status != 0)
    if not log.minisat.is_over:
        other, again = log.imported(of_minisat(log))
        wrong += (again.line != "reproduces") + (other.status != 0)
    return f"{found.line} | | | {replayed.line}", wrong


def try_impossible(log):
    out = log.kept
    made = log.refute(log.proof, out)
    checked = log.check(out) if made.status == 0 else made
    wrong = not (checked.line == "accepted, impossible" or made.is_over or checked.is_over)
    return f"{made.line} | {made.told} | {checked.told} | {checked.line}", int(wrong)


def try_spoilt(chance, count, possible, impossible):
    """How many refutations are accepted of logs that have a schedule, made of others' proofs, whole and spoilt."""
    wrong = 0
    for source in impossible:
        with open(source.proof, encoding="ascii") as file:
            lines = file.read().split("\n")[:-1]
        for turn in range(count + 1 if lines else 0):
            with open(source.answer, "w", encoding="ascii") as file:
                file.write("\n".join(lines if turn == 0 else spoilt(chance, lines)) + "\n")
            for target in possible:
                made = target.refute(source.answer, target.kept)
                if made.status == 0:
                    accepted = target.check(target.kept)
                    wrong += accepted.line == "accepted, impossible"
    return wrong


def main(words):
    parser = argparse.ArgumentParser(usage=__doc__)
    parser.add_argument("--models")
    parser.add_argument("--seconds", type=float, default=120)
    parser.add_argument("--spoil", type=int, default=0)
    parser.add_argument("--false-first", action="store_true")
    parser.add_argument("folders", nargs="+")
    given = parser.parse_args(words)
    chance, wrong, tried = random.Random(0), 0, 0
    print("| log | model | clauses | solve | false first | cadical | minisat | answer, or refutation | tool | check | what came |")
    print("|---|---|---|---|---|---|---|---|---|---|---|")
    for program in sorted(it for folder in given.folders for it in glob.glob(f"{folder}/*.tc")):
        log = program[:-3] + ".log"
        if not os.path.exists(log):
            continue
        with open(log, "rb") as bytes_:
            own = machine.Log.read(bytes_.read()).model
        logs = {True: [], False: []}
        with tempfile.TemporaryDirectory() as folder:
            for model in (given.models or own).split(","):
                it = Log(folder, program, log, model, given.seconds)
                name = os.path.relpath(program[:-3], os.path.commonpath([os.path.abspath(it) for it in given.folders]))
                row, bad = f"{it.cadical.line} | | | ", int(not it.cadical.is_over)
                if it.cadical.status in (10, 20):
                    is_possible = it.cadical.status == 10
                    logs[is_possible].append(it)
                    row, bad = try_possible(it) if is_possible else try_impossible(it)
                    bad += it.solved.status != (0 if is_possible else 1) and it.solved.status in (0, 1)
                wrong += bad
                clauses = it.cnf.line.split()[-2] if it.cnf.status == 0 else it.cnf.line
                plain = it.false_first().told if given.false_first else ""
                print(f"| {name} | {model} | {clauses} | {it.solved.told} | {plain} | {it.cadical.told} | {it.minisat.told} | {row} |", flush=True)
            tried += len(logs[True]) * len(logs[False]) * (given.spoil + 1)
            wrong += try_spoilt(chance, given.spoil, logs[True], logs[False])
    print(f"\n{tried} proofs of other models tried at logs that have a schedule; {wrong} answers that may not be")
    return 1 if wrong else 0


if __name__ == "__main__":
    run_main("others.py", main)
