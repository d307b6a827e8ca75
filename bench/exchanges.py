#!/usr/bin/env python3
"""Counts what `add` and exchanges of elements save: examples that have them, beside the same programs without them.

  exchanges.py [--rewrite]                              the paths and logs of results/exchanges.md, by machine.py alone, in two minutes
  exchanges.py --find F --clap-debug C [--rewrite]      the answers and seconds of the built programs, in a few minutes

Programs without these instructions are in exchanges/: a loop of `cas` for `add`, and for an array with whose elements something is
exchanged a variable for each element, which an `if` chooses. With --rewrite the page gets the table.
"""
import argparse
import re
import sys
import tempfile
from dataclasses import dataclass
from pathlib import Path
from typing import List

sys.dont_write_bytecode = True
import clap
import find_measure
import finds
import machine
from kept_files import keep, run_main

TOP = Path(__file__).resolve().parent.parent
PAGE = TOP / "bench" / "results" / "exchanges.md"
ROUNDS = [1, 2, 3]
COUNTS = ["program", "`add`, elements", "thread", "paths, 1 round", "2 rounds", "3 rounds", "logs before", "steps", "events", "switches"]
ANSWERS = ["program", "`add`, elements", "model", "outcomes", "`clap_debug_find`", "seconds", "`cnf` of the log", "`solve`: seconds"]
LIMIT = 60


@dataclass
class Form:
    """A program with the instructions or without them, the strictest model under which it fails, or PSO of a mended one, and how
    many outcomes let its threads go round their loops as often as those of the other form."""

    name: str
    path: Path
    model: str
    outcomes: int

    @property
    def words(self) -> str:
        return "without" if "exchanges" in self.path.parts else "with"

    def code(self) -> machine.Code:
        return machine.Code(self.path.read_text(encoding="utf-8"))


def forms(example: str, model: str, outcomes: int, more: int) -> List[Form]:
    name = example.replace("/p", "").replace("/", ".")
    return [Form(name.replace(".", ", "), TOP / "examples" / f"{example}.tc", model, outcomes),
            Form(name.replace(".", ", "), TOP / "bench" / "exchanges" / f"{name}.tc", model, more)]


BROKEN = [
    *forms("ticket/p", "sc", 8, 8), *forms("ticket/early", "pso", 8, 8),
    *forms("michael-scott-tail/p", "sc", 5, 8), *forms("mcs-link/p", "pso", 8, 11),
]
MENDED = [
    *forms("ticket/mended", "pso", 5, 5), *forms("michael-scott-tail/mended", "pso", 5, 8), *forms("mcs-link/mended", "pso", 8, 11),
]


def paths(function, rounds):
    """How many ways lead from a function's first instruction to its exit on which no loop goes more rounds."""

    def ways(place, done):
        if place >= len(function.instrs):
            return 1
        if done.get(place, 0) > rounds:
            return 0
        done, instr = {**done, place: done.get(place, 0) + 1}, function.instrs[place]
        if instr[0] == "branch":
            return ways(place + 1, done) + ways(instr[2], done)
        return ways(instr[1] if instr[0] == "goto" else place + 1, done)

    return ways(0, {})


def first_possible(form):
    """How many logs `clap_debug_find` decides before the first possible one, and that log."""
    code = form.code()
    for number, (log, failing) in enumerate(finds.tried(code, "failure", form.outcomes)):
        made = finds.log_of(form.model, log, failing)
        if machine.search(code, made, form.model)[0] is not None:
            return number, made
    raise SystemExit(f"no log of {form.path} with {form.outcomes} outcomes is possible")


def counts(form):
    """A row for each kind of thread."""
    code, (number, log) = form.code(), first_possible(form)
    steps = sum(count for count, _ in log.threads.values())
    events = re.search(r"(\d+) events", machine.shown(code, log))[1]
    switches, _ = machine.fewest(code, log, form.model)
    for function in code.functions[:-1]:
        ways = [f"{paths(function, rounds):,}" for rounds in ROUNDS]
        yield [form.name, form.words, function.name, *ways, number, steps, events, switches]


def answers(form, find, clap_debug, room):
    """What the built programs say of a form, and their seconds."""
    log, out = room / "log", room / "out"
    given = ["--model", form.model]
    said = find_measure.measured(LIMIT, find, form.path, log, *given, "--outcomes", str(form.outcomes), "--logs", "4294967295")
    row = [form.name, form.words, form.model, form.outcomes, said.line or "no answer", f"{said.seconds:.2f}"]
    if said.status != 0:
        return [*row, "", ""]
    solved = find_measure.measured(LIMIT, clap_debug, "solve", form.path, log, out, *given)
    size = find_measure.measured(LIMIT, clap_debug, "cnf", form.path, log, out, *given)
    return [*row, size.line.removeprefix("cnf "), f"{solved.seconds:.2f}"]


def main(words):
    parser = argparse.ArgumentParser(usage=__doc__)
    parser.add_argument("--rewrite", action="store_true")
    parser.add_argument("--find")
    parser.add_argument("--clap-debug")
    given = parser.parse_args(words)
    if given.find and given.clap_debug:
        with tempfile.TemporaryDirectory() as room:
            rows = [answers(form, given.find, given.clap_debug, Path(room)) for form in BROKEN + MENDED]
        made = {"answers": clap.table(ANSWERS, rows)}
    else:
        made = {"counts": clap.table(COUNTS, [row for form in BROKEN for row in counts(form)])}
    for rows in made.values():
        print(*rows, sep="\n")
    if given.rewrite:
        keep(str(PAGE), "\n".join(clap.rewritten(PAGE.read_text().split("\n"), made)))


if __name__ == "__main__":
    run_main("exchanges.py", main)
