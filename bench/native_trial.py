#!/usr/bin/env python3
"""Tries native runs for longer than tools/test_native.py does. Each log is solved under TSO and replayed, and it says how many of them are
impossible under sequential consistency.

  native_trial.py examples [NAME..] [--seconds S] [--quiet Q]
                               each program of examples/ and examples/c: what fails under TSO fails natively within S seconds (60), and
                               what doesn't, as the mended ones, doesn't within Q seconds (5)
  native_trial.py random FIRST COUNT [--seconds S]
                               so many random programs, for S seconds (2) each: every log is one that a search over all states of the TSO
                               machine finds; it says how many of those were reached
  native_trial.py litmus [NAME..] [--seconds S]
                               the litmus tests, for S seconds (2) each: no outcome comes that verdicts.md says TSO forbids
  native_trial.py code         each access of the examples is one instruction of the processor, in the order of the flat code
  native_trial.py faults [NAME..] [--all]
                               each wrong recorder is found by one of the tests that it names; with --all, says which of all tests find it

It wants an x86-64 with two processors and gcc; examples/c want clang. Ends with 1 where something is otherwise."""
import argparse
import itertools
import re
import subprocess
import sys
import tempfile
from pathlib import Path
from typing import Dict, Iterator, List, NamedTuple, Optional

sys.dont_write_bytecode = True
import machine
from kept_files import run_main
from native_trials import all_logs, faults, object_code
from native_trials.lab import Lab, Wrong, plan, processors, told

TOP = Path(__file__).resolve().parent.parent
MOST_STATES = 60000


class Told:
    """Counts what was tried, and says what is wrong."""

    def __init__(self) -> None:
        self.wrong = self.runs = self.logs = self.not_sc = 0

    def is_wrong(self, what: str) -> None:
        self.wrong += 1
        print(f"WRONG: {what}", flush=True)

    def log(self, lab: Lab, end) -> None:
        """Solves and replays a log."""
        try:
            lab.check(end)
        except Wrong as fault:
            self.is_wrong(f"{fault}\n{lab.text}")
            return
        self.logs += 1
        self.not_sc += not lab.is_possible(end, "sc")

    def total(self) -> str:
        return f"{self.runs} runs, {self.logs} logs solved under TSO and replayed, {self.not_sc} of them impossible under SC; {self.wrong} wrong"


# ---- Examples --------------------------------------------------------------------------------------------------------------------

class Example(NamedTuple):
    """A program, and whether some run of it fails under TSO."""

    name: str
    text: str
    fails: bool


def examples(names: List[str]) -> Iterator[Example]:
    """The programs of examples/. A broken one fails under TSO if its log has a schedule there."""
    for program in sorted(TOP.glob("examples/**/*.tc")):
        name = str(program.relative_to(TOP / "examples"))[:-3]
        if names and not any(it in name for it in names):
            continue
        text, log = program.read_text(), program.with_suffix(".log")
        with tempfile.TemporaryDirectory() as room:
            lab = Lab(room, text)
            fails = not name.endswith("mended") and lab.said("solve", str(program), str(log), lab.out, "--model", "tso")[0] == 0
        yield Example(name, text, fails)


def c_examples(names: List[str]) -> Iterator[Example]:
    """The programs of examples/c, of whose logs its page says under which models they are possible."""
    page = (TOP / "examples/c/README.md").read_text()
    for name, tso in re.findall(r"^\| \[\w+\]\((\w+)\.c\) \|[^|]*\|[^|]*\|[^|]*\| (\w+)", page, re.M):
        if names and not any(it in f"c/{name}" for it in names):
            continue
        for mended in ([], ["-DMENDED"]):
            with tempfile.TemporaryDirectory() as room:
                subprocess.run([TOP / "tools/fromc", TOP / f"examples/c/{name}.c", "-o", f"{room}/p.tc", *mended], check=True,
                               stderr=subprocess.DEVNULL)
                yield Example(f"c/{name}{' mended' if mended else ''}", Path(f"{room}/p.tc").read_text(), tso == "schedule" and not mended)


def try_example(it: Example, seconds: float, told_: Told) -> str:
    """Runs a program until it fails, or as long as it must not."""
    with tempfile.TemporaryDirectory() as room:
        lab = Lab(room, it.text)
        end = lab.first(plan(seconds, cpus=processors()))
        if end is not None:
            told_.runs += end.run
            told_.log(lab, end)
            if not it.fails:
                told_.is_wrong(f"{it.name} fails: {told(end)}")
            return f"{'deadlock' if end.failing is None else f'failed in line {end.line}'} in run {end.run}, {end.events} events"
        told_.runs += lab.counts.done
        if it.fails:
            told_.is_wrong(f"{it.name} doesn't fail in {lab.counts.done} runs, {seconds} seconds")
        return f"no failure in {lab.counts.done} runs, {lab.counts.seconds:.1f} seconds"


def try_examples(given: argparse.Namespace, told_: Told) -> None:
    for it in itertools.chain(examples(given.words), c_examples(given.words)):
        print(f"{it.name}: {try_example(it, (given.seconds or 60) if it.fails else given.quiet, told_)}", flush=True)


# ---- Random programs and litmus tests --------------------------------------------------------------------------------------------

def try_random(given: argparse.Namespace, told_: Told) -> None:
    first, count = map(int, given.words)
    tried = reached = possible = 0
    for seed in range(first, first + count):
        text = all_logs.drawn(seed)
        try:
            wanted = all_logs.all_ends(machine.Code(text), MOST_STATES)
        except all_logs.TooMany:
            continue
        with tempfile.TemporaryDirectory() as room:
            lab = Lab(room, text)
            ran = lab.ran(plan(given.seconds or 2, cpus=processors()))
            for end in ran.ends:
                told_.log(lab, end)
                if all_logs.as_ended(end) not in wanted:
                    told_.is_wrong(f"seed {seed}: no run of the machine ends so: {told(end)}\n{text}")
        told_.runs += ran.counts.done
        tried, reached, possible = tried + 1, reached + len(ran.ends), possible + len(wanted)
        print(f"seed {seed}: {len(ran.ends)} of {len(wanted)} logs in {ran.counts.done} runs", flush=True)
    print(f"{tried} programs: {reached} of the {possible} logs that the machine has, {told_.wrong} wrong")


def verdicts() -> Dict[str, bool]:
    """Of each litmus test whether TSO allows what it asks for."""
    page = (TOP / "examples/litmus/verdicts.md").read_text()
    return {name: tso == "allowed" for name, tso in re.findall(r"^\| \[([^\]]+)\]\([^)]*\) \|.*?\| (?:allowed|forbidden) \| (allowed|forbidden) \|", page, re.M)}


def try_litmus(given: argparse.Namespace, told_: Told) -> None:
    seen: Dict[bool, List[int]] = {True: [], False: []}
    for name, is_allowed in verdicts().items():
        if given.words and name not in given.words:
            continue
        with tempfile.TemporaryDirectory() as room:
            subprocess.run([TOP / "tools/litmus.py", TOP / f"examples/litmus/{name}.litmus", "--program", f"{room}/t.tc"], check=True)
            lab = Lab(room, Path(f"{room}/t.tc").read_text())
            end = lab.first(plan(given.seconds or 2, cpus=processors()))
            told_.runs += end.run if end else lab.counts.done
            if end:
                told_.log(lab, end)
            if end and not is_allowed:
                told_.is_wrong(f"{name}, which TSO forbids: {told(end)}")
        seen[is_allowed].append(end is not None)
        print(f"{name}: {'allowed' if is_allowed else 'forbidden'}, {f'seen in run {end.run}' if end else 'not seen'}", flush=True)
    print(f"seen: {sum(seen[True])} of {len(seen[True])} outcomes that TSO allows, {sum(seen[False])} of {len(seen[False])} that it forbids")


# ---- Object code and faults ------------------------------------------------------------------------------------------------------

def try_code(given: argparse.Namespace, told_: Told) -> None:
    functions = accesses = 0
    for it in itertools.chain(examples(given.words), c_examples(given.words)):
        with tempfile.TemporaryDirectory() as room:
            found = object_code.compared(Lab(room, it.text).code, room)
        functions, accesses = functions + found.functions, accesses + found.accesses
        for line in found.differing:
            told_.is_wrong(f"{it.name}: {line}")
    print(f"{functions} functions with {accesses} accesses and fences are compiled as they are in the flat code, but for {told_.wrong}")


def try_faults(given: argparse.Namespace, told_: Told) -> None:
    for name, fault in faults.FAULTS.items():
        if given.words and name not in given.words:
            continue
        found = faults.failing(fault, [] if given.all else fault.tests)
        if not found:
            told_.is_wrong(f"{name}: no test finds it")
        print(f"{name}: found by {', '.join(found) or 'nothing'}", flush=True)


TRIALS = {"examples": try_examples, "random": try_random, "litmus": try_litmus, "code": try_code, "faults": try_faults}


def words(arguments: Optional[List[str]] = None) -> argparse.Namespace:
    parser = argparse.ArgumentParser(usage=__doc__)
    parser.add_argument("trial", choices=TRIALS)
    parser.add_argument("words", nargs="*")
    parser.add_argument("--seconds", type=float)
    parser.add_argument("--quiet", type=float, default=5)
    parser.add_argument("--all", action="store_true")
    return parser.parse_args(arguments)


def main() -> int:
    given, told_ = words(), Told()
    TRIALS[given.trial](given, told_)
    if told_.runs:
        print(told_.total())
    return 1 if told_.wrong else 0


if __name__ == "__main__":
    run_main("native_trial.py", lambda _: main())
