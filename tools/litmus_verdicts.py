#!/usr/bin/env python3
"""Finds the verdicts of the litmus tests of a folder and compares them with its table. NOT PROVED: it runs `solve`, and follows each
schedule by `replay` and `clap_debug_show`, and each refutation by `check`.

    litmus_verdicts.py [FOLDER] [--rewrite] [--clap-debug C] [--show S]

FOLDER is by default examples/litmus. A test is allowed under a model if `solve` finds a schedule of one of its logs, and forbidden if
it refutes all of them. The table is in verdicts.md. A row has the test, its condition, the verdicts under sc, tso and pso, the
published verdicts for TSO and PSO, empty if there is none, and a remark. --rewrite writes the conditions and the verdicts anew and
keeps all else. It appends a row for each test that has none.

  --clap-debug C   the program, by default ./clap_debug of this checkout
  --show S         the program that shows a run, by default ./clap_debug_show

Status 0: each verdict is that of the table, and each that differs from a published one has a remark. 1: a line is printed for each
fault. 2: the words or files can't be used.
"""
import argparse
import concurrent.futures
import os
import subprocess
import sys
import tempfile
from dataclasses import dataclass
from typing import Dict, List, Tuple

sys.dont_write_bytecode = True
import litmus
from from_litmus.logs import MODELS, TooMany, combinations_of, log_of
from from_litmus.programs import Program
from from_litmus.source import Refused
from kept_files import keep, run_main

TOP = os.path.dirname(os.path.dirname(os.path.abspath(__file__)))
ALLOWED, FORBIDDEN = "allowed", "forbidden"


class Wrong(Exception):
    """A program gave an answer that it shouldn't."""


@dataclass(frozen=True)
class Programs:
    """The programs to run."""

    clap_debug: str
    show: str

    def answer(self, program: str, *words: str) -> Tuple[int, str]:
        done = subprocess.run([program, *words], stdin=subprocess.DEVNULL, stdout=subprocess.PIPE, stderr=subprocess.PIPE, text=True)
        return done.returncode, done.stdout.rstrip("\n")

    def expect(self, wanted: str, *words: str) -> None:
        status, line = self.answer(self.clap_debug, *words)
        if (status, line) != (0, wanted):
            raise Wrong(f"{words[0]} should answer {wanted}, and answers {line} with status {status}")

    def is_possible(self, program: str, log: str, model: str) -> bool:
        """Whether a schedule reproduces the log. Replays and shows the schedule, or checks the refutation."""
        out = f"{log}.{model}"
        status, line = self.answer(self.clap_debug, "solve", program, log, out, "--model", model)
        if status == 0:
            self.expect("reproduces", "replay", program, log, out)
            if self.answer(self.show, program, out)[0] != 0:
                raise Wrong(f"clap_debug_show doesn't show the schedule under {model}")
            return True
        if status != 1:
            raise Wrong(f"solve under {model} answers {line} with status {status}")
        self.expect("accepted, impossible", "check", program, log, out)
        return False


@dataclass(frozen=True)
class Verdicts:
    """The condition of a test, and the verdict under each model."""

    condition: str
    of: Tuple[str, ...]


def verdicts_of(path: str, programs: Programs) -> Verdicts:
    with open(path, encoding="utf-8") as file:
        test = litmus.read_test(file.read())
    program = Program(test).text().encode()
    with tempfile.TemporaryDirectory() as folder:
        litmus.keep(f"{folder}/p.tc", program)
        logs: List[str] = []
        for paths in combinations_of(litmus.listing_of(program, programs.clap_debug)):
            logs.append(f"{folder}/{len(logs)}.log")
            litmus.keep(logs[-1], log_of(program, "tso", paths))
        found = [[programs.is_possible(f"{folder}/p.tc", log, model) for log in logs] for model in MODELS]
    return Verdicts(test.condition.text, tuple(ALLOWED if any(of) else FORBIDDEN for of in found))


@dataclass
class Row:
    """A row of the table: the name of the test, and the other cells."""

    name: str
    cells: List[str]

    def line(self) -> str:
        return f"| [{self.name}]({self.name}.litmus) | " + " | ".join(self.cells) + " |"

    def verdicts(self) -> Verdicts:
        return Verdicts(self.cells[0].strip("`"), tuple(self.cells[1:4]))

    def write(self, verdicts: Verdicts) -> None:
        self.cells[:4] = [f"`{verdicts.condition}`", *verdicts.of]

    def is_unexplained(self) -> bool:
        """Whether a verdict differs from a published one, and there is no remark."""
        published = zip(self.cells[2:4], self.cells[4:6])
        return not self.cells[6] and any(there not in ("", here) for here, there in published)


def row_of(line: str) -> Row:
    cells = [cell.strip() for cell in line.strip().strip("|").split("|")]
    if len(cells) != 8:
        raise ValueError(f"verdicts.md: expected 8 cells, found {len(cells)}: {line.strip()}")
    return Row(cells[0][1 : cells[0].index("]")], cells[1:])


class Table:
    """The table of a folder, and the other lines of its page."""

    def __init__(self, folder: str) -> None:
        self.folder, self.path = folder, f"{folder}/verdicts.md"
        with open(self.path, encoding="utf-8") as file:
            lines = file.read().splitlines()
        self.lines = [row_of(line) if line.startswith("| [") else line for line in lines]
        self.rows = {line.name: line for line in self.lines if isinstance(line, Row)}

    def rewrite(self, found: Dict[str, Verdicts]) -> None:
        for name, verdicts in found.items():
            if name not in self.rows:
                self.rows[name] = Row(name, [""] * 7)
                self.lines.append(self.rows[name])
            self.rows[name].write(verdicts)
        keep(self.path, ((line.line() if isinstance(line, Row) else line) + "\n" for line in self.lines))

    def has(self, name: str) -> bool:
        """Whether the folder has the test."""
        return os.path.exists(f"{self.folder}/{name}.litmus")

    def faults(self, found: Dict[str, Verdicts]) -> List[str]:
        """Where the table differs from what was found."""
        faults = [f"{name}: in the table, but not in the folder" for name in self.rows if not self.has(name)]
        for name, verdicts in found.items():
            if name not in self.rows:
                faults.append(f"{name}: in the folder, but not in the table")
            elif self.rows[name].verdicts() != verdicts:
                verdict = ", ".join(f"{of} under {model}" for of, model in zip(verdicts.of, MODELS))
                faults.append(f"{name}: {verdicts.condition} is {verdict}; the table differs")
            elif self.rows[name].is_unexplained():
                faults.append(f"{name}: a verdict differs from the published one, and there is no remark")
        return faults


def find(folder: str, programs: Programs) -> Tuple[Dict[str, Verdicts], List[str]]:
    """The verdicts of the folder's tests by name, and the faults of the others."""
    names = sorted(name[: -len(".litmus")] for name in os.listdir(folder) if name.endswith(".litmus"))
    if not names:
        raise OSError(f"{folder} has no files that end in .litmus")
    found, faults = {}, []
    with concurrent.futures.ThreadPoolExecutor(os.cpu_count()) as pool:
        for name, future in [(name, pool.submit(verdicts_of, f"{folder}/{name}.litmus", programs)) for name in names]:
            try:
                found[name] = future.result()
            except Refused as why:
                faults.append(f"{name}: line {why.line}: {why}")
            except (TooMany, Wrong) as why:
                faults.append(f"{name}: {why}")
    return found, faults


def main(given: List[str]) -> int:
    words = argparse.ArgumentParser(description=__doc__, formatter_class=argparse.RawDescriptionHelpFormatter)
    words.add_argument("folder", nargs="?", default=f"{TOP}/examples/litmus")
    words.add_argument("--rewrite", action="store_true")
    words.add_argument("--clap-debug", default=f"{TOP}/clap_debug")
    words.add_argument("--show", default=f"{TOP}/clap_debug_show")
    taken = words.parse_args(given)
    try:
        table = Table(taken.folder)
        found, faults = find(taken.folder, Programs(taken.clap_debug, taken.show))
        if taken.rewrite:
            table.rewrite(found)
        faults += table.faults(found)
    except (OSError, ValueError) as why:
        print(f"litmus_verdicts.py: {why}", file=sys.stderr)
        return 2
    for fault in faults:
        print(fault, file=sys.stderr)
    if not faults:
        print(f"{len(found)} litmus tests have the verdicts of {os.path.relpath(table.path)}")
    return 1 if faults else 0


if __name__ == "__main__":
    run_main("litmus_verdicts.py", main)
