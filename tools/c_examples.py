#!/usr/bin/env python3
"""The table of the C programs in examples/c: records each by a seed with which it fails, and solves
its log under each memory model. Of each mended program it tries all runs under PSO, by
bench/machine.py.

    c_examples.py [--check | --rewrite] [--search] [NAME..]

Prints the table of examples/c/README.md; --rewrite puts it there, --check compares it with what is there. NOT PROVED; it wants what
tools/fromc wants, and a clap_debug, which CLAP_DEBUG may name."""
import argparse
import os
import re
import subprocess
import sys
import tempfile
from typing import Iterable, List, NamedTuple, Optional, Tuple

TOP = os.path.dirname(os.path.dirname(os.path.realpath(__file__)))
sys.path.insert(0, f"{TOP}/bench")
import machine  # noqa: E402
from built import build  # noqa: E402
from kept_files import keep, run_main  # noqa: E402

PAGE = f"{TOP}/examples/c/README.md"
MODELS = ("sc", "tso", "pso")
# The memory model under which each is recorded, and the first seed that fails, found by --search.
RECORDED = {
    "barrier": ("sc", 0), "bounded": ("sc", 0), "chase_lev": ("tso", 295), "dekker": ("tso", 170), "freed": ("sc", 14252), "hazard": ("tso", 69), "mcs": ("pso", 83563),
    "message": ("pso", 47), "ms_queue": ("pso", 6284), "once": ("pso", 11193), "peterson": ("tso", 290), "philosophers": ("sc", 1),
    "refcount": ("sc", 0), "ring": ("pso", 1500), "rwlock": ("sc", 10), "seqlock": ("pso", 642), "sleeper": ("tso", 5),
    "spinlock": ("pso", 510), "store_buffer": ("tso", 24), "ticket": ("pso", 25), "treiber": ("sc", 1), "wakeup": ("sc", 0),
}
SEARCHED = 100000
STEPS = "20000"
HEAD = ["| program | recorded | ends | `sc` | `tso` | `pso` | mended |", "|---|---|---|---|---|---|---|"]


class Found(NamedTuple):
    """A seed that leads to a failure or a deadlock, and the line that record said."""

    model: str
    seed: int
    line: str


def clap_debug(*words: str) -> Tuple[int, str]:
    done = subprocess.run([build("clap_debug"), *words], stdout=subprocess.PIPE, stderr=subprocess.DEVNULL, text=True, check=False)
    return done.returncode, done.stdout.strip()


def translate(name: str, folder: str, *words: str) -> str:
    """The translated program, and beside it the map of its lines."""
    out = f"{folder}/{name}.tc"
    subprocess.run([f"{TOP}/tools/fromc", f"{TOP}/examples/c/{name}.c", "-o", out, "--map", f"{folder}/{name}.map", *words],
                   stderr=subprocess.DEVNULL, check=True)
    return out


def recorded(program: str, log: str, model: str, seeds: Iterable[int]) -> Optional[Found]:
    """The first of these seeds that fails, if one does."""
    for seed in seeds:
        status, line = clap_debug("record", program, log, "--model", model, "--seed", str(seed), "--steps", STEPS)
        if status == 0:
            return Found(model, seed, line)
    return None


def line_in_c(line: str, lines: str) -> str:
    """The line of `record`, with the line in C."""
    found = re.match(r"failed (\S+) line (\d+) ", line)
    if not found:
        return "deadlock"
    with open(lines, encoding="utf-8") as file:
        known = dict(it.split()[:2] for it in file.read().splitlines()[1:])
    return f"`{found[1]}` at line {known[found[2]]}"


def row(name: str, folder: str, is_search: bool) -> str:
    """The row of the table of an example."""
    program, log = translate(name, folder), f"{folder}/log"
    model, known = RECORDED[name]
    found = recorded(program, log, model, range(SEARCHED) if is_search else [known])
    if found is None:
        return f"| [{name}]({name}.c) | `{model}`, no seed | | | | | {mended(name, folder)} |"
    says = [clap_debug("solve", program, log, f"{folder}/answer", "--model", it)[1] for it in MODELS]
    ends = line_in_c(found.line, f"{folder}/{name}.map")
    return f"| [{name}]({name}.c) | `{found.model}`, seed {found.seed} | {ends} | {' | '.join(says)} | {mended(name, folder)} |"


def mended(name: str, folder: str) -> str:
    """How some run of the mended program fails under PSO, by a search over all its states."""
    program = translate(name, folder, "-DMENDED")
    with open(program, encoding="utf-8") as file:
        code = machine.Code(file.read())
    end, state, made, _ = machine.explore(code, "pso")
    return line_in_c(machine.end_of(code, end, state, made), f"{folder}/{name}.map") if end else "no run fails"


def main(arguments: List[str]) -> int:
    parser = argparse.ArgumentParser(prog="c_examples.py", description="What clap_debug says of the C programs in examples/c.")
    parser.add_argument("names", nargs="*", metavar="NAME")
    parser.add_argument("--check", action="store_true", help="compare with the table of examples/c/README.md")
    parser.add_argument("--rewrite", action="store_true", help="put the table into examples/c/README.md")
    parser.add_argument("--search", action="store_true", help="record by one seed after another, and not by the one that is known")
    given = parser.parse_args(arguments)
    names = given.names or sorted(RECORDED)
    with tempfile.TemporaryDirectory() as folder:
        rows = []
        for name in names:
            rows.append(row(name, folder, given.search))
            print(rows[-1], flush=True)
    if not given.check and not given.rewrite:
        return 0
    with open(PAGE, encoding="utf-8") as file:
        text = file.read()
    if given.check:
        missing = [it for it in rows if it not in text.splitlines()]
        print(f"{len(missing)} rows aren't those of the page" if missing else "the rows are those of the page")
        return 1 if missing else 0
    table = "\n".join([*HEAD, *rows])
    keep(PAGE, re.sub(r"\| program \|.*?(?=\n\n)", lambda _: table, text, flags=re.S))
    return 0


if __name__ == "__main__":
    run_main("c_examples.py", main)
