#!/usr/bin/env python3
"""Measures each log of examples/clap in one run: the tables of bench/results/clap.md, and that of
docs/CLAP.md.

  clap.py [--rewrite] [--program P]

P is the built program clap_debug, out/clap_debug where none is given. Seconds are of the processor, the user's and the system's, and
memory is the most that the program had. Prints the tables, and with --rewrite puts them into these pages, each between a line
`<!-- NAME -->` and the next `<!-- end -->`. Ends with 1 where an answer isn't the one that the pages of the examples want.
"""
import argparse
import os
import sys
import tempfile
from dataclasses import dataclass
from pathlib import Path

sys.dont_write_bytecode = True
import examples
import machine
import solve
from kept_files import keep, run_main

TOP = Path(__file__).resolve().parent.parent
PAGES = [TOP / "docs" / "CLAP.md", TOP / "bench" / "results" / "clap.md"]
SHARED = machine.EXCHANGES | {"load", "loadat", "store", "storeat"}
SECONDS = 120
SIZES = ["bug", "threads", "shared accesses", "events", "bytes, format 1", "bytes, format 2", "variables", "clauses"]
BUGS = ["bug", "threads", "shared accesses", "events", "log, bytes", "clauses", "model", "seconds", "fewest switches", "mended: lines"]
TIMES = ["bug", "model", "first: seconds", "MB", "switches", "least: seconds", "switches", "mended: lines", "seconds", "`check`: seconds"]


@dataclass
class Bug:
    """A folder of examples/clap, with its program and its log under one model."""

    name: str
    program: Path
    log: Path
    model: str

    def words(self, stem="p"):
        return [self.program.with_name(f"{stem}.tc"), self.log.with_name(f"{stem}.log")]


class Runner:
    """The built program, in a scratch folder."""

    def __init__(self, program, room):
        self.program, self.room = program, Path(room)

    def measured(self, wanted, *words):
        """The line that a command prints, which begins as is wanted, with its seconds and megabytes."""
        ran = solve.run(SECONDS, self.program, *map(str, words))
        if ran is None or not ran[0].startswith(wanted):
            raise SystemExit(f"clap_debug {' '.join(map(str, words))} says {ran and ran[0]!r}, and is to say {wanted!r}")
        line, _, seconds, memory = ran
        return line, f"{seconds:.2f}", f"{memory:.0f}"


def bugs():
    """Each of the examples under each model in which its log is possible, by the verdicts of its page."""
    for folder in sorted((TOP / "examples" / "clap").iterdir()):
        row = next(it for it in (folder / "README.md").read_text().splitlines() if it.startswith("| `p` |"))
        for model, cell in zip(machine.MODELS, row.split(" | ")[1:]):
            if "switches" in cell:
                yield Bug(folder.name, folder / "p.tc", folder / "p.log", model)


def accesses_of(code, log):
    """How often the threads of a log access shared memory."""
    return sum(word in SHARED for _, _, path in machine.walked(code, log) for word, _ in path)


def bytes_in_format_1(log):
    """The size of a log in format 1, which has no digest, and a bit for each outcome."""
    return 9 + sum(5 + len(name) + (len(outcomes) + 7) // 8 for name, (_, outcomes) in log.threads.items())


def sizes(runner, bug):
    """The sizes of a log and its clauses."""
    code, log = machine.Code(bug.program.read_text()), machine.Log.read(bug.log.read_bytes())
    events = machine.shown(code, log).split("\n")[0].split()[-2]
    line, *_ = runner.measured("cnf ", "cnf", *bug.words(), runner.room / "list", "--model", bug.model)
    _, variables, _, clauses, _ = line.replace(",", "").split()
    return [bug.name, len(log.threads), accesses_of(code, log), events, bytes_in_format_1(log), bug.log.stat().st_size,
            f"{int(variables):,}", f"{int(clauses):,}"]


def times(runner, bug):
    """The time of the searches for a schedule, the least one, and the mended program's
    refutation."""
    out, fewer = runner.room / "out", runner.room / "fewer"
    _, seconds, memory = runner.measured("schedule ", "solve", *bug.words(), out, "--model", bug.model)
    first = examples.switches_of(out, bug.log)
    least, more, _ = runner.measured("schedule ", "solve", *bug.words(), out, "--model", bug.model, "--least", fewer)
    refuted, needed, _ = runner.measured("impossible, ", "solve", *bug.words("mended"), out, "--model", bug.model)
    _, checked, _ = runner.measured("accepted, impossible", "check", *bug.words("mended"), out)
    return [bug.name, bug.model, seconds, memory, first, more, least.split()[-2], refuted.split()[1], needed, checked]


def table(heads, rows):
    return [f"| {' | '.join(heads)} |", "|---" * len(heads) + "|", *(f"| {' | '.join(map(str, row))} |" for row in rows)]


def both(size, time):
    """The row of a bug on the page: its log, and its search under the strictest model."""
    return [*(size[k] for k in (0, 1, 2, 3, 5, 7)), *(time[k] for k in (1, 2, 6, 7))]


def rewritten(lines, made):
    """The lines of a page with the tables that it has."""
    for name, rows in made.items():
        if f"<!-- {name} -->" in lines:
            at = lines.index(f"<!-- {name} -->")
            lines[at + 1 : lines.index(examples.LAST, at)] = ["", *rows, ""]
    return lines


def main(words):
    parser = argparse.ArgumentParser(usage=__doc__)
    parser.add_argument("--rewrite", action="store_true")
    parser.add_argument("--program", default=TOP / "out" / "clap_debug")
    given = parser.parse_args(words)
    found = list(bugs())
    firsts = {bug.name: bug for bug in reversed(found)}
    with tempfile.TemporaryDirectory() as room:
        runner = Runner(os.path.abspath(given.program), room)
        size = {name: sizes(runner, firsts[name]) for name in sorted(firsts)}
        time = [times(runner, bug) for bug in found]
    made = {
        "bugs": table(BUGS, [both(size[name], next(it for it in time if it[0] == name)) for name in size]),
        "sizes": table(SIZES, size.values()),
        "times": table(TIMES, time),
    }
    for rows in made.values():
        print(*rows, "", sep="\n")
    if given.rewrite:
        for page in PAGES:
            keep(str(page), "\n".join(rewritten(page.read_text().split("\n"), made)))


if __name__ == "__main__":
    run_main("clap.py", main)
