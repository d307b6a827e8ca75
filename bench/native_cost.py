#!/usr/bin/env python3
"""Measures what recording a native run costs, and whether the recorder hides the bug: the tables of docs/CLAP.md and of
bench/results/native-cost.md.

  native_cost.py [--rounds N] [--most M] [--seconds S] [--rewrite]     all tables
  native_cost.py --cost [--rounds N] [--most M] [--programs A,B]       the cost alone, of these programs if some are named
  native_cost.py --hides [--seconds S]                                 the bugs alone

Each program of bench/native_cost is built in four ways. It records nothing; each thread's own path, as CLAP does; or the order of the
accesses to each variable, as LEAP does, under a spin lock or under a pthread mutex. In each round a program runs once in each way, so
that whatever else the machine does meets all ways alike. There are N rounds, 9 if it isn't given, but none begins after M seconds, 15 if
it isn't given. Then three programs that fail natively run for S seconds in each way, 3 if it isn't given.

--rewrite puts the tables into these pages, each between a line `<!-- NAME -->` and the next `<!-- end -->`. Wants gcc, an x86-64 with two
processors, and a machine on which nothing else runs: the first table says what else did. Status 2: something is missing, or a run doesn't
end as it should.
"""
import argparse
import datetime
import os
import re
import resource
import shutil
import statistics
import subprocess
import sys
import tempfile
import time
import zlib
from concurrent.futures import ThreadPoolExecutor
from pathlib import Path
from typing import Dict, List, NamedTuple, Sequence

sys.dont_write_bytecode = True
TOP = Path(__file__).resolve().parent.parent
sys.path.insert(0, str(TOP / "tools"))
import built
import clap
import first_call
from kept_files import Refused, keep, run_main
from native_runs.code import Code, read_code
from native_runs.main import chosen_processors, positive, some_seconds
from native_runs.to_c import build

# The tables, by the pages that have them.
PAGES = {TOP / "docs" / "CLAP.md": ["cost", "hides"], TOP / "bench" / "results" / "native-cost.md": ["conditions", "times", "sizes", "hides"]}
PROGRAMS = {it.stem: it for it in sorted((TOP / "bench" / "native_cost").glob("*.tc"))}
BUGS = {f"examples/{it}": TOP / "examples" / it / "p.tc" for it in ("buffering", "dekker", "peterson")}
LONGEST_RUN = 65535  # of equal entries, whose length two bytes hold
LONGEST_ORDER = 1 << 24  # the accesses to a variable that a log has room for
PATIENCE = 60  # seconds that a run may take


class Way(NamedTuple):
    """What is recorded: its name, and the defines of native.h for it."""

    name: str
    defines: List[str]


NOTHING = Way("nothing", ["-DRECORD=0"])
PATHS = Way("paths", ["-DRECORD=1"])
SPIN = Way("order, spin lock", ["-DRECORD=2", f"-DLEAP_MOST={LONGEST_ORDER}"])
MUTEX = Way("order, mutex", [*SPIN.defines, "-DLEAP_PTHREAD"])
WAYS = [NOTHING, PATHS, SPIN, MUTEX]


class Took(NamedTuple):
    """What a run took: seconds of the processors for all threads but main, and seconds by the clock. Or multiples of another run's."""

    processor: float
    clock: float

    def over(self, other: "Took") -> "Took":
        return Took(self.processor / other.processor, self.clock / other.clock)

    def shown(self, digits: int) -> List[str]:
        return [f"{n:.{digits}f}" for n in self]


class Size(NamedTuple):
    """A log: its entries, and its bytes raw, as runs of equal entries, and deflated."""

    entries: int
    raw: int
    runs: int
    deflated: int

    def shown(self) -> List[str]:
        return [f"{n:,}" for n in self]


class Program(NamedTuple):
    """A program, with its binary for each way by the way's name."""

    name: str
    binaries: Dict[str, Path]


class Measured(NamedTuple):
    """What a program took in each round, by the way's name, and its logs."""

    name: str
    rounds: Dict[str, List[Took]]
    paths: Size
    order: Size

    def milliseconds(self, way: Way) -> List[float]:
        """Of the processors."""
        return [it.processor * 1000 for it in self.rounds[way.name]]

    def slowdowns(self, way: Way) -> List[Took]:
        """Of each round, how many times as long it took as with nothing recorded in that round."""
        return [it.over(bare) for it, bare in zip(self.rounds[way.name], self.rounds[NOTHING.name])]

    def slowdown(self, way: Way) -> Took:
        """The medians."""
        return Took(*map(statistics.median, zip(*self.slowdowns(way))))

    def better_lock(self) -> Way:
        """The lock under which the order is recorded in less processor time."""
        return min((SPIN, MUTEX), key=lambda way: self.slowdown(way).processor)


class Hidden(NamedTuple):
    """How many of a program's runs failed while something was recorded."""

    runs: int
    failures: int

    def shown(self) -> str:
        share = f" ({100 * self.failures / self.runs:.2f} %)" if self.runs else ""
        return f"{self.failures:,} of {self.runs:,}{share}"


# ---- Building and running --------------------------------------------------------------------------------------------------------

def all_compiled(paths: Dict[str, Path], room: Path, hunts: bool) -> List[Program]:
    """Programs in all ways, compiled as many at a time as there are processors."""
    tell("compiling")
    clap_debug = built.build("clap_debug")
    codes = [read_code(str(path), path.read_text(encoding="utf-8"), clap_debug) for path in paths.values()]
    with ThreadPoolExecutor(len(chosen_processors(None))) as pool:
        return list(pool.map(lambda name, code: compiled(name, code, room, hunts), paths, codes))


def compiled(name: str, code: Code, room: Path, hunts: bool) -> Program:
    """A program in all ways. Runs that hunt are disturbed so that they fail sooner; others leave their logs beside the binary."""
    binaries = {}
    for number, way in enumerate(WAYS):
        binary = binaries[way.name] = room / f"{name.replace('/', '-')}-{number}"
        defines = ["-DHUNT=1"] if hunts else ["-DHUNT=0", f'-DDUMP="{binary}.log"']
        build(code, str(binary), *way.defines, *defines)
    return Program(name, binaries)


def lines_of(binary: Path, runs: int, seconds: float) -> List[List[str]]:
    """The words of each line that a binary prints."""
    words = [str(binary), str(runs), str(seconds), "1", str(runs), *map(str, chosen_processors(None))]
    try:
        ran = subprocess.run(words, stdout=subprocess.PIPE, text=True, check=False, timeout=PATIENCE + seconds)
    except subprocess.TimeoutExpired:
        raise Refused(f"{binary.name} takes more than {PATIENCE + seconds:g} seconds: is the machine quiet?") from None
    lines = [line.split() for line in ran.stdout.splitlines()]
    if ran.returncode or not lines or lines[-1][0] != "counts":
        raise Refused(f"{binary.name} ended with status {ran.returncode} and said: {' '.join(lines[-1]) if lines else 'nothing'}")
    return lines


def taken(binary: Path) -> Took:
    """What one run took."""
    first, *_, counts = lines_of(binary, 1, PATIENCE)
    if first[0] != "took" or counts[1:6] != ["1", "0", "0", "0", "0"]:
        raise Refused(f"{binary.name} is to make one run that ends well, and says: {' '.join(counts)}")
    return Took(processor=float(first[2]), clock=float(first[1]))


def measured(program: Program, rounds: int, seconds: float) -> Measured:
    """Runs a program in all ways, round after round, each beginning with another way, and looks at its last logs. After so many
    seconds no round begins."""
    took: Dict[str, List[Took]] = {way.name: [] for way in WAYS}
    end = time.monotonic() + seconds
    for turn in range(rounds):
        if turn and time.monotonic() > end:
            break
        tell(f"{program.name}, round {turn + 1} of {rounds}")
        first = turn % len(WAYS)
        for way in WAYS[first:] + WAYS[:first]:
            took[way.name].append(taken(program.binaries[way.name]))
    return Measured(program.name, took, size_of_paths(program.binaries[PATHS.name]), size_of_order(program.binaries[SPIN.name]))


def logs_of(binary: Path) -> List[bytes]:
    """What the last run of a binary recorded: a byte for each entry, in a file for each thread, or for each variable and mutex."""
    return [path.read_bytes() for path in sorted(binary.parent.glob(f"{binary.name}.log.*"))]


def size_of_paths(binary: Path) -> Size:
    """Of each thread's outcomes, which raw are eight to a byte."""
    logs = logs_of(binary)
    return size_of(logs, sum((len(it) + 7) // 8 for it in logs), sum(bytes_of_outcomes(it) for it in logs))


def size_of_order(binary: Path) -> Size:
    """Of the accesses to each variable and mutex, each a byte that names the thread."""
    logs = logs_of(binary)
    if any(len(it) >= LONGEST_ORDER for it in logs):
        raise Refused(f"{binary.name} made more than {LONGEST_ORDER:,} accesses to a variable: make its program shorter")
    return size_of(logs, sum(map(len, logs)), sum(bytes_of_accesses(it) for it in logs))


def size_of(logs: List[bytes], raw: int, runs: int) -> Size:
    return Size(sum(map(len, logs)), raw, runs, sum(len(zlib.compress(it)) for it in logs if it))


def bytes_of_outcomes(outcomes: bytes) -> int:
    """The first outcome, and the length of each run of equal ones, as in a log of format 2."""
    return 1 + 2 * runs_of_equal(outcomes) if outcomes else 0


def bytes_of_accesses(threads: bytes) -> int:
    """The thread and the length of each run of accesses by one thread."""
    return 3 * runs_of_equal(threads)


def runs_of_equal(entries: bytes) -> int:
    """How many runs of equal entries there are, of which none is too long for two bytes."""
    return sum(-(-len(it[0]) // LONGEST_RUN) for it in re.finditer(rb"(.)\1*", entries, re.DOTALL))


def hunted(program: Program, seconds: float) -> List[Hidden]:
    """How many runs of a program fail in each way."""
    found = []
    for way in WAYS:
        tell(f"{program.name}, recorded: {way.name}")
        _, runs, failures, *_ = lines_of(program.binaries[way.name], 10**9, seconds)[-1]
        found.append(Hidden(int(runs), int(failures)))
    return found


def tell(line: str) -> None:
    """Shows how far it is, on a terminal."""
    if sys.stderr.isatty():
        sys.stderr.write(f"\r\033[K{line}")
        sys.stderr.flush()


# ---- Tables ----------------------------------------------------------------------------------------------------------------------

COST = ["program", "accesses", "paths: processor", "time", "log, raw", "as runs", "order: processor", "time", "lock", "log, raw", "as runs"]
TIMES = ["program", "recorded", "rounds", "milliseconds", "slowdown: processor", "time"]
SIZES = ["program", "outcomes", "raw", "as runs", "deflated", "accesses, locks", "raw", "as runs", "deflated"]


def cost(found: Sequence[Measured]) -> List[str]:
    """The page's table, and a sentence of what recording paths saves; of the order of accesses the better lock alone."""
    return [*clap.table(COST, [*map(cost_of, found), means(found)]), "", saved(found)]


def cost_of(it: Measured) -> List[str]:
    """A program's row."""
    lock = it.better_lock()
    _, paths_raw, paths_runs, _ = it.paths.shown()
    entries, order_raw, order_runs, _ = it.order.shown()
    return [it.name, entries, *it.slowdown(PATHS).shown(2), paths_raw, paths_runs,
            *it.slowdown(lock).shown(1), lock.name.split()[1], order_raw, order_runs]


def means(found: Sequence[Measured]) -> List[str]:
    """The last row."""
    paths, order = (Took(*map(statistics.geometric_mean, zip(*slowdowns)))
                    for slowdowns in ([it.slowdown(PATHS) for it in found], [it.slowdown(it.better_lock()) for it in found]))
    return ["geometric mean", "", *paths.shown(2), "", "", *order.shown(1), "", "", ""]


def saved(found: Sequence[Measured]) -> str:
    """What paths save of the order's overhead and of its raw log, as means over the programs."""
    shares = [saved_by(it) for it in found]
    processor, clock = (round(100 * statistics.mean(each)) for each in zip(*shares))
    raw = round(100 * statistics.mean(1 - it.paths.raw / it.order.raw for it in found))
    return (f"On average paths save {processor} percent of the processor time that recording the order adds, {clock} percent of what it "
            f"adds by the clock, and {raw} percent of the bytes of the raw log.")


def saved_by(it: Measured) -> Took:
    """The shares of the order's overhead that paths save, none where the order has none."""
    return Took(*(1 - max(0.0, paths - 1) / (order - 1) if order > 1 else 0.0
                  for paths, order in zip(it.slowdown(PATHS), it.slowdown(it.better_lock()))))


def times(found: Sequence[Measured]) -> List[str]:
    return clap.table(TIMES, [[it.name, way.name, len(it.rounds[way.name]), spread(it.milliseconds(way)), *map(spread, zip(*it.slowdowns(way)))]
                              for it in found for way in WAYS])


def spread(values: Sequence[float]) -> str:
    """The median, the least and the most."""
    return f"{statistics.median(values):,.2f} ({min(values):,.2f} to {max(values):,.2f})"


def sizes(found: Sequence[Measured]) -> List[str]:
    return clap.table(SIZES, [[it.name, *it.paths.shown(), *it.order.shown()] for it in found])


def hides(programs: Sequence[Program], seconds: float) -> List[str]:
    """A row for each program, with failures and runs in each way."""
    return clap.table(["program", *(way.name for way in WAYS)],
                      [[it.name, *(came.shown() for came in hunted(it, seconds))] for it in programs])


# ---- Conditions ------------------------------------------------------------------------------------------------------------------

class Conditions:
    """When, of which tree and on which machine this is measured, and what else the machine did meanwhile."""

    def __init__(self) -> None:
        if not shutil.which("gcc"):
            raise Refused("there is no gcc: apt-get install gcc")
        self.processors = len(chosen_processors(None))
        self.when = datetime.datetime.now(datetime.timezone.utc)
        self.begun, self.own, self.ticks = time.monotonic(), own_seconds(), first_call.ticks()

    def shown(self) -> str:
        own, ticks = own_seconds() - self.own, os.sysconf("SC_CLK_TCK")
        worked, stolen = ((now - before) / ticks for now, before in zip(first_call.ticks(), self.ticks))
        every = (time.monotonic() - self.begun) * os.cpu_count()
        others, host = (round(100 * max(0.0, it) / every, 1) for it in (worked - own, stolen))
        return (f"Measured on {self.when.day} {self.when:%B %Y} at {self.when:%H:%M} UTC, at commit {commit()}, on a machine of {self.processors} "
                f"processors ({model()}) with Linux {os.uname().release} and {said_by('gcc', '--version').splitlines()[0]}. Meanwhile other "
                f"processes took {others} percent of the processors' time, and the machine's host {host} percent.")


def own_seconds() -> float:
    """The processor time of this script and of all that it has run so far."""
    return sum(it.ru_utime + it.ru_stime for it in map(resource.getrusage, (resource.RUSAGE_SELF, resource.RUSAGE_CHILDREN)))


def commit() -> str:
    """The commit of the tree, and whether it was changed since."""
    try:
        changed = said_by("git", "-C", str(TOP), "status", "--porcelain", "--untracked-files=no")
        return said_by("git", "-C", str(TOP), "rev-parse", "--short=8", "HEAD") + (", with changes" if changed else "")
    except (OSError, subprocess.CalledProcessError):
        return "unknown"


def model() -> str:
    """The processor's name, as the system has it."""
    found = re.search(r"^model name\s*: *(.*)", Path("/proc/cpuinfo").read_text(encoding="utf-8", errors="replace"), re.M)
    return found[1] if found else "unknown"


def said_by(*words: str) -> str:
    return subprocess.run(words, stdout=subprocess.PIPE, stderr=subprocess.DEVNULL, text=True, check=True).stdout.strip()


# ---- Pages -----------------------------------------------------------------------------------------------------------------------

def refuse_pages_without_places() -> None:
    """Refuses, before anything is measured, pages without a place for each of their tables."""
    for page, names in PAGES.items():
        lines = page.read_text(encoding="utf-8").split("\n")
        for name in names:
            if lines.count(f"<!-- {name} -->") != 1 or "<!-- end -->" not in lines[lines.index(f"<!-- {name} -->"):]:
                raise Refused(f"{os.path.relpath(page)} wants one line <!-- {name} -->, and <!-- end --> behind it")


def rewrite(made: Dict[str, List[str]]) -> None:
    for page, names in PAGES.items():
        lines = page.read_text(encoding="utf-8").split("\n")
        keep(str(page), "\n".join(clap.rewritten(lines, {name: made[name] for name in names})))


def all_made(given: argparse.Namespace, room: Path) -> Dict[str, List[str]]:
    """All tables that are asked for, by the names of their places."""
    conditions, made = Conditions(), {}
    if not given.hides:
        programs = all_compiled({it: PROGRAMS[it] for it in given.programs}, room, hunts=False)
        found = [measured(it, given.rounds, given.most) for it in programs]
        made.update(cost=cost(found), times=times(found), sizes=sizes(found))
    if not given.cost:
        made["hides"] = hides(all_compiled(BUGS, room, hunts=True), given.seconds)
    return {"conditions": [conditions.shown()], **made}


def parsed(words: List[str]) -> argparse.Namespace:
    parser = argparse.ArgumentParser(usage=__doc__)
    parser.add_argument("--rounds", type=positive, default=9)
    parser.add_argument("--most", type=some_seconds, default=15)
    parser.add_argument("--seconds", type=some_seconds, default=3)
    parser.add_argument("--cost", action="store_true")
    parser.add_argument("--hides", action="store_true")
    parser.add_argument("--programs", type=lambda it: it.split(","), default=list(PROGRAMS))
    parser.add_argument("--rewrite", action="store_true")
    given = parser.parse_args(words)
    unknown = set(given.programs) - set(PROGRAMS)
    if unknown:
        raise Refused(f"there is no program {min(unknown)}: there are {', '.join(PROGRAMS)}")
    if given.cost and given.hides:
        raise Refused("--cost and --hides each leave out what the other asks for: give one, or none for all tables")
    if given.rewrite and (given.cost or given.hides or given.programs != list(PROGRAMS)):
        raise Refused("--rewrite wants all tables, measured in one run: leave out --cost, --hides and --programs")
    return given


def main(words: List[str]) -> None:
    given = parsed(words)
    if given.rewrite:
        refuse_pages_without_places()
    with tempfile.TemporaryDirectory() as room:
        made = all_made(given, Path(room))
    tell("")
    for lines in made.values():
        print(*lines, "", sep="\n")
    if given.rewrite:
        rewrite(made)


if __name__ == "__main__":
    run_main("native_cost.py", main)
