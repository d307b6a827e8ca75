"""The command tools/native."""
import argparse
import math
import os
import shutil
import signal
import sys
import tempfile
from typing import List, Optional

from built import build as build_clap_debug
from kept_files import Ended, Refused, keep, refuse_clashes

from .log import End, fits, log_of, spelled
from .programs import Kept, Program, place_of, read_program, refuse_unwritable
from .runs import Counts, Plan, Runs
from .to_c import build

DESCRIPTION = """Runs a program again and again on this machine's own processors, with real threads, until a run fails or comes to a
deadlock, and writes the log of that run for clap_debug. PROGRAM is a program of clap_debug, or a C file (its name ends in .c), which
tools/fromc translates. Its threads are disturbed so that they fail sooner: they begin together, wait at times, and fill their store
buffers. NOT PROVED: nothing but tests says that the log is of a run of this machine; that the log leads to the failure is proved as for
every other log, by solve. docs/NATIVE.md has the details."""

STATUS = """status 0: a run failed or came to a deadlock, and LOG is kept; 1: no run of these did; 2: refused, in one line; 130: stopped by
Ctrl-C. A line for each: `failed 0 line 24 in run 209, 15 events`, `deadlock in run 12, 4 events`, `no failure in 156991 runs, 4.0
seconds`."""


# ---- Words -----------------------------------------------------------------------------------------------------------------------

def positive(text: str) -> int:
    number = int(text)
    if not 1 <= number < 2**63:
        raise ValueError
    return number


def some_seconds(text: str) -> float:
    number = float(text)
    if not (number > 0 and math.isfinite(number)):
        raise ValueError
    return number


def seed(text: str) -> int:
    number = int(text)
    if not 0 <= number < 2**64:
        raise ValueError
    return number


def processors(text: str) -> List[int]:
    numbers = [int(it) for it in text.split(",")]
    if min(numbers) < 0:
        raise ValueError
    return sorted(set(numbers))


def words(arguments: List[str]) -> argparse.Namespace:
    parser = argparse.ArgumentParser(prog="native", description=DESCRIPTION, epilog=STATUS)
    parser.add_argument("program", metavar="PROGRAM")
    parser.add_argument("log", metavar="LOG")
    parser.add_argument("--runs", type=positive, default=10**18, metavar="N", help="how many runs at most")
    parser.add_argument("--seconds", type=some_seconds, default=10.0, metavar="S", help="how long at most; 10 if it isn't given")
    parser.add_argument("--seed", type=seed, default=0, metavar="N", help="chooses how the runs are disturbed; 0 if it isn't given")
    parser.add_argument("--cpus", type=processors, metavar="A,B", help="the processors to run on; all that there are if it isn't given")
    parser.add_argument("--shorten", action="store_true",
                        help="leave out of the log the rounds of loops that only look, as while one waits for another")
    parser.add_argument("--keep", metavar="P.tc",
                        help="of a C file: where the translated program goes, with its map of lines in P.map; if it isn't given, beside "
                             "LOG. It is kept with LOG alone, for solve and clap_debug_show")
    return parser.parse_args(arguments)


def chosen_processors(asked: Optional[List[int]]) -> List[int]:
    """The processors to run on. Refuses machines on which no run says anything."""
    if os.uname().machine != "x86_64":
        raise Refused(f"this machine is {os.uname().machine}, and native runs are for x86-64 alone")
    allowed = sorted(os.sched_getaffinity(0))
    barred = [it for it in asked or [] if it not in allowed]
    if barred:
        raise Refused(f"processor {barred[0]} can't be used: there are {','.join(map(str, allowed))}")
    chosen = asked or allowed
    if len(chosen) < 2:
        raise Refused(f"native runs need two processors, and there is processor {chosen[0]} alone")
    return chosen


# ---- Hunting ---------------------------------------------------------------------------------------------------------------------

class Progress:
    """Runs and seconds on standard error, if that is a terminal."""

    def __init__(self) -> None:
        self.is_shown = sys.stderr.isatty()
        self.width = 0

    def show(self, counts: Counts) -> None:
        self.put(f"{counts.done} runs, {counts.seconds:.1f} seconds")

    def clear(self) -> None:
        self.put("")

    def put(self, text: str) -> None:
        if self.is_shown:
            sys.stderr.write(f"\r{text:{self.width}}" + ("" if text else "\r"))
            sys.stderr.flush()
            self.width = len(text)


def hunt(runs: Runs, too_long: List[End]) -> Optional[End]:
    """The first end of a run that fits a log, if there is one; others are added to `too_long`."""
    progress = Progress()
    try:
        for it in runs:
            if isinstance(it, Counts):
                progress.show(it)
            elif fits(it):
                return it
            else:
                too_long.append(it)
        return None
    finally:
        progress.clear()


def what_came(program: Program, end: End) -> str:
    what = "deadlock" if end.failing is None else f"failed {spelled(end.failing)} line {program.line(end.line)}"
    return f"{what} in run {end.run}, {end.events} events"


def nothing_came(counts: Counts, too_long: int) -> str:
    what = "no failure" if not too_long else "no failure that a log has room for"
    return f"{what} in {counts.done} runs, {counts.seconds:.1f} seconds"


def note(counts: Counts, too_long: int) -> None:
    """Says on standard error which runs told nothing."""
    if too_long:
        print(f"native: {too_long} different failures had too many events for a log; fewer rounds or threads, or --shorten, may help",
              file=sys.stderr)
    if counts.limits:
        print(f"native: {counts.limits} runs were too long for a log", file=sys.stderr)
    if counts.lost:
        print(f"native: {counts.lost} runs hung, and were no deadlocks", file=sys.stderr)


def keep_all(program: Program, end: End, log: str, kept: Optional[Kept]) -> None:
    """Writes the log, and before it a translated program with its map. No signal comes between."""
    signal.pthread_sigmask(signal.SIG_BLOCK, [signal.SIGINT, signal.SIGTERM, signal.SIGHUP])
    if program.lines and kept:
        keep(kept.program, program.text)
        keep(kept.map, program.lines.map)
    keep(log, log_of(program.text, end))


def say(line: str) -> None:
    print(line, flush=True)


def run(given: argparse.Namespace, room: str) -> int:
    """Reads, compiles and runs the program."""
    is_c = given.program.endswith(".c")
    if given.keep and not is_c:
        raise Refused(f"--keep is for C files, and {given.program} is none")
    cpus = chosen_processors(given.cpus)
    if not shutil.which("gcc"):
        raise Refused("there is no gcc, which compiles the program: apt-get install gcc")
    kept = place_of(given.program, given.log, given.keep) if is_c else None
    outputs = [given.log, *(kept or [])]
    refuse_clashes([given.program], outputs)
    for path in outputs:
        refuse_unwritable(path)
    program = read_program(given.program, build_clap_debug("clap_debug"), room)
    refuse_clashes(program.inputs(), outputs)
    build(program.code, f"{room}/p")
    return run_compiled(program, f"{room}/p", Plan(cpus, given.runs, given.seconds, given.seed, shorten=given.shorten), given.log, kept)


def run_compiled(program: Program, binary: str, plan: Plan, log: str, kept: Optional[Kept]) -> int:
    """Runs the compiled program, and keeps or says what came."""
    too_long: List[End] = []
    with Runs(program.code, binary, plan) as runs:
        try:
            end = hunt(runs, too_long)
        except (KeyboardInterrupt, Ended) as stop:
            say(f"stopped: {nothing_came(runs.counts, len(too_long))}")
            return 128 + (stop.number if isinstance(stop, Ended) else signal.SIGINT)
    if end is None:
        say(nothing_came(runs.counts, len(too_long)))
        note(runs.counts, len(too_long))
        return 1
    keep_all(program, end, log, kept)
    say(what_came(program, end))
    if kept:
        print(f"native: {kept.program} has the program, {kept.map} its lines in {program.inputs()[0]}", file=sys.stderr)
    return 0


def main(arguments: List[str]) -> int:
    given = words(arguments)
    with tempfile.TemporaryDirectory(prefix="native") as room:
        return run(given, room)
