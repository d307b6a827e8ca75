"""Native runs for tests: a program is compiled and run, all its different ends are kept, and each log is solved under TSO and replayed.
The package native_runs is that of tools/, or of the folder that NATIVE_TOOLS names: tests are run over a spoilt copy there."""
import os
import subprocess
import sys
import time
from typing import Iterator, List, NamedTuple, Optional, Tuple

TOP = os.path.dirname(os.path.dirname(os.path.dirname(os.path.realpath(__file__))))
TOOLS = os.environ.get("NATIVE_TOOLS", f"{TOP}/tools")
sys.path[:0] = [TOOLS, f"{TOP}/tools"]
from built import build as build_clap_debug  # noqa: E402
from native_runs import to_c  # noqa: E402
from native_runs.code import Code, read_code  # noqa: E402
from native_runs.log import End, fits, log_of, spelled  # noqa: E402
from native_runs.runs import Counts, Plan, Runs  # noqa: E402


class Wrong(Exception):
    """A log that no run of the machine has, or that isn't of its program."""


def told(end: End) -> str:
    """An end in a line that isn't too long."""
    threads = [f"{spelled(name)}:{it.steps}:{it.outcomes[:60]}{'..' if len(it.outcomes) > 60 else ''}" for name, it in sorted(end.threads.items())]
    what = "deadlock" if end.failing is None else f"{spelled(end.failing)} fails in line {end.line}"
    return f"run {end.run}, {what}, {end.events} events, {' '.join(threads)}"


class Ran(NamedTuple):
    """What runs came to: the different ends that a log has room for, those that it hasn't, and the counts."""

    ends: List[End]
    too_long: List[End]
    counts: Counts


class Lab:
    """A program in a folder of its own."""

    def __init__(self, room: str, text: str) -> None:
        self.room, self.text = room, text
        self.program, self.log, self.out = f"{room}/p.tc", f"{room}/p.log", f"{room}/p.out"
        with open(self.program, "w", encoding="utf-8") as file:
            file.write(text)
        self.clap_debug = build_clap_debug("clap_debug")
        self.code: Code = read_code(self.program, text, self.clap_debug)
        self.is_built = False

    def said(self, *words: str) -> Tuple[int, str]:
        """The status and the line of clap_debug."""
        done = subprocess.run([self.clap_debug, *words], stdout=subprocess.PIPE, stderr=subprocess.DEVNULL, text=True, check=False)
        return done.returncode, done.stdout.strip()

    def each(self, plan: Plan) -> Iterator[End]:
        """The different ends of runs, as they come."""
        if not self.is_built:
            to_c.build(self.code, f"{self.room}/p")
            self.is_built = True
        with Runs(self.code, f"{self.room}/p", plan) as runs:
            for it in runs:
                if isinstance(it, End):
                    yield it
            self.counts = runs.counts

    def ran(self, plan: Plan) -> Ran:
        """All ends of runs."""
        ends = list(self.each(plan))
        return Ran([it for it in ends if fits(it)], [it for it in ends if not fits(it)], self.counts)

    def first(self, plan: Plan) -> Optional[End]:
        """The first end that a log has room for."""
        found = self.each(plan)
        end = next((it for it in found if fits(it)), None)
        found.close()
        return end

    def bytes_of(self, end: End) -> bytes:
        return log_of(self.text.encode(), end)

    def check(self, end: End) -> None:
        """Solves the log of a run under TSO, and replays the schedule."""
        with open(self.log, "wb") as file:
            file.write(self.bytes_of(end))
        status, line = self.said("solve", self.program, self.log, self.out, "--model", "tso")
        if status != 0 or not line.startswith("schedule "):
            raise Wrong(f"solve says {line[:200]!r} of a native log: {told(end)}")
        if self.said("replay", self.program, self.log, self.out) != (0, "reproduces"):
            raise Wrong(f"the schedule of a native log isn't replayed: {told(end)}")

    def is_possible(self, end: End, model: str) -> bool:
        """Whether a log is one of this model too."""
        with open(self.log, "wb") as file:
            file.write(self.bytes_of(end))
        return self.said("solve", self.program, self.log, self.out, "--model", model)[0] == 0


def processors() -> List[int]:
    return sorted(os.sched_getaffinity(0))


def plan(seconds: float, **more: object) -> Plan:
    """Some seconds of runs on two processors, by another seed each time."""
    return Plan(**{"cpus": processors()[:2], "seconds": seconds, "seed": time.time_ns() % 2**32, **more})
