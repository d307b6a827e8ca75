"""Runs a compiled program again and again, and reads where its runs ended."""
import subprocess
from typing import Dict, Iterator, List, NamedTuple, Optional, Set, Type, Union
from types import TracebackType

from .code import EVENTS, Broken, Code
from .known import open_slots
from .log import End, Name, ThreadPath
from .walk import Given, Thread, Walker, without_idle_rounds

HOW = ["unused", "exited", "failed", "stopped"]


class Plan(NamedTuple):
    """How often, how long and where a program is run. `keep` is after how many different failures and deadlocks that ends."""

    cpus: List[int]
    runs: int = 10**9
    seconds: float = 10
    seed: int = 0
    keep: int = 10**9
    shorten: bool = False

    def words(self) -> List[str]:
        return [*map(str, (self.runs, self.seconds, self.seed, self.keep)), *map(str, self.cpus)]


class Counts(NamedTuple):
    """How many runs there were so far, and how many failed, came to a deadlock, were too long for a log, or hung."""

    done: int = 0
    failures: int = 0
    deadlocks: int = 0
    limits: int = 0
    lost: int = 0
    seconds: float = 0.0


def thread_of(text: str) -> Thread:
    parent, number, function, how, place, jumps, outcomes = text.split(":")
    return Thread(int(parent), int(number), int(function), HOW[int(how)], int(place), int(jumps), outcomes)


class Ends:
    """Makes ends of the lines that a compiled program prints."""

    def __init__(self, code: Code, shorten: bool) -> None:
        self.code, self.shorten = code, shorten
        self.unknown: List[Set[int]] = open_slots(code)

    def read(self, line: str) -> End:
        """The end of a run: `run NUMBER failed|deadlock INDEX THREAD..`, where each thread comes after its creator."""
        _, run, kind, failing, *texts = line.split()
        threads = [thread_of(it) for it in texts]
        names: List[Name] = []
        given: Dict[Name, Given] = {(): []}
        paths: Dict[Name, ThreadPath] = {}
        events = 0
        for thread in threads:
            name = (*names[thread.parent], thread.number) if names else ()
            names.append(name)
            function = self.code.functions[thread.function]
            path, creates = Walker(function, self.unknown[thread.function], thread, given[name]).walk()
            given.update(((*name, k), it) for k, it in enumerate(creates, 1))
            path = without_idle_rounds(function, path) if self.shorten else path
            paths[name] = ThreadPath(len(path), "".join(it.outcome for it in path))
            events += sum(function.instrs[it.at].word in EVENTS for it in path)
        if kind == "deadlock":
            return End(int(run), None, 0, paths, events)
        failed = threads[int(failing)]
        at = self.code.functions[failed.function].instrs[failed.place]
        return End(int(run), names[int(failing)], at.line, paths, events + 1)


class Runs:
    """The runs of a compiled program. Iterating gives each new end of a run that failed or came to a deadlock, and counts each time that
    there are new ones. It ends with the program, which never outlives it."""

    def __init__(self, code: Code, binary: str, plan: Plan) -> None:
        self.ends, self.counts = Ends(code, plan.shorten), Counts()
        self.process = subprocess.Popen([binary, *plan.words()], stdin=subprocess.DEVNULL, stdout=subprocess.PIPE, text=True,
                                        start_new_session=True)

    def __enter__(self) -> "Runs":
        return self

    def __exit__(self, kind: Optional[Type[BaseException]], fault: Optional[BaseException], trace: Optional[TracebackType]) -> None:
        self.process.kill()
        self.process.communicate()

    def __iter__(self) -> Iterator[Union[End, Counts]]:
        assert self.process.stdout is not None
        for line in self.process.stdout:
            words = line.split()
            if words[0] == "run":
                yield self.ends.read(line)
            elif words[0] == "counts":
                self.counts = Counts(*map(int, words[1:6]), float(words[6]))
                yield self.counts
            else:
                raise Broken(f"the compiled program says: {line.strip()}")
        status = self.process.wait()
        if status:
            raise Broken(f"the compiled program ends with status {status}")
