"""The logs of a translated litmus test: one for each combination of its threads' paths.

Paths are walked through the flat code that `clap_debug list` prints. A thread runs to its exit, and main to its assertion, which fails.
Paths that repeat the loop of an update are left out: for every run with one there is a run that reaches the same final state without,
in which the load comes directly before the `cas` that succeeds.
"""
import hashlib
import itertools
from dataclasses import dataclass
from typing import Dict, List, Sequence, Tuple

MODELS = ("sc", "tso", "pso")
MOST_LOGS = 64


class TooMany(Exception):
    """There are too many paths for a log each."""


@dataclass(frozen=True)
class Path:
    """A thread's path: its number of instructions and the outcomes of its branches."""

    steps: int = 0
    outcomes: Tuple[bool, ...] = ()

    def then(self, *outcomes: bool) -> "Path":
        """The path with one more instruction, and its outcome if it is a branch."""
        return Path(self.steps + 1, self.outcomes + outcomes)

    def spelled(self) -> str:
        return "".join("10"[not outcome] for outcome in self.outcomes)


def functions_of(listing: str) -> List[List[str]]:
    """The instructions of each function, main's last."""
    functions: List[List[str]] = []
    for line in listing.splitlines():
        number, rest = line.split(" ", 1)
        if number.isdigit():
            functions[-1].append(rest.split(" ", 1)[1])
        else:
            functions.append([])
    return functions


def paths_of(instructions: Sequence[str]) -> List[Path]:
    """The paths from the first instruction to an exit or an assertion."""
    found: List[Path] = []
    left = [(0, Path())]
    while left:
        at, path = left.pop()
        name, *rest = instructions[at].split(" ")
        if name in ("exit", "assert"):
            found.append(path.then())
        elif name == "branch":
            left.append((int(rest[-1]), path.then(False)))
            left.append((at + 1, path.then(True)))
        elif name == "goto":
            left += [(int(rest[-1]), path.then())] if int(rest[-1]) > at else []
        else:
            left.append((at + 1, path.then()))
        if len(found) + len(left) > MOST_LOGS:
            raise TooMany(f"a thread has more than {MOST_LOGS} paths")
    return found


def combinations_of(listing: str) -> List[Tuple[Path, ...]]:
    """Each combination of a path of main and one of each thread."""
    *threads, main = [paths_of(instructions) for instructions in functions_of(listing)]
    count = 1
    for paths in threads:
        count *= len(paths)
    if count > MOST_LOGS:
        raise TooMany(f"{count} logs would be needed, one for each combination of paths; the limit is {MOST_LOGS}")
    return list(itertools.product(main, *threads))


def two_bytes(number: int) -> bytes:
    return number.to_bytes(2, "big")


def path_bytes(path: Path) -> bytes:
    """A path in format 2: steps, number of branches, first outcome, and the lengths of runs of equal outcomes."""
    runs = [len(list(run)) for _, run in itertools.groupby(path.outcomes)]
    first = bytes(path.outcomes[:1])
    return two_bytes(path.steps) + two_bytes(len(path.outcomes)) + first + b"".join(map(two_bytes, runs))


def log_of(program: bytes, model: str, paths: Sequence[Path]) -> bytes:
    """A log of format 2 in which main fails. The threads are its children."""
    head = b"CLPL" + two_bytes(2) + bytes([MODELS.index(model)]) + hashlib.sha256(program).digest() + bytes([len(paths), 0])
    names = [b"\0", *(bytes([1, child]) for child in range(1, len(paths)))]
    return head + b"".join(name + path_bytes(path) for name, path in zip(names, paths))
