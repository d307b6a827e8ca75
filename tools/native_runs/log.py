"""The log of a run, as docs/FORMATS.md has it: format 2, under TSO."""
import hashlib
import re
from typing import Dict, NamedTuple, Optional, Tuple

from .code import MOST_CHILDREN, MOST_DEPTH, MOST_EVENTS, MOST_STEPS

Name = Tuple[int, ...]


class ThreadPath(NamedTuple):
    """A thread's path as a log has it: its number of steps, and its outcomes as digits."""

    steps: int
    outcomes: str


class End(NamedTuple):
    """How a run ended: the thread that failed and its line, or none in a deadlock; each thread's path, and the events of all."""

    run: int
    failing: Optional[Name]
    line: int
    threads: Dict[Name, ThreadPath]
    events: int


def spelled(name: Name) -> str:
    return ".".join(map(str, (0, *name)))


def fits(end: End) -> bool:
    """Whether a log has room for a run."""
    return (end.events <= MOST_EVENTS
            and all(len(name) <= MOST_DEPTH and max(name, default=0) <= MOST_CHILDREN for name in end.threads)
            and all(it.steps <= MOST_STEPS for it in end.threads.values()))


def two_bytes(n: int) -> bytes:
    return n.to_bytes(2, "big")


def outcomes_in_bytes(outcomes: str) -> bytes:
    """The first outcome, then the length of each stretch of equal ones."""
    lengths = b"".join(two_bytes(len(it[0])) for it in re.finditer("0+|1+", outcomes))
    return bytes([int(outcomes[0])]) + lengths if outcomes else b""


def log_of(text: bytes, end: End) -> bytes:
    """The bytes of the log of a run of the program with this text."""
    names = sorted(end.threads)
    out = b"CLPL\0\2\1" + hashlib.sha256(text).digest()
    out += bytes([len(names), 255 if end.failing is None else names.index(end.failing)])
    for name in names:
        steps, outcomes = end.threads[name]
        out += bytes([len(name), *name]) + two_bytes(steps) + two_bytes(len(outcomes)) + outcomes_in_bytes(outcomes)
    return out
