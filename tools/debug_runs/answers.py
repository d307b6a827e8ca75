"""What is known of a program under a memory model, as values; `lines.py` puts them in words."""
from typing import List, NamedTuple, Optional, Union

FAILURE, DEADLOCK = "failure", "deadlock"
KINDS = (FAILURE, DEADLOCK)
# From the one that allows least: what some run does under one of them, some run does under each behind it.
MODELS = ("sc", "tso", "pso")
# What to do where a limit is in the way.
SMALLER = "make the program smaller, with fewer threads, rounds or shared accesses"


class Question(NamedTuple):
    """Whether some run fails, or comes to a deadlock, under a memory model."""

    model: str
    kind: str


class Stop(NamedTuple):
    """Where a thread failed, or waits at a deadlock: its name, its line as the user knows it, the statement, and what it waits for."""

    thread: str
    line: str
    statement: str
    waits: str = ""


class Run(NamedTuple):
    """A schedule that was replayed and leads to the end of a log, and what was kept of it. It is the one with the fewest switches, or
    fewer may be possible."""

    model: str
    schedule: str
    page: str
    moves: int
    switches: int
    is_least: bool
    stops: List[Stop]
    reasons: List[str]


class Unsolved(NamedTuple):
    """Why no schedule of a possible log is there, and what to do."""

    why: str
    cure: str


class Found(NamedTuple):
    """Some run ends so: its log, and a schedule if there was time for one."""

    question: Question
    log: str
    run: Union[Run, Unsolved]
    seconds: float


class Open(NamedTuple):
    """It isn't decided: why, and what to do."""

    question: Question
    why: str
    cure: str
    seconds: float


class Excluded(NamedTuple):
    """No run ends so, or none in which each thread has at most so many outcomes of branches; the certificate was accepted. `beyond` says
    why longer runs aren't decided."""

    question: Question
    outcomes: Optional[int]
    beyond: Optional[Open]
    certificate: str
    seconds: float


Answer = Union[Found, Excluded, Open]


class Native(NamedTuple):
    """What native runs came to: `failed`, `deadlock`, `none` or `not run`. `said` is the line of tools/native, or why it wasn't run. A
    failure has its log, and its run where it was solved under TSO."""

    outcome: str
    said: str
    seconds: float
    log: str = ""
    run: Optional[Union[Run, Unsolved]] = None


class Old(NamedTuple):
    """What became of the old failure's log under a model: `possible`, `impossible`, `open`, or `none` where it has paths that this
    program doesn't have. The result is the page, or the refutation that was accepted."""

    model: str
    outcome: str
    said: str
    result: str = ""
    run: Optional[Run] = None
