"""From where a thread ended to its path: each step with its branch's outcome. A run leaves of a thread only the outcomes that its code
doesn't determine, its place and how often it jumped back; no path passes the same place twice after as many jumps back."""
from typing import Dict, Iterator, List, NamedTuple, Optional, Set

from .code import MOST_STEPS, TAKING, Broken, Expr, Function
from .known import Slots, slots_in, value


class Thread(NamedTuple):
    """What a run left of a thread: its creator among the run's threads and its number there, its function, how, where and after how many
    jumps back it ended, and the outcomes that the code doesn't determine."""

    parent: int
    number: int
    function: int
    how: str
    place: int
    jumps: int
    outcomes: str


class Step(NamedTuple):
    """An instruction that a thread did, with its outcome if it is a branch, else with nothing."""

    at: int
    outcome: str


Path = List[Step]
Given = List[Optional[int]]  # what a create gave, where the code determines it


class Walked(NamedTuple):
    """A thread's path, and what each of its creates gave."""

    path: Path
    creates: List[Given]


class Walker:
    """Goes along a thread's path and knows the slots that the code determines."""

    def __init__(self, function: Function, unknown: Set[int], thread: Thread, given: Given) -> None:
        self.function, self.unknown, self.thread = function, unknown, thread
        self.outcomes: Iterator[str] = iter(thread.outcomes)
        self.slots: Slots = {k: 0 for k in range(function.ints)}
        self.slots.update((k, it) for k, it in enumerate(given) if it is not None)
        self.at, self.jumps = 0, 0
        self.walked = Walked([], [])

    def known(self, e: Expr) -> Optional[int]:
        """What an expression gives, if the code determines it."""
        return None if self.unknown & slots_in(e) else value(e, self.slots)

    def recorded(self) -> str:
        """The next outcome that was recorded."""
        found = next(self.outcomes, None)
        if found is None:
            raise Broken(f"an outcome is missing: {self.thread}")
        return found

    def is_at_end(self) -> bool:
        return self.at == self.thread.place and self.jumps == self.thread.jumps

    def step(self) -> None:
        """Does the instruction at the place."""
        if self.at >= len(self.function.instrs):
            raise Broken(f"a path goes past its end: {self.thread}")
        word, args, _ = self.function.instrs[self.at]
        before, outcome, to = self.at, "", self.at + 1
        if word == "branch":
            known = self.known(args[0])
            outcome = self.recorded() if known is None else "01"[known != 0]
            to = to if outcome == "1" else args[1]
        elif word == "goto":
            to = args[0]
        elif word == "set":
            known = self.known(args[1])
            if known is not None:
                self.slots[args[0].number] = known
        elif word == "create":
            self.walked.creates.append([self.known(e) for e in args[2:]])
        self.walked.path.append(Step(before, outcome))
        self.at = to
        self.jumps += to <= before

    def walk(self) -> Walked:
        """The whole path; one that is too long for a log is cut."""
        while len(self.walked.path) <= MOST_STEPS:
            if self.is_at_end() and self.thread.how == "stopped":
                break
            is_last = self.is_at_end()
            self.step()
            if is_last:
                break
        else:
            return self.walked
        if next(self.outcomes, None) is not None:
            raise Broken(f"outcomes are left over: {self.thread}")
        return self.walked


# ---- Shorter paths ---------------------------------------------------------------------------------------------------------------

def live_slots(function: Function) -> List[Set[int]]:
    """The slots that may be read, from each place on, before they are written."""
    live: List[Set[int]] = [set() for _ in function.instrs]
    while True:
        before = sum(map(len, live))
        for at in reversed(range(len(live))):
            word, args, _ = function.instrs[at]
            is_writing = word in TAKING or word == "set"
            next_places = {args[0]} if word == "goto" else {at + 1, args[1]} if word == "branch" else {at + 1}
            later = set().union(*(live[it] for it in next_places if it < len(live)))
            written = slots_in(args[0]) if is_writing else set()
            live[at] = (later - written).union(*map(slots_in, args[is_writing:]))
        if sum(map(len, live)) == before:
            return live


# Instructions of a round that only looks.
IDLE = {"load", "loadat", "inside", "nonzero", "inrange", "set", "branch", "goto"}


def is_idle(function: Function, round_: Path, live: Set[int]) -> bool:
    """Whether a round of a loop only looks, and leaves every slot that is read later as it was."""
    instrs = [function.instrs[it.at] for it in round_]
    written = set().union(*(slots_in(it.args[0]) for it in instrs if it.word in ("load", "loadat", "set")))
    return all(it.word in IDLE for it in instrs) and not written & live


def without_idle_rounds(function: Function, path: Path) -> Path:
    """The path without the rounds of loops that only look. The run does without them, since their loads change nothing."""
    live = live_slots(function)
    heads = {it.args[0] for at, it in enumerate(function.instrs) if it.word == "goto" and it.args[0] <= at}
    kept: Path = []
    begins: Dict[int, int] = {}  # of a loop's head, where its last round begins in `kept`
    for step in path:
        if step.at in heads:
            begin = begins.get(step.at)
            if begin is not None and is_idle(function, kept[begin:], live[step.at]):
                del kept[begin:]
            begins = {head: it for head, it in begins.items() if it < len(kept)}
            begins[step.at] = len(kept)
        kept.append(step)
    return kept
