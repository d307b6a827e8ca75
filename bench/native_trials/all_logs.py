"""All logs that the TSO machine has of a small program, by a search over all its states (bench/machine.py), in the form in which native
runs leave them; and random programs whose paths tell what their threads met."""
import os
import random
import sys
from typing import Dict, FrozenSet, List, Optional, Set, Tuple

sys.path.append(os.path.dirname(os.path.dirname(os.path.realpath(__file__))))
import machine  # noqa: E402

from .lab import End  # noqa: E402

Name = Tuple[int, ...]
# How a run ends: the thread that failed, or None, and of each thread its name, its steps and its outcomes.
Ended = Tuple[Optional[Name], FrozenSet[Tuple[Name, int, Tuple[int, ...]]]]


class TooMany(Exception):
    """The program has more states than are to be searched."""


def is_failing(state: machine.State, name: Name) -> bool:
    """Whether a thread is at a site that doesn't hold."""
    thread = state.threads[name]
    if thread.exited:
        return False
    word, *args = state.instr(name)
    return word in machine.SITES and not state.passes(name, word, args)


def goes_on_alone(state: machine.State, name: Name) -> bool:
    """Whether a thread's next step is one that no other thread can see, and at which no thread stops."""
    thread = state.threads[name]
    if thread.exited or not thread.steps and name:
        return False
    word, *args = state.instr(name)
    return word in machine.OWN | {"store", "storeat", "stbar"} and not is_failing(state, name) and not (word == "goto" and args[0] <= thread.at)


def settle(state: machine.State) -> None:
    """Makes all steps that commute with those of the others."""
    for name in sorted(state.threads):
        while goes_on_alone(state, name):
            state.make(("r", name))


def may_stop(state: machine.State, name: Name) -> bool:
    """Whether a thread may stop where it is, when another one has failed: at its start, at a jump back, where it may wait, where it fails
    itself, and when it has exited."""
    thread = state.threads[name]
    if thread.exited or not thread.steps or is_failing(state, name):
        return True
    word, *args = state.instr(name)
    return word in ("lock", "wake", "join") or word == "goto" and args[0] <= thread.at


def ended(state: machine.State, failing: Optional[Name]) -> Ended:
    """How the run ends in this state, if this thread fails by its next step."""
    return failing, frozenset((name, it.steps + (name == failing), it.outcomes) for name, it in state.threads.items())


def as_ended(end: End) -> Ended:
    """The end of a native run in this form."""
    return end.failing, frozenset((name, it.steps, tuple(map(int, it.outcomes))) for name, it in end.threads.items())


def key_of(state: machine.State) -> tuple:
    return state.key(), tuple(it.outcomes for _, it in sorted(state.threads.items()))


def all_ends(code: machine.Code, most: int) -> Set[Ended]:
    """All ends of runs that fail or come to a deadlock. Threads that go on after another's failure may come before it."""
    start = machine.State(code, "tso")
    settle(start)
    stack, seen, found = [start], {key_of(start)}, set()
    while stack:
        state = stack.pop()
        failing = [it for it in state.threads if is_failing(state, it)]
        found.update(ended(state, it) for it in failing if all(may_stop(state, other) for other in state.threads if other != it))
        moves = [it for it in state.moves() if it[0] == "d" or it[1] not in failing]
        if not moves and not failing and not all(it.exited for it in state.threads.values()):
            found.add(ended(state, None))
        for move in moves:
            later = state.copy()
            later.make(move)
            settle(later)
            key = key_of(later)
            if key not in seen:
                seen.add(key)
                stack.append(later)
        if len(seen) > most:
            raise TooMany
    return found


# ---- Random programs -------------------------------------------------------------------------------------------------------------

class Drawing:
    """A random program: two or three threads keep what they meet, and main's path tells it at the end."""

    def __init__(self, seed: int) -> None:
        self.chance = random.Random(seed)
        self.kept = 0

    def keep(self, access: str) -> str:
        """Keeps what an access gives, for main to tell."""
        self.kept += 1
        return f"q = {access}; r[{self.kept - 1}] = q;" if access[0] in "sc" or access.startswith("add") else f"r[{self.kept - 1}] = {access};"

    def cell(self) -> str:
        return self.chance.choice(["x", "x", "y", "y", "a[0]", "a[1]"])

    def number(self) -> int:
        return self.chance.randrange(1, 3)

    def exchange(self) -> str:
        form = self.chance.choice(["swap({}, {})", "cas({}, 0, {})", "add({}, {})"])
        return form.format(self.cell(), self.number())

    def access(self) -> str:
        """A statement with one access or two."""
        kind = self.chance.random()
        if kind < 0.4:
            return f"{self.cell()} = {self.number()};"
        if kind < 0.75 and self.kept < 8:
            return self.keep(self.cell())
        if kind < 0.87 and self.kept < 8:
            return self.keep(self.exchange())
        return self.chance.choice(["fence();", "stbar();", f"{self.cell()} = {self.cell()};"])

    def statement(self) -> str:
        kind = self.chance.random()
        if kind < 0.8:
            return self.access()
        if kind < 0.88:
            return f"if ({self.cell()}) {{ {self.access()} }}"
        if kind < 0.94:
            return f"lock(m); {self.access()} unlock(m);"
        return self.chance.choice(["lock(m); wait(c, m); unlock(m);", "signal(c);", "broadcast(c);", f"assert({self.cell()} != 2);"])

    def text(self) -> str:
        count = self.chance.choice([2, 2, 2, 3])
        bodies = [" ".join(self.statement() for _ in range(self.chance.randrange(3, 8 - count))) for _ in range(count)]
        lines = ["int x;", "int y;", "int a[2];", f"int r[{max(self.kept, 1)}];", "mutex m;", "cond c;"]
        lines += [f"thread f{k}() {{ int q; {body} }}" for k, body in enumerate(bodies)]
        lines += ["main {", "int q;", *[f"tid t{k};" for k in range(count)], *[f"t{k} = create f{k}();" for k in range(count)]]
        lines += [f"join(t{k});" for k in range(count)]
        for cell in [*(f"r[{k}]" for k in range(self.kept)), "x", "y", "a[0]", "a[1]"]:
            lines.append(f"q = {cell}; if (q & 1) {{ }} if (q & 2) {{ }} if (q & 4) {{ }}")
        return "\n".join([*lines, "assert(0);", "}", ""])


def drawn(seed: int) -> str:
    """The program of this seed."""
    return Drawing(seed).text()
