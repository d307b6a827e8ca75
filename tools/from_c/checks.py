"""Warnings and limits of a program: plain variables that threads share, threads that nothing joins,
and limits."""
import dataclasses
import re
from typing import Dict, FrozenSet, List, Set, Tuple

from .program import (Assign, Block, Call, Cell, Create, Element, Expression, Global, If, Program, Statement, Thread,
                      While, blocks_of, expressions_of, read_in, statements_in)
from .refusal import Notes, Refusal

Locks = FrozenSet[str]
LIMITS = {"int": ("cells", 1024), "mutex": ("mutexes", 64), "cond": ("conditions", 64)}
BYTES = 65536
DEPTH = 64


@dataclasses.dataclass(frozen=True)
class Access:
    """A thread's plain access of a shared variable, and the mutexes that it holds there."""

    name: str
    thread: str
    writes: bool
    locks: Locks


class Accesses:
    """All plain accesses of a thread's body, with the mutexes that are held on each way there."""

    def __init__(self, thread: Thread) -> None:
        self.thread = thread
        self.found: Set[Access] = set()
        self.alone = thread.name == "main"
        self.running = 0
        self.block(thread.body, frozenset())

    def add(self, expression: Expression, writes: bool, locks: Locks) -> None:
        if self.alone:
            return
        for each in expressions_of(expression):
            if isinstance(each, (Cell, Element)) and not each.atomic:
                name = each.name if isinstance(each, Cell) else each.array
                self.found.add(Access(name, self.thread.name, writes and each is expression, locks))

    def block(self, block: Block, locks: Locks) -> Locks:
        for statement in block:
            locks = self.statement(statement, locks)
        return locks

    def statement(self, statement: Statement, locks: Locks) -> Locks:
        for each in read_in(statement):
            self.add(each, False, locks)
        if isinstance(statement, Assign):
            self.add(statement.target, True, locks)
        if isinstance(statement, Create):
            self.alone, self.running = False, self.running + 1
        if isinstance(statement, Call) and statement.name == "lock":
            return locks | {statement.arguments[0]}
        if isinstance(statement, Call) and statement.name == "unlock":
            return locks - {statement.arguments[0]}
        if isinstance(statement, Call) and statement.name == "join":
            self.running -= 1
            self.alone = self.thread.name == "main" and self.running <= 0
        if isinstance(statement, If):
            alone = self.alone
            then = self.block(statement.then, locks)
            after, self.alone = self.alone, alone
            other = self.block(statement.other, locks)
            self.alone = after and self.alone
            return then & other
        if isinstance(statement, While):
            inner = self.block(statement.body, locks)
            return locks & (self.block(statement.body, locks & inner) if inner != locks else inner)
        return locks


def created(program: Program) -> Dict[str, int]:
    """How many threads may do each function; 2 means two or more."""
    counts: Dict[str, int] = {"main": 1}
    for thread in program.threads:
        for statement, looped in marked(thread.body, thread.name != "main"):
            if isinstance(statement, Create):
                counts[statement.thread] = min(2, counts.get(statement.thread, 0) + (2 if looped else 1))
    return counts


def marked(block: Block, looped: bool) -> List[Tuple[Statement, bool]]:
    """All statements, and whether they may come more than once."""
    out: List[Tuple[Statement, bool]] = []
    for statement in block:
        out.append((statement, looped))
        for inner in blocks_of(statement):
            out += marked(inner, looped or isinstance(statement, While))
    return out


def unguarded(program: Program) -> List[Global]:
    """Plain variables that two threads may use at once, one of them writing, without a common mutex."""
    counts = created(program)
    accesses: Set[Access] = set()
    for thread in program.threads:
        accesses |= Accesses(thread).found
    named = {it.name: it for it in program.globals if not it.is_own}
    racing = {one.name for one in accesses for other in accesses
              if one.name == other.name and (one.writes or other.writes) and not one.locks & other.locks
              and (one.thread != other.thread or counts.get(one.thread, 0) > 1)}
    return [it for name, it in named.items() if name in racing]


def unjoined(program: Program) -> bool:
    """Whether main may end before a thread that it created."""
    counted = {"create": 0, "join": 0}
    for statement in statements_in(program.threads[-1].body):
        if isinstance(statement, Create):
            counted["create"] += 1
        elif isinstance(statement, Call) and statement.name == "join":
            counted["join"] += 1
    return counted["create"] > counted["join"]


def note(program: Program, notes: Notes) -> None:
    for each in unguarded(program):
        notes.add("not atomic, and used by two threads without a common mutex: taken as a plain variable, for which C promises nothing "
                  "unless an atomic access orders the two", f"{each.name} ({each.at})")
    if unjoined(program):
        notes.add("main joins fewer threads than it creates: C ends them with main, and here they go on", program.threads[-1].end)


def most_open(text: str) -> int:
    """The most brackets that are open at one place."""
    depth = deepest = 0
    for sign in re.sub(r"//.*", "", text):
        depth += (sign in "([{") - (sign in ")]}")
        deepest = max(deepest, depth)
    return deepest


def refuse_limits(program: Program, text: str) -> None:
    """Refuses what is no program for `clap_debug`, though it is one of the language."""
    for kind, (what, most) in LIMITS.items():
        count = sum(max(1, it.length) for it in program.globals if it.kind == kind)
        if count > most:
            raise Refusal(None, f"{count} {what}, of {most}", "make the arrays smaller")
    depth = most_open(text)
    if depth > DEPTH:
        raise Refusal(None, f"{depth} brackets within each other, of {DEPTH}", "make the longest function shorter")
    if len(text.encode()) > BYTES:
        raise Refusal(None, f"a program of {len(text.encode())} bytes, of {BYTES}", "leave something out, or inline less")
