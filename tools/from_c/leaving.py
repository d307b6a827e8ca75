"""Blocks that are left early become blocks that go to their end: the statements to skip go into the
other branch of an `if`, or behind a flag if a loop or an uneven branch is between."""
import dataclasses
from typing import Callable, Dict, FrozenSet, List, Set, Tuple

from .operators import negation, refuted
from .program import Assign, Binary, Block, Expression, If, Labelled, Leave, Local, Number, Statement, While
from .refusal import Place

Labels = FrozenSet[int]
NONE: Labels = frozenset()


def left_from(block: Block) -> Labels:
    """The labels outside a block to which something in it leaves."""
    found: Set[int] = set()
    for statement in block:
        if isinstance(statement, Leave):
            found.add(statement.label)
        elif isinstance(statement, If):
            found |= left_from(statement.then) | left_from(statement.other)
        elif isinstance(statement, While):
            found |= left_from(statement.body)
        elif isinstance(statement, Labelled):
            found |= left_from(statement.body) - {statement.label}
    return frozenset(found)


def always_leaves(block: Block) -> bool:
    """Whether nothing goes to the end of a block."""
    for statement in block:
        if isinstance(statement, Leave):
            return True
        if isinstance(statement, If) and always_leaves(statement.then) and always_leaves(statement.other):
            return True
        if isinstance(statement, Labelled) and statement.label not in left_from(statement.body) and always_leaves(statement.body):
            return True
        if isinstance(statement, While) and statement.condition == Number(1) and not left_from(statement.body):
            return True
    return False


@dataclasses.dataclass(frozen=True)
class Loop:
    """A loop that is left early: its flag is 1 while it goes on. `inside` are the labels that are within its body."""

    flag: Local
    inside: Labels = NONE


@dataclasses.dataclass(frozen=True)
class Context:
    """The context of a block. `tail` are the labels to which its end leads; `flagged` those whose
    flag must be set on the way; `loops` those loops around it that are left early."""

    tail: Labels = NONE
    flagged: Labels = NONE
    loops: Tuple[Loop, ...] = ()
    in_loop: bool = False

    def within(self, label: int) -> "Context":
        """Inside a block of this label."""
        loops = tuple(dataclasses.replace(it, inside=it.inside | {label}) for it in self.loops)
        return dataclasses.replace(self, loops=loops)


class Leaving:
    """`fresh` makes the name of a local that nothing else uses."""

    def __init__(self, fresh: Callable[[str], str]) -> None:
        self.fresh = fresh
        self.flags: Dict[int, Local] = {}
        self.names: Dict[int, str] = {}

    def settled(self, block: Block) -> Block:
        return tuple(self.settle(list(block), Context()))

    def settle(self, block: List[Statement], context: Context) -> List[Statement]:
        out: List[Statement] = []
        for place, statement in enumerate(block):
            rest = block[place + 1 :]
            if isinstance(statement, Leave):
                return out + self.leave(statement, context)
            if isinstance(statement, Labelled) and statement.label not in left_from(statement.body):
                return out + self.settle([*statement.body, *rest], context)
            escapes = left_from((statement,))
            if not escapes:
                out += self.whole(statement, context)
            elif isinstance(statement, If):
                return out + self.branch(statement, rest, escapes, context)
            elif isinstance(statement, Labelled):
                return out + self.labelled(statement, rest, escapes, context)
            elif isinstance(statement, While):
                return out + self.loop(statement, rest, escapes, context)
        return out

    def whole(self, statement: Statement, context: Context) -> List[Statement]:
        """A statement that nothing in it leaves."""
        inner = dataclasses.replace(context, tail=NONE)
        if isinstance(statement, If):
            return [dataclasses.replace(statement, then=tuple(self.settle(list(statement.then), inner)),
                                        other=tuple(self.settle(list(statement.other), inner)))]
        if isinstance(statement, While):
            looped = dataclasses.replace(inner, in_loop=True)
            return [dataclasses.replace(statement, body=tuple(self.settle(list(statement.body), looped)))]
        if isinstance(statement, Labelled):
            return self.labelled(statement, [], NONE, inner)
        return [statement]

    def leave(self, statement: Leave, context: Context) -> List[Statement]:
        out: List[Statement] = [Assign(it.flag, Number(0), statement.at) for it in context.loops if statement.label not in it.inside]
        if statement.label in context.flagged:
            out.append(Assign(self.flag(statement.label), Number(1), statement.at))
        return out

    def flag(self, label: int) -> Local:
        """The local that is 1 once a block was left to its end."""
        if label not in self.flags:
            self.flags[label] = Local(self.fresh(self.names.get(label, "left")))
        return self.flags[label]

    def branch(self, statement: If, rest: List[Statement], escapes: Labels, context: Context) -> List[Statement]:
        then, other = list(statement.then), list(statement.other)
        if rest and always_leaves(statement.then):
            other, rest = [*other, *rest], []
        elif rest and always_leaves(statement.other):
            then, rest = [*then, *rest], []
        if not rest:
            return [self.made(statement, self.settle(then, context), self.settle(other, context))]
        inner, guard = self.before_rest(escapes, context)
        both = self.made(statement, self.settle(then, inner), self.settle(other, inner))
        return [both, *self.guarded(guard, rest, statement.at, context)]

    def made(self, statement: If, then: List[Statement], other: List[Statement]) -> If:
        if not then and other:
            return dataclasses.replace(statement, condition=refuted(statement.condition), then=tuple(other), other=())
        return dataclasses.replace(statement, then=tuple(then), other=tuple(other))

    def before_rest(self, escapes: Labels, context: Context) -> Tuple[Context, Expression]:
        """The context of a statement that is left to these labels and has more behind it, and what is 1 where that is to come."""
        crossed = context.loops[-1] if context.loops else None
        by_loop = frozenset(it for it in escapes if crossed and it not in crossed.inside)
        flagged = escapes - by_loop
        guards: List[Expression] = [negation(self.flag(it)) for it in sorted(flagged)]
        if by_loop and crossed:
            guards.insert(0, crossed.flag)
        guard = guards[0]
        for each in guards[1:]:
            guard = Binary("&", guard, each)
        return dataclasses.replace(context, tail=NONE, flagged=context.flagged | flagged), guard

    def guarded(self, guard: Expression, rest: List[Statement], at: Place, context: Context) -> List[Statement]:
        settled = self.settle(rest, context)
        return [If(guard, tuple(settled), (), settled[0].at if settled else at)] if settled else []

    def labelled(self, statement: Labelled, rest: List[Statement], escapes: Labels, context: Context) -> List[Statement]:
        self.names[statement.label] = statement.name
        tail = frozenset([statement.label])
        if not rest:
            inner = dataclasses.replace(context.within(statement.label), tail=context.tail | tail)
            return self.start(statement, self.settle(list(statement.body), inner), context)
        if not escapes:
            return self.labelled(statement, [], NONE, dataclasses.replace(context, tail=NONE)) + self.settle(rest, context)
        outer, guard = self.before_rest(escapes, context)
        inner = dataclasses.replace(outer.within(statement.label), tail=tail)
        body = self.start(statement, self.settle(list(statement.body), inner), context)
        return [*body, *self.guarded(guard, rest, statement.at, context)]

    def start(self, statement: Labelled, body: List[Statement], context: Context) -> List[Statement]:
        """The body, after its flag is 0 where it has one."""
        flag = self.flags.get(statement.label)
        return [Assign(flag, Number(0), statement.at), *body] if flag and context.in_loop else body

    def loop(self, statement: While, rest: List[Statement], escapes: Labels, context: Context) -> List[Statement]:
        """A loop that something in it leaves."""
        go = Local(self.fresh("go"))
        after, guard = self.before_rest(escapes, context) if rest else (context, None)
        inner = dataclasses.replace(after, tail=NONE, loops=(*after.loops, Loop(go)), in_loop=True)
        body = self.settle(list(statement.body), inner)
        condition = go if statement.condition == Number(1) else Binary("&&", go, statement.condition)
        out: List[Statement] = [Assign(go, Number(1), statement.at), While(condition, tuple(body), statement.at)]
        return out + self.guarded(guard, rest, statement.at, context) if guard is not None else out
