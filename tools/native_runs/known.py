"""What flat code determines whatever the threads meet in memory: slots, outcomes, and how often some loops go round. It isn't recorded,
since the walk along a path computes it again."""
from typing import Dict, List, Optional, Set

from .code import TAKING, Applied, Code, Expr, Function, Slot

Slots = Dict[int, int]


def slots_in(e: Expr) -> Set[int]:
    """The slots that an expression reads."""
    if isinstance(e, Slot):
        return {e.number}
    return set().union(*map(slots_in, e.operands)) if isinstance(e, Applied) else set()


def open_slots(code: Code) -> List[Set[int]]:
    """Of each function the slots that may take a value from memory, or one computed from such a value: a fixed point over the whole code,
    without regard to the order of instructions. All other slots the code determines."""
    found: List[Set[int]] = [set() for _ in code.functions]
    while True:
        before = sum(map(len, found))
        for number, function in enumerate(code.functions):
            add_open(found, number, function)
        if sum(map(len, found)) == before:
            return found


def add_open(found: List[Set[int]], number: int, function: Function) -> None:
    """Adds the slots that this function's instructions leave open, as far as others are known to be."""
    of = found[number]
    for word, args, _ in function.instrs:
        if word in TAKING or word == "set" and of & slots_in(args[1]):
            of |= slots_in(args[0])
        elif word == "create":
            found[args[1]].update(k for k, e in enumerate(args[2:]) if of & slots_in(e))


# ---- Operators, as docs/MACHINE.md has them --------------------------------------------------------------------------------------

def int32(n: int) -> int:
    return (n + 2**31) % 2**32 - 2**31


def divided(a: int, b: int) -> int:
    return 0 if b == 0 else int32(abs(a) // abs(b) * (1 if (a < 0) == (b < 0) else -1))


UNARY = {"-": lambda a: int32(-a), "!": lambda a: int(a == 0), "~": lambda a: ~a}
BINARY = {
    "+": lambda a, b: int32(a + b), "-": lambda a, b: int32(a - b), "*": lambda a, b: int32(a * b), "/": divided,
    "%": lambda a, b: int32(a - b * divided(a, b)) if b else 0, "&": lambda a, b: a & b, "|": lambda a, b: a | b, "^": lambda a, b: a ^ b,
    "<<": lambda a, b: int32(a << b) if 0 <= b < 32 else 0, ">>": lambda a, b: a >> b if 0 <= b < 32 else 0,
    "<": lambda a, b: int(a < b), "<=": lambda a, b: int(a <= b), ">": lambda a, b: int(a > b), ">=": lambda a, b: int(a >= b),
    "==": lambda a, b: int(a == b), "!=": lambda a, b: int(a != b),
}


def value(e: Expr, slots: Slots) -> int:
    """What an expression over known slots gives."""
    if isinstance(e, int):
        return e
    if isinstance(e, Slot):
        return slots[e.number]
    operands = [value(it, slots) for it in e.operands]
    return (UNARY if len(operands) == 1 else BINARY)[e.sign](*operands)


# ---- Loops that end by themselves ------------------------------------------------------------------------------------------------

def counting_loops(function: Function, unknown: Set[int]) -> Set[int]:
    """The places of the jumps back whose loop records no outcome and ends by itself after a number of rounds: no thread needs to look
    there whether it should stop."""
    return {at for at, instr in enumerate(function.instrs)
            if instr.word == "goto" and instr.args[0] <= at and is_counting(function, unknown, range(instr.args[0], at))}


def is_counting(function: Function, unknown: Set[int], places: range) -> bool:
    """Whether a loop counts a slot up to a bound: `while (k < bound)`, with one `k = k + step` in each round, and nothing else that
    writes the slots of either. The sum never wraps before the test ends the loop."""
    body = [function.instrs[at] for at in places]
    branches = [it for it in body if it.word == "branch"]
    if not branches or any(unknown & slots_in(it.args[0]) for it in branches):
        return False
    counter = counter_of(body[0].args[0]) if body[0] is branches[0] else None
    if counter is None:
        return False
    slot, bound = counter
    written = [at for at, it in zip(places, body) if it.word in TAKING | {"set"} and it.args[0] in (Slot(slot), bound)]
    if len(written) != 1:
        return False
    at, given = written[0], function.instrs[written[0]].args[1]
    step = given.operands[1] if isinstance(given, Applied) and given.sign == "+" and given.operands[0] == Slot(slot) else None
    is_safe = isinstance(step, int) and step >= 1 and (step == 1 or isinstance(bound, int) and bound + step < 2**31)
    return is_safe and not any(is_jumped_over(at, place, function) for place in places if place != places[0])


def counter_of(test: Expr) -> Optional[tuple]:
    """The slot and the bound of a test `slot < bound`."""
    if isinstance(test, Applied) and test.sign == "<" and isinstance(test.operands[0], Slot) and isinstance(test.operands[1], (int, Slot)):
        return test.operands[0].number, test.operands[1]
    return None


def is_jumped_over(at: int, place: int, function: Function) -> bool:
    """Whether a jump at `place` may leave out, or repeat, the instruction at `at`."""
    word, args, _ = function.instrs[place]
    to = args[0] if word == "goto" else args[1] if word == "branch" else place + 1
    return place < at < to or to <= at < place
