"""The arithmetic of C's int and unsigned, on Python's numbers. An unsigned value is kept as the int with the same 32 bits."""
from typing import Callable, Dict, Optional

LEAST = -(1 << 31)


def wrap(number: int) -> int:
    return (number + (1 << 31)) % (1 << 32) - (1 << 31)


def bits(number: int) -> int:
    return number % (1 << 32)


def quotient(a: int, b: int) -> int:
    return abs(a) // abs(b) * (1 if (a < 0) == (b < 0) else -1)


SAME: Dict[str, Callable[[int, int], int]] = {
    "+": lambda a, b: a + b, "-": lambda a, b: a - b, "*": lambda a, b: a * b,
    "&": lambda a, b: a & b, "|": lambda a, b: a | b, "^": lambda a, b: a ^ b,
    "==": lambda a, b: int(a == b), "!=": lambda a, b: int(a != b),
}
BY_SIGN: Dict[str, Callable[[int, int], int]] = {
    "<": lambda a, b: int(a < b), "<=": lambda a, b: int(a <= b), ">": lambda a, b: int(a > b), ">=": lambda a, b: int(a >= b),
    "/": quotient, "%": lambda a, b: a - b * quotient(a, b), ">>": lambda a, b: a >> b, "<<": lambda a, b: a << b,
    "&&": lambda a, b: int(a != 0 and b != 0), "||": lambda a, b: int(a != 0 or b != 0),
}
TESTS = ("==", "!=", "<", "<=", ">", ">=", "&&", "||")
UNARY: Dict[str, Callable[[int], int]] = {"-": lambda a: -a, "~": lambda a: ~a, "!": lambda a: int(a == 0), "+": lambda a: a}


def binary(operator: str, left: int, right: int, unsigned: bool) -> Optional[int]:
    """The value, or None where C gives none."""
    if operator in ("/", "%") and right == 0 or operator in ("<<", ">>") and not 0 <= right <= 31:
        return None
    if operator in SAME:
        return wrap(SAME[operator](left, right))
    if unsigned and operator in ("<<", ">>"):
        return wrap(BY_SIGN[operator](bits(left), right))
    if unsigned:
        left, right = bits(left), bits(right)
    return wrap(BY_SIGN[operator](left, right))


def unary(operator: str, operand: int) -> int:
    return wrap(UNARY[operator](operand))
