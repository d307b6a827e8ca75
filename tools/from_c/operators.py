"""C's operators as expressions of the language, exactly: what is unsigned, and what is a constant."""
from typing import Optional

from . import arithmetic
from .arithmetic import LEAST, TESTS
from .program import Binary, Expression, Number, Unary
from .refusal import Place, Refusal
from .types import WIDTHS

ADVICE = "use int, or a constant power of two"


def negation(condition: Expression) -> Expression:
    """The opposite of a condition: 1 if it is 0."""
    opposite = {"==": "!=", "!=": "==", "<": ">=", ">=": "<", ">": "<=", "<=": ">"}
    if isinstance(condition, Binary) and condition.operator in opposite:
        return Binary(opposite[condition.operator], condition.left, condition.right)
    if isinstance(condition, Unary) and condition.operator == "!" and is_test(condition.operand):
        return condition.operand
    return unary("!", condition)


def refuted(condition: Expression) -> Expression:
    """A condition that holds exactly where this one doesn't. Its value is any but 0 where it holds."""
    if isinstance(condition, Unary) and condition.operator == "!":
        return condition.operand
    return negation(condition)


def is_test(expression: Expression) -> bool:
    """Whether the value is always 0 or 1."""
    if isinstance(expression, Number):
        return expression.value in (0, 1)
    return isinstance(expression, (Binary, Unary)) and expression.operator in (*TESTS, "!")


def truth(expression: Expression) -> Expression:
    """1 where the value isn't 0, and else 0."""
    return expression if is_test(expression) else simplified("!=", expression, Number(0))


def unary(operator: str, operand: Expression) -> Expression:
    if isinstance(operand, Number):
        return Number(arithmetic.unary(operator, operand.value))
    return operand if operator == "+" else Unary(operator, operand)


def simplified(operator: str, left: Expression, right: Expression) -> Expression:
    """An operator of the language, or its value where both sides are numbers."""
    if isinstance(left, Number) and isinstance(right, Number):
        value = arithmetic.binary(operator, left.value, right.value, False)
        if value is not None:
            return Number(value)
    if right == Number(0) and operator in ("+", "-"):
        return left
    if isinstance(right, Number) and LEAST < right.value < 0 and operator in ("+", "-"):
        return Binary("-" if operator == "+" else "+", left, Number(-right.value))
    return Binary(operator, left, right)


def binary(operator: str, left: Expression, right: Expression, unsigned: bool, place: Optional[Place]) -> Expression:
    """A binary operator of C, but for && and ||."""
    if isinstance(left, Number) and isinstance(right, Number):
        value = arithmetic.binary(operator, left.value, right.value, unsigned)
        if value is None:
            raise Refusal(place, f"{operator} by {right.value}", "C gives it no value")
        return Number(value)
    if unsigned and operator in ("<", "<=", ">", ">="):
        return simplified(operator, offset(left), offset(right))
    if unsigned and operator in ("/", "%", ">>"):
        return unsigned_part(operator, left, right, place)
    return simplified(operator, left, right)


def converted(expression: Expression, kind: str, to: str) -> Expression:
    """A value of a kind as one of another. A narrow one is kept as the int that it is."""
    width, signed = WIDTHS[to]
    mine, is_signed = WIDTHS.get(kind, (32, True))
    if to == "bool":
        return expression if kind == "bool" else truth(expression)
    if width >= 32 or mine < width and (signed or not is_signed) or (mine, is_signed) == (width, signed):
        return expression
    if not signed:
        return simplified("&", expression, Number((1 << width) - 1))
    return simplified(">>", simplified("<<", expression, Number(32 - width)), Number(32 - width))


def offset(expression: Expression) -> Expression:
    """The int that is among ints where the unsigned is among unsigned ones."""
    if isinstance(expression, Number):
        return Number(arithmetic.wrap(expression.value + LEAST))
    return Binary("-", Binary("-", expression, Number(-1 - LEAST)), Number(1))


def unsigned_part(operator: str, left: Expression, right: Expression, place: Optional[Place]) -> Expression:
    """A quotient, remainder or shift of an unsigned value, by a constant."""
    if not isinstance(right, Number):
        raise Refusal(place, f"unsigned {operator} by something that isn't constant", ADVICE)
    if operator == ">>":
        distance = right.value
    else:
        divisor = arithmetic.bits(right.value)
        distance = divisor.bit_length() - 1
        if divisor != 1 << distance:
            raise Refusal(place, f"unsigned {operator} by {divisor}", ADVICE)
        if operator == "%":
            return simplified("&", left, Number(arithmetic.wrap(divisor - 1)))
    if not 0 <= distance <= 31:
        raise Refusal(place, f"a shift by {distance}", "C gives it no value")
    if distance == 0:
        return left
    return Binary("&", Binary(">>", left, Number(distance)), Number((1 << (32 - distance)) - 1))
