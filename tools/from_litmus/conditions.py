"""The initial state of a litmus test and its condition on the final one."""
import re
from dataclasses import dataclass, field
from typing import Dict, Tuple, Union

from .source import Refused, Text, Tokens
from .statements import Binary, Condition, Expression, Final, Memory, Number, Unary

INT_TYPES = ("int", "atomic_int", "atomic_t")
OTHER_TYPES = ("char", "short", "long", "unsigned", "signed", "spinlock_t", "mutex", "struct", "double", "float")


@dataclass
class Initial:
    """First values of locations and registers. A register that holds a location's address has its name as the value."""

    locations: Dict[str, int] = field(default_factory=dict)
    registers: Dict[Tuple[int, str], Union[int, str]] = field(default_factory=dict)


def initial_of(text: Text) -> Initial:
    initial, tokens = Initial(), Tokens(text)
    while tokens.next().text:
        if not tokens.accept(";"):
            read_entry(initial, tokens)
            if tokens.next().text:
                tokens.expect(";")
    return initial


def read_entry(initial: Initial, tokens: Tokens) -> None:
    """Adds the first value of a register or a location."""
    line = tokens.next().line
    is_register = tokens.next().is_number()
    known: dict = initial.registers if is_register else initial.locations
    key, value = register_entry(tokens) if is_register else location_entry(tokens)
    if key in known:
        raise Refused(line, "this has a first value already")
    known[key] = value


def register_entry(tokens: Tokens) -> "Tuple[Tuple[int, str], Union[int, str]]":
    """`0:EAX=1`, `0:EAX=x` or `0:EAX=&x`."""
    final = register_place(tokens)
    tokens.expect("=")
    tokens.accept("&")
    value = tokens.take().text if tokens.next().is_name() else tokens.number()
    return (final.thread, final.register), value


def location_entry(tokens: Tokens) -> Tuple[str, int]:
    """`x=1`, `[x]=1`, `int x = 1` or `int x`."""
    has_type = skip_type(tokens)
    name = location(tokens)
    if has_type and tokens.next().text != "=":
        return name, 0
    tokens.expect("=")
    return name, first_value(tokens)


def skip_type(tokens: Tokens) -> bool:
    """Skips the type of a location. Whether there was one."""
    has_type = False
    while tokens.accept("volatile", "_Atomic", *INT_TYPES):
        has_type = True
    if tokens.next().text in OTHER_TYPES:
        tokens.refuse(f"every location is an int; {tokens.next().text} isn't supported")
    if tokens.next().text == "*":
        tokens.refuse("pointers aren't supported")
    return has_type


def location(tokens: Tokens) -> str:
    if tokens.accept("["):
        name = tokens.name("a location").text
        tokens.expect("]")
        return name
    name = tokens.name("a location").text
    if tokens.next().text == "[":
        tokens.refuse("arrays aren't supported")
    return name


def first_value(tokens: Tokens) -> int:
    """A number, or ATOMIC_INIT of one. A declaration of the language can't spell the least int."""
    line = tokens.next().line
    wraps = tokens.accept("ATOMIC_INIT")
    if wraps:
        tokens.expect("(")
    value = tokens.number()
    if wraps:
        tokens.expect(")")
    if value == -(2**31):
        raise Refused(line, f"a location can't have {value} as its first value")
    return value


def condition_of(text: Text) -> Condition:
    """The condition. A `locations` list only changes what herd prints, so it is skipped."""
    tokens = Tokens(text)
    while tokens.accept("locations"):
        tokens.expect("[")
        while not tokens.accept("]"):
            if not tokens.take().text:
                tokens.refuse("expected ], found the end")
    tilde = "~" if tokens.accept("~") else ""
    quantifier = tokens.accept("exists") or (None if tilde else tokens.accept("forall"))
    if quantifier is None:
        tokens.refuse(f"expected exists, ~exists or forall, found {tokens.found()}")
    state = either(tokens)
    tokens.accept(";")
    if tokens.next().text:
        tokens.refuse(f"expected the end of the condition, found {tokens.found()}")
    asked = re.split(r"~\s*exists|exists|forall", text.text, maxsplit=1)[1]
    return Condition(" ".join([tilde + quantifier.text, *asked.split()]).rstrip("; "), tilde + quantifier.text, state)


def either(tokens: Tokens) -> Expression:
    state = both(tokens)
    while tokens.accept("\\/"):
        state = Binary("|", state, both(tokens))
    return state


def both(tokens: Tokens) -> Expression:
    state = single(tokens)
    while tokens.accept("/\\"):
        state = Binary("&", state, single(tokens))
    return state


def single(tokens: Tokens) -> Expression:
    if tokens.accept("~"):
        return Unary("!", single(tokens))
    if tokens.accept("("):
        state = either(tokens)
        tokens.expect(")")
        return state
    left = place(tokens)
    if tokens.next().text == "!=" or not tokens.accept("="):
        tokens.refuse(f"expected =, found {tokens.found()}")
    if tokens.next().is_name():
        tokens.refuse("a value can only be compared with a number")
    return Binary("==", left, Number(tokens.number()))


def place(tokens: Tokens) -> Expression:
    """A location, or a thread's register."""
    return register_place(tokens) if tokens.next().is_number() else Memory(location(tokens))


def register_place(tokens: Tokens) -> Final:
    """A thread's register, `0:EAX`."""
    thread = tokens.number()
    tokens.expect(":")
    return Final(thread, tokens.name("a register").text)
