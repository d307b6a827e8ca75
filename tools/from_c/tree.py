"""A C file as the translation reads it: declarations, statements and expressions, each with its place in the file."""
import dataclasses
from typing import Any, Iterator, List, Optional, Tuple

from .refusal import Place, Refusal
from .types import Type


@dataclasses.dataclass(eq=False)
class Declared:
    """A variable or a parameter."""

    at: Place
    name: str
    type: Type
    storage: str = ""
    per_thread: bool = False
    init: Optional["Expr"] = None


@dataclasses.dataclass(eq=False)
class Function:
    """A function; its body is None where another file has it."""

    at: Place
    name: str
    result: Type
    parameters: Tuple[Declared, ...]
    takes_more: bool
    body: Optional["Stmt"] = None


@dataclasses.dataclass(eq=False)
class Node:
    at: Place


class Expr(Node):
    pass


class Stmt(Node):
    pass


@dataclasses.dataclass(eq=False)
class Refused(Expr, Stmt):
    """What has no translation. It is refused where the translation comes to it."""

    fault: Refusal


# Expressions. Conversions of numbers are `Convert`; reads of lvalues and conversions of arrays to pointers aren't written.


@dataclasses.dataclass(eq=False)
class Literal(Expr):
    kind: str
    value: int


@dataclasses.dataclass(eq=False)
class Offset(Expr):
    """The place of a field in its struct, which is only taken from the address of that field."""


@dataclasses.dataclass(eq=False)
class Text(Expr):
    pass


@dataclasses.dataclass(eq=False)
class Null(Expr):
    pass


@dataclasses.dataclass(eq=False)
class Name(Expr):
    of: Declared


@dataclasses.dataclass(eq=False)
class FunctionName(Expr):
    name: str


@dataclasses.dataclass(eq=False)
class Unary(Expr):
    """-, +, ~ or !"""

    operator: str
    operand: Expr
    type: Type


@dataclasses.dataclass(eq=False)
class Step(Expr):
    """++ or --, as + or -"""

    operator: str
    gives_old: bool
    operand: Expr


@dataclasses.dataclass(eq=False)
class Address(Expr):
    operand: Expr


@dataclasses.dataclass(eq=False)
class Follow(Expr):
    """The target of a pointer."""

    operand: Expr


@dataclasses.dataclass(eq=False)
class Element(Expr):
    array: Expr
    index: Expr


@dataclasses.dataclass(eq=False)
class Field(Expr):
    struct: Expr
    name: str
    follows: bool


@dataclasses.dataclass(eq=False)
class Binary(Expr):
    """Two operands, or && or ||. The type is that of the left one."""

    operator: str
    left: Expr
    right: Expr
    type: Type


@dataclasses.dataclass(eq=False)
class Comma(Expr):
    left: Expr
    right: Expr


@dataclasses.dataclass(eq=False)
class Assign(Expr):
    left: Expr
    right: Expr


@dataclasses.dataclass(eq=False)
class Update(Expr):
    """An assignment by an operator, which is of numbers of a type."""

    operator: str
    left: Expr
    right: Expr
    computed: Type


@dataclasses.dataclass(eq=False)
class Conditional(Expr):
    condition: Expr
    then: Expr
    other: Expr
    type: Type


@dataclasses.dataclass(eq=False)
class Once(Expr):
    """An operand that is evaluated once, wherever else it stands."""

    operand: Expr


@dataclasses.dataclass(eq=False)
class Keeping(Expr):
    """An expression in which an operand stands more than once."""

    operand: Once
    whole: Expr


@dataclasses.dataclass(eq=False)
class Convert(Expr):
    operand: Expr
    type: Type


@dataclasses.dataclass(eq=False)
class Call(Expr):
    name: str
    arguments: Tuple[Expr, ...]


@dataclasses.dataclass(eq=False)
class CallOf(Expr):
    """A call of the function that a pointer leads to."""

    function: Name
    arguments: Tuple[Expr, ...]


@dataclasses.dataclass(eq=False)
class Listed(Expr):
    """First values in braces, one for each field or element, None for those that begin with 0."""

    parts: Tuple[Optional[Expr], ...]


@dataclasses.dataclass(eq=False)
class Made(Expr):
    """A struct that an expression makes."""

    type: Type
    parts: Expr


@dataclasses.dataclass(eq=False)
class Inner(Expr):
    """Statements in an expression, whose value is that of the last one."""

    body: "Block"


# Statements.


@dataclasses.dataclass(eq=False)
class Effect(Stmt):
    expression: Expr


@dataclasses.dataclass(eq=False)
class Declare(Stmt):
    variables: Tuple[Declared, ...]


@dataclasses.dataclass(eq=False)
class Block(Stmt):
    statements: Tuple[Stmt, ...]


@dataclasses.dataclass(eq=False)
class If(Stmt):
    condition: Expr
    then: Stmt
    other: Stmt


@dataclasses.dataclass(eq=False)
class While(Stmt):
    condition: Expr
    body: Stmt


@dataclasses.dataclass(eq=False)
class DoWhile(Stmt):
    condition: Expr
    body: Stmt


@dataclasses.dataclass(eq=False)
class For(Stmt):
    first: Stmt
    condition: Optional[Expr]
    step: Optional[Expr]
    body: Stmt


@dataclasses.dataclass(eq=False)
class Case(Stmt):
    """The label of a case of a switch; of `default` where the value is None."""

    value: Optional[Expr]


@dataclasses.dataclass(eq=False)
class Switch(Stmt):
    value: Expr
    body: Tuple[Stmt, ...]


class Break(Stmt):
    pass


class Continue(Stmt):
    pass


@dataclasses.dataclass(eq=False)
class Label(Stmt):
    """The place of a label in a block. A label and those who go there have one number."""

    number: str


@dataclasses.dataclass(eq=False)
class Goto(Stmt):
    number: str


@dataclasses.dataclass(eq=False)
class Return(Stmt):
    value: Optional[Expr]


@dataclasses.dataclass(eq=False)
class File:
    variables: List[Declared]
    functions: "dict[str, Function]"
    faults: List[Refusal]
    erased: List[Type]


def walk(node: Any) -> Iterator[Node]:
    """A node and all in it."""
    if isinstance(node, (tuple, list)):
        for each in node:
            yield from walk(each)
    elif isinstance(node, Declared):
        yield from walk(node.init)
    elif isinstance(node, Node):
        yield node
        if not isinstance(node, Name):
            yield from walk(tuple(vars(node).values()))


def is_name(node: Any, of: Declared) -> bool:
    return isinstance(node, Name) and node.of is of


def is_address(node: Any, of: Declared) -> bool:
    return isinstance(node, Address) and is_name(node.operand, of)


def goes_to(node: Any, label: str) -> bool:
    return any(isinstance(it, Goto) and it.number == label for it in walk(node))


def writes(node: Any, of: Declared) -> bool:
    """Whether something in a part of the tree writes to a variable, or takes its address."""
    return any(isinstance(it, (Assign, Update)) and is_name(it.left, of) or isinstance(it, Step) and is_name(it.operand, of)
               or is_address(it, of) for it in walk(node))
