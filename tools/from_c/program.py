"""Programs between C and the language: statements and expressions of the language, and blocks that can be left early."""
import dataclasses
from typing import FrozenSet, Iterable, Iterator, Optional, Tuple, Union

from .refusal import Place

# A thing that is read or written: a local's name, or a shared name with the element where it is
# known.
Object = Tuple[str, str, Optional[int]]


@dataclasses.dataclass(frozen=True)
class Number:
    value: int


@dataclasses.dataclass(frozen=True)
class Local:
    name: str


@dataclasses.dataclass(frozen=True)
class Cell:
    """A shared variable. It is atomic where C says so."""

    name: str
    atomic: bool


@dataclasses.dataclass(frozen=True)
class Element:
    """An element of a shared array. One that `is_own` says something of the program that the file doesn't write down."""

    array: str
    index: "Expression"
    atomic: bool
    is_own: bool = False


@dataclasses.dataclass(frozen=True)
class Unary:
    operator: str
    operand: "Expression"


@dataclasses.dataclass(frozen=True)
class Binary:
    operator: str
    left: "Expression"
    right: "Expression"


Expression = Union[Number, Local, Cell, Element, Unary, Binary]


@dataclasses.dataclass(frozen=True)
class Assign:
    target: Union[Local, Cell, Element]
    value: Expression
    at: Place


@dataclasses.dataclass(frozen=True)
class Exchange:
    """`swap`, `cas` or `add`: in one step, the local takes what a shared variable or element held, which takes another value."""

    name: str
    target: Local
    cell: Union[Cell, Element]
    operands: Tuple[Expression, ...]
    at: Place


@dataclasses.dataclass(frozen=True)
class Call:
    """lock, unlock, wait, signal, broadcast, join, fence or stbar."""

    name: str
    arguments: Tuple[str, ...]
    at: Place


@dataclasses.dataclass(frozen=True)
class Create:
    handle: str
    thread: str
    arguments: Tuple[Expression, ...]
    at: Place


@dataclasses.dataclass(frozen=True)
class Assert:
    condition: Expression
    at: Place


@dataclasses.dataclass(frozen=True)
class If:
    condition: Expression
    then: Tuple["Statement", ...]
    other: Tuple["Statement", ...]
    at: Place


@dataclasses.dataclass(frozen=True)
class While:
    condition: Expression
    body: Tuple["Statement", ...]
    at: Place


@dataclasses.dataclass(frozen=True)
class Labelled:
    """A block that a `Leave` of its label ends."""

    label: int
    name: str
    body: Tuple["Statement", ...]
    at: Place


@dataclasses.dataclass(frozen=True)
class Leave:
    label: int
    at: Place


Statement = Union[Assign, Exchange, Call, Create, Assert, If, While, Labelled, Leave]
Block = Tuple[Statement, ...]


@dataclasses.dataclass(frozen=True)
class Thread:
    """A thread's body, or main's."""

    name: str
    parameters: Tuple[str, ...]
    ints: Tuple[str, ...]
    handles: Tuple[str, ...]
    body: Block
    end: Place


@dataclasses.dataclass(frozen=True)
class Global:
    """A declaration of shared memory, of a mutex or of a condition. Length 0 is a single variable. The file hasn't one that `is_own`."""

    kind: str
    name: str
    length: int
    value: int
    at: Place
    is_own: bool = False


@dataclasses.dataclass(frozen=True)
class Program:
    globals: Tuple[Global, ...]
    threads: Tuple[Thread, ...]


@dataclasses.dataclass(frozen=True)
class Effects:
    """The reads and writes of some code; whether it has an access or a call that orders others;
    whether it uses shared memory."""

    reads: FrozenSet[Object] = frozenset()
    writes: FrozenSet[Object] = frozenset()
    orders: bool = False

    def __or__(self, other: "Effects") -> "Effects":
        return Effects(self.reads | other.reads, self.writes | other.writes, self.orders or other.orders)

    @property
    def shares(self) -> bool:
        return any(it[0] == "shared" for it in self.reads | self.writes)


def overlap(some: Iterable[Object], others: Iterable[Object]) -> bool:
    others = list(others)
    return any(a[:2] == b[:2] and (a[2] is None or b[2] is None or a[2] == b[2]) for a in some for b in others)


def expressions_of(expression: Expression) -> Iterator[Expression]:
    """An expression and those in it."""
    yield expression
    if isinstance(expression, Unary):
        yield from expressions_of(expression.operand)
    elif isinstance(expression, Binary):
        yield from expressions_of(expression.left)
        yield from expressions_of(expression.right)
    elif isinstance(expression, Element):
        yield from expressions_of(expression.index)


def object_of(target: Union[Local, Cell, Element]) -> Object:
    if isinstance(target, Local):
        return "local", target.name, None
    if isinstance(target, Cell):
        return "shared", target.name, None
    return "own" if target.is_own else "shared", target.array, target.index.value if isinstance(target.index, Number) else None


def effects_of(*expressions: Expression) -> Effects:
    found = [it for each in expressions for it in expressions_of(each) if isinstance(it, (Local, Cell, Element))]
    return Effects(frozenset(map(object_of, found)), frozenset(), any(getattr(it, "atomic", False) for it in found))


def write_of(target: Union[Local, Cell, Element]) -> Effects:
    index = effects_of(target.index) if isinstance(target, Element) else Effects()
    return index | Effects(frozenset(), frozenset([object_of(target)]), getattr(target, "atomic", False))


def read_in(statement: Statement) -> Tuple[Expression, ...]:
    """The expressions that a statement evaluates, those of its blocks apart."""
    if isinstance(statement, Assign):
        return (statement.value,)
    if isinstance(statement, Exchange):
        return (*statement.operands, statement.cell)
    if isinstance(statement, Create):
        return statement.arguments
    if isinstance(statement, (Assert, If, While)):
        return (statement.condition,)
    return ()


def blocks_of(statement: Statement) -> Tuple[Block, ...]:
    if isinstance(statement, If):
        return statement.then, statement.other
    return (statement.body,) if isinstance(statement, (While, Labelled)) else ()


def effects_in(block: Block) -> Effects:
    found = Effects()
    for statement in block:
        found |= effects_of(*read_in(statement))
        if isinstance(statement, (Assign, Exchange)):
            found |= write_of(statement.target)
        if isinstance(statement, Exchange):
            found |= write_of(statement.cell)
        if isinstance(statement, (Call, Create)):
            found |= Effects(orders=True)
        for inner in blocks_of(statement):
            found |= effects_in(inner)
    return found


def moved_to(block: Block, at: Place) -> Block:
    """The statements as ones of another place."""
    out = []
    for statement in block:
        if isinstance(statement, If):
            statement = dataclasses.replace(statement, then=moved_to(statement.then, at), other=moved_to(statement.other, at))
        elif isinstance(statement, (While, Labelled)):
            statement = dataclasses.replace(statement, body=moved_to(statement.body, at))
        out.append(dataclasses.replace(statement, at=at))
    return tuple(out)


def statements_in(block: Block) -> Iterator[Statement]:
    """All statements of a block, those of inner blocks too."""
    for statement in block:
        yield statement
        for inner in blocks_of(statement):
            yield from statements_in(inner)
