"""The parts of a litmus test: expressions, statements, threads, the condition on the final
state."""
from dataclasses import dataclass
from typing import Dict, List, Optional, Tuple, Union


@dataclass(frozen=True)
class Number:
    value: int


@dataclass(frozen=True)
class Register:
    """A register, or an int of a thread's own."""

    name: str


@dataclass(frozen=True)
class Memory:
    """The value of a location: a load."""

    name: str


@dataclass(frozen=True)
class Final:
    """A register's value at the end of its thread."""

    thread: int
    register: str


@dataclass(frozen=True)
class Unary:
    sign: str
    operand: "Expression"


@dataclass(frozen=True)
class Binary:
    sign: str
    left: "Expression"
    right: "Expression"


Expression = Union[Number, Register, Memory, Final, Unary, Binary]


def subexpressions(expression: Expression) -> List[Expression]:
    """The expression and all expressions within it, from left to right."""
    found: List[Expression] = [expression]
    if isinstance(expression, Unary):
        found += subexpressions(expression.operand)
    if isinstance(expression, Binary):
        found += subexpressions(expression.left) + subexpressions(expression.right)
    return found


@dataclass(frozen=True)
class Assign:
    register: str
    value: Expression


@dataclass(frozen=True)
class Store:
    location: str
    value: Expression


@dataclass(frozen=True)
class Swap:
    """The register, if there is one, takes the location's value, and the location the new one, in one step."""

    register: Optional[str]
    location: str
    value: Expression


@dataclass(frozen=True)
class CompareAndSwap:
    register: Optional[str]
    location: str
    expected: Expression
    value: Expression


@dataclass(frozen=True)
class Update:
    """In one step the location takes the value of `sign` over its old value and the operand. The register takes the old or the new one."""

    register: Optional[str]
    location: str
    sign: str
    operand: Expression
    gives_new: bool = False


@dataclass(frozen=True)
class Fence:
    """All earlier stores are in memory before the thread goes on."""


@dataclass(frozen=True)
class StoreBarrier:
    """No later store reaches memory before an earlier one."""


@dataclass(frozen=True)
class If:
    condition: Expression
    then: "Tuple[Statement, ...]"
    otherwise: "Tuple[Statement, ...]" = ()


Statement = Union[Assign, Store, Swap, CompareAndSwap, Update, Fence, StoreBarrier, If]


@dataclass
class Thread:
    """A thread, and the registers and locations that it names."""

    registers: List[str]
    locations: List[str]
    statements: List[Statement]


@dataclass(frozen=True)
class Condition:
    """The final states that a test asks for: those in which `state` isn't 0, or of `forall` all others."""

    text: str
    quantifier: str
    state: Expression

    def claim(self) -> Expression:
        """The assertion that fails exactly in the final states that the test asks for."""
        return self.state if self.quantifier == "forall" else Unary("!", self.state)

    def registers(self) -> List[Final]:
        """The registers that the condition names, each once."""
        return list(dict.fromkeys(part for part in subexpressions(self.state) if isinstance(part, Final)))

    def locations(self) -> List[str]:
        return list(dict.fromkeys(part.name for part in subexpressions(self.state) if isinstance(part, Memory)))


@dataclass
class Test:
    """`initial` has the values of the locations that the initial state names; the others begin at 0."""

    architecture: str
    name: str
    initial: Dict[str, int]
    threads: List[Thread]
    condition: Condition

    def locations(self) -> List[str]:
        """The locations, those of the initial state first."""
        return list(dict.fromkeys([*self.initial, *(name for thread in self.threads for name in thread.locations)]))
