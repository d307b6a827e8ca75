"""Where C's variables are: which names of the program hold the parts of a variable, and what an lvalue leads to."""
import dataclasses
import math
from typing import Container, Dict, Iterator, List, Optional, Tuple, Union

from . import tree
from .operators import simplified
from .program import Expression, Number
from .refusal import Place, Refusal, Told
from .types import Array, Dims, Fields, Handle, Int, Struct, Type, scalars_of

KEYWORDS = frozenset("int mutex cond thread main tid if else while create join lock unlock wait signal broadcast fence assert swap cas "
                     "stbar".split())


class Names:
    """Names that are taken. A name that is a keyword of the language, or taken, gets a number behind it."""

    def __init__(self, around: Optional["Names"] = None) -> None:
        self.around, self.taken = around, set(KEYWORDS)

    def has(self, name: str) -> bool:
        return name in self.taken or self.around is not None and self.around.has(name)

    def fresh(self, base: str, others: Container[str] = ()) -> str:
        """A name that isn't taken, and isn't one of some others."""
        name, number = base, 2
        while self.has(name) or name in others:
            name, number = f"{base}_{number}", number + 1
        self.taken.add(name)
        return name


@dataclasses.dataclass(eq=False)
class Variable:
    """A variable of C: shared memory, or a thread's own. A constant one has a value and no memory. `objects` are its parts that are
    numbered: by the fields that lead to them, the array of all such objects, the number of the first one here, and the lengths of the
    arrays on the way."""

    name: str
    type: Type
    shared: bool
    at: Place
    value: Optional[int] = None
    objects: "Dict[Fields, Tuple[Variable, Expression, Dims]]" = dataclasses.field(default_factory=dict)

    def has_numbered(self, fields: Fields) -> bool:
        return any(fields[: len(it)] == it for it in self.objects)


@dataclasses.dataclass(frozen=True)
class Ref:
    """An lvalue: a variable, and the fields and the indexes that lead into it."""

    variable: Variable
    type: Type
    fields: Tuple[str, ...] = ()
    indexes: Tuple[Expression, ...] = ()
    in_array: bool = False  # whether an index leads to it, and no field behind that

    def field(self, name: str) -> "Ref":
        assert isinstance(self.type, Struct)
        return dataclasses.replace(self, type=self.type.field(name), fields=(*self.fields, name), in_array=False)

    def element(self, index: Expression) -> "Ref":
        assert isinstance(self.type, Array)
        return dataclasses.replace(self, type=self.type.element, indexes=(*self.indexes, index), in_array=True)

    def parts(self) -> Iterator["Ref"]:
        """The numbers that a struct or an array holds."""
        if isinstance(self.type, Struct):
            for name, _ in self.type.fields:
                yield from self.field(name).parts()
        elif isinstance(self.type, Array):
            for index in range(self.type.length):
                yield from self.element(Number(index)).parts()
        else:
            yield self


@dataclasses.dataclass(frozen=True)
class Single:
    """One variable of the program."""

    name: str


@dataclasses.dataclass(frozen=True)
class Indexed:
    """An element of an array of the program."""

    array: str
    index: Expression


@dataclasses.dataclass(frozen=True)
class Choice:
    """One of several variables of the program, by an index that isn't constant."""

    names: Tuple[str, ...]
    index: Expression


Target = Union[Single, Indexed, Choice]
Part = Tuple[Variable, Tuple[str, ...]]


class Storage:
    """The names of the parts of variables. An array of numbers is one of the program's where it is shared; the elements of other
    arrays are variables each."""

    def __init__(self, names: Names) -> None:
        self.names = names
        self.found: Dict[Part, Tuple[Tuple[int, ...], Type, Tuple[str, ...]]] = {}

    def declare(self, variable: Variable, ints: Container[str] = ()) -> List[Tuple[str, Type, int]]:
        """The names of a variable's parts, with their types, and the length of an array or 0. A thread isn't named as an int was."""
        made = []
        for fields, dims, type_ in scalars_of(variable.type):
            if variable.has_numbered(fields):
                continue
            base = "_".join((variable.name, *fields))
            size = math.prod(dims)
            others = ints if isinstance(type_, Handle) else ()
            whole = variable.shared and isinstance(type_, Int)
            if not dims or whole:
                names: Tuple[str, ...] = (self.names.fresh(base, others),)
            else:
                names = tuple(self.names.fresh(f"{base}_{index}", others) for index in range(size))
            self.found[variable, fields] = (dims, type_, names)
            made += [(name, type_, size if dims and whole else 0) for name in names]
        return made

    def target(self, ref: Ref) -> Target:
        ref = placed(ref)
        if (ref.variable, ref.fields) not in self.found:
            raise Told(ref.variable.at, f"{ref.variable.name}, which was refused", "see there")
        dims, type_, names = self.found[ref.variable, ref.fields]
        if not dims:
            return Single(names[0])
        index = flat(dims, ref.indexes)
        if ref.variable.shared and isinstance(type_, Int):
            return Indexed(names[0], index)
        return Single(names[index.value]) if isinstance(index, Number) else Choice(names, index)


def placed(ref: Ref) -> Ref:
    """The same lvalue by the number of its object, where it is one or a part of one."""
    for prefix, (every, first, dims) in ref.variable.objects.items():
        if ref.fields[: len(prefix)] == prefix and len(ref.indexes) >= len(dims):
            index = flat(dims, ref.indexes[: len(dims)])
            number = simplified("+", first, index) if index != Number(0) else first
            indexes = (number, *ref.indexes[len(dims) :])
            return placed(dataclasses.replace(ref, variable=every, fields=ref.fields[len(prefix) :], indexes=indexes))
    return ref


def flat(dims: Tuple[int, ...], indexes: Tuple[Expression, ...]) -> Expression:
    """The place of an element among all of them."""
    place: Expression = Number(0)
    for dim, index in zip(dims, indexes):
        scaled = Number(0) if place == Number(0) else simplified("*", place, Number(dim))
        place = index if scaled == Number(0) else simplified("+", scaled, index)
    return place


def bare(node: Optional[tree.Expr]) -> Optional[tree.Expr]:
    """The first value of a number without the braces that may be around it."""
    while isinstance(node, tree.Listed):
        node = node.parts[0] if node.parts else None
    return node


def first_values(ref: Ref, node: Optional[tree.Expr]) -> Iterator[Tuple[Ref, Optional[tree.Expr]]]:
    """The numbers of a variable, each with what it begins with, or None."""
    if isinstance(ref.type, Handle):
        return
    if not isinstance(ref.type, (Struct, Array)):
        yield ref, bare(node)
        return
    if node is not None and not isinstance(node, tree.Listed):
        raise Refusal(node.at, "a first value that is a struct or a text", "write its parts in braces")
    parts = node.parts if node is not None else ()
    if isinstance(ref.type, Struct):
        inner = [ref.field(name) for name, _ in ref.type.fields]
    else:
        inner = [ref.element(Number(index)) for index in range(ref.type.length)]
    for number, each in enumerate(inner):
        yield from first_values(each, parts[number] if number < len(parts) else None)
