"""Structs whose objects are numbered, since pointers to them are kept: such a pointer is a number, and 0 is the null pointer."""
import dataclasses
from typing import Any, Dict, Iterator, List, Set

from . import tree
from .program import Create, Program
from .checks import marked
from .storage import Variable
from .types import Array, Int, Pointer, Struct, Type, Void

MOST = 16
ALLOCATORS = ("malloc", "calloc", "aligned_alloc")


@dataclasses.dataclass(frozen=True)
class Sizes:
    """How many objects of a struct there are: static ones, main's own, and all; and whether some are freed. A translation finds it out
    for the next one."""

    statics: int = 0
    main: int = 0
    total: int = 0
    frees: bool = False


@dataclasses.dataclass(eq=False)
class Objects:
    """The objects of a struct: `variable` is the array of all, the first of which is never one. `allocates` says that some are made as
    the program runs. The other names are those of the program's variables that say how many were given to threads, and which were
    freed."""

    struct: Struct
    variable: Variable
    sizes: Sizes
    allocates: bool
    given: str
    freed: str
    statics: int = 0
    frees: bool = False
    counts: Dict[str, int] = dataclasses.field(default_factory=dict)


def structs_in(type_: Type, found: Set[Struct]) -> None:
    """The structs that a type has to do with."""
    if isinstance(type_, Struct) and type_ not in found:
        found.add(type_)
        for _, field in type_.fields:
            structs_in(field, found)
    elif isinstance(type_, Array):
        structs_in(type_.element, found)
    elif isinstance(type_, Pointer):
        structs_in(type_.to, found)


def kept_pointers(type_: Type) -> Iterator[Struct]:
    """The structs to which a variable of this type keeps pointers."""
    while isinstance(type_, Array):
        type_ = type_.element
    while isinstance(type_, Pointer) and isinstance(type_.to, Pointer):
        type_ = type_.to
    if isinstance(type_, Pointer) and isinstance(type_.to, Struct):
        yield type_.to


def own_variables(function: tree.Function) -> List[tree.Declared]:
    """A function's parameters and variables."""
    inner = (node.variables for node in tree.walk(function.body) if isinstance(node, tree.Declare))
    return [*function.parameters, *(it for variables in inner for it in variables)]


def is_fixed(declared: tree.Declared, function: tree.Function) -> bool:
    """Whether a pointer of a function's own always leads to one place."""
    has_value = declared.init is not None or declared in function.parameters
    return has_value and not declared.storage and isinstance(declared.type, Pointer) and not tree.writes(function.body, declared)


def is_allocation(node: Any) -> bool:
    return isinstance(node, tree.Call) and node.name in ALLOCATORS


def allocated(node: Any) -> Iterator[Struct]:
    """The struct for which an expression allocates memory."""
    if isinstance(node, tree.Convert) and is_allocation(node.operand):
        yield from kept_pointers(node.type)


def numbered(file: tree.File) -> List[Struct]:
    """The structs to which pointers are kept in memory, change, are compared, or come from a function."""
    structs: Set[Struct] = set()
    found: Dict[Struct, None] = {}
    for declared in (*file.variables, *(it for function in file.functions.values() for it in own_variables(function))):
        structs_in(declared.type, structs)
    for declared in file.variables:
        found.update(dict.fromkeys(kept_pointers(declared.type)))
    for function in file.functions.values():
        structs_in(function.result, structs)
        found.update(dict.fromkeys(kept_pointers(function.result)))
        nodes = list(tree.walk(function.body))
        for declared in own_variables(function):
            if not is_fixed(declared, function) or isinstance(declared.type, Pointer) and isinstance(declared.type.to, Pointer):
                found.update(dict.fromkeys(kept_pointers(declared.type)))
        for node in nodes:
            if isinstance(node, tree.Binary) and node.operator in ("==", "!=") or isinstance(node, tree.Conditional):
                found.update(dict.fromkeys(kept_pointers(node.type)))
            found.update(dict.fromkeys(allocated(node)))
    for struct in structs:
        for _, field in struct.fields:
            found.update(dict.fromkeys(kept_pointers(field)))
    kept = [*(it.type for it in file.variables), *(field for struct in structs for _, field in struct.fields)]
    for function in file.functions.values():
        kept += [it.type for it in own_variables(function) if not is_fixed(it, function)]
    if any(kept_void(it) != it for it in kept):
        found.update(dict.fromkeys(struct for it in file.erased for struct in kept_pointers(it)))
    return list(found)


def as_number(type_: Any, structs: Set[Struct]) -> Any:
    """The type, in which pointers to some structs are numbers."""
    if isinstance(type_, Pointer) and type_.to in structs and isinstance(type_.to, Struct):
        return Int("address", type_.atomic, to=type_.to)
    if isinstance(type_, Pointer):
        return dataclasses.replace(type_, to=as_number(type_.to, structs))
    if isinstance(type_, Array):
        return dataclasses.replace(type_, element=as_number(type_.element, structs))
    return type_


def kept_void(type_: Any) -> Any:
    """The type of what is kept, in which a pointer to anything is a number of 64 bits."""
    if isinstance(type_, Pointer) and isinstance(type_.to, Void):
        return Int("unsigned long", type_.atomic)
    if isinstance(type_, Array):
        return dataclasses.replace(type_, element=kept_void(type_.element))
    return type_


def number(file: tree.File) -> List[Struct]:
    """Makes pointers to structs numbers in a whole file, where they are kept; gives these structs."""
    found = numbered(file)
    chosen, every = set(found), set(found)
    for declared in (*file.variables, *(it for function in file.functions.values() for it in own_variables(function))):
        structs_in(declared.type, every)
        declared.type = as_number(declared.type, chosen)
    for struct in every:
        struct.fields = tuple((name, kept_void(as_number(field, chosen))) for name, field in struct.fields)
    for declared in file.variables:
        declared.type = kept_void(declared.type)
    for function in file.functions.values():
        function.result = kept_void(as_number(function.result, chosen))
        for declared in own_variables(function):
            if not is_fixed(declared, function):
                declared.type = kept_void(declared.type)
        for node in tree.walk(function.body):
            for name in ("type", "computed"):
                if hasattr(node, name):
                    setattr(node, name, as_number(getattr(node, name), chosen))
    return found


def instances(program: Program) -> Dict[str, int]:
    """How many threads may do each function; one that is created in a loop may be two."""
    counts: Dict[str, int] = {"main": 1}
    for _ in program.threads:
        found: Dict[str, int] = {"main": 1}
        for thread in program.threads:
            for statement, looped in marked(thread.body, False):
                if isinstance(statement, Create):
                    more = counts.get(thread.name, 0) * (2 if looped else 1)
                    found[statement.thread] = min(MOST, found.get(statement.thread, 0) + more)
        counts = found
    return counts


def needed(objects: Objects, program: Program) -> Sizes:
    """How many objects a translated program has."""
    times = instances(program)
    main = objects.counts.get("main", 0)
    others = sum(count * times.get(name, 0) for name, count in objects.counts.items() if name != "main")
    return Sizes(objects.statics, main, objects.statics + main + others, objects.frees)
