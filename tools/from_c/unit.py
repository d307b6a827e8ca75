"""A whole C file: its globals and functions, and the threads that its program has."""
import contextlib
import dataclasses
import math
from typing import Any, Dict, Iterator, List, Optional, Set, Tuple

from . import tree
from .arithmetic import LEAST
from .body import Body, Frame
from .leaving import Leaving
from .objects import Objects, Sizes, is_allocation, needed, number
from .program import (Assign, Block, Cell, Element, Expression, Global, Labelled, Local, Number, Program, Statement, Thread,
                      expressions_of, read_in, statements_in)
from .refusal import Notes, Place, Refusal, Refusals, Told
from .statements import Statements
from .storage import Indexed, Names, Ref, Single, Storage, Variable, bare, first_values, placed
from .tidying import tidied
from .types import WIDTHS, Array, Dims, Fields, Handle, Int, Pointer, Struct, Type, Void, structs_within
from .values import NULL, Value

ADVICE = {
    "realloc": "allocate a struct of its own for each object", "exit": "return from main, or abort() where that is a failure",
}
FAMILIES = (
    ("pthread_spin_try", "use lock and unlock; a try is an atomic int and a compare-exchange"),
    ("pthread_mutex_", "use lock and unlock; a try is an atomic int and a compare-exchange"),
    ("mtx_", "use mtx_lock and mtx_unlock; a try is an atomic int and a compare-exchange"),
    ("pthread_cond_timed", "wait without a time"), ("cnd_timed", "wait without a time"),
    ("__atomic_", "use a load, a store, an exchange or a fetch"), ("__sync_", "use a load, a store, an exchange or a fetch"),
)


@dataclasses.dataclass(frozen=True)
class Options:
    """For which memory model barriers are wanted, for all where it is None; whether operands are taken from left to right; and whether
    arithmetic of 64 bits is refused; how many objects of each struct a thread may allocate, and whether it gets freed ones again."""

    model: Optional[str] = None
    left_to_right: bool = False
    refuse_wide: bool = False
    heap: int = 4
    reuse: bool = False


@dataclasses.dataclass(frozen=True)
class Start:
    """A thread's function and argument: nothing, an int, or a place with indexes that are ints."""

    function: str
    kind: str
    ref: Optional[Ref] = None


class Unit:
    """The translation of a file."""

    def __init__(self, file: tree.File, options: Options, structs: List[Struct], sizes: Dict[Struct, Sizes]) -> None:
        self.file, self.options, self.notes = file, options, Notes()
        self.names = Names()
        self.names.taken.discard("main")
        self.storage = Storage(self.names)
        self.globals: Dict[tree.Declared, Variable] = {}
        self.declared: List[Global] = []
        self.first: List[Statement] = []
        self.starts: Dict[Tuple[Any, ...], Tuple[str, Start]] = {}
        self.claims: Dict[str, Body] = {}
        self.labels = 0
        self.results = self.names.fresh("results") if wants_results(file) else ""
        self.slots: Dict[Tuple[Body, str], int] = {}
        self.futex: Tuple[str, ...] = ()
        self.refusals = list(file.faults)
        self.constants = Statements(self)
        self.objects: Dict[Struct, Objects] = {}
        allocated = {struct for function in file.functions.values() for node in tree.walk(function.body) for struct in kept_in(node)}
        self.exposed = given_to_threads(file)
        for struct in structs:
            self.objects[struct] = self.numbered(struct, sizes.get(struct, Sizes()), struct in allocated)
        for objects in self.objects.values():
            with self.refusing():
                self.declare_objects(objects)
        for each in file.variables:
            with self.refusing():
                if each.storage == "extern" and each.init is None:
                    raise Refusal(each.at, f"{each.name}, which another file has", "define it in this file")
                if not each.per_thread:
                    self.shared(each.name, each, each.init)

    def numbered(self, struct: Struct, sizes: Sizes, allocates: bool) -> Objects:
        """The array of all objects of a struct."""
        name = struct.name or "object"
        variable = Variable(name, Array(sizes.total + 1, struct), True, struct.at)
        return Objects(struct, variable, sizes, allocates, self.names.fresh(f"{name}_given"), self.names.fresh(f"{name}_freed"))

    def declare_objects(self, made: Objects) -> None:
        struct, sizes, variable = made.struct, made.sizes, made.variable
        self.refuse_type(variable.name, struct, struct.at)
        for name, field in struct.fields:
            self.number_parts(variable, field, (name,), (sizes.total + 1,))
        for part, part_type, length in self.storage.declare(variable):
            if isinstance(part_type, Int):
                self.declared.append(Global("int", part, length, 0, struct.at))
            elif part_type in (Handle("mutex"), Handle("condition")):
                self.declared.append(Global("mutex" if part_type == Handle("mutex") else "cond", part, 0, 0, struct.at))
        if sizes.total > sizes.statics + sizes.main:
            self.declared.append(Global("int", made.given, 0, sizes.statics + sizes.main + 1, struct.at, True))
        if sizes.frees:
            self.declared.append(Global("int", made.freed, sizes.total + 1, 0, struct.at, True))

    def futexes(self, at: Place) -> Tuple[str, str]:
        """The mutex and the condition of all futexes."""
        if not self.futex:
            self.futex = (self.names.fresh("futex_guard"), self.names.fresh("futex_waiters"))
            self.declared += [Global(kind, name, 0, 0, at, True) for kind, name in zip(("mutex", "cond"), self.futex)]
        self.notes.add("a wake of futexes wakes all threads that wait, at whichever address", at)
        return self.futex[0], self.futex[1]

    def number_parts(self, variable: Variable, type_: Type, fields: Fields = (), dims: Dims = ()) -> None:
        """Gives numbers to the parts of a variable to which pointers are kept."""
        for path, lengths, struct in structs_within(type_, self.objects, fields, dims):
            objects = self.objects[struct]
            variable.objects[path] = (objects.variable, Number(objects.statics + 1), lengths)
            objects.statics += math.prod(lengths)

    def objects_of(self, type_: Type) -> Optional[Objects]:
        """The objects that a variable of this type is, one or an array of them."""
        while isinstance(type_, Array):
            type_ = type_.element
        return self.objects.get(type_) if isinstance(type_, Struct) else None

    @contextlib.contextmanager
    def refusing(self) -> Iterator[None]:
        """Keeps a refusal, so that what comes next may be refused too."""
        try:
            yield
        except Refusal as fault:
            self.refusals += [] if isinstance(fault, Told) else [fault]

    # Names.

    def label(self) -> int:
        self.labels += 1
        return self.labels

    def constant(self, node: tree.Expr, kind: str = "int") -> int:
        """The value of a constant expression."""
        value = self.constants.value(node)
        if value.kind in ("pointer", "null"):
            value = self.constants.converted(value, kind, node.at)
        if value.before or not isinstance(value.expression, Number) or value.kind not in WIDTHS:
            raise Refusal(node.at, "something that isn't constant, where a constant is wanted", "write a number or a constant of an enum")
        return value.expression.value

    def advice_on(self, name: str) -> str:
        for family, advice in FAMILIES:
            if name.startswith(family):
                return advice
        return ADVICE.get(name, "define it in this file")

    # Declarations.

    def note_wide(self, at: Place) -> None:
        """Arithmetic of 64 bits is done with 32."""
        if self.options.refuse_wide:
            raise Refusal(at, "arithmetic of 64 bits", "use int or unsigned, or leave --wide=refuse out")
        self.notes.add("integers of 64 bits are computed with the 32 lowest", at)

    def note_volatile(self, type_: Type, at: Place) -> None:
        while isinstance(type_, Array):
            type_ = type_.element
        if isinstance(type_, Int) and type_.volatile:
            self.notes.add("volatile orders nothing and makes nothing atomic", at)

    def shared(self, name: str, declared: tree.Declared, init: Optional[tree.Expr]) -> Variable:
        """A variable of shared memory, which there is once, with its first values."""
        if declared in self.globals:
            return self.globals[declared]
        type_, at = declared.type, declared.at
        self.refuse_type(name, type_, at)
        self.note_volatile(type_, at)
        variable = Variable(name, type_, True, at)
        self.number_parts(variable, type_)
        if isinstance(type_, Int) and type_.constant and not type_.atomic and not type_.volatile and declared not in self.exposed:
            variable.value = self.first_value(bare(init))
            self.globals[declared] = variable
            return variable
        kinds = {"mutex": "mutex", "condition": "cond"}
        made = {}
        for part, part_type, length in self.storage.declare(variable):
            if isinstance(part_type, Handle):
                if part_type.kind in kinds:
                    made[part] = Global(kinds[part_type.kind], part, 0, 0, at)
            else:
                made[part] = Global("int", part, length, 0, at)
        self.globals[declared] = variable
        if init is not None:
            self.fill(variable, init, made, at)
        self.declared += made.values()
        return variable

    def refuse_type(self, name: str, type_: Type, at: Place) -> None:
        if isinstance(type_, Array):
            if type_.length == 0:
                raise Refusal(at, f"the array {name} without a length", "write its length")
            self.refuse_type(name, type_.element, at)
        elif isinstance(type_, Struct):
            for field, inner in type_.fields:
                self.refuse_type(f"{name}.{field}", inner, at)
        elif isinstance(type_, Pointer):
            raise Refusal(at, f"the pointer {name} in shared memory", "use an index into an array, an int in place of the pointer")
        elif isinstance(type_, Void):
            raise Refusal(at, f"{name} of the type void", "give it a type")

    def fill(self, variable: Variable, init: tree.Expr, made: Dict[str, Global], at: Place) -> None:
        """The first values: with the declaration where the language can say them there, else as the first stores of main."""
        for ref, node in first_values(Ref(variable, variable.type), init):
            assert isinstance(ref.type, Int)
            value = self.first_value(node, ref.type.kind)
            target = self.storage.target(ref)
            if isinstance(target, Single) and value != LEAST:
                made[target.name] = dataclasses.replace(made[target.name], value=value)
            elif isinstance(target, Single):
                self.first.append(Assign(Cell(target.name, False), Number(value), at))
            elif isinstance(target, Indexed) and value != 0:
                self.first.append(Assign(Element(target.array, target.index, False), Number(value), at))

    def first_value(self, node: Optional[tree.Expr], kind: str = "int") -> int:
        """What a number begins with: what is given for it, or 0."""
        return self.constant(node, kind) if node is not None else 0

    # Functions.

    def function(self, name: str) -> Optional[tree.Function]:
        return self.file.functions.get(name)

    # Threads.

    def thread(self, function: str, value: Value, at: Place) -> Tuple[str, Tuple[Expression, ...]]:
        """The thread that does a function with an argument like this, and what it is given."""
        parameters, body = self.file.functions[function].parameters, self.file.functions[function].body
        if len(parameters) != 1 or not isinstance(parameters[0].type, Pointer):
            raise Refusal(at, f"{function} as what a thread does", "such a function has one parameter, void *")
        used = any(isinstance(it, tree.Name) and it.of is parameters[0] for it in tree.walk(body))
        if not used or value.is_null:
            return self.started(Start(function, "nothing")), ()
        if value.kind == "wide":
            return self.started(Start(function, "int")), (value.expression,)
        if value.ref and any(not isinstance(first, Number) for _, first, _ in value.ref.variable.objects.values()):
            value = dataclasses.replace(value, ref=placed(value.ref))
        if value.kind != "pointer" or not value.ref:
            raise Refusal(at, f"a {value.kind} as what a thread is given", "pass NULL, (void *)(intptr_t)number, &global or &array[i]")
        if not value.ref.variable.shared:
            raise Refusal(at, f"the address of {value.ref.variable.name}, which is a function's own, for another thread",
                          "declare it at file scope, or static")
        return self.started(Start(function, "place", value.ref)), value.ref.indexes

    def started(self, start: Start) -> str:
        ref = start.ref
        key = (start.function, start.kind, *((ref.variable.name, ref.variable.at, ref.fields) if ref else ()))
        if key not in self.starts:
            self.starts[key] = (self.names.fresh(start.function), start)
        return self.starts[key][0]

    def result(self, body: Body, handle: str) -> Number:
        """The place of what a thread gives back, by the variable that names the thread."""
        return Number(self.slots.setdefault((body, handle), len(self.slots)))

    def claim(self, name: str, body: Body, at: Place) -> None:
        """A thread variable at file scope is that of the one body that uses it."""
        if self.claims.setdefault(name, body) is not body:
            raise Refusal(at, f"the thread variable {name} in two threads", "create and join it in one thread")
        if name not in body.handles:
            body.handles.append(name)

    def translated(self) -> Program:
        if "main" not in self.file.functions:
            raise Refusal(None, "there is no main", "the file has to be a whole program")
        main = self.main()
        threads: List[Thread] = []
        done = 0
        while done < len(self.starts):
            name, start = list(self.starts.values())[done]
            threads.append(self.thread_body(name, start))
            done += 1
        # Static variables of all functions are known only now.
        main = dataclasses.replace(main, body=(*self.first, *main.body))
        if self.slots:
            self.declared.append(Global("int", self.results, len(self.slots), 0, main.end, True))
        return Program(tuple(self.declared), (*threads, main))

    def main(self) -> Thread:
        function = self.file.functions["main"]
        if any(isinstance(it, tree.Name) and it.of in function.parameters for it in tree.walk(function.body)):
            raise Refusal(function.at, "main with parameters that it reads", "write int main(void): the program reads nothing")
        body = Statements(self)
        body.is_main = True
        return self.finished(body, "main", (), function)

    def thread_body(self, name: str, start: Start) -> Thread:
        function, body = self.file.functions[start.function], Statements(self)
        parameter = function.parameters[0]
        names: List[str] = []
        binding = NULL
        if start.kind == "int":
            names = [body.names.fresh(parameter.name)]
            binding = Value("wide", expression=Local(names[0]))
        elif start.ref:
            names = [body.names.fresh(parameter.name) for _ in start.ref.indexes]
            indexes = tuple(Local(it) for it in names)
            body.temporaries |= set(indexes)
            binding = Value("pointer", ref=dataclasses.replace(start.ref, indexes=indexes))
        if self.results:
            body.gives_back = Local(body.names.fresh("result"))
            names.append(body.gives_back.name)
        body.bind(parameter, binding)
        return self.finished(body, name, tuple(names), function)

    def finished(self, body: Statements, name: str, parameters: Tuple[str, ...], function: tree.Function) -> Thread:
        """The thread that a function is."""
        label = self.label()
        body.frames = [Frame(function, Void(), label, None)]
        block = body.statement(function.body)
        whole = (*body.beginning(name, function.at), *body.first, Labelled(label, "left", block, function.at))
        settled = tidied(Leaving(lambda base: body.temporary(base).name).settled(whole), body.temporaries)
        used = names_in(settled)
        end = max((it.at for it in statements_in(settled)), default=function.at, key=lambda it: it.line)
        return Thread(name, parameters, tuple(it for it in body.ints if it in used), tuple(body.handles), settled, end)


def kept_in(node: Any) -> Iterator[Struct]:
    """The struct for which an expression allocates memory."""
    if isinstance(node, tree.Convert) and isinstance(node.type, Int) and node.type.to and is_allocation(node.operand):
        yield node.type.to


def wants_results(file: tree.File) -> bool:
    """Whether something takes what a thread gives back."""
    nodes = (node for function in file.functions.values() for node in tree.walk(function.body))
    joins = (it for it in nodes if isinstance(it, tree.Call) and it.name in ("pthread_join", "thrd_join"))
    return any(not isinstance(it.arguments[1], tree.Null) for it in joins)


def given_to_threads(file: tree.File) -> Set[tree.Declared]:
    """The variables of main's own whose addresses it gives to threads. There is one of each, so they are shared."""
    found: Set[tree.Declared] = set()
    for node in tree.walk(file.functions["main"].body) if "main" in file.functions else ():
        if isinstance(node, tree.Call) and node.name in ("pthread_create", "thrd_create"):
            for inner in tree.walk(node.arguments[-1]):
                names = inner.operand if isinstance(inner, tree.Address) else inner
                while isinstance(names, (tree.Element, tree.Field)):
                    names = names.array if isinstance(names, tree.Element) else names.struct
                if isinstance(names, tree.Name) and (isinstance(inner, tree.Address) or isinstance(names.of.type, Array)):
                    found.add(names.of)
    return found


def names_in(block: Block) -> Set[str]:
    """The locals that a block reads or writes."""
    found: Set[str] = set()
    for statement in statements_in(block):
        target = getattr(statement, "target", None)
        read = (*read_in(statement), *([target] if target is not None else []))
        found |= {it.name for each in read for it in expressions_of(each) if isinstance(it, Local)}
    return found


def translate(file: tree.File, options: Options) -> Tuple[Program, Notes]:
    """The program that a C file is, and what is to be said beside it."""
    structs = number(file)
    sizes: Dict[Struct, Sizes] = {}
    while True:
        unit = Unit(file, options, structs, sizes)
        program = unit.translated()
        found = {struct: needed(objects, program) for struct, objects in unit.objects.items()}
        if found == sizes or len(found) < len(structs):
            break
        sizes = found
    if unit.refusals:
        raise Refusals(unit.refusals)
    return program, unit.notes
