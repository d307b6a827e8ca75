"""The state of translating one thread's body: names, scopes, and the functions around it."""
import dataclasses
import math
from typing import TYPE_CHECKING, Any, Dict, List, Optional, Set, Tuple, Union

from . import tree
from .objects import Objects
from .operators import simplified
from .program import Assert, Binary, Block, Cell, Exchange, Expression, Local, Number, Object, Statement
from .refusal import Place, Refusal
from .storage import Names, Ref, Storage, Variable, first_values, placed
from .types import Handle, Int, Struct, Type, dims_of, structs_within
from .values import Value

if TYPE_CHECKING:
    from .unit import Unit

Binding = Union[Variable, Value]


class NeedsConstant(Refusal):
    """An index that has to be constant. A loop with constant bounds can be unrolled then."""


@dataclasses.dataclass
class Frame:
    """A function whose body is being translated: where `return` leads, and what takes the value."""

    function: tree.Function
    type: Type
    label: int
    result: Optional[Local]
    breaks: List[int] = dataclasses.field(default_factory=list)
    continues: List[int] = dataclasses.field(default_factory=list)


class Body:
    """The state of a translation of one thread, or of main."""

    def __init__(self, unit: "Unit") -> None:
        self.unit = unit
        self.names = Names(unit.names)
        self.storage = Storage(self.names)
        self.frames: List[Frame] = []
        self.ints: List[str] = []
        self.handles: List[str] = []
        self.temporaries: Set[Local] = set()
        self.held: List[List[str]] = [[]]
        self.bindings: Dict[tree.Declared, Binding] = {}
        self.once: Dict[tree.Once, Value] = {}
        self.lasting: Dict[str, Local] = {}
        self.is_main = False
        self.gives_back: Optional[Local] = None  # where the thread leaves what it gives back
        self.gotos: Dict[str, Tuple[Block, int]] = {}
        self.own: Set[str] = set()
        self.loops = 0
        self.first: List[Statement] = []
        self.offsets: Dict[Struct, int] = {}
        self.shared: Dict[tree.Declared, Variable] = {}

    # Names.

    def temporary(self, base: str) -> Local:
        """A local that nothing else uses."""
        made = Local(self.names.fresh(base, self.ints))
        self.ints.append(made.name)
        self.temporaries.add(made)
        return made

    def is_live(self, what: Object) -> bool:
        """Whether a variable is in scope, or shared."""
        return what[0] == "shared" or what[1] in self.names.taken

    def storage_of(self, ref: Ref) -> Storage:
        return self.unit.storage if placed(ref).variable.shared else self.storage

    def dims(self, ref: Ref) -> Tuple[int, ...]:
        return dims_of(ref.variable.type, ref.fields)

    def declare(self, declared: tree.Declared) -> Variable:
        """A variable of the body, in the innermost scope."""
        base, at, type_ = declared.name, declared.at, declared.type
        objects = self.unit.objects_of(type_)
        if objects:
            return self.declare_objects(declared, objects)
        if isinstance(type_, Int):
            type_ = dataclasses.replace(type_, constant=False)
        if self.names.has(base) and len(self.frames) > 1:
            base = f"{self.frames[-1].function.name}_{base}"
        if any(structs_within(type_, self.unit.objects)):
            raise Refusal(at, "a struct of a function's own with a part to which pointers are kept", "declare it at file scope, or static")
        variable = Variable(base, type_, False, at)
        self.held[-1] += self.declare_parts(variable, at)
        self.bind(declared, variable)
        return variable

    def declare_parts(self, variable: Variable, at: Place) -> List[str]:
        """The names of a variable's numbers, which are taken from now on."""
        names: List[str] = []
        for made, part, _ in self.storage.declare(variable, self.ints):
            kinds = self.handles if isinstance(part, Handle) else self.ints
            if isinstance(part, Handle) and part.kind != "thread":
                raise Refusal(at, f"a {part.kind} of a function's own", "declare it at file scope, or static")
            if isinstance(part, Int) and part.atomic:
                raise Refusal(at, "an atomic variable of a function's own", "declare it at file scope, or static")
            if made not in kinds:
                kinds.append(made)
            if not isinstance(part, Handle):
                names.append(made)
        return names

    def bind(self, declared: tree.Declared, binding: Binding) -> None:
        self.bindings[declared] = binding

    def lookup(self, declared: tree.Declared) -> Optional[Binding]:
        if declared.per_thread and declared not in self.bindings:
            self.declare_own(declared)
        return self.bindings.get(declared) or self.unit.globals.get(declared)

    def declare_objects(self, declared: tree.Declared, objects: Objects) -> Variable:
        """A variable of the body to which others may point: objects that each thread has for itself."""
        if declared not in self.shared:
            dims = dims_of(declared.type, ())
            first = self.objects_from(objects, math.prod(dims))
            made = Variable(declared.name, declared.type, True, declared.at, objects={(): (objects.variable, first, dims)})
            self.shared[declared] = made
        self.bind(declared, self.shared[declared])
        return self.shared[declared]

    def objects_from(self, objects: Objects, count: int) -> Expression:
        """The number of the first one of more objects of this thread. Those that it allocates come first."""
        heap = self.unit.options.heap if objects.allocates else 0
        offset = self.offsets.setdefault(objects.struct, heap)
        self.offsets[objects.struct] += count
        return simplified("+", self.first_object(objects), Number(offset))

    def first_object(self, objects: Objects) -> Expression:
        """The number of a thread's first object. Those of main are known; another thread is given its own as it begins."""
        self.offsets.setdefault(objects.struct, self.unit.options.heap if objects.allocates else 0)
        return Number(objects.sizes.statics + 1) if self.is_main else self.kept_local(f"{objects.variable.name}_first")

    def kept_local(self, name: str) -> Local:
        """A local of a thread that has this name throughout."""
        if name not in self.lasting:
            self.lasting[name] = Local(self.names.fresh(name, self.ints))
            self.ints.append(self.lasting[name].name)
            self.own.add(self.lasting[name].name)
        return self.lasting[name]

    def beginning(self, thread: str, at: Place) -> Block:
        """The statements that give a thread its objects, once it is known how many it has."""
        out: List[Statement] = []
        for struct, count in self.offsets.items():
            objects = self.unit.objects[struct]
            objects.counts[thread] = count
            if not self.is_main:
                first = self.kept_local(f"{objects.variable.name}_first")
                out.append(Exchange("add", first, Cell(objects.given, True), (Number(count),), at))
                out.append(Assert(Binary("<=", first, Number(objects.sizes.total + 1 - count)), at))
        return tuple(out)

    def declare_own(self, declared: tree.Declared) -> None:
        """A variable that each thread has for itself. It is there from the thread's start to its end."""
        variable = Variable(declared.name, declared.type, False, declared.at)
        self.own |= set(self.declare_parts(variable, declared.at))
        self.bind(declared, variable)
        for ref, node in first_values(Ref(variable, declared.type), declared.init):
            value = Number(self.unit.constant(node)) if node is not None else Number(0)
            self.first += self.store(ref, value, declared.at) if value != Number(0) else ()

    def open(self) -> None:
        """A scope begins."""
        self.held.append([])

    def close(self) -> None:
        """A scope ends; what others declare may have its names."""
        self.names.taken -= set(self.held.pop())

    def kept(self) -> Tuple[Any, ...]:
        """Where the translation is, for `back`."""
        frame = self.frames[-1]
        return (self.frames, len(frame.breaks), len(frame.continues), len(self.held), set(self.names.taken), len(self.unit.refusals))

    def back(self, kept: Tuple[Any, ...]) -> None:
        """Goes back to where the translation was."""
        self.frames, breaks, continues, held, taken, refusals = kept
        self.names.taken = taken | self.own
        frame = self.frames[-1]
        del frame.breaks[breaks:], frame.continues[continues:], self.held[held:], self.unit.refusals[refusals:]

    # The fields of the other parts.

    def store(self, ref: Ref, value: Expression, at: Place, order: str = "seq_cst") -> Block:
        raise NotImplementedError

    def call(self, node: tree.Call, wanted: bool) -> Value:
        raise NotImplementedError

    def statement(self, node: Optional[tree.Stmt]) -> Block:
        raise NotImplementedError

    def declared(self, declared: tree.Declared) -> Block:
        raise NotImplementedError
