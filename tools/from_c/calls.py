"""Calls: of the file's own functions, which are put in place, and of those of <stdatomic.h>, <pthread.h>, <threads.h> and others."""
import dataclasses
import re
from typing import Callable, List, Optional, Tuple

from . import operators, tree
from .body import Frame
from .expressions import Expressions, common
from .front import INCLUDE
from .objects import Objects
from .program import Assert, Assign, Block, Call, Create, Element, If, Labelled, Local, Number, Statement, moved_to
from .refusal import Place, Refusal
from .storage import Choice, Indexed, Ref
from .types import Handle, Int, Pointer, Struct
from .values import NULL, VOID, Value

Nodes = Tuple[tree.Expr, ...]
ZERO = Value("int")
FETCHES = {"add": "+", "sub": "-", "or": "|", "xor": "^", "and": "&"}
FETCH = r"__(?:c11_atomic|atomic|sync)_(fetch_(?:and_)?)?(add|sub|or|xor|and)(?:_(?:and_)?fetch)?(?:_\d+)?"
PRINTS = ("printf", "puts", "putchar", "fprintf", "fflush", "perror", "fputs")
FUTEX = 202  # the number of the system call
ORDERS = ("relaxed", "consume", "acquire", "release", "acq_rel", "seq_cst")


class Calls(Expressions):
    """The part of a body's translation that has to do with calls."""

    def call(self, node: tree.Call, wanted: bool) -> Value:
        name, arguments, at = node.name, node.arguments, node.at
        function = self.unit.function(name)
        if function is not None:
            return self.inlined(function, arguments, at, wanted)
        if name.startswith("__sync_"):
            name = re.sub(r"_\d+$", "", name)
        if name in PRINTS:
            return self.printed(arguments)
        fetch = re.fullmatch(FETCH, name)
        if fetch:
            return self.atomic_fetch(FETCHES[fetch[2]], arguments, at, bool(fetch[1]))
        method: Optional[Callable[..., Value]] = getattr(self, f"call_{name}", None)
        if method is None:
            raise Refusal(at, f"a call of {name}", self.unit.advice_on(name))
        return method(arguments, at)

    # The file's own functions.

    def inlined(self, function: tree.Function, arguments: Nodes, at: Place, wanted: bool) -> Value:
        """A function's body in place of its call, after its arguments."""
        name, type_ = function.name, function.result
        if any(it.function is function for it in self.frames):
            raise Refusal(at, f"a call of {name} within itself", "write a loop")
        if function.takes_more:
            raise Refusal(function.at, "a function with any number of arguments", "write its parameters")
        if isinstance(type_, (Pointer, Struct)) and wanted:
            raise Refusal(at, f"the value of {name}, which is no number", "give back an index, or write through a parameter")
        before, values = self.together([self.value(it) for it in arguments], at)
        result = self.temporary(f"{name}_result") if wanted and isinstance(type_, Int) else None
        frame = Frame(function, type_, self.unit.label(), result)
        self.held.append([])
        entering: List[Statement] = []
        caller, self.frames = self.frames, [*self.frames, frame]
        for parameter, value in zip(function.parameters, values):
            entering += self.parameter(function, parameter, value, at)
        body = self.statement(function.body)
        self.frames = caller
        self.names.taken -= set(self.held.pop())
        if function.at.file.startswith(INCLUDE):
            body = moved_to(body, at)
        block = (*before, *entering, Labelled(frame.label, f"{name}_left", body, at))
        return self.typed(Value(type_.kind, block, result), type_) if result and isinstance(type_, Int) else Value("void", block)

    def parameter(self, function: tree.Function, parameter: tree.Declared, value: Value, at: Place) -> Block:
        """The statements that bind a parameter to its value."""
        type_ = parameter.type
        if isinstance(type_, Pointer):
            return self.pointer(parameter, value, at)
        if isinstance(type_, Struct):
            return self.copied_into(Ref(self.declare(parameter), type_), value, at)
        if not isinstance(type_, Int):
            raise Refusal(at, f"the parameter {parameter.name}, which is no number, struct or pointer", "pass its address")
        if self.is_place(value, parameter, function):
            return self.pointer(parameter, value, at)
        value = self.converted(value, type_.kind, at)
        if isinstance(value.expression, Number) and not type_.to and not tree.writes(function.body, parameter):
            self.bind(parameter, Value(type_.kind, expression=value.expression))
            return ()
        variable = self.declare(parameter)
        return self.store(Ref(variable, variable.type), value.expression, at)

    def is_place(self, value: Value, declared: tree.Declared, function: tree.Function) -> bool:
        """Whether a pointer that is never written leads to a place that is known, so that it needs no variable."""
        if not isinstance(declared.type, Int) or not declared.type.to or tree.writes(function.body, declared):
            return False
        return value.kind == "null" or value.kind == "pointer" and value.ref is not None and not self.is_number(value.ref)

    def pointer(self, declared: tree.Declared, value: Value, at: Place) -> Block:
        """A name that points to a fixed place from now on."""
        if value.kind == "function":
            self.bind(declared, value)
            return value.before
        if value.kind == "pointer" and value.ref:
            before, ref = self.stable(value.ref, at)
            self.bind(declared, Value("pointer", ref=ref))
            return before
        if value.is_null:
            value = NULL  # which has no statements
        elif value.kind != "wide":
            raise Refusal(at, f"a {value.kind} as the pointer {declared.name}", "pass &global, &array[i] or the name of an array")
        kept, value = self.saved(value, at)
        self.bind(declared, value)
        return kept

    def copied_into(self, target: Ref, value: Value, at: Place) -> Block:
        if value.kind != "place" or not value.ref:
            raise Refusal(at, "a struct that isn't a variable", "pass a variable, or its fields")
        out: List[Statement] = []
        for one, other in zip(target.parts(), value.ref.parts()):
            read = self.loaded(Value("place", ref=other), at)
            out += [*read.before, *self.store(one, read.expression, at)]
        return tuple(out)

    # Atomic accesses.

    def atomic_place(self, node: tree.Expr) -> Value:
        """The object of an atomic call."""
        place = self.pointed(node)
        if not place.ref or not isinstance(place.ref.type, Int):
            raise Refusal(node.at, "an atomic call on what is no number", "call it on an atomic number")
        if not place.ref.type.atomic:
            type_ = dataclasses.replace(place.ref.type, atomic=True)
            place = dataclasses.replace(place, ref=dataclasses.replace(place.ref, type=type_))
        return place

    def order(self, node: tree.Expr) -> str:
        """The memory order that a call names."""
        value = self.value(node)
        if not isinstance(value.expression, Number) or not 0 <= value.expression.value < len(ORDERS):
            raise Refusal(node.at, "a memory order that isn't constant", "write one of the six orders")
        return ORDERS[value.expression.value]

    # Clang has the order second, before the values.

    def call___c11_atomic_load(self, arguments: Nodes, at: Place) -> Value:
        self.order(arguments[1])
        return self.read(self.atomic_place(arguments[0]), at)

    call___atomic_load_n = call___c11_atomic_load

    def call___c11_atomic_store(self, arguments: Nodes, at: Place) -> Value:
        return self.stored(arguments[0], arguments[2], self.order(arguments[1]), at)

    call___atomic_store_n = call___c11_atomic_store

    def stored(self, node: tree.Expr, given: tree.Expr, order: str, at: Place) -> Value:
        before, (place, value) = self.together((self.atomic_place(node), self.scalar(given)), at)
        assert place.ref and isinstance(place.ref.type, Int)
        value = self.converted(value, place.ref.type.kind, at)
        return dataclasses.replace(VOID, before=(*before, *self.store(place.ref, value.expression, at, order)))

    def call___c11_atomic_init(self, arguments: Nodes, at: Place) -> Value:
        return self.stored(arguments[0], arguments[1], "relaxed", at)

    def call___c11_atomic_exchange(self, arguments: Nodes, at: Place) -> Value:
        self.order(arguments[1])
        before, (place, value) = self.together((self.atomic_place(arguments[0]), self.scalar(arguments[2])), at)
        assert place.ref and isinstance(place.ref.type, Int)
        value = self.converted(value, place.ref.type.kind, at)
        old = self.temporary("old")
        done = self.exchanged("swap", old, place.ref, (value.expression,), at)
        return self.typed(Value(place.ref.type.kind, (*before, *done), old), place.ref.type)

    call___atomic_exchange_n = call___c11_atomic_exchange

    def compared(self, place: Value, expected: Value, value: Value, at: Place) -> Tuple[Block, Local]:
        """A compare-exchange, and what it has seen."""
        assert place.ref and isinstance(place.ref.type, Int)
        kind, seen = place.ref.type.kind, self.temporary("seen")
        operands = tuple(self.converted(it, kind, at).expression for it in (expected, value))
        return self.exchanged("cas", seen, place.ref, operands, at), seen

    def call___c11_atomic_compare_exchange_strong(self, arguments: Nodes, at: Place) -> Value:
        return self.compare_exchange(arguments, self.scalar(arguments[4]), at)

    call___c11_atomic_compare_exchange_weak = call___atomic_compare_exchange_n = call___c11_atomic_compare_exchange_strong

    def call___atomic_compare_exchange(self, arguments: Nodes, at: Place) -> Value:
        return self.compare_exchange(arguments, self.loaded(self.pointed(arguments[4]), at), at)

    def compare_exchange(self, arguments: Nodes, value: Value, at: Place) -> Value:
        for order in (arguments[1], arguments[3]):
            self.order(order)
        before, (place, expected, value) = self.together((self.atomic_place(arguments[0]), self.pointed(arguments[2]), value), at)
        if not expected.ref or not isinstance(expected.ref.type, Int):
            raise Refusal(at, "an expected value that is no number", "pass the address of an int")
        kept, wanted = self.stable(expected.ref, at)
        read = self.loaded(Value("place", ref=wanted), at)
        kept_too, read = ((), read) if isinstance(read.expression, Local) else self.saved(read, at)
        done, seen = self.compared(place, read, value, at)
        equal = self.temporary("same")
        update = self.store(wanted, seen, at)
        if wanted.variable.shared:
            update = (If(operators.refuted(equal), update, (), at),)
        test = Assign(equal, operators.Binary("==", seen, read.expression), at)
        return Value("bool", (*before, *kept, *read.before, *kept_too, *done, test, *update), equal)

    # GNU C's others. The generic ones take their values at addresses.

    def call___atomic_load(self, arguments: Nodes, at: Place) -> Value:
        return self.put(arguments[2], self.call___c11_atomic_load(arguments, at), at)

    def put(self, node: tree.Expr, value: Value, at: Place) -> Value:
        """A value goes to where a pointer leads."""
        before, (place, value) = self.together((self.pointed(node), value), at)
        assert place.ref
        return dataclasses.replace(VOID, before=(*before, *self.store(place.ref, value.expression, at, "relaxed")))

    def call___atomic_store(self, arguments: Nodes, at: Place) -> Value:
        return self.stored(arguments[0], tree.Follow(at, arguments[2]), self.order(arguments[1]), at)

    def call___atomic_exchange(self, arguments: Nodes, at: Place) -> Value:
        value = self.call___c11_atomic_exchange((arguments[0], arguments[1], tree.Follow(at, arguments[2])), at)
        return self.put(arguments[3], value, at)

    def call___atomic_test_and_set(self, arguments: Nodes, at: Place) -> Value:
        value = self.call___c11_atomic_exchange((*arguments, tree.Literal(at, "int", 1)), at)
        return self.converted(value, "bool", at)

    def call___atomic_clear(self, arguments: Nodes, at: Place) -> Value:
        return self.stored(arguments[0], tree.Literal(at, "int", 0), self.order(arguments[1]), at)

    def call___sync_lock_test_and_set(self, arguments: Nodes, at: Place) -> Value:
        return self.call___c11_atomic_exchange((arguments[0], tree.Literal(at, "int", 2), arguments[1]), at)

    def call___sync_lock_release(self, arguments: Nodes, at: Place) -> Value:
        return self.stored(arguments[0], tree.Literal(at, "int", 0), "release", at)

    def sync_compared(self, arguments: Nodes, at: Place) -> Tuple[Block, Value, Value]:
        """A compare-exchange whose expected value is no variable: what it has seen, and what it expected."""
        operands = (self.atomic_place(arguments[0]), self.scalar(arguments[1]), self.scalar(arguments[2]))
        before, (place, expected, value) = self.together(operands, at)
        kept, expected = self.saved(expected, at)
        done, seen = self.compared(place, expected, value, at)
        return (*before, *kept, *done), Value(expected.kind, expression=seen), expected

    def call___sync_val_compare_and_swap(self, arguments: Nodes, at: Place) -> Value:
        before, seen, _ = self.sync_compared(arguments, at)
        return seen.after(before)

    def call___sync_bool_compare_and_swap(self, arguments: Nodes, at: Place) -> Value:
        before, seen, expected = self.sync_compared(arguments, at)
        equal = self.temporary("same")
        return Value("bool", (*before, Assign(equal, operators.Binary("==", seen.expression, expected.expression), at)), equal)

    def atomic_fetch(self, operator: str, arguments: Nodes, at: Place, old_wanted: bool) -> Value:
        """An operation whose value is the old one or the new one."""
        place, value = self.atomic_place(arguments[0]), self.number(arguments[-1])
        assert place.ref and isinstance(place.ref.type, Int)
        return self.compound(place, operator, value, common(place.ref.type.kind, "int"), at, True, old_wanted)

    def call_atomic_thread_fence(self, arguments: Nodes, at: Place) -> Value:
        order = self.order(arguments[0])
        if order == "seq_cst":
            return dataclasses.replace(VOID, before=self.fence(at))
        return dataclasses.replace(VOID, before=self.bar(at) if order in ("release", "acq_rel") else ())

    call___c11_atomic_thread_fence = call___atomic_thread_fence = call_atomic_thread_fence

    def call___c11_atomic_signal_fence(self, arguments: Nodes, at: Place) -> Value:
        self.order(arguments[0])
        return VOID

    call___atomic_signal_fence = call___c11_atomic_signal_fence

    def call___sync_synchronize(self, arguments: Nodes, at: Place) -> Value:
        return dataclasses.replace(VOID, before=self.fence(at))

    # Mutexes and conditions.

    def handle(self, node: tree.Expr, kind: str, at: Place) -> Value:
        """The mutex, condition or thread variable at an address."""
        place = self.pointed(node)
        if not place.ref or place.ref.type != Handle(kind):
            raise Refusal(at, f"something else where a {kind} is wanted", f"pass the address of a {kind}")
        return place

    def synchronised(self, name: str, nodes: Nodes, kinds: Tuple[str, ...], at: Place) -> Value:
        """One of the calls of the language on mutexes and conditions."""
        before, places = self.together([self.handle(node, kind, at) for node, kind in zip(nodes, kinds)], at)
        return dataclasses.replace(ZERO, before=(*before, *self.on_each(name, places, (), at)))

    def on_each(self, name: str, places: List[Value], names: Tuple[str, ...], at: Place) -> Block:
        """The call, for each variable that the places may lead to."""
        if not places:
            return (Call(name, names, at),)
        ref = places[0].ref
        assert ref
        before, target = self.target(ref, at)
        if isinstance(target, Choice):
            return (*before, *self.chain(target, lambda each: self.on_each(name, places[1:], (*names, each), at), at))
        assert not isinstance(target, Indexed)
        return (*before, *self.on_each(name, places[1:], (*names, target.name), at))

    def call_pthread_mutex_lock(self, arguments: Nodes, at: Place) -> Value:
        return self.synchronised("lock", arguments, ("mutex",), at)

    def call_pthread_mutex_unlock(self, arguments: Nodes, at: Place) -> Value:
        return self.synchronised("unlock", arguments, ("mutex",), at)

    def call_pthread_cond_wait(self, arguments: Nodes, at: Place) -> Value:
        if not any(self.frames[-1].continues):
            self.unit.notes.add("a wait outside a loop, which C may end without a signal and this machine doesn't", at)
        return self.synchronised("wait", arguments, ("condition", "mutex"), at)

    def call_pthread_cond_signal(self, arguments: Nodes, at: Place) -> Value:
        return self.synchronised("signal", arguments, ("condition",), at)

    def call_pthread_cond_broadcast(self, arguments: Nodes, at: Place) -> Value:
        return self.synchronised("broadcast", arguments, ("condition",), at)

    call_mtx_lock = call_pthread_spin_lock = call_pthread_mutex_lock
    call_mtx_unlock = call_pthread_spin_unlock = call_pthread_mutex_unlock
    call_cnd_wait, call_cnd_signal, call_cnd_broadcast = call_pthread_cond_wait, call_pthread_cond_signal, call_pthread_cond_broadcast

    def prepared(self, arguments: Nodes, kind: str, attributes: Optional[tree.Expr], at: Place) -> Value:
        """A mutex or a condition is there from the start, so nothing is done. It must have no attributes."""
        if attributes is not None and not self.value(attributes).is_null:
            raise Refusal(at, f"attributes of a {kind}", "pass NULL")
        return dataclasses.replace(ZERO, before=self.handle(arguments[0], kind, at).before)

    def call_pthread_mutex_init(self, arguments: Nodes, at: Place) -> Value:
        return self.prepared(arguments, "mutex", arguments[1], at)

    def call_pthread_cond_init(self, arguments: Nodes, at: Place) -> Value:
        return self.prepared(arguments, "condition", arguments[1], at)

    def call_pthread_mutex_destroy(self, arguments: Nodes, at: Place) -> Value:
        return self.prepared(arguments, "mutex", None, at)

    def call_pthread_cond_destroy(self, arguments: Nodes, at: Place) -> Value:
        return self.prepared(arguments, "condition", None, at)

    def call_mtx_init(self, arguments: Nodes, at: Place) -> Value:
        if self.value(arguments[1]).expression != Number(0):
            raise Refusal(at, "a mutex that isn't plain", "use mtx_plain")
        return self.prepared(arguments, "mutex", None, at)

    def call_pthread_spin_init(self, arguments: Nodes, at: Place) -> Value:
        return self.prepared(arguments, "mutex", None, at)

    call_mtx_destroy = call_pthread_spin_destroy = call_pthread_mutex_destroy
    call_cnd_init = call_cnd_destroy = call_pthread_cond_destroy

    # Threads.

    def call_pthread_create(self, arguments: Nodes, at: Place) -> Value:
        if not self.value(arguments[1]).is_null:
            raise Refusal(at, "attributes of a thread", "pass NULL")
        return self.created(arguments[0], arguments[2], arguments[3], at)

    def call_thrd_create(self, arguments: Nodes, at: Place) -> Value:
        return self.created(arguments[0], arguments[1], arguments[2], at)

    def created(self, handle: tree.Expr, function: tree.Expr, argument: tree.Expr, at: Place) -> Value:
        does = self.value(function).function
        if self.unit.function(does) is None:
            raise Refusal(at, "a thread whose function isn't named", "name a function of this file")
        before, (place, value) = self.together((self.handle(handle, "thread", at), self.value(argument)), at)
        assert place.ref
        name, passed = self.unit.thread(does, value, at)
        thread = self.thread_variable(place.ref, at)
        if self.unit.results:
            passed += (self.unit.result(self, thread),)
        return dataclasses.replace(ZERO, before=(*before, Create(thread, name, passed, at)))

    def thread_variable(self, ref: Ref, at: Place) -> str:
        _, target = self.target(ref, at)
        if isinstance(target, Choice):
            self.refuse_index(ref, at)
        assert not isinstance(target, (Indexed, Choice))
        if ref.variable.shared:
            self.unit.claim(target.name, self, at)
        return target.name

    def call_pthread_join(self, arguments: Nodes, at: Place) -> Value:
        value = self.value(arguments[0])
        if not value.ref or value.ref.type != Handle("thread"):
            raise Refusal(at, "something else where a thread is wanted", "pass a variable that a create has set")
        thread = self.thread_variable(value.ref, at)
        joined = dataclasses.replace(ZERO, before=(*value.before, Call("join", (thread,), at)))
        if isinstance(arguments[1], tree.Null):
            return joined
        place = self.pointed(arguments[1])
        if not place.ref or not isinstance(place.ref.type, Int):
            raise Refusal(at, "the value that a thread gives back, in what is no void *", "take it into a void * first")
        result = Value("unsigned long", expression=Element(self.unit.results, self.unit.result(self, thread), False, True))
        kept = self.store(place.ref, self.converted(result, place.ref.type.kind, at).expression, at)
        return dataclasses.replace(joined, before=(*joined.before, *place.before, *kept))

    call_thrd_join = call_pthread_join

    def call_pthread_detach(self, arguments: Nodes, at: Place) -> Value:
        return dataclasses.replace(ZERO, before=self.value(arguments[0]).before)

    call_thrd_detach = call_pthread_detach

    def call_pthread_exit(self, arguments: Nodes, at: Place) -> Value:
        if len(self.frames) > 1:
            raise Refusal(at, "the end of a thread within a function that it calls", "return to the thread's function first")
        return dataclasses.replace(VOID, before=(*self.given_back(arguments[0]), self.leaving_frame(at)))

    call_thrd_exit = call_pthread_exit

    def call_sched_yield(self, arguments: Nodes, at: Place) -> Value:
        return ZERO

    call_thrd_yield = call___builtin_ia32_pause = call_sched_yield

    def call___builtin_expect(self, arguments: Nodes, at: Place) -> Value:
        return self.value(arguments[0])

    def call_sleep(self, arguments: Nodes, at: Place) -> Value:
        self.unit.notes.add("time is left out: any thread may be slow", at)
        return dataclasses.replace(ZERO, before=self.effect(arguments[0]))

    call_usleep = call_sleep

    # Futexes: one mutex and one condition, which all of them have.

    def call_syscall(self, arguments: Nodes, at: Place) -> Value:
        number, operation = self.fixed(arguments[0]), self.fixed(arguments[2]) if len(arguments) > 3 else None
        if number != FUTEX or operation is None or operation & ~128 not in (0, 1):
            raise Refusal(at, "a system call", "of these only waits and wakes of futexes are known")
        guard, waiters = self.unit.futexes(at)
        before, (place, value) = self.together((self.pointed(arguments[1]), self.number(arguments[3])), at)
        if not place.ref or not isinstance(place.ref.type, Int):
            raise Refusal(at, "a futex that is no number", "wait for a number of 32 bits")
        out: Block = (Call("broadcast", (waiters,), at),)
        if operation & ~128 == 0:
            read = self.loaded(place, at)
            still = operators.Binary("==", read.expression, value.expression)
            out = (*read.before, If(still, (Call("wait", (waiters, guard), at),), (), at))
        return dataclasses.replace(ZERO, kind="long", before=(*before, Call("lock", (guard,), at), *out, Call("unlock", (guard,), at)))

    # Memory.

    def call_malloc(self, arguments: Nodes, at: Place) -> Value:
        """Memory that gets its type by the conversion of its address."""
        return Value("fresh", tuple(it for each in arguments for it in self.effect(each)))

    call_aligned_alloc = call_malloc

    def call_calloc(self, arguments: Nodes, at: Place) -> Value:
        return dataclasses.replace(self.call_malloc(arguments, at), function="calloc")

    def allocated(self, objects: Objects, zeroed: bool, at: Place) -> Value:
        """An object that this thread hasn't given out yet, which is all zero; with --reuse, the last one that it has freed."""
        name = objects.variable.name
        used, got = self.kept_local(f"{name}_used"), self.temporary(f"new_{name}")
        fresh: Block = (Assert(operators.Binary("<", used, Number(self.unit.options.heap)), at),
                        Assign(got, operators.simplified("+", self.first_object(objects), used), at),
                        Assign(used, operators.Binary("+", used, Number(1)), at))
        if self.unit.options.reuse and objects.sizes.frees:
            again = self.kept_local(f"{name}_again")
            mark = Element(objects.freed, got, False, True)
            freed: Block = (Assign(got, again, at), Assign(again, operators.Binary("-", mark, Number(1)), at), Assign(mark, Number(0), at))
            for part in Ref(objects.variable, objects.struct, (), (got,)).parts() if zeroed else ():
                freed += self.store(part, Number(0), at, "relaxed") if isinstance(part.type, Int) else ()
            fresh = (If(again, freed, fresh, at),)
        return self.typed(Value("address", fresh, got), Int("address", to=objects.struct))

    def call_memset(self, arguments: Nodes, at: Place) -> Value:
        """A variable becomes 0."""
        place = self.pointed(arguments[0])
        is_whole = place.ref is not None and (isinstance(place.ref.type, Struct) or not place.ref.in_array)
        if self.value(arguments[1]).expression != Number(0) or not place.ref or not is_whole:
            raise Refusal(at, "memset of a part, or to what isn't 0", "assign to each part")
        kept, ref = self.stable(place.ref, at)
        out: List[Statement] = [*place.before, *kept]
        for part in ref.parts():
            out += self.store(part, Number(0), at, "relaxed") if isinstance(part.type, Int) else ()
        return dataclasses.replace(VOID, before=tuple(out))

    def call_memcpy(self, arguments: Nodes, at: Place) -> Value:
        place = self.pointed(arguments[0])
        if not place.ref or not isinstance(place.ref.type, Struct):
            raise Refusal(at, "memcpy of what is no struct", "assign to each part")
        return self.copied(place, tree.Follow(at, arguments[1]), at)

    def call_free(self, arguments: Nodes, at: Place) -> Value:
        value = self.value(arguments[0])
        if value.is_null:
            return dataclasses.replace(VOID, before=value.before)
        objects = self.unit.objects_of(value.ref.type) if value.ref else None
        if not objects:
            raise Refusal(at, "free of what malloc didn't give", "free a struct that was allocated")
        objects.frees = True
        number = self.converted(value, "address", at)
        kept, number = ((), number) if isinstance(number.expression, Local) else self.saved(number, at)
        mark = Element(objects.freed, number.expression, False, True)
        is_made = operators.Binary(">", number.expression, Number(objects.sizes.statics))
        out: Block = (Assert(is_made, at), Assert(operators.negation(mark), at))
        if self.unit.options.reuse:  # the marks are a list of what this thread has freed
            again = self.kept_local(f"{objects.variable.name}_again")
            out += (Assign(mark, operators.Binary("+", again, Number(1)), at), Assign(again, number.expression, at))
        else:
            out += (Assign(mark, Number(1), at),)
        return dataclasses.replace(VOID, before=(*number.before, *kept, If(number.expression, out, (), at)))

    # Others.

    def call_assert(self, arguments: Nodes, at: Place) -> Value:
        condition = self.condition(arguments[0])
        if isinstance(condition.expression, Number) and condition.expression.value:
            return dataclasses.replace(VOID, before=condition.before)
        return dataclasses.replace(VOID, before=(*condition.before, Assert(condition.expression, at)))

    call_from_c_assert = call_assert

    def call_abort(self, arguments: Nodes, at: Place) -> Value:
        return dataclasses.replace(VOID, before=(Assert(Number(0), at),))

    call___builtin_trap = call___builtin_unreachable = call___builtin_abort = call_abort

    def printed(self, arguments: Nodes) -> Value:
        """Printing does nothing; its arguments take effect."""
        return dataclasses.replace(ZERO, before=tuple(it for each in arguments for it in self.effect(each)))

    def fixed(self, node: tree.Expr) -> Optional[int]:
        raise NotImplementedError

    def given_back(self, node: tree.Expr) -> Block:
        raise NotImplementedError

    def leaving_frame(self, at: Place) -> Statement:
        raise NotImplementedError

    def refuse_index(self, ref: Ref, at: Place) -> None:
        raise NotImplementedError
