"""Expressions of C."""
import dataclasses
from typing import Any, Callable, FrozenSet, List, Sequence, Tuple, Union

from . import operators, tree
from .arithmetic import TESTS, bits
from .body import Body, NeedsConstant
from .program import (Assert, Assign, Block, Call, Cell, Element, Exchange, Expression, If, Local, Number, Object, Statement, While,
                      overlap)
from .refusal import Place, Refusal, Told
from .storage import Choice, Indexed, Ref, Single, Variable, placed
from .types import WIDTHS, Array, Int, Pointer, Struct, Type, Void, is_unsigned
from .values import NULL, VOID, Value

MARKS = 3  # bits of an address that are 0
RELEASING = ("release", "acq_rel", "seq_cst")


class Expressions(Body):
    """The part of a body's translation that has to do with expressions."""

    # Operands.

    def together(self, values: Sequence[Value], at: Place) -> Tuple[Block, List[Value]]:
        """Operands of which C doesn't say which is evaluated first: the statements of all, and the values after these."""
        kept: List[Value] = []
        before: List[Statement] = []
        for number, value in enumerate(values):
            later = values[number + 1 :]
            against = [it for it in later if self.conflict(value, it)]
            if against:
                self.take_left_first(at)
            before += value.before
            value = dataclasses.replace(value, before=())
            if against and any(it.before for it in later):
                saved, value = self.saved(value, at)
                before += saved
            kept.append(value)
        return tuple(before), kept

    def conflict(self, one: Value, other: Value) -> bool:
        """Whether it may matter which of the two is evaluated first."""
        a, b = one.effects, other.effects
        mine, others = ([it for it in each.reads | each.writes if self.is_live(it)] for each in (a, b))
        if overlap([it for it in a.writes if self.is_live(it)], others) or overlap([it for it in b.writes if self.is_live(it)], mine):
            return True
        return a.orders and (b.orders or b.shares) or b.orders and a.shares

    def take_left_first(self, at: Place) -> None:
        if not self.unit.options.left_to_right:
            raise Refusal(at, "operands of which C doesn't say which is evaluated first, and it matters here (such as two atomic loads)",
                          "put one of them into a statement before, or give --left-to-right")
        self.unit.notes.add("operands are evaluated from left to right, which C leaves open", at)

    def saved(self, value: Value, at: Place) -> Tuple[Block, Value]:
        """The value in a local that nothing else uses."""
        if value.kind == "place" and value.ref and isinstance(value.ref.type, Struct):
            raise Refusal(at, "a struct that may change before it is used", "copy it in a statement before")
        if value.ref:
            before, ref = self.stable(value.ref, at)
            return before, dataclasses.replace(value, ref=ref)
        if isinstance(value.expression, Number) or value.kind in ("void", "null"):
            return (), value
        kept = self.temporary("kept")
        return (Assign(kept, value.expression, at),), dataclasses.replace(value, expression=kept)

    def stable(self, ref: Ref, at: Place, locals_too: bool = True) -> Tuple[Block, Ref]:
        """The lvalue with its indexes in locals that nothing else writes."""
        before: List[Statement] = []
        indexes: List[Expression] = []
        for index in ref.indexes:
            if isinstance(index, Number) or isinstance(index, Local) and (not locals_too or index in self.temporaries):
                indexes.append(index)
                continue
            kept = self.temporary("index")
            before.append(Assign(kept, index, at))
            indexes.append(kept)
        return tuple(before), dataclasses.replace(ref, indexes=tuple(indexes))

    # Values.

    def value(self, node: tree.Expr) -> Value:
        """The value of an expression."""
        found = self.place_or_value(node)
        return self.read(found, node.at) if found.kind == "place" else found

    def place_or_value(self, node: tree.Expr) -> Value:
        method: Callable[[Any], Value] = getattr(self, f"value_{type(node).__name__}")
        return method(node)

    def scalar(self, node: tree.Expr) -> Value:
        """The value of an expression that is a number, or a pointer as the number of its object."""
        value = self.value(node)
        return self.converted(value, "address", node.at) if value.kind in ("pointer", "null") else value

    def typed(self, value: Value, type_: Int) -> Value:
        """A number of a type as C has it: that of an object is a pointer to it."""
        if not type_.to:
            return value
        ref = Ref(self.unit.objects[type_.to].variable, type_.to, (), (value.expression,), True)
        return Value("pointer", value.before, ref=ref, direct=value.direct)

    def is_number(self, ref: Ref) -> bool:
        """Whether a pointer is the number of an object that isn't known."""
        return isinstance(ref.type, Struct) and ref.type in self.unit.objects and self.unit.objects[ref.type].variable is ref.variable

    def number(self, node: tree.Expr) -> Value:
        """The value of an expression that is a number."""
        value = self.value(node)
        if value.kind not in WIDTHS:
            raise Refusal(node.at, f"a {value.kind} where a number is wanted", "compare a pointer by an index, an int")
        return value

    def effect(self, node: tree.Expr) -> Block:
        """The effects of an expression, without its value."""
        if isinstance(node, (tree.Step, tree.Assign, tree.Update, tree.Call)):
            method: Callable[[Any, bool], Value] = getattr(self, type(node).__name__.lower())
            return method(node, False).before
        if isinstance(node, tree.CallOf):
            return self.call_of(node, False).before
        if isinstance(node, tree.Comma):
            return (*self.effect(node.left), *self.effect(node.right))
        if isinstance(node, tree.Convert) and isinstance(node.type, Void):
            return self.effect(node.operand)
        if isinstance(node, tree.Text):
            return ()
        if isinstance(node, tree.Inner):
            return self.statement(node.body)
        return self.place_or_value(node).before

    def value_Literal(self, node: tree.Literal) -> Value:
        return Value(node.kind, expression=Number(node.value))

    def value_Text(self, node: tree.Text) -> Value:
        raise Refusal(node.at, "a string", "there are only numbers; a text may be printed, or stand in an assert behind &&")

    def value_Null(self, node: tree.Null) -> Value:
        return NULL

    def value_Name(self, node: tree.Name) -> Value:
        found = self.lookup(node.of)
        if isinstance(found, Value):
            return found
        if isinstance(found, Variable):
            return Value("place", ref=Ref(found, found.type))
        if self.frames:
            raise Told(node.at, f"{node.of.name}, which was refused", "see there")
        raise Refusal(node.at, f"{node.of.name} where a constant is wanted", "write a number or a constant of an enum")

    def value_FunctionName(self, node: tree.FunctionName) -> Value:
        return Value("function", function=node.name)

    def value_CallOf(self, node: tree.CallOf) -> Value:
        return self.call_of(node, True)

    def call_of(self, node: tree.CallOf, wanted: bool) -> Value:
        value = self.value(node.function)
        if value.kind != "function":
            raise Refusal(node.at, f"a call of a {value.kind}", "call a function by its name, or by a parameter that has it")
        return self.call(tree.Call(node.at, value.function, node.arguments), wanted)

    def value_Offset(self, node: tree.Offset) -> Value:
        raise Refusal(node.at, "the place of a field as a number", "take it from the address of the field alone")

    def container(self, node: tree.Binary, type_: Type, at: Place) -> Value:
        """The struct around what a pointer leads to: container_of."""
        inner = node.left
        while isinstance(inner, tree.Convert):
            inner = inner.operand
        value, wanted = self.value(inner), type_.to if isinstance(type_, (Pointer, Int)) else None
        ref = value.ref
        while ref and ref.fields and ref.type != wanted:
            ref = dataclasses.replace(ref, fields=ref.fields[:-1], type=type_at(ref.variable.type, ref.fields[:-1]), in_array=False)
        if value.ref and ref and ref.type != wanted and isinstance(wanted, Struct) and wanted in self.unit.objects:
            every = self.unit.objects[wanted].variable
            inner_ones = [first for whole, first, dims in every.objects.values() if whole is placed(value.ref).variable and len(dims) == 1]
            if len(inner_ones) == 1:
                before, number = self.saved(self.address(value, at), at)
                index = operators.binary("-", number.expression, inner_ones[0], False, at)
                return dataclasses.replace(value, before=(*number.before, *before), ref=Ref(every, wanted, (), (index,), True))
        if not ref or ref.type != wanted:
            raise Refusal(at, "the struct around a pointer that is kept", "keep a pointer to the whole struct")
        return dataclasses.replace(value, ref=ref)

    def value_Convert(self, node: tree.Convert) -> Value:
        if isinstance(node.operand, tree.Binary) and isinstance(node.operand.right, tree.Offset) and node.operand.operator == "-":
            return self.container(node.operand, node.type, node.at)
        type_, value = node.type, self.value(node.operand)
        if isinstance(type_, Void):
            return dataclasses.replace(VOID, before=value.before)
        if isinstance(type_, Pointer):
            if value.kind == "pointer" and value.ref and not isinstance(type_.to, Void) and not alike(type_.to, value.ref.type):
                raise Refusal(node.at, "a pointer that is cast to one of another type", "point to what is there")
            return dataclasses.replace(value, kind="wide") if value.kind in WIDTHS else value
        if isinstance(type_, Int) and type_.to and value.kind == "fresh":
            return self.allocated(self.unit.objects[type_.to], value.function == "calloc", node.at).after(value.before)
        if isinstance(type_, Int) and type_.to and value.kind in ("pointer", "null"):
            if value.ref and value.ref.type != type_.to:
                raise Refusal(node.at, "a pointer that is cast to one of another type", "point to what is there")
            return value
        if isinstance(type_, Int):
            return self.typed(self.converted(value, type_.kind, node.at), type_)
        raise Refusal(node.at, "a cast to this type", "cast to int, unsigned or bool")

    def value_Comma(self, node: tree.Comma) -> Value:
        before = self.effect(node.left)
        return self.value(node.right).after(before)

    def value_Assign(self, node: tree.Assign) -> Value:
        return self.assign(node, True)

    def value_Update(self, node: tree.Update) -> Value:
        return self.update(node, True)

    def value_Call(self, node: tree.Call) -> Value:
        return self.call(node, True)

    def value_Step(self, node: tree.Step) -> Value:
        return self.step(node, True)

    def value_Address(self, node: tree.Address) -> Value:
        if isinstance(node.operand, tree.FunctionName):
            return self.value(node.operand)
        return dataclasses.replace(self.place(node.operand), kind="pointer")

    def value_Unary(self, node: tree.Unary) -> Value:
        if node.operator == "!":
            condition = self.condition(node.operand)
            return dataclasses.replace(condition, kind="int", expression=operators.negation(condition.expression))
        value = self.number(node.operand)
        return dataclasses.replace(value, expression=operators.unary(node.operator, value.expression))

    def value_Keeping(self, node: tree.Keeping) -> Value:
        self.once.pop(node.operand, None)
        return self.value(node.whole)

    def value_Once(self, node: tree.Once) -> Value:
        if node in self.once:
            return self.once[node]
        value = self.value(node.operand)
        kept, self.once[node] = self.saved(dataclasses.replace(value, before=(), direct=frozenset()), node.at)
        return dataclasses.replace(self.once[node], before=(*value.before, *kept), direct=value.direct)

    def value_Inner(self, node: tree.Inner) -> Value:
        """Statements, and the value of the last one."""
        *rest, last = node.body.statements or (None,)
        if not isinstance(last, tree.Effect):
            return dataclasses.replace(VOID, before=self.statement(node.body))
        self.open()
        before = tuple(it for each in rest for it in self.statement(each))
        value = self.value(last.expression)
        kept, result = self.saved(dataclasses.replace(value, before=()), node.at)
        self.close()
        return dataclasses.replace(result, before=(*before, *value.before, *kept), direct=frozenset())

    def value_Made(self, node: tree.Made) -> Value:
        """A struct or a number that is made of its parts."""
        if not isinstance(node.type, (Struct, Int)):
            raise Refusal(node.at, "an array without a name", "declare it")
        made = tree.Declared(node.at, "made", node.type, init=node.parts)
        before = self.declared(made)
        return dataclasses.replace(self.place_or_value(tree.Name(node.at, made)), before=before)

    def value_Binary(self, node: tree.Binary) -> Value:
        at = node.at
        if node.operator in ("&&", "||"):
            return self.both(node)
        left, right = self.value(node.left), self.value(node.right)
        if "pointer" in (left.kind, right.kind) and node.operator in ("+", "-"):
            return self.moved(node, left, right)
        if isinstance(node.type, Int) and node.type.to and node.operator in ("==", "!="):
            left, right = self.converted(left, "address", at), self.converted(right, "address", at)
        elif {left.kind, right.kind} & {"unsigned long"} and {left.kind, right.kind} & {"null", "pointer"}:
            left, right = self.converted(left, "unsigned long", at), self.converted(right, "unsigned long", at)
        if {left.kind, right.kind} & {"pointer", "null", "wide"}:
            raise Refusal(at, "pointers that are compared", "compare indexes, ints in place of pointers")
        for value in (left, right):
            if value.kind not in WIDTHS:
                raise Refusal(at, f"a {value.kind} where a number is wanted", "give it a value")
        before, (left, right) = self.together((left, right), at)
        if self.divides(node.operator, left, right):
            return self.divided(node.operator, left, right, at).after(before, left.direct | right.direct)
        made = self.arithmetic(node.operator, left.expression, right.expression, left.kind, at)
        return Value("int" if node.operator in TESTS else left.kind, before, made, direct=left.direct | right.direct)

    def divides(self, operator: str, left: Value, right: Value) -> bool:
        """Whether this is a division of unsigned numbers by one that is no constant power of two."""
        if operator not in ("/", "%") or not is_unsigned(left.kind):
            return False
        divisor = bits(right.expression.value) if isinstance(right.expression, Number) else 0
        return divisor & (divisor - 1) != 0 or divisor == 0 and not isinstance(right.expression, Number)

    def divided(self, operator: str, left: Value, right: Value, at: Place) -> Value:
        """A division of unsigned numbers by one of ints. A dividend that is no int is halved first, and the quotient made up for; of a
        divisor that is none, the quotient is 0 or 1."""
        quotient, made = self.temporary("quotient"), operators.simplified
        kept, left = self.saved(left, at)
        kept_too, right = self.saved(right, at)
        one, other = left.expression, right.expression
        is_least = operators.binary(">=", one, other, True, at)
        half = operators.Binary("&", operators.Binary(">>", one, Number(1)), Number(0x7FFFFFFF))
        rest = operators.Binary("-", one, operators.Binary("*", quotient, other))
        more = Assign(quotient, operators.Binary("+", quotient, Number(1)), at)
        halved: Block = (Assign(quotient, operators.Binary("<<", operators.Binary("/", half, other), Number(1)), at),
                         If(operators.binary(">=", rest, other, True, at), (more,), (), at))
        plain: Block = (Assign(quotient, made("/", one, other), at),)
        chain = If(made("<", other, Number(0)), (Assign(quotient, is_least, at),), (If(made("<", one, Number(0)), halved, plain, at),), at)
        if WIDTHS[left.kind][0] > 32:
            self.unit.note_wide(at)
        result = rest if operator == "%" else quotient
        return Value(left.kind, (*kept, *kept_too, chain), result)

    def arithmetic(self, operator: str, left: Expression, right: Expression, kind: str, at: Place) -> Expression:
        """An operator on numbers of a kind."""
        made = operators.binary(operator, left, right, is_unsigned(kind), at)
        if WIDTHS[kind][0] > 32 and not isinstance(made, Number):
            self.unit.note_wide(at)
        return made

    def both(self, node: tree.Binary) -> Value:
        """&& and ||, whose right side is evaluated only where the left one doesn't decide."""
        at, left, right = node.at, self.condition(node.left), self.condition(node.right)
        direct = left.direct | right.direct
        is_and = node.operator == "&&"
        if isinstance(left.expression, Number):
            decided = (left.expression.value != 0) != is_and
            rest = Value("int", expression=Number(int(not is_and))) if decided else right
            return dataclasses.replace(rest, kind="int", expression=operators.truth(rest.expression)).after(left.before, direct)
        if not right.before:
            if isinstance(right.expression, Number) and (right.expression.value != 0) == is_and:
                return Value("int", left.before, operators.truth(left.expression), direct=direct)
            made = operators.Binary(node.operator, left.expression, right.expression)
            return Value("int", left.before, made, direct=direct)
        result = self.temporary("both" if is_and else "either")
        start = Assign(result, Number(0 if is_and else 1), at)
        rest_of = (*right.before, Assign(result, operators.truth(right.expression), at))
        test = left.expression if is_and else operators.refuted(left.expression)
        return Value("int", (*left.before, start, If(test, rest_of, (), at)), result, direct=direct)

    def value_Conditional(self, node: tree.Conditional) -> Value:
        at, condition = node.at, self.condition(node.condition)
        if isinstance(condition.expression, Number):
            return self.value(node.then if condition.expression.value else node.other).after(condition.before, condition.direct)
        if isinstance(node.type, Void):
            either = If(condition.expression, self.effect(node.then), self.effect(node.other), at)
            return dataclasses.replace(VOID, before=(*condition.before, either))
        then, other = self.scalar(node.then), self.scalar(node.other)
        result = self.temporary("chosen")
        arms = [(*it.before, Assign(result, it.expression, at)) for it in (then, other)]
        before = (*condition.before, If(condition.expression, arms[0], arms[1], at))
        value = Value(then.kind, before, result, direct=condition.direct | then.direct | other.direct)
        return self.typed(value, node.type) if isinstance(node.type, Int) else value

    def condition(self, node: tree.Expr) -> Value:
        """A value of which only matters whether it is 0."""
        if isinstance(node, tree.Convert) and node.type == Int("bool"):
            return self.condition(node.operand)
        if isinstance(node, tree.Text):
            return Value("int", expression=Number(1))
        value = self.scalar(node)
        if value.kind not in WIDTHS:
            raise Refusal(node.at, f"a {value.kind} where a number is wanted", "compare a pointer by an index, an int")
        return value

    def converted(self, value: Value, kind: str, at: Place) -> Value:
        """The value as one of another type."""
        if value.kind == "null" or value.kind == "pointer" and value.ref:
            value = self.address(value, at)
            if kind in ("long", "unsigned long"):  # the lowest bits of an address are free for marks, as C's are
                return dataclasses.replace(value, kind=kind, expression=operators.simplified("<<", value.expression, Number(MARKS)))
        elif kind == "address" and value.kind != kind:
            kept, value = self.saved(value, at)
            unmarked = operators.simplified("&", value.expression, Number((1 << MARKS) - 1))
            before = (*value.before, *kept, Assert(operators.negation(unmarked), at))
            return Value(kind, before, operators.simplified(">>", value.expression, Number(MARKS)), direct=value.direct)
        if value.kind not in (*WIDTHS, "wide"):
            raise Refusal(at, f"a {value.kind} where a number is wanted", "use an index, an int in place of a pointer")
        return dataclasses.replace(value, kind=kind, expression=operators.converted(value.expression, value.kind, kind))

    def address(self, value: Value, at: Place) -> Value:
        """A pointer as the number of its object."""
        if value.kind == "null":
            return Value("address", value.before)
        assert value.ref
        ref = placed(value.ref)
        if not self.is_number(ref):
            raise Refusal(at, "a pointer to a part of something, or to what no other pointer is kept to",
                          "keep pointers to structs that are variables or elements of arrays of their own")
        return Value("address", value.before, ref.indexes[0], direct=value.direct)

    # Places.

    def place(self, node: tree.Expr) -> Value:
        """The lvalue that an expression is, with the statements that find it."""
        if isinstance(node, (tree.Field, tree.Element, tree.Follow, tree.Name, tree.Made)):
            found = self.place_or_value(node)
            if found.kind in ("place", "pointer", "null"):
                return found
        raise Refusal(node.at, "an lvalue that isn't a variable, an element or a field", "name a variable")

    def value_Field(self, node: tree.Field) -> Value:
        found = self.pointed(node.struct) if node.follows else self.place(node.struct)
        if not found.ref or not isinstance(found.ref.type, Struct):
            raise Refusal(node.at, "a field of what is no struct", "name a struct")
        return dataclasses.replace(found, ref=found.ref.field(node.name))

    def value_Follow(self, node: tree.Follow) -> Value:
        return self.pointed(node.operand)

    def pointed(self, node: tree.Expr) -> Value:
        """The target of a pointer."""
        value = self.value(node)
        if value.kind != "pointer":
            what = "a null pointer" if value.kind == "null" else f"a {value.kind}"
            raise Refusal(node.at, f"{what} where a pointer is followed",
                          "pass &global, &array[i] or the name of an array; use an index where a pointer would be kept")
        assert value.ref
        if not self.is_number(value.ref):
            return dataclasses.replace(value, kind="place")
        kept, ref = self.stable(value.ref, node.at, locals_too=False)
        return dataclasses.replace(value, kind="place", before=(*value.before, *kept, *self.alive(ref, node.at)), ref=ref)

    def alive(self, ref: Ref, at: Place) -> Block:
        """Fails where a pointer is null, or its object was freed."""
        assert isinstance(ref.type, Struct)
        objects, number = self.unit.objects[ref.type], ref.indexes[0]
        there: Block = (Assert(operators.simplified("!=", number, Number(0)), at),)
        if objects.sizes.frees:
            there += (Assert(operators.negation(Element(objects.freed, number, False, True)), at),)
        return there

    def value_Element(self, node: tree.Element) -> Value:
        at, index = node.at, self.number(node.index)
        base = self.value(node.array)
        if base.kind != "pointer":
            raise Refusal(at, "an element of what is no array", "name an array")
        before, (base, index) = self.together((base, index), at)
        assert base.ref
        return Value("place", before, ref=self.shifted(base.ref, index.expression, at), direct=base.direct | index.direct)

    def moved(self, node: tree.Binary, left: Value, right: Value) -> Value:
        """A pointer and a number that is added to it or taken away."""
        at = node.at
        if left.kind != "pointer" and node.operator == "+":
            left, right = right, left
        if left.kind != "pointer" or right.kind not in WIDTHS:
            raise Refusal(at, "the difference of two pointers", "use indexes, ints in place of pointers")
        before, (left, right) = self.together((left, right), at)
        distance = right.expression if node.operator == "+" else operators.unary("-", right.expression)
        assert left.ref
        return Value("pointer", before, ref=self.shifted(left.ref, distance, at), direct=left.direct | right.direct)

    def shifted(self, ref: Ref, distance: Expression, at: Place) -> Ref:
        """The element that many places behind this one."""
        if distance == Number(0):
            return ref
        if self.is_number(ref):
            raise Refusal(at, "arithmetic with a pointer that is kept", "keep an index, an int in place of the pointer")
        if not ref.in_array:
            raise Refusal(at, "an index behind a pointer to a single variable", "point into an array")
        last = operators.simplified("+", ref.indexes[-1], distance) if ref.indexes[-1] != Number(0) else distance
        return dataclasses.replace(ref, indexes=(*ref.indexes[:-1], last))

    def target(self, ref: Ref, at: Place) -> Tuple[Block, Union[Single, Indexed, Choice]]:
        """The target of an lvalue, after the index tests that the language doesn't make itself."""
        dims = self.dims(ref)
        before: Block = ()
        numbered = ref.variable.has_numbered(ref.fields)
        if len(dims) > 1 or numbered:
            before, ref = self.stable(ref, at, locals_too=False)
        for level, (index, dim) in enumerate(zip(ref.indexes, dims)):
            if isinstance(index, Number):
                if not 0 <= index.value < dim:
                    raise Refusal(at, f"the index {index.value} of an array of {dim}", "keep within the array")
            elif level > 0 or numbered:
                test = operators.Binary("&", operators.Binary(">=", index, Number(0)), operators.Binary("<", index, Number(dim)))
                before += (Assert(test, at),)
        found = self.storage_of(ref).target(ref)
        if isinstance(found, Choice) and not isinstance(found.index, Local):
            kept = self.temporary("index")
            before += (Assign(kept, found.index, at),)
            found = dataclasses.replace(found, index=kept)
        if isinstance(found, Choice) and not ref.variable.shared:
            raise NeedsConstant(at, f"an index of {ref.variable.name} that isn't constant",
                                "use a constant, or a for loop from a constant to a constant; or make the array a file-scope one")
        return before, found

    def read(self, place: Value, at: Place) -> Value:
        """The value at a place, as C has it."""
        value = self.loaded(place, at)
        return self.typed(value, place.ref.type) if place.ref and isinstance(place.ref.type, Int) else value

    def loaded(self, place: Value, at: Place) -> Value:
        """The value at a place. That of a pointer is a number."""
        ref = place.ref
        assert ref
        if isinstance(ref.type, Array):
            return dataclasses.replace(place, kind="pointer", ref=ref.element(Number(0)))
        if not isinstance(ref.type, Int):
            return place
        if ref.variable.value is not None:
            return Value(ref.type.kind, expression=Number(ref.variable.value))
        before, target = self.target(ref, at)
        return Value(ref.type.kind, (*place.before, *before), self.cell(ref, target), direct=place.direct)

    def variable(self, ref: Ref, name: str) -> Union[Local, Cell]:
        assert isinstance(ref.type, Int)
        return Cell(name, ref.type.atomic) if ref.variable.shared else Local(name)

    def cell(self, ref: Ref, target: Union[Single, Indexed, Choice]) -> Union[Local, Cell, Element]:
        assert isinstance(ref.type, Int) and not isinstance(target, Choice)
        if isinstance(target, Indexed):
            return Element(target.array, target.index, ref.type.atomic)
        return self.variable(ref, target.name)

    def chain(self, choice: Choice, arm: Callable[[str], Block], at: Place) -> Block:
        """One of several blocks, by an index; an index outside fails."""
        rest: Block = (Assert(Number(0), at),)
        for number in reversed(range(len(choice.names))):
            rest = (If(operators.Binary("==", choice.index, Number(number)), arm(choice.names[number]), rest, at),)
        return rest

    # Writes.

    def store(self, ref: Ref, value: Expression, at: Place, order: str = "seq_cst") -> Block:
        """A value goes to a place. An order matters where it is atomic."""
        assert isinstance(ref.type, Int)
        before, target = self.target(ref, at)
        return (*before, *self.ordered(ref, self.cell(ref, target), value, at, order))

    def ordered(self, ref: Ref, target: Union[Local, Cell, Element], value: Expression, at: Place, order: str) -> Block:
        """A store with what its order asks for."""
        store = Assign(target, value, at)
        if not getattr(ref.type, "atomic", False):
            return (store,)
        bar = self.bar(at) if order in RELEASING else ()
        return (*bar, store, *(self.fence(at) if order == "seq_cst" else ()))

    def bar(self, at: Place) -> Block:
        return (Call("stbar", (), at),) if self.unit.options.model in (None, "pso") else ()

    def fence(self, at: Place) -> Block:
        return (Call("fence", (), at),) if self.unit.options.model != "sc" else ()

    def exchanged(self, name: str, target: Local, ref: Ref, operands: Tuple[Expression, ...], at: Place) -> Block:
        """An exchange with what an lvalue leads to."""
        before, found = self.target(ref, at)
        cell = self.cell(ref, found)
        if isinstance(cell, Local):
            raise Refusal(at, "an atomic exchange with a variable of a function's own", "declare it at file scope, or static")
        return (*before, Exchange(name, target, cell, operands, at))

    def fetched(self, ref: Ref, operator: str, operand: Expression, computed: str, at: Place) -> Tuple[Block, Local]:
        """An atomic operation on a shared variable, by a number or a local: `add`, or a loop that tries until nothing came between.
        The local that is given has the old value."""
        assert isinstance(ref.type, Int)
        old = self.temporary("old")
        if operator in ("+", "-") and WIDTHS[ref.type.kind][0] >= 32:
            return self.exchanged("add", old, ref, (operand if operator == "+" else operators.unary("-", operand),), at), old
        seen = self.temporary("seen")
        new = self.applied(operator, Value(ref.type.kind, expression=old), operand, computed, at).expression
        attempt = self.exchanged("cas", seen, ref, (old, new), at)
        again = While(operators.Binary("!=", seen, old), (Assign(old, seen, at), *attempt), at)
        read = self.read(Value("place", ref=ref), at)
        return (*read.before, Assign(old, read.expression, at), *attempt, again), old

    def assign(self, node: tree.Assign, wanted: bool) -> Value:
        at = node.at
        place = self.place(node.left)
        if place.kind != "place" or not place.ref:
            raise Refusal(at, "an assignment to a pointer", "use an index, an int in place of the pointer")
        if place.ref.variable.value is not None:
            raise Refusal(at, f"a write to {place.ref.variable.name}, which is const", "leave out const")
        if isinstance(place.ref.type, Struct):
            return self.copied(place, node.right, at)
        if not isinstance(place.ref.type, Int):
            raise Refusal(at, "an assignment to what is no number and no struct", "assign its parts")
        value = self.converted(self.value(node.right), place.ref.type.kind, at)
        before, (place, value) = self.together((place, value), at)
        assert place.ref
        written = self.write_of(place.ref)
        self.refuse_second_write(written, place.direct | value.direct, at)
        before, value = self.kept_if(wanted and place.ref.variable.shared, before, value, at)
        stored = self.retargeted(before, place.ref, value.expression, at)
        made = Value(place.ref.type.kind, stored, self.result(place.ref, value, wanted), direct=value.direct | place.direct | written)
        return self.typed(made, place.ref.type)

    def kept_if(self, asked: bool, before: Block, value: Value, at: Place) -> Tuple[Block, Value]:
        """The value in a local, where it is used twice."""
        if not asked:
            return before, value
        saved, value = self.saved(value, at)
        return (*before, *saved), value

    def result(self, ref: Ref, value: Value, wanted: bool) -> Expression:
        """The value of an assignment: the written one."""
        if not wanted or ref.variable.shared:
            return value.expression if wanted else Number(0)
        before, target = self.target(ref, ref.variable.at)
        assert isinstance(target, Single) and not before
        return Local(target.name)

    def retargeted(self, before: Block, ref: Ref, value: Expression, at: Place) -> Block:
        """The statements, then a store of the value; or the statements alone, where the last one can write to the place itself."""
        last = before[-1] if before else None
        if isinstance(last, Exchange) and last.target == value and not ref.variable.shared:
            _, target = self.target(ref, at)
            if isinstance(target, Single):
                return (*before[:-1], dataclasses.replace(last, target=Local(target.name)))
        return (*before, *self.store(ref, value, at))

    def write_of(self, ref: Ref) -> FrozenSet[Object]:
        """The value that a write to an lvalue stores."""
        target = self.storage_of(ref).target(ref)
        kind = "shared" if ref.variable.shared else "local"
        if isinstance(target, Indexed):
            return frozenset([(kind, target.array, target.index.value if isinstance(target.index, Number) else None)])
        names = target.names if isinstance(target, Choice) else (target.name,)
        return frozenset((kind, it, None) for it in names)

    def refuse_second_write(self, written: FrozenSet[Object], direct: FrozenSet[Object], at: Place) -> None:
        if overlap(written, direct):
            raise Refusal(at, "two writes to one variable in one expression, in no order", "make it two statements")

    def update(self, node: tree.Update, wanted: bool) -> Value:
        place = self.place(node.left)
        assert isinstance(node.computed, (Int, Pointer))
        if place.kind != "place" or isinstance(node.computed, Pointer) or node.computed.to:
            raise Refusal(node.at, f"{node.operator}= on a pointer", "use an index, an int in place of the pointer")
        return self.compound(place, node.operator, self.number(node.right), node.computed.kind, node.at, wanted)

    def step(self, node: tree.Step, wanted: bool) -> Value:
        """++ and --, before or behind."""
        place = self.place(node.operand)
        if place.kind != "place" or not place.ref or not isinstance(place.ref.type, Int) or place.ref.type.to:
            raise Refusal(node.at, f"{node.operator * 2} on a pointer", "use an index, an int in place of the pointer")
        one, computed = Value("int", expression=Number(1)), common(place.ref.type.kind, "int")
        return self.compound(place, node.operator, one, computed, node.at, wanted, wanted and node.gives_old)

    def compound(self, place: Value, operator: str, right: Value, computed: str, at: Place, wanted: bool,
                 old_wanted: bool = False) -> Value:
        """An assignment by an operator on numbers of a kind; the value is the new one, or the old one."""
        ref = place.ref
        if not ref or not isinstance(ref.type, Int):
            raise Refusal(at, f"{operator}= on what is no number", "use an index, an int in place of a pointer")
        if ref.type.atomic:
            return self.compound_atomic(place, operator, right, computed, at, old_wanted)
        before, (place,) = self.together((place,), at)
        assert place.ref
        stable, ref = self.stable(place.ref, at, locals_too=bool(right.before))
        current = self.read(dataclasses.replace(place, ref=ref), at).after((*before, *stable))
        both, (current, right) = self.together((current, right), at)
        written = self.write_of(ref)
        self.refuse_second_write(written, current.direct | right.direct, at)
        kept, current = self.saved(current, at) if old_wanted else ((), current)
        if self.divides(operator, Value(computed), right):
            made = self.divided(operator, self.converted(current, computed, at), right, at)
            kept, made = (*kept, *made.before), self.converted(dataclasses.replace(made, before=()), current.kind, at)
        else:
            made = self.applied(operator, current, right.expression, computed, at)
        both, made = self.kept_if(wanted and not old_wanted and ref.variable.shared, (*both, *kept), made, at)
        stored = (*both, *self.store(ref, made.expression, at))
        given = current.expression if old_wanted else self.result(ref, made, wanted)
        return Value(made.kind, stored, given, direct=current.direct | right.direct | written)

    def applied(self, operator: str, left: Value, right: Expression, computed: str, at: Place) -> Value:
        """An operator of C on numbers of a kind, as a value of the left one's kind."""
        first = self.converted(left, computed, at).expression
        made = Value(computed, expression=self.arithmetic(operator, first, right, computed, at))
        return self.converted(made, left.kind, at)

    def compound_atomic(self, place: Value, operator: str, right: Value, computed: str, at: Place, old_wanted: bool) -> Value:
        before, (place, right) = self.together((place, right), at)
        assert place.ref and isinstance(place.ref.type, Int)
        kept, ref = self.stable(place.ref, at)
        kept_too, right = self.saved(right, at)
        done, old = self.fetched(ref, operator, right.expression, computed, at)
        before = (*before, *kept, *kept_too, *done)
        direct = place.direct | right.direct | self.write_of(ref)
        value = Value(place.ref.type.kind, expression=old)
        new = value if old_wanted else self.applied(operator, value, right.expression, computed, at)
        return dataclasses.replace(new, before=before, direct=direct)

    def copied(self, place: Value, node: tree.Expr, at: Place) -> Value:
        """A struct that is assigned field by field."""
        source = self.value(node)
        if source.kind != "place" or not source.ref:
            raise Refusal(at, "a struct that isn't a variable", "assign its fields")
        before, (place, source) = self.together((place, source), at)
        assert place.ref and source.ref
        kept, target = self.stable(place.ref, at)
        kept_too, ref = self.stable(source.ref, at)
        out: List[Statement] = [*before, *kept, *kept_too]
        for one, other in zip(target.parts(), ref.parts()):
            if not isinstance(one.type, Int):
                raise Refusal(at, "a struct with a mutex, a condition or a thread that is assigned", "assign its other fields")
            value = self.loaded(Value("place", ref=other), at)
            out += [*value.before, *self.store(one, value.expression, at)]
        return Value("void", tuple(out))


def type_at(type_: Type, fields: Tuple[str, ...]) -> Type:
    """The type of a field of a field .. of a variable, or of its elements."""
    while isinstance(type_, Array):
        type_ = type_.element
    if not fields or not isinstance(type_, Struct):
        return type_
    return type_at(type_.field(fields[0]), fields[1:])


def alike(one: Type, other: Type) -> bool:
    """Whether two types are one, but for const and volatile."""
    if isinstance(one, Int) and isinstance(other, Int):
        return (one.kind, one.atomic) == (other.kind, other.atomic)
    return one == other


def common(one: str, other: str) -> str:
    """The kind of arithmetic on numbers of two kinds: the wider one, if it is wider than int, and unsigned before int."""
    return max(one, other, "int", key=lambda it: (WIDTHS[it][0], is_unsigned(it)) if WIDTHS[it][0] >= 32 else (0, False))
