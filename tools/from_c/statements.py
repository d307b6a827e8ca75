"""Statements and declarations of C."""
import dataclasses
from typing import Any, Callable, Iterable, List, Optional, Tuple

from . import operators, tree
from .body import NeedsConstant
from .calls import Calls
from .program import Assign, Block, Element, Expression, If, Labelled, Leave, Number, Statement, While, statements_in
from .refusal import Place, Refusal, Told
from .storage import Ref, bare, first_values
from .types import WIDTHS, Int, Pointer, Struct
from .values import Value

ROUNDS = 64
SHORT = 4


class Statements(Calls):
    """The part of a body's translation that has to do with statements."""

    def statement(self, node: Optional[tree.Stmt]) -> Block:
        """A statement's translation, or nothing where it is refused. An index that has to be constant may be one once a loop around it
        is unrolled."""
        try:
            return self.translated(node)
        except NeedsConstant as fault:
            if self.loops:
                raise
            self.unit.refusals.append(fault)
        except Refusal as fault:
            self.unit.refusals += [] if isinstance(fault, Told) else [fault]
        return ()

    def translated(self, node: Optional[tree.Stmt]) -> Block:
        method: Callable[[Any], Block] = getattr(self, f"do_{type(node).__name__}")
        return method(node)

    def do_Refused(self, node: tree.Refused) -> Block:
        raise node.fault

    def do_Effect(self, node: tree.Effect) -> Block:
        return self.effect(node.expression)

    def do_Block(self, node: tree.Block) -> Block:
        self.open()
        out = self.sequence(node.statements)
        self.close()
        return out

    def sequence(self, nodes: Tuple[tree.Stmt, ...]) -> Block:
        """The statements of a block. Its labels part it into sections. To go forward to one is to leave what stands before it. Where
        something goes back, a loop does the sections from a number on."""
        sections: List[List[tree.Stmt]] = [[]]
        labels: List[tree.Label] = []
        for each in nodes:
            if isinstance(each, tree.Label):
                labels.append(each)
                sections.append([])
            else:
                sections[-1].append(each)
        if not labels:
            return self.statements(nodes)
        back = any(tree.goes_to(sections[number:], label.number) for number, label in enumerate(labels, 1))
        again, stop, at = self.unit.label(), self.unit.label(), labels[0].at
        section = self.temporary("section") if back else None
        for number, label in enumerate(labels, 1):
            self.gotos[label.number] = ((Assign(section, Number(number), label.at),), again) if section else ((), self.unit.label())
        made = self.statements(sections[0])
        if section:
            made = (If(operators.Binary("==", section, Number(0)), made, (), at),)
        for number, (label, inner) in enumerate(zip(labels, sections[1:]), 1):
            rest = self.statements(inner)
            if section:
                made += (If(operators.Binary("<=", section, Number(number)), rest, (), label.at),)
            else:
                made = (Labelled(self.gotos[label.number][1], "passed", made, label.at), *rest)
        if not section:
            return made
        rounds = While(Number(1), (Labelled(again, "again", (*made, Leave(stop, at)), at),), at)
        return (Assign(section, Number(0), at), Labelled(stop, "ended", (rounds,), at))

    def statements(self, nodes: Iterable[tree.Stmt]) -> Block:
        return tuple(it for each in nodes for it in self.statement(each))

    def do_Goto(self, node: tree.Goto) -> Block:
        if node.number not in self.gotos:
            raise Refusal(node.at, "a goto into a block", "go to a label of a block around it, or write a loop")
        before, label = self.gotos[node.number]
        return (*before, Leave(label, node.at))

    def do_If(self, node: tree.If) -> Block:
        at, condition = node.at, self.condition(node.condition)
        if isinstance(condition.expression, Number):
            return (*condition.before, *self.scoped(node.then if condition.expression.value else node.other))
        then, other = self.scoped(node.then), self.scoped(node.other)
        test = condition.expression
        if not then and not other:
            return (*condition.before, If(test, (), (), at))
        if not then:
            test, then, other = operators.refuted(test), other, ()
        return (*condition.before, If(test, then, other, at))

    def scoped(self, node: tree.Stmt) -> Block:
        self.open()
        out = self.statement(node)
        self.close()
        return out

    # Loops.

    def do_While(self, node: tree.While) -> Block:
        return self.loop(node.at, node.condition, node.body, None)

    def loop(self, at: Place, condition: Optional[tree.Expr], body: tree.Stmt, step: Optional[tree.Expr]) -> Block:
        """A loop that tests before each round, and does a step after it."""
        leave, again = self.unit.label(), self.unit.label()
        test = self.condition(condition) if condition is not None else Value("int", expression=Number(1))
        if test.expression == Number(0):
            return test.before
        inner = self.round(leave, again, body, at)
        behind = self.effect(step) if step is not None else ()
        short = len(list(statements_in(test.before))) <= SHORT and not any(isinstance(it, While) for it in statements_in(test.before))
        if short:
            made: Block = (*test.before, While(self.truth(test.expression), (*inner, *behind, *test.before), at))
        else:
            stop = If(operators.refuted(test.expression), (Leave(leave, at),), (), at)
            made = (While(Number(1), (*test.before, stop, *inner, *behind), at),)
        return (Labelled(leave, "stopped", made, at),)

    def truth(self, test: Expression) -> Expression:
        return Number(1) if isinstance(test, Number) else test

    def round(self, leave: int, again: int, body: tree.Stmt, at: Place) -> Block:
        frame = self.frames[-1]
        frame.breaks.append(leave)
        frame.continues.append(again)
        inner = self.scoped(body)
        frame.breaks.pop()
        frame.continues.pop()
        return (Labelled(again, "skipped", inner, at),)

    def do_DoWhile(self, node: tree.DoWhile) -> Block:
        at = node.at
        leave, again = self.unit.label(), self.unit.label()
        inner = self.round(leave, again, node.body, at)
        test = self.condition(node.condition)
        stop: Block = (If(operators.refuted(test.expression), (Leave(leave, at),), (), at),)
        if isinstance(test.expression, Number):
            stop = () if test.expression.value else (Leave(leave, at),)
        return (Labelled(leave, "stopped", (While(Number(1), (*inner, *test.before, *stop), at),), at),)

    def do_For(self, node: tree.For) -> Block:
        kept = self.kept()
        self.loops += 1
        try:
            self.open()
            start = self.statement(node.first)
            made = (*start, *self.loop(node.at, node.condition, node.body, node.step))
            self.close()
            self.loops -= 1
            return made
        except Refusal as fault:
            self.loops -= 1
            if not isinstance(fault, NeedsConstant):
                raise
            self.back(kept)
            counted = self.counted(node)
            if counted is None:
                raise
            return self.unrolled(node, *counted, fault)

    def counted(self, node: tree.For) -> Optional[Tuple[tree.Declared, List[int]]]:
        """The variable of a loop from a constant to a constant, and its values, where nothing else writes it."""
        variable, first = None, None
        if isinstance(node.first, tree.Declare) and len(node.first.variables) == 1:
            variable, first = node.first.variables[0], node.first.variables[0].init
        elif isinstance(node.first, tree.Effect) and isinstance(node.first.expression, tree.Assign):
            assigned = node.first.expression
            variable, first = assigned.left.of if isinstance(assigned.left, tree.Name) else None, assigned.right
        if variable is None or first is None or not isinstance(variable.type, Int):
            return None
        if tree.writes(node.body, variable) or any(tree.is_address(it, variable) for it in tree.walk(self.frames[-1].function.body)):
            return None
        return self.rounds(variable, first, node)

    def rounds(self, variable: tree.Declared, first: tree.Expr, node: tree.For) -> Optional[Tuple[tree.Declared, List[int]]]:
        """The values that the variable of a loop goes through: its test and its step are those of constants."""
        values: List[int] = []
        number, before = self.fixed(first), self.bindings.get(variable)
        while number is not None and len(values) <= ROUNDS and node.condition is not None and node.step is not None:
            self.bind(variable, Value(self.kind_of(variable), expression=Number(number)))
            goes_on, following = self.fixed(node.condition), self.stepped(variable, node.step, number)
            values.append(number)
            if goes_on is None or goes_on == 0:
                break
            number = following
        else:
            goes_on = None
        if before is not None:
            self.bind(variable, before)
        return (variable, values) if goes_on == 0 else None

    def kind_of(self, variable: tree.Declared) -> str:
        assert isinstance(variable.type, Int)
        return variable.type.kind

    def fixed(self, node: tree.Expr) -> Optional[int]:
        """The value of an expression that is constant here."""
        try:
            value = self.value(node)
        except Refusal:
            return None
        return value.expression.value if isinstance(value.expression, Number) and not value.before and value.kind in WIDTHS else None

    def stepped(self, variable: tree.Declared, node: tree.Expr, number: int) -> Optional[int]:
        if isinstance(node, tree.Step):
            place, distance, sign = node.operand, 1, node.operator
        elif isinstance(node, tree.Update):
            place, distance, sign = node.left, self.fixed(node.right), node.operator
        else:
            return None
        if distance is None or sign not in ("+", "-") or not tree.is_name(place, variable):
            return None
        return number + (distance if sign == "+" else -distance)

    def unrolled(self, node: tree.For, variable: tree.Declared, values: List[int], fault: NeedsConstant) -> Block:
        """A loop as copies of its body, its variable a constant in each."""
        at, leave, kind = node.at, self.unit.label(), self.kind_of(variable)
        out: List[Statement] = []
        outer = None if isinstance(node.first, tree.Declare) else self.lookup(variable)
        if isinstance(outer, Value) or outer is not None and outer.shared or outer is None and not isinstance(node.first, tree.Declare):
            raise fault
        for number in values[:-1]:
            out += self.store(Ref(outer, outer.type), Number(number), at) if outer else ()
            self.open()
            self.bind(variable, Value(kind, expression=Number(number)))
            out += self.round(leave, self.unit.label(), node.body, at)
            self.close()
        if outer:
            self.bind(variable, outer)
            out += self.store(Ref(outer, outer.type), Number(values[-1]), at)
        return (Labelled(leave, "stopped", tuple(out), at),)

    def do_Break(self, node: tree.Break) -> Block:
        return (Leave(self.frames[-1].breaks[-1], node.at),)

    def do_Continue(self, node: tree.Continue) -> Block:
        return (Leave([it for it in self.frames[-1].continues if it][-1], node.at),)

    def do_Return(self, node: tree.Return) -> Block:
        at, frame = node.at, self.frames[-1]
        if node.value is None:
            return (self.leaving_frame(at),)
        if frame.result is None:
            self.note_status(node.value, at)
            return (*self.given_back(node.value), self.leaving_frame(at))
        assert isinstance(frame.type, Int)
        value = self.converted(self.value(node.value), frame.type.kind, at)
        return (*value.before, Assign(frame.result, value.expression, at), self.leaving_frame(at))

    def given_back(self, node: tree.Expr) -> Block:
        """The effects of what a function gives back, which is kept where a thread ends with it and another one may ask for it."""
        if len(self.frames) > 1 or self.gives_back is None:
            return self.effect(node)
        value = self.converted(self.value(node), "unsigned long", node.at)
        return (*value.before, Assign(Element(self.unit.results, self.gives_back, False, True), value.expression, node.at))

    def note_status(self, value: tree.Expr, at: Place) -> None:
        """Warns of a status that main returns to say that something was wrong."""
        is_main = len(self.frames) == 1 and self.frames[0].function.name == "main"
        if is_main and not (isinstance(value, tree.Literal) and value.value == 0):
            self.unit.notes.add("the status that main returns is left out, so it is no failure: use assert or abort", at)

    def leaving_frame(self, at: Place) -> Statement:
        return Leave(self.frames[-1].label, at)

    # Switch.

    def do_Switch(self, node: tree.Switch) -> Block:
        at, value = node.at, self.number(node.value)
        groups = self.groups(node)
        leave = self.unit.label()
        kept, value = ((), value) if value.expression in self.temporaries else self.saved(value, at)
        self.frames[-1].breaks.append(leave)
        chain: Block = ()
        for number in reversed(range(len(groups))):
            if groups[number].is_default:
                chain = self.group(groups, number)
        for number in reversed(range(len(groups))):
            if not groups[number].is_default:
                test = self.test_of(value.expression, groups[number].values)
                chain = (If(test, self.group(groups, number), chain, groups[number].at),)
        self.frames[-1].breaks.pop()
        return (*value.before, *kept, Labelled(leave, "stopped", chain, at))

    def groups(self, node: tree.Switch) -> List["Group"]:
        """The cases of a switch that share their statements, in order."""
        found: List[Group] = []
        for item in node.body:
            if not found and not isinstance(item, tree.Case):
                raise Refusal(item.at, "a statement of a switch before its first case", "put it before the switch")
            if isinstance(item, tree.Case):
                if not found or found[-1].statements:
                    found.append(Group([], False, [], item.at))
                found[-1].is_default |= item.value is None
                found[-1].values += [self.unit.constant(item.value)] if item.value is not None else []
            else:
                found[-1].statements.append(item)
        return found

    def group(self, groups: List["Group"], number: int) -> Block:
        """The statements of a case, and those of the next ones that it falls through to."""
        out: List[Statement] = []
        self.open()
        for later in range(number, len(groups)):
            for item in groups[later].statements:
                if later > number and isinstance(item, tree.Declare):
                    raise Refusal(item.variables[0].at, "a case that falls through to a declaration", "declare before the switch, or break")
                out += self.statement(item)
            if groups[later].statements and isinstance(groups[later].statements[-1], (tree.Break, tree.Return, tree.Continue)):
                break
        self.close()
        return tuple(out)

    def test_of(self, value: Expression, values: List[int]) -> Expression:
        tests = [operators.simplified("==", value, Number(it)) for it in values]
        made = tests[0]
        for each in tests[1:]:
            made = operators.simplified("|", made, each)
        return made

    # Declarations.

    def do_Declare(self, node: tree.Declare) -> Block:
        return tuple(it for each in node.variables for it in self.declaration(each))

    def declaration(self, declared: tree.Declared) -> Block:
        if declared.storage == "extern":
            raise Refusal(declared.at, "extern in a function", "put the declaration at file scope")
        if declared.per_thread:
            return ()
        if declared.storage == "static":
            self.unit.shared(f"{self.frames[-1].function.name}_{declared.name}", declared, declared.init)
            return ()
        if declared in self.unit.exposed:
            self.unit.shared(declared.name, declared, None)
            return self.filled(declared, declared.at) if declared.init is not None else ()
        return self.declared_pointer(declared) if isinstance(declared.type, Pointer) else self.declared(declared)

    def declared_pointer(self, declared: tree.Declared) -> Block:
        if declared.init is None:
            raise Refusal(declared.at, f"the pointer {declared.name} without a place to point to",
                          "give it its place where it is declared, or use an index")
        value = self.value(declared.init)
        return (*value.before, *self.pointer(declared, value, declared.at))

    def declared(self, declared: tree.Declared) -> Block:
        type_, at, init = declared.type, declared.at, declared.init
        self.unit.note_volatile(type_, at)
        if isinstance(type_, Int):
            init = bare(init)
        if isinstance(type_, Int) and type_.constant and not type_.to and init is not None and self.fixed(init) is not None:
            self.bind(declared, self.value(init))
            return ()
        if init is None:
            self.declare(declared)
            return ()
        if isinstance(type_, Int):
            value = self.value(init)
            if self.is_place(value, declared, self.frames[-1].function):
                return (*value.before, *self.pointer(declared, value, at))
            value = self.converted(value, type_.kind, at)
            variable = self.declare(declared)
            return self.retargeted(value.before, Ref(variable, variable.type), value.expression, at)
        if isinstance(type_, Struct) and not isinstance(init, tree.Listed):
            source = self.value(init)
            variable = self.declare(declared)
            return (*source.before, *self.copied_into(Ref(variable, type_), source, at))
        return self.filled(declared, at)

    def filled(self, declared: tree.Declared, at: Place) -> Block:
        """A variable with its first values."""
        variable = self.unit.globals.get(declared) or self.declare(declared)
        parts = list(first_values(Ref(variable, declared.type), declared.init))
        values = [self.value(it) if it is not None else Value("int") for _, it in parts]
        before, values = self.together(values, at)
        out: List[Statement] = list(before)
        for (part, _), value in zip(parts, values):
            assert isinstance(part.type, Int)
            out += self.store(part, self.converted(value, part.type.kind, at).expression, at, "relaxed")
        return tuple(out)

    def refuse_index(self, ref: Ref, at: Place) -> None:
        raise NeedsConstant(at, f"an index of {ref.variable.name} that isn't constant",
                            "use a constant, or a for loop from a constant to a constant")


@dataclasses.dataclass
class Group:
    """Cases of a switch that share their statements."""

    values: List[int]
    is_default: bool
    statements: List[tree.Stmt]
    at: Place
