"""From clang's tree to the one that the translation reads."""
import re
from typing import Dict, Iterator, List, Tuple

from . import tree
from .arithmetic import wrap
from .front import Json, Sources, place_of, sides
from .refusal import Place, Refusal, Told
from .types import FunctionType, Int, Pointer, Scope, Struct, Type, Void, is_unsigned, layout

# Conversions that say nothing: reads of lvalues, qualifiers, and addresses of arrays and functions.
SILENT = {"LValueToRValue", "NoOp", "ArrayToPointerDecay", "FunctionToPointerDecay", "BuiltinFnToFnPtr", "AtomicToNonAtomic",
          "NonAtomicToAtomic"}
TELLING = {"IntegralCast", "IntegralToBoolean", "IntegralToPointer", "PointerToIntegral", "PointerToBoolean", "NullToPointer", "ToVoid",
           "BitCast"}


class Reader:
    """Reads a tree. Functions are those that the file has, with or without a body."""

    def __init__(self) -> None:
        self.sources = Sources()
        self.scope = Scope()
        self.declared: Dict[str, tree.Declared] = {}
        self.constants: Dict[str, int] = {}
        self.functions: Dict[str, tree.Function] = {}
        self.once: List[tree.Once] = []
        self.erased: List[Type] = []
        self.last = Place("", 1, 1)

    # Places and types.

    def at(self, node: Json) -> Place:
        """The place of a node, or of the one before it where clang gives none."""
        self.last = place_of(sides(node)[0]) or self.last
        return self.last

    def name_at(self, node: Json) -> Place:
        """The place of the name that a node declares."""
        self.last = place_of(node.get("loc", {})) or self.last
        return self.last

    def spelled(self, given: Json, at: Place) -> Type:
        """A type. What typeof and __auto_type stand for is known to clang alone, and what a pointer to typeof leads to, its value says."""
        text = given["qualType"]
        if "typeof" in text and text.endswith("*") and "desugaredQualType" not in given:
            return Pointer(Void())
        return self.scope.parse(given.get("desugaredQualType", text) if re.search(r"typeof|__auto_type", text) else text, at)

    def type(self, node: Json) -> Type:
        return self.spelled(node["type"], self.last)

    # Declarations.

    def file(self, node: Json) -> tree.File:
        variables: Dict[tree.Declared, None] = {}
        faults: List[Refusal] = []
        for each in node.get("inner", []):
            try:
                if each["kind"] == "FunctionDecl":
                    self.function(each)
                elif each["kind"] == "VarDecl":
                    variables[self.variable(each)] = None
                elif each["kind"] not in ("StaticAssertDecl", "EmptyDecl"):
                    self.named_type(each)
            except Refusal as fault:
                faults.append(fault)
        return tree.File(list(variables), self.functions, faults, self.erased)

    def named_type(self, node: Json) -> None:
        kind, at = node["kind"], self.name_at(node)
        if kind == "RecordDecl" and node.get("tagUsed") == "struct":
            self.struct(node, at)
        elif kind == "EnumDecl":
            self.enumeration(node, at)
        elif kind == "TypedefDecl" and not node.get("isImplicit"):
            self.typedef(node, at)
        elif kind == "FileScopeAsmDecl":
            raise Refusal(at, "assembly", "leave it out")

    def typedef(self, node: Json, at: Place) -> None:
        owner = node.get("inner", [{}])[0].get("ownedTagDecl", {}).get("id")
        try:
            self.scope.types[node["name"]] = (owner and self.scope.find(owner)) or self.spelled(node["type"], at)
        except Refusal as fault:
            self.scope.types[node["name"]] = fault
        made = self.scope.types[node["name"]]
        if isinstance(made, Struct) and not made.name:
            made.name = node["name"]

    def struct(self, node: Json, at: Place) -> None:
        """A struct, which is known by its name, by its place, and by its number in clang's tree."""
        name = node.get("name", "")
        found = self.scope.types.get(f"struct {name}") if name else None
        made = found if isinstance(found, Struct) and not found.fields else Struct(name)
        made.at = at
        names = [node["id"], f"{at.file}:{at.line}:{at.column}", *([f"struct {name}"] if name else [])]
        self.scope.types.update((it, made) for it in names)
        try:
            made.fields = tuple(self.fields(node))
        except Refusal as fault:
            self.scope.types.update((it, fault) for it in names)

    def fields(self, node: Json) -> Iterator[Tuple[str, Type]]:
        for each in node.get("inner", []):
            at = self.name_at(each)
            if each["kind"] != "FieldDecl":
                self.named_type(each)
                continue
            if each.get("isBitfield"):
                raise Refusal(at, "a bit-field", "use an int of its own")
            if not each.get("name"):
                raise Refusal(at, "a struct or union without a name inside another", "name the field")
            yield each["name"], self.spelled(each["type"], at)

    def enumeration(self, node: Json, at: Place) -> None:
        """An enumeration is unsigned where no constant is negative."""
        following = least = 0
        for each in node.get("inner", []):
            if each["kind"] != "EnumConstantDecl":
                continue
            given = each.get("inner", [{}])[0].get("value")
            following = int(given) if given is not None else following
            self.constants[each["id"]] = following
            least, following = min(least, following), following + 1
        made = Int("int" if least < 0 else "unsigned")
        self.scope.types[node["id"]] = self.scope.types[f"{at.file}:{at.line}:{at.column}"] = made
        if node.get("name"):
            self.scope.types[f"enum {node['name']}"] = made

    def variable(self, node: Json) -> tree.Declared:
        at = self.name_at(node)
        made = self.declared.get(node.get("previousDecl", ""))
        if made is None:
            made = tree.Declared(at, node.get("name", ""), self.spelled(node["type"], at))
        self.declared[node["id"]] = made
        made.storage, made.per_thread = node.get("storageClass", ""), "tls" in node
        if "init" in node:
            made.at, made.type = at, self.spelled(node["type"], at)
            made.init = self.expression(next(it for it in reversed(node["inner"]) if not it["kind"].endswith("Attr")))
        return made

    def function(self, node: Json) -> None:
        name, at = node["name"], self.name_at(node)
        body = next((it for it in node.get("inner", []) if it["kind"] == "CompoundStmt"), None)
        if body is None:
            return
        around, self.scope = self.scope, Scope(self.scope)
        try:
            parameters = tuple(self.parameter(it) for it in node["inner"] if it["kind"] == "ParmVarDecl")
            made = tree.Function(at, name, self.result(node, at), parameters, node.get("variadic", False))
            self.functions[name] = made
            made.body = self.statement(body)
        except Refusal as fault:
            self.functions[name] = tree.Function(at, name, Void(), (), False, tree.Refused(at, fault))
        self.scope = around

    def result(self, node: Json, at: Place) -> Type:
        made = self.spelled(node["type"], at)
        return made.result if isinstance(made, FunctionType) else made

    def parameter(self, node: Json) -> tree.Declared:
        at = self.name_at(node)
        made = tree.Declared(at, node.get("name", "unnamed"), self.spelled(node["type"], at))
        self.declared[node["id"]] = made
        return made

    # Statements.

    def statement(self, node: Json) -> tree.Stmt:
        if not node:
            return tree.Block(self.last, ())
        method = getattr(self, f"read_{node['kind']}", None)
        at = self.at(node)
        try:
            if method:
                return method(node, at)
            return tree.Effect(at, self.expression(node))
        except Refusal as fault:
            return tree.Refused(at, fault)

    def read_CompoundStmt(self, node: Json, at: Place) -> tree.Block:
        around, self.scope = self.scope, Scope(self.scope)
        made = tree.Block(at, tuple(it for each in node.get("inner", []) for it in self.labelled(each)))
        self.scope = around
        return made

    def labelled(self, node: Json) -> List[tree.Stmt]:
        """A statement of a block, after the labels that stand before it."""
        if node["kind"] != "LabelStmt":
            return [self.statement(node)]
        return [tree.Label(self.at(node), node["declId"]), *self.labelled(node["inner"][0])]

    def read_NullStmt(self, node: Json, at: Place) -> tree.Stmt:
        return tree.Block(at, ())

    def read_AttributedStmt(self, node: Json, at: Place) -> tree.Stmt:
        return self.statement(next(it for it in node["inner"] if not it["kind"].endswith("Attr")))

    def read_DeclStmt(self, node: Json, at: Place) -> tree.Stmt:
        variables: List[tree.Declared] = []
        for each in node["inner"]:
            if each["kind"] == "VarDecl":
                variables.append(self.variable(each))
            elif each["kind"] == "FunctionDecl":
                raise Refusal(self.name_at(each), "a declaration of a function in a function", "put it at file scope")
            elif each["kind"] != "StaticAssertDecl":
                self.named_type(each)
        return tree.Declare(at, tuple(variables))

    def read_IfStmt(self, node: Json, at: Place) -> tree.Stmt:
        inner = node["inner"]
        return tree.If(at, self.expression(inner[0]), self.statement(inner[1]), self.statement(inner[2] if len(inner) > 2 else {}))

    def read_WhileStmt(self, node: Json, at: Place) -> tree.Stmt:
        return tree.While(at, self.expression(node["inner"][0]), self.statement(node["inner"][1]))

    def read_DoStmt(self, node: Json, at: Place) -> tree.Stmt:
        return tree.DoWhile(at, self.expression(node["inner"][1]), self.statement(node["inner"][0]))

    def read_ForStmt(self, node: Json, at: Place) -> tree.Stmt:
        around, self.scope = self.scope, Scope(self.scope)
        first, _, condition, step, body = node["inner"]
        made = tree.For(at, self.statement(first), self.expression(condition) if condition else None,
                        self.expression(step) if step else None, self.statement(body))
        self.scope = around
        return made

    def read_SwitchStmt(self, node: Json, at: Place) -> tree.Stmt:
        value, body = node["inner"]
        if body["kind"] != "CompoundStmt":
            raise Refusal(at, "a switch without braces", "put its cases into braces")
        around, self.scope = self.scope, Scope(self.scope)
        listed = [made for each in body.get("inner", []) for made in self.cases(each)]
        self.scope = around
        return tree.Switch(at, self.expression(value), tuple(listed))

    def cases(self, node: Json) -> List[tree.Stmt]:
        """A statement of a switch, after the labels that stand before it."""
        if node["kind"] not in ("CaseStmt", "DefaultStmt"):
            return [self.statement(node)]
        at = self.at(node)
        if node.get("isGNURange"):
            raise Refusal(at, "a case of a range", "write its values")
        value = self.expression(node["inner"][0]) if node["kind"] == "CaseStmt" else None
        return [tree.Case(at, value), *self.cases(node["inner"][-1])]

    def read_CaseStmt(self, node: Json, at: Place) -> tree.Stmt:
        raise Refusal(at, "a case inside another statement", "put the cases directly into the switch")

    read_DefaultStmt = read_CaseStmt

    def read_GotoStmt(self, node: Json, at: Place) -> tree.Stmt:
        return tree.Goto(at, node["targetLabelDeclId"])

    def read_LabelStmt(self, node: Json, at: Place) -> tree.Stmt:
        raise Refusal(at, "a label that isn't directly in a block", "put braces around it, or write a loop")

    read_IndirectGotoStmt = read_LabelStmt

    def read_GCCAsmStmt(self, node: Json, at: Place) -> tree.Stmt:
        """Assembly without a word in it keeps the compiler from moving accesses, as a signal fence does."""
        text = self.sources.between(*sides(node))
        if not re.fullmatch(r'\w+\s*(\w+\s*)?\(\s*""\s*:\s*:\s*:\s*"memory"\s*\)', text):
            raise Refusal(at, "inline assembly", "use atomic_thread_fence, or an atomic access")
        return tree.Block(at, ())

    def read_BreakStmt(self, node: Json, at: Place) -> tree.Stmt:
        return tree.Break(at)

    def read_ContinueStmt(self, node: Json, at: Place) -> tree.Stmt:
        return tree.Continue(at)

    def read_ReturnStmt(self, node: Json, at: Place) -> tree.Stmt:
        return tree.Return(at, self.expression(node["inner"][0]) if node.get("inner") else None)

    # Expressions.

    def expression(self, node: Json) -> tree.Expr:
        method = getattr(self, f"make_{node['kind']}", None)
        at = self.at(node)
        if method is None:
            raise Refusal(at, f"an expression of the kind {node['kind']}", "write it with the operators of int")
        return method(node, at)

    def make_same(self, node: Json, at: Place) -> tree.Expr:
        return self.expression(node["inner"][-1])

    make_ParenExpr = make_ConstantExpr = make_same

    def make_GenericSelectionExpr(self, node: Json, at: Place) -> tree.Expr:
        return self.expression(next(it for it in node["inner"] if it.get("selected"))["inner"][-1])

    def make_ChooseExpr(self, node: Json, at: Place) -> tree.Expr:
        raise Refusal(at, "__builtin_choose_expr", "write what it chooses")

    # Constants.

    def make_IntegerLiteral(self, node: Json, at: Place) -> tree.Expr:
        type_, value = self.type(node), int(node["value"])
        assert isinstance(type_, Int)
        if value > (0xFFFFFFFF if is_unsigned(type_.kind) else 0x7FFFFFFF):
            raise Refusal(at, f"the number {value}", "here int and unsigned have 32 bits, and wider types too")
        return tree.Literal(at, type_.kind, wrap(value))

    def make_CharacterLiteral(self, node: Json, at: Place) -> tree.Expr:
        return tree.Literal(at, "int", wrap(int(node["value"])))

    def make_FloatingLiteral(self, node: Json, at: Place) -> tree.Expr:
        raise Refusal(at, f"a literal of the type {node['type']['qualType']}", "use int, unsigned or bool")

    make_ImaginaryLiteral = make_FloatingLiteral

    def make_StringLiteral(self, node: Json, at: Place) -> tree.Expr:
        return tree.Text(at)

    make_PredefinedExpr = make_StringLiteral

    def make_OffsetOfExpr(self, node: Json, at: Place) -> tree.Expr:
        return tree.Offset(at)

    def make_UnaryExprOrTypeTraitExpr(self, node: Json, at: Place) -> tree.Expr:
        measured = self.spelled(node["argType"], at) if "argType" in node else self.type(node["inner"][0])
        size, align = layout(measured)
        return tree.Literal(at, "unsigned long", size if node["name"] == "sizeof" else align)

    # Names and lvalues.

    def make_DeclRefExpr(self, node: Json, at: Place) -> tree.Expr:
        of = node["referencedDecl"]
        if of["id"] in self.constants:
            return tree.Literal(at, "int", self.constants[of["id"]])
        if of["kind"] == "FunctionDecl":
            return tree.FunctionName(at, of["name"])
        if of["id"] not in self.declared:
            raise Told(at, f"{of.get('name', '')}, which was refused", "see there")
        return tree.Name(at, self.declared[of["id"]])

    def make_MemberExpr(self, node: Json, at: Place) -> tree.Expr:
        return tree.Field(at, self.expression(node["inner"][0]), node["name"], node["isArrow"])

    def make_ArraySubscriptExpr(self, node: Json, at: Place) -> tree.Expr:
        array, index = node["inner"]
        if isinstance(self.type(array), Int):
            array, index = index, array
        return tree.Element(at, self.expression(array), self.expression(index))

    # Operators.

    def make_UnaryOperator(self, node: Json, at: Place) -> tree.Expr:
        operator, operand = node["opcode"], self.expression(node["inner"][0])
        if operator in ("++", "--"):
            return tree.Step(at, operator[0], node["isPostfix"], operand)
        if operator == "&":
            return tree.Address(at, operand)
        if operator == "*":
            return tree.Follow(at, operand)
        if operator == "__extension__":
            return operand
        if operator not in ("-", "+", "~", "!"):
            raise Refusal(at, f"the operator {operator}", "write the number")
        return tree.Unary(at, operator, operand, self.type(node))

    def make_BinaryOperator(self, node: Json, at: Place) -> tree.Expr:
        operator, (left, right) = node["opcode"], map(self.expression, node["inner"])
        if operator == "=":
            return tree.Assign(at, left, right)
        if operator == ",":
            return tree.Comma(at, left, right)
        return tree.Binary(at, operator, left, right, self.type(node["inner"][0]))

    def make_CompoundAssignOperator(self, node: Json, at: Place) -> tree.Expr:
        left, right = map(self.expression, node["inner"])
        return tree.Update(at, node["opcode"][:-1], left, right, self.spelled(node["computeResultType"], at))

    def make_ConditionalOperator(self, node: Json, at: Place) -> tree.Expr:
        condition, then, other = map(self.expression, node["inner"])
        return tree.Conditional(at, condition, then, other, self.type(node))

    def make_BinaryConditionalOperator(self, node: Json, at: Place) -> tree.Expr:
        """?: without its second operand. In the other parts, the first operand is an opaque value."""
        common, condition, then, other = node["inner"]
        self.once.append(tree.Once(at, self.expression(common)))
        made = tree.Conditional(at, self.expression(condition), self.expression(then), self.expression(other), self.type(node))
        return tree.Keeping(at, self.once.pop(), made)

    def make_OpaqueValueExpr(self, node: Json, at: Place) -> tree.Expr:
        return self.once[-1]

    # Conversions.

    def make_ImplicitCastExpr(self, node: Json, at: Place) -> tree.Expr:
        kind, inner = node["castKind"], node["inner"][0]
        if kind in SILENT:
            return self.expression(inner)
        if kind == "BitCast":
            self.erased.append(self.type(inner))
        if kind == "BitCast" and node["kind"] == "ImplicitCastExpr":
            made = self.expression(inner)
            return tree.Convert(at, made, self.type(node)) if isinstance(made, tree.Call) else made
        if kind == "NullToPointer" and inner["kind"] != "CStyleCastExpr":  # (void *)(intptr_t)0 is a number that is carried
            return tree.Null(at)
        if kind not in TELLING:
            self.expression(inner)
            raise Refusal(at, f"a conversion to {node['type']['qualType']}", "use int, unsigned or bool")
        return tree.Convert(at, self.expression(inner), self.type(node))

    make_CStyleCastExpr = make_ImplicitCastExpr

    # Calls.

    def make_CallExpr(self, node: Json, at: Place) -> tree.Expr:
        called, *arguments = node["inner"]
        function = self.expression(called)
        if isinstance(function, tree.Follow):
            function = function.operand
        given = tuple(map(self.expression, arguments))
        if isinstance(function, tree.FunctionName):
            return tree.Call(at, function.name, given)
        if isinstance(function, tree.Name):
            return tree.CallOf(at, function, given)
        raise Refusal(at, "a call of what is no name", "call a function by its name")

    def make_AtomicExpr(self, node: Json, at: Place) -> tree.Expr:
        """An atomic operation. Clang says which one only since version 19; its name is in the text."""
        begin, _ = sides(node)
        name = node.get("name") or self.sources.between(begin, begin)
        return tree.Call(at, name, tuple(map(self.expression, node["inner"])))

    def make_StmtExpr(self, node: Json, at: Place) -> tree.Expr:
        body = self.read_CompoundStmt(node["inner"][0], at)
        return tree.Inner(at, body)

    # First values.

    def make_InitListExpr(self, node: Json, at: Place) -> tree.Expr:
        """The list that clang makes of what is written: one value for each field or element, in their order."""
        given = node.get("array_filler", [{}])[1:] if "array_filler" in node else node.get("inner", [])
        return tree.Listed(at, tuple(None if it["kind"] == "ImplicitValueInitExpr" else self.expression(it) for it in given))

    def make_CompoundLiteralExpr(self, node: Json, at: Place) -> tree.Expr:
        return tree.Made(at, self.type(node), self.expression(node["inner"][0]))
