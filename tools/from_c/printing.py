"""A program as text, with the line of the C file behind each line, and the map of lines."""
from typing import List, Tuple

from .arithmetic import LEAST
from .program import (Assert, Assign, Block, Call, Cell, Create, Element, Exchange, Expression, If, Local, Number, Program,
                      Statement, Thread, Unary, While)
from .refusal import Place

LEVELS = [["||"], ["&&"], ["|"], ["^"], ["&"], ["==", "!="], ["<", "<=", ">", ">="], ["<<", ">>"], ["+", "-"], ["*", "/", "%"]]
LEVEL = {operator: level for level, operators in enumerate(LEVELS) for operator in operators}
HIGHEST = len(LEVELS)
# Operators whose sides one doesn't mix without brackets.
CLOSE = {"&", "|", "^", "<<", ">>", "||", "&&"}
COLUMN = 56


def text_of(expression: Expression) -> str:
    if isinstance(expression, Number):
        return str(expression.value) if expression.value > LEAST else "-2147483647 - 1"
    if isinstance(expression, (Local, Cell)):
        return expression.name
    if isinstance(expression, Element):
        return f"{expression.array}[{text_of(expression.index)}]"
    if isinstance(expression, Unary):
        return expression.operator + inside(expression.operand, HIGHEST, True)
    level = LEVEL[expression.operator]
    mixed = expression.operator in CLOSE
    sides = enumerate((expression.left, expression.right))
    left, right = (inside(it, level + side, mixed and not same(it, expression.operator)) for side, it in sides)
    return f"{left} {expression.operator} {right}"


def same(expression: Expression, operator: str) -> bool:
    """Whether it is a test or has the same operator, and needs no brackets for the eye."""
    mine = getattr(expression, "operator", operator)
    return mine == operator or operator in ("&&", "||") and LEVEL.get(mine, HIGHEST) in range(5, 7)


def inside(expression: Expression, level: int, mixed: bool) -> str:
    """An operand, in brackets where it binds less than its operator, or where a reader would have to think."""
    text = text_of(expression)
    if isinstance(expression, (Local, Cell, Element)):
        return text
    if isinstance(expression, Number):
        return text if expression.value >= 0 else f"({text})"
    if isinstance(expression, Unary):
        return text if expression.operator == "!" or level < HIGHEST else f"({text})"
    mine = LEVEL[expression.operator]
    return f"({text})" if mine < level or mixed else text


class Printer:
    """Lines of a program, each with the place in C that it comes from."""

    def __init__(self, file: str) -> None:
        self.file = file
        self.lines: List[Tuple[str, List[Place]]] = []

    def add(self, depth: int, text: str, *places: Place) -> None:
        self.lines.append(("    " * depth + text, list(places)))

    def program(self, program: Program) -> None:
        for each in program.globals:
            length = f"[{each.length}]" if each.length else ""
            value = f" = {each.value}" if each.value else ""
            self.add(0, f"{each.kind} {each.name}{length}{value};", each.at)
        for thread in program.threads:
            self.add(0, "")
            self.thread(thread)

    def thread(self, thread: Thread) -> None:
        parameters = ", ".join(f"int {it}" for it in thread.parameters)
        self.add(0, "main {" if thread.name == "main" else f"thread {thread.name}({parameters}) {{")
        for name in thread.ints:
            self.add(1, f"int {name};")
        for name in thread.handles:
            self.add(1, f"tid {name};")
        self.block(1, thread.body)
        self.add(0, "}", thread.end)

    def block(self, depth: int, block: Block) -> None:
        for statement in block:
            self.statement(depth, statement)

    def statement(self, depth: int, statement: Statement) -> None:
        if isinstance(statement, If):
            self.branch(depth, statement, "")
        elif isinstance(statement, While):
            self.add(depth, f"while ({text_of(statement.condition)}) {{", statement.at)
            self.block(depth + 1, statement.body)
            self.add(depth, "}")
        else:
            self.add(depth, self.simple(statement), statement.at)

    def branch(self, depth: int, statement: If, before: str) -> None:
        """An `if`, and behind its `else` another one on the same line where nothing else is there."""
        self.add(depth, f"{before}if ({text_of(statement.condition)}) {{", statement.at)
        self.block(depth + 1, statement.then)
        only = statement.other[0] if len(statement.other) == 1 else None
        if isinstance(only, If):
            self.branch(depth, only, "} else ")
            return
        if statement.other:
            self.add(depth, "} else {")
            self.block(depth + 1, statement.other)
        self.add(depth, "}")

    def simple(self, statement: Statement) -> str:
        if isinstance(statement, Assign):
            return f"{text_of(statement.target)} = {text_of(statement.value)};"
        if isinstance(statement, Exchange):
            return f"{statement.target.name} = {statement.name}({', '.join(map(text_of, (statement.cell, *statement.operands)))});"
        if isinstance(statement, Create):
            return f"{statement.handle} = create {statement.thread}({', '.join(map(text_of, statement.arguments))});"
        if isinstance(statement, Assert):
            return f"assert({text_of(statement.condition)});"
        if isinstance(statement, Call):
            return f"{statement.name}({', '.join(statement.arguments)});"
        raise AssertionError(statement)

    def comment(self, place: Place) -> str:
        return str(place.line) if place.file == self.file else f"{place.file}:{place.line}"

    def text(self) -> str:
        """The lines, with a comment where the C line isn't that of the line before."""
        out, before = [], None
        for line, places in self.lines:
            comment = self.comment(places[0]) if places else None
            out.append(line if comment in (None, before) else f"{line:<{COLUMN}}  // {comment}")
            before = comment or before
        return "".join(f"{line}\n" for line in out)

    def map(self, above: int) -> str:
        """A line for each line of the program that has one in C; `above` lines precede it."""
        lines = [f"{number} {place.line} {place.file}" for number, (_, places) in enumerate(self.lines, above + 1) for place in places[:1]]
        return "".join(f"{line}\n" for line in ["from-c 1", *lines])
