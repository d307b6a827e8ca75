"""Prints a litmus test as a program.

Main creates the threads, joins them, and asserts that the final state isn't the one that the test asks for. A register that the
condition names is stored to a global at the end of its thread. This adds no order under any model: the store comes after all other
accesses of its thread, and only main reads it, after the join, which waits until all stores of the thread are in memory anyway.
"""
from typing import Dict, List, Optional, Sequence, Set

from .statements import (Assign, Binary, Expression, Fence, Final, If, Memory, Number, Register, Statement, Store, StoreBarrier, Swap,
                         Test, Thread, Unary, Update)

KEYWORDS = ("int mutex cond thread main tid if else while create join lock unlock wait signal broadcast fence assert swap cas "
            "stbar").split()
# Operators that need no parentheses around their own kind on the left.
CHAINS = ("&", "|", "+")
INDENT = "    "


class Names:
    """The names in use. A new name gets a _ at its end as long as it is in use already."""

    def __init__(self, used: Set[str]) -> None:
        self.used = set(used)

    def new(self, wanted: str) -> str:
        while wanted in self.used:
            wanted += "_"
        self.used.add(wanted)
        return wanted


class Program:
    """A test as a program, with the program's names for the test's parts."""

    def __init__(self, test: Test) -> None:
        self.test = test
        self.names = Names(set(KEYWORDS))
        self.locations = {name: self.names.new(name) for name in test.locations()}
        self.threads = [self.names.new(f"P{number}") for number in range(len(test.threads))]
        finals = test.condition.registers()
        self.finals = {final: self.names.new(f"P{final.thread}_{final.register}") for final in finals}

    def text(self) -> str:
        asked = self.test.condition.text.encode("ascii", "replace").decode()
        lines = [f"// {self.test.name}, a litmus test of {self.test.architecture}: {asked}"]
        for location, name in self.locations.items():
            value = self.test.initial.get(location, 0)
            lines.append(f"int {name} = {value};" if value else f"int {name};")
        lines += [f"int {name};" for name in self.finals.values()]
        for number, thread in enumerate(self.test.threads):
            lines += ["", *self.thread(number, thread)]
        return "\n".join([*lines, "", *self.main()]) + "\n"

    def thread(self, number: int, thread: Thread) -> List[str]:
        body = Body(self, thread)
        lines = body.lines(thread.statements, INDENT)
        for final, name in self.finals.items():
            if final.thread == number:
                lines.append(f"{INDENT}{name} = {body.registers[final.register]};")
        ints = [f"{INDENT}int {name};" for name in [*body.registers.values(), *body.scratch.values()]]
        return [f"thread {self.threads[number]}() {{", *ints, *lines, "}"]

    def main(self) -> List[str]:
        names = Names(self.names.used)
        tids = [names.new(f"t{number}") for number in range(len(self.threads))]
        lines = [f"tid {tid};" for tid in tids]
        lines += [f"{tid} = create {thread}();" for tid, thread in zip(tids, self.threads)]
        lines += [f"join({tid});" for tid in tids]
        lines.append(f"assert({Writer(self.locations, {}, self.finals).written(self.test.condition.claim())});")
        return ["main {", *(INDENT + line for line in lines), "}"]


class Writer:
    """Writes expressions with the program's names."""

    def __init__(self, locations: Dict[str, str], registers: Dict[str, str], finals: Dict[Final, str]) -> None:
        self.locations, self.registers, self.finals = locations, registers, finals

    def written(self, value: Expression) -> str:
        """As the whole of an expression."""
        if isinstance(value, Unary):
            return value.sign + self.operand(value.operand)
        if isinstance(value, Binary):
            is_chain = isinstance(value.left, Binary) and value.left.sign == value.sign and value.sign in CHAINS
            left = self.written(value.left) if is_chain else self.operand(value.left)
            return f"{left} {value.sign} {self.operand(value.right)}"
        if isinstance(value, Number):
            # The language can't spell the least int.
            return str(value.value) if value.value != -(2**31) else "-2147483647 - 1"
        if isinstance(value, Memory):
            return self.locations[value.name]
        return self.registers[value.name] if isinstance(value, Register) else self.finals[value]

    def operand(self, value: Expression) -> str:
        written = self.written(value)
        is_simple = not isinstance(value, (Unary, Binary)) and not written.startswith("-")
        return written if is_simple else f"({written})"


class Body(Writer):
    """Writes the body of a thread."""

    def __init__(self, program: Program, thread: Thread) -> None:
        self.names = Names(program.names.used)
        super().__init__(program.locations, {name: self.names.new(name) for name in thread.registers}, program.finals)
        # Ints that the test doesn't have, by their purpose.
        self.scratch: Dict[str, str] = {}

    def scratch_int(self, use: str) -> str:
        if use not in self.scratch:
            self.scratch[use] = self.names.new(use)
        return self.scratch[use]

    def lines(self, statements: Sequence[Statement], indent: str) -> List[str]:
        return [line for statement in statements for line in self.lines_of(statement, indent)]

    def lines_of(self, statement: Statement, indent: str) -> List[str]:
        if isinstance(statement, If):
            lines = [f"{indent}if ({self.written(statement.condition)}) {{", *self.lines(statement.then, indent + INDENT)]
            if statement.otherwise:
                lines += [f"{indent}}} else {{", *self.lines(statement.otherwise, indent + INDENT)]
            return [*lines, indent + "}"]
        return [indent + line for line in self.simple(statement)]

    def simple(self, statement: Statement) -> List[str]:
        if isinstance(statement, Assign):
            return [f"{self.registers[statement.register]} = {self.written(statement.value)};"]
        if isinstance(statement, Store):
            return [f"{self.locations[statement.location]} = {self.written(statement.value)};"]
        if isinstance(statement, Fence):
            return ["fence();"]
        if isinstance(statement, StoreBarrier):
            return ["stbar();"]
        if isinstance(statement, Update):
            return self.update(statement)
        location, value, target = self.locations[statement.location], self.written(statement.value), self.target(statement.register)
        if isinstance(statement, Swap):
            return [f"{target} = swap({location}, {value});"]
        return [f"{target} = cas({location}, {self.written(statement.expected)}, {value});"]

    def target(self, register: Optional[str]) -> str:
        return self.scratch_int("was") if register is None else self.registers[register]

    def update(self, statement: Update) -> List[str]:
        """One step by `cas`, tried again until memory holds the value that was read."""
        was, found = self.scratch_int("was"), self.scratch_int("found")
        location, new = self.locations[statement.location], f"{was} {statement.sign} {self.operand(statement.operand)}"
        once = f"{found} = cas({location}, {was}, {new});"
        lines = [f"{was} = {location};", once, f"while ({found} != {was}) {{", f"{INDENT}{was} = {found};", INDENT + once, "}"]
        if statement.register is not None:
            lines.append(f"{self.registers[statement.register]} = {new if statement.gives_new else was};")
        return lines
