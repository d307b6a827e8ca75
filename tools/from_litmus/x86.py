"""The threads of an X86 litmus test.

A row of the table has one instruction of each thread. Supported are MOV, MFENCE, SFENCE, LFENCE and XCHG; CMPXCHG and XADD with LOCK;
INC, DEC, ADD, SUB, AND, OR and XOR with or without LOCK; CMP and TEST, and JE, JZ, JNE and JNZ to a later label.
"""
from dataclasses import dataclass
from typing import Dict, List, Sequence, Union

from .conditions import Initial
from .source import Refused, Text, Tokens
from .statements import (Assign, Binary, CompareAndSwap, Expression, Fence, If, Memory, Number, Register, Statement, Store, StoreBarrier,
                         Swap, Thread, Unary, Update)

REGISTERS = ("EAX", "EBX", "ECX", "EDX", "ESI", "EDI", "EBP", "ESP")
OPERATORS = {"INC": "+", "DEC": "-", "ADD": "+", "SUB": "-", "AND": "&", "OR": "|", "XOR": "^", "XADD": "+"}
TAKES_LOCK = ("XCHG", "CMPXCHG", *OPERATORS)
NEEDS_LOCK = ("CMPXCHG", "XADD")
# LFENCE keeps loads in order, which they are under each model.
FENCES: Dict[str, List[Statement]] = {"MFENCE": [Fence()], "SFENCE": [StoreBarrier()], "LFENCE": []}
JUMPS_ON_EQUAL = {"JE": True, "JZ": True, "JNE": False, "JNZ": False}
# The int that holds the flag ZF.
EQUAL = "equal"


@dataclass(frozen=True)
class Label:
    name: str


@dataclass(frozen=True)
class Jump:
    """Goes on where the condition isn't 0, and else to the label."""

    goes_on: Expression
    label: str
    line: int


Item = Union[Statement, Label, Jump]
Operand = Union[Number, Register, Memory]


def threads_of(code: Text, initial: Initial) -> List[Thread]:
    """The threads of the table. Each begins by setting its registers to their first values."""
    first, *rows = rows_of(code)
    for number, cell in enumerate(first):
        if cell.text != f"P{number}":
            raise Refused(cell.line, f"expected P{number}, found {cell.text or 'an empty cell'}")
    for row in rows:
        if len(row) != len(first):
            raise Refused(row[0].line, f"this row has {len(row)} cells for {len(first)} threads")
    for thread, register in initial.registers:
        if thread >= len(first) or register not in REGISTERS:
            raise Refused(code.line, f"there is no register {thread}:{register}")
    return [Reader(number, initial).thread([row[number] for row in rows]) for number in range(len(first))]


def rows_of(code: Text) -> List[List[Text]]:
    """The cells of each row, which ends at a semicolon."""
    rows: List[List[Text]] = []
    offset = 0
    for row in code.text.split(";"):
        if not row.strip():
            offset += len(row) + 1
            continue
        cells = []
        for cell in row.split("|"):
            blanks = len(cell) - len(cell.lstrip())
            cells.append(Text(cell.strip(), code.at(offset + blanks if cell.strip() else offset)))
            offset += len(cell) + 1
        rows.append(cells)
    if not rows:
        raise Refused(code.line, "there are no threads")
    return rows


class Reader:
    """Reads the cells of one thread."""

    def __init__(self, number: int, initial: Initial) -> None:
        self.addresses: Dict[str, str] = {}
        self.items: List[Item] = []
        self.registers: List[str] = []
        self.locations: List[str] = []
        # Whether `equal` holds the flag ZF, and else which instruction has set the flag.
        self.flag_is_known = False
        self.flag_setter = ""
        for (thread, register), value in initial.registers.items():
            if thread != number:
                continue
            if isinstance(value, str):
                self.addresses[register] = value
                self.locations.append(value)
            else:
                self.assign(register, Number(value))

    def thread(self, cells: Sequence[Text]) -> Thread:
        for cell in cells:
            tokens = Tokens(cell)
            self.read_labels(tokens)
            if tokens.next().text:
                self.read(tokens)
            if tokens.next().text:
                tokens.refuse(f"expected the end of the instruction, found {tokens.found()}")
        return Thread(self.registers, self.locations, nested(self.items))

    def read_labels(self, tokens: Tokens) -> None:
        while len(tokens.left) > 2 and tokens.next().is_name() and tokens.left[-2].text == ":":
            self.items.append(Label(tokens.take().text))
            tokens.take()

    def read(self, tokens: Tokens) -> None:
        is_locked = bool(tokens.accept("LOCK"))
        token = tokens.name("an instruction")
        name = token.text
        if is_locked and name not in TAKES_LOCK:
            raise Refused(token.line, f"{name} doesn't take LOCK")
        if name in NEEDS_LOCK and not is_locked:
            raise Refused(token.line, f"{name} is supported only with LOCK, without which it is no single step")
        if name in FENCES:
            self.items += FENCES[name]
        elif name == "MOV":
            self.move(self.operands(tokens, 2), token.line)
        elif name == "XCHG":
            self.exchange(self.operands(tokens, 2), token.line)
        elif name == "CMPXCHG":
            self.compare_and_exchange(self.operands(tokens, 2), token.line)
        elif name in OPERATORS:
            self.update(name, tokens, is_locked, token.line)
        elif name in ("CMP", "TEST"):
            self.compare(name, self.operands(tokens, 2), token.line)
        elif name in JUMPS_ON_EQUAL:
            self.jump(name, tokens.name("a label").text, token.line)
        else:
            raise Refused(token.line, f"instruction {name} isn't supported; examples/litmus/README.md lists those that are")

    def operands(self, tokens: Tokens, count: int) -> List[Operand]:
        found = [self.operand(tokens)]
        while len(found) < count:
            tokens.expect(",")
            found.append(self.operand(tokens))
        return found

    def operand(self, tokens: Tokens) -> Operand:
        if tokens.accept("["):
            token = tokens.name("a location")
            tokens.expect("]")
            if token.text in REGISTERS and token.text not in self.addresses:
                raise Refused(token.line, f"the initial state doesn't make {token.text} the address of a location")
            self.locations.append(self.addresses.get(token.text, token.text))
            return Memory(self.locations[-1])
        if tokens.next().is_name():
            return self.register(tokens)
        tokens.accept("$")
        return Number(tokens.number())

    def register(self, tokens: Tokens) -> Register:
        token = tokens.take()
        if token.text not in REGISTERS:
            raise Refused(token.line, f"{token.text} is no 32-bit register; a location is written [{token.text}]")
        if token.text in self.addresses:
            raise Refused(token.line, f"{token.text} holds an address and can only be used as [{token.text}]")
        self.note(token.text)
        return Register(token.text)

    def assign(self, register: str, value: Expression) -> None:
        self.note(register)
        self.items.append(Assign(register, value))

    def note(self, register: str) -> None:
        if register not in self.registers:
            self.registers.append(register)

    def put(self, target: Operand, value: Expression, line: int) -> None:
        """Writes a value to an operand."""
        if isinstance(target, Register):
            self.assign(target.name, value)
        elif isinstance(target, Memory):
            self.items.append(Store(target.name, value))
        else:
            raise Refused(line, "the target can't be a number")

    def move(self, operands: List[Operand], line: int) -> None:
        target, source = operands
        refuse_two_locations(operands, line)
        self.put(target, source, line)

    def exchange(self, operands: List[Operand], line: int) -> None:
        memory, register = sorted(operands, key=lambda operand: not isinstance(operand, Memory))
        if not isinstance(memory, Memory) or not isinstance(register, Register):
            raise Refused(line, "XCHG takes a location and a register")
        self.items.append(Swap(register.name, memory.name, register))

    def compare_and_exchange(self, operands: List[Operand], line: int) -> None:
        """In both cases EAX holds the location's old value afterwards."""
        memory, register = operands
        if not isinstance(memory, Memory) or not isinstance(register, Register) or "EAX" in self.addresses:
            raise Refused(line, "CMPXCHG takes a location and a register, and EAX must hold no address")
        self.note("EAX")
        self.items.append(CompareAndSwap("EAX", memory.name, Register("EAX"), register))
        self.forget_flag("CMPXCHG")

    def update(self, name: str, tokens: Tokens, is_locked: bool, line: int) -> None:
        operands = self.operands(tokens, 1 if name in ("INC", "DEC") else 2)
        target, operand = operands if len(operands) == 2 else (operands[0], Number(1))
        refuse_two_locations(operands, line)
        if is_locked and not isinstance(target, Memory):
            raise Refused(line, f"the target of LOCK {name} must be a location")
        if name == "XADD" and not isinstance(operand, Register):
            raise Refused(line, "XADD takes a location and a register")
        if is_locked:
            old = operand.name if name == "XADD" else None
            self.items.append(Update(old, target.name, OPERATORS[name], operand))
        else:
            self.put(target, Binary(OPERATORS[name], target, operand), line)
        self.forget_flag(name)

    def compare(self, name: str, operands: List[Operand], line: int) -> None:
        refuse_two_locations(operands, line)
        left, right = operands
        is_equal = Binary("==", left, right) if name == "CMP" else Binary("==", Binary("&", left, right), Number(0))
        self.assign(EQUAL, is_equal)
        self.flag_is_known = True

    def forget_flag(self, setter: str) -> None:
        self.flag_is_known, self.flag_setter = False, setter

    def jump(self, name: str, label: str, line: int) -> None:
        if not self.flag_is_known:
            setter = self.flag_setter or "no instruction"
            raise Refused(line, f"{name} needs the flags of CMP or TEST, and {setter} has set them last")
        equal = Register(EQUAL)
        self.items.append(Jump(Unary("!", equal) if JUMPS_ON_EQUAL[name] else equal, label, line))


def refuse_two_locations(operands: Sequence[Operand], line: int) -> None:
    if all(isinstance(operand, Memory) for operand in operands) and len(operands) > 1:
        raise Refused(line, "an instruction takes one location at most")


def nested(items: Sequence[Item]) -> List[Statement]:
    """Turns jumps to later labels into `if`s. Jumps back, and jumps out of what another jump skips, are refused."""
    found: List[Statement] = []
    at = 0
    while at < len(items):
        item = items[at]
        at += 1
        if isinstance(item, Jump):
            end = next((place for place in range(at, len(items)) if items[place] == Label(item.label)), None)
            if end is None:
                raise Refused(item.line, f"no label {item.label} follows within what earlier jumps skip")
            found.append(If(item.goes_on, tuple(nested(items[at:end]))))
            at = end
        elif not isinstance(item, Label):
            found.append(item)
    return found
