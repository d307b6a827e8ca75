"""Object code against flat code: is each access of a cell one instruction of the processor, in the order of the flat code? For functions
without jumps, elements, mutexes and conditions, of which the compiler keeps the order of the text; as the compiler leaves them without a
recorder."""
import re
import subprocess
from typing import List, NamedTuple, Optional

from .lab import to_c
from native_runs.code import Code, Function

CELL_BYTES = 128
PLAIN = {"load", "store", "swap", "cas", "add", "fence", "stbar", "set", "assert", "nonzero", "inrange", "exit"}
LOADS = r"(?:movl|cmpl|testl|addl|subl|imull|andl|orl|xorl)\s+[^,]*memory[^,]*,\s*%\w+|cmpl\s+.*"


class Access(NamedTuple):
    """An access of a cell, or a fence, which has none."""

    kind: str
    cell: Optional[int]


def wanted(function: Function) -> List[Access]:
    """The accesses of a function, and the fence of its `exit`."""
    found = []
    for word, args, _ in function.instrs:
        if word in ("load", "swap", "cas", "add"):
            found.append(Access(word, args[1]))
        elif word == "store":
            found.append(Access(word, args[0]))
        elif word in ("fence", "exit"):
            found.append(Access("fence", None))
    return found


def kind_of(line: str) -> str:
    """What an instruction of the processor does to the cell that it names."""
    if line.startswith("xchg"):
        return "swap"
    if re.match(r"lock\W+cmpxchg", line):
        return "cas"
    if re.match(r"lock\W+(xadd|add|sub|inc|dec)l", line):
        return "add"
    if re.match(r"movl\s+(%\w+|\$-?\d+),", line):
        return "store"
    return "load" if re.fullmatch(LOADS, line) else f"other: {line}"


def found_in(assembly: str, number: int) -> List[Access]:
    """The accesses of the compiled function of this number."""
    body = re.search(rf"^f{number}:(.*?)^\s*\.size\s+f{number},", assembly, re.S | re.M)
    assert body, f"no function f{number}"
    found = []
    for line in map(str.strip, body[1].splitlines()):
        if line.startswith("mfence"):
            found.append(Access("fence", None))
        at = re.search(r"\bmemory(?:\+(\d+))?\(%rip\)|(?:(\d+)\+)memory\(%rip\)", line)
        if at and not line.startswith("lea"):
            found.append(Access(kind_of(line), int(at[1] or at[2] or 0) // CELL_BYTES))
    return found


class Compared(NamedTuple):
    """How many functions have the accesses of the flat code, how many these are, and what differs."""

    functions: int
    accesses: int
    differing: List[str]


def compared(code: Code, room: str) -> Compared:
    """Compiles a program and compares its plain functions."""
    with open(f"{room}/code.c", "w", encoding="utf-8") as file:
        file.write(to_c.program_in_c(code))
    words = ["gcc", *to_c.FLAGS, "-DRECORD=0", "-S", "-o", "-", f"{room}/code.c"]
    assembly = subprocess.run(words, stdout=subprocess.PIPE, text=True, check=True).stdout
    functions = accesses = 0
    differing = []
    for number, function in enumerate(code.functions[:-1]):
        if {it.word for it in function.instrs} <= PLAIN:
            ours, theirs = wanted(function), found_in(assembly, number)
            functions, accesses = functions + 1, accesses + len(ours)
            if ours != theirs:
                differing.append(f"{function.name}: {spelled(ours)} is compiled to {spelled(theirs)}")
    return Compared(functions, accesses, differing)


def spelled(accesses: List[Access]) -> str:
    return ", ".join(f"{it.kind} {it.cell}" if it.cell is not None else it.kind for it in accesses)
