"""Flat code as a C program over native.h: a C function for each function, and a macro for each instruction."""
import os
import shutil
import subprocess
from typing import Dict, List, NamedTuple, Set

from kept_files import Refused

from .code import Applied, Code, Expr, Function, Instr, Slot
from .known import counting_loops, open_slots, slots_in

FOLDER = os.path.dirname(os.path.realpath(__file__))
FLAGS = ["-O2", "-std=gnu11", "-D_GNU_SOURCE", "-fwrapv", "-fno-strict-aliasing", "-w", "-pthread", f"-I{FOLDER}"]
# Operators with a meaning of their own where C's have none.
NAMED = {"/": "divided", "%": "remains", "<<": "left", ">>": "right"}


def in_c(e: Expr) -> str:
    """An expression in C."""
    if isinstance(e, int):
        return str(e)
    if isinstance(e, Slot):
        return f"s{e.number}"
    operands = [in_c(it) for it in e.operands]
    if len(operands) == 1:
        return f"({e.sign}({operands[0]}))"
    return f"{NAMED[e.sign]}({', '.join(operands)})" if e.sign in NAMED else f"({operands[0]} {e.sign} {operands[1]})"


class Cells(NamedTuple):
    """The number of the variable that each cell is of."""

    variable_of: List[int]

    def arguments(self, at: int, args: List[Expr], is_element: bool) -> List[str]:
        """The cell of an access, whose first cell is the argument at `at`, then its variable and the operands behind."""
        first = args[at]
        assert isinstance(first, int)
        cell, rest = (f"{first} + {in_c(args[at + 2])}", args[at + 3:]) if is_element else (str(first), args[at + 1:])
        return [cell, str(self.variable_of[first]), *map(in_c, rest)]


class Body(NamedTuple):
    """A function to be translated: which of its slots are open, and which of its jumps back need no look whether to stop."""

    function: Function
    unknown: Set[int]
    counted: Set[int]
    cells: Cells

    def access(self, word: str, args: List[Expr]) -> str:
        """A call of the macro of an access: LOAD(slot, cell, variable), STORE(cell, value, variable), SWAP(slot, cell, variable, value)."""
        is_element = word.endswith("at")
        name = word[:-2] if is_element else word
        if name == "store":
            cell, variable, given = self.cells.arguments(0, args, is_element)
            return f"STORE({cell}, {given}, {variable})"
        return f"{name.upper()}({', '.join([in_c(args[0]), *self.cells.arguments(1, args, is_element)])})"

    def jump(self, at: int, to: Expr) -> str:
        """A jump; one back counts, and looks whether to stop."""
        back = "" if to > at else f"COUNTED({at}); " if at in self.counted else f"BACK({at}); "
        return f"{back}goto I{to}"

    def instr(self, at: int, instr: Instr) -> str:
        """A call of the macro of native.h with the instruction's name."""
        word, args, _ = instr
        if word in ("load", "store", "swap", "cas", "add", "loadat", "storeat", "swapat", "casat", "addat"):
            return self.access(word, args)
        c = [in_c(it) for it in args]
        if word == "goto":
            return self.jump(at, args[0])
        if word == "branch":
            assert args[1] > at  # loops jump back by goto
            return f"{'BRANCH' if self.unknown & slots_in(args[0]) else 'KNOWN'}({c[0]}, I{c[1]})"
        if word == "inside":
            return f"SITE({at}, (unsigned)({c[1]}) < {c[0]})"
        if word == "inrange":
            return f"SITE({at}, (unsigned)({c[0]}) < 32)"
        if word in ("nonzero", "assert"):
            return f"SITE({at}, {c[0]})"
        if word in ("ready", "join"):
            return f"{word.upper()}({at}, h{c[0]})"
        if word == "create":
            return f"CREATE({', '.join([str(at), f'h{c[0]}', *c[1:]])})"
        if word in ("holds", "lock", "wake", "exit"):
            return f"{word.upper()}({', '.join([str(at), *c])})"
        assert word in ("set", "unlock", "sleep", "signal", "broadcast", "fence", "stbar"), word
        return f"{word.upper()}({', '.join(c)})" if c else word.upper()

    def text(self, number: int) -> List[str]:
        """The C function, an instruction to a line, with the line of the program behind it."""
        of = self.function
        slots = [f"s{k} = me->args[{k}]" if k < of.params else f"s{k} = 0" for k in range(of.ints)]
        slots += [f"h{k} = -1" for k in range(of.tids)]
        return ["", f"static void f{number}(Thread *me) {{  // {of.name}", "    FUNCTION;",
                *([f"    int {', '.join(slots)};"] if slots else []),
                *(f"I{at}: {self.instr(at, instr)};  // {instr.line}" for at, instr in enumerate(of.instrs)),
                "    END;", "}"]


def program_in_c(code: Code, every: bool = False) -> str:
    """The C program. With `every`, outcomes that the code determines are recorded too, which only measurements want."""
    names = list(dict.fromkeys(code.variables))
    defines: Dict[str, int] = {
        "CELLS": len(code.first_values), "MUTEXES": code.mutexes, "CONDS": code.conditions, "VARS": len(names),
        "ARGS": max(it.params for it in code.functions), "FUNCTIONS": len(code.functions),
        "BRANCHES": max(sum(instr.word == "branch" for instr in it.instrs) for it in code.functions),
    }
    lines = [*(f"#define {name} {value}" for name, value in defines.items()),
             f"static const int first_values[] = {{{', '.join(map(str, code.first_values)) or '0'}}};", '#include "native.h"']
    cells = Cells([names.index(it) for it in code.variables])
    for number, (function, unknown) in enumerate(zip(code.functions, open_slots(code))):
        recorded = set(range(function.ints)) if every else unknown
        lines += Body(function, recorded, counting_loops(function, recorded), cells).text(number)
    bodies = ", ".join(f"f{k}" for k in range(len(code.functions)))
    return "\n".join([*lines, "", f"static void (*const bodies[])(Thread *) = {{{bodies}}};", ""])


def build(code: Code, out: str, *defines: str, every: bool = False) -> None:
    """Compiles the C program to `out`. `defines` are gcc's, as -DRECORD=0."""
    if not shutil.which("gcc"):
        raise Refused("there is no gcc: apt-get install gcc")
    with open(f"{out}.c", "w", encoding="utf-8") as file:
        file.write(program_in_c(code, every))
    made = subprocess.run(["gcc", *FLAGS, *defines, f"{out}.c", "-o", out], stdout=subprocess.PIPE, stderr=subprocess.STDOUT,
                          text=True, errors="replace", check=False)
    if made.returncode:
        said = [it for it in made.stdout.splitlines() if "error" in it] or made.stdout.splitlines() or ["no word of why"]
        raise Refused(f"gcc can't compile the program: {said[0]}")
