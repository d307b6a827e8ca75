#!/usr/bin/env python3
"""Tests litmus.py: each form, each refusal, names, paths and logs, and random threads against interpreters of this file.

It runs programs on bench/machine.py, so nothing needs to be built. litmus_verdicts.py tests the translation with the program itself.
"""
import contextlib
import io
import os
import random
import re
import sys
import tempfile
import unittest
from typing import Dict, List, Tuple

sys.dont_write_bytecode = True
TOP = os.path.dirname(os.path.dirname(os.path.abspath(__file__)))
sys.path.append(f"{TOP}/bench")
import litmus
import litmus_verdicts
import machine
from from_litmus.logs import MODELS, Path, TooMany, combinations_of, functions_of, log_of, paths_of
from from_litmus.programs import Program
from from_litmus.source import Refused
from kept_files import run_main

ANY = "exists (x=1)"


def program_of(text: str) -> str:
    return Program(litmus.read_test(text)).text()


def x86_text(*threads: List[str], initial: str = "", condition: str = ANY) -> str:
    """An X86 test of these threads, whose first instructions are in line 4, and of a location x."""
    initial = initial if re.search(r"\bx\b", initial) else f"x=0; {initial}"
    rows = max(map(len, threads))
    cells = [[f"P{number}", *thread, *[""] * (rows - len(thread))] for number, thread in enumerate(threads)]
    table = [" | ".join(thread[row] for thread in cells) + " ;" for row in range(rows + 1)]
    return "\n".join(["X86 test", f"{{ {initial} }}", *table, condition]) + "\n"


def c_text(*bodies: str, initial: str = "", condition: str = ANY) -> str:
    """A C test of these bodies, the first of which begins in line 4."""
    threads = [f"P{number}(int *x, int *y)\n{{ {body}\n}}" for number, body in enumerate(bodies)]
    return "\n".join(["C test", f"{{ {initial} }}", *threads, condition]) + "\n"


def body_of(program: str, thread: int = 0) -> List[str]:
    """The statements of a thread, without its ints."""
    lines = program.split(f"thread P{thread}() {{\n")[1].split("}\n\n")[0].split("\n")
    return [line[4:] for line in lines[:-1] if not line.startswith("    int ")]


def listing_of(code: machine.Code) -> str:
    """The flat code as `clap_debug list` prints it, but without expressions, which don't matter for paths."""
    lines = []
    for function in code.functions:
        lines.append(f"{function.name} 0 0 0")
        for number, instruction in enumerate(function.instrs):
            name, *rest = instruction
            last = f" {rest[-1]}" if name in ("branch", "goto") else ""
            lines.append(f"{number} {function.lines[number]} {name}{last}")
    return "\n".join(lines)


def is_reached(text: str, model: str = "sc") -> bool:
    """Whether some run of the test ends in the state that is asked for, by a search over all states on each log's paths."""
    program = program_of(text)
    code = machine.Code(program)
    for paths in combinations_of(listing_of(code)):
        log = machine.Log.read(log_of(program.encode(), model, paths))
        if machine.search(code, log, model)[0] is not None:
            return True
    return False


class Forms(unittest.TestCase):
    """The translation of each form."""

    UPDATE = ["was = x;", "found = cas(x, was, NEW);", "while (found != was) {", "    was = found;", "    found = cas(x, was, NEW);", "}"]

    def update(self, new: str, *more: str) -> List[str]:
        return [line.replace("NEW", new) for line in self.UPDATE] + list(more)

    def test_x86(self) -> None:
        for instruction, lines in {
            "MOV [x],$1": ["x = 1;"], "MOV [x],EBX": ["x = EBX;"], "MOV EAX,[x]": ["EAX = x;"], "MOV EAX,$-1": ["EAX = -1;"],
            "MOV EAX,7": ["EAX = 7;"], "MOV EAX,$0x10": ["EAX = 16;"], "MOV EAX,EBX": ["EAX = EBX;"],
            "MOV EAX,$-2147483648": ["EAX = -2147483647 - 1;"],
            "MFENCE": ["fence();"], "SFENCE": ["stbar();"], "LFENCE": [],
            "XCHG [x],EAX": ["EAX = swap(x, EAX);"], "XCHG EAX,[x]": ["EAX = swap(x, EAX);"], "LOCK XCHG [x],EAX": ["EAX = swap(x, EAX);"],
            "LOCK CMPXCHG [x],EBX": ["EAX = cas(x, EAX, EBX);"],
            "INC [x]": ["x = x + 1;"], "DEC [x]": ["x = x - 1;"], "INC EAX": ["EAX = EAX + 1;"], "ADD EAX,[x]": ["EAX = EAX + x;"],
            "ADD [x],$2": ["x = x + 2;"], "SUB EAX,EBX": ["EAX = EAX - EBX;"], "AND EAX,$6": ["EAX = EAX & 6;"],
            "OR EAX,$6": ["EAX = EAX | 6;"], "XOR EAX,EAX": ["EAX = EAX ^ EAX;"],
            "LOCK INC [x]": self.update("was + 1"), "LOCK DEC [x]": self.update("was - 1"), "LOCK ADD [x],EBX": self.update("was + EBX"),
            "LOCK AND [x],$-2": self.update("was & (-2)"), "LOCK XADD [x],EAX": self.update("was + EAX", "EAX = was;"),
            "CMP EAX,$1": ["equal = EAX == 1;"], "CMP [x],EAX": ["equal = x == EAX;"], "TEST EAX,EAX": ["equal = (EAX & EAX) == 0;"],
        }.items():
            self.assertEqual(body_of(program_of(x86_text([instruction]))), lines, instruction)

    def test_x86_jumps(self) -> None:
        for jump, condition in (("JE", "!equal"), ("JZ", "!equal"), ("JNE", "equal"), ("JNZ", "equal")):
            body = body_of(program_of(x86_text(["CMP EAX,$1", f"{jump} out", "MOV [x],$1", "out: MOV [y],$1"])))
            self.assertEqual(body, ["equal = EAX == 1;", f"if ({condition}) {{", "    x = 1;", "}", "y = 1;"], jump)
        body = body_of(program_of(x86_text(["CMP EAX,$1", "JE out", "MOV [x],$1", "JNE in", "MOV [y],$1", "in:", "out:"])))
        self.assertEqual(body[1:], ["if (!equal) {", "    x = 1;", "    if (equal) {", "        y = 1;", "    }", "}"])

    def test_c(self) -> None:
        update = self.update("was + 2")
        for statement, lines in {
            "*x = 1;": ["x = 1;"], "WRITE_ONCE(*x, 1);": ["x = 1;"], "atomic_set(x, 1);": ["x = 1;"],
            "atomic_store_explicit(x, 1, memory_order_relaxed);": ["x = 1;"], ";": [], "{ *x = 1; }": ["x = 1;"],
            "smp_store_release(x, 1);": ["stbar();", "x = 1;"], "atomic_set_release(x, 1);": ["stbar();", "x = 1;"],
            "atomic_store_explicit(x, 1, memory_order_release);": ["stbar();", "x = 1;"],
            "smp_store_mb(*x, 1);": ["x = 1;", "fence();"],
            "atomic_store(x, 1);": ["was = swap(x, 1);"], "atomic_store_explicit(x, 1, memory_order_seq_cst);": ["was = swap(x, 1);"],
            "smp_mb();": ["fence();"], "smp_wmb();": ["stbar();"], "smp_rmb();": [],
            "atomic_thread_fence(memory_order_seq_cst);": ["fence();"], "atomic_thread_fence(memory_order_acq_rel);": ["stbar();"],
            "atomic_thread_fence(memory_order_release);": ["stbar();"], "atomic_thread_fence(memory_order_acquire);": [],
            "int r = *x;": ["r = x;"], "int r; r = READ_ONCE(*x);": ["r = x;"], "int r = smp_load_acquire(x);": ["r = x;"],
            "int r = atomic_read(x);": ["r = x;"], "int r = atomic_load(x);": ["r = x;"],
            "int r = atomic_load_explicit(x, memory_order_acquire);": ["r = x;"],
            "int r = atomic_load_explicit(x, memory_order_seq_cst) + 1;": ["r = x + 1;"],
            "int r = xchg(x, 1);": ["r = swap(x, 1);"], "int r = atomic_xchg(x, 1);": ["r = swap(x, 1);"],
            "int r = atomic_exchange(x, 1);": ["r = swap(x, 1);"], "xchg(x, 1);": ["was = swap(x, 1);"],
            "int r = atomic_exchange_explicit(x, 1, memory_order_seq_cst);": ["r = swap(x, 1);"],
            "int r = cmpxchg(x, 0, 1);": ["r = cas(x, 0, 1);"], "int r = atomic_cmpxchg(x, 0, 1);": ["r = cas(x, 0, 1);"],
            "atomic_fetch_add(2, x);": update, "int r = atomic_fetch_add(2, x);": [*update, "r = was;"],
            "int r = atomic_fetch_add(x, 2);": [*update, "r = was;"], "int r = atomic_add_return(2, x);": [*update, "r = was + 2;"],
            "int r = atomic_fetch_add_explicit(x, 2, memory_order_seq_cst);": [*update, "r = was;"],
            "int r = atomic_fetch_sub(2, x);": [*self.update("was - 2"), "r = was;"],
            "int r = atomic_fetch_or(2, x);": [*self.update("was | 2"), "r = was;"],
            "int r = atomic_inc_return(x);": [*self.update("was + 1"), "r = was + 1;"],
            "int r = atomic_fetch_dec(x);": [*self.update("was - 1"), "r = was;"],
            "int r = 2 * (3 + *x) - 1;": ["r = (2 * (3 + x)) - 1;"], "int r = !~-1;": ["r = !(~(-1));"],
            "int r, s = 1; r = (s == 1) && s || !s;": ["s = 1;", "r = (((s == 1) & (s != 0)) != 0) | (!s);"],
            "if (*x) *y = 1; else { *y = 2; }": ["if (x) {", "    y = 1;", "} else {", "    y = 2;", "}"],
            "if (*x == 1) if (*y) *y = 3;": ["if (x == 1) {", "    if (y) {", "        y = 3;", "    }", "}"],
        }.items():
            self.assertEqual(body_of(program_of(c_text(statement))), lines, statement)

    def test_comments_and_information(self) -> None:
        text = '(* first *)\n"doc"\nCom=Rf Fr\nOrig=PodWW Rfe\n{ (* x *) x=2; int y = 3; }\n'
        program = program_of("X86 name " + text + " P0 ;\n MOV [x],$1 (* MOV *) ;\nlocations [x; y;]\nexists (x=1)")
        self.assertIn("int x = 2;\nint y = 3;\n", program)
        program = program_of("C name\n{ }\nP0(int *x) { // one ;\n /* two\n exists */ *x = 1; }\nexists (* three *) x=1")
        self.assertEqual(body_of(program), ["x = 1;"])

    def test_initial_states(self) -> None:
        program = program_of(x86_text(["MOV [ESI],EAX"], initial="[x]=1; y=-2; 0:EAX=5; 0:ESI=z; 0:EDI=&y"))
        self.assertIn("int x = 1;\nint y = -2;\nint z;\n", program)
        self.assertEqual(body_of(program), ["EAX = 5;", "z = EAX;"])
        program = program_of(c_text("", initial="int x = 1; atomic_t y = ATOMIC_INIT(-2); volatile int z; _Atomic int u = 0x10"))
        self.assertIn("int x = 1;\nint y = -2;\nint z;\nint u = 16;\n", program)

    def test_conditions(self) -> None:
        for condition, claim in {
            "exists (0:EAX=1)": "!(P0_EAX == 1)", "exists x=1": "!(x == 1)", "~exists ([x]=1)": "!(x == 1)", "~ exists (x=1);": "!(x == 1)",
            "forall (x=1 \\/ 0:EAX=-1)": "(x == 1) | (P0_EAX == (-1))",
            "exists (x=1 /\\ y=2 /\\ 0:EAX=0)": "!((x == 1) & (y == 2) & (P0_EAX == 0))",
            "exists (x=1 /\\ ~(y=2 \\/ x=3) \\/ y=4)": "!(((x == 1) & (!((y == 2) | (x == 3)))) | (y == 4))",
        }.items():
            program = program_of(x86_text(["MOV EAX,[x]"], initial="x=0; y=0", condition=condition))
            self.assertIn(f"    assert({claim});\n", program, condition)
            self.assertEqual("    P0_EAX = EAX;\n}" in program, "EAX" in condition)

    def test_whole(self) -> None:
        text = x86_text(["MOV [x],$1", "MOV EAX,[y]"], ["MOV [y],$1", "MOV EAX,[x]"], condition="exists (0:EAX=0 /\\ 1:EAX=0)")
        thread = "thread P%d() {\n    int EAX;\n    %s = 1;\n    EAX = %s;\n    P%d_EAX = EAX;\n}\n\n"
        self.assertEqual(program_of(text), "// test, a litmus test of X86: exists (0:EAX=0 /\\ 1:EAX=0)\n"
                         "int x;\nint y;\nint P0_EAX;\nint P1_EAX;\n\n" + thread % (0, "x", "y", 0) + thread % (1, "y", "x", 1) +
                         "main {\n    tid t0;\n    tid t1;\n    t0 = create P0();\n    t1 = create P1();\n    join(t0);\n    join(t1);\n"
                         "    assert(!((P0_EAX == 0) & (P1_EAX == 0)));\n}\n")

    def test_names(self) -> None:
        """Names that the language or the program has get another one, in each scope."""
        body = "int lock = *x; int was = *main; int t0 = xchg(main, 1); xchg(P0, 1);"
        program = program_of(f"C t\n{{ t0=0; }}\nP0(int *x, int *main, int *P0) {{ {body} }}\nexists (0:lock=1 /\\ t0=0)")
        self.assertEqual(body_of("thread P0() {" + program.split("thread P0_() {")[1]),
                         ["lock_ = x;", "was = main_;", "t0_ = swap(main_, 1);", "was_ = swap(P0, 1);", "P0_lock = lock_;"])
        self.assertIn("t0_ = create P0_();", program)


class Refusals(unittest.TestCase):
    """Refusals, with the line and a part of the reason."""

    def refused(self, text: str, line: int, why: str) -> None:
        with self.assertRaises(Refused, msg=text) as caught:
            litmus.read_test(text)
        self.assertIn(why, str(caught.exception), text)
        self.assertEqual(caught.exception.line, line, text)

    def test_parts(self) -> None:
        for text, line, why in (
            ("ARM t\n{ }\nexists x=1", 1, "expected X86 or C"),
            ("X86\n{ }\nexists x=1", 1, "expected X86 or C and a name"),
            ("X86 t\nexists x=1", 1, "no initial state"),
            ("X86 t\nhello there\n{ }\nexists x=1", 2, "found hello there"),
            ("X86 t\n{ x=1;\n P0 ;\n", 2, "no closing }"),
            ("X86 t\n{ }\n P0 ;\n MOV [x],$1 ;\n", 5, "no final condition"),
            ("X86 t\n{ }\nexists x=1", 2, "there are no threads"),
            ("C t\n{ }\nexists x=1", 2, "there are no threads"),
        ):
            self.refused(text, line, why)

    def test_x86(self) -> None:
        for instruction, why in {
            "JMP out": "instruction JMP isn't supported",
            "MOVQ [x],$1": "instruction MOVQ isn't supported",
            "LOCK MOV [x],$1": "MOV doesn't take LOCK",
            "CMPXCHG [x],EBX": "only with LOCK",
            "XADD [x],EAX": "only with LOCK",
            "MOV [x],[y]": "one location at most",
            "ADD [x],[y]": "one location at most",
            "MOV $1,EAX": "can't be a number",
            "MOV EAX,RBX": "no 32-bit register",
            "MOV AL,$1": "no 32-bit register",
            "MOV EAX,x": "no 32-bit register",
            "MOV [ESI],$1": "doesn't make ESI the address",
            "MOV EAX": "expected ,",
            "MOV EAX,$1,EBX": "expected the end of the instruction",
            "XCHG EAX,EBX": "takes a location and a register",
            "XCHG [x],[y]": "takes a location and a register",
            "LOCK CMPXCHG EBX,[x]": "takes a location and a register",
            "LOCK INC EAX": "must be a location",
            "LOCK XADD [x],$1": "takes a location and a register",
            "MOV EAX,$2147483648": "doesn't fit",
            "JE out": "no instruction has set them",
            "MOV [x+4],$1": "expected ]",
            "MOV EAX,%1": "expected a number",
            "MOV EAX,$1U": "unexpected text: 1U",
        }.items():
            self.refused(x86_text(["MFENCE", instruction]), 5, why)

    def test_x86_tables_and_jumps(self) -> None:
        self.refused(x86_text(["CMP EAX,$1", "INC EAX", "JE out", "out:"]), 6, "INC has set them last")
        self.refused(x86_text(["back:", "CMP EAX,$1", "JE back"]), 6, "no label back follows")
        self.refused(x86_text(["CMP EAX,$1", "JE a", "JNE b", "a:", "MOV [x],$1", "b:"]), 6, "no label b follows")
        self.refused(x86_text(["MOV ESI,$1"], initial="0:ESI=x"), 4, "holds an address")
        self.refused("X86 t\n{ }\n P0 | P1 ;\n MOV [x],$1 ;\nexists x=1", 4, "1 cells for 2 threads")
        self.refused("X86 t\n{ }\n P1 ;\n MFENCE ;\nexists x=1", 3, "expected P0")

    def test_c(self) -> None:
        for statement, why in {
            "while (1) { }": "unroll the loop",
            "for (;;) ;": "unroll the loop",
            "return;": "must run to its end",
            "spin_lock(x);": "stronger than a release",
            "atomic_inc(x);": "stronger than this order",
            "int r = xchg_relaxed(x, 1);": "stronger than this order",
            "int r = atomic_exchange_explicit(x, 1, memory_order_relaxed);": "stronger than this order",
            "frob(x);": "call frob isn't supported",
            "int r = frob(x);": "call frob isn't supported",
            "r = 1;": "isn't declared",
            "int r; int r;": "declared twice",
            "int x;": "declared twice",
            "int *p;": "pointers aren't supported",
            "*z = 1;": "no parameter",
            "int r = *x + *y;": "C doesn't order",
            "int r = xchg(x, *y);": "read the other location",
            "int r = 1 + xchg(x, 1);": "the whole right side",
            "int r = *x && 1;": "an access beside &&",
            "int r = 4 / 2;": "operator / isn't supported",
            "int r = 1 << 2;": "operator << isn't supported",
            "int r = 1 ? 2 : 3;": "operator ? isn't supported",
            "int r = x;": "is an address",
            "int r = atomic_load_explicit(x, memory_order_consume);": "a load takes",
            "atomic_store_explicit(x, 1, memory_order_acquire);": "a store takes",
            "atomic_thread_fence(memory_order_consume);": "a fence takes",
            "WRITE_ONCE(1, 1);": "expected *",
            "WRITE_ONCE(x, 1);": "expected *",
            "atomic_set(*x, 1);": "takes a location and a value",
            "xchg(1, 1);": "takes one location",
            "xchg(1, x);": "takes one location",
            "atomic_fetch_add(x, y);": "takes one location",
            "int r = 010;": "unexpected text: 010",
            "int r = READ_ONCE(1);": "expected *",
            "int r = atomic_read(*x);": "takes a location",
            "int r = 3000000000;": "doesn't fit",
            "1;": "expected a statement",
            "*x += 1;": "expected =",
        }.items():
            self.refused(c_text(f"\n  {statement}"), 5, why)
        self.refused("C t\n{ }\nP0(char *x) { }\nexists x=1", 3, "expected a pointer to int")
        self.refused("C t\n{ }\nP0(int x) { }\nexists x=1", 3, "expected *")
        self.refused("C t\n{ }\nP1(int *x) { }\nexists x=1", 3, "expected P0")

    def test_initial_states(self) -> None:
        for initial, why in {
            "x=1; x=2": "a first value already",
            "0:EAX=1; 0:EAX=2": "a first value already",
            "x": "expected =",
            "x=1 y=2": "expected ;",
            "long x = 1": "long isn't supported",
            "int *x": "pointers aren't supported",
            "int x[2]": "arrays aren't supported",
            "x=-2147483648": "as its first value",
            "x=y": "expected a number",
            "1:EAX=1": "no register 1:EAX",
            "0:RAX=1": "no register 0:RAX",
        }.items():
            self.refused(x86_text(["MFENCE"], initial=initial), 2, why)
        self.refused("C t\n{ 0:r=1; }\nP0(int *x) { }\nexists x=1", 2, "where it is declared")

    def test_conditions(self) -> None:
        for condition, why in {
            "exists (x=1": "expected )",
            "exists (x==1)": "expected =, found ==",
            "exists (x!=1)": "expected =, found !=",
            "exists (x=y)": "only be compared with a number",
            "exists (x=1) x=2": "expected the end",
            "filter (x=1)": "expected exists, ~exists or forall",
            "~exists": "expected a location",
            "locations [x;": "expected ]",
            "exists (y=1)": "neither a thread nor the initial state",
            "exists (1:EAX=1)": "thread 1 of 1",
            "exists (0:r0=1)": "no such register",
            "exists (0:ESI=1)": "holds an address",
        }.items():
            self.refused(x86_text(["MFENCE"], initial="x=0; 0:ESI=x", condition=condition), 5, why)
        self.refused(c_text("int r;", condition="exists (0:EAX=1)"), 6, "no such register")

    def test_too_many_paths(self) -> None:
        for text in (c_text("if (*x) ; " * 7), c_text(*["if (*x) ; " * 4] * 2)):
            with self.assertRaises(TooMany):
                combinations_of(listing_of(machine.Code(program_of(text))))

    def test_of_the_command(self) -> None:
        """A refusal is printed with its file and line."""
        with tempfile.TemporaryDirectory() as folder:
            with open(f"{folder}/t.litmus", "w", encoding="utf-8") as file:
                file.write(x86_text(["JMP out"]))
            for name, status, said in (("t", 1, f"{folder}/t.litmus:4: instruction JMP"), ("none", 2, "litmus.py: ")):
                with contextlib.redirect_stderr(io.StringIO()) as err:
                    self.assertEqual(litmus.main([f"{folder}/{name}.litmus"]), status)
                self.assertTrue(err.getvalue().startswith(said), err.getvalue())


class Logs(unittest.TestCase):
    """The paths of flat code, and the bytes of a log."""

    def test_by_hand(self) -> None:
        """The log of docs/FORMATS.md of main alone, but that it fails; and outcomes as runs of equal ones."""
        head = b"CLPL\0\2"
        log = log_of(b"", "tso", [Path(3)])
        self.assertEqual((log[:7], len(log[7:39]), log[39:]), (head + b"\1", 32, bytes([1, 0, 0, 0, 3, 0, 0])))
        log = log_of(b"", "pso", [Path(3), Path(7, (True, False, False))])
        self.assertEqual(log[39:], bytes([2, 0, 0, 0, 3, 0, 0, 1, 1, 0, 7, 0, 3, 1, 0, 1, 0, 2]))

    def test_paths(self) -> None:
        p0 = "P0 0 2 0\n0 1 load $0 0\n1 2 branch ($0 == 1) 4\n2 3 store 0 1\n3 3 goto 5\n4 4 store 0 2\n5 5 exit\n"
        listing = p0 + "main 0 0 0\n0 6 assert 0\n1 7 exit"
        p0, main = map(paths_of, functions_of(listing))
        self.assertEqual((p0, main), ([Path(5, (True,)), Path(4, (False,))], [Path(1)]))

    def test_a_loop_is_left_at_once(self) -> None:
        program = program_of(x86_text(["LOCK INC [x]"]))
        (main, p0), = combinations_of(listing_of(machine.Code(program)))
        self.assertEqual((p0, main), (Path(6, (False,)), Path(5)))

    def test_names_of_logs(self) -> None:
        self.assertEqual(litmus.log_names("a/t.log", 1), ["a/t.log"])
        self.assertEqual(litmus.log_names("a/t.log", 2), ["a/t.1.log", "a/t.2.log"])
        self.assertEqual(litmus.log_names("t", 2), ["t.1", "t.2"])

    def test_answers(self) -> None:
        """Whether the state that is asked for is reached under each model, by a search over all states."""
        update = [["LOCK XADD [x],EAX"]] * 2
        both, one = "exists (0:EAX=0 /\\ 1:EAX=0)", "exists (0:EAX=1 /\\ 1:EAX=0 /\\ x=2)"
        buffers = [["MOV [x],$1", "MOV EAX,[y]"], ["MOV [y],$1", "MOV EAX,[x]"]]
        ones = "0:EAX=1; 1:EAX=1"
        for text, wanted in (
            (x86_text(*buffers, condition=both), [False, True, True]), (x86_text(*update, initial=ones, condition=both), [False] * 3),
            (x86_text(*update, initial=ones, condition=one), [True] * 3), (x86_text(["INC [x]"], ["INC [x]"]), [True] * 3),
            (x86_text(["LOCK INC [x]"], ["LOCK INC [x]"]), [False] * 3),
            (c_text("*x = 1; *y = 1;", "int r = *y; int s = 2; if (r) s = *x;", condition="forall (1:s=1 \\/ 1:s=2)"),
             [False, False, True])):
            self.assertEqual([is_reached(text, model) for model in MODELS], wanted, text)


class OneThread(unittest.TestCase):
    """Random tests of one thread end as interpreters of their own say, and not otherwise."""

    def setUp(self) -> None:
        self.chance = random.Random(0)

    def ends(self, text: str, condition: str, values: Dict[str, int]) -> None:
        named = " /\\ ".join(f"{name}={value}" for name, value in values.items())
        self.assertTrue(is_reached(text.replace(condition, f"exists ({named})"), "tso"), text + named)
        self.assertFalse(is_reached(text.replace(condition, f"~exists (~({named}))"), "tso"), text + named)

    def test_x86(self) -> None:
        for _ in range(60):
            values = {"EAX": 0, "EBX": 0, "x": 3, "y": 0}
            cells = [cell for _ in range(6) for cell in self.instruction(values)]
            wanted = {name if name in "xy" else f"0:{name}": value for name, value in values.items()}
            self.ends(x86_text(cells, initial="x=3"), ANY, wanted)

    def instruction(self, values: Dict[str, int]) -> List[str]:
        """One or more instructions, done on the values."""
        register, location, number = self.chance.choice(["EAX", "EBX"]), self.chance.choice("xy"), self.chance.randint(-2, 5)
        kind = self.chance.randrange(7)
        if kind == 0:
            values[location] = number
            return [f"MOV [{location}],${number}"]
        if kind == 1:
            values[register] = values[location]
            return [f"MOV {register},[{location}]"]
        if kind == 2:
            values[register], values[location] = values[location], values[register]
            return [f"XCHG [{location}],{register}"]
        if kind == 3:
            old = values[location]
            values[location] = values["EBX"] if old == values["EAX"] else old
            values["EAX"] = old
            return [f"LOCK CMPXCHG [{location}],EBX"]
        if kind == 4:
            values[register], values[location] = values[location], values[location] + values[register]
            return [f"LOCK XADD [{location}],{register}"]
        name, sign = self.chance.choice([("ADD", int.__add__), ("SUB", int.__sub__), ("XOR", int.__xor__), ("AND", int.__and__)])
        if kind == 5:
            values[location] = sign(values[location], number)
            return [f"{self.chance.choice(['LOCK ', ''])}{name} [{location}],${number}"]
        label = f"l{self.chance.randrange(10**9)}"
        if values[register] == number:
            values[location] = 9
        return [f"CMP {register},${number}", f"JNE {label}", f"MOV [{location}],$9", f"{label}:"]

    def test_c(self) -> None:
        for _ in range(60):
            expression, value = self.expression(3)
            body = f"int r = 2; int s = -3; int t = {expression}; if (t) *x = 1; else *y = 1;"
            self.ends(c_text(body), ANY, {"0:t": value, "x": int(value != 0), "y": int(value == 0)})

    def expression(self, depth: int) -> Tuple[str, int]:
        """An expression over r, which is 2, and s, which is -3; and its value."""
        if depth == 0:
            return self.chance.choice([("r", 2), ("s", -3), ("7", 7), ("0", 0)])
        if self.chance.random() < 0.2:
            operand, value = self.expression(depth - 1)
            return self.chance.choice([(f"!({operand})", int(value == 0)), (f"-({operand})", -value), (f"~({operand})", ~value)])
        left, one = self.expression(depth - 1)
        right, other = self.expression(depth - 1)
        sign, value = self.chance.choice([
            ("+", one + other), ("-", one - other), ("*", one * other), ("&", one & other), ("|", one | other), ("^", one ^ other),
            ("==", int(one == other)), ("<", int(one < other)), (">=", int(one >= other)), ("&&", int(bool(one and other))),
            ("||", int(bool(one or other)))])
        return f"({left}) {sign} ({right})", value


class Table(unittest.TestCase):
    """The table of verdicts, and what is said of it."""

    ROW = "| [{0}]({0}.litmus) | `exists (x=1)` | forbidden | {1} | allowed | {2} |  | {3} |"

    def faults(self, *rows: str) -> List[str]:
        with tempfile.TemporaryDirectory() as folder:
            with open(f"{folder}/verdicts.md", "w", encoding="utf-8") as file:
                file.write("\n".join(["# Verdicts", "", *rows]) + "\n")
            open(f"{folder}/SB.litmus", "w", encoding="utf-8").close()
            found = litmus_verdicts.Verdicts("exists (x=1)", ("forbidden", "allowed", "allowed"))
            return litmus_verdicts.Table(folder).faults({"SB": found})

    def test_faults(self) -> None:
        row = self.ROW.format
        self.assertEqual(self.faults(row("SB", "allowed", "allowed", "")), [])
        self.assertEqual(self.faults(row("SB", "allowed", "forbidden", "why")), [])
        for rows, said in (
            ([row("SB", "allowed", "forbidden", "")], "there is no remark"), ([row("SB", "forbidden", "", "")], "the table differs"),
            ([], "but not in the table"), ([row("SB", "allowed", "", ""), row("MP", "allowed", "", "")], "but not in the folder")):
            faults = self.faults(*rows)
            self.assertEqual(len(faults), 1, rows)
            self.assertIn(said, faults[0])
        with self.assertRaises(ValueError):
            self.faults("| [SB](SB.litmus) | allowed |")

    def test_rows_are_kept(self) -> None:
        """Only what is asked and the three verdicts are written anew."""
        with tempfile.TemporaryDirectory() as folder:
            with open(f"{folder}/verdicts.md", "w", encoding="utf-8") as file:
                file.write("# V\n\n| [SB](SB.litmus) | | | | | allowed | | why |\n\nend\n")
            found = litmus_verdicts.Verdicts("exists (x=1)", ("forbidden", "allowed", "allowed"))
            litmus_verdicts.Table(folder).rewrite({"SB": found, "MP": found})
            with open(f"{folder}/verdicts.md", encoding="utf-8") as file:
                lines = file.read().splitlines()
        self.assertEqual(lines[2], "| [SB](SB.litmus) | `exists (x=1)` | forbidden | allowed | allowed | allowed |  | why |")
        self.assertTrue(lines[4] == "end" and lines[5].startswith("| [MP]"))


if __name__ == "__main__":
    run_main("test_litmus.py", lambda _: unittest.main())
