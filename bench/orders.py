#!/usr/bin/env python3
"""Writes a row of test_orders: a model, a log in hex and its program, whose main fails at its end.

  orders.py stores N              main stores N times to one cell
  orders.py cell LOADS STORES     one thread loads a cell so often, and another stores to it so often
  orders.py multiply N            main loads two numbers and multiplies N times
  orders.py spin CHILDREN         each child stores to a cell and loads it 8 times, and goes on to its 65535th step
  orders.py --formula ..          its formula alone, without clauses
  orders.py --model M ..          under tso or pso, and not sc
"""

from kept_files import Refused, run_main

def path(name, steps, branches=0):
    """A thread of a log of format 1, whose outcomes are all true."""
    outcomes = int("1" * branches + "0" * (-branches % 8) or "0", 2).to_bytes((branches + 7) // 8, "big")
    return bytes([len(name), *name]) + steps.to_bytes(2, "big") + branches.to_bytes(2, "big") + outcomes

def stores(count):
    return "int x; main { " + "x = 1; " * count + "assert(0); }", [path([], count + 1)]

def cell(loads, writes):
    program = ("int x; thread r() { int i; " + "i = x; " * loads + "} thread w() { " + "x = 1; " * writes
               + "} main { tid h; h = create r(); h = create w(); assert(0); }")
    return program, [path([], 3), path([1], 2 * loads), path([2], writes)]

def multiply(count):
    program = "int x; int y; main { int i; int j; i = x; j = y; " + "i = i * j; " * count + "assert(i); }"
    return program, [path([], count + 5)]

def spin(children):
    program = ("int x; thread f() { int i; " + "x = 1; i = x; " * 8 + "while (1) { } } main { tid h; "
               + "h = create f(); " * children + "assert(0); }")
    # a turn is a branch and a jump back
    return program, [path([], children + 1)] + [path([k + 1], 65535, (65535 - 24 + 1) // 2) for k in range(children)]

def main(words):
    model = words.pop(words.index("--model") + 1) if "--model" in words else "sc"
    plain = [word for word in words if word not in ("--formula", "--model")]
    kinds = {"stores": (stores, 1), "cell": (cell, 2), "multiply": (multiply, 1), "spin": (spin, 1)}
    function, count = kinds.get(plain[0] if plain else "", (None, 0))
    if not function or len(plain) != count + 1 or not all(it.isdecimal() for it in plain[1:]):
        raise Refused("the words are stores N, cell LOADS STORES, multiply N or spin CHILDREN, and [--formula] [--model M]")
    program, threads = function(*map(int, plain[1:]))
    log = b"CLPL\0\1\0" + bytes([len(threads), 0]) + b"".join(threads)
    print("group a log")
    part = "formula" if "--formula" in words else "clauses"
    print(f"{part} {model} : {log.hex()} : {program} => ?")

if __name__ == "__main__":
    run_main("orders.py", main)
