#!/usr/bin/env python3
"""Writes a row of test_parts: a log in hex and its program, whose threads go round a loop and fail at its end.

  paths.py loop STEPS [CHILDREN]    loads, stores and expressions
  paths.py long STEPS [CHILDREN]    expressions of as many operators as may stand in one
  paths.py --sizes ..               walked and executed, and not walked alone

The thread, or each of so many children of main, goes round as often as fits into so many steps, at most 65535.
"""

from kept_files import Refused, run_main

BODIES = {
    # the body, and how many instructions it has
    "loop": ("i = i + x; x = i * 3; a[i & 7] = a[x & 7] + i;", 8),
    "long": (("i = " + "-" * 509 + "i; ") * 120, 120),
}

def path(name, steps, branches):
    """A thread of a log of format 1, whose outcomes are all true."""
    outcomes = int("1" * branches + "0" * (-branches % 8) or "0", 2).to_bytes((branches + 7) // 8, "big")
    return bytes([len(name), *name]) + steps.to_bytes(2, "big") + branches.to_bytes(2, "big") + outcomes

def main(words):
    plain = [word for word in words if word != "--sizes"]
    if len(plain) not in (2, 3) or plain[0] not in BODIES or not all(it.isdecimal() for it in plain[1:]):
        raise Refused("the words are loop or long, STEPS [CHILDREN] [--sizes]")
    kind, steps, children = (*plain, 0)[:3]
    body, instructions = BODIES[kind]
    # a turn is a branch, the body, an assertion and a jump back
    turns = (int(steps) + 1) // (instructions + 3)
    way = turns * (instructions + 3) - 1, turns
    loop = f"{{ int i; while (1) {{ {body} assert(1); }} }}"
    children = int(children)
    if children:
        program = f"thread f() {loop} main {{ tid h; " + "h = create f(); " * children + "assert(0); }"
        threads = [path([], children + 1, 0)] + [path([k + 1], *way) for k in range(children)]
    else:
        program, threads = f"main {loop}", [path([], *way)]
    log = b"CLPL\0\1\0" + bytes([len(threads), 0]) + b"".join(threads)
    part = "sizes" if "--sizes" in words else "walk"
    print("group a loop")
    print(f"{part} {log.hex().upper()} : int x; int a[8]; {program} => ?")

if __name__ == "__main__":
    run_main("paths.py", main)
