#!/usr/bin/env python3
"""Writes rows of test_find: the paths that the threads of programs may take, in order.

  thread_paths.py [--examples] > ROWS    of the programs below; with --examples, of the programs of examples/ instead

All prefixes of paths are made that have no pure turn (pure_turns.py) and don't go against what they determine
(known_values.py), each is judged by what docs and definitions say of a path that may be taken, and those that may are sorted:
outcomes decide first, a false before a true and fewer before more, and then steps.
"""
import glob
import os
import re

import known_values
import machine
from kept_files import run_main
from pure_turns import Turns

TOP = os.path.dirname(os.path.dirname(os.path.abspath(__file__)))
USED = machine.EXCHANGES | {"store", "storeat", "unlock", "sleep", "signal", "broadcast", "create"}
BLOCKING = {"lock", "wake", "join"}
LONGEST = 3000

HEAD = "int x; int a[2]; mutex m; cond c; "
PROGRAMS = {
    "kept ends": [
        "main { int r; r = x; x = 1; r = swap(x, 2); r = cas(x, 0, 1); a[1] = 3; fence(); stbar(); }",
        "main { int r; r = add(x, 1); r = swap(a[r], x); r = cas(a[1], 2, 3); r = add(a[0], r); }",
        "thread f() { lock(m); x = 1; wait(c, m); unlock(m); signal(c); broadcast(c); } main { tid t; t = create f(); join(t); }",
    ],
    "failing ends": [
        "main { x = a[x + 2]; }",
        "main { x = 1 / x; x = 1 << (x - 1); assert(x); }",
    ],
    "what a path tells by itself": [
        "main { unlock(m); }",
        "main { lock(m); unlock(m); unlock(m); }",
        "main { lock(m); lock(m); x = 1; }",
        "main { tid t; join(t); x = 1; }",
        "thread f() { } main { tid t; t = create f(); join(t); join(t); x = 1; }",
        "main { lock(m); wait(c, m); unlock(m); x = 1; }",
    ],
    "branches and loops": [
        "main { x = 1; if (x) { x = 2; } assert(x); }",
        "main { int r; while (x) { r = r + 1; } assert(r); }",
        "main { int r; while (r < 3) { x = r; r = r + 1; } }",
        "main { if (x) { if (a[0]) { x = 1; } else { x = 2; } } else { lock(m); } }",
    ],
    "rounds that change nothing": [
        "main { while (x == 0) { } x = 1; }",
        "main { while (x == 0) { fence(); } assert(x); }",
        "main { int again; int r; again = 1; while (again) { r = x; again = r & 1; } x = r; }",
        "main { int r; r = cas(x, 0, 1); while (r) { r = cas(x, 0, 1); } x = 2; }",
        "main { int r; r = 1; while (r != 0) { r = cas(x, 0, 1); } x = 2; }",
        "main { int r; r = cas(a[1], 0, 1); while (r) { r = cas(a[1], 0, 1); } x = 2; }",
    ],
    "rounds that change something": [
        "main { while (x == 0) { a[0] = 1; } x = 1; }",
        "main { int n; while (x == 0) { n = 1; } assert(!n); }",
        "main { int n; while (x == 0) { n = a[0]; } assert(!n); }",
        "main { int r; while (a[0] == 0) { r = cas(x, 0, 1); } x = 2; }",
        "main { int r; while (a[0] == 0) { r = cas(x, 1, 2); r = cas(x, 0, 1); } x = 2; }",
        "main { int r; while (a[0] == 0) { r = swap(x, 1); } x = 2; }",
        "main { int r; while (x == 0) { r = cas(a[1], 0, 1); } x = 2; }",
        "main { int r; while (a[0] == 0) { r = add(x, 0); } x = 2; }",
        "main { int r; r = cas(x, 0, 1); while (r == 0) { r = cas(x, 0, 1); } x = 2; }",
        "main { while (x == 0) { stbar(); } x = 1; }",
        "main { lock(m); while (x == 0) { wait(c, m); } x = 1; }",
        "main { while (x == 0) { signal(c); } x = 1; }",
        "thread g() { } main { tid t; while (x == 0) { t = create g(); } x = 1; }",
    ],
    "values that a path determines": [
        "main { int i; while (i < 2) { x = i; i = i + 1; } x = 5; }",
        "main { int i; int j; while (i < 1) { while (j < 1) { x = j; j = j + 1; } i = i + 1; } x = 5; }",
        "main { int r; r = 3; while (r) { r = r / 2; x = r; } x = 5; }",
        "thread f(int n) { int i; while (i < n) { i = i + 1; } x = 5; } main { tid t; int n; int i; n = 1; t = create f(n); while (i < n) { i = i + 1; } x = 6; }",
        "main { int r; r = x; r = 0; if (r) { x = 1; } else { x = 2; } }",
        "main { if (0) { } x = 1; }",
        "main { int i; while (i < 1) { lock(m); unlock(m); i = i + 1; } lock(m); }",
    ],
    "values that a path doesn't determine": [
        "main { int i; int n; n = x; while (i < n) { x = i; i = i + 1; } x = 5; }",
        "main { int r; r = 1; r = x; if (r) { x = 1; } else { x = 2; } }",
        "main { int r; r = 1; r = a[r]; if (r) { x = 1; } else { x = 2; } }",
        "main { int r; r = 1; r = swap(x, 2); if (r) { x = 1; } else { x = 2; } }",
        "main { int r; r = 1; r = cas(x, 2, 3); if (r) { x = 1; } else { x = 2; } }",
        "main { int r; r = 1; r = add(a[r], 2); if (r) { x = 1; } else { x = 2; } }",
        "main { int r; int s; r = x; s = r * 0; if (s) { x = 1; } else { x = 2; } }",
    ],
}
AIMS = [("exit", False), ("used", False), ("open", True), ("rest", False)]


class Own:
    """A thread's mutexes and thread variables after its own steps."""

    def __init__(self):
        self.held, self.joinable = set(), set()

    def excludes(self, i, fails):
        if i[0] == "lock":
            return i[1] in self.held
        if i[0] == "holds":
            return (i[1] in self.held) == fails
        if i[0] == "ready":
            return (i[1] in self.joinable) == fails
        return False

    def apply(self, i):
        if i[0] == "lock":
            self.held.add(i[1])
        elif i[0] == "wake":
            self.held.add(i[2])
        elif i[0] == "unlock":
            self.held.discard(i[1])
        elif i[0] == "sleep":
            self.held.discard(i[2])
        elif i[0] == "create":
            self.joinable.add(i[1])
        elif i[0] == "join":
            self.joinable.discard(i[1])


def is_possible(steps, failing):
    own = Own()
    for number, i in enumerate(steps):
        if own.excludes(i, failing and number + 1 == len(steps)):
            return False
        own.apply(i)
    return True


def may_take(instrs, end, may_fail, steps, place):
    failing = may_fail and bool(steps) and steps[-1][0] in machine.SITES
    if not is_possible(steps, failing):
        return False
    if failing:
        return True
    last = steps[-1][0] if steps else None
    if end == "exit":
        return last == "exit"
    if end == "used":
        return last in USED
    if end == "open":
        return not steps or last in USED
    return place >= len(instrs) or instrs[place][0] in BLOCKING


def prefixes(function, most):
    """Each path that is needed and has at most that many outcomes: the place after it, outcomes, instructions, and whether no
    path that is needed goes on from there, since a turn ends there or the last branch went against what was known."""
    instrs, turns = function.instrs, Turns(function.instrs)
    ways = [(0, (), (), (), known_values.at_start(function), False)]
    while ways:
        place, outcomes, steps, places, known, against = ways.pop()
        ends = against or turns.ends(places + (place,))
        yield place, outcomes, steps, ends
        if place >= len(instrs) or len(steps) >= LONGEST or ends:
            continue
        i, places = instrs[place], places + (place,)
        if i[0] != "branch":
            known = known_values.after(i, known)
            ways.append((i[1] if i[0] == "goto" else place + 1, outcomes, steps + (i,), places, known, False))
        elif len(outcomes) < most:
            for outcome, to in (1, place + 1), (0, i[2]):
                against = to != (i[2] if outcome else place + 1) and known_values.goes_against(i, known, outcome)
                ways.append((to, outcomes + (outcome,), steps + (i,), places, known, against))


def paths(function, end, may_fail, most):
    """The paths, in order, and whether some are left out since they have too many outcomes."""
    found, cut, instrs = [], False, function.instrs
    for place, outcomes, steps, ends in prefixes(function, most):
        if may_take(instrs, end, may_fail, steps, place):
            found.append((outcomes, len(steps)))
        at_branch = place < len(instrs) and instrs[place][0] == "branch" and not ends
        cut = cut or at_branch and len(outcomes) == most and is_possible(steps, False)
    return sorted(found), cut


def rows(text, bounds):
    code = machine.Code(text)
    flat = " ".join(re.sub(r"//[^\n]*", "", text).split())
    for f, function in enumerate(code.functions):
        for end, may_fail in AIMS:
            for most in bounds:
                found, cut = paths(function, end, may_fail, most)
                shown = [f"{steps}:" + "".join(map(str, outcomes)) for outcomes, steps in found]
                words = shown + ["outcomes"] * cut + ["end"]
                yield f"thread-paths {f} {end} {most}{' fails' * may_fail} : {flat} => {' '.join(words)}"


def main(words):
    if words == ["--examples"]:
        print("group paths of the threads of examples")
        for name in sorted(glob.glob(f"{TOP}/examples/*/*.tc")):
            print("\n".join(rows(open(name).read(), [0, 2, 4])))
        return
    for group, programs in PROGRAMS.items():
        print(f"group {group}")
        for program in programs:
            print("\n".join(rows(HEAD + program, [0, 4 if group.startswith("values") else 3])))
        print()


if __name__ == "__main__":
    run_main("thread_paths.py", main)
