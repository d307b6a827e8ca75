#!/usr/bin/env python3
"""Writes rows of test_find: the threads of the logs that log_walk goes through, in order.

  log_walk.py > ROWS

All products of paths that are needed are made, each is judged by what a normal log is, and those that are normal are sorted.
"""
import re

import machine
from kept_files import run_main
from thread_paths import BLOCKING, USED, is_possible, prefixes

MOST_ROWS = 60
GROUPS = {
    "ends of the threads of failures": [
        "thread f() { int r; r = x; } M assert(0); }",
        "thread f() { lock(m); x = 1; unlock(m); } main { tid t; lock(m); t = create f(); assert(x); }",
        "thread f() { x = 1; } M assert(!x); }",
        "thread f() { int r; r = swap(x, 1); } M assert(!x); }",
        "thread f() { lock(m); x = 1; wait(c, m); } M lock(m); assert(!x); }",
        "thread f() { signal(c); } main { tid t; lock(m); t = create f(); wait(c, m); assert(0); }",
        "thread g() { x = 1; } thread f() { tid t; t = create g(); } M assert(!x); }",
        "thread f() { } M join(t); assert(0); }",
        "thread f() { assert(x); } M join(t); assert(0); }",
        "thread f() { assert(x); } M assert(x); }",
        "main { unlock(m); }",
        "main { tid t; join(t); }",
    ],
    "ends of the threads of deadlocks": [
        "thread f() { } M lock(m); lock(m); }",
        "main { lock(m); wait(c, m); }",
        "thread f() { lock(m); } main { tid t; lock(m); t = create f(); join(t); }",
        "main { x = 1; }",
    ],
    "rounds that change nothing or something": [
        "thread f() { while (x == 0) { } x = 2; } M x = 1; join(t); assert(x == 2); }",
        "thread f() { int r; r = cas(x, 0, 1); while (r) { r = cas(x, 0, 1); } x = 0; } M join(t); assert(x); }",
        "thread f() { while (x == 0) { a[0] = 1; } } M x = 1; join(t); assert(!a[0]); }",
        "thread f() { int n; while (x == 0) { n = 1; } assert(!n); } M x = 1; }",
    ],
    "counted loops": [
        "thread f() { int i; while (i < 2) { x = x + 1; i = i + 1; } } M join(t); assert(x == 2); }",
        "thread f() { int i; while (i < 1) { lock(m); i = i + 1; } } M lock(m); join(t); assert(x); }",
        "thread f(int n) { int i; while (i < n) { i = i + 1; } x = i; } main { tid t; t = create f(1); join(t); assert(x == 1); }",
    ],
    "children, outcomes and mutexes": [
        "thread f() { while (x == 0) { lock(m); x = 1; unlock(m); } assert(x); } M lock(m); x = 2; unlock(m); join(t); assert(x); }",
        "thread h() { x = 2; } thread g() { tid t; x = 1; t = create h(); } thread f() { tid t; t = create g(); if (x) { join(t); } }"
        " M if (x) { join(t); assert(x); } assert(!x); }",
        "thread f() { lock(m); if (x) { unlock(m); } } M t = create f(); lock(m); x = 1; unlock(m); assert(x); }",
    ],
}


class Way:
    """A way through a function: what it does with mutexes and children, and how it ends."""

    def __init__(self, instrs, place, outcomes, steps):
        self.outcomes, self.steps = outcomes, steps
        self.functions = [i[2] for i in steps if i[0] == "create"]
        self.joins, self.held, handles, count = set(), set(), {}, 0
        for i in steps:
            if i[0] in ("lock", "wake"):
                self.held.add(i[-1])
            elif i[0] in ("unlock", "sleep"):
                self.held.discard(i[-1])
            elif i[0] == "create":
                count += 1
                handles[i[1]] = count
            elif i[0] == "join":
                self.joins.add(handles.pop(i[1], 0))
        self.last = steps[-1][0] if steps else None
        self.at = instrs[place] if place < len(instrs) else None
        self.rests = self.at is None or self.at[0] in BLOCKING
        self.handles = handles


def has_cause(threads, name):
    """Whether what a thread stands before has a cause: the mutex is held at some end, or the child hasn't exited."""
    way = threads[name]
    if way.at is None or way.at[0] == "wake":
        return True
    if way.at[0] == "lock":
        return any(way.at[-1] in other.held for other in threads.values())
    child = threads.get(name + (way.handles.get(way.at[1], 0),))
    return child is None or child.last != "exit"


def is_normal(threads, failing):
    joined = {name + (k,) for name, way in threads.items() for k in way.joins}
    for name, way in threads.items():
        if not is_possible(way.steps, name == failing):
            return False
        if name in joined and (way.last != "exit" or name == failing):
            return False
        if any(way.held & other.held for end, other in threads.items() if end != name):
            return False
    if failing is None:
        rests = all(w.rests for w in threads.values()) and any(w.last != "exit" for w in threads.values())
        return rests and all(has_cause(threads, name) for name in threads)
    for name, way in threads.items():
        if name == failing or not way.steps and name not in joined:
            continue
        if way.last == "exit" and name not in joined or way.last not in USED and way.last != "exit":
            return False
        if way.last == "create" and not threads[name + (len(way.functions),)].steps:
            return False
    return True


def logs(code, kind, most):
    ways = [[Way(f.instrs, *way[:3]) for way in prefixes(f, most)] for f in code.functions]
    found = []

    def go(threads, awaited):
        if awaited:
            name, f = awaited[0]
            for way in ways[f]:
                children = [(name + (k + 1,), g) for k, g in enumerate(way.functions)]
                go({**threads, name: way}, children + awaited[1:])
            return
        sites = [n for n, w in threads.items() if w.last in machine.SITES]
        if any(is_normal(threads, failing) for failing in (sites if kind == "failure" else [None])):
            found.append([(n, w.outcomes, len(w.steps)) for n, w in threads.items()])

    go({}, [((), len(code.functions) - 1)])
    return sorted(found, key=lambda log: [(o, s) for n, o, s in log])


def shown(log):
    names = ("0" + "".join(f".{k}" for k in name) for name, outcomes, steps in log)
    return " ".join(f"{n}:{s}:" + "".join(map(str, o)) for n, (name, o, s) in zip(names, log))


def main():
    for group, programs in GROUPS.items():
        print(f"group {group}")
        for program in programs:
            text = "int x; int a[2]; mutex m; cond c; " + program.replace("M ", "main { tid t; t = create f(); ", 1)
            code = machine.Code(text)
            for kind in ("failure", "deadlock"):
                for most in (0, 1, 2):
                    found = logs(code, kind, most)
                    if len(found) <= MOST_ROWS:
                        print(f"logs {kind} {most} : {text} => " + "".join(shown(log) + " | " for log in found) + "end")
        print()


if __name__ == "__main__":
    run_main("log_walk.py", lambda _: main())
