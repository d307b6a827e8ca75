#!/usr/bin/env python3
"""Tries the law of the crate `mutex_regions` on random worlds, by its definitions written anew.

  regions.py [WORLDS [SEED]]
  regions.py rows > crates/test_regions/stdin

Draws programs with mutexes, runs them by `machine.py` for their paths, and draws worlds of these paths: orders in which regions mostly
don't overlap, stores may be late as in a buffer, and loads mostly take the values that they must. In each world in which all is in order
(`IsInOrder`) every region has to do what its function says (`RegionsAct`). Prints how many worlds were in order, how many regions, loads
and cells were compared, and each difference. Ends with 1 where there is one.

With `rows`, writes the rows of `test_regions`: for a program and the log of a run of it, the variables of each mutex and what each of
its regions does, by the same definitions.
"""
import random
import sys

sys.dont_write_bytecode = True
import machine
from kept_files import Refused, run_main

DEAR = {"*", "/", "%", "<<", ">>"}
PROGRAMS = ["""
int x; int y; mutex m;
thread a() { int i; while (i < 2) { lock(m); x = x + 1; y = y + x; unlock(m); i = i + 1; } }
thread b() { int t; lock(m); t = x; x = t + t; y = t - 3; unlock(m); }
main { tid p; tid q; tid r; p = create a(); q = create a(); r = create b(); join(p); join(q); join(r); assert(x + y == 0 - 1); }
""", """
int c[4]; int n; mutex m;
thread a(int k) { int at; int i; while (i < 2) { lock(m); at = n; n = at + 1; c[at & 3] = c[at & 3] + k; unlock(m); i = i + 1; } }
main { tid p; tid q; p = create a(1); q = create a(5); join(p); join(q); assert(c[0] + c[1] + c[2] + c[3] == 0 - 1); }
""", """
int x; int y; int z; int out; mutex m; mutex k;
thread a() { int t; t = out; lock(m); x = t; x = x + 1; unlock(m); lock(k); z = z + 1; lock(m); y = x; x = y + z; unlock(m); unlock(k); }
thread b() { int t; lock(m); t = swap(x, 7); y = t; t = cas(x, 7, 9); unlock(m); out = 4; lock(k); z = z * 2; unlock(k); }
main { tid p; tid q; p = create a(); q = create b(); join(p); join(q); assert(x == 0 - 1); }
""", """
int items; int most; mutex m; cond filled; cond free;
thread put() { int i; while (i < 2) { lock(m); while (items == 1) { wait(free, m); } items = items + 1; most = most | items; unlock(m); signal(filled); i = i + 1; } }
thread take() { int i; while (i < 4) { lock(m); while (items == 0) { wait(filled, m); } items = items - 1; unlock(m); signal(free); i = i + 1; } }
main { tid p; tid q; tid r; p = create put(); q = create put(); r = create take(); join(p); join(q); join(r); assert(most == 1); }
""", """
int a[3]; int b; int j; mutex m;
thread f(int k) { lock(m); a[k] = b; a[j % 3] = a[k] + 1; b = a[1] + a[2]; j = j + k; unlock(m); }
thread g() { lock(m); a[1] = 5; b = b + a[j & 1]; unlock(m); lock(m); b = b - 1; a[b & 1] = b; unlock(m); }
main { tid p; tid q; tid r; p = create f(0); q = create f(2); r = create g(); join(p); join(q); join(r); assert(b == 77); }
"""]

COUNTER = "thread f() { lock(m); x = x + 1; unlock(m); } main { tid a; tid b; a = create f(); b = create f(); join(a); join(b); "
# By group, programs; each fails at its end, or in the middle of a region.
ROWS = {
    "regions of one shape, and of another": [
        "int x; mutex m; " + COUNTER + "assert(x == 3); }",
        "int x; int y; mutex m; " + COUNTER + "lock(m); y = x - 2; x = y; unlock(m); assert(x); }",
        "int x; int y; mutex m; thread f() { lock(m); if (x < 1) { y = x + 1; x = 5; } else { x = x | y; } unlock(m); } "
        "main { tid a; tid b; a = create f(); b = create f(); join(a); join(b); assert(0); }",
    ],
    "a wait: a region to the sleep, and one from the wake": [
        "int x; mutex m; cond c; thread f() { lock(m); x = x + 1; while (x < 2) { wait(c, m); x = x + 4; } x = 0 - x; unlock(m); } "
        "main { tid a; a = create f(); lock(m); x = x + 2; broadcast(c); unlock(m); join(a); assert(0); }",
    ],
    "a region that doesn't end": [
        "int x; mutex m; " + COUNTER + "lock(m); x = ~x; assert(x); assert(0); }",
        "int x; mutex m; thread f() { int i; lock(m); x = 1; i = x; assert(i == 0); } main { tid a; a = create f(); join(a); }",
    ],
    "values from elsewhere, and operators that are too dear": [
        "int x; int y; int z; mutex m; thread f(int k) { int i; i = z; lock(m); x = x + i; y = y + k; unlock(m); } "
        "main { tid a; z = 3; a = create f(7); join(a); assert(0); }",
        "int x; int y; mutex m; thread f() { int i; lock(m); i = x; y = i * 2; x = x + 1; unlock(m); lock(m); y = 4; x = i; unlock(m); } "
        "main { tid a; a = create f(); join(a); assert(0); }",
        "int x; mutex m; thread f() { lock(m); x = 1 << (x & 3); unlock(m); lock(m); x = x / 2; unlock(m); lock(m); x = x % 2; "
        "unlock(m); lock(m); x = x >> 1; unlock(m); } main { tid a; a = create f(); join(a); assert(0); }",
        "int x; mutex m; thread f() { lock(m); x = x + x + x + x + x + x + x + x; unlock(m); lock(m); "
        "x = x + x + x + x + x + x + x + x + x; unlock(m); } main { tid a; a = create f(); join(a); assert(0); }",
    ],
    "a cell that is written elsewhere, and one that is only read there": [
        "int x; int y; mutex m; thread f() { lock(m); x = y + 1; y = x; unlock(m); y = 0; } "
        "main { tid a; int i; a = create f(); i = x; join(a); assert(i == 9); }",
    ],
    "two mutexes, one after another and nested": [
        "int x; int y; int z; mutex m; mutex k; thread f() { lock(m); x = x + 1; unlock(m); lock(k); y = y + 2; lock(m); x = x + y; z = x; "
        "unlock(m); z = z + 1; unlock(k); } main { tid a; a = create f(); join(a); assert(0); }",
        "int x; mutex m; mutex k; mutex n; thread f() { lock(m); x = x + 1; unlock(m); lock(k); x = 0; unlock(k); } "
        "main { tid a; a = create f(); join(a); assert(0); }",
    ],
    "exchanges: swap and cas": [
        "int x; int y; mutex m; thread f() { int i; lock(m); i = swap(x, y + 1); y = i; unlock(m); lock(m); i = cas(x, 3, i); y = i; "
        "unlock(m); } main { tid a; a = create f(); join(a); assert(0); }",
    ],
    "arrays: at a known index, at one that isn't, of 8 and of 9": [
        "int a[3]; int n; mutex m; thread f() { lock(m); a[1] = a[2] + 1; n = n + 1; unlock(m); } "
        "main { tid t; t = create f(); join(t); assert(0); }",
        "int a[2]; int n; mutex m; thread f() { lock(m); a[n] = a[n] + 1; n = a[0]; unlock(m); } "
        "main { tid t; t = create f(); join(t); assert(0); }",
        "int a[3]; int z; mutex m; thread f() { int i; i = z; lock(m); a[i] = 1; a[0] = a[i]; unlock(m); lock(m); a[2] = 5; unlock(m); } "
        "main { tid t; t = create f(); join(t); assert(0); }",
        "int a[8]; int n; mutex m; thread f() { lock(m); n = n + a[7]; a[7] = n; unlock(m); lock(m); n = a[n & 7]; unlock(m); } "
        "main { tid t; t = create f(); join(t); assert(0); }",
        "int a[9]; int n; mutex m; thread f() { lock(m); n = n + a[7]; a[7] = n; unlock(m); } "
        "main { tid t; t = create f(); join(t); assert(0); }",
        "int a[8]; int b[8]; int c[8]; int d[8]; int e[8]; int f[8]; int g[8]; int h[7]; int i[2]; int n; mutex m; thread t() { lock(m); "
        "a[0] = 1; b[0] = 2; c[0] = 3; d[0] = 4; e[0] = 5; f[0] = 6; g[0] = 7; h[0] = 8; i[0] = 9; n = 10; unlock(m); } "
        "main { tid p; p = create t(); join(p); assert(0); }",
    ],
}


class Paths:
    """What the paths of a log do: events, regions and accesses with terms over loads, as `path_walk` and `sym_exec` have them."""

    def __init__(self, code, log):
        self.events, self.regions, self.accesses, self.loads = [], [], [], 0
        functions, given = {(): len(code.functions) - 1}, {(): ()}
        for name in sorted(log.threads):
            steps, outcomes = log.threads[name]
            function = code.functions[functions[name]]
            slots = list(given[name]) + [0] * (function.ints - len(given[name]))
            at, children, ways, opened = 0, 0, iter(outcomes), {}
            for step in range(steps):
                word, *args = function.instrs[at]
                last = step == steps - 1 and name == log.failing
                if word in machine.EVENTS or last:
                    self.events.append((name, step, word))
                at += 1
                put = lambda e: self.term(e, slots)
                if last and word in machine.SITES:
                    break
                if word == "set":
                    slots[args[0]] = put(args[1])
                elif word in ("load", "swap", "cas"):
                    found = ("load", self.loads)
                    writes = None
                    if word == "swap":
                        writes = put(args[2])
                    if word == "cas":
                        writes = ("cas", found, put(args[2]), put(args[3]))
                    self.accesses.append((name, step, ("cell", args[1]), self.loads, writes))
                    slots[args[0]] = found
                    self.loads += 1
                elif word == "loadat":
                    self.accesses.append((name, step, ("array", args[1], args[2], put(args[3])), self.loads, None))
                    slots[args[0]] = ("load", self.loads)
                    self.loads += 1
                elif word == "store":
                    self.accesses.append((name, step, ("cell", args[0]), None, put(args[1])))
                elif word == "storeat":
                    self.accesses.append((name, step, ("array", args[0], args[1], put(args[2])), None, put(args[3])))
                elif word in ("lock", "wake"):
                    opened[args[-1]] = len(self.regions)
                    self.regions.append([name, args[-1], step, None])
                elif word in ("unlock", "sleep"):
                    self.regions[opened.pop(args[0] if word == "unlock" else args[1])][3] = step
                elif word == "create":
                    children += 1
                    child = name + (children,)
                    functions[child], given[child] = args[1], tuple(put(e) for e in args[2:])
                if word == "goto" or (word == "branch" and not next(ways)):
                    at = args[-1]
        self.number = {(name, step): k for k, (name, step, _) in enumerate(self.events)}
        self.memory = code.memory

    def term(self, e, slots):
        if isinstance(e, int):
            return e
        if e[0] == "slot":
            return slots[e[1]]
        return (e[0], *[self.term(part, slots) for part in e[1:]])


def value(e, loads):
    if isinstance(e, int):
        return e
    if e[0] == "load":
        return loads[e[1]]
    if e[0] == "cas":
        found, expected, new = (value(part, loads) for part in e[1:])
        return new if found == expected else found
    parts = [value(part, loads) for part in e[1:]]
    return machine.UNARY[e[0]](*parts) if len(parts) == 1 else machine.BINARY[e[0]](*parts)


def variable_of(cell):
    return (cell[1], 1, False) if cell[0] == "cell" else (cell[1], cell[2], True)


def same(v, u):
    return v[0] == u[0] and v[2] == u[2]


def lies_in(r, a):
    return a[0] == r[0] and r[2] < a[1] and (r[3] is None or a[1] < r[3])


def guarded(paths, m):
    regions, out = [r for r in paths.regions if r[1] == m], []
    for a in paths.accesses:
        v = variable_of(a[2])
        proper = all(not same(v, variable_of(b[2])) or (v[1] == variable_of(b[2])[1] and (b[4] is None or any(lies_in(r, b) for r in regions)))
                     for b in paths.accesses)
        if a[4] is not None and proper and v[1] <= 8 and sum(u[1] for u in out) + v[1] <= 64 and not any(same(v, u) for u in out):
            out.append(v)
    return out


def both(f, x, y):
    return None if x is None or y is None else f(x, y)


def size(e):
    return 1 if isinstance(e, int) or e[0] == "slot" else 1 + sum(size(part) for part in e[1:])


def kept(e):
    return e if size(e) <= 256 else None


def where_is(index, k, new, old):
    """`new` if the index is k, else `old`; a number as index decides, an index that isn't known leaves nothing known."""
    if index is None:
        return None
    if isinstance(index, int):
        return new if index == k else old
    return both(lambda n, o: kept(("|", ("&", n, ("-", ("==", index, k))), ("&", o, ("-", ("!=", index, k))))), new, old)


def term_expr(loads, levels, e):
    """A term of the log as an expression over slots ("slot", k); a cas is five levels of operators, as the code has it."""
    if isinstance(e, int):
        return e if levels else None
    if levels == 0:
        return None
    if e[0] == "load":
        return loads.get(e[1])
    if e[0] == "cas":
        found, expected, new = e[1:]
        return term_expr(loads, levels, ("^", found, ("&", ("^", found, new), ("-", ("==", found, expected)))))
    if e[0] in DEAR:
        return None
    parts = [term_expr(loads, levels - 1, part) for part in e[1:]]
    return None if None in parts else kept((e[0], *parts))


def function_of(paths, variables, r):
    cells = [[(v, k), ("slot", n)] for n, (v, k) in enumerate((v, k) for v in variables for k in range(v[1]))]
    loads = {}
    for a in paths.accesses:
        name, step, cell, takes, writes = a
        v = variable_of(cell)
        if not lies_in(r, a) or not any(same(v, u) for u in variables):
            continue
        index_of = lambda: 0 if cell[0] == "cell" else term_expr(loads, 8, cell[3])
        if takes is not None:
            own, index = [x for x in cells if same(x[0][0], v)], index_of()
            got = own[0][1]
            for x in own[1:]:
                got = where_is(index, x[0][1], x[1], got)
            loads[takes] = got
        if writes is not None:
            index, new = index_of(), term_expr(loads, 8, writes)
            for x in cells:
                if same(x[0][0], v):
                    x[1] = where_is(index, x[0][1], new, x[1])
    return cells, loads


def of_slots(e, state):
    if isinstance(e, int):
        return e
    if e[0] == "slot":
        return state[e[1]]
    parts = [of_slots(part, state) for part in e[1:]]
    return machine.UNARY[e[0]](*parts) if len(parts) == 1 else machine.BINARY[e[0]](*parts)


class World:
    def __init__(self, paths, place, loads):
        self.paths, self.place, self.loads = paths, place, loads

    def at(self, name, step):
        return self.place[self.paths.number[name, step]]

    def is_same(self, a, b):
        if a[0] != b[0] or a[1] != b[1]:
            return False
        return a[0] == "cell" or value(a[3], self.loads) == value(b[3], self.loads)

    def right(self, a):
        """What a load has to take."""
        seen = [b for b in self.paths.accesses if b[4] is not None and (b[0], b[1]) != (a[0], a[1]) and self.is_same(b[2], a[2])
                and (self.at(b[0], b[1]) < self.at(a[0], a[1]) or (b[0] == a[0] and b[1] < a[1]))]
        if not seen:
            return self.paths.memory[a[2][1]] if a[2][0] == "cell" else 0
        return value(max(seen, key=lambda b: self.at(b[0], b[1]))[4], self.loads)

    def state(self, variables, p):
        out = []
        for v in variables:
            for k in range(v[1]):
                hits = [b for b in self.paths.accesses if b[4] is not None and same(variable_of(b[2]), v) and self.at(b[0], b[1]) < p
                        and (not v[2] or value(b[2][3], self.loads) == k)]
                start = 0 if v[2] else self.paths.memory[v[0]]
                out.append(value(max(hits, key=lambda b: self.at(b[0], b[1]))[4], self.loads) if hits else start)
        return out

    def in_order(self, m, variables):
        regions = [r for r in self.paths.regions if r[1] == m]
        left = lambda r, s: r[3] is not None and self.at(r[0], r[3]) < self.at(s[0], s[2])
        for i, r in enumerate(regions):
            if r[3] is not None and self.at(r[0], r[2]) > self.at(r[0], r[3]):
                return False
            for s in regions[i + 1:]:
                if not left(r, s) and not left(s, r):
                    return False
            for s in regions:
                if r[0] == s[0] and r[2] < s[2] and self.at(r[0], r[2]) > self.at(s[0], s[2]):
                    return False
            used = [a for a in self.paths.accesses if lies_in(r, a) and any(same(variable_of(a[2]), v) for v in variables)]
            for n, a in enumerate(used):
                here = self.at(a[0], a[1])
                if here < self.at(r[0], r[2]) or (r[3] is not None and here > self.at(r[0], r[3])):
                    return False
                if a[3] is not None and self.loads[a[3]] != self.right(a):
                    return False
                if a[2][0] == "array" and not 0 <= value(a[2][3], self.loads) < a[2][2]:
                    return False
                for b in used[n + 1:]:
                    store_load = a[3] is None and b[4] is None
                    if same(variable_of(a[2]), variable_of(b[2])) and (a[4] is not None or b[4] is not None) and not store_load:
                        if here > self.at(b[0], b[1]):
                            return False
        return True


def order(paths, rng):
    names = sorted({e[0] for e in paths.events})
    left = {n: [k for k, e in enumerate(paths.events) if e[0] == n] for n in names}
    out, owners = [], {}
    careful, births, wild = rng.random() < 0.9, rng.random() < 0.6, rng.random() < 0.5
    mutex_of = {}
    for r in paths.regions:
        mutex_of[r[0], r[2]] = ("take", r[1])
        if r[3] is not None:
            mutex_of[r[0], r[3]] = ("leave", r[1])
    while any(left.values()):
        waits = lambda n: births and paths.events[left[n][0]][2] == "join" and any(left[c] for c in names if len(c) > len(n))
        may = [n for n in names if left[n] and not waits(n) and not (careful and mutex_of.get(paths.events[left[n][0]][:2], ("", 0))[0] == "take"
               and owners.get(mutex_of[paths.events[left[n][0]][:2]][1]) not in (None, n))]
        may = may or [n for n in names if left[n]]
        n = rng.choice(may)
        late = 0
        if len(left[n]) > 1 and rng.random() < 0.15:
            # a store passes a load, as in a buffer; in some worlds anything passes what comes after it
            two = [paths.events[k][2] for k in left[n][:2]]
            if wild or (two[0].startswith("store") and two[1].startswith("load")):
                late = 1
        k = left[n].pop(late)
        what = mutex_of.get(paths.events[k][:2])
        if what:
            owners[what[1]] = n if what[0] == "take" else None
        out.append(k)
    if rng.random() < 0.2:
        i = rng.randrange(len(out)); j = rng.randrange(len(out)); out.insert(j, out.pop(i))
    return {k: p for p, k in enumerate(out)}


def text_of(e):
    """An expression as the product writes it."""
    if e is None:
        return "?"
    if isinstance(e, int):
        return str(e)
    if e[0] == "slot":
        return f"${e[1]}"
    parts = [text_of(part) for part in e[1:]]
    return f"({e[0]}{parts[0]})" if len(parts) == 1 else f"({parts[0]} {e[0]} {parts[1]})"


def answer(code, paths):
    """What a row of `test_regions` wants: of each mutex its variables, and of each region what its cells and loads are."""
    lines = []
    for m in range(code.mutexes):
        variables = guarded(paths, m)
        lines.append(f"mutex {m}:" + "".join(f" array {v[0]} of {v[1]}" if v[2] else f" cell {v[0]}" for v in variables))
        for r in paths.regions:
            if r[1] != m:
                continue
            cells, loads = function_of(paths, variables, r)
            end = "on" if r[3] is None else f"to {r[3]}"
            kind = "open" if any(e is None for _, e in cells) else "closed"
            lines.append(f"  {machine.spelled(r[0])} from {r[2]} {end}, {kind}")
            lines += [f"    cell {v[0]}[{k}] = {text_of(e)}" if v[2] else f"    cell {v[0]} = {text_of(e)}" for (v, k), e in cells]
            lines += [f"    load {l} = {text_of(e)}" for l, e in loads.items()]
    return lines


def write_rows():
    """The rows of `test_regions`."""
    print("# What the regions of mutexes do in logs of small programs. bench/regions.py writes these rows.")
    for group, texts in ROWS.items():
        print(f"\ngroup {group}")
        for text in texts:
            code = machine.Code(text)
            end, state, _ = machine.run(code, "sc", 1, 4000)
            assert end == "failed", (end, text)
            log = machine.log_of("sc", state)
            first, *others = answer(code, Paths(code, log))
            print(f"regions {log.written(text).hex()} : {text} => {first}")
            for line in others:
                print(f" {line}")


def main(words):
    if words == ["rows"]:
        return write_rows()
    if len(words) > 2 or not all(it.isdecimal() for it in words):
        raise Refused("the words are rows, or [COUNT [SEED]]")
    count, seed = (*map(int, words), *(2000, 0)[len(words):])
    rng = random.Random(seed)
    logs = []
    for text in PROGRAMS:
        code = machine.Code(text)
        for s in range(4):
            end, state, _ = machine.run(code, "tso", rng.randrange(10**6), 4000)
            if end in ("failed", "finished", "deadlock", "no failure"):
                logs.append(Paths(code, machine.log_of("tso", state)))
    good, compared, wrong = 0, [0, 0, 0], 0
    for n in range(count):
        paths = rng.choice(logs)
        if not paths.events:
            continue
        w = World(paths, order(paths, rng), [0] * paths.loads)
        broken = {k for k in range(paths.loads) if rng.random() < rng.choice([0, 0, 0, 0.1])}
        for k in broken:
            w.loads[k] = rng.randint(-2, 6)
        for _ in range(paths.loads + 2):
            for a in paths.accesses:
                if a[3] is not None and a[3] not in broken:
                    w.loads[a[3]] = w.right(a)
        for m in sorted({r[1] for r in paths.regions}):
            variables = guarded(paths, m)
            regions = [r for r in paths.regions if r[1] == m]
            if not variables or not w.in_order(m, variables):
                continue
            good += 1
            begin = lambda r: w.at(r[0], r[2])
            by_rank = sorted(regions, key=begin)
            if by_rank and w.state(variables, begin(by_rank[0])) != w.state(variables, -1):
                wrong += 1; print("first", n)
            for place, r in enumerate(by_rank):
                state = w.state(variables, begin(r))
                after = w.state(variables, begin(by_rank[place + 1]) if place + 1 < len(by_rank) else 10**6)
                cells, loads = function_of(paths, variables, r)
                for l, e in loads.items():
                    if e is not None:
                        compared[0] += 1
                        if of_slots(e, state) != w.loads[l]:
                            wrong += 1; print("load", n, m, r, l, e, state, w.loads[l])
                for k, (spot, e) in enumerate(cells):
                    if e is not None:
                        compared[1] += 1
                        if of_slots(e, state) != after[k]:
                            wrong += 1; print("cell", n, m, r, spot, e, state, after)
            for a in paths.accesses:
                v = variable_of(a[2])
                if (a[3] is None or not any(same(v, u) for u in variables)
                        or any(r[3] is None or w.at(r[0], r[3]) > w.at(a[0], a[1]) for r in regions) or w.loads[a[3]] != w.right(a)):
                    continue
                index = 0 if not v[2] else value(a[2][3], w.loads)
                spots = [(u, k) for u in variables for k in range(u[1])]
                for k, (u, i) in enumerate(spots):
                    if same(u, v) and i == index:
                        compared[2] += 1
                        if w.state(variables, 10**6)[k] != w.loads[a[3]]:
                            wrong += 1; print("outside", n, m, a)
    print(f"{count} worlds of {len(logs)} logs, {good} mutexes in order; {compared[0]} loads, {compared[1]} cells and {compared[2]} "
          f"last loads compared, {wrong} differ")
    return 1 if wrong else 0


if __name__ == "__main__":
    run_main("regions.py", main)
