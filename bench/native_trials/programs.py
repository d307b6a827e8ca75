"""Programs that tell what each instruction did, for tests of native runs."""
from typing import List

# Ints at which operators change what they do; the least int can't be spelled.
EDGES = ["0", "1", "2", "31", "32", "2147483647", "(0 - 1)", "(0 - 2)", "(0 - 31)", "(0 - 2147483647 - 1)"]
SIGNS = ["+", "-", "*", "&", "|", "^", "<", "<=", ">", ">=", "==", "!="]

# Tells all bits of h.
BITS = "k = 0; while (k < 32) { if (h & 1) { } h = h >> 1; k = k + 1; }"


def edge(of: str) -> str:
    """The edge of this number."""
    return " + ".join(f"({of} == {k}) * {it}" for k, it in enumerate(EDGES))


def operators(is_known: bool) -> str:
    """Every operator at all pairs of edges, and the bits of a sum of all results. If they aren't known, the operands come from memory."""
    first = "0" if is_known else "zero"
    lines = ["int zero;", "main {", "int z; int h; int k; int i; int j; int a; int b;", f"z = {first};",
             f"while (i < {len(EDGES)}) {{ j = 0; a = z + {edge('i')};", *(f"h = h * 31 + ({sign}a);" for sign in "-!~"),
             f"while (j < {len(EDGES)}) {{ b = z + {edge('j')};", *(f"h = h * 31 + (a {sign} b);" for sign in SIGNS),
             "if (b) { h = h * 31 + a / b; h = h * 31 + a % b; }",
             "if (b >= 0) { if (b < 32) { h = h * 31 + (a << b); h = h * 31 + (a >> b); } }",
             "j = j + 1; } i = i + 1; }"]
    return "\n".join([*lines, BITS, "assert(0);", "}", ""])


def told(*values: str) -> str:
    return " ".join(f"h = h * 31 + ({it});" for it in values)


# One thread after another, so that each run has the same path.
ALONE = f"""int x = 1;
int y = -7;
int a[3];
mutex m;
cond c;
thread child(int p, int q) {{ if (q > 0) {{ y = p * 10 + q; }} else {{ y = q - p; }} }}
main {{
    int r; int h; int k; tid t;
    {told("x", "y")}
    r = swap(x, 5); {told("r", "x")}
    r = cas(x, 5, 7); {told("r", "x")}
    r = cas(x, 5, 9); {told("r", "x")}
    r = add(x, 2147483647); {told("r", "x")}
    a[x & 1] = 4; a[2] = 3;
    r = swap(a[0], 6); {told("r", "a[0]", "a[1]", "a[2]")}
    r = cas(a[1], a[1], 8); {told("r", "a[0]", "a[1]", "a[2]")}
    r = cas(a[2], 6, 1); {told("r", "a[0]", "a[1]", "a[2]")}
    r = add(a[2], 0 - 5); {told("r", "a[0]", "a[1]", "a[2]")}
    x = 11; {told("x")} fence(); {told("x")}
    x = 12; stbar(); x = 13; {told("x")}
    lock(m); signal(c); broadcast(c); unlock(m);
    lock(m); unlock(m);
    t = create child(3, x); join(t); {told("y")}
    t = create child(x, 0 - 1); join(t); {told("y")}
    {BITS}
    k = 0;
    while (k < 3 || x < 13) {{ k = k + 1; if (a[k - 1] > 5 && x) {{ h = 1; }} else {{ h = 2; }} }}
    assert(0);
}}
"""

# Each thread fails at another kind of site, at the line of its number.
SITES = """int zero; int a[3]; mutex m;
thread f2() { int q; q = 4 / zero; }
thread f3() { int q; q = 4 % zero; }
thread f4() { int q; q = 1 << (zero + 32); }
thread f5() { int q; q = 1 >> (zero - 1); }
thread f6() { int q; q = a[zero + 3]; }
thread f7() { a[zero - 1] = 1; }
thread f8() { int q; q = add(a[zero + 3], 1); }
thread f9() { lock(m); unlock(m); unlock(m); }
thread f10() { tid t; if (zero) { t = create f2(); } join(t); }
thread f11() { assert(zero); }
main {
    tid t;
""" + "".join(f"    t = create f{k}();\n" for k in range(2, 12)) + "}\n"

# Instructions that drain the thread's buffer, each between a store and a load of the left thread; with what is to be done before.
DRAINING = {
    "fence": ("", "fence();"), "swap": ("", "r = swap(z[k], 1);"), "cas": ("", "r = cas(z[k], 1, 2);"), "cas taken": ("", "r = cas(z[k], 0, 2);"),
    "add": ("", "r = add(z[k], 1);"), "lock": ("", "lock(o);"), "unlock": ("lock(m);", "unlock(m);"), "signal": ("", "signal(c);"),
    "broadcast": ("", "broadcast(c);"), "create": ("", "t = create nothing();"), "join": ("u = create nothing(); while (done < 1) { }", "join(u);"),
}


def draining(words: List[str]) -> str:
    """Two threads that store to their own cell and load the other's, by turns with each instruction in the left one; in the right one a fence
    is between. They begin each turn together. One of them must see the other's store, whatever its turn; a turn's line is its own."""
    left = []
    for k, word in enumerate(words):
        before, drain = DRAINING[word]
        left.append(f"k = {k}; {before} q = add(b, 1); while (b < {2 * k + 2}) {{ }} x[{k}] = 1; {drain} l[{k}] = y[{k}];")
    right = [f"q = add(b, 1); while (b < {2 * k + 2}) {{ }} y[{k}] = 1; fence(); r[{k}] = x[{k}];" for k in range(len(words))]
    arrays = " ".join(f"int {name}[{len(words)}];" for name in "xyzlr")
    lines = [f"{arrays} int b; int done; mutex o; mutex m; cond c;", "thread nothing() { int q; q = add(done, 1); }",
             "thread left() { int k; int q; int r; tid t; tid u;", *left, "}", "thread right() { int q;", *right, "}",
             "main { tid t; tid u; t = create left(); u = create right(); join(t); join(u);"]
    return "\n".join([*lines, *(f"assert(l[{k}] + r[{k}]);" for k in range(len(words))), "}", ""])


# What no run breaks: mutexes exclude, exchanges are one step, a wait ends by a signal alone, and a signal ends one.
NEVER = """int n; int l; int s; int e; int x; int up; int woken; int held; int ready; int gone;
mutex m; mutex w; cond c; cond d;
thread count() {
    int q; int r; int k;
    while (k < 3) {
        lock(m); n = n + 1; unlock(m);
        r = add(s, 1);
        r = 0; q = 0;
        while (q == 0) { r = e; q = cas(e, r, r + 1); q = q == r; }
        r = 1;
        while (r) { r = swap(x, 1); }
        l = l + 1; x = 0;
        k = k + 1;
    }
}
thread sleeper() { lock(w); ready = ready + 1; wait(c, w); assert(up); woken = woken + 1; assert(woken <= up); unlock(w); }
main {
    tid t; tid u; tid a; tid b; int q;
    t = create count(); u = create count(); a = create sleeper(); b = create sleeper();
    while (ready < 2) { }
    lock(w); up = up + 1; signal(c); unlock(w);
    join(t); join(u);
    assert(n == 6); assert(l == 6); assert(s == 6); assert(e == 6);
    lock(w); up = 2; signal(c); unlock(w);
    join(a); join(b);
    assert(woken == 2);
}
"""

# A signal that ends two waits would let both go on.
ONE_SIGNAL = """int ready; mutex w; cond c; int woken;
thread sleeper() { int q; lock(w); ready = ready + 1; wait(c, w); unlock(w); q = add(woken, 1); assert(q == 0); }
main { tid a; tid b; a = create sleeper(); b = create sleeper(); while (ready < 2) { } lock(w); signal(c); unlock(w); }
"""

# Each kind of wait that nothing ends: all threads but the one that exits are in one.
DEADLOCKS = """mutex a; mutex b; mutex c; cond d;
thread itself() { lock(a); lock(a); }
thread leaves() { lock(b); }
thread after() { tid t; t = create leaves(); join(t); lock(b); }
thread sleeps() { lock(c); wait(d, c); unlock(c); }
main {
    tid t; tid u; tid v;
    t = create itself(); u = create after(); v = create sleeps();
    join(v);
}
"""

# Two threads that never get on, and are in no deadlock: each has a step to do at any time, though one may wait for m, which it could take by
# now, when the other waits for n.
LIVELOCK = """int x; mutex m; mutex n;
thread one() { while (x == 0) { lock(n); lock(m); unlock(m); unlock(n); } }
thread two() { while (x == 0) { lock(m); unlock(m); lock(n); unlock(n); } }
main { tid t; tid u; t = create one(); u = create two(); join(t); join(u); }
"""

# A thread that spins for ever, and one that waits for ever, when main fails.
SPINNING = """int x; int n; mutex m; mutex k;
thread spins() { n = 1; while (x == 0) { } }
thread stores() { n = 2; while (1) { n = n + 1; } }
thread waits() { x = 0; n = 3; lock(m); }
main { tid t; lock(m); t = create spins(); t = create stores(); t = create waits(); while (n < 3) { } assert(0); }
"""

# The waiting thread stored before it waits, and main saw it: a path without that store is of no run.
BEFORE_LOCK = """int x; mutex m;
thread f() { x = 1; lock(m); }
main { tid t; lock(m); t = create f(); while (x == 0) { } assert(0); }
"""

# main fails when its last child is hardly there.
CREATING = """int x; int zero;
thread f(int n) { tid t; x = n; if (n < 4) { t = create f(n + 1); } }
thread fails() { while (x == 0) { } assert(zero); }
main { tid t; int k; t = create fails(); while (k < 3) { t = create f(k); k = k + 1; } assert(x == 9); }
"""


def threads(count: int) -> str:
    """A program of this many threads, which fails at its end."""
    return f"int x; thread f() {{ x = 1; }} main {{ tid t; int k; while (k < {count - 1}) {{ t = create f(); join(t); k = k + 1; }} assert(0); }}\n"


def deep(depth: int) -> str:
    """A program whose last thread has a name with this many numbers, and fails."""
    return f"thread f(int n) {{ tid t; if (n < {depth}) {{ t = create f(n + 1); }} else {{ assert(0); }} }} main {{ tid t; t = create f(1); }}\n"


def steps(count: int) -> str:
    """A program of one thread with this many steps, the last of which fails: a round is three, the end of the loop one."""
    rounds, more = divmod(count - 2, 3)
    return f"main {{ int k; while (k < {rounds}) {{ k = k + 1; }} {'k = 0; ' * more}assert(0); }}\n"


def events(count: int) -> str:
    """A program of one thread with this many events, of which the failure is one."""
    return f"int x; main {{ int k; int q; while (k < {count - 1}) {{ q = x; k = k + 1; }} assert(0); }}\n"
