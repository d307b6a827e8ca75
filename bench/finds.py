#!/usr/bin/env python3
"""Writes rows of test_finds: what `clap_debug_find` answers of small programs, and of certificates.

  finds.py > ROWS

The logs are those of log_walk.py, in order. Which of them are possible is found by machine.py, which goes through all states. The
first line of each certificate and its lines of logs are written here too; the refutations in it are checked by `--check` alone.
"""
import log_walk
import machine
from kept_files import run_main
from thread_paths import prefixes

G = "int x; int y; int a[2]; mutex m; mutex n; cond c; "
MAIN = "main { tid t; int r; t = create f(); "
FOUR = "int x; int y; int p; int q; "
# Programs by name, each with the greatest number of outcomes.
PROGRAMS = {
    "an increment by two threads": (3, "thread f() { x = x + 1; } " + MAIN + "x = x + 1; join(t); assert(x == 2); }"),
    "increments under a mutex": (
        3, "thread f() { lock(m); x = x + 1; unlock(m); } " + MAIN + "lock(m); x = x + 1; unlock(m); join(t); assert(x == 2); }"),
    "an exchange takes a lock": (
        3, "thread f() { int r; r = cas(y, 0, 1); if (r == 0) { x = x + 1; y = 0; } } " + MAIN
        + "r = cas(y, 0, 1); if (r == 0) { x = x + 1; y = 0; } join(t); assert(x != 0); }"),
    "two flags": (
        3, "thread f() { int r; x = 1; r = y; if (r == 0) { assert(!a[0]); a[0] = 1; } } " + MAIN
        + "y = 1; r = x; if (r == 0) { assert(!a[0]); a[0] = 1; } }"),
    "two flags behind fences": (
        3, "thread f() { int r; x = 1; fence(); r = y; if (r == 0) { assert(!a[0]); a[0] = 1; } } " + MAIN
        + "y = 1; fence(); r = x; if (r == 0) { assert(!a[0]); a[0] = 1; } }"),
    "a message": (3, "thread f() { x = 1; y = 1; } " + MAIN + "r = y; if (r) { assert(x); } }"),
    "a message behind a store barrier": (3, "thread f() { x = 1; stbar(); y = 1; } " + MAIN + "r = y; if (r) { assert(x); } }"),
    "a flag that is waited for": (2, "thread f() { while (y == 0) { } assert(x); } " + MAIN + "x = 1; y = 1; }"),
    "a flag that ends a loop": (2, "thread f() { while (y == 0) { } x = 1; } " + MAIN + "y = 1; join(t); assert(x); }"),
    "a spin lock": (3, "thread f() { int r; r = cas(y, 0, 1); while (r) { r = cas(y, 0, 1); } x = x + 1; y = 0; } " + MAIN
                    + "r = cas(y, 0, 1); while (r) { r = cas(y, 0, 1); } x = x + 1; y = 0; join(t); assert(x == 2); }"),
    "a reader that tries again": (
        4, "thread f() { y = 1; stbar(); x = 1; a[0] = 1; stbar(); y = 2; } main { tid t; int s; int u; int v; int again; again = 1; "
        "t = create f(); while (again) { s = y; u = x; v = a[0]; again = s != y || (s & 1); } assert(u == v); }"),
    "a round that stores": (2, "thread f() { while (x == 0) { y = 1; } } " + MAIN + "x = 1; join(t); assert(!y); }"),
    "a round that sets a slot": (2, "thread f() { int n; while (x == 0) { n = 1; } assert(!n); } " + MAIN + "x = 1; }"),
    "a round that loads into a slot": (2, "thread f() { int n; while (x == 0) { n = y; } assert(!n); } " + MAIN + "y = 1; x = 1; }"),
    "a round with an exchange that may take place": (
        2, "thread f() { int r; while (y == 0) { r = cas(x, 0, 1); } } " + MAIN + "y = 1; join(t); assert(!x); }"),
    "a round with a swap": (2, "thread f() { int r; while (y == 0) { r = swap(x, 1); } } " + MAIN + "y = 1; join(t); assert(!x); }"),
    "rounds with two exchanges": (
        3, "thread f() { int r; while (y == 0) { r = cas(x, 1, 2); r = cas(x, 0, 1); } } " + MAIN + "y = 1; join(t); assert(x != 2); }"),
    "adds of two threads": (1, "thread f() { int r; r = add(x, 1); } " + MAIN + "r = add(x, 1); join(t); assert(x == 2); }"),
    "an add and a store": (1, "thread f() { int r; r = add(x, 2); } " + MAIN + "x = 1; join(t); assert(x != 1); }"),
    "adds that take a number each": (
        1, "thread f() { int r; r = add(x, 1); a[r] = 1; } " + MAIN + "r = add(x, 1); assert(!a[r]); join(t); }"),
    "a ticket lock": (
        2, "thread f() { int n; n = add(x, 1); while (y != n) { } a[0] = a[0] + 1; y = n + 1; } " + MAIN
        + "r = add(x, 1); while (y != r) { } a[0] = a[0] + 1; y = r + 1; join(t); assert(a[0] == 2); }"),
    "an exchange of an element that another chooses": (
        1, "thread f() { int r; r = swap(a[x], 1); assert(!r); } " + MAIN + "x = 1; r = swap(a[1], 2); join(t); }"),
    "an exchange of an element takes a lock": (
        3, "thread f() { int r; r = cas(a[1], 0, 1); if (r == 0) { x = x + 1; a[1] = 0; } } " + MAIN
        + "r = cas(a[1], 0, 1); if (r == 0) { x = x + 1; a[1] = 0; } join(t); assert(x != 0); }"),
    "an add to an element outside": (1, "thread f() { int r; r = add(a[x], 1); } " + MAIN + "x = 2; join(t); }"),
    "a spin lock in an element": (
        2, "thread f() { int r; r = cas(a[1], 0, 1); while (r) { r = cas(a[1], 0, 1); } x = x + 1; a[1] = 0; } " + MAIN
        + "r = cas(a[1], 0, 1); while (r) { r = cas(a[1], 0, 1); } x = x + 1; a[1] = 0; join(t); assert(x == 2); }"),
    "a round with an add": (2, "thread f() { int r; while (y == 0) { r = add(x, 1); } } " + MAIN + "y = 1; join(t); assert(!x); }"),
    "a message behind an add": (
        1, "thread f() { int r; a[0] = 1; r = add(x, 1); } " + MAIN + "r = x; if (r) { assert(a[0]); } }"),
    "an add that wraps": (1, "thread f() { int r; r = add(x, 2147483647); } " + MAIN + "r = add(x, 2); join(t); assert(x >= 0); }"),
    "a cas of an element that fails": (1, "thread f() { int r; r = cas(a[1], 2, 3); } " + MAIN + "join(t); assert(!a[1]); }"),
    "two compare-and-exchanges of one element": (
        1, "thread f() { int r; r = cas(a[1], 0, 1); x = r; } " + MAIN + "r = cas(a[1], 0, 2); join(t); assert(x | r); }"),
    "an exchange of an element below the first": (1, "thread f() { int r; r = swap(a[x - 1], 1); } " + MAIN + "x = 1; join(t); }"),
    "a ticket lock that is tried": (
        2, "thread f() { int n; if (y == x) { n = add(x, 1); a[0] = a[0] + 1; y = n + 1; } } " + MAIN
        + "if (y == x) { r = add(x, 1); a[0] = a[0] + 1; y = r + 1; } join(t); assert(a[0] == x); }"),
    "a ticket lock that is tried in one step": (
        2, "thread f() { int n; int s; n = y; s = cas(x, n, n + 1); if (s == n) { a[0] = a[0] + 1; stbar(); y = n + 1; } } main { tid t; int r; "
        "int s; t = create f(); r = y; s = cas(x, r, r + 1); if (s == r) { a[0] = a[0] + 1; stbar(); y = r + 1; } join(t); assert(a[0] == x); }"),
    "a round that waits": (
        2, "thread f() { lock(m); y = 1; while (x == 0) { wait(c, m); } y = 2; unlock(m); } " + MAIN
        + "lock(m); r = y; x = 1; signal(c); unlock(m); join(t); assert(r != 1); }"),
    "a round that signals": (
        2, "thread f() { while (x == 0) { signal(c); } } main { tid t; lock(m); t = create f(); wait(c, m); x = 1; join(t); assert(0); }"),
    "a round that creates": (
        2, "thread g() { y = 1; } thread f() { tid u; while (x == 0) { u = create g(); } } " + MAIN + "r = y; x = 1; join(t); assert(!r); }"),
    "a counted loop": (3, "thread f() { int i; while (i < 2) { x = x + 1; i = i + 1; } } " + MAIN + "join(t); assert(x == 2); }"),
    "counted loops of two threads": (
        3, "thread f() { int i; while (i < 2) { x = x + 1; i = i + 1; } } " + MAIN
        + "while (r < 2) { x = x + 1; r = r + 1; } join(t); assert(x == 4); }"),
    "nested loops": (
        7, "thread f() { int i; int j; while (i < 2) { j = 0; while (j < 1) { x = x + 1; j = j + 1; } i = i + 1; } } " + MAIN
        + "join(t); assert(x == 2); }"),
    "a loop with a bound from memory": (
        3, "thread f() { int i; int n; n = y; while (i < n) { x = x + 1; i = i + 1; } } " + MAIN + "y = 2; join(t); assert(x < 3); }"),
    "a loop with a bound as an argument": (
        3, "thread f(int n) { int i; while (i < n) { x = x + 1; i = i + 1; } } main { tid t; t = create f(2); join(t); assert(x == 2); }"),
    "a loop of the creator with that bound": (
        3, "thread f(int n) { x = n; } main { tid t; int i; int n; n = 2; t = create f(n); while (i < n) { y = y + 1; i = i + 1; } "
        "join(t); assert(x == y); }"),
    "a counted loop that waits for a lock": (
        3, "thread f() { int i; while (i < 2) { lock(m); x = x + 1; unlock(m); i = i + 1; } } " + MAIN
        + "while (r < 2) { lock(m); x = x + 1; unlock(m); r = r + 1; } join(t); assert(x == 4); }"),
    "locks in turn": (3, "thread f() { lock(m); lock(n); unlock(n); unlock(m); } " + MAIN + "lock(n); lock(m); unlock(m); unlock(n); join(t); }"),
    "locks in one order": (3, "thread f() { lock(m); lock(n); unlock(n); unlock(m); } " + MAIN + "lock(m); lock(n); unlock(n); unlock(m); join(t); }"),
    "a signal that may be lost": (3, "thread f() { lock(m); signal(c); unlock(m); } " + MAIN + "lock(m); wait(c, m); unlock(m); }"),
    "a signal with its condition": (
        3, "thread f() { lock(m); x = 1; signal(c); unlock(m); } " + MAIN + "lock(m); if (x == 0) { wait(c, m); } unlock(m); assert(x); }"),
}
# Litmus tests by their usual names, each with an assertion that excludes the final state in question. They have no branches.
LITMUS = {
    "SB": "thread f() { x = 1; p = y; } " + MAIN + "y = 1; r = x; join(t); assert(p | r); }",
    "SB with fences": "thread f() { x = 1; fence(); p = y; } " + MAIN + "y = 1; fence(); r = x; join(t); assert(p | r); }",
    "MP": "thread f() { x = 1; y = 1; } " + MAIN + "r = y; assert(r <= x); }",
    "MP with a store barrier": "thread f() { x = 1; stbar(); y = 1; } " + MAIN + "r = y; assert(r <= x); }",
    "LB": "thread f() { p = x; y = 1; } " + MAIN + "r = y; x = 1; join(t); assert(!(p & r)); }",
    "R": "thread f() { x = 1; y = 1; } " + MAIN + "y = 2; r = x; join(t); assert(y != 2 | r); }",
    "R with fences": "thread f() { x = 1; fence(); y = 1; } " + MAIN + "y = 2; fence(); r = x; join(t); assert(y != 2 | r); }",
    "S": "thread f() { x = 2; y = 1; } " + MAIN + "r = y; x = 1; join(t); assert(x != 2 | !r); }",
    "S with a store barrier": "thread f() { x = 2; stbar(); y = 1; } " + MAIN + "r = y; x = 1; join(t); assert(x != 2 | !r); }",
    "2+2W": "thread f() { x = 1; y = 2; } " + MAIN + "y = 1; x = 2; join(t); assert(x != 1 | y != 1); }",
    "2+2W with store barriers": "thread f() { x = 1; stbar(); y = 2; } " + MAIN + "y = 1; stbar(); x = 2; join(t); assert(x != 1 | y != 1); }",
    "CoRR": "thread f() { x = 1; } " + MAIN + "r = x; assert(r <= x); }",
    "IRIW": "thread f() { x = 1; } thread g() { y = 1; } thread h() { p = x; q = y; } main { tid t; int r; int s; "
            "t = create f(); t = create g(); t = create h(); r = y; s = x; join(t); assert(p != 1 | q | r != 1 | s); }",
}


def most_of(log):
    return max(len(outcomes) for _, outcomes, _ in log)


def log_of(model, log, failing):
    threads = {name: (steps, outcomes) for name, outcomes, steps in log}
    return machine.Log(model, None if failing is None else sorted(threads)[failing], threads)


def is_at_site(code, log, index):
    """Whether the path of a thread ends with an instruction that may fail."""
    ways = list(machine.walked(code, log_of("sc", log, index)))
    path = ways[index][2]
    return bool(path) and path[-1][0] in machine.SITES


def tried(code, kind, most):
    """Each log that is tried, with the thread that fails in it."""
    for level in range(most + 1):
        for log in log_walk.logs(code, kind, level):
            if level and most_of(log) < level:
                continue
            for failing in range(len(log)) if kind == "failure" else [None]:
                if failing is None or is_at_site(code, log, failing):
                    yield log, failing
        if not is_cut(code, level):
            return


def is_cut(code, most):
    """Whether some function has a path of more outcomes."""
    return any(len(outcomes) > most for f in code.functions for _, outcomes, _, _ in prefixes(f, most + 1))


def name_of(numbers):
    return ".".join(["0", *map(str, numbers)])


def log_line(log, failing):
    """The line of a log in a certificate."""
    threads = sorted((name, steps, outcomes) for name, outcomes, steps in log)
    words = [f"{name_of(name)}:{steps}:{''.join(str(int(it)) for it in outcomes)}" for name, steps, outcomes in threads]
    return " ".join(["log", "stuck" if failing is None else name_of(threads[failing][0]), *words])


def answer(code, model, kind, most, text):
    """The lines of a row: the call and what comes of it. A log that is found is kept; else the certificate has the lines of all
    logs, and is accepted."""
    logs = []
    for log, failing in tried(code, kind, most):
        it = log_of(model, log, failing)
        if machine.search(code, it, model)[0] is not None:
            yield f'want 0 "found after {len(logs)} logs\\n"'
            yield f'holds o "{quoted(it.written(text))}"'
            yield "stays p"
            return
        logs.append(log_line(log, failing))
    bound = f", {most} outcomes" if is_cut(code, most) else ""
    header = f"clap-none 1 {model} {kind} {most} {'cut' if bound else 'whole'}"
    yield f'want 1 "none in {len(logs)} logs{bound}\\n"'
    if logs:
        yield f'edit o "{header}\\n{logs[0]}\\n" "{header}\\n{logs[0]}\\n"'
    for one in logs[1:]:
        yield f'edit o "\\n{one}\\n" "\\n{one}\\n"'
    yield "then clap_debug_find p o --check"
    yield f'want 0 "accepted, none{bound}\\n"'
    if not logs:
        yield f'holds o "{header}\\n"'
    yield "stays p"


def quoted(data):
    """Bytes as a text of a table."""
    return "".join(chr(b) if 32 <= b < 127 and chr(b) not in '"\\\'' else f"\\x{b:02x}" for b in data)


HEAD = """# The worked rows of clap_debug_find. Module `runs` of test_table says how a row is written; docs/ROWS.md how one is added, and
# how one is run alone. bench/finds.py writes them; the answers to programs are those of bench/machine.py.
words clap_debug_find p o
usage "usage: clap_debug_find PROGRAM OUT [--model sc|tso|pso] [--deadlock] [--outcomes N] [--logs K] [--budget B]\\nusage: clap_debug_find PROGRAM CERTIFICATE --check\\n"
file p {program}
"""
FAILS = "int x; main { x = 1; assert(x == 2); }"
# Words that aren't accepted.
REFUSED = {
    "no words": "",
    "the program's own name alone": "clap_debug_find",
    "a program alone": "clap_debug_find p",
    "three names": "clap_debug_find p o q",
    "an unknown option": "clap_debug_find p o --seed 1",
    "an unknown model": "clap_debug_find p o --model arm",
    "a model without a value": "clap_debug_find p o --model",
    "a model twice": "clap_debug_find p o --model sc --model sc",
    "deadlock with a value": "clap_debug_find p o --deadlock=true",
    "too many outcomes": "clap_debug_find p o --outcomes 65536",
    "no number of outcomes": "clap_debug_find p o --outcomes few",
    "no logs": "clap_debug_find p o --logs 0",
    "too many logs": "clap_debug_find p o --logs 4294967296",
    "no budget": "clap_debug_find p o --budget 0",
    "a budget past its limit": "clap_debug_find p o --budget 10000001",
    "help": "clap_debug_find --help",
    "check alone": "clap_debug_find --check",
    "a check of a program alone": "clap_debug_find p --check",
    "a check of three names": "clap_debug_find p o q --check",
    "check with a value": "clap_debug_find p o --check=true",
    "check twice": "clap_debug_find p o --check --check",
    "check with a model": "clap_debug_find p o --check --model tso",
    "check with deadlock": "clap_debug_find --deadlock --check p o",
    "check with outcomes": "clap_debug_find p o --outcomes 12 --check",
    "check with logs": "clap_debug_find p o --check --logs 10000",
    "check with a budget": "clap_debug_find p o --check --budget 1000000",
}
# Calls of one program, with what comes.
TAKEN = {
    "no options": "clap_debug_find p o",
    "options in front of the names": "clap_debug_find --model=tso --outcomes 0 p o",
    "every option": "clap_debug_find p o --model tso --outcomes 65535 --logs 4294967295 --budget 10000000",
}
# Faults: the calls that fail, the answer, and how many bytes of the log are kept, or None where nothing is.
FAULTS = {
    "the program isn't there": ("words clap_debug_find q o", 7, "read fault: q\\n", None),
    "reading fails": ("fetch 1 0", 7, "read fault: p\\n", None),
    "reading fails in the middle": ("fetch 1 7", 7, "read fault: p\\n", None),
    "keeping fails": ("keep 2 0", 8, "write fault: o\\n", 0),
    "keeping fails in the middle": ("keep 2 40", 8, "write fault: o\\n", 40),
    "the output fails": ("put 1 0", 8, "", -1),
    "the output fails in the middle": ("put 1 5", 8, "found", -1),
}
# Programs with too much of something, and the line. A failure is an event too.
LIMITS = {
    "too many events": ("int x; main { int r; " + "\\257'r = x; ' assert(r); }", "", "limit events 258 of 256"),
    "too many threads": ("int x; thread f() { } main { tid t; " + "\\16't = create f(); ' assert(x); }", "", "limit threads 17 of 16"),
    "too deep": (
        "int x; thread f9() { assert(x); } "
        + "".join(f"thread f{k}() {{ tid t; t = create f{k + 1}(); }} " for k in range(8, 0, -1)) + "main { tid t; t = create f1(); }",
        "", "limit depth 9 of 8"),
}
# Searches that are given up.
OPEN = {
    "more logs than asked for": ("a message", "--model sc --logs 2", "no failure in 2 logs"),
    "more logs than one": ("two flags", "--model pso --logs 1", "no failure in 1 logs"),
}


# Certificates that are given: a program, the text, the status and the line.
SAFE = "int x; main { assert(1); }"
GIVEN = {
    "a certificate without logs": (SAFE, r"clap-none 1 sc deadlock 3 whole\n", 0, "accepted, none"),
    "a certificate without logs, with a bound": (SAFE, r"clap-none 1 pso deadlock 0 cut\n", 0, "accepted, none, 0 outcomes"),
    "a certificate with one log": (SAFE, r"clap-none 1 sc failure 0 whole\nlog 0 0:1:\na 0 1 2 0\n", 0, "accepted, none"),
    "a certificate with one log twice": (
        SAFE, r"clap-none 1 sc failure 0 whole\nlog 0 0:1:\na 0 1 2 0\nlog 0 0:1:\na 0 1 2 0\n", 1, "line 4 refused"),
    "a certificate that is empty": (SAFE, "", 5, "certificate refused: line 1"),
    "a certificate without an end": (SAFE, "clap-none 1 sc deadlock 3 whole", 5, "certificate refused: line 1"),
    "a certificate of another format": (SAFE, r"clap-none 2 sc deadlock 3 whole\n", 5, "certificate refused: line 1"),
    "a certificate with another spelling": (SAFE, r"clap-none 1 sc deadlock 03 whole\n", 5, "certificate refused: line 1"),
    "a certificate with too many outcomes": (SAFE, r"clap-none 1 sc deadlock 65536 whole\n", 5, "certificate refused: line 1"),
    "a certificate with a log too many": (SAFE, r"clap-none 1 sc deadlock 3 whole\nlog stuck 0:1:\n", 1, "line 2 refused"),
    "a certificate with a line and no log": (SAFE, r"clap-none 1 sc deadlock 3 whole\na 0 1 0\n", 5, "certificate refused: line 2"),
    "a certificate with an unfinished line": (SAFE, r"clap-none 1 sc deadlock 3 whole\nlog", 5, "certificate refused: line 2"),
    "a certificate without the only log": (FAILS, r"clap-none 1 sc failure 3 whole\n", 10, "accepted, open"),
    "a certificate without a refutation": (FAILS, r"clap-none 1 sc failure 3 whole\nlog 0 0:3:\n", 10, "accepted, open"),
    "a certificate with another log": (FAILS, r"clap-none 1 sc failure 3 whole\nlog 0 0:2:\n", 1, "line 2 refused"),
    "a certificate with a line that doesn't follow": (
        FAILS, r"clap-none 1 sc failure 3 whole\nlog 0 0:3:\na 0 0\n", 1, "line 3 refused"),
}
# Certificates of searches that are changed: a program and the options; a text and what it becomes, or None where the file ends
# before it; the status and the line.
CHANGED = {
    "a certificate that claims less": ("increments under a mutex", "", "whole", "cut", 0, "accepted, none, 12 outcomes"),
    "a certificate of another kind": ("increments under a mutex", "", "failure", "deadlock", 1, "line 2 refused"),
    "a certificate with another failing thread": ("increments under a mutex", "", "log 0 ", "log 0.1 ", 1, "line 2 refused"),
    "a certificate with another path": ("increments under a mutex", "", " 0.1:", " 0.1:1", 1, "line 2 refused"),
    "a certificate with two spaces": ("increments under a mutex", "", "log 0 ", "log 0  ", 5, "certificate refused: line 2"),
    "a certificate without its last log": ("a message behind a store barrier", "", "log", None, 10, "accepted, open"),
    "a certificate with the last log first": (
        "a message behind a store barrier", "", r"\n{first}\n", r"\n{last}\n", 1, "line 2 refused"),
    "a certificate with fewer outcomes": (
        "a message behind a store barrier", "", "failure 12 whole", "failure 0 cut", 1, "line 2 refused"),
    "a certificate that claims more": ("a message behind a store barrier", "--outcomes 0", "cut", "whole", 1, "line 1 refused"),
}
# Faults of a check: the calls that fail, the status and the text that is put.
CHECK_FAULTS = {
    "a certificate isn't there": ("words clap_debug_find p q --check", 7, r"read fault: q\n"),
    "a program to check isn't there": ("words clap_debug_find q o --check", 7, r"read fault: q\n"),
    "reading a program to check fails": ("fetch 1 3", 7, r"read fault: p\n"),
    "opening a certificate fails": ("fetch 2 0", 7, r"read fault: o\n"),
    "reading a certificate fails": ("fetch 3 9", 7, r"read fault: o\n"),
    "the output of a check fails": ("put 1 0", 8, ""),
    "the output of a check fails in the middle": ("put 1 8", 8, "accepted"),
}


# A program whose first log takes more than one conflict.
SPENT = ("thread f() { int r; r = cas(y, 0, 1); while (r) { r = cas(y, 0, 1); } x = x + 1; y = 0; } main { tid t; tid u; "
         "t = create f(); u = create f(); join(t); join(u); assert(x == 2); }")


def by_hand():
    """The rows about words, faults and limits."""
    log = machine.Log("tso", (), {(): (3, ())}).written(FAILS)
    print(HEAD.format(program=FAILS))
    for name, words in REFUSED.items():
        print(f"row {name}\n{f'words {words}'.strip()}\nwant 2 usage\nstays p o")
    for name, words in TAKEN.items():
        print(f'row {name}\nwords {words}\nwant 0 "found after 0 logs\\n"\nholds o "{quoted(log)}"\nstays p')
    for name, (fault, status, line, kept) in FAULTS.items():
        left = "stays p o" if kept is None else f'holds o "{quoted(log[:kept] if kept >= 0 else log)}"\nstays p'
        print(f'row {name}\nfile o old\n{fault}\nwant {status} "{line}"\n{left}')
    print('row a program that is refused\nfile p int y; main { x = 1; }\nwant 3 "program refused: Unknown at 1:15\\n"\nstays p o')
    for name, (program, options, line) in LIMITS.items():
        print(f'row {name}\nfile p {program}\nwords clap_debug_find p o {options}\nwant 6 "{line}\\n"\nstays p o')
    for name, (program, options, line) in OPEN.items():
        print(f'row {name}\nfile p {G + PROGRAMS[program][1]}\nwords clap_debug_find p o {options}\nwant 10 "{line}\\n"\nstays p o')
    text = G + SPENT
    first = next(tried(machine.Code(text), "failure", 2))
    print(f'row a search that is given up\nfile p {text}\nwords clap_debug_find p o --model sc --outcomes 2 --budget 1\n'
          f'want 10 "spent after 0 logs and 1 conflicts\\n"\nholds o "{quoted(log_of("sc", *first).written(text))}"\nstays p')


def given_rows():
    """The rows of certificates that are given, and of faults of checks."""
    call = "words clap_debug_find p o --check"
    for name, (program, text, status, line) in GIVEN.items():
        print(f'row {name}\nfile p {program}\nfile o {text}\n{call}\nwant {status} "{line}\\n"\nstays p o')
    header, safe = r"file o clap-none 1 tso failure 12 whole\n", r"file o clap-none 1 sc deadlock 3 whole\n"
    for name, (program, _, line) in LIMITS.items():
        print(f'row {name} for a certificate\nfile p {program}\n{header}\n{call}\nwant 6 "{line}\\n"\nstays p o')
    for name, (fault, status, text) in CHECK_FAULTS.items():
        print(f'row {name}\nfile p {SAFE}\n{safe}\n{call}\n{fault}\nwant {status} "{text}"\nstays p o')
    print(f'row a certificate for no program\nfile p int y; main {{ x = 1; }}\n{safe}\n{call}\n'
          'want 3 "program refused: Unknown at 1:15\\n"\nstays p o')


def changed_rows():
    """The rows of certificates that searches write and that are changed."""
    for name, (program, options, old, new, status, line) in CHANGED.items():
        text = G + PROGRAMS[program][1]
        most = int(options.split()[1]) if options else 12
        code = machine.Code(text)
        logs = [log_line(*it) for it in tried(code, "failure", most)]
        bound = f", {most} outcomes" if is_cut(code, most) else ""
        names = {"first": logs[0], "last": logs[-1]} if logs else {}
        change = f'cut o "{old}"' if new is None else f'edit o "{old.format(**names)}" "{new.format(**names)}"'
        print(f'row {name}\nfile p {text}\nwords clap_debug_find p o {options}\nwant 1 "none in {len(logs)} logs{bound}\\n"\n'
              f'{change}\nthen clap_debug_find p o --check\nwant {status} "{line}\\n"\nstays p')


def rows_of(name, text, most, kinds):
    """A row for each of these ends and each memory model."""
    code = machine.Code(text)
    for kind in kinds:
        for model in machine.MODELS:
            words = f"--model {model} --outcomes {most}" + (" --deadlock" if kind == "deadlock" else "")
            print(f"row {name}, {kind} under {model}\nfile p {text}\nwords clap_debug_find p o {words}")
            print(*answer(code, model, kind, most, text), sep="\n")


def main():
    by_hand()
    given_rows()
    changed_rows()
    for name, (most, program) in PROGRAMS.items():
        rows_of(name, G + program, most, ("failure", "deadlock"))
    for name, program in LITMUS.items():
        rows_of(name, FOUR + program, 0, ("failure",))


if __name__ == "__main__":
    run_main("finds.py", lambda _: main())
