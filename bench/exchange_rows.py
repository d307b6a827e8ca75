#!/usr/bin/env python3
"""Writes rows about `add`, and about `swap`, `cas` and `add` of elements, for the tables of the test crates.

  exchange_rows.py parts|orders|show|product|why|checks|failures > ROWS
  exchange_rows.py --moves            compares the rows of `moves` that test_parts has with machine.py

What texts are refused for is found by texts.py, what programs do by machine.py and show.py, and what a refutation needs by reasons.py.
"""
import re
import sys
from pathlib import Path

sys.dont_write_bytecode = True
import finds
import machine
import reasons
import show
import texts
from kept_files import Refused, run_main

TOP = Path(__file__).resolve().parent.parent
WORDS = {"swap": "5", "cas": "1, 2", "add": "1"}


# Texts.

# Where a program may have a name, `add` may be one.
NAMES = """
int add = -3; main { int r; r = add; }
int add; main { add = 1; add = add + add * add; }
int add; main { int r; r = (add); r = -add; r = !add; r = ~add; r = add; }
int add[2]; main { add[1] = add[0]; add[add[0]] = 1; }
int add[2]; main { int r; r = swap(add[1], add[0]); r = cas(add[add[0]], 1, 2); r = add(add[1], 2); }
mutex add; cond c; main { lock(add); wait(c, add); unlock(add); }
mutex m; cond add; main { lock(m); wait(add, m); signal(add); broadcast(add); }
thread add() { } main { tid h; h = create add(); join(h); }
thread add(int add) { tid h; h = create add(add); join(h); } main { }
thread f() { } main { tid add; add = create f(); join(add); }
thread add() { } main { tid add; add = create add(); }
int add; thread f(int p) { } main { tid h; h = create f(add); }
main { int add; add = 1; if (add) { } while (add) { add = 0; } assert(add); }
int x; main { int add; add = add(x, 1); }
int x; main { int add; add = swap(x, add); add = cas(x, add, add); }
int add; main { int r; r = add(add, add); r = swap(add, 1); r = cas(add, 1, 2); }
int add; main { int add; add = add(add, 1); }
int x; thread f(int add) { add = add(x, 1); } main { }
int x; thread f(int add) { int r; r = add(x, add); } main { }
int add; int r; main { int s; s = add\\n/* a */ // b\\n(r, add); }
int added; int ad; int _add; int add1; main { int r; r = add(added, ad); r = add(_add, add1); }
main { add = 1; }
main { int r; r = add; }
main { int r; r = add + 1; }
main { add[0] = 1; }
main { lock(add); }
main { tid h; h = create add(); }
int x; main { int r; r = add(x, add); }
mutex add; main { int r; r = add; }
cond add; main { int r; r = add; }
thread add() { } main { int r; r = add; }
int add[2]; main { int r; r = add; }
mutex add; main { int r; r = add(add, 1); }
int add; main { lock(add); }
int add; main { tid h; h = create add(); }
int add; main { add[0] = 1; }
int add; int add; main { }
int add; mutex add; main { }
int add; thread add() { } main { }
thread f(int add, int add) { } main { }
thread f(int add) { int add; } main { }
main { int add; tid add; }
main { x = adds(1); }
main { x = add_(1); }
main { x = add1(1); }
main { x = _add(1); }
main { x = ADD(1); }
main { x = f(1, 2); }
int add; main { int r; r = add(add, add(add, 1)); }
int add; main { int r; r = add(add(add, 1), 1); }
int add; main { int r; r = !add(add, 1); }
int add; main { int r; r = add + add(add, 1); }
int add; main { int r; r = add[0](add, 1); }
int add; main { if (add(add, 1)) { } }
int add; main { while (add(add, 1)) { } }
int add; main { assert(add(add, 1)); }
int add; thread f(int p) { } main { tid h; h = create f(add(add, 1)); }
int add; main { int add = add; }
int add = add; main { }
int add[add]; main { }
thread f(add) { } main { }
add x; main { }
main { tid h; h = create add; }
main { join(add(x, 1)); }
"""
# Before the program's main: a name of each kind that can be global.
GLOBALS = "int x; int a[2]; mutex m; cond c; thread f() { } "
KINDS = ["x", "a", "m", "c", "f", "r", "h", "u", "x[0]", "a[0]", "m[0]", "c[0]", "f[0]", "r[0]", "h[0]", "u[0]"]
# Beginnings of statements are cut behind each token, and end there or with a token that can't come next.
CUT = ["r = add ( x , 1 ) ;", "r = swap ( a [ 1 ] , 2 ) ;", "r = cas ( a [ x ] , 1 , 2 ) ;"]
OPERANDS = """
r = {word}();
r = {word}(1, 2);
r = {word}(-x, {operands});
r = {word}((x), {operands});
r = {word}(x + 1, {operands});
r = {word}(x);
r = {word}(x,);
r = {word}(x {operands});
r = {word}(x, {operands}, 3);
r = {word}(x, {operands},);
r = {word}(x, {operands}) + 1;
r = {word}(x, {operands})
r = {word}[0];
r = {word}(a[], {operands});
r = {word}(a[0, {operands});
r = {word}(a[0), {operands});
r = {word}(a[0] + 1, {operands});
r = {word}(a[0][1], {operands});
r = {word}(a(0), {operands});
r = {word}(a[m], {operands});
r = {word}(a[u], {operands});
r = {word}(a[a], {operands});
r = {word}(a[h], {operands});
u = {word}(x[0], {operands});
r = {word}(x[u], {operands});
r = {word}(a[0],\\n    m);
r = {word}(\\n  x,\\n  1,,
"""


def text_rows(given):
    """Rows of texts, which may have escapes."""
    found = []
    for text in given:
        row = f"program {text} => {texts.fault_of(texts.unquoted(text))}"
        if row not in found:
            found.append(row)
    return found


def kinds():
    """Each word with a name of each kind in each of its two places."""
    for word, operands in WORDS.items():
        for name in KINDS:
            yield f"{GLOBALS}main {{ int r; tid h; r = {word}({name}, {operands}); }}"
        for name in KINDS[:8]:
            yield f"{GLOBALS}main {{ int r; tid h; {name} = {word}(x, {operands}); }}"
        yield f"int x; thread f(int p) {{ int r; r = {word}(p, {operands}); }} main {{ }}"
        yield f"int a[2]; thread f(int p) {{ int r; r = {word}(a[p], {operands.replace('1', 'p')}); }} main {{ }}"
        yield f"int a[2]; thread f(int p) {{ p = {word}(a[0], {operands}); }} main {{ }}"
        yield f"int a[2]; main {{ int a; int r; r = {word}(a[0], {operands}); }}"
        yield f"int x; main {{ int x; int r; r = {word}(x, {operands}); }}"


def operand_texts():
    for word, operands in WORDS.items():
        for line in OPERANDS.strip().split("\n"):
            yield f"{GLOBALS}main {{ int r; tid h; {line.format(word=word, operands=operands)} }}"


def cut_texts():
    for statement in CUT:
        tokens = statement.split()
        for count in range(3, len(tokens) + 1):
            beginning = f"int x; int a[2]; main {{ int r; {' '.join(tokens[:count])}"
            yield beginning
            yield f"{beginning} while"


# Moves.

def moves_answer(model, words, text):
    """What a row of `moves` comes to."""
    code = machine.Code(text)
    form, *moves = words.split(",")
    state = machine.State(code, model)
    for number, (kind, name, *more) in enumerate((it.split() for it in moves), 1):
        move = (kind, machine.name_of(name), *(machine.name_of(it) if kind == "w" else int(it) for it in more))
        if kind == "d":
            oldest = state.threads[move[1]].buffer[:1] if move[1] in state.threads else ()
            if model == "tso" and form != "pso" and oldest:
                move = (*move, oldest[0][0])
            elif (model, form) != ("pso", "pso"):
                why = "Stopped" if state.failed is not None else "NoEntry" if move[1] in state.threads else "NoThread"
                return f"stops at move {number}: {why}"
        why = show.why_not(state, move)
        if why:
            return f"stops at move {number}: {why}"
        state.make(move)
    lines = machine.schedule(model, state.moves()).split("\n")[1:-1]
    ends = [" ".join([machine.spelled(name), f"at {it.function}.{it.at} after {it.steps}", *map(str, it.outcomes)])
            for name, it in sorted(state.threads.items())]
    return "; ".join([*lines, " ".join(ends)])


# Programs of one thread, with how many of its steps come before the exchange. Stores wait then.
MOVES = [
    ("int x = 5; main { int r; x = 7; r = add(x, 3); assert(r == 7); assert(x == 10); }", 1),
    ("int x = 5; main { int r; x = 7; r = swap(x, 3); assert(r == 7); assert(x == 3); }", 1),
    ("int x = 5; main { int r; x = 7; r = cas(x, 7, 3); assert(r == 7); assert(x == 3); }", 1),
    ("int x = 5; main { int r; x = 7; r = cas(x, 5, 3); assert(r == 7); assert(x == 7); }", 1),
    ("int x; int a[2]; main { int r; x = 1; r = swap(a[x], 3); assert(r == 0); assert(a[1] == 3); }", 3),
    ("int x; int a[2]; main { int r; x = 1; r = add(a[1], x); assert(r == 0); assert(a[1] == 1); }", 3),
    ("int x; int a[2]; main { int r; a[1] = 4; r = cas(a[1], 4, 9); assert(r == 4); assert(a[1] == 9); }", 3),
    ("int x; int a[2]; main { int r; a[1] = 4; r = cas(a[1], 3, 9); assert(r == 4); assert(a[1] == 4); }", 3),
    ("int x; int a[2]; main { int r; a[0] = 4; r = add(a[1], 2); assert(r == 0); assert(a[0] + a[1] == 6); }", 3),
]
# Programs of one thread that come to an end, the last assertion being that of the whole.
SUMS = [
    "int x = 2147483647; main { int r; r = add(x, 2147483647); assert(r == 2147483647 && x == -2); }",
    "int x = -2147483647; main { int r; r = add(x, -2); assert(r == -2147483647 && x == 2147483647); }",
    "int x = -1; main { int r; r = add(x, 1); assert(r == -1 && x == 0); }",
    "int x = 7; main { int r; r = add(x, 0); assert(r == 7 && x == 7); }",
    "int x = 7; main { int r; r = 2; r = add(x, -r); assert(r == 7 && x == 5); }",
    "int a[3]; main { int r; a[2] = -2147483647; r = add(a[2], -3); assert(r == -2147483647 && a[2] == 2147483646); }",
    "int a[3]; main { int r; a[2] = 2147483647; r = add(a[2], 1); assert(r == 2147483647 && a[2] == -2147483647 - 1); }",
    "int x = 3; int a[2]; int b[2]; main { int r; r = swap(b[1], 5); r = add(b[1], x); assert(r == 5 && b[1] == 8 && a[1] == 0 && b[0] == 0); }",
    "int a[3]; main { int r; r = 2; r = swap(a[r], r); r = cas(a[2], 2, 1); r = cas(a[r], r, 7); assert(r == 1 && a[2] == 1); }",
    "int a[2]; main { int r; r = add(a[0], 1); r = add(a[r], 1); r = swap(a[a[1]], 9); assert(r == 2 && a[0] == 9); }",
]
OUTSIDE = [
    "int x; int a[2]; main { int r; r = {word}(a[2], {operands}); }",
    "int x; int a[2]; main { int r; r = {word}(a[-1], {operands}); }",
    "int x; int a[2]; int b[2]; main { int r; r = 3; r = {word}(a[r - 1], {operands}); }",
    "int x; int a[2]; main { int r; r = {word}(a[1], {operands}); }",
]
LATE = [
    # the index is tested before the operands are evaluated, and these before the element is taken
    "int x; int a[2]; main { int r; r = {word}(a[2], {x}); }",
    "int x; int a[2]; main { int r; r = {word}(a[1], {division}); }",
]


def prefix(model, count):
    return ",".join([model, *["r 0"] * count])


def rest(model, words, text):
    """The moves, and then run moves to the end."""
    code = machine.Code(text)
    while "r 0" in moves_answer(model, words, text).split("; ")[0]:
        words += ",r 0"
    if not moves_answer(model, words, text).startswith(f"0 at 0.{len(code.functions[0].instrs)} "):
        raise SystemExit(f"an assertion of {text} fails")
    return words


def moves_rows():
    for text, stores in MOVES:
        for model in machine.MODELS:
            cell = 2 if "a[1] = " in text else 1 if "a[0] = " in text else 0
            drain = {"sc": "", "tso": ",d 0", "pso": f",d 0 {cell}"}[model]
            before = prefix(model, stores)
            for words in dict.fromkeys([before, f"{before},r 0", f"{before}{drain}", rest(model, f"{before}{drain}", text)]):
                yield model, words, text
    for text in SUMS:
        yield "sc", rest("sc", "sc,r 0", text), text
    for word, operands in WORDS.items():
        for text in OUTSIDE:
            made = text.replace("{word}", word).replace("{operands}", operands)
            for count in (1, 2):
                yield "pso", prefix("pso", count), made
        for text in LATE:
            x, division = operands.replace("1", "x").replace("5", "x"), operands.replace("1", "1 / x").replace("5", "5 / x")
            for count in (1, 2, 3):
                yield "tso", prefix("tso", count), text.replace("{word}", word).replace("{x}", x).replace("{division}", division)


def moves_lines():
    return list(dict.fromkeys(f"moves {model} {words} : {text} => {moves_answer(model, words, text)}" for model, words, text in moves_rows()))


def compared():
    """Whether the rows of `moves` that are there come out so."""
    count = wrong = 0
    for line in (TOP / "crates/test_parts/stdin").read_text().split("\n"):
        it = re.fullmatch(r"moves (\w+) (\S.*?) : (.*) => (.*)", line)
        if it:
            count += 1
            came = moves_answer(it[1], it[2], it[3])
            if came != it[4]:
                wrong += 1
                print(line, came, sep="\n")
    print(f"{count} rows of moves, {wrong} differ")
    return wrong



# Logs of programs without branches.

HEAD = "int x; int i; int a[2]; int b[2]; int r; int s; "
TWO = "main { tid h; tid k; h = create p(); k = create q(); join(h); join(k); "
ONE = "main { tid h; h = create p(); "
# What the log of each program would be, and the program, which fails at its last assertion.
LOGS = {
    "stores drain before a cas of an element that fails":
        "thread p() { int t; a[0] = 1; t = cas(b[0], 1, 2); r = a[1]; } thread q() { int t; a[1] = 1; t = cas(b[1], 1, 2); s = a[0]; } "
        + TWO + "assert(r + s > 0); }",
    "a swap of an element between stores of others":
        "thread p() { int t; a[0] = 1; t = swap(b[0], 1); a[1] = 1; } thread q() { int f; f = a[1]; r = a[0] < f; } " + TWO + "assert(r == 0); }",
    "an add of an element between stores of others":
        "thread p() { int t; a[0] = 1; t = add(b[0], 0); a[1] = 1; } thread q() { int f; f = a[1]; r = a[0] < f; } " + TWO + "assert(r == 0); }",
    "two swaps of one element both read the start":
        "thread p() { int t; t = swap(a[1], 1); r = t; } thread q() { int t; t = swap(a[i + 1], 2); s = t; } " + TWO + "assert(r + s > 0); }",
    "two adds of one element both read the same":
        "thread p() { int t; t = add(a[1], 1); r = t; } thread q() { int t; t = add(a[i + 1], 1); s = t; } " + TWO + "assert(r != s); }",
    "two adds of two elements both read the same":
        "thread p() { int t; t = add(a[1], 1); r = t; } thread q() { int t; t = add(a[i], 1); s = t; } " + TWO + "assert(r != s); }",
    "two adds of one element, and one is lost":
        "thread p() { int t; t = add(a[i], 1); } thread q() { int t; t = add(a[0], 1); } " + TWO + "assert(a[0] == 2); }",
    "a store between the read and the write of an add of an element":
        "thread p() { int t; t = add(a[i], 1); r = t; } " + ONE + "a[0] = 1; join(h); assert(r != 0 | a[0] != 2); }",
    "an add of an element between a load and a store":
        "thread p() { int t; t = add(a[i], 2); } " + ONE + "a[0] = a[0] + 1; join(h); assert(a[0] == 3); }",
    "a cas of an element that another chooses, and both hold":
        "thread p() { int t; t = cas(a[i], 0, 1); r = t; } thread q() { int t; t = cas(a[1], 0, 1); s = t; } "
        "main { tid h; tid k; h = create p(); k = create q(); i = 1; join(h); join(k); assert(r | s); }",
    "a cas of an element that holds gives the old value":
        "thread p() { int t; t = cas(a[i], 0, 3); r = t; } " + ONE + "join(h); assert(r != 3); }",
    "a cas of an element that fails writes what it read":
        "thread p() { int t; t = cas(a[i], 1, 2); r = t; } " + ONE + "a[0] = 3; join(h); assert(a[0] == 3); }",
    "an exchange of an element reads its own write":
        "thread p() { int t; t = swap(a[i], 5); r = t; } " + ONE + "join(h); assert(r != 5); }",
    "an exchange of an element takes the own store before it":
        "thread p() { int t; a[0] = 7; t = add(a[i], 1); r = t; } " + ONE + "join(h); assert(r != 7); }",
    "a sum of an element wraps":
        "thread p() { int t; a[1] = 2147483647; t = add(a[1], 1); } " + ONE + "join(h); assert(a[1] >= 0); }",
    "a sum below the least int wraps":
        "thread p() { int t; a[1] = -2147483647; t = add(a[1], -2); } " + ONE + "join(h); assert(a[1] <= 0); }",
    "an add of 0 changes nothing":
        "thread p() { int t; x = 4; t = add(x, 0); r = t; } " + ONE + "join(h); assert(r == 4 & x == 4); }",
}
# An exchange of an element whose index is what main stores: the thread fails at the index.
INDEXES = {"an index outside that another thread stores": 2, "an index below 0 that another thread stores": -1,
           "an index inside that another thread stores": 1}


def log_to_last_assertion(code, model):
    """All threads go to their ends, and main to its last assertion."""
    threads, main = {}, code.functions[-1]
    for number in range(len(code.functions) - 1):
        threads[(number + 1,)] = (len(code.functions[number].instrs), ())
    threads[()] = (max(k for k, it in enumerate(main.instrs) if it[0] == "assert") + 1, ())
    return machine.Log(model, (), threads)


def verdicts(log_of, text):
    code = machine.Code(text)
    for model in machine.MODELS:
        log = log_of(code, model)
        found = machine.search(code, log, model)[0]
        yield f"verdict {model} : {log.written(text).hex()} : {text} => {'impossible' if found is None else 'possible'}"


def orders_groups():
    for name, program in LOGS.items():
        yield f"log: {name}", list(verdicts(log_to_last_assertion, HEAD + program))
    for name, index in INDEXES.items():
        for word, operands in WORDS.items():
            text = HEAD + f"thread p() {{ int t; t = {word}(a[i], {operands}); }} " + ONE + f"i = {index}; join(h); }}"
            log = lambda code, model: machine.Log(model, (1,), {(): (2, ()), (1,): (2, ())})
            yield f"log: {name}, {word}", list(verdicts(log, text))
    yield ("worlds of exchanges of an element: one reads its own write; one passes an own store; one that fails does; the first of two "
           "takes the lock"), [world(*it) for it in WORLDS]
    yield ("worlds of adds: one takes what is there, and not what it writes; a later load takes the sum, which wraps; an element",
           [world(model, order, loads, {(): (steps, ())}, (), text, answer)
            for text, steps, order, loads, answer in ADDS for model in machine.MODELS])


    yield "fewest switches of exchanges", list(fewest())


def fewest():
    """The fewest switches of the failures and of what isn't one, in SOLVED."""
    for text in [it for both in SOLVED.values() for it in both]:
        code = machine.Code(text)
        for model in machine.MODELS:
            log = log_to_last_assertion(code, model)
            count, moves = machine.fewest(code, log, model)
            said = f"{len(moves)} moves, {count} switches, fewer accepted" if moves else "impossible"
            yield f"fewest {model} : {log.written(text).hex()} : {text} => {said}"


def world(model, order, loads, threads, failing, text, answer):
    log = machine.Log("sc", failing, threads).written(text)
    return f"world {model} : {order} : {loads} :  : {log.hex()} : {text} => {answer}"


# Worlds: a model, the order of the events, the values of the loads, the threads of the log of sc and which of them fails, and whether
# the formula is true there. The first ones are those of exchanges in test_orders, of an element in place of a cell.
SWAPS = "int x1; int x2; int a[1]; thread p() { int t; x1 = 1; t = swap(a[0], 1); x2 = 1; } thread q() { int t; int f; int d; f = x2; d = x1; " \
        "assert(d >= f); } main { tid a; tid b; a = create p(); b = create q(); }"
FAILED = "int x; int y; int r; int s; int a[1]; thread p() { int t; x = 1; t = cas(a[0], 1, 2); r = y; } thread q() { int t; y = 1; " \
         "t = cas(a[0], 1, 2); s = x; } main { tid a; tid b; a = create p(); b = create q(); join(a); join(b); assert(r + s > 0); }"
LOCKED = "int a[1]; int x; thread p() { int t; t = cas(a[0], 0, 1); if (t == 0) { x = x + 1; } } main { tid a; tid b; a = create p(); " \
         "b = create p(); join(a); join(b); assert(x != 1); }"
THREADS = {(): (8, ()), (1,): (7, (1,)), (2,): (5, (0,))}
WORLDS = [
    ("pso", "0@1 0@3", "1", {(): (4, ())}, (), "int a[1]; main { int t; t = swap(a[0], 1); assert(t == 0); }", "unlawful"),
    ("pso", "0@0 0@1 0.1@2 0.1@4 0.2@0 0.2@2 0.2@4 0.1@0", "0 1 0", {(): (2, ()), (1,): (5, ()), (2,): (5, ())}, (2,), SWAPS, "unlawful"),
    ("tso", "0@0 0@1 0.1@2 0.2@2 0.1@4 0.2@4 0.1@0 0.2@0 0.1@5 0.2@5 0.1@6 0.2@6 0@3 0@5 0@6 0@7 0@8", "0 0 0 0 0 0",
     {(): (9, ()), (1,): (7, ()), (2,): (7, ())}, (), FAILED, "unlawful"),
    ("sc", "0@0 0@1 0.1@1 0.2@1 0.1@4 0.1@5 0.1@6 0.2@4 0@3 0@5 0@6 0@7", "1 0 0 1", THREADS, (), LOCKED, "lawful"),
    ("pso", "0@0 0@1 0.1@1 0.2@1 0.1@4 0.1@5 0.1@6 0.2@4 0@3 0@5 0@6 0@7", "1 0 0 1", THREADS, (), LOCKED, "lawful"),
    ("sc", "0@0 0@1 0.2@1 0.1@1 0.1@4 0.1@5 0.1@6 0.2@4 0@3 0@5 0@6 0@7", "1 0 0 1", THREADS, (), LOCKED, "unlawful"),
]
ADDS = [
    ("int x; main { int t; t = add(x, 1); assert(t); }", 3, "0@0 0@2", "0", "lawful"),
    ("int x; main { int t; t = add(x, 1); assert(!t); }", 3, "0@0 0@2", "1", "unlawful"),
    ("int x = 2147483647; main { int t; t = add(x, 1); t = x; assert(t == 5); }", 5, "0@0 0@2 0@4", "2147483647 -2147483648", "lawful"),
    ("int x = 2147483647; main { int t; t = add(x, 1); t = x; assert(t == 5); }", 5, "0@0 0@2 0@4", "2147483647 2147483647", "unlawful"),
    ("int x; int a[2]; main { int t; t = add(a[1], 3); t = a[1]; assert(t == 5); }", 7, "0@1 0@4 0@6", "0 3", "lawful"),
    ("int x; int a[2]; main { int t; t = add(a[1], 3); t = a[0]; assert(t == 5); }", 7, "0@1 0@4 0@6", "0 3", "unlawful"),
]


# Runs that are shown.

SHOWN = "int x = 5;\nint a[3];\nmain {\n    int t;\n    a[0] = 7;\n    t = add(x, 3);\n    t = swap(a[1], t);\n    t = cas(a[t + 1], 5, 6);\n" \
        "    t = cas(a[1], 5, -7);\n    t = add(a[x - 7], 2147483647);\n    t = add(a[0], -8);\n    assert(t == a[1]);\n}\n"
SHOWN_OUTSIDE = "int x = 3;\nint a[3];\nmain {{\n    int t;\n    t = {word}(a[x], {operands});\n}}\n"


def quoted(text):
    return "".join("\\n" if it == "\n" else it if 32 <= ord(it) < 127 and it not in '"\\\'' else f"\\x{ord(it):02x}" for it in text)


def show_row(name, text, schedule, by_moves):
    code = show.Code(text)
    shown = show.schedule_text(code, "p", schedule, by_moves)
    words = "words clap_debug_show p s --moves\n" if by_moves else ""
    return f"row {name}\n{words}file p {quoted(text)}\nfile s {quoted(schedule)}\nwant 0 \"{quoted(shown)}\"\nstays p s"


def show_rows():
    for model in machine.MODELS:
        moves = eager(SHOWN, model)
        for by_moves in (False, True):
            yield show_row(f"{'each move of ' * by_moves}adds and exchanges of elements under {model}", SHOWN,
                           machine.schedule(model, moves), by_moves)
    yield show_row("an exchange that waits for a store", SHOWN, machine.schedule("tso", [("r", ())] * 3), False)
    for word, operands in WORDS.items():
        text = SHOWN_OUTSIDE.format(word=word, operands=operands)
        yield show_row(f"{word} outside an array", text, machine.schedule("sc", [("r", ())] * 2), False)


def eager(text, model):
    """The moves of a program of one thread, each store drained at once."""
    state, made = machine.State(machine.Code(text), model), []
    while state.moves():
        moves = state.moves()
        made.append(next((it for it in moves if it[0] == "d"), moves[0]))
        state.make(made[-1])
    return made


# Calls of the product.

LIST = "int x;\nint a[2];\nint b[3];\nmain {\n    int r;\n    r = add(x,\n        1);\n    r = swap(b[a[1]], x && r);\n    r = cas(b[2 - r], r / 2, -r);\n" \
       "    if (r) { r = add(b[r], b[r] << 1); }\n}\n"
MAIN = "main { tid h; int t; h = create f(); "
# A failure that some run has under each model, and one that none has.
SOLVED = {
    "add": ("int x; thread f() { int t; t = add(x, 2); } " + MAIN + "x = x + 1; join(h); assert(x == 3); }",
            "int x; thread f() { int t; t = add(x, 1); } " + MAIN + "t = add(x, 1); join(h); assert(x == 2); }"),
    "swap of an element": ("int a[2]; thread f() { int t; t = a[1]; t = swap(a[1], t + 1); } "
                           + MAIN + "t = a[1]; t = swap(a[1], t + 1); join(h); assert(a[1] == 2); }",
                           "int a[2]; int r; thread f() { int t; t = swap(a[1], 1); r = t; } "
                           + MAIN + "t = swap(a[1], 2); join(h); assert(r + t); }"),
    "cas of an element": ("int a[2]; int r; thread f() { int t; t = cas(a[1], 0, 1); r = t; } "
                          + MAIN + "t = cas(a[1], 0, 2); join(h); assert(r == 0); }",
                          "int a[2]; int r; thread f() { int t; t = cas(a[1], 0, 1); r = t; } "
                          + MAIN + "t = cas(a[1], 0, 2); join(h); assert(r | t); }"),
    "add of an element": ("int a[2]; thread f() { int t; t = add(a[1], 2); } " + MAIN + "a[1] = a[1] + 1; join(h); assert(a[1] == 3); }",
                          "int a[2]; thread f() { int t; t = add(a[1], 1); } " + MAIN + "t = add(a[1], 1); join(h); assert(a[1] == 2); }"),
}


def listing(text):
    """What `list` prints of a program."""
    code, lines = machine.Code(text), []

    def spelled(e):
        if isinstance(e, int):
            return str(e)
        if e[0] == "slot":
            return f"${e[1]}"
        return f"({e[0]}{spelled(e[1])})" if len(e) == 2 else f"({spelled(e[1])} {e[0]} {spelled(e[2])})"

    for function in code.functions:
        lines.append(f"{function.name} {function.params} {function.ints} {function.tids}")
        for number, ((word, *args), line) in enumerate(zip(function.instrs, function.lines)):
            slot = word in ("set", "load", "loadat") or word in machine.EXCHANGES
            given = [f"${it}" if slot and not k else spelled(it) for k, it in enumerate(args)]
            lines.append(" ".join([str(number), str(line), word, *given]))
    return "\n".join(lines) + "\n"


def product_rows():
    yield f"row list exchanges on several lines\nwords clap_debug list p\nfile p {quoted(LIST)}\nwant 0 \"{quoted(listing(LIST))}\""
    for name, (possible, impossible) in SOLVED.items():
        for text, is_possible in (possible, True), (impossible, False):
            code = machine.Code(text)
            log = log_to_last_assertion(code, "sc")
            lines = [f"row solve of {'a failure' if is_possible else 'no failure'} with {name}", f"file p {text}",
                     f"file l {finds.quoted(log.written(text))}"]
            for number, model in enumerate(machine.MODELS):
                assert (machine.search(code, log, model)[0] is not None) == is_possible, (name, model)
                lines.append(f"{'then' if number else 'words'} clap_debug solve p l o --model {model}")
                if is_possible:
                    lines += ['want 0 "schedule " number " moves\\n"', "then clap_debug replay p l o", 'want 0 "reproduces\\n"']
                else:
                    lines += ['want 1 "impossible, " number " lines\\n"', "then clap_debug check p l o", 'want 0 "accepted, impossible\\n"']
            yield "\n".join(lines)
        for model in machine.MODELS:
            code = machine.Code(possible)
            for seed in range(10000):
                end, state, made = machine.run(code, model, seed, 10000)
                if end == "failed":
                    break
            lines = [f"row record a failure with {name} under {model}", f"file p {possible}",
                     f"words clap_debug record p l --model {model} --seed {seed}", f'want 0 "{machine.end_of(code, end, state, made)}\\n"',
                     f'holds l "{finds.quoted(machine.log_of(model, state).written(possible))}"',
                     "then clap_debug solve p l o", 'want 0 "schedule " number " moves\\n"', "then clap_debug replay p l o",
                     'want 0 "reproduces\\n"']
            yield "\n".join(lines)


# The reasons of failures that no run has.

CHILDREN = "main { tid h; tid k;\nh = create p();\nk = create q();\n"
JOINED = "join(h);\njoin(k);\n"
# Each exchange is on a line of its own. Where main stores an index outside, a thread whose index isn't tested takes another element.
WHY = {
    "two adds, and one is lost":
        "int x;\nthread f() { int t;\nt = add(x, 1); }\nmain { tid h; int t;\nh = create f();\nt = add(x, 1);\njoin(h);\nassert(x == 2); }",
    "two adds of an element, and one is lost":
        "int i; int a[2];\nthread f() { int t;\nt = add(a[i], 1); }\nmain { tid h; tid k;\nh = create f();\nk = create f();\ni = 2;\n"
        + JOINED + "assert(a[0] == 2); }",
    "two swaps of an element both take the start":
        "int i; int a[2]; int r; int s;\nthread p() { int t;\nt = swap(a[i], 1);\nr = t; }\nthread q() { int t;\nt = swap(a[i], 2);\ns = t; }\n"
        + CHILDREN + "i = 3;\n" + JOINED + "assert(r + s); }",
    "two cas of an element both hold":
        "int i; int a[2]; int r; int s;\nthread p() { int t;\nt = cas(a[i], 0, 1);\nr = t; }\nthread q() { int t;\nt = cas(a[i], 0, 2);\ns = t; }\n"
        + CHILDREN + "i = -1;\n" + JOINED + "assert(r | s); }",
    "a store between what an add takes and what it leaves":
        "int x;\nthread f() { int t;\nt = add(x, 1); }\nmain { tid h;\nh = create f();\nx = 5;\njoin(h);\nassert(x >= 5); }",
    "a store between what an add of an element takes and what it leaves":
        "int i; int a[2];\nthread f() { int t;\nt = add(a[i], 1); }\nmain { tid h;\nh = create f();\na[1] = 5;\ni = 1;\njoin(h);\n"
        "assert(a[1] >= 5); }",
    "a sum of an element that wraps":
        "int a[2];\nthread f() { int t;\na[1] = 2147483647;\nt = add(a[1], 1); }\nmain { tid h;\nh = create f();\njoin(h);\nassert(a[1] < 0); }",
    "stores wait for an add of an element":
        "int x; int y; int a[1]; int r;\nthread p() { int t;\nx = 1;\nt = add(a[0], 0);\ny = 1; }\nthread q() { int f;\nf = y;\nr = x < f; }\n"
        + CHILDREN + JOINED + "assert(r == 0); }",
    "stores wait for a cas that fails":
        "int x; int y; int a[2]; int r; int s;\nthread p() { int t;\nx = 1;\nt = cas(a[0], 1, 2);\nr = y; }\nthread q() { int t;\ny = 1;\n"
        "t = cas(a[1], 1, 2);\ns = x; }\n" + CHILDREN + JOINED + "assert(r + s > 0); }",
}
# A thread fails at the index of an exchange, which another exchange gives it.
GIVEN = {
    "a number that an add gives is outside":
        "int n; int a[2];\nthread f() { int t;\nt = add(n, 1);\nt = swap(a[t], 1); }\nmain { tid h; int t;\nh = create f();\nt = add(n, 1); }",
    "an index that a swap of an element gives is outside":
        "int a[2];\nthread f() { int t;\nt = swap(a[0], 0);\nt = add(a[t], 1); }\nmain { tid h; int t;\nh = create f();\nt = swap(a[0], 1); }",
}


def log_to_index(code, model):
    """The child fails at its last index, before which it does all its steps, and main goes to its end."""
    child = code.functions[0].instrs
    return machine.Log(model, (1,), {(): (len(code.functions[-1].instrs), ()),
                                     (1,): (max(k for k, it in enumerate(child) if it[0] == "inside") + 1, ())})


def log_of_children(code, model):
    """As log_to_last_assertion, where children may run one function."""
    log = log_to_last_assertion(code, model)
    creates = [it for it in code.functions[-1].instrs if it[0] == "create"]
    log.threads = {(): log.threads[()]} | {(k + 1,): (len(code.functions[it[2]].instrs), ()) for k, it in enumerate(creates)}
    return log


def why_rows():
    """The lines that each refutation needs, under weaker models only those of children; the whole answer, where it is all groups."""
    for name, text, log_of in [(*it, log_of_children) for it in WHY.items()] + [(*it, log_to_index) for it in GIVEN.items()]:
        code = machine.Code(text)
        log = log_of(code, "sc")
        lines = [f"row why: {name}", f"file p {quoted(text)}", f"file l {finds.quoted(log.written(text))}"]
        for number, model in enumerate(machine.MODELS):
            assert machine.search(code, log, model)[0] is None, (name, model)
            needed, groups = reasons.needed(code, log, model)
            lines += [f"{'then' if number else 'words'} clap_debug solve p l o --model {model}", 'want 1 "impossible, " number " lines\\n"']
            whole = "".join(f"{it}\\n" for it in groups)
            some = [it for it in needed if not number or it.startswith("own 0.")] or [it for it in needed if it.startswith("read 0.")]
            for want in [f'"reasons {len(groups)}\\n{whole}"'] if needed == groups else [f'"reasons " with "{it}"' for it in some]:
                lines += ["then clap_debug why p l o", f"want 0 {want}"]
        yield "\n".join(lines)


# Searches without a run.

SEARCHED = [
    "thread f() { int r; r = add(x, 1); } main { tid t; t = create f(); assert(!x); }",
    "thread f() { int r; r = swap(a[1], 1); } main { tid t; t = create f(); assert(!a[1]); }",
    "thread f() { int r; r = cas(a[1], 0, 1); } main { tid t; t = create f(); assert(!a[1]); }",
    "thread f() { int r; r = cas(a[1], 1, 2); } main { tid t; t = create f(); assert(!a[1]); }",
    "thread f() { int r; r = add(a[1], 1); } main { tid t; t = create f(); assert(!a[1]); }",
    "thread f() { int r; r = add(a[x], 1); } main { tid t; t = create f(); x = 2; }",
    "thread f() { int r; r = add(a[x], 1); } main { tid t; t = create f(); x = 1; }",
    "thread f() { int r; r = add(x, 1); } main { tid t; int r; t = create f(); r = add(x, 1); join(t); assert(x == 2); }",
    "thread f() { int r; r = add(x, 2147483647); } main { tid t; int r; t = create f(); r = add(x, 2); join(t); assert(x < 0); }",
    "thread f() { int r; a[0] = 1; r = add(x, 1); } main { tid t; int r; t = create f(); r = x; if (r) { assert(a[0]); } }",
]
ARRAYS = "int x; int a[2]; mutex m; cond c; "


def searched():
    """Each search with what it comes to: the model, the number of outcomes, the text, the log or None, how many logs, and a bound."""
    for program in SEARCHED:
        text = ARRAYS + program
        code = machine.Code(text)
        for model in machine.MODELS:
            count, found = 0, None
            for log, failing in finds.tried(code, "failure", 3):
                if machine.search(code, finds.log_of(model, log, failing), model)[0] is not None:
                    found = log
                    break
                count += 1
            yield model, text, found, count, finds.is_cut(code, 3)


def failures_lines():
    for model, text, found, count, is_cut in searched():
        threads = " ".join(f"{machine.spelled(n)}:{steps}:{''.join(map(str, outcomes))}" for n, outcomes, steps in sorted(found or []))
        yield f"find {model} failure 3 : {text} => " + (f"possible {threads}" if found else f"never {'bounded' if is_cut else 'every'} {count}")


def checks_lines():
    for model, text, found, _, is_cut in searched():
        yield f"made {model} failure 3 : {text} => " + ("none" if found else f"holds {'cut' if is_cut else 'whole'}")


def groups(which):
    """The groups of a table of parts: names with their rows."""
    if which == "parts":
        yield "add as a name, wherever a program may have one", text_rows(NAMES.strip().split("\n"))
        yield "what is exchanged, and into what, of each kind of name", text_rows(kinds())
        yield "operands of exchanges", text_rows(operand_texts())
        yield "beginnings of exchanges", text_rows(cut_texts())
        yield ("Exchanges of a cell and of an element wait for the own stores, a cas that fails too; sums wrap; an index is tested first",
               moves_lines())
    elif which == "orders":
        yield from orders_groups()
    elif which == "checks":
        yield "made of programs that exchange", list(checks_lines())
    elif which == "failures":
        yield "failures of exchanges", list(failures_lines())


def main(words):
    if words == ["--moves"]:
        return 1 if compared() else 0
    if len(words) != 1:
        raise Refused("the words are --moves, or the name of a table")
    which = words[0]
    if which in ("show", "product", "why"):
        print(*{"show": show_rows, "product": product_rows, "why": why_rows}[which](), sep="\n")
        return 0
    for name, lines in groups(which):
        print(f"group {name}", *lines, "", sep="\n")
    return 0


if __name__ == "__main__":
    run_main("exchange_rows.py", main)
