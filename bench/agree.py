#!/usr/bin/env python3
"""Solves logs of random small programs under each model, and says where the answer isn't that of machine.py's search.

  agree.py FIRST COUNT [FOLDER]              of so many numbers from FIRST on; what differs is kept in FOLDER
  agree.py FIRST COUNT [FOLDER] --least      the fewest context switches too, where there is a schedule
  agree.py FIRST COUNT [FOLDER] --counts     of programs that count in critical sections

Of every other number the program is of plain loads and stores, and the log says that they came out in some way. Of the rest the
log is that of a run which failed or came to a deadlock, and half of the programs then get other constants. With `--counts`, each
program's threads change what a mutex guards, and the log is that of a failure or a deadlock, or says of a run that went well that
its last assertion failed. Each schedule is replayed, and each refutation checked.
"""
import os
import random
import re
import subprocess
import sys
import tempfile

sys.dont_write_bytecode = True
import machine
from kept_files import Refused, keep, run_main

TOP = os.path.dirname(os.path.dirname(os.path.abspath(__file__)))


def program(chance):
    """Two or three threads, each of a few statements, over three ints, an array, two mutexes and a condition."""
    pick = chance.choice
    number = lambda: str(chance.randrange(4))
    cell = lambda: pick("xyz")

    def operand(names):
        return pick([number(), cell(), pick(names), f"a[{pick([number(), cell()])} & 1]"])

    def expression(names):
        signs = ["+", "-", "*", "&", "|", "^", "<", "<=", "==", "!=", "&&", "||", "/", "%", "<<", ">>"]
        return operand(names) if chance.random() < 0.5 else f"{operand(names)} {pick(signs)} {operand(names)}"

    def statements(names, count, depth):
        found = []
        for _ in range(count):
            kind = chance.random()
            if kind < 0.35:
                found.append(f"{pick([cell(), pick(names), 'a[' + pick([number(), cell()]) + ' & 1]'])} = {expression(names)};")
            elif kind < 0.45:
                found.append(f"assert({expression(names)} {pick(['!=', '<', '>='])} {number()});")
            elif kind < 0.55:
                m, inside = pick("mn"), statements(names, chance.randrange(1, 3), depth + 1)
                found += [f"lock({m});", *inside, f"unlock({m});"] if chance.random() < 0.9 else [f"lock({m});", *inside]
            elif kind < 0.62:
                found += ["lock(m);", "wait(c, m);", "unlock(m);"]
            elif kind < 0.7:
                found.append(pick(["signal(c);", "broadcast(c);"]))
            elif kind < 0.76:
                found.append(pick(["fence();", "stbar();"]))
            elif kind < 0.82:
                exchange = pick(["swap({}, {})", "cas({}, {}, " + number() + ")", "add({}, {})"])
                target = cell() if chance.random() < 0.7 else f"a[{pick([number(), cell()])} & 1]"
                found.append(f"q = {exchange.format(target, number())};")
            elif depth < 2:
                found += [f"if ({expression(names)}) {{", *statements(names, chance.randrange(1, 3), depth + 1), "}"]
        return found

    threads = chance.randrange(1, 4)
    lines = ["int x;", f"int y = {number()};", "int z;", "int a[2];", "mutex m;", "mutex n;", "cond c;"]
    for k in range(threads):
        lines += [f"thread f{k}(int p) {{ int q;", *statements("pq", chance.randrange(1, 5), 0), "}"]
    lines += ["main { int p; int q;", *[f"tid t{k};" for k in range(threads)]]
    for k in range(threads):
        lines += [f"t{k} = create f{k}({number()});", *(statements("pq", 1, 0) if chance.random() < 0.3 else [])]
    lines += [f"join(t{k});" for k in range(threads) if chance.random() < 0.7]
    return "\n".join(lines + statements("pq", chance.randrange(1, 3), 0) + [f"assert({expression('pq')} != {number()});", "}"]) + "\n"


def litmus(chance):
    """Two or three threads that store to shared ints and keep what they load; main asserts that all of that isn't one outcome."""
    lines, kept, bodies = ["int x;", "int y;", "int z;"], 0, []
    cells = chance.choice(["xy", "xy", "xyz"])
    for k in range(chance.choice([2, 2, 3])):
        body = []
        for _ in range(chance.randrange(2, 5)):
            kind = chance.random()
            if kind < 0.45:
                body.append(f"{chance.choice(cells)} = {chance.randrange(1, 4)};")
            elif kind < 0.92 and kept < 5:
                body.append(f"r[{kept}] = {chance.choice(cells)};")
                kept += 1
            else:
                body.append(chance.choice(["stbar();", "fence();", f"q = swap({chance.choice(cells)}, {chance.randrange(1, 4)});"]))
        bodies.append(body)
    kept += not kept
    lines += [f"int r[{kept}];"] + [f"thread f{k}() {{ int q; {' '.join(it)} }}" for k, it in enumerate(bodies)]
    lines += ["main {", *[f"tid t{k};" for k in range(len(bodies))], *[f"t{k} = create f{k}();" for k in range(len(bodies))],
              *[f"join(t{k});" for k in range(len(bodies))]]
    text = "\n".join(lines)
    state = late(machine.Code(f"{text}\n}}"), chance)
    values = state.memory[3:] if chance.random() < 0.7 else [chance.choice([0, 0, 1, 2, 3]) for _ in range(kept)]
    sums = " + ".join(f"r[{k}] * {4 ** k}" for k in range(kept))
    return f"{text}\nassert({sums} != {sum(value * 4 ** k for k, value in enumerate(values))});\n}}\n"


SECTIONS = [
    "lock(m); x = x + {k}; unlock(m);",
    "lock(m); x = x + {k}; y = y + x; unlock(m);",
    "lock(m); q = x; y = q - {k}; unlock(m);",
    "lock(m); q = x; unlock(m); lock(m); x = q + 1; unlock(m);",
    "lock(m); a[x & 1] = a[x & 1] + {k}; x = x + 1; unlock(m);",
    "lock(m); a[{b}] = a[{b}] + 1; b[{k}] = x; unlock(m);",
    "lock(m); while (x < {k}) {{ wait(c, m); }} x = x - {k}; unlock(m);",
    "lock(m); x = x + 1; wait(c, m); y = y + x; unlock(m);",
    "lock(m); x = x + {k}; broadcast(c); unlock(m);",
    "lock(m); x = x + 1; unlock(m); signal(c);",
    "lock(m); if (x < {k}) {{ x = x + 2; }} else {{ y = y + 1; }} unlock(m);",
    "lock(m); q = cas(x, {k}, {k} + 1); y = y + q; unlock(m);",
    "lock(m); q = add(x, {k}); unlock(m);",
    "lock(n); z = z + 1; lock(m); x = x + z; unlock(m); unlock(n);",
    "lock(n); z = z + {k}; unlock(n);",
    "q = z; lock(m); x = x + q; unlock(m);",
    "q = x; lock(m); y = q; unlock(m);",
]
# what happens outside of every section, or doesn't end
OUTSIDE = ["y = {k};", "x = x + 1;", "lock(m); x = x + {k};", "a[{b}] = {k};", "z = z | 1;"]


def sections(chance):
    """Two or three threads, each of one to three critical sections over what two mutexes guard; main then claims a sum."""
    lines = ["int x;", "int y;", "int z;", "int a[2];", "int b[9];", "mutex m;", "mutex n;", "cond c;"]
    bodies = []
    for _ in range(chance.choice([2, 2, 3])):
        body = [chance.choice(SECTIONS) for _ in range(chance.choice([1, 1, 2, 2, 3]))]
        if chance.random() < 0.15:
            body.insert(chance.randrange(len(body) + 1), chance.choice(OUTSIDE))
        bodies.append(" ".join(it.format(k=chance.randrange(1, 4), b=chance.randrange(2)) for it in body))
    if chance.random() < 0.5:
        bodies[1] = bodies[0]
    lines += [f"thread f{k}() {{ int q; {body} }}" for k, body in enumerate(bodies)]
    lines += ["main { int q;", *[f"tid t{k};" for k in range(len(bodies))], *[f"t{k} = create f{k}();" for k in range(len(bodies))]]
    lines += [f"join(t{k});" for k in range(len(bodies)) if chance.random() < 0.9]
    if chance.random() < 0.3:
        lines.append("lock(m); q = x; unlock(m);")
    return "\n".join(lines + [f"assert({chance.choice(['x', 'x + y', 'y', 'x + a[0]', 'a[0] + a[1]', 'z + x'])} != {chance.randrange(8)});", "}"]) + "\n"


def counted(chance):
    """Such a program, and a log of it; the log may be of no run."""
    text = sections(chance)
    if chance.random() < 0.4:
        return text, failed(text, chance)
    model = chance.choice(machine.MODELS)
    end, state, _ = machine.run(machine.Code(text), model, chance.randrange(1 << 30), 4000)
    log = machine.log_of(model, state)
    if end == "deadlock":
        return text, log
    if end != "finished":
        return text, None
    log.threads[()] = (log.threads[()][0] - 1, log.threads[()][1])
    return text, machine.Log(model, (), log.threads)


def late(code, chance):
    """The end of a run in which stores mostly reach memory late."""
    state = machine.State(code, chance.choice(["tso", "pso"]))
    while moves := state.moves():
        state.make(chance.choice([it for it in moves if it[0] != "d"] * 9 + moves))
    return state


def claimed(text):
    """The log that says that main's last assertion failed, of a program without branches."""
    end, state, _ = machine.run(machine.Code(text), "pso", 0, 10000)
    log = machine.log_of("pso", state)
    if end == "finished":
        log.threads[()] = (log.threads[()][0] - 1, ())
    return machine.Log("pso", (), log.threads)


def failed(text, chance):
    code = machine.Code(text)
    for _ in range(40):
        model = chance.choice(machine.MODELS)
        end, state, _ = machine.run(code, model, chance.randrange(1 << 30), 400)
        if end in ("failed", "deadlock"):
            return machine.log_of(model, state)
    return None


def other_numbers(text, chance):
    """Other constants, but in masks and declarations of lengths, so that the log still fits."""
    return re.sub(r"(?<!& )(?<!\[)\b[0-3]\b", lambda it: str(chance.randrange(4)) if chance.random() < 0.4 else it[0], text)


def said(*words):
    it = subprocess.run([f"{TOP}/out/clap_debug", *words], capture_output=True, text=True, timeout=300)
    return it.returncode, it.stdout.strip()


def differs(folder, text, log, model):
    """The fault of the answer under a model, or None; and the answer."""
    p, l, o = (f"{folder}/{it}" for it in "plo")
    with open(p, "w") as file:
        file.write(text)
    with open(l, "wb") as file:
        file.write(log.written(text))
    moves, states = machine.search(machine.Code(text), log, model)
    status, answer = said("solve", p, l, o, "--model", model)
    if status != (0 if moves is not None else 1):
        return f"{answer!r}, but the search says {'possible' if moves is not None else 'impossible'}", status
    if status == 0:
        again = said("replay", p, l, o)
        return (None if again == (0, "reproduces") else f"{answer!r}, but its replay {again}"), status
    again = said("check", p, l, o)
    return (None if again == (0, "accepted, impossible") else f"{answer!r}, but its check {again}"), status


def differs_in_switches(folder, text, log, model):
    """The fault of the fewest context switches of a possible log, or None."""
    p, l, o, r = (f"{folder}/{it}" for it in "plor")
    count, _ = machine.fewest(machine.Code(text), log, model)
    status, answer = said("solve", p, l, o, "--model", model, "--least", r)
    if status or not answer.endswith(f" moves, {count} switches"):
        return f"{answer!r}, but the search says {count} switches"
    again = [said("replay", p, l, o), said("check", p, l, r)] if count else [said("replay", p, l, o)]
    wanted = [(0, "reproduces"), (0, f"accepted, more than {count - 1} switches")]
    return None if again == wanted[:len(again)] else f"{answer!r}, but {again}"


def main(words):
    has_switches, counts = "--least" in words, "--counts" in words
    plain = [it for it in words if not it.startswith("--")]
    if len(plain) not in (2, 3) or not all(it.isdecimal() for it in plain[:2]):
        raise Refused("the words are FIRST COUNT [FOLDER] [--least] [--counts]")
    first, count, *kept = plain
    tried = {0: 0, 1: 0}
    wrong = 0
    with tempfile.TemporaryDirectory() as folder:
        for number in range(int(first), int(first) + int(count)):
            chance = random.Random(number)
            if counts:
                text, log = counted(chance)
            elif number % 2:
                text = litmus(chance)
                log = claimed(text)
            else:
                text = program(chance)
                log = failed(text, chance)
                text = other_numbers(text, chance) if chance.random() < 0.5 else text
            if log is None:
                continue
            for model in machine.MODELS:
                found, status = differs(folder, text, log, model)
                tried[status] = tried.get(status, 0) + 1
                if has_switches and status == 0 and not found:
                    found = differs_in_switches(folder, text, log, model)
                if found:
                    wrong += 1
                    print(f"{number} {model}: {found}", flush=True)
                    for it in kept:
                        os.makedirs(it, exist_ok=True)
                        keep(f"{it}/{number}.tc", text)
                        keep(f"{it}/{number}.log", log.written(text))
    print(f"{sum(tried.values())} answers, {tried[0]} schedules, {tried[1]} refutations, {wrong} differ")
    return 1 if wrong else 0


if __name__ == "__main__":
    run_main("agree.py", main)
