#!/usr/bin/env python3
"""Programs that change in critical sections what a mutex guards, with logs of runs, and logs that no run has.

  sections.py rows                 their groups of crates/test_orders/stdin; the lines of its stdout go to standard error
  sections.py logs FOLDER          each log as NAME.tc and NAME.log

Each program has a number K. With the first number given, some runs fail or come to a deadlock. The longest of those that 300 seeds
choose gives the paths; the program with each other number is claimed to take the same paths. A search over all states by machine.py
says which of these logs some run has.
"""
import os
import sys

sys.dont_write_bytecode = True
import machine
from kept_files import Refused, keep, run_main


def children(f, end, g=None, begin="", joins="join(t); join(u);"):
    """Main creates two children with these bodies, or one body, and goes on to its end."""
    bodies = f"thread f() {{ int q; {f} }}" + (f" thread g() {{ int q; {g} }}" if g else "")
    main = f"{begin} t = create f(); u = create {'g' if g else 'f'}(); {joins} {end}"
    return " ".join(f"{bodies} main {{ tid t; tid u; int q; {main} }}".split())


def twice(body):
    return f"int i; while (i < 2) {{ lock(m); {body} unlock(m); i = i + 1; }}"


ONE_MORE = "lock(m); x = x + 1; unlock(m);"
# By group: declarations, threads, and the numbers.
GROUPS = {
    "a sum": ["int x; mutex m;", children(twice("x = x + 1;"), "assert(x != K);"), [4, 3]],
    "a table whose index is counted": [
        "int x; int a[2]; mutex m;", children(twice("a[x & 1] = a[x & 1] + 1; x = x + 1;"), "assert(a[0] != K);"), [2, 1]],
    "a queue, with wait and signal": [
        "int x; mutex m; cond c;", children("lock(m); while (x == 0) { wait(c, m); } x = x - 1; unlock(m);", "assert(x != K);",
                                            "lock(m); x = x + 2; signal(c); unlock(m);"), [1, 2]],
    "a sleep in the middle": [
        "int x; mutex m; cond c;", children("lock(m); x = x + 1; wait(c, m); x = x + x; unlock(m);", "assert(x != K);",
                                            "lock(m); x = x + 4; signal(c); unlock(m);"), [10, 6]],
    "one that is open at the failure": ["int x; mutex m;", children(ONE_MORE, "lock(m); x = x + 4; assert(x != K);"), [6, 5]],
    "two shapes": ["int x = 3; mutex m;", children(ONE_MORE, "assert(x != K);", "lock(m); x = x + x; unlock(m);"), [8, 9]],
    "values from outside": [
        "int x; int z; mutex m;", children("q = z; lock(m); x = x + q; unlock(m);", "assert(x != K);", begin="z = 3;"), [6, 3]],
    "a cell that is also written outside": ["int x; mutex m;", children(ONE_MORE, "assert(x != K);", ONE_MORE + " x = 7;"), [7, 3]],
    "two mutexes, one after another": [
        "int x; int y; mutex m; mutex n;", children(ONE_MORE + " lock(n); y = y + 2; unlock(n);", "assert(x + y != K);"), [6, 5]],
    "two mutexes, one inside another": [
        "int x; int z; mutex m; mutex n;",
        children("lock(n); z = z + 1; lock(m); x = x + z; unlock(m); unlock(n);", "assert(x != K);"), [3, 2]],
    "an array of 9": ["int a[9]; mutex m;", children("lock(m); a[8] = a[8] + 1; unlock(m);", "assert(a[8] != K);"), [2, 1]],
    "a test of the state": ["int x; mutex m;", children("lock(m); if (x < K) { x = x + 2; } unlock(m);", "assert(0);"), [3, 2]],
    "exchanges": [
        "int x; int y; mutex m;",
        children("lock(m); q = cas(x, 0, 3); q = add(x, 2); y = y + q; q = swap(x, 1); unlock(m);", "assert(y != K);"), [4, 5]],
    "a deadlock": ["int x; mutex m;", children("lock(m); x = x + 1; if (x == K) { lock(m); } unlock(m);", ""), [2, 3]],
    "a load, and no joins": ["int x; mutex m;", children(ONE_MORE, "q = x; assert(q != K);", joins=""), [1, 3]],
    "loads outside of the two stores of one": [
        "int x; int y; mutex m;", children("lock(m); x = x + 1; y = x; unlock(m);", "q = y; assert(q != x + K);", joins=""), [0, 1]],
}
# Logs on which `solve` learns clauses, so the part of their rows is `verdict`.
SEARCHED = {("values from outside", 3), ("an array of 9", 1), ("a load, and no joins", 3), ("loads outside of the two stores of one", 1)}


def paths(text):
    """The longest log of a run that fails or comes to a deadlock."""
    code, found = machine.Code(text), []
    for seed in range(300):
        model = machine.MODELS[seed % 3]
        end, state, _ = machine.run(code, model, seed, 4000)
        if end in ("failed", "deadlock"):
            found.append(machine.log_of(model, state))
    return max(found, key=lambda log: sum(steps for steps, _ in log.threads.values()))


def logs(declared, threads, numbers):
    """The program with each of the numbers, and its log."""
    texts = [f"{declared} {threads}".replace("K", str(number)) for number in numbers]
    log = paths(texts[0])
    return [(number, text, log) for number, text in zip(numbers, texts)]


def write_rows():
    counts = []
    for group, program in GROUPS.items():
        print(f"\ngroup critical sections: {group}")
        for number, text, log in logs(*program):
            part = "verdict" if (group, number) in SEARCHED else "solved"
            for model in machine.MODELS:
                moves, _ = machine.search(machine.Code(text), log, model)
                print(f"{part} {model} : {log.written(text).hex()} : {text} => {'impossible' if moves is None else 'possible'}")
        counts.append(f"critical sections: {group}: {len(program[2]) * len(machine.MODELS)} ok")
    print("\n".join(counts), file=sys.stderr)


def write_logs(folder):
    os.makedirs(folder, exist_ok=True)
    for group, program in GROUPS.items():
        for number, text, log in logs(*program):
            path = f"{folder}/{group.replace(',', '').replace(' ', '-')}.{number}"
            keep(f"{path}.tc", text)
            keep(f"{path}.log", log.written(text))


def main(words):
    if words == ["rows"]:
        write_rows()
    elif len(words) == 2 and words[0] == "logs":
        write_logs(words[1])
    else:
        raise Refused("the words are rows, or logs FOLDER")


if __name__ == "__main__":
    run_main("sections.py", main)
