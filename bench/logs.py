#!/usr/bin/env python3
"""Writes programs and logs of given sizes, to solve: locks, queues, barriers, tables, counters.

  logs.py FOLDER [EVENTS..]      of 50, 100, 150, 200 and 256 events, where no number is given

Of each family and size there are two programs, of as many rounds as fit. FAMILY.EVENTS.fails is wrong, and its log is that of
a run by `machine.py` that failed. FAMILY.EVENTS.holds is right, and its log says of a run that went well that its last
assertion failed, so that no moves reproduce it. A log's model is that under which the wrong program fails.
"""
import os
import sys

sys.dont_write_bytecode = True
import machine
from kept_files import Refused, keep, run_main

MAIN = """
main {{
{tids}
{creates}
{joins}
    assert({claim});
}}
"""


def main_of(threads, claim):
    """Creates these threads, joins them, and claims something."""
    lines = lambda write: "\n".join("    " + write(k, it) for k, it in enumerate(threads))
    return MAIN.format(tids=lines(lambda k, _: f"tid t{k};"), creates=lines(lambda k, it: f"t{k} = create {it};"),
                       joins=lines(lambda k, _: f"join(t{k});"), claim=claim)


def rounds(body, ints=""):
    return f"{{\n    int i;\n{ints}    while (i < N) {{\n{body}        i = i + 1;\n    }}\n}}\n"


def counters(is_right):
    """Two threads count without a lock; of what they add some may be lost, but never all but one."""
    return "int x;\nthread count() " + rounds("        x = x + 1;\n") + main_of(["count()"] * 2, "x >= 2" if is_right else "x == 2 * N")


def mutex(is_right):
    """Three threads count under a mutex, or one of them without."""
    body = "        lock(m);\n        x = x + 1;\n        unlock(m);\n"
    wrong = "" if is_right else "thread bare() " + rounds("        x = x + 1;\n")
    return "int x;\nmutex m;\nthread count() " + rounds(body) + wrong + main_of(
        ["count()", "count()", "count()" if is_right else "bare()"], "x == 3 * N")


def spin(is_right):
    """Two threads count under a spin lock, which is given back behind a barrier or without."""
    bar = "        stbar();\n" if is_right else ""
    body = ("        was = cas(taken, 0, 1);\n        while (was) {\n            was = cas(taken, 0, 1);\n        }\n"
            f"        x = x + 1;\n{bar}        taken = 0;\n")
    return "int taken;\nint x;\nthread count() " + rounds(body, "    int was;\n") + main_of(["count()"] * 2, "x == 2 * N")


def ticket(is_right, count=2):
    """Threads under a ticket lock."""
    bar = "        stbar();\n" if is_right else ""
    body = ("        mine = next;\n        was = cas(next, mine, mine + 1);\n        while (was != mine) {\n            mine = was;\n"
            "            was = cas(next, mine, mine + 1);\n        }\n        while (serving != mine) { }\n"
            f"        x = x + 1;\n{bar}        serving = mine + 1;\n")
    return "int next;\nint serving;\nint x;\nthread count() " + rounds(body, "    int mine;\n    int was;\n") + main_of(
        ["count()"] * count, f"x == {count} * N")


def three_tickets(is_right):
    return ticket(is_right, 3)


def ring(is_right):
    """A writer and a reader of a ring of four slots, with a barrier or without."""
    bar = "        stbar();\n" if is_right else ""
    write = f"        while (end - begin == 4) {{ }}\n        ring[end & 3] = i + 1;\n{bar}        end = end + 1;\n"
    read = "        while (begin == end) { }\n        sum = sum + ring[begin & 3];\n        begin = begin + 1;\n"
    return ("int ring[4];\nint begin;\nint end;\nint sum;\nthread writer() " + rounds(write) + "thread reader() " + rounds(read)
            + main_of(["writer()", "reader()"], "sum == N * (N + 1) / 2"))


def queue(is_right):
    """Two that put into a queue of one place and one that takes, with a mutex and conditions; who waits looks again, or not."""
    put = f"""        lock(m);
        {"while" if is_right else "if"} (items == 1) {{
            wait(free, m);
        }}
        items = items + 1;
        most = most | items;
        unlock(m);
        signal(filled);
"""
    take = """        lock(m);
        while (items == 0) {
            wait(filled, m);
        }
        items = items - 1;
        unlock(m);
        signal(free);
"""
    return ("int items;\nint most;\nmutex m;\ncond filled;\ncond free;\nthread put() " + rounds(put)
            + "thread take() " + rounds(take).replace("i < N", "i < 2 * N") + main_of(["put()", "put()", "take()"], "most == 1"))


def table(is_right):
    """Two threads count in cells of a table that another cell names, under a mutex or not."""
    body = "        at = next;\n        next = at + 1;\n        counts[at & 3] = counts[at & 3] + 1;\n"
    if is_right:
        body = "        lock(m);\n" + body + "        unlock(m);\n"
    return "int counts[4];\nint next;\nmutex m;\nthread count() " + rounds(body, "    int at;\n") + main_of(
        ["count()"] * 2, "counts[0] + counts[1] + counts[2] + counts[3] == 2 * N")


def barrier(is_right):
    """Two threads write, meet, and read what the other wrote; before they write again they meet once more, or not."""
    meet = """        lock(m);
        here = here + 1;
        if (here == 2) {
            here = 0;
            times = times + 1;
            broadcast(all);
        } else {
            now = times;
            while (times == now) {
                wait(all, m);
            }
        }
        unlock(m);
"""
    def side(mine, other):
        read = f"        if ({other} != i + 1) {{\n            odd = odd + 1;\n        }}\n"
        return rounds(f"        {mine} = i + 1;\n" + meet + read + (meet if is_right else ""), "    int now;\n")
    return ("int a;\nint b;\nint here;\nint times;\nint odd;\nmutex m;\ncond all;\nthread first() " + side("a", "b")
            + "thread second() " + side("b", "a") + main_of(["first()", "second()"], "odd == 0"))


def versions(is_right):
    """A writer of two cells and a reader that reads again where the version has changed, with barriers or without."""
    bar = "        stbar();\n" if is_right else ""
    write = f"        version = version + 1;\n{bar}        a = i;\n        b = i;\n{bar}        version = version + 1;\n"
    read = """        seen = version;
        while (seen & 1) {
            seen = version;
        }
        mine = a;
        other = b;
        if (version == seen) {
            if (mine != other) {
                torn = torn + 1;
            }
        }
"""
    return ("int version;\nint a;\nint b;\nint torn;\nthread write() " + rounds(write) + "thread read() "
            + rounds(read, "    int seen;\n    int mine;\n    int other;\n") + main_of(["write()", "read()"], "torn == 0"))


def turns(is_right):
    """Two threads count under Peterson's lock, with a fence before each looks at the other or without."""
    fence = "        fence();\n" if is_right else ""
    def side(mine, other, turn):
        return rounds(f"        {mine} = 1;\n        turn = {turn};\n{fence}        while ({other} && turn == {turn}) {{ }}\n"
                      f"        x = x + 1;\n        {mine} = 0;\n")
    return ("int a;\nint b;\nint turn;\nint x;\nthread first() " + side("a", "b", 1) + "thread second() " + side("b", "a", 0)
            + main_of(["first()", "second()"], "x == 2 * N"))


FAMILIES = {"counters": (counters, "sc"), "mutex": (mutex, "sc"), "spin": (spin, "pso"), "ticket": (ticket, "pso"),
            "three_tickets": (three_tickets, "pso"), "ring": (ring, "pso"), "queue": (queue, "sc"), "table": (table, "sc"),
            "barrier": (barrier, "sc"), "versions": (versions, "pso"), "turns": (turns, "tso")}
SEEDS = 3000


def events_of(code, log):
    return int(machine.shown(code, log).split("\n")[0].split()[-2])


def log_of(code, model, seed):
    """The log of the seed's run, and whether main's assertion failed in it: of a run that went well the log that says so."""
    end, state, _ = machine.run(code, model, seed, 20000)
    if end == "failed" and state.failed == ():
        return machine.log_of(model, state), True
    if end == "finished":
        log = machine.log_of(model, state)
        steps, outcomes = log.threads[()]
        log.threads[()] = (steps - 1, outcomes)
        return machine.Log(model, (), log.threads), False
    return None, None


def best(family, is_right, events):
    """A program of as many rounds as fit, its log of that many events, or up to a tenth less."""
    make, model = FAMILIES[family]
    of = lambda count: make(is_right).replace("N", str(count))
    fewest = lambda count: min(
        (events_of(code, log) for code in [machine.Code(of(count))] for seed in range(6) for log, _ in [log_of(code, model, seed)] if log),
        default=0)
    count = 1
    while fewest(count + 1) <= events:
        count += 1
    found = None
    for rounds in range(count, 0, -1):
        text = of(rounds)
        code = machine.Code(text)
        for seed in range(SEEDS):
            log, has_failed = log_of(code, model, seed)
            if log is None or has_failed == is_right:
                continue
            number = events_of(code, log)
            if number <= events and (found is None or number > found[0]):
                found = (number, text, log)
            if number <= events and number * 10 >= events * 9:
                return found
        if found is not None:
            return found
    return found


def main(words):
    folder, sizes = words[0] if words else "-", words[1:]
    if folder.startswith("-") or not all(it.isdecimal() for it in sizes):
        raise Refused("the words are FOLDER [EVENTS..]")
    os.makedirs(folder, exist_ok=True)
    for family in FAMILIES:
        for events in map(int, sizes or ["50", "100", "150", "200", "256"]):
            for is_right in (False, True):
                found = best(family, is_right, events)
                name = f"{family}.{events}.{'holds' if is_right else 'fails'}"
                if found is None:
                    print(f"{name}: no run")
                    continue
                number, text, log = found
                keep(f"{folder}/{name}.tc", text)
                keep(f"{folder}/{name}.log", log.written(text))
                print(f"{name}: {number} events, {len(log.threads)} threads, {log.model}", flush=True)


if __name__ == "__main__":
    run_main("logs.py", main)
