#!/usr/bin/env python3
"""The places of small programs by their definition anew: a thread goes along each path with a stack of the loops that it is in.

  places.py rows > crates/test_places/stdin
  places.py random COUNT [SEED]        rows of random programs, in a table of their own

A row has how often a thread may go round each loop, a program, and the places of each of its functions.
"""
import random
import sys
from typing import Dict, Iterator, List, Tuple

sys.dont_write_bytecode = True
import machine
from kept_files import Refused, run_main

Loop = Tuple[int, int]  # its first and its last instruction
Round = Tuple[Loop, int]
Place = Tuple[int, Tuple[Round, ...]]
MOST = 1000
ROWS: Dict[str, List[Tuple[int, str]]] = {
    "straight code, and branches that meet": [
        (0, "main { }"),
        (3, "int x; main { x = 1; assert(x); }"),
        (1, "int x; main { int a; a = x; if (a) { x = 2; } assert(x == 2); }"),
        (1, "int x; main { int a; a = x; if (a) { x = 2; } else { if (a == 3) { x = 4; } else { } } x = 5; }"),
    ],
    "one loop, by how often a thread may go round it": [
        (rounds, "int x; main { while (x == 0) { x = 1; } assert(x); }") for rounds in (0, 1, 2, 4)
    ],
    "a loop without an end, and one that is empty": [
        (1, "int x; main { while (1) { x = x + 1; } }"),
        (2, "int x; main { while (x) { } x = 1; }"),
        (0, "main { while (1) { } }"),
    ],
    "a loop at the beginning, and one at the end": [
        (1, "main { int a; while (a < 2) { a = a + 1; } }"),
        (1, "int x; main { int a; x = 1; while (a < 2) { a = a + 1; } }"),
    ],
    "loops one after another: what follows is there once": [
        (1, "int x; main { int a; while (a < 1) { a = a + 1; } a = 0; while (a < 2) { a = a + 2; } x = a; }"),
        (2, "int x; main { while (x == 0) { } while (x == 1) { } while (x == 2) { } }"),
    ],
    "loops in loops: the inner round begins anew": [
        (1, "int x; main { int a; int b; while (a < 2) { b = 0; while (b < 2) { b = b + 1; } a = a + 1; } x = b; }"),
        (2, "int x; main { while (x) { while (x == 2) { x = 3; } } }"),
        (1, "int x; main { while (x) { while (x == 2) { while (x == 3) { x = 4; } x = 5; } x = 6; } }"),
        (1, "int x; main { int a; while (x) { if (a) { while (x == 1) { a = 0; } } else { a = 1; } } }"),
    ],
    "exits in the midst of a loop, by flags": [
        (1, "int x; main { int stop; int a; while (stop == 0 && a < 3) { if (x == a) { stop = 1; } else { a = a + 1; } } x = a; }"),
        (2, "int x; main { int go; go = 1; while (go) { if (x) { go = 0; } } }"),
    ],
    "both sides of && and ||, with what may fail": [
        (1, "int x; int y; main { int a; a = x && (y || x == 2); assert(a || 4 / x); }"),
        (1, "int c[3]; int x; main { while (x < 3 && c[x] == 0) { x = x + 1; } }"),
    ],
    "threads, locks and waits": [
        (1, "int n; mutex m; cond c; thread f(int k) { lock(m); while (n < k) { wait(c, m); } unlock(m); } "
            "main { tid a; tid b; a = create f(1); b = create f(2); lock(m); n = 2; broadcast(c); unlock(m); join(a); join(b); }"),
        (1, "int n; thread f() { int t; int s; int done; while (done == 0) { t = n; s = cas(n, t, t + 1); done = s == t; } } "
            "main { tid a; tid b; int k; k = n; if (k) { a = create f(); } else { b = create f(); join(b); } assert(n < 2); }"),
        (2, "int x; mutex m; thread f() { int a; if (x) { lock(m); } a = swap(x, 3); if (a) { unlock(m); } } main { tid t; t = create f(); join(t); }"),
    ],
    "more than are listed": [
        (1000, "int x; main { while (x) { } }"),
        (30, "int x; main { while (x) { while (x == 1) { } } }"),
    ],
}


def next_after(at: int, instr: List[object]) -> Iterator[int]:
    """The instructions to which one may lead."""
    if instr[0] not in ("goto", "exit"):
        yield at + 1
    if instr[0] in ("goto", "branch"):
        yield int(str(instr[-1]))


class Walk:
    """All paths of a function, each loop at most so many times around."""

    def __init__(self, function: machine.Function, rounds: int) -> None:
        self.instrs, self.rounds = function.instrs, rounds
        self.loops = sorted(((to, at) for at, instr in enumerate(self.instrs) for to in next_after(at, instr) if to <= at),
                            key=lambda loop: (loop[0], -loop[1]))

    def entered(self, stack: List[Round], at: int) -> List[Round]:
        """The stack at an instruction: loops that it isn't in are left, and others begin."""
        kept = [each for each in stack if each[0][0] <= at <= each[0][1]]
        inside = {loop for loop, _ in kept}
        return kept + [(loop, 0) for loop in self.loops if loop[0] <= at <= loop[1] and loop not in inside]

    def after(self, place: Place, to: int) -> List[Round]:
        stack = list(place[1])
        if to <= place[0]:
            while stack[-1][0][0] != to:
                stack.pop()
            loop, number = stack.pop()
            return [*stack, (loop, number + 1)]
        return self.entered(stack, to)

    def places(self) -> List[Place]:
        first = (0, tuple(self.entered([], 0)))
        found, waiting = {first}, [first]
        while waiting and len(found) <= 100 * MOST:
            place = waiting.pop()
            for to in next_after(place[0], self.instrs[place[0]]):
                stack = self.after(place, to)
                onward = (to, tuple(stack))
                if onward not in found and all(number <= self.rounds for _, number in stack):
                    found.add(onward)
                    waiting.append(onward)
        return sorted(found, key=lambda it: [*(n for (first, _), number in it[1] for n in (first, number)), it[0]])


def row(rounds: int, text: str) -> str:
    lines = []
    for number, function in enumerate(machine.Code(text).functions):
        places = Walk(function, rounds).places()
        if len(places) > MOST:
            lines.append(f"function {number}: more than {MOST} places")
            continue
        lines.append(f"function {number}: {len(places)} places")
        lines += [" ".join([f"  {at}", *(f"{loop[0]}:{turn}" for loop, turn in stack)]) for at, stack in places]
    return f"places {rounds} : {text} => " + "\n ".join(lines)


def statement(rng: random.Random, depth: int) -> str:
    kind = rng.choice(["a = a + 1;", "x = a;", "a = x;", "assert(a < 9);", "if", "if else", "while", "while"])
    if depth == 0 or kind.endswith(";"):
        return kind if kind.endswith(";") else "x = 1;"
    test = rng.choice(["a", "x", "a < 2", "x == a && a", "a || x"])
    if kind == "if else":
        return f"if ({test}) {{ {block(rng, depth)} }} else {{ {block(rng, depth)} }}"
    return f"{kind} ({test}) {{ {block(rng, depth)} }}"


def block(rng: random.Random, depth: int) -> str:
    return " ".join(statement(rng, depth - 1) for _ in range(rng.randrange(4)))


def main(words: List[str]) -> None:
    if words == ["rows"]:
        print("# The places of small programs. bench/places.py writes these rows.")
        for group, rows in ROWS.items():
            print(f"\ngroup {group}")
            for rounds, text in rows:
                print(row(rounds, text))
        return
    if not (len(words) in (2, 3) and words[0] == "random" and all(it.isdecimal() for it in words[1:])):
        raise Refused("the words are rows, or random COUNT [SEED]")
    rng = random.Random(int(words[2]) if words[2:] else 0)
    print("group random programs")
    for _ in range(int(words[1])):
        print(row(rng.randrange(3), f"int x; main {{ int a; {block(rng, 4)} }}"))


if __name__ == "__main__":
    run_main("places.py", main)
