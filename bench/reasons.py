#!/usr/bin/env python3
"""Which groups of rules each refutation of a small log needs, apart from the program: those without which some order of the log's
events keeps all other rules.

  reasons.py PROGRAM LOG [--model M]    the groups of the log, each with whether each refutation needs it
  reasons.py --rows                     holds the rows of `why` in test_product against it

The rules are those of crates/lawful_order, found anew from the log's paths. Logs of failures without conditions only.
"""
import argparse
import itertools
import random
import re
import sys
from dataclasses import dataclass
from pathlib import Path

sys.dont_write_bytecode = True
import machine
import texts
from kept_files import run_main

TOP = Path(__file__).resolve().parent.parent
KINDS = ["own", "child", "read", "mutex", "test"]
# Values that a load may take where its own rule is dropped, apart from the numbers of the program.
VALUES = {-1, 0, 1, 2, 3, 5, 7}
DRAWN = 1000


@dataclass
class Event:
    """An event of a thread. `cell` is (first, index), the index being None for a cell of its own; `given` is what it stores."""

    thread: int
    step: int
    line: int
    word: str
    bars: int = 0
    cell: tuple = None
    is_load: bool = False
    given: object = None
    is_failing: bool = False

    def is_store(self):
        return self.word in ("store", "storeat") and not self.is_failing

    def may_overtake(self):
        return self.is_failing or self.word in ("load", "loadat", "store", "storeat")


class Cycle(Exception):
    """A value that depends on itself."""


class Paths:
    """The paths of a log over terms: numbers, (operator, term..), ("event", number) for what that event loads."""

    def __init__(self, code, log):
        self.code, self.log, self.names = code, log, sorted(log.threads)
        self.events, self.tests, self.creates, self.joins, self.regions = [], [], [], [], []
        self.functions, self.arguments = {(): len(code.functions) - 1}, {(): []}
        for number, name in enumerate(self.names):
            self.walk(number, name)

    def walk(self, thread, name):
        steps, outcomes = self.log.threads[name]
        function = self.code.functions[self.functions[name]]
        slots = self.arguments[name] + [0] * (function.ints - len(self.arguments[name]))
        at = children = bars = 0
        tids, held, ways = {}, {}, iter(outcomes)
        of = lambda e: e if isinstance(e, int) else slots[e[1]] if e[0] == "slot" else (e[0], *map(of, e[1:]))
        for step in range(steps):
            word, *args = function.instrs[at]
            event = Event(thread, step, function.lines[at], word, bars)
            event.is_failing = name == self.log.failing and step + 1 == steps
            number, at, wanted = len(self.events), at + 1, not event.is_failing
            if word == "set":
                slots[args[0]] = of(args[1])
            elif word in ("load", "loadat"):
                event.cell = (args[1], None) if word == "load" else (args[1], of(args[3]))
                event.is_load, slots[args[0]] = True, ("event", number)
            elif word in ("store", "storeat"):
                event.cell = (args[0], None) if word == "store" else (args[0], of(args[2]))
                event.given = of(args[-1])
            elif word in machine.EXCHANGES:
                event.cell = (args[1], of(args[3])) if word.endswith("at") else (args[1], None)
                event.given = ("exchange", word, ("event", number), *map(of, machine.operands(word, args)[1]))
                event.is_load, slots[args[0]] = True, ("event", number)
            elif word == "branch":
                taken = next(ways)
                self.tests.append((thread, event.line, of(args[0]), bool(taken)))
                at = at if taken else args[1]
            elif word == "goto":
                at = args[0]
            elif word == "inside":
                self.tests.append((thread, event.line, ("inside", args[0], of(args[1])), wanted))
            elif word == "inrange":
                self.tests.append((thread, event.line, ("inside", 32, of(args[0])), wanted))
            elif word in ("nonzero", "assert"):
                self.tests.append((thread, event.line, of(args[0]), wanted))
            elif word == "stbar":
                bars += 1
            elif word == "create":
                children += 1
                tids[args[0]] = name + (children,)
                self.functions[tids[args[0]]], self.arguments[tids[args[0]]] = args[1], [of(e) for e in args[2:]]
                self.creates.append((number, tids[args[0]]))
            elif word == "join":
                self.joins.append((number, tids[args[0]]))
            elif word == "lock":
                held[args[0]] = len(self.regions)
                self.regions.append([args[0], number, None])
            elif word == "unlock":
                self.regions[held.pop(args[0])][2] = number
            elif word in ("sleep", "wake", "signal", "broadcast"):
                raise SystemExit("a log with a condition")
            if event.is_failing or word in machine.EVENTS:
                self.events.append(event)

    def groups(self):
        """All groups that have rules, in order."""
        found = {("own", it.thread) for it in self.events}
        found |= {("child", self.names.index(name)) for _, name in self.creates + self.joins if name in self.log.threads}
        found |= {("read", it.thread, it.line) for it in self.events if it.is_load}
        found |= {("test", thread, line) for thread, line, _, _ in self.tests}
        found |= {("mutex", it[0]) for it in self.regions}
        return sorted(found, key=lambda it: (KINDS.index(it[0]), *it[1:]))

    def spelled(self, group):
        kind, number, *line = group
        return f"{kind} {number if kind == 'mutex' else machine.spelled(self.names[number])}" + "".join(f" line {it}" for it in line)

    def befores(self, model, dropped):
        """Which of two events come first: pairs in any case, and pairs that do if their cells are the same."""
        always, if_same = [], []
        waits = lambda it: model != "sc" and it.is_store()
        for (i, x), (j, y) in itertools.permutations(enumerate(self.events), 2):
            if ("own", x.thread) == dropped:
                continue
            if x.thread == y.thread and x.step < y.step:
                if not waits(x) or not y.may_overtake() or y.is_store() and (model == "tso" or x.bars != y.bars):
                    always.append((i, j))
                elif y.is_store():
                    if_same.append((i, j))
            if y.is_failing and not x.is_failing and not waits(x):
                always.append((i, j))
        for create, name in self.creates:
            always += [(create, i) for i, it in enumerate(self.events)
                       if self.names[it.thread] == name and ("child", it.thread) != dropped]
        for join, name in self.joins:
            always += [(i, join) for i, it in enumerate(self.events)
                       if self.names[it.thread] == name and it.word == "exit" and ("child", it.thread) != dropped]
        return always, if_same

    def orders(self, always):
        """All orders of the events, as lists of their numbers, that keep some pairs; before them some of these by chance."""
        before = [{i for i, j in always if j == k} for k in range(len(self.events))]
        chance = random.Random(0)

        def drawn():
            order, left = [], set(range(len(self.events)))
            while free := [k for k in sorted(left) if not before[k] & left]:
                order.append(chance.choice(free))
                left.remove(order[-1])
            return [order] * (not left)

        def go(order, left):
            if not left:
                yield order
            for k in left:
                if not before[k] & set(left):
                    yield from go(order + [k], [it for it in left if it != k])

        return itertools.chain((it for _ in range(DRAWN) for it in drawn()), go([], list(range(len(self.events)))))

    def is_exclusive(self, place):
        leaves = lambda r, s: r[2] is not None and place[r[2]] < place[s[1]]
        return all(r[0] != s[0] or leaves(r, s) or leaves(s, r) for r, s in itertools.combinations(self.regions, 2))

    def is_kept(self, order, given, if_same, dropped):
        """Whether an order keeps all rules but those of a group, where some loads take the given values and the others what they see."""
        place = {k: number for number, k in enumerate(order)}
        if dropped[0] != "mutex" and not self.is_exclusive(place):
            return False
        values = dict(given)

        def value(e):
            if isinstance(e, int):
                return e
            if e[0] == "event":
                return load(e[1])
            if e[0] == "exchange":
                return machine.exchanged(e[1], value(e[2]), [value(it) for it in e[3:]])
            if e[0] == "inside":
                return int(0 <= value(e[2]) < e[1])
            return (machine.UNARY if len(e) == 2 else machine.BINARY)[e[0]](*map(value, e[1:]))

        def is_same(a, b):
            return a[0] == b[0] and (a[1] is None) == (b[1] is None) and (a[1] is None or value(a[1]) == value(b[1]))

        def load(number):
            if number in values:
                if values[number] is None:
                    raise Cycle
                return values[number]
            values[number] = None
            it, seen = self.events[number], None
            for k, other in enumerate(self.events):
                if k != number and other.given is not None and (
                        place[k] < place[number] or (other.thread == it.thread and other.step < it.step)):
                    if is_same(other.cell, it.cell) and (seen is None or place[seen] < place[k]):
                        seen = k
            start = self.code.memory[it.cell[0]] if it.cell[1] is None else 0
            values[number] = start if seen is None else value(self.events[seen].given)
            return values[number]

        try:
            return (all((value(term) != 0) == wanted for thread, line, term, wanted in self.tests if ("test", thread, line) != dropped)
                    and all(place[i] < place[j] for i, j in if_same if is_same(self.events[i].cell, self.events[j].cell)))
        except Cycle:
            return False

    def is_needed(self, model, dropped):
        """Whether some order keeps all rules but those of a group. Where it is one of values, some values are tried."""
        always, if_same = self.befores(model, dropped)
        free = [k for k, it in enumerate(self.events) if it.is_load and ("read", it.thread, it.line) == dropped]
        tried = sorted(VALUES | {int(it) for it in re.findall(r"\d+", self.code.text)})
        return any(self.is_kept(order, zip(free, given), if_same, dropped)
                   for order in self.orders(always) for given in itertools.product(tried, repeat=len(free)))


def needed(code, log, model):
    """The groups that each refutation of a log needs, and all its groups, as `why` spells them."""
    paths = Paths(code, log)
    groups = paths.groups()
    return [paths.spelled(it) for it in groups if paths.is_needed(model, it)], [paths.spelled(it) for it in groups]


def rows():
    """Whether each line of a row of `why` is of a group that is needed, and each whole answer has all groups."""
    count = wrong = 0
    text = (TOP / "crates/test_product/stdin").read_text()
    for row in re.findall(r"^row (why: .*\n(?:(?!row ).+\n)*)", text, re.M):
        files = dict(re.findall(r"^file (\w) (.*)$", row, re.M))
        calls = re.findall(r"^(?:words|then) clap_debug (solve|why) .*?(?:--model (\w+))?\nwant (\d+) (.*)$", row, re.M)
        if "clap_debug solve" not in row or "reasons 1" in row or re.search(r"\b(cond|edit|cut)\b", row) or "file q" in row:
            continue
        program = texts.unquoted(files["p"]).decode()
        log = machine.Log.read(texts.unquoted(files["l"]))
        if log.failing is None:
            continue
        code, model, found = machine.Code(program), log.model, {}
        for word, given, status, want in calls:
            if word == "solve":
                model = given or log.model
            elif status == "0":
                found[model] = found.get(model) or needed(code, log, model)
                count += 1
                line = re.fullmatch(r'"reasons " with "(.*)"', want)
                whole = f'"reasons {len(found[model][1])}\\n' + "".join(f"{it}\\n" for it in found[model][1]) + '"'
                if not (line and line[1] in found[model][0] or want == whole and found[model][0] == found[model][1]):
                    wrong += 1
                    print(row.split("\n")[0], model, want, found[model], sep=": ")
    print(f"{count} answers of why, {wrong} differ")
    return wrong


def main(words):
    if sys.argv[1:] == ["--rows"]:
        return 1 if rows() else 0
    parser = argparse.ArgumentParser(usage=__doc__)
    parser.add_argument("program")
    parser.add_argument("log")
    parser.add_argument("--model", choices=machine.MODELS)
    given = parser.parse_args(words)
    with open(given.program, newline="") as file:
        code = machine.Code(file.read())
    with open(given.log, "rb") as file:
        log = machine.Log.read(file.read())
    model = given.model or log.model
    if machine.search(code, log, model)[0] is not None:
        raise SystemExit(f"a run reproduces the log under {model}")
    each, groups = needed(code, log, model)
    for group in groups:
        print(group, "is needed" if group in each else "may be left out")
    return 0


if __name__ == "__main__":
    run_main("reasons.py", main)
