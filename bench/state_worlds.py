#!/usr/bin/env python3
"""Tries the clauses of logs on random worlds: positions of events, values of loads, and what ends each wait.

  state_worlds.py [--worlds N] [--seed N] [--models sc,tso,pso] [--before PROGRAM] [--spoil N] [--clap-debug PROGRAM] [FOLDER..]

Takes the logs of failed runs of the programs of regions.py, or each NAME.tc with its NAME.log in the folders. Writes their clauses by
`clap_debug cnf`: those of the formula, then a clause of one literal for each conjunct. Draws worlds in which most rules are half kept,
some of them near one that keeps all, and sets the variables of each. Without the conjuncts' clauses the list must then be satisfiable.
Those literals of conjuncts which can be true there must be able to be true together: the others are of broken conjuncts, and refused.
Where no conjunct is broken, the world must keep all rules, by those of reasons.py, and only there; logs with a deadlock or a condition
aren't held against these.

With --before, an earlier program's list must be the beginning of each list, with the same conjuncts. With --spoil, a clause that isn't
in the earlier list loses a literal, N times for each log: prints how many of these lists some world shows to be wrong. Needs cadical.
Ends with 1 where something isn't so.
"""
import argparse
import glob
import itertools
import os
import random
import subprocess
import sys
import tempfile

sys.dont_write_bytecode = True
import machine
import reasons
import regions
from kept_files import run_main

TOP = os.path.dirname(os.path.dirname(os.path.abspath(__file__)))
WORDS = {"set", "load", "swap", "cas", "loadat", "store", "storeat"}


def bits(first, width, number):
    """The literals that the variables from the first one on hold a number, its top bit first."""
    return [first + k if number >> (width - 1 - k) & 1 else -(first + k) for k in range(width)]


def written(clauses):
    return "".join(" ".join(map(str, it)) + " 0\n" for it in clauses)


class Clauses:
    """The clauses of a log: its literals of conjuncts, and all other clauses."""

    def __init__(self, program, files, model, folder):
        out = f"{folder}/list.cnf"
        subprocess.run([program, "cnf", *files, out, "--model", model], check=True, stdout=subprocess.DEVNULL)
        with open(out, encoding="ascii") as file:
            head, *lines = file.read().splitlines()
        self.vars, clauses = int(head.split()[2]), [[int(it) for it in line.split()[:-1]] for line in lines]
        count = next(k for k, it in enumerate(reversed(clauses)) if len(it) > 1)
        self.rules, self.roots = clauses[:-count], [it[0] for it in clauses[-count:]]
        self.text, self.begin = written(self.rules), 0

    def model(self, folder, more):
        """Which literals are true where these clauses hold too, or None."""
        path = f"{folder}/asked.cnf"
        with open(path, "w", encoding="ascii") as file:
            file.write(f"p cnf {self.vars} {len(self.rules) + len(more)}\n" + self.text + written(more))
        ran = subprocess.run(["cadical", "-q", path], stdout=subprocess.PIPE, check=False, text=True)
        assert ran.returncode in (10, 20), ran
        return {int(it) for line in ran.stdout.splitlines() if line.startswith("v ") for it in line.split()[1:]} or None

    def kept(self, folder, units):
        """Which conjuncts' literals can all be true at once where some literals are, and what is wrong, or None."""
        true, model = set(), self.model(folder, units)
        if model is None:
            return true, "no values of the other variables"
        while model is not None:
            true = {it for it in self.roots if it in model}
            rest = [it for it in set(self.roots) - true]
            model = self.model(folder, units + [[it] for it in true] + [rest])
        if self.model(folder, units + [rest]) is not None:
            return true, "a conjunct's literal can be true, but not with those of others"
        return true, None

    def spoilt(self, chance):
        """A list of which a clause, not one of an earlier list, has lost a literal."""
        other = Clauses.__new__(Clauses)
        other.vars, other.roots, other.rules = self.vars, self.roots, list(self.rules)
        place = chance.choice([k for k in range(self.begin, len(self.rules)) if len(self.rules[k]) > 1])
        literal = chance.choice(self.rules[place])
        other.rules[place] = [it for it in self.rules[place] if it != literal]
        other.text = written(other.rules)
        return other


class Tried:
    """A log with its clauses, and how its variables are laid out: 1 is true, then come positions, loads and choices of enders."""

    def __init__(self, name, text, log, model, clauses):
        self.name, self.model, self.clauses = f"{name} {model}", model, clauses
        code = machine.Code(text)
        self.paths = regions.Paths(code, log)
        events = self.paths.events
        has_wait = any(word in ("sleep", "signal", "broadcast") for _, _, word in events)
        self.rules = None if has_wait or log.failing is None else reasons.Paths(code, log)
        self.choices = self.enders(code, log)
        self.start = 2 + 8 * len(events) + 32 * self.paths.loads
        self.known = None
        self.mutexes = [(m, regions.guarded(self.paths, m)) for m in sorted({r[1] for r in self.paths.regions})]

    def find(self, folder):
        """Keeps the order and the choices of some world that keeps all rules, where there is one."""
        model = self.clauses.model(folder, [[it] for it in self.clauses.roots])
        if model is not None:
            at = lambda k: [2 + 8 * k + n in model for n in range(8)]
            order = sorted(range(len(self.paths.events)), key=lambda k: (at(k), k))
            self.known = order, [self.start + k in model for k in range(sum(self.choices))]

    def enders(self, code, log):
        """For each sleep, how many events may end it."""
        asked = {}
        for name, step, word in self.paths.events:
            if word in ("sleep", "signal", "broadcast"):
                asked.setdefault(word == "sleep", []).append(condition(code, log, name, step))
        return [asked.get(False, []).count(it) for it in asked.get(True, [])]

    def is_laid_out(self):
        """Whether the list begins with variable 1, and with what excludes two choices of one sleep."""
        owner = [k for k, many in enumerate(self.choices) for _ in range(many)]
        pairs = [(i, j) for j in range(len(owner)) for i in range(j) if owner[i] == owner[j]]
        wanted = [[1]] + [[-(self.start + i), -(self.start + j)] for i, j in pairs]
        begin = self.clauses.rules[:len(wanted)]
        return [sorted(it) for it in begin] == [sorted(it) for it in wanted]


def condition(code, log, name, step):
    """The condition that a thread's step names."""
    found, functions = {}, {(): len(code.functions) - 1}
    for thread in sorted(log.threads):
        steps, outcomes = log.threads[thread]
        at, ways, children = 0, iter(outcomes), 0
        for k in range(steps):
            word, *args = code.functions[functions[thread]].instrs[at]
            found[thread, k], at = args[0] if args else None, at + 1
            if word == "create":
                children += 1
                functions[thread + (children,)] = args[1]
            if word == "goto" or (word == "branch" and not next(ways)):
                at = args[-1]
    return found[name, step]


class World:
    """A world of a log, drawn at random: its order, the values of its loads, and the literals that set all this."""

    def __init__(self, tried, chance):
        paths = tried.paths
        is_near = tried.known is not None and chance.random() < 0.5
        self.order = self.near(tried, chance) if is_near else self.drawn(paths, chance)
        self.read = regions.World(paths, {k: n for n, k in enumerate(self.order)}, [0] * paths.loads)
        self.draw_loads(paths, chance, is_near)
        at = self.positions(chance)
        self.literals = [literal for k in self.order for literal in bits(2 + 8 * k, 8, at[k])]
        for k, loaded in enumerate(self.read.loads):
            self.literals += bits(2 + 8 * len(paths.events) + 32 * k, 32, loaded % machine.WORD)
        made = tried.known[1] if is_near and chance.random() < 0.8 else self.choices(tried, chance)
        self.literals += [tried.start + k if it else -(tried.start + k) for k, it in enumerate(made)]

    def drawn(self, paths, chance):
        place = regions.order(paths, chance)
        return sorted(place, key=place.get)

    def near(self, tried, chance):
        """An order that keeps all rules, with some neighbours exchanged."""
        order, thread = list(tried.known[0]), lambda k: tried.paths.events[k][0]
        wild = chance.random() < 0.3
        for _ in range(chance.choice([0, 0, 1, 3, 10, 30])):
            k = chance.randrange(1, len(order))
            if wild or thread(order[k - 1]) != thread(order[k]):
                order[k - 1], order[k] = order[k], order[k - 1]
        return order

    def choices(self, tried, chance):
        """At most one ender for each sleep."""
        return [k == made for many in tried.choices for made in [chance.randrange(-1, many)] for k in range(many)]

    def draw_loads(self, paths, chance, is_near):
        share = chance.choice([0, 0, 0, 0.05 if is_near else 0.1])
        broken = {k for k in range(paths.loads) if chance.random() < share}
        for k in broken:
            self.read.loads[k] = chance.choice([chance.randint(-2, 6), chance.randrange(-2**31, 2**31)])
        for _ in range(paths.loads + 2):
            for a in paths.accesses:
                if a[3] is not None and a[3] not in broken:
                    self.read.loads[a[3]] = self.read.right(a)

    def positions(self, chance):
        """A number below 256 for each event. Of events with equal numbers the one that is counted first comes first."""
        numbers = sorted(chance.sample(range(256), len(self.order)))
        for k in range(1, len(numbers)):
            if self.order[k - 1] < self.order[k] and chance.random() < 0.2:
                numbers[k] = numbers[k - 1]
        return dict(zip(self.order, numbers))

    def is_lawful(self, tried):
        """Whether the world keeps all rules of the log."""
        always, if_same = tried.rules.befores(tried.model, ("none",))
        place = {k: n for n, k in enumerate(self.order)}
        loads = [k for k, it in enumerate(tried.rules.events) if it.is_load]
        right = all(a[3] is None or self.read.loads[a[3]] == self.read.right(a) for a in tried.paths.accesses)
        return (right and all(place[i] < place[j] for i, j in always)
                and tried.rules.is_kept(self.order, zip(loads, self.read.loads), if_same, ("none",)))


def fault(tried, clauses, world, folder):
    """What the clauses get wrong in a world, or None; and how many conjuncts are broken there."""
    true, what = clauses.kept(folder, [[it] for it in world.literals])
    broken = sum(it not in true for it in clauses.roots)
    if what is None and tried.rules is not None and (broken == 0) != world.is_lawful(tried):
        what = "all rules are kept, but not all conjuncts" if broken else "all conjuncts are kept, but not all rules"
    return what, broken


def try_log(tried, given, chance, folder):
    """The number of faults, of worlds that keep all rules, and of mutexes in order; and of spoilt lists how many came to light."""
    tried.find(folder)
    worlds = [World(tried, chance) for _ in range(given.worlds)]
    wrong = whole = 0
    for number, world in enumerate(worlds):
        what, broken = fault(tried, tried.clauses, world, folder)
        whole += what is None and broken == 0
        if what:
            wrong += 1
            print(f"{tried.name}, world {number}: {what}", flush=True)
    ordered = sum(bool(variables) and world.read.in_order(m, variables) for world in worlds for m, variables in tried.mutexes)
    shown = 0
    for _ in range(given.spoil):
        spoilt = tried.clauses.spoilt(chance)
        shown += any(fault(tried, spoilt, world, folder)[0] for world in worlds)
    return wrong, whole, ordered, shown


def logs(given, chance):
    """Names, texts and logs."""
    for number, text in enumerate([] if given.folders else regions.PROGRAMS):
        text = text.replace("assert(most == 1)", "assert(most == 5)")
        code = machine.Code(text)
        for seed in itertools.count(chance.randrange(10**6)):
            end, state, _ = machine.run(code, "tso", seed, 4000)
            if end == "failed":
                yield f"program {number}", text, machine.log_of("tso", state)
                break
    for program in sorted(it for folder in given.folders for it in glob.glob(f"{folder}/*.tc")):
        if os.path.exists(program[:-3] + ".log"):
            with open(program, newline="", encoding="ascii") as file:
                text = file.read()
            with open(program[:-3] + ".log", "rb") as file:
                log = machine.Log.read(file.read())
            words = {it[0] for of in machine.Code(text).functions for it in of.instrs}
            if not words & (machine.EXCHANGES - WORDS):
                yield os.path.basename(program[:-3]), text, log


def main(words):
    parser = argparse.ArgumentParser(usage=__doc__)
    parser.add_argument("--worlds", type=int, default=20)
    parser.add_argument("--seed", type=int, default=0)
    parser.add_argument("--models", default="sc,tso,pso")
    parser.add_argument("--before")
    parser.add_argument("--spoil", type=int, default=0)
    parser.add_argument("--clap-debug", default=f"{TOP}/out/clap_debug")
    parser.add_argument("folders", nargs="*")
    given = parser.parse_args(words)
    chance, wrong = random.Random(given.seed), 0
    print("| log | events | clauses | more than before | worlds | all rules kept | mutexes in order | wrong | spoilt lists shown |")
    print("|---|---|---|---|---|---|---|---|---|")
    for name, text, log in logs(given, chance):
        for model in given.models.split(","):
            with tempfile.TemporaryDirectory() as folder:
                files = [f"{folder}/p.tc", f"{folder}/p.log"]
                with open(files[0], "w", newline="", encoding="ascii") as file:
                    file.write(text)
                with open(files[1], "wb") as file:
                    file.write(log.written(text))
                tried = Tried(name, text, log, model, Clauses(given.clap_debug, files, model, folder))
                more, bad = "", 0
                if not tried.is_laid_out():
                    bad += 1
                    print(f"{tried.name}: the list doesn't begin as it should")
                if given.before:
                    old = Clauses(given.before, files, model, folder)
                    begin, many = len(old.rules), len(old.roots)
                    more, tried.clauses.begin = len(tried.clauses.rules) - begin, begin * (len(tried.clauses.rules) > begin)
                    if tried.clauses.rules[:begin] != old.rules or tried.clauses.roots[-many:] != old.roots:
                        bad += 1
                        print(f"{tried.name}: the earlier list isn't the beginning of this one")
                faults, whole, ordered, shown = try_log(tried, given, chance, folder)
                wrong += bad + faults
                row = [tried.name, len(tried.paths.events), len(tried.clauses.rules), more, given.worlds, whole, ordered, bad + faults,
                       f"{shown} of {given.spoil}" if given.spoil else ""]
                print("| " + " | ".join(map(str, row)) + " |", flush=True)
    return 1 if wrong else 0


if __name__ == "__main__":
    run_main("state_worlds.py", main)
