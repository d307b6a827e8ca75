#!/usr/bin/env python3
"""Holds the answers of `clap_debug_find` on random programs against a search over all states of the machine.

  find_trial.py FIRST COUNT [FOLDER] [--find F].. [--clap-debug C]
                                     COUNT programs, of the seeds from FIRST on; programs of wrong answers are kept in FOLDER
  find_trial.py show SEED            the program of a seed, and what the search says of it

A program has up to five threads, with loops, mutexes, a condition, creates in threads and in loops, exchanges, barriers and
assertions. It is asked for failures and deadlocks under each memory model, with up to N outcomes of a thread. An answer is right if

  found                  some run ends so in which each thread has at most N outcomes; the log has no more of them, and `solve`
                         finds moves that reproduce it: by `replay`, and by machine.py
  none .. N outcomes     no such run ends so
  none                   no run ends so at all; where that has too many states, none with N + 2 outcomes

Prints a line for each difference and a summary. Status 1: there is a difference.
"""
import argparse
import collections
import os
import random
import subprocess
import sys
import tempfile

sys.dont_write_bytecode = True
import kept_files
import machine

TOP = os.path.dirname(os.path.dirname(os.path.abspath(__file__)))
# Instructions that commute with the next ones of other threads, if they are enabled.
ALONE = machine.OWN | {"fence", "stbar", "exit", "join", "create", "unlock"}
STORES = {"store", "storeat"}
KINDS = ["failure", "deadlock"]
# A number that no expression has.
NEVER = 77777
MOST_THREADS = 5
ROOM = 3000
WHOLE_ROOM = 20000
LOGS = 300
SECONDS = 120


class TooMany(Exception):
    """The program has too many states or threads."""


class Search:
    """All states that runs lead to, in which each thread has at most so many outcomes; None for any number. Of each thread the
    steps are forgotten, and the field holds the number of outcomes instead if there is a bound."""

    def __init__(self, code, model, most, room=ROOM):
        self.code, self.model, self.most, self.room = code, model, most, room
        self.ends, self.watched = {"failure": False, "deadlock": False}, set()
        self.go()

    def go(self):
        start = machine.State(self.code, self.model)
        self.settle(start, ())
        stack, seen = [start], {start.key()}
        while stack and not all(self.ends.values()):
            state = stack.pop()
            if state.failed is not None:
                self.ends["failure"] = True
                continue
            moves = state.moves()
            if not moves and not all(it.exited for it in state.threads.values()):
                self.ends["deadlock"] = True
            for move in moves:
                later = self.after(state, move)
                if later is not None and later.key() not in seen:
                    seen.add(later.key())
                    stack.append(later)
            if len(seen) > self.room:
                raise TooMany
        self.states = len(seen)

    def after(self, state, move):
        """The state after a move, or None if it is a branch beyond the bound."""
        if move[0] != "d" and self.is_over(state, move[1]):
            return None
        later = state.copy()
        self.make(later, move)
        for name in sorted({move[1], *(later.threads.keys() - state.threads.keys())}):
            self.settle(later, name)
        return later

    def is_over(self, state, name):
        return self.most is not None and state.instr(name)[0] == "branch" and state.threads[name].steps >= self.most

    def make(self, state, move):
        name = move[1]
        if move[0] != "d":
            self.watch(state, name)
        outcomes = state.threads[name].steps
        state.make(move)
        thread = state.threads[name]
        thread.steps = 0 if self.most is None else outcomes + len(thread.outcomes)
        thread.outcomes = ()
        if len(state.threads) > MOST_THREADS:
            raise TooMany

    def watch(self, state, name):
        """Keeps the value of which the program's assertion says that it is never NEVER."""
        match state.instr(name):
            case ["assert", ("!=", e, number)] if number == NEVER:
                self.watched.add(machine.value(e, state.threads[name].slots))

    def settle(self, state, name):
        """Makes the next steps of a thread as long as they are alone, or until it comes back to where it was."""
        places, new = set(), [name]
        while state.failed is None and self.is_alone(state, name):
            thread = state.threads[name]
            place = (thread.at, thread.slots, thread.tids, thread.buffer, thread.steps)
            if place in places:
                break
            places.add(place)
            before = state.threads.keys()
            count = len(before)
            self.make(state, ("r", name))
            if len(state.threads) > count:
                new.append(max(n for n in state.threads if n[:-1] == name and len(n) == len(name) + 1))
        for child in new[1:]:
            if state.failed is None:
                self.settle(state, child)

    def is_alone(self, state, name):
        if state.why(name) is not None or self.is_over(state, name):
            return False
        word = state.instr(name)[0]
        # Without a bound a loop that stores would go round for ever here.
        return word in ALONE or (word in STORES and self.model != "sc" and self.most is not None)


class Program:
    """A random program. Names: cells x, y and z, an array a, mutexes m and n, a condition c; locals p and q, thread variables t and u."""

    def __init__(self, chance):
        self.chance, self.pick = chance, chance.choice
        # Threads that store, and keep what they load; or a thread in a loop; or all that there is.
        self.style = chance.choice(["orders", "orders", "loop", "loop", "all", "all", "all"])
        self.is_weak = self.style == "orders"
        self.functions = chance.choice([2, 2, 2, 3] if self.is_weak else [1, 1, 2, 2, 3])
        self.sites = self.style == "all" and chance.random() < 0.4
        self.has_locks = chance.random() < 0.7
        self.has_waits = self.has_locks and chance.random() < 0.6

    def number(self):
        return str(self.chance.randrange(3))

    def cell(self):
        return self.pick("xxyyz")

    def operand(self):
        return self.pick([self.number(), self.cell(), self.cell(), "p", "q", f"a[{self.pick(['0', '1', 'p & 1', 'x & 1'])}]"])

    def expression(self):
        if self.chance.random() < 0.55:
            return self.operand()
        return f"{self.operand()} {self.pick(['+', '-', '==', '!=', '<', '&', '&&', '||'])} {self.operand()}"

    def test(self):
        return self.pick([self.cell(), f"{self.cell()} == {self.number()}", "q", f"q != {self.number()}", self.expression()])

    def access(self):
        return self.pick([
            f"{self.cell()} = {self.number()};", f"{self.cell()} = {self.expression()};", f"q = {self.cell()};", f"p = {self.operand()};",
            f"a[{self.pick(['0', '1', 'q & 1'])}] = {self.operand()};", f"{self.cell()} = {self.cell()} + 1;",
            f"q = swap({self.cell()}, {self.number()});", f"q = cas({self.cell()}, {self.number()}, {self.number()});",
            self.pick(["fence();", "stbar();"])])

    def loop(self):
        return self.pick([
            lambda: f"while ({self.cell()} == {self.number()}) {{ }}",
            lambda: f"q = cas(y, 0, 1); while (q) {{ q = cas(y, 0, 1); }} {self.access()} y = 0;",
            lambda: "q = swap(y, 1); while (q) { q = swap(y, 1); }",
            lambda: f"p = 0; while (p < 2) {{ {self.access()} p = p + 1; }}",
            lambda: f"while ({self.cell()} == 0) {{ {self.access()} }}",
            lambda: f"while ({self.test()}) {{ {self.access()} }}"])()

    def locked(self, depth):
        m = self.pick("mmn")
        other = self.pick("mn")
        inside = " ".join(self.statements(self.chance.randrange(1, 3), depth + 1, other))
        end = f"unlock({m});" if self.chance.random() < 0.93 else ""
        return f"lock({m}); {inside} {end}"

    def waiting(self):
        word, then = self.pick(["if", "while", "while"]), self.pick(["", self.access()])
        return self.pick([f"lock(m); {word} ({self.cell()} == 0) {{ wait(c, m); }} {then} unlock(m);",
                          f"lock(m); {then} {self.pick(['signal', 'broadcast'])}(c); unlock(m);", f"{self.pick(['signal', 'broadcast'])}(c);",
                          f"lock(m); wait(c, m); {then} unlock(m);", f"lock(m); {self.cell()} = 1; unlock(m); signal(c);"])

    def site(self):
        return self.pick([
            f"assert({self.expression()});", f"assert({self.operand()} != {self.number()});", f"assert({self.cell()} < 2);",
            f"x = a[{self.operand()}];", f"z = 1 / {self.operand()};", f"q = 1 << ({self.operand()} - 1);",
            f"unlock({self.pick('mn')});" if self.has_locks else f"assert({self.cell()});"])

    def statements(self, count, depth, mutex=None):
        found = []
        for _ in range(count):
            kind = self.chance.random()
            if self.sites and kind < 0.1:
                found.append(self.site())
            elif kind < 0.2 and depth < 2:
                more = f" else {{ {self.access()} }}" if self.chance.random() < 0.3 else ""
                found.append(f"if ({self.test()}) {{ {' '.join(self.statements(1, depth + 1))} }}{more}")
            elif kind < 0.32 and depth < 2:
                found.append(self.loop())
            elif kind < 0.48 and self.has_locks and depth < 2 and mutex != "m":
                found.append(self.locked(depth))
            elif kind < 0.62 and self.has_waits and depth == 0:
                found.append(self.waiting())
            else:
                found.append(self.access())
        return found

    def created(self, first):
        """Statements that create threads of later functions, and join some."""
        if first >= self.functions:
            return [], []
        f = self.chance.randrange(first, self.functions)
        create = f"t = create f{f}({self.number()});"
        joined = ["join(t);"] if self.chance.random() < 0.6 else []
        kind = self.chance.random()
        if kind < 0.15:
            return [f"p = 0; while (p < 2) {{ t = create f{f}(p); p = p + 1; }}"], joined
        if kind < 0.25:
            return [f"if ({self.test()}) {{ {create} {' '.join(joined)} }}"], []
        if kind < 0.55:
            second = f"u = create f{self.chance.randrange(first, self.functions)}({self.number()});"
            more = ["join(u);"] if self.chance.random() < 0.6 else []
            return [create, *(self.statements(1, 1) if self.chance.random() < 0.2 else []), second], joined + more
        if kind < 0.59:
            joined = ["join(t);", "join(t);"]
        return [create], joined

    def body(self, number, watch):
        """A function's statements, with the watched assertion in one place if it belongs here."""
        is_main = number < 0
        creates, joins = self.created(number + 1) if is_main or self.chance.random() < 0.3 else ([], [])
        middle = self.statements(self.chance.randrange(0 if is_main else 1, 3 if is_main else 5), 0)
        found = [*creates, *middle, *joins]
        if watch:
            place = len(found) if self.chance.random() < 0.6 else self.chance.randrange(len(found) + 1)
            found.insert(place, watch)
        elif self.sites and self.chance.random() < 0.4:
            found.append(self.site())
        return " ".join(found)

    def orders(self, kept):
        """Statements of a thread that stores to x and y, and what it loads to elements of r from a number on; the next number."""
        found = []
        for _ in range(self.chance.randrange(2, 4)):
            kind = self.chance.random()
            cell = self.pick("xy")
            if kind < 0.5 or kept == 4:
                access = f"{cell} = {self.pick('12')};"
            else:
                access = f"r[{kept}] = {cell};"
                kept += 1
            kind = self.chance.random()
            if kind < 0.1:
                access = f"if ({self.pick(['p', 'z', 'x', 'y == 0'])}) {{ {access} }}"
            elif kind < 0.16:
                access = f"while ({self.pick('xy')} == {self.pick('01')}) {{ }} {access}"
            elif kind < 0.22:
                access = f"lock(m); {access} unlock(m);"
            elif kind < 0.28:
                access = f"q = {self.pick(['swap(z, 1)', 'cas(z, 0, 1)', 'cas(y, 0, 2)'])}; {access}"
            elif kind < 0.34:
                access = f"{access} {self.pick(['stbar', 'stbar', 'fence'])}();"
            found.append(access)
        return found, kept

    def weak_text(self):
        """Threads that store and load, and an assertion on what they loaded."""
        lines, kept, bodies = ["int x;", "int y;", "int z;", "int r[4];", "mutex m;"], 0, []
        for k in range(self.functions):
            body, kept = self.orders(kept)
            bodies.append(body)
        claim = f"assert({' + '.join(f'r[{k}] * {3 ** k}' for k in range(max(kept, 1)))} + 81 * {self.pick('xyy')} != {NEVER});"
        own = self.pick([None, None, self.functions - 1])
        for k, body in enumerate(bodies):
            lines.append(f"thread f{k}(int p) {{ int q; {' '.join(body)} {claim if k == own else ''} }}")
        creates = [f"t{k} = create f{k}({k});" for k in range(self.functions)]
        joins = [f"join(t{k});" for k in range(self.functions)]
        tids = " ".join(f"tid t{k};" for k in range(self.functions))
        lines.append(f"main {{ {tids} {' '.join(creates)} {'' if own else ' '.join(joins + [claim])} }}")
        return "\n".join(lines) + "\n"

    def in_round(self):
        """A statement of a loop that goes round until another thread ends it."""
        return self.pick([
            f"q = {self.cell()};", f"q = {self.cell()};", "p = q;", "p = q + 1;", "p = (p + 1) & 3;", "if (q) { p = 1; }", "stbar();", "fence();",
            f"q = cas({self.cell()}, {self.number()}, {self.number()});", f"q = cas({self.cell()}, 0, 1);", f"q = swap({self.cell()}, {self.number()});",
            f"{self.cell()} = {self.number()};", "z = 1 - z;", "lock(m); q = z; unlock(m);", "lock(m); unlock(m);", "lock(m); z = 1; unlock(m);",
            "signal(c);", "lock(m); wait(c, m); unlock(m);"])

    def looping_text(self):
        """A thread in a loop, which another may end, and an assertion on what came of it."""
        claim = f"assert({self.pick(['p + 4 * q', 'p', 'q', 'q + 4 * z', 'x + 3 * y + 9 * z'])} != {NEVER});"
        body = " ".join(self.in_round() for _ in range(self.chance.randrange(1, 4)))
        before = self.pick(["", "", "q = 1;", "q = cas(y, 0, 1);", "p = x;"])
        test = self.pick(["x == 0", "x == 0", "y == 0", "q", "q == 0", "q != 1", "p < 1", "p < 1 && x == 0"])
        other = " ".join(self.pick([f"{self.cell()} = {self.number()};", "x = 1;", "y = 1;", "z = 1;", "q = cas(x, 0, 1);", "signal(c);", "stbar();",
                                    "lock(m); x = 1; unlock(m);", "lock(m); signal(c); x = 1; unlock(m);"])
                         for _ in range(self.chance.randrange(1, 4)))
        is_own = self.chance.random() < 0.7
        lines = ["int x;", "int y;", "int z;", "mutex m;", "cond c;",
                 f"thread f0(int p) {{ int q; {before} while ({test}) {{ {body} }} {claim if is_own else ''} }}", f"thread f1() {{ int q; {other} }}"]
        second = self.pick(["u = create f0(1);", "u = create f1();", ""])
        middle = other if self.chance.random() < 0.4 else "u = create f1();"
        join = self.pick(["", "join(t);"]) if is_own else f"join(t); {claim}"
        lines.append(f"main {{ int p; int q; tid t; tid u; t = create f0(0); {second} {middle} {join} }}")
        return "\n".join(lines) + "\n"

    def text(self):
        """With an assertion that a value isn't NEVER, if the program has no others."""
        if self.style != "all":
            return self.weak_text() if self.is_weak else self.looping_text()
        watcher = self.pick([-1, -1, *range(self.functions)])
        watch = None if self.sites else f"assert({self.pick([self.expression(), 'x + 3 * y', 'q + 3 * p', 'a[0] + 3 * a[1]', 'a[0] + 3 * q', 'x'])} != {NEVER});"
        lines = ["int x;", f"int y = {self.number()};" if self.chance.random() < 0.2 else "int y;", "int z;", "int a[2];", "mutex m;", "mutex n;", "cond c;"]
        locals_ = "int q; tid t; tid u;"
        for k in range(self.functions):
            lines.append(f"thread f{k}(int p) {{ {locals_} {self.body(k, watch if k == watcher else None)} }}")
        lines.append(f"main {{ int p; {locals_} {self.body(-1, watch if watcher == -1 else None)} }}")
        return "\n".join(lines) + "\n"


class Drawn:
    """A program, the bound on outcomes, and by model the search with that bound."""

    def __init__(self, text, most):
        self.text, self.most, self.code, self.wholes = text, most, machine.Code(text), {}
        self.searches = {model: Search(self.code, model, most) for model in machine.MODELS}

    def whole(self, model):
        """How runs end without a bound, and with which bound where these have too many states; None if that has too many too."""
        if model not in self.wholes:
            self.wholes[model] = None
            for most in (None, self.most + 2):
                try:
                    self.wholes[model] = Search(self.code, model, most, WHOLE_ROOM).ends, most
                    break
                except TooMany:
                    pass
        return self.wholes[model]


def drawn(seed):
    """The program of a seed."""
    chance = random.Random(seed)
    while True:
        text, most = Program(chance).text(), chance.choice([1, 2, 2, 3, 4])
        try:
            found = Drawn(aimed(text, most, chance), most)
        except TooMany:
            continue
        if is_telling(found.searches, chance):
            return found


def aimed(text, most, chance):
    """The program with a value in the place of NEVER: mostly one that needs a weak model or several outcomes."""
    fewer = Search(machine.Code(text), "pso", 1).watched
    values = {model: Search(machine.Code(text), model, most).watched for model in reversed(machine.MODELS)}
    if str(NEVER) not in text:
        return text
    choices = [values["pso"] - values["tso"], values["tso"] - values["sc"], values["pso"] - fewer, values["sc"], set(range(8)) - values["pso"]]
    weights = [8, 8, 8, 2, 2]
    some = [(sorted(it), weight) for it, weight in zip(choices, weights) if it]
    wanted, = chance.choices([it for it, _ in some], [weight for _, weight in some])
    return text.replace(str(NEVER), str(chance.choice(wanted)).replace("-", "0 - "))


def is_telling(searches, chance):
    """Programs whose answer depends on the model are all taken, and few of those that have few states."""
    failures, deadlocks = ([search.ends[kind] for search in searches.values()] for kind in KINDS)
    if len(set(failures)) > 1 or len(set(deadlocks)) > 1:
        return True
    if searches["pso"].states < 40:
        return chance.random() < 0.05
    return chance.random() < (0.5 if any(deadlocks) else 0.4 if any(failures) else 0.2)


class Differs(Exception):
    """An answer is wrong."""


class Trial:
    """The answers of a `clap_debug_find` to one program."""

    def __init__(self, find, clap_debug, folder, drawing):
        self.programs = {"find": find, "clap_debug": clap_debug}
        self.folder, self.drawing, self.most, self.code = folder, drawing, drawing.most, drawing.code
        with open(f"{folder}/p", "w") as file:
            file.write(drawing.text)

    def said(self, program, *words):
        """Status and line of a program, or None if it takes too long."""
        try:
            done = subprocess.run([self.programs[program], *words], cwd=self.folder, capture_output=True, text=True, timeout=SECONDS)
        except subprocess.TimeoutExpired:
            return None
        return done.returncode, done.stdout.rstrip("\n")

    def answer(self, model, kind):
        """What the answer was held against, in a few words. Raises Differs."""
        is_there = self.drawing.searches[model].ends[kind]
        words = ["--model", model, "--outcomes", str(self.most), "--logs", str(LOGS)] + ["--deadlock"] * (kind == "deadlock")
        said = self.said("find", "p", "o", *words)
        if said is None:
            return "no answer in time"
        status, line = said
        if status in (6, 10):
            return "open"
        if status == 0 and line.startswith("found after "):
            if not is_there:
                raise Differs(f"{line!r}, but no run with {self.most} outcomes ends so")
            self.check_log(model, kind)
            return "found"
        if status == 1 and line.startswith("none in "):
            if is_there:
                raise Differs(f"{line!r}, but some run with {self.most} outcomes ends so")
            if not line.endswith(" outcomes"):
                return self.check_whole(model, kind, line)
            if not line.endswith(f", {self.most} outcomes"):
                raise Differs(f"{line!r}, but {self.most} outcomes were asked for")
            return "none with outcomes"
        raise Differs(f"status {status}, {line!r}")

    def check_whole(self, model, kind, line):
        """Holds `none` against all runs."""
        whole = self.drawing.whole(model)
        if whole is None:
            return "none, not held against all runs"
        ends, most = whole
        if ends[kind]:
            raise Differs(f"{line!r}, but some run {'' if most is None else f'with {most} outcomes '}ends so")
        return "none" if most is None else "none, held against runs of two more outcomes"

    def check_log(self, model, kind):
        """Whether the log that is kept is within the bound, and reproduced by the schedule of `solve`."""
        with open(f"{self.folder}/o", "rb") as file:
            log = machine.Log.read(file.read())
        if log.model != model or (log.failing is None) != (kind == "deadlock"):
            raise Differs("found a log of another kind")
        if any(len(outcomes) > self.most for _, outcomes in log.threads.values()):
            raise Differs("found a log of more outcomes")
        solved = self.said("clap_debug", "solve", "p", "o", "s", "--model", model)
        if solved is None or solved[0] != 0:
            raise Differs(f"found a log of which `solve` says {solved}")
        again = self.said("clap_debug", "replay", "p", "o", "s")
        if again != (0, "reproduces"):
            raise Differs(f"found a log of whose schedule `replay` says {again}")
        with open(f"{self.folder}/s") as file:
            if not is_run(self.code, log, file.read()):
                raise Differs("found a log whose schedule isn't a run of machine.py")


def is_run(code, log, schedule):
    """Whether the moves of a schedule are a run that ends as the log says."""
    head, *lines = schedule.splitlines()
    state = machine.State(code, head.split()[2])
    for line in lines:
        word, name, *more = line.split()
        move = (word, machine.name_of(name), *([machine.name_of(more[0])] if word == "w" else map(int, more)))
        choices = [it for it in state.moves() if it[:len(move)] == move]
        if len(choices) != 1:
            return False
        state.make(choices[0])
    return machine.is_reproduced(log, state)


def shown(seed):
    found = drawn(seed)
    print(found.text, end="")
    for model, search in found.searches.items():
        print(f"// {model}, {found.most} outcomes: {search.ends}, {search.states} states; without a bound {found.whole(model)}")


def keep(folder, seed, text):
    if folder:
        os.makedirs(folder, exist_ok=True)
        kept_files.keep(f"{folder}/{seed}.tc", text)


def compared(trial, seed, name):
    """What each answer was held against; prints those that are wrong."""
    for model in machine.MODELS:
        for kind in KINDS:
            try:
                yield trial.answer(model, kind)
            except Differs as difference:
                print(f"{seed} {kind} under {model}, {trial.most} outcomes{name}: {difference}", flush=True)
                yield "WRONG"


def main(words):
    if words[:1] == ["show"] and len(words) == 2:
        return shown(int(words[1]))
    parser = argparse.ArgumentParser(usage=__doc__)
    parser.add_argument("first", type=int)
    parser.add_argument("count", type=int)
    parser.add_argument("folder", nargs="?")
    parser.add_argument("--find", action="append")
    parser.add_argument("--clap-debug", default=f"{TOP}/out/clap_debug")
    given = parser.parse_args(words)
    programs = given.find or [f"{TOP}/out/clap_debug_find"]
    counts = {find: collections.Counter() for find in programs}
    with tempfile.TemporaryDirectory() as folder:
        for seed in range(given.first, given.first + given.count):
            drawing = drawn(seed)
            for find in programs:
                trial = Trial(os.path.abspath(find), os.path.abspath(given.clap_debug), folder, drawing)
                answers = list(compared(trial, seed, f" ({find})" if len(programs) > 1 else ""))
                counts[find].update(answers)
                if "WRONG" in answers:
                    keep(given.folder, seed, drawing.text)
    for find, count in counts.items():
        print(f"{find}: {sum(count.values())} answers: " + ", ".join(f"{number} {what}" for what, number in count.most_common()))
    return 1 if any("WRONG" in count for count in counts.values()) else 0


if __name__ == "__main__":
    kept_files.run_main("find_trial.py", main)
