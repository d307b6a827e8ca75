#!/usr/bin/env python3
"""The language and the machine anew, in Python: what rows and examples want is found by it, and not by the program.

  machine.py record PROGRAM [--model M] [--seed N] [--steps N] [--log LOG] [--schedule OUT]
                                   the run that a seed chooses: how it ends, its log and its moves
  machine.py seeds PROGRAM COUNT [--model M]
                                   how each of the first so many seeds ends
  machine.py log PROGRAM MODEL FAILING NAME:STEPS[:OUTCOMES].. --log LOG
                                   a log by hand: FAILING is a name or `deadlock`, and OUTCOMES are 0s and 1s
  machine.py show PROGRAM LOG      a log's threads: steps, outcomes, events, the line at which each ends
  machine.py search PROGRAM LOG [--model M] [--schedule OUT]
                                   by a search over all states on the logged paths: `possible` with a schedule, or `impossible`
  machine.py fewest PROGRAM LOG [--model M] [--schedule OUT]
                                   by such a search, the fewest context switches of moves that reproduce the log, with such a
                                   schedule, or `impossible`
  machine.py explore PROGRAM [--model M] [--log LOG] [--schedule OUT]
                                   by a search over all states of a program that has finitely many: how a run fails or comes to a
                                   deadlock, with its log and its moves, or `no run fails`

What it asks of a program is docs/LANGUAGE.md's, without the faults: a text that is none ends it with an error.
"""
import argparse
import collections
import hashlib
import re

from kept_files import keep, refuse_clashes, run_main

WORD = 1 << 32
TOKEN = re.compile(r"(?:\s|//[^\n]*|/\*.*?\*/)*([A-Za-z_]\w*|\d+|<<|>>|[<>=!]=|&&|\|\||[][(){},;=+\-*/%!~<>&^|]|$)", re.S)
MODELS = ["sc", "tso", "pso"]
LEVELS = [["||"], ["&&"], ["|"], ["^"], ["&"], ["==", "!="], ["<", "<=", ">", ">="], ["<<", ">>"], ["+", "-"], ["*", "/", "%"]]
# Instructions that read and write a cell in one step, and those among them that name an element of an array.
EXCHANGES = {"swap", "cas", "add", "swapat", "casat", "addat"}
# Instructions that need an empty buffer.
DRAINED = EXCHANGES | {"lock", "unlock", "sleep", "wake", "signal", "broadcast", "create", "join", "fence", "exit"}
SITES = {"inside", "nonzero", "inrange", "holds", "ready", "assert"}
EVENTS = DRAINED | {"load", "loadat", "store", "storeat"}
# Instructions that read and write nothing that another thread can change.
OWN = SITES | {"set", "branch", "goto"}


def int32(n):
    return (n + WORD // 2) % WORD - WORD // 2


def divided(a, b):
    return 0 if b == 0 else int32(abs(a) // abs(b) * (1 if (a < 0) == (b < 0) else -1))


def operands(word, args):
    """The cell of an exchange as a function of its expressions' values, and its operands."""
    return ((lambda of: args[1] + of(args[3])), args[4:]) if word.endswith("at") else ((lambda of: args[1]), args[2:])


def exchanged(word, old, given):
    """What an exchange leaves in a cell that had this value, given the values of its operands."""
    if word.startswith("swap"):
        return given[0]
    if word.startswith("cas"):
        return given[1] if old == given[0] else old
    return int32(old + given[0])


BINARY = {
    "+": lambda a, b: int32(a + b),
    "-": lambda a, b: int32(a - b),
    "*": lambda a, b: int32(a * b),
    "/": divided,
    "%": lambda a, b: 0 if b == 0 else int32(a - b * divided(a, b)) if (a, b) != (-WORD // 2, -1) else 0,
    "<<": lambda a, b: int32(a << b) if 0 <= b <= 31 else 0,
    ">>": lambda a, b: a >> b if 0 <= b <= 31 else 0,
    "<": lambda a, b: int(a < b),
    "<=": lambda a, b: int(a <= b),
    ">": lambda a, b: int(a > b),
    ">=": lambda a, b: int(a >= b),
    "==": lambda a, b: int(a == b),
    "!=": lambda a, b: int(a != b),
    "&": lambda a, b: a & b,
    "^": lambda a, b: a ^ b,
    "|": lambda a, b: a | b,
}
UNARY = {"-": lambda a: int32(-a), "!": lambda a: int(a == 0), "~": lambda a: ~a}


class Function:
    """`origins` has, by slot, what the text has in the place of a slot of the code's own: the name of a cell, (array, index), or
    (sign, left, right) of `&&` and `||`; `statements` the number of each instruction's statement."""

    def __init__(self, name):
        self.name, self.params, self.ints, self.tids, self.instrs, self.lines = name, 0, 0, 0, [], []
        self.origins, self.statements, self.statement = {}, [], 0


class Code:
    """Flat code: an expression is a number, ("slot", k), (operator, e) or (operator, e, f)."""

    def __init__(self, text):
        self.text = text
        self.tokens, at, line = [], 0, 1
        while True:
            found = TOKEN.match(text, at)
            if not found:
                raise SystemExit(f"no token at {text[at:at + 20]!r}")
            line += text.count("\n", at, found.start(1))
            self.tokens.append((found[1], line))
            at = found.end()
            if not found[1]:
                break
        self.at, self.numbers = 0, 0
        self.memory, self.mutexes, self.conditions, self.functions, self.arity, self.globals = [], 0, 0, [], {}, {}
        self.program()

    # Tokens.
    def peek(self, ahead=0):
        return self.tokens[self.at + ahead][0]

    def next(self):
        self.at += 1
        return self.tokens[self.at - 1][0]

    def take(self, wanted):
        given = self.next()
        if given != wanted:
            raise SystemExit(f"{wanted!r} is wanted in line {self.tokens[self.at - 1][1]}, not {given!r}")

    def has(self, wanted):
        if self.peek() == wanted:
            self.at += 1
            return True
        return False

    # The text.
    def program(self):
        while self.peek() in ("int", "mutex", "cond"):
            kind, name = self.next(), self.next()
            if kind == "mutex":
                self.globals[name] = ("mutex", self.mutexes)
                self.mutexes += 1
            elif kind == "cond":
                self.globals[name] = ("cond", self.conditions)
                self.conditions += 1
            elif self.has("["):
                length = int(self.next())
                self.take("]")
                self.globals[name] = ("array", len(self.memory), length)
                self.memory += [0] * length
            else:
                sign = 0
                if self.has("="):
                    sign = -1 if self.has("-") else 1
                self.globals[name] = ("cell", len(self.memory))
                self.memory.append(sign * int(self.next()) if sign else 0)
            self.take(";")
        names = [self.tokens[k + 1][0] for k in range(self.at, len(self.tokens) - 1) if self.tokens[k][0] == "thread"]
        for number, name in enumerate(names):
            self.globals[name] = ("thread", number)
        while self.has("thread"):
            self.function = Function(self.next())
            self.scope = {}
            self.take("(")
            while not self.has(")"):
                self.has(",")
                self.take("int")
                self.scope[self.next()] = ("slot", self.slot())
                self.function.params += 1
            self.body()
        self.take("main")
        self.function, self.scope = Function("main"), {}
        self.body()
        self.take("")

    def slot(self):
        self.function.ints += 1
        return self.function.ints - 1

    def emit(self, line, *instr):
        self.function.instrs.append(list(instr))
        self.function.lines.append(line)
        self.function.statements.append(self.function.statement)
        return self.function.instrs[-1]

    def body(self):
        self.take("{")
        while self.peek() in ("int", "tid"):
            if self.next() == "int":
                self.scope[self.next()] = ("slot", self.slot())
            else:
                self.scope[self.next()] = ("tid", self.function.tids)
                self.function.tids += 1
            self.take(";")
        while self.peek() != "}":
            self.statement()
        self.emit(self.tokens[self.at][1], "exit")
        self.take("}")
        self.functions.append(self.function)

    def block(self):
        self.take("{")
        while not self.has("}"):
            self.statement()

    def here(self):
        return len(self.function.instrs)

    def of(self, name):
        return self.scope.get(name) or self.globals[name]

    def named(self, kind):
        found = self.of(self.next())
        if found[0] != kind:
            raise SystemExit(f"a {kind} is wanted in line {self.tokens[self.at - 1][1]}")
        return found[1]

    def in_brackets(self, *kinds):
        self.take("(")
        numbers = []
        for place, kind in enumerate(kinds):
            if place:
                self.take(",")
            numbers.append(self.named(kind))
        self.take(")")
        self.take(";")
        return numbers

    def statement(self):
        """One statement; what it emits has a number of its own, also behind the statements inside it."""
        self.numbers += 1
        outer, self.function.statement = self.function.statement, self.numbers
        self.one_statement()
        self.function.statement = outer

    def one_statement(self):
        line, word = self.tokens[self.at][1], self.next()
        if word == "join":
            tid, = self.in_brackets("tid")
            self.emit(line, "ready", tid)
            self.emit(line, "join", tid)
        elif word == "lock":
            self.emit(line, "lock", *self.in_brackets("mutex"))
        elif word == "unlock":
            mutex, = self.in_brackets("mutex")
            self.emit(line, "holds", mutex)
            self.emit(line, "unlock", mutex)
        elif word == "wait":
            cond, mutex = self.in_brackets("cond", "mutex")
            self.emit(line, "holds", mutex)
            self.emit(line, "sleep", cond, mutex)
            self.emit(line, "wake", cond, mutex)
        elif word in ("signal", "broadcast"):
            self.emit(line, word, *self.in_brackets("cond"))
        elif word in ("fence", "stbar"):
            self.in_brackets()
            self.emit(line, word)
        elif word == "assert":
            self.take("(")
            e = self.expression(line)
            self.take(")")
            self.take(";")
            self.emit(line, "assert", e)
        elif word == "while":
            begin = self.here()
            self.take("(")
            branch = self.emit_branch(line)
            self.block()
            self.emit(line, "goto", begin)
            branch[2] = self.here()
        elif word == "if":
            self.take("(")
            branch = self.emit_branch(line)
            self.block()
            if self.has("else"):
                over = self.emit(line, "goto", None)
                branch[2] = self.here()
                self.statement() if self.peek() == "if" else self.block()
                over[1] = self.here()
            else:
                branch[2] = self.here()
        else:
            self.assignment(line, word)

    def emit_branch(self, line):
        e = self.expression(line)
        self.take(")")
        return self.emit(line, "branch", e, None)

    def arguments(self, line):
        found = []
        while not self.has(")"):
            self.has(",")
            found.append(self.expression(line))
        return found

    def assignment(self, line, name):
        kind, number, *length = self.of(name)
        if kind == "array":
            self.take("[")
            index = self.expression(line)
            self.take("]")
            self.take("=")
            self.emit(line, "inside", length[0], index)
            self.emit(line, "storeat", number, length[0], index, self.expression(line))
        else:
            self.take("=")
            if self.has("create"):
                thread = self.named("thread")
                self.take("(")
                self.emit(line, "create", number, thread, *self.arguments(line))
            elif self.peek() in ("swap", "cas", "add") and self.peek(1) == "(":
                self.exchange(line, number)
            else:
                e = self.expression(line)
                self.emit(line, "set" if kind == "slot" else "store", number, e)
        self.take(";")

    def exchange(self, line, number):
        """What is taken from a cell or an element that is swapped, compared or added to, into the slot of that number."""
        word = self.next()
        self.take("(")
        if self.peek(1) == "[":
            kind, first, length = self.of(self.next())
            self.take("[")
            index = self.expression(line)
            self.take("]")
            self.emit(line, "inside", length, index)
            word, place = word + "at", (first, length, index)
        else:
            place = (self.named("cell"),)
        given = self.arguments(line)
        taken = self.slot()
        self.emit(line, word, taken, *place, *given)
        self.emit(line, "set", number, ("slot", taken))

    def expression(self, line, level=0):
        if level == len(LEVELS):
            return self.prefix(line)
        left = self.expression(line, level + 1)
        while self.peek() in LEVELS[level]:
            sign = self.next()
            if sign in ("&&", "||"):
                taken = self.slot()
                self.emit(line, "set", taken, int(sign == "||"))
                branch = self.emit(line, "branch", left if sign == "&&" else ("!", left), None)
                right = self.expression(line, level + 1)
                self.emit(line, "set", taken, ("!=", right, 0))
                branch[2] = self.here()
                self.function.origins[taken] = (sign, left, right)
                left = ("slot", taken)
                continue
            right = self.expression(line, level + 1)
            if sign in ("/", "%"):
                self.emit(line, "nonzero", right)
            if sign in ("<<", ">>"):
                self.emit(line, "inrange", right)
            left = (sign, left, right)
        return left

    def prefix(self, line):
        word = self.next()
        if word in UNARY:
            return (word, self.prefix(line))
        if word == "(":
            e = self.expression(line)
            self.take(")")
            return e
        if word.isdigit():
            return int(word)
        kind, number, *length = self.of(word)
        if kind == "slot":
            return ("slot", number)
        if kind == "cell":
            taken = self.slot()
            self.function.origins[taken] = word
            self.emit(line, "load", taken, number)
            return ("slot", taken)
        if kind != "array":
            raise SystemExit(f"{word} is no value, in line {line}")
        self.take("[")
        index = self.expression(line)
        self.take("]")
        self.emit(line, "inside", length[0], index)
        taken = self.slot()
        self.function.origins[taken] = (word, index)
        self.emit(line, "loadat", taken, number, length[0], index)
        return ("slot", taken)


def value(e, slots):
    if isinstance(e, int):
        return e
    if e[0] == "slot":
        return slots[e[1]]
    if len(e) == 2:
        return UNARY[e[0]](value(e[1], slots))
    return BINARY[e[0]](value(e[1], slots), value(e[2], slots))


class Thread:
    __slots__ = "function at slots tids buffer children exited outcomes steps".split()

    def copy(self):
        it = Thread()
        for slot in self.__slots__:
            setattr(it, slot, getattr(self, slot))
        return it


class State:
    """Slots, thread variables, buffers and outcomes are tuples; a buffer's entries are (cell, value), and None for a bar."""

    def __init__(self, code, model):
        self.code, self.model = code, model
        self.memory, self.owners = list(code.memory), [None] * code.mutexes
        self.waiting = [frozenset()] * code.conditions
        self.threads, self.failed = {}, None
        self.begin((), len(code.functions) - 1, ())

    def begin(self, name, number, given):
        it, function = Thread(), self.code.functions[number]
        it.function, it.at, it.children, it.exited, it.steps, it.outcomes, it.buffer = number, 0, 0, False, 0, (), ()
        it.slots = tuple(given) + (0,) * (function.ints - len(given))
        it.tids = (None,) * function.tids
        self.threads[name] = it

    def copy(self):
        it = State.__new__(State)
        it.code, it.model, it.failed = self.code, self.model, self.failed
        it.memory, it.owners, it.waiting = list(self.memory), list(self.owners), list(self.waiting)
        it.threads = dict(self.threads)
        return it

    def key(self):
        return (tuple(self.memory), tuple(self.owners), tuple(self.waiting), self.failed,
                tuple((n, t.at, t.slots, t.tids, t.buffer, t.steps) for n, t in sorted(self.threads.items())))

    def instr(self, name):
        thread = self.threads[name]
        return self.code.functions[thread.function].instrs[thread.at]

    def why(self, name):
        """Why a thread can't do its next instruction, or None."""
        thread = self.threads[name]
        if thread.exited:
            return "Exited"
        instr = self.instr(name)
        if instr[0] in DRAINED and thread.buffer:
            return "NotDrained"
        if instr[0] == "wake" and name in self.waiting[instr[1]]:
            return "NotWoken"
        if instr[0] in ("lock", "wake") and self.owners[instr[-1]] is not None:
            return "Held"
        if instr[0] == "join" and not self.threads[thread.tids[instr[1]]].exited:
            return "NotEnded"
        return None

    def drains(self, name):
        """The stores of a thread's buffer that may reach memory: places in the buffer."""
        found = {}
        for place, entry in enumerate(self.threads[name].buffer):
            if entry is None or (found and self.model == "tso"):
                break
            found.setdefault(entry[0], place)
        return [found[cell] for cell in sorted(found)]

    def moves_of(self, name):
        """Run moves, wakes and drains: ("r", name), ("w", name, waiter), ("d", name, cell)."""
        found = []
        if self.why(name) is None:
            instr = self.instr(name)
            if instr[0] == "signal" and self.waiting[instr[1]]:
                found += [("w", name, it) for it in sorted(self.waiting[instr[1]])]
            else:
                found.append(("r", name))
        buffer = self.threads[name].buffer
        return found + [("d", name, buffer[place][0]) for place in self.drains(name)]

    def moves(self):
        return [] if self.failed is not None else [it for name in sorted(self.threads) for it in self.moves_of(name)]

    def load(self, thread, cell):
        for entry in reversed(thread.buffer):
            if entry and entry[0] == cell:
                return entry[1]
        return self.memory[cell]

    def store(self, thread, cell, given):
        if self.model == "sc":
            self.memory[cell] = given
        else:
            thread.buffer += ((cell, given),)

    def make(self, move):
        """Makes an enabled move; threads that change are made anew, so that copies of states may share them."""
        name = move[1]
        thread = self.threads[name] = self.threads[name].copy()
        if move[0] == "d":
            place = next(k for k, it in enumerate(thread.buffer) if it and it[0] == move[2])
            self.memory[move[2]] = thread.buffer[place][1]
            thread.buffer = thread.buffer[:place] + thread.buffer[place + 1:]
            while thread.buffer and thread.buffer[0] is None:
                thread.buffer = thread.buffer[1:]
            return
        word, *args = self.code.functions[thread.function].instrs[thread.at]
        slots, at = thread.slots, thread.at + 1
        of = lambda e: value(e, slots)

        def put(slot, given):
            thread.slots = slots[:slot] + (given,) + slots[slot + 1:]

        thread.steps += 1
        if word in SITES:
            if not self.passes(name, word, args):
                self.failed = name
                return
        elif word == "set":
            put(args[0], of(args[1]))
        elif word == "load":
            put(args[0], self.load(thread, args[1]))
        elif word == "loadat":
            put(args[0], self.load(thread, args[1] + of(args[3])))
        elif word == "store":
            self.store(thread, args[0], of(args[1]))
        elif word == "storeat":
            self.store(thread, args[0] + of(args[2]), of(args[3]))
        elif word == "branch":
            taken = of(args[0]) != 0
            thread.outcomes += (int(taken),)
            at = at if taken else args[1]
        elif word == "goto":
            at = args[0]
        elif word == "stbar":
            if self.model == "pso" and thread.buffer:
                thread.buffer += (None,)
        elif word in EXCHANGES:
            cell_of, given = operands(word, args)
            cell = cell_of(of)
            old = self.memory[cell]
            self.memory[cell] = exchanged(word, old, [of(e) for e in given])
            put(args[0], old)
        elif word in ("lock", "wake"):
            self.owners[args[-1]] = name
        elif word == "unlock":
            self.owners[args[0]] = None
        elif word == "sleep":
            self.owners[args[1]] = None
            self.waiting[args[0]] |= {name}
        elif word == "signal":
            if move[0] == "w":
                self.waiting[args[0]] -= {move[2]}
        elif word == "broadcast":
            self.waiting[args[0]] = frozenset()
        elif word == "create":
            thread.children += 1
            child = name + (thread.children,)
            thread.tids = thread.tids[:args[0]] + (child,) + thread.tids[args[0] + 1:]
            self.begin(child, args[1], [of(e) for e in args[2:]])
        elif word == "join":
            thread.tids = thread.tids[:args[0]] + ("joined",) + thread.tids[args[0] + 1:]
        elif word == "exit":
            thread.exited = True
        thread.at = at

    def passes(self, name, word, args):
        thread = self.threads[name]
        if word == "holds":
            return self.owners[args[0]] == name
        if word == "ready":
            return thread.tids[args[0]] not in (None, "joined")
        if word == "inside":
            return 0 <= value(args[1], thread.slots) < args[0]
        if word == "inrange":
            return 0 <= value(args[0], thread.slots) <= 31
        return value(args[0], thread.slots) != 0


def spelled(name):
    return "0" + "".join(f".{k}" for k in name)


def name_of(text):
    return tuple(map(int, text.split(".")[1:]))


def schedule(model, moves):
    lines = [f"clap-schedule 1 {model}"]
    for move in moves:
        more = "" if move[0] == "r" or (move[0], model) == ("d", "tso") else f" {spelled(move[2]) if move[0] == 'w' else move[2]}"
        lines.append(f"{move[0]} {spelled(move[1])}{more}")
    return "\n".join(lines) + "\n"


class Log:
    """Failing is a name, or None for a deadlock; threads are (steps, outcomes) by name."""

    def __init__(self, model, failing, threads):
        self.model, self.failing, self.threads = model, failing, threads

    def written(self, text):
        """As bytes of format 2."""
        names = sorted(self.threads)
        failing = 255 if self.failing is None else names.index(self.failing)
        out = b"CLPL\0\2" + bytes([MODELS.index(self.model)]) + hashlib.sha256(text.encode()).digest() + bytes([len(names), failing])
        for name in names:
            steps, outcomes = self.threads[name]
            out += bytes([len(name), *name]) + steps.to_bytes(2, "big") + len(outcomes).to_bytes(2, "big")
            if outcomes:
                runs = "".join(map(str, outcomes)).replace("01", "0 1").replace("10", "1 0").split()
                out += bytes([outcomes[0]]) + b"".join(len(it).to_bytes(2, "big") for it in runs)
        return out

    @staticmethod
    def read(bytes_):
        is_new, model, at = bytes_[5] == 2, MODELS[bytes_[6]], 7 + 32 * (bytes_[5] == 2)
        count, failing = bytes_[at], bytes_[at + 1]
        at += 2
        two = lambda: int.from_bytes(bytes_[at:at + 2], "big")
        threads = {}
        for _ in range(count):
            name = tuple(bytes_[at + 1:at + 1 + bytes_[at]])
            at += 1 + len(name)
            steps, at = two(), at + 2
            branches, at = two(), at + 2
            outcomes = []
            if is_new and branches:
                outcome, at = bytes_[at], at + 1
                while len(outcomes) < branches:
                    outcomes += [outcome] * two()
                    outcome, at = 1 - outcome, at + 2
            else:
                outcomes = [bytes_[at + k // 8] >> (7 - k % 8) & 1 for k in range(branches)]
                at += (branches + 7) // 8
            threads[name] = (steps, tuple(outcomes))
        return Log(model, None if is_new and failing == 255 else sorted(threads)[failing], threads)


def words_of(seed):
    """SplitMix64."""
    while True:
        seed = (seed + 0x9E3779B97F4A7C15) % 2**64
        z = (seed ^ seed >> 30) * 0xBF58476D1CE4E5B9 % 2**64
        z = (z ^ z >> 27) * 0x94D049BB133111EB % 2**64
        yield z ^ z >> 31


def run(code, model, seed, steps):
    """The run that a seed chooses: how it ends, its last state and its moves."""
    state, made = State(code, model), []
    for word in words_of(seed):
        moves = state.moves()
        if not moves:
            return ("finished" if all(it.exited for it in state.threads.values()) else "deadlock"), state, made
        move = moves[word % len(moves)]
        state.make(move)
        made.append(move)
        if len(state.threads) > 16 or max(map(len, state.threads)) > 8 or state.threads[move[1]].steps > 65535:
            return "limit", state, made
        if state.failed is not None:
            return "failed", state, made
        if len(made) == steps:
            return "no failure", state, made


def end_of(code, end, state, made):
    """The line of `record`."""
    if end == "failed":
        thread = state.threads[state.failed]
        line = code.functions[thread.function].lines[thread.at]
        return f"failed {spelled(state.failed)} line {line} after {len(made)} moves"
    return {"deadlock": f"deadlock after {len(made)} moves", "no failure": f"no failure in {len(made)} moves"}.get(end, end)


def log_of(model, state):
    return Log(model, state.failed, {name: (it.steps, it.outcomes) for name, it in state.threads.items()})


def is_on_path(log, state, name):
    """Whether a thread is one of the log, and has gone the first part of its path there."""
    if name not in log.threads:
        return False
    steps, outcomes = log.threads[name]
    thread = state.threads[name]
    return thread.steps <= steps and thread.outcomes == outcomes[:len(thread.outcomes)]


def is_reproduced(log, state):
    if {n: (t.steps, t.outcomes) for n, t in state.threads.items()} != log.threads or state.failed != log.failing:
        return False
    return log.failing is not None or (not state.moves() and not all(t.exited for t in state.threads.values()))


def search(code, log, model):
    """Moves that reproduce a log, or None: all states on its paths, but what commutes with all others is made at once."""

    def is_alone(state, name):
        """Whether the thread's next step commutes with whatever the others do, and comes before the failing step."""
        if state.why(name) is not None or state.threads[name].steps >= log.threads[name][0]:
            return False
        word = state.instr(name)[0]
        if name == log.failing and state.threads[name].steps + 1 == log.threads[name][0]:
            return False
        return word not in EXCHANGES | {"load", "loadat", "lock", "sleep", "wake", "signal", "broadcast"} and (
            word not in ("store", "storeat") or model != "sc")

    def ways(state):
        if log.failing in state.threads:
            thread, (steps, _) = state.threads[log.failing], log.threads[log.failing]
            if thread.steps + 1 == steps and all(
                n in state.threads and state.threads[n].steps == s for n, (s, _) in log.threads.items() if n != log.failing):
                return [("r", log.failing)]
        for name in sorted(state.threads):
            if is_alone(state, name):
                return [("r", name)]
        # first the thread that went last: schedules with few switches are easier to read
        found = []
        for move in state.moves():
            thread, (steps, _) = state.threads[move[1]], log.threads[move[1]]
            is_last = move[1] == log.failing and thread.steps + 1 == steps
            if move[0] == "d" or (thread.steps < steps and not is_last):
                found.append(move)
        return found

    start = State(code, model)
    seen, stack = set(), [(start, None)]
    while stack:
        state, made = stack.pop()
        if is_reproduced(log, state):
            moves = []
            while made:
                made, move = made
                moves.append(move)
            return moves[::-1], len(seen)
        if state.failed is not None:
            continue
        last = made[1][1] if made else ()
        for move in sorted(ways(state), key=lambda it: (it[1] == last, it[0] != "d")):
            later = state.copy()
            later.make(move)
            if all(is_on_path(log, later, n) for n in (move[1], *(later.threads.keys() - state.threads.keys()))):
                key = later.key()
                if key not in seen:
                    seen.add(key)
                    stack.append((later, (made, move)))
    return None, len(seen)


def arranged(steps):
    """The moves of some steps, each with whether it is an event and whether it is a thread's own, in an order to read: what is a
    thread's own comes right after its last event, and what is neither right before its next one."""
    waiting, begun, made = {}, set(), []
    for move, is_event, is_own in steps:
        if is_event:
            begun.add(move[1])
            made += waiting.pop(move[1], []) + [move]
        elif is_own and move[1] in begun and move[1] not in waiting:
            made.append(move)
        else:
            waiting.setdefault(move[1], []).append(move)
    return made[:-1] + [it for left in waiting.values() for it in left] + made[-1:]


def fewest(code, log, model):
    """The fewest context switches of moves that reproduce a log, and such moves, or None twice: nearest states first, a switch being
    the distance."""

    def is_last(state, name):
        return name == log.failing and state.threads[name].steps + 1 == log.threads[name][0]

    def is_seen(state, move):
        """Whether an event takes place by the move, where a store that waits does so by its drain."""
        word = state.instr(move[1])[0] if move[0] != "d" else "drain"
        return word == "drain" or is_last(state, move[1]) or (word in EVENTS and not (word in ("store", "storeat") and model != "sc"))

    def ways(state):
        found = [it for it in state.moves() if it[0] == "d" or state.threads[it[1]].steps < log.threads[it[1]][0]]
        unseen = [it for it in found if not is_seen(state, it)]
        return unseen[:1] or found

    seen, queue = set(), collections.deque([(0, State(code, model), None, None)])
    while queue:
        count, state, last, made = queue.popleft()
        key = (state.key(), last)
        if key in seen:
            continue
        seen.add(key)
        if is_reproduced(log, state):
            steps = []
            while made:
                made, *step = made
                steps.append(step)
            return count, arranged(steps[::-1])
        for move in ways(state):
            is_event = is_seen(state, move)
            is_own = move[0] != "d" and state.instr(move[1])[0] in OWN
            now = move[1] if is_event else last
            later = state.copy()
            later.make(move)
            if all(is_on_path(log, later, n) for n in (move[1], *(later.threads.keys() - state.threads.keys()))):
                if last in (None, now):
                    queue.appendleft((count, later, now, (made, move, is_event, is_own)))
                else:
                    queue.append((count + 1, later, now, (made, move, is_event, is_own)))
    return None, None


def settled(state, name):
    """Makes the next steps of a thread as long as no other thread can change what they do, and gives the moves. Forgets what the
    thread did before, so that runs which meet in a state go on as one."""
    moves, places = [], set()
    while True:
        thread = state.threads[name]
        thread.steps, thread.outcomes = 0, ()
        if state.failed is not None or thread.exited or state.instr(name)[0] not in OWN:
            return moves
        if (thread.at, thread.slots) in places:
            raise SystemExit(f"{spelled(name)} goes round for ever without an access of shared memory")
        places.add((thread.at, thread.slots))
        moves.append(("r", name))
        state.make(moves[-1])


def explore(code, model):
    """How some run ends that fails or comes to a deadlock, its last state and its moves, or None where no run does; and how many
    states there are."""
    start = State(code, model)
    stack, seen = [(start, (None, settled(start, ())))], set()
    while stack:
        state, made = stack.pop()
        moves = state.moves()
        if not moves and not all(it.exited for it in state.threads.values()):
            parts, last = [], State(code, model)
            while made:
                made, part = made
                parts.append(part)
            moves = sum(parts[::-1], [])
            for move in moves:
                last.make(move)
            return ("failed" if last.failed is not None else "deadlock"), last, moves, len(seen)
        for move in moves:
            later = state.copy()
            later.make(move)
            part = [move]
            for name in sorted({move[1], *(later.threads.keys() - state.threads.keys())}):
                part += settled(later, name)
            if later.key() not in seen:
                seen.add(later.key())
                stack.append((later, (made, part)))
    return None, start, [], len(seen)


def walked(code, log):
    """Of each thread of a log its name, its function, and the instructions of its path, each as a word with its line."""
    functions = {(): len(code.functions) - 1}
    for name in sorted(log.threads):
        steps, outcomes = log.threads[name]
        function, at, children, path, ways = code.functions[functions[name]], 0, 0, [], iter(outcomes)
        for _ in range(steps):
            word, *args = function.instrs[at]
            path.append((word, function.lines[at]))
            at += 1
            if word == "create":
                children += 1
                functions[name + (children,)] = args[1]
            elif word == "goto" or (word == "branch" and not next(ways)):
                at = args[-1]
        yield name, function, path


def shown(code, log):
    """A line for each thread of a log, going along its path."""
    lines, total = [], 0
    for name, function, path in walked(code, log):
        steps, outcomes = log.threads[name]
        word, line = path[-1] if path else (None, 0)
        events = sum(it in EVENTS for it, _ in path) + (name == log.failing and word not in EVENTS)
        total += events
        bits = "".join(map(str, outcomes))
        lines.append(f"{spelled(name)} {function.name}: {steps} steps, outcomes {bits or 'none'}, {events} events, ends in line {line}")
    end = "deadlock" if log.failing is None else f"{spelled(log.failing)} fails"
    return "\n".join([f"{log.model}, {end}, {total} events", *lines])


def main(words):
    parser = argparse.ArgumentParser(usage=__doc__)
    parser.add_argument("command", choices=["record", "seeds", "log", "show", "search", "fewest", "explore"])
    parser.add_argument("program")
    parser.add_argument("words", nargs="*")
    parser.add_argument("--model", choices=MODELS)
    parser.add_argument("--seed", type=int, default=0)
    parser.add_argument("--steps", type=int, default=1000000)
    parser.add_argument("--log")
    parser.add_argument("--schedule")
    given = parser.parse_intermixed_args(words)
    logs = given.words[:1] if given.command in ("show", "search", "fewest") else []
    refuse_clashes([given.program, *logs], [given.log, given.schedule])
    with open(given.program, newline="") as file:
        text = file.read()
    code = Code(text)
    model = given.model or "sc"

    def keep_log(log):
        if given.log:
            keep(given.log, log.written(text))

    def keep_moves(model, moves):
        if given.schedule:
            keep(given.schedule, schedule(model, moves))

    if given.command == "record":
        end, state, made = run(code, model, given.seed, given.steps)
        print(end_of(code, end, state, made))
        if end in ("failed", "deadlock"):
            keep_log(log_of(model, state))
            keep_moves(model, made)
    elif given.command == "seeds":
        for seed in range(int(given.words[0])):
            print(seed, end_of(code, *run(code, model, seed, given.steps)))
    elif given.command == "explore":
        end, state, made, states = explore(code, model)
        print(end_of(code, end, state, made) if end else "no run fails", f"({states} states)")
        if end:
            keep_log(log_of(model, state))
            keep_moves(model, made)
    elif given.command == "log":
        model, failing, *threads = given.words
        parts = [it.split(":") for it in threads]
        keep_log(Log(model, None if failing == "deadlock" else name_of(failing),
                     {name_of(n): (int(steps), tuple(map(int, "".join(bits)))) for n, steps, *bits in parts}))
    else:
        with open(given.words[0], "rb") as file:
            log = Log.read(file.read())
        if given.command == "show":
            print(shown(code, log))
        elif given.command == "fewest":
            count, moves = fewest(code, log, given.model or log.model)
            print("impossible" if count is None else f"{count} switches")
            if moves is not None:
                keep_moves(given.model or log.model, moves)
        else:
            moves, states = search(code, log, given.model or log.model)
            print(f"possible, {len(moves)} moves" if moves is not None else "impossible", f"({states} states)")
            if moves is not None:
                keep_moves(given.model or log.model, moves)


if __name__ == "__main__":
    run_main("machine.py", main)
