#!/usr/bin/env python3
"""The output that `clap_debug_show` must have, made anew by the machine of machine.py.

  show.py text PROGRAM FILE [--moves]   the text of a schedule or a log
  show.py examples [SHOW]               compares what SHOW, or ./clap_debug_show, puts for each schedule and log of the examples
  show.py random COUNT [SHOW]           the same for schedules of random small programs, some of them cut short or with a move changed
"""
import hashlib
import os
import re
import random
import subprocess
import sys
import tempfile

sys.dont_write_bytecode = True
import machine
from kept_files import run_main

TOP = os.path.dirname(os.path.dirname(os.path.abspath(__file__)))


class Code(machine.Code):
    """Flat code, with the names of what it numbers."""

    def body(self):
        super().body()
        kinds = {"slot": {}, "tid": {}}
        for name, (kind, number) in self.scope.items():
            kinds[kind][number] = name
        self.functions[-1].names = kinds

    def program(self):
        super().program()
        self.source = [shown_line(it) for it in without_comments(self.text).split("\n")]
        self.cells, self.by_kind = {}, {}
        for name, (kind, first, *length) in self.globals.items():
            if kind == "cell":
                self.cells[first] = name
            elif kind == "array":
                self.cells.update({first + k: f"{name}[{k}]" for k in range(length[0])})
            else:
                self.by_kind[kind, first] = name


def without_comments(text):
    """The text with a blank in the place of each comment; a comment's line feeds stay."""
    blank = lambda it: " " + "\n" * it[0].count("\n") if it[0].startswith("/*") else ""
    return re.sub(r"//[^\n]*|/\*.*?\*/", blank, text, flags=re.S)


def shown_line(line):
    line = line.strip(" \t\r")
    return line if len(line) <= 60 else line[:57] + "..."


class Row:
    """A move that was made: its thread with its function, the line of its statement, its words, and the state after it. Brief are
    the words that stand where a row is a statement, or None; the step is its function's number and its place there, or None of a
    drain; saw are the names with the values that it looked at."""

    def __init__(self, thread, line, words, state, saw=(), step=None, brief=None, is_event=True):
        self.thread, self.line, self.words, self.state, self.saw, self.step, self.brief = thread, line, words, state, saw, step, brief
        self.is_event = is_event


def thread_of(code, state, name):
    return f"{machine.spelled(name)} {code.functions[state.threads[name].function].name}"


# How tightly a sign binds, that of || least.
BINDS = {sign: level for level, signs in enumerate(machine.LEVELS) for sign in signs}


def written(function, e, slots=None, level=0):
    """An expression by its names or, with slots, by the values of these, in as few parentheses as
    it needs. A side of && or || that wasn't evaluated is shown as `..`."""
    if isinstance(e, int):
        return str(e)
    if e[0] == "slot":
        origin = function.origins.get(e[1])
        if isinstance(origin, tuple) and origin[0] in ("&&", "||"):
            sign, left, right = origin
            decides = slots is not None and (machine.value(left, slots) != 0) == (sign == "||")
            own = BINDS[sign]
            sides = f"{written(function, left, slots, own)} {sign} " + (".." if decides else written(function, right, slots, own + 1))
            return f"({sides})" if own < level else sides
        if slots is not None:
            value = slots[e[1]]
            return f"({value})" if value < 0 and level >= len(machine.LEVELS) else str(value)
        if origin is None:
            return function.names["slot"][e[1]]
        return origin if isinstance(origin, str) else f"{origin[0]}[{written(function, origin[1])}]"
    if len(e) == 2:
        return e[0] + written(function, e[1], slots, len(machine.LEVELS))
    own = BINDS[e[0]]
    both = f"{written(function, e[1], slots, own)} {e[0]} {written(function, e[2], slots, own + 1)}"
    return f"({both})" if own < level else both


def condition(function, e, slots):
    return f"{written(function, e)}: {written(function, e, slots)}, {'true' if machine.value(e, slots) else 'false'}"


def choice_at(function, at):
    """The sign and sides of the && or || whose left side the instruction there, or the one before,
    has set."""
    for place in (at, at - 1):
        word, *args = function.instrs[place] if place >= 0 else ("",)
        after = function.instrs[place + 1][0] if place + 1 < len(function.instrs) else ""
        origin = function.origins.get(args[0]) if word == "set" else None
        if isinstance(origin, tuple) and origin[0] in ("&&", "||") and isinstance(args[1], int) and after == "branch":
            return origin
    return None


def ints_in(function, e):
    """The ints of the body that an expression names, in order."""
    if isinstance(e, int):
        return []
    if e[0] == "slot":
        return [e[1]] if e[1] in function.names["slot"] else []
    return [it for part in e[1:] for it in ints_in(function, part)]


LOOKS = {"set": [1], "branch": [0], "inside": [1], "loadat": [3], "assert": [0], "nonzero": [0], "inrange": [0]}


def looked_at(function, word, args, slots):
    """The ints of the body at which an instruction looks to find a value, with what they have."""
    return [(function.names["slot"][k], slots[k], True) for place in LOOKS.get(word, []) for k in ints_in(function, args[place])]


def listed(names):
    return "wakes " + ", ".join(map(machine.spelled, sorted(names))) if names else "nobody waits"


def words_of(code, before, after, move, wakers):
    """A move in words, its words where a row is a statement, and the cell and value of a load."""
    name, thread = move[1], before.threads[move[1]]
    function = code.functions[thread.function]
    word, *args = function.instrs[thread.at]
    of = lambda e: machine.value(e, thread.slots)
    fails = after.failed is not None
    mutex, cond = (lambda m: code.by_kind["mutex", m]), (lambda c: code.by_kind["cond", c])
    if word in ("load", "loadat"):
        cell = args[1] + (of(args[3]) if word == "loadat" else 0)
        took = before.load(thread, cell)
        own = ", from its own buffer" if any(it and it[0] == cell for it in thread.buffer) else ""
        return f"{code.cells[cell]}: took {took}{own}", None, (code.cells[cell], took, False)
    if word in ("store", "storeat"):
        cell = args[0] + (of(args[2]) if word == "storeat" else 0)
        put = f"{code.cells[cell]} = {of(args[-1])}"
        return (put if before.model == "sc" else f"store {put}, waits in its buffer"), None, None
    if word in machine.EXCHANGES:
        cell_of, given = machine.operands(word, args)
        cell, given, verb = cell_of(of), [of(e) for e in given], word.removesuffix("at")
        took = before.memory[cell]
        does = "put nothing" if verb == "cas" and took != given[0] else f"put {machine.exchanged(word, took, given)}"
        return f"{verb} {code.cells[cell]}: took {took}, {does}", None, None
    choice = choice_at(function, thread.at)
    values = lambda: written(function, args[0], thread.slots)

    def set_words():
        if args[0] in function.names["slot"]:
            return f"{function.names['slot'][args[0]]} = {of(args[1])}"
        sign, left, right = function.origins[args[0]]
        side = "left" if choice else "right"
        return f"{side} of {sign}: {condition(function, left if choice else right, thread.slots)}"

    def branch_words():
        if choice:
            return f"left of {choice[0]} is {'true' if of(choice[1]) else 'false'}"
        return condition(function, args[0], thread.slots)

    def wake_words():
        waker = f" by {machine.spelled(wakers[name])}" if name in wakers else ""
        return f"is awake from {cond(args[0])}{waker}, lock {mutex(args[1])}"

    def create_words():
        child = code.functions[args[1]]
        given = ", ".join(f"{child.names['slot'][k]} = {of(e)}" for k, e in enumerate(args[2:]))
        return f"creates {machine.spelled(name + (thread.children + 1,))} {child.name}({given})"

    said = {
        "set": set_words,
        "branch": branch_words,
        "goto": lambda: f"goes on at line {function.lines[args[0]]}",
        "inside": lambda: f"fails: index {of(args[1])} is outside, length {args[0]}" if fails else f"index {of(args[1])} is inside, length {args[0]}",
        "holds": lambda: f"fails: doesn't hold {mutex(args[0])}" if fails else f"holds {mutex(args[0])}",
        "ready": lambda: f"fails: {function.names['tid'][args[0]]} can't be joined" if fails else f"{function.names['tid'][args[0]]} can be joined",
        "assert": lambda: f"assertion {'fails' if fails else 'holds'}: {values()}",
        "nonzero": lambda: "fails: divisor is 0" if fails else f"divisor is {of(args[0])}",
        "inrange": lambda: f"fails: distance {of(args[0])} isn't 0 to 31" if fails else f"distance is {of(args[0])}",
        "stbar": lambda: "stbar",
        "fence": lambda: "fence",
        "exit": lambda: "exits",
        "lock": lambda: f"lock {mutex(args[0])}",
        "unlock": lambda: f"unlock {mutex(args[0])}",
        "sleep": lambda: f"sleeps on {cond(args[0])}, unlock {mutex(args[1])}",
        "wake": wake_words,
        "broadcast": lambda: f"broadcast {cond(args[0])}: {listed(before.waiting[args[0]])}",
        "signal": lambda: f"signal {cond(args[0])}: {listed([move[2]] if move[0] == 'w' else [])}",
        "create": create_words,
        "join": lambda: f"joins {machine.spelled(thread.tids[args[0]])}",
    }
    words = said[word]()
    is_read = word == "assert" or (word == "set" and args[0] in function.names["slot"]) or (word == "branch" and not choice)
    return words, words if is_read else None, None


def moves_of(text):
    """The model and the moves of a schedule."""
    first, *lines = text.splitlines()
    moves = []
    for line in lines:
        kind, name, *more = line.split()
        last = tuple(machine.name_of(it) if kind == "w" else int(it) for it in more)
        moves.append((kind, machine.name_of(name), *last))
    return first.split()[2], moves


def why_not(state, move):
    """Why a move isn't enabled, or None."""
    kind, name, *more = move
    if state.failed is not None:
        return "Stopped"
    if name not in state.threads:
        return "NoThread"
    if kind == "d":
        return None if move in state.moves_of(name) else "NoEntry"
    if kind == "r":
        why = state.why(name)
        waits = not why and state.instr(name)[0] == "signal" and state.waiting[state.instr(name)[1]]
        return "WaiterNeeded" if waits else why
    if state.threads[name].exited:
        return "Exited"
    word, *args = state.instr(name)
    if word == "signal" and state.threads[name].buffer:
        return "NotDrained"
    return None if word == "signal" and more[0] in state.waiting[args[0]] else "WrongWaiter"


def told(code, model, moves):
    """The rows of the moves that can be made, the state after them, and why the next one can't."""
    state, rows, issued, wakers = machine.State(code, model), [], {}, {}
    for move in moves:
        if model == "tso" and move[0] == "d" and move[1] in state.threads and state.threads[move[1]].buffer:
            move = (*move, state.threads[move[1]].buffer[0][0])
        why = why_not(state, move)
        if why:
            return rows, state, why
        before, state = state, state.copy()
        state.make(move)
        name, thread = move[1], before.threads[move[1]]
        function = code.functions[thread.function]
        line = function.lines[thread.at]
        if move[0] == "d":
            cell = move[2]
            line = issued[name].pop(next(k for k, it in enumerate(issued[name]) if it[0] == cell))[1]
            value = next(it[1] for it in thread.buffer if it and it[0] == cell)
            rows.append(Row(thread_of(code, before, name), line, f"{code.cells[cell]} = {value} reaches memory", state))
            continue
        word, *args = function.instrs[thread.at]
        words, brief, took = words_of(code, before, state, move, wakers)
        woken = before.waiting[args[0]] if word == "broadcast" else [move[2]] if move[0] == "w" else []
        wakers.update({it: name for it in woken})
        new = state.threads[name].buffer[len(thread.buffer):]
        issued.setdefault(name, []).extend((it[0], line) for it in new if it)
        is_silent = word in ("set", "branch", "goto") or (word in machine.SITES and state.failed is None)
        saw = looked_at(function, word, args, thread.slots) + ([took] if took else [])
        rows.append(Row(thread_of(code, before, name), line, words, state, saw, (function, thread.at), brief, not is_silent))
    return rows, state, None


def continues(row, before):
    """Whether a row is a step of the same statement as the row before it, and directly behind that."""
    if before is None or not row.step or not before.step or row.thread != before.thread:
        return False
    (function, at), (other, last) = row.step, before.step
    return function is other and function.statements[at] == function.statements[last] and last < at


def folded(rows):
    """The rows of which each is a statement or an event: its number and its words."""
    groups, before = [], None
    for number, row in enumerate(rows, 1):
        if not continues(row, before) or (row.is_event and any(it.is_event for _, it in groups[-1])):
            groups.append([])
        groups[-1].append((number, row))
        before = row
    for group in groups:
        said = [(number, row.words if row.is_event else row.brief) for number, row in group]
        said = [it for it in said if it[1] is not None]
        if said:
            number = next((number for number, row in group if row.is_event), said[0][0])
            yield number, "; ".join(words for _, words in said)


def is_step_of(row, last):
    return row.step and row.thread == last.thread


def seen_at_end(rows):
    """The values that the failing statement used: each load, and each int of the body once."""
    steps = [row for row in rows if is_step_of(row, rows[-1])]
    first = len(steps) - 1
    while first and continues(steps[first], steps[first - 1]):
        first -= 1
    found = []
    for row in steps[first:]:
        for it in row.saw:
            if not it[2] or it not in found:
                found.append(it)
    return [f"  {name} = {value}" for name, value, _ in found]


def waits_for(code, state, name):
    """A thread's wait, and who holds it, after two blanks; empty if it can go on."""
    thread, (word, *args) = state.threads[name], state.instr(name)
    if word == "join" and not state.threads[thread.tids[args[0]]].exited:
        return f"  waits for the end of {machine.spelled(thread.tids[args[0]])}"
    if word == "wake" and name in state.waiting[args[0]]:
        return f"  waits for a signal on {code.by_kind['cond', args[0]]}"
    owner = state.owners[args[-1]] if word in ("lock", "wake") else None
    if owner is None:
        return ""
    has = "it has itself" if owner == name else f"{machine.spelled(owner)} has" + (", though it has exited" if state.threads[owner].exited else "")
    return f"  waits for {code.by_kind['mutex', args[-1]]}, which {has}"


def end_of(code, rows, state, why):
    """How it ended, in lines."""
    if state.failed is not None and not why:
        last = rows[-1]
        return [f"{machine.spelled(state.failed)} fails at line {last.line}: {code.source[last.line - 1]}"] + seen_at_end(rows)
    standing = []
    for name, thread in sorted(state.threads.items()):
        if not thread.exited:
            function = code.functions[thread.function]
            line = function.lines[thread.at]
            standing.append(f"  {thread_of(code, state, name)} is at line {line}: {code.source[line - 1]}{waits_for(code, state, name)}")
    if why:
        return [f"stops at move {len(rows) + 1}: {why}"] + standing
    if not standing:
        return ["every thread has exited"]
    if not state.moves():
        return ["deadlock: no move is enabled"] + standing
    return ["the schedule ends here, other moves are enabled"] + standing


def head(code, name, model, rows):
    """The lines above the table."""
    events = [row for row in rows if row.step and row.is_event and row.words != "stbar"]
    in_order = [row for row in rows if row.is_event and row.words != "stbar" and not row.words.endswith(", waits in its buffer")]
    switches = sum(row.thread != before.thread for before, row in zip(in_order, in_order[1:]))
    digest = hashlib.sha256(code.text.encode()).hexdigest()
    return [f"{name} under {model}: moves {len(rows)}, switches {switches}, events {len(events)} of 256", f"sha256 {digest}", ""]


def schedule_text(code, name, text, by_moves):
    model, moves = moves_of(text)
    rows, state, why = told(code, model, moves)
    lines = head(code, name, model, rows)
    said = [(k, row.words) for k, row in enumerate(rows, 1)] if by_moves else list(folded(rows))
    shown = [(number, rows[number - 1], words) for number, words in said]
    thread = max([6] + [len(row.thread) for _, row, _ in shown])
    source = max([4] + [len(code.source[row.line - 1]) for _, row, _ in shown])
    before = None
    for number, row, words in shown:
        if before and before.thread != row.thread:
            lines.append("-" * (thread + source + 40))
        lines.append(f"{number:4}  {row.thread:{thread}}  {row.line:4}  {code.source[row.line - 1]:{source}}  {words}")
        before = row
    return "\n".join([*lines, "", *end_of(code, rows, state, why)]) + "\n"


def ways(code, log):
    """Of each thread its name, its function and the places of its steps with the outcome of a branch."""
    functions = {(): len(code.functions) - 1}
    for name in sorted(log.threads):
        steps, outcomes = log.threads[name]
        function, at, children, left, places = code.functions[functions[name]], 0, 0, list(outcomes), []
        for _ in range(steps):
            word, *args = function.instrs[at]
            places.append((at, None))
            at += 1
            if word == "create":
                children += 1
                functions[name + (children,)] = args[1]
            elif word == "goto":
                at = args[0]
            elif word == "branch":
                taken = left.pop(0)
                choice = choice_at(function, at - 1)
                places[-1] = (at - 1, 1 - taken if choice and choice[0] == "||" else taken)
                at = at if taken else args[1]
        yield name, function, places, at


def log_text(code, log):
    lines, end = [f"recorded under {log.model}"], []
    for name, function, places, at in ways(code, log):
        count = len(places)
        lines += ["", f"{machine.spelled(name)} {function.name}, {count} step{'' if count == 1 else 's'}"]
        went = []
        for place, taken in places:
            line = function.lines[place]
            if went and went[-1] == [line, None]:
                went.pop()
            went.append([line, taken])
        for line, taken in went:
            lines.append(f"{line:6}  {code.source[line - 1]}" + ("" if taken is None else f"  -> {'true' if taken else 'false'}"))
        if log.failing is None:
            word, *args = function.instrs[at] if not places or function.instrs[places[-1][0]][0] != "exit" else ["exited"]
            end.append({"exited": lambda: f"  {machine.spelled(name)} has exited",
                        "lock": lambda: f"  {machine.spelled(name)} can't lock {code.by_kind['mutex', args[0]]}",
                        "wake": lambda: f"  {machine.spelled(name)} waits on {code.by_kind['cond', args[0]]}",
                        "join": lambda: f"  {machine.spelled(name)} waits for the end of {machine.spelled(name)}." + str(child_of(function, places, args[0]))}[word]())
        elif name == log.failing:
            line = function.lines[places[-1][0]]
            end = [f"{machine.spelled(name)} failed at line {line}: {code.source[line - 1]}"]
    return "\n".join([*lines, "", *(["deadlock"] if log.failing is None else []), *end]) + "\n"


def child_of(function, places, tid):
    """The number of the child that a thread variable names at the end."""
    made = [function.instrs[place] for place, _ in places if function.instrs[place][0] == "create"]
    return max(k + 1 for k, it in enumerate(made) if it[1] == tid)


def text_of(program, file, by_moves):
    with open(program, newline="") as source, open(file, "rb") as given:
        code, given = Code(source.read()), given.read()
    if given.startswith(b"CLPL"):
        return log_text(code, machine.Log.read(given))
    return schedule_text(code, program, given.decode(), by_moves)


def agrees(show, program, file):
    """Whether the program puts the same, with status 0, by statements and by moves."""
    return all([agree_on(show, program, file, words) for words in ([], ["--moves"])])


def agree_on(show, program, file, words):
    came = subprocess.run([show, program, file, *words], capture_output=True, text=True)
    wanted = text_of(program, file, bool(words))
    if came.returncode == 0 and came.stdout == wanted:
        return True
    print(f"{program} {file} {' '.join(words)}\nput, with status {came.returncode}\n{came.stdout}\nand is to put\n{wanted}")
    return False


def examples():
    """Each program of the examples with each schedule and log of its name."""
    for folder, _, names in sorted(os.walk(f"{TOP}/examples")):
        for name in sorted(names):
            base, kind = os.path.splitext(name)
            if kind in (".sched", ".log"):
                yield f"{folder}/{base}.tc", f"{folder}/{name}"


def tries(count, folder):
    """Random programs, each with a schedule that is cut short or has a move changed in half of the cases."""
    import agree

    for number in range(count):
        chance = random.Random(number)
        text = agree.program(chance) if number % 2 else agree.litmus(chance)
        model = chance.choice(machine.MODELS)
        moves = machine.run(machine.Code(text), model, number, 300)[2]
        if moves and chance.random() < 0.3:
            moves = moves[:chance.randrange(len(moves))]
        if moves and chance.random() < 0.3:
            moves[chance.randrange(len(moves))] = chance.choice(moves)
        program, file = f"{folder}/{number}.tc", f"{folder}/{number}.sched"
        with open(program, "w") as out:
            out.write(text)
        with open(file, "w") as out:
            out.write(machine.schedule(model, moves))
        yield program, file


def main(words):
    match words:
        case ["text", program, file, *options] if options in ([], ["--moves"]):
            print(text_of(program, file, bool(options)), end="")
            return 0
        case ["examples", *show]:
            pairs = list(examples())
        case ["random", count, *show]:
            folder = tempfile.mkdtemp()
            pairs = list(tries(int(count), folder))
        case _:
            print(__doc__, file=sys.stderr)
            return 2
    show = show[0] if show else f"{TOP}/clap_debug_show"
    bad = [pair for pair in pairs if not agrees(show, *pair)]
    print(f"{len(pairs) - len(bad)} of {len(pairs)} agree")
    return 1 if bad else 0


if __name__ == "__main__":
    run_main("show.py", main)
