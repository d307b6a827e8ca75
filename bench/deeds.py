"""The deeds of a run's moves, and the links from move to move, by machine.py."""
import machine


class Deed:
    """The deed of a move. Of a drain the word is `drain`, and the source the move that issued the
    store; else the source is the move that stored what it took, or None at the start. Waiting are
    the moves whose stores wait in buffers before it."""

    def __init__(self, number, name, word, waiting):
        self.number, self.name, self.word, self.waiting = number, name, word, list(waiting)
        self.cell = self.took = self.put = self.source = self.mutex = self.condition = self.other = self.drain = None
        self.replaced = self.woken = self.sets = None

    def is_issue(self, model):
        return self.put is not None and self.word in ("store", "storeat") and model != "sc"


class History:
    """The moves of a run, and the links between them: (kind, from, to)."""

    def __init__(self, code, model, moves):
        self.code, self.model, self.deeds, self.links = code, model, [], []
        self.writers, self.waiting = {}, []
        self.freed, self.created, self.ended, self.slept, self.woken = {}, {}, {}, {}, {}
        state = machine.State(code, model)
        for number, move in enumerate(moves, 1):
            if model == "tso" and move[0] == "d":
                move = (*move, state.threads[move[1]].buffer[0][0])
            word = "drain" if move[0] == "d" else state.instr(move[1])[0]
            deed = Deed(number, move[1], word, self.waiting)
            self.deeds.append(deed)
            if move[0] == "d":
                self.drain(deed, move[2])
            else:
                self.step(deed, move, state)
            state.make(move)

    def link(self, kind, start, deed):
        if start:
            self.links.append((kind, start, deed.number))

    def drain(self, deed, cell):
        store = next(it for it in self.waiting if (it.name, it.cell) == (deed.name, cell))
        self.waiting.remove(store)
        deed.cell, deed.put, deed.source, store.drain = cell, store.put, store.number, deed.number
        self.link("drain", store.number, deed)
        self.reaches(deed, store.number)

    def reaches(self, deed, writer):
        """The value that a move puts is in memory; who stored it first is the writer."""
        deed.replaced, self.writers[deed.cell] = self.writers.get(deed.cell, (0, self.code.memory[deed.cell])), (writer, deed.put)

    def step(self, deed, move, state):
        name, thread = deed.name, state.threads[deed.name]
        word, *args = state.instr(name)
        if name in self.created:
            self.link("create", self.created.pop(name), deed)
        if word in machine.EXCHANGES | {"load", "loadat", "store", "storeat"}:
            self.access(deed, state, thread, word, args)
        elif word == "set":
            deed.sets = self.code.functions[thread.function].names["slot"].get(args[0])
        elif word in ("lock", "unlock"):
            deed.mutex, = args
        elif word in ("sleep", "wake"):
            deed.condition, deed.mutex = args
        elif word in ("signal", "broadcast"):
            deed.condition, = args
            for it in [move[2]] if move[0] == "w" else state.waiting[args[0]] if word == "broadcast" else []:
                self.woken[it] = self.slept[it].woken = deed.number
        elif word == "create":
            deed.other = name + (thread.children + 1,)
            self.created[deed.other] = deed.number
        elif word == "join":
            deed.other = thread.tids[args[0]]
            self.link("exit", self.ended[deed.other], deed)
        elif word == "exit":
            self.ended[name] = deed.number
        if word in ("lock", "wake"):
            self.link("unlock", self.freed.get(deed.mutex), deed)
        if word == "wake":
            self.link("signal", self.woken[name], deed)
        if word == "sleep":
            self.slept[name] = deed
        if word in ("unlock", "sleep"):
            self.freed[deed.mutex] = deed.number

    def access(self, deed, state, thread, word, args):
        of = lambda e: machine.value(e, thread.slots)
        first = args[0] if word.startswith("store") else args[1]
        deed.cell = first + (of(args[-2] if word == "storeat" else args[3]) if word.endswith("at") else 0)
        if not word.startswith("store"):
            own = [it.number for it in self.waiting if (it.name, it.cell) == (deed.name, deed.cell)]
            deed.took = state.load(thread, deed.cell)
            deed.source = own[-1] if own else self.writers.get(deed.cell, (None,))[0]
            self.link("take", deed.source, deed)
        given = [of(e) for e in machine.operands(word, args)[1]] if word in machine.EXCHANGES else []
        if word.startswith("store") or (given and not (word.startswith("cas") and deed.took != given[0])):
            deed.put = machine.exchanged(word, deed.took, given) if given else of(args[-1])
            if deed.is_issue(self.model):
                self.waiting.append(deed)
            else:
                self.reaches(deed, deed.number)
