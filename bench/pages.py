#!/usr/bin/env python3
"""Opens pages of `clap_debug_show` in a headless Chromium, steps through their moves by keys, and compares memory, buffers, mutexes,
conditions and threads with those of the machine of machine.py after each move, and the reasons of each move with those of deeds.py.
It also tries what else one does with a page: the pointer, each key, the filter, the address, the program, a narrow window.

  pages.py [SHOW]                  pages of examples, and of programs of its own, that SHOW, or ./clap_debug_show, makes
  pages.py [SHOW] --pictures       the same, and writes the pictures of docs/
  pages.py [SHOW] --speed          how long pages of 256 events and of 2,000 moves take to paint, and to step
  pages.py [SHOW] --faults         pages in which one thing is broken, each of which a test is to find

It wants Debian's package `chromium`, and nothing else beside Python.
"""
import base64
import itertools
import json
import os
import re
import secrets
import socket
import struct
import subprocess
import sys
import tempfile
import time
import urllib.request

sys.dont_write_bytecode = True
import machine
import show
from deeds import History
from kept_files import keep, run_main

PAGES = ["buffering/p", "once/p", "deadlock/p", "dekker/p", "signal/p", "late", "odd", "locals"]

# A program whose threads move in another order than that of their names, and one of which, 0.11, never moves.
LATE = "int x;\nthread one() {\n    x = x + 1;\n}\nmain {\n    tid t;\n" + "    t = create one();\n" * 11 + "    assert(x == 1);\n}\n"

# A program whose text would end the page, or begin something in it, if it were taken as HTML.
ODD = """int x; // </script><script>alert(1)</script> <b>&amp; "it's" \u00e9\u2028
/* <!-- ]]> */ main {
\tx = 1; /* </code></ol> */ /* ${x} `x` \\u0041 */
\tassert(x < 1 && x > 0);
}
"""

# A program whose assertion looks at ints of its own alone, and which takes one value often.
LOCALS = """int x;
thread put() {
    x = 1;
}
main {
    tid t;
    int before;
    int after;
    before = x + 2;
    t = create put();
    join(t);
    while (after < 8) {
        after = after + x;
    }
    after = x;
    assert(after < before - 1);
}
"""

# Two threads that count under a mutex, in some 40 moves a round.
LONG = """int x;
int y;
mutex m;
thread count() {
    int i;
    while (i < 100) {
        lock(m);
        x = x + 1;
        unlock(m);
        y = y + x;
        i = i + 1;
    }
}
main {
    tid a;
    tid b;
    a = create count();
    b = create count();
    join(a);
    join(b);
    assert(x == 0);
}
"""

# The faults of --faults: example, test that must find it, text of the page, replacement.
FAULTS = [
    ("deadlock/p", "steps", "lock(state, move) { state.owners[move.mutex] = move.lane; }", "lock() {}"),
    ("once/p", "steps", "state.freed[move.mutex] = move.number; }", "}; const free = (state, move) => { state.freed[move.mutex] = move.number; }"),
    ("signal/p", "steps", "is: 'asleep', on: move.condition", "on: move.condition"),
    ("buffering/p", "steps", "state.threads[move.other].is = 'joined'", ""),
    ("buffering/p", "steps", "lines[place - 1]?.append(tag)", ""),
    ("buffering/p", "steps", "if (move.isStep) thread.next = move.next", ""),
    ("buffering/p", "reasons", "...newer.map(", "...[].map("),
    ("buffering/p", "reasons", "[' until ', drainOf(store)]", "['']"),
    ("buffering/p", "reasons", "made.href = `#m${n}`", "made.href = '#m1'"),
    ("buffering/p", "reasons", "if (isLinked) run.focus", "if (false) run.focus"),
    ("buffering/p", "reasons", "...move.fails ? looked(move) : []", ""),
    ("locals", "reasons", "takes.slice(0, 6)", "takes.slice(0, 5)"),
    ("locals", "reasons", "...sets.map(", "...[].map("),
    ("signal/p", "reasons", "move.woken ? ['woken by ', move.woken] : ['never woken in this run']", ""),
    ("signal/p", "reasons", "link('unlock', so.freed[move.mutex], move)", ""),
    ("buffering/p", "ordering", "link('create', thread.created, move)", ""),
    ("buffering/p", "ordering", "link('exit', so.threads[move.other].ended, move)", ""),
    ("signal/p", "ordering", "link('unlock', so.freed[move.mutex], move)", "link('unlock', so.freed[move.mutex] && 1, move)"),
    ("buffering/p", "ordering", "orders || isAccess(kind)", "true"),
    ("buffering/p", "folding", "folds && moves[i].folds", "false"),
    ("dekker/p", "folding", "sheet.classList.toggle('each', !folds)", ""),
    ("buffering/p", "folding", "if (moves[n - 1].folds) press('each', true);", ""),
    ("buffering/p", "program", "<li><code>", "<li style=\"display: none\"><code>"),
    ("buffering/p", "program", "lines.indexOf(event.target.closest('li')) + 1", "0"),
    ("buffering/p", "program", "by('program').hidden = !isOn('text');\n    draw();", ""),
    ("buffering/p", "walks", "l: () => next(1, isHere)", "l: () => at"),
    ("buffering/p", "reading", "aria-pressed=\"false\">order", "tabindex=\"-1\">order"),
    ("buffering/p", "reading", "${spoken(why)}", ""),
    ("buffering/p", "narrow", "max-height: 34%", "height: 90%"),
    ("late", "look", ".sort(byName)", ""),
    ("odd", "program", "`&#${c.charCodeAt(0)};`", "c"),
    ("buffering/p", "reasons", "store.number : writers[cell] ?? 0", "store.number : 0"),
    ("buffering/p", "reasons", "it.step === step", "true"),
    ("buffering/p", "walks", "before >= 0 && before !== lane", "false"),
]

# Requests of events, but for a store, and the failing step.
EVENTS = machine.EXCHANGES | {"load", "loadat", "fence", "exit", "lock", "unlock", "sleep", "wake", "broadcast", "signal", "create", "join"}


class Browser:
    """One tab, spoken to over a WebSocket."""

    def __init__(self, folder):
        words = ["--headless", "--no-sandbox", "--disable-gpu", "--hide-scrollbars", "--remote-debugging-port=0", "--remote-allow-origins=*"]
        self.process = subprocess.Popen(["chromium", *words, f"--user-data-dir={folder}", "about:blank"], stderr=subprocess.PIPE, text=True)
        for line in self.process.stderr:
            if "DevTools listening on " in line:
                port = line.split("://")[1].split("/")[0].split(":")[1]
                break
        with urllib.request.urlopen(f"http://127.0.0.1:{port}/json/list") as tabs:
            tab = next(it for it in json.load(tabs) if it["type"] == "page")
        path = tab["webSocketDebuggerUrl"].split(port, 1)[1]
        self.socket = socket.create_connection(("127.0.0.1", int(port)))
        self.reader = self.socket.makefile("rb")
        key = base64.b64encode(secrets.token_bytes(16)).decode()
        self.socket.sendall((f"GET {path} HTTP/1.1\r\nHost: 127.0.0.1:{port}\r\nUpgrade: websocket\r\nConnection: Upgrade\r\n"
                             f"Sec-WebSocket-Key: {key}\r\nSec-WebSocket-Version: 13\r\n\r\n").encode())
        while self.reader.readline() != b"\r\n":
            pass
        self.number = 0
        self.ask("Page.enable")

    def message(self):
        """The next whole message."""
        text = b""
        while True:
            first, length = self.reader.read(2)
            if length == 126:
                length, = struct.unpack(">H", self.reader.read(2))
            elif length == 127:
                length, = struct.unpack(">Q", self.reader.read(8))
            text += self.reader.read(length)
            if first & 0x80:
                return json.loads(text)

    def ask(self, method, **words):
        """Sends a command, and gives its result."""
        self.number += 1
        text = json.dumps({"id": self.number, "method": method, "params": words}).encode()
        mask = secrets.token_bytes(4)
        head = struct.pack(">BBH", 0x81, 0xFE, len(text)) if len(text) < 65536 else struct.pack(">BBQ", 0x81, 0xFF, len(text))
        self.socket.sendall(head + mask + bytes(b ^ mask[k % 4] for k, b in enumerate(text)))
        while True:
            came = self.message()
            if came.get("id") == self.number:
                if "error" in came:
                    raise SystemExit(f"{method}: {came['error']}")
                return came["result"]

    def value(self, code):
        came = self.ask("Runtime.evaluate", expression=code, returnByValue=True)
        if "exceptionDetails" in came:
            raise SystemExit(f"{code}: {came['exceptionDetails']}")
        return came["result"].get("value")

    def open(self, url):
        self.ask("Page.navigate", url=url)
        while self.value("document.readyState + location.href") != f"complete{url}":
            time.sleep(0.02)

    def press(self, key, times=1):
        for _ in range(times):
            for kind in ("keyDown", "keyUp"):
                self.ask("Input.dispatchKeyEvent", type=kind, key=key)

    def size(self, width, height):
        self.ask("Emulation.setDeviceMetricsOverride", width=width, height=height, deviceScaleFactor=1, mobile=False)

    def point(self, what, kind="mouseMoved", **words):
        """Moves the pointer onto an element, over a place beside it, or presses it there."""
        x, y = self.value(f"(() => {{ const box = document.querySelector('{what}').getBoundingClientRect();"
                          "return [box.left + box.width / 2, box.top + box.height / 2]; })()")
        if kind == "mouseMoved":
            self.ask("Input.dispatchMouseEvent", type=kind, x=x + 3, y=y, **words)
        self.ask("Input.dispatchMouseEvent", type=kind, x=x, y=y, **words)

    def click(self, what):
        self.point(what)
        for kind in ("mousePressed", "mouseReleased"):
            self.point(what, kind, button="left", clickCount=1)

    def picture(self, name, width, height, scheme):
        self.size(width, height)
        self.ask("Emulation.setEmulatedMedia", features=[{"name": "prefers-color-scheme", "value": scheme}])
        time.sleep(0.2)
        keep(name, base64.b64decode(self.ask("Page.captureScreenshot", format="png")["data"]))

    def __enter__(self):
        return self

    def __exit__(self, *_):
        self.process.terminate()
        self.process.wait()


def said(browser):
    """The page's present state: its place, memory, and each thread's buffer."""
    return browser.value("""({
      at: document.getElementById('at').textContent,
      marked: [...document.querySelectorAll('.row.at')].map(row => row.id),
      memory: [...document.querySelectorAll('#memory tr')].map(row => [row.cells[0].textContent, row.cells[1].textContent]),
      buffers: [...document.querySelectorAll('#buffers p')].map(p => p.textContent),
      mutexes: [...document.querySelectorAll('#mutexes tr')].map(row => [row.cells[0].textContent, row.cells[1].textContent]),
      conditions: [...document.querySelectorAll('#conditions tr')].map(row => [row.cells[0].textContent, row.cells[1].textContent]),
      threads: [...document.querySelectorAll('#threads tr')].map(row => [row.cells[0].textContent, row.cells[1].textContent]),
      lines: [...document.querySelectorAll('#program b')].map(tag => [tag.textContent, [...document.querySelectorAll('#program li')].indexOf(tag.closest('li')) + 1]),
      line: [...document.querySelectorAll('#program li')].findIndex(line => line.classList.contains('now')) + 1,
      arrows: document.querySelectorAll('#arrows path.now').length,
    })""")


def wanted(page, number):
    """The same, by the machine; the arrow is one where the move takes a value that a move before stored, or drains."""
    code, rows = page.code, page.rows
    state = rows[number - 1].state if number else machine.State(code, page.model)
    titled = lambda name: show.thread_of(code, page.state, name)
    waits = [(name, [it for it in thread.buffer if it]) for name, thread in sorted(state.threads.items())]
    lines = {name: line_of(code, thread) for name, thread in sorted(state.threads.items()) if not thread.exited}
    return {
        "at": f"after move {number} of {len(rows)}",
        "marked": [f"m{number}"] if number else [],
        "memory": [[code.cells[k], str(it)] for k, it in enumerate(state.memory)],
        "buffers": sorted(f"{titled(name)}: " + ", ".join(f"{code.cells[c]} = {v}" for c, v in buffer) for name, buffer in waits if buffer),
        "mutexes": [[code.by_kind["mutex", k], "free" if owner is None else titled(owner)] for k, owner in enumerate(state.owners)],
        "conditions": [[code.by_kind["cond", k], ", ".join(map(titled, sorted(asleep))) or "nobody waits"] for k, asleep in enumerate(state.waiting)],
        "threads": [[titled(name), thread_words(page, state, number, name)] for name in sorted(page.state.threads)],
        "lines": sorted([machine.spelled(name), line] for name, line in lines.items()),
        "line": rows[number - 1].line if number else 0,
    }


def line_of(code, thread):
    return code.functions[thread.function].lines[thread.at]


def thread_words(page, state, number, name):
    """A thread's state after that many moves, in the words of the page."""
    code, thread = page.code, state.threads.get(name)
    if thread is None:
        return "not created"
    if thread.exited:
        return "joined" if any(it.word == "join" and it.other == name for it in page.history.deeds[:number]) else "exited"
    word, *args = state.instr(name)
    line = f"line {line_of(code, thread)}"
    if word == "wake" and name in state.waiting[args[0]]:
        return f"asleep on {code.by_kind['cond', args[0]]}, {line}"
    words = ["failed"] if state.failed == name else ["woken"] if word == "wake" else []
    words.append(line)
    if word in ("lock", "wake") and state.owners[args[-1]] is not None:
        words.append(f"waits for {code.by_kind['mutex', args[-1]]}")
    if word == "join" and not state.threads[thread.tids[args[0]]].exited:
        words.append(f"waits for {show.thread_of(code, state, thread.tids[args[0]])}")
    return ", ".join(words)


def is_seen(browser, number):
    """Whether a move's row lies within the window, and nothing lies over it."""
    return browser.value(f"""(() => {{
      const box = document.querySelector('#m{number} .deed').getBoundingClientRect();
      const seen = y => document.elementFromPoint(box.left + box.width / 2, y)?.closest('.row')?.id === 'm{number}';
      return seen(box.top + 1) && seen(box.bottom - 1);
    }})()""")


def events_of(code, model, moves):
    """The numbers of the moves by which events take place."""
    state, events = machine.State(code, model), []
    for number, move in enumerate(moves, 1):
        word = state.instr(move[1])[0]
        state.make((*move[:2], state.threads[move[1]].buffer[0][0]) if model == "tso" and move[0] == "d" else move)
        stores = word in ("store", "storeat") and model == "sc"
        if move[0] != "r" or word in EVENTS or stores or state.failed is not None:
            events.append(number)
    return events


class Page:
    """A page, with the machine's facts of its moves."""

    def __init__(self, name, program, schedule, file):
        with open(program) as source, open(schedule) as given:
            self.code = show.Code(source.read())
            self.model, self.moves = show.moves_of(given.read())
        self.name, self.program, self.file = name, program, file
        self.rows, self.state, self.why = show.told(self.code, self.model, self.moves)
        made = self.moves[:len(self.rows)]
        self.events, self.history = events_of(self.code, self.model, made), History(self.code, self.model, made)
        self.folded = dict(show.folded(self.rows))

    def switches(self):
        """The numbers of the events that are of another thread than the event before."""
        return [n for m, n in zip(self.events, self.events[1:]) if self.moves[m - 1][1] != self.moves[n - 1][1]]

    def cell(self, number):
        """The name of the cell that a move accesses, or None."""
        return self.code.cells.get(self.history.deeds[number - 1].cell)

    def called(self, number):
        return f"move {number} ({self.rows[number - 1].thread})"

    def reasons(self, number):
        """Why a move did what it did, in lines, each with the moves that it names."""
        deed, linked = self.history.deeds[number - 1], {
            "create": ("created by ", "first step: "), "unlock": ("the mutex was freed by ", "next to lock it: "),
            "signal": ("woken by ", "wakes "), "exit": ("the thread exited by ", "joined by ")}
        lines = [] if deed.took is None else self.taken(deed)
        if deed.put is not None:
            lines += self.stored(deed)
        lines += self.takers(number)
        if self.rows[number - 1].state.failed is not None:
            lines += self.looked(deed)
        if deed.word == "sleep":
            lines.append((f"woken by {self.called(deed.woken)}", [deed.woken]) if deed.woken else ("never woken in this run", []))
        for kind, came, goes in self.history.links:
            if goes == number and kind in linked:
                lines.append((linked[kind][0] + self.called(came), [came]))
        for kind, came, goes in self.history.links:
            if came == number and kind in linked:
                lines.append((linked[kind][1] + self.called(goes), [goes]))
        return lines

    def takers(self, number):
        """The moves that take the value of a move, the first six by name."""
        all_of_them = [goes for kind, came, goes in self.history.links if (kind, came) == ("take", number)]
        named, more = all_of_them[:6], len(all_of_them) - 6
        text = f"value taken by {', '.join(map(self.called, named))}" + (f", and {more} more" if more > 0 else "")
        return [(text, named)] if named else []

    def looked(self, deed):
        """The values that the failing statement took, who stored these, and which move set each
        int."""
        lines, line = [], self.rows[deed.number - 1].line
        steps = [it for it in self.history.deeds[:deed.number - 1] if it.name == deed.name and it.word != "drain"][::-1]
        for it in itertools.takewhile(lambda it: self.rows[it.number - 1].line == line, steps):
            if it.took is not None:
                source = f", and stored by {self.called(it.source)}" if it.source else " from the start"
                text = f"{self.code.cells[it.cell]} = {it.took} was taken by {self.called(it.number)}{source}"
                lines.insert(0, (text, [it.number] + [it.source] * bool(it.source)))
        for name in dict.fromkeys(re.findall(r"[A-Za-z_]\w*", self.code.source[line - 1])):
            place = next((k for k, it in enumerate(steps) if it.sets == name), None)
            if place is not None:
                number = steps[place].number
                same = itertools.takewhile(lambda it: self.rows[it.number - 1].line == self.rows[number - 1].line, steps[place:])
                home = next((it.number for it in same if it.number in self.folded), number)
                lines.append((f"{self.rows[number - 1].words} was set by {self.called(home)}", [home]))
        return lines

    def taken(self, deed):
        """Where the value came from that a move took, and the newer ones that wait in buffers of others."""
        cell, is_own = self.code.cells[deed.cell], any(it.number == deed.source for it in deed.waiting)
        if deed.source is None:
            lines = [(f"{cell} = {deed.took} is its value at the start", [])]
        else:
            lines = [(f"{cell} = {deed.took} was stored by {self.called(deed.source)}{', in its own buffer' if is_own else ''}", [deed.source])]
        for it in deed.waiting:
            if it.cell == deed.cell and it.name != deed.name and not is_own:
                end = f" until {self.called(it.drain)}" if it.drain else " to the end"
                lines.append((f"newer: {cell} = {it.put} of {self.called(it.number)} waits in a buffer{end}", [it.number] + [it.drain] * bool(it.drain)))
        return lines

    def stored(self, deed):
        """The further way of a value that a move stores, and the value that it replaces."""
        if deed.is_issue(self.model):
            return [(f"reaches memory by {self.called(deed.drain)}", [deed.drain])] if deed.drain else [("never reaches memory in this run", [])]
        writer, value = deed.replaced
        old = f"replaces {self.code.cells[deed.cell]} = {value}"
        replaces = (f"{old} of {self.called(writer)}", [writer]) if writer else (f"{old}, its value at the start", [])
        return [(f"stored by {self.called(deed.source)}", [deed.source]), replaces] if deed.word == "drain" else [replaces]

    def accesses(self, cell):
        return [n for n in range(1, len(self.rows) + 1) if self.cell(n) == cell]


def unfold(browser, page):
    """Opens a page, and has it show each step."""
    browser.open(f"file://{page.file}")
    browser.press("m")


def steps(browser, page):
    """Goes through a page's moves by keys, and says where it differs."""
    example, rows = page.name, page.rows
    unfold(browser, page)
    count, bad = len(rows), []

    def look(how, number):
        came = said(browser)
        arrows = came.pop("arrows")
        came["buffers"].sort()
        came["lines"].sort()
        is_to_be = wanted(page, number)
        bad.extend(f"{example}, {how}, {part}: {came[part]}, and is to be {is_to_be[part]}" for part in is_to_be if came[part] != is_to_be[part])
        if number and rows[number - 1].words.endswith(" reaches memory") and arrows != 1:
            bad.append(f"{example}, {how}: {arrows} arrows lead to a drain")
        if number and not is_seen(browser, number):
            bad.append(f"{example}, {how}: move {number} isn't in view")

    look("opened", max(page.folded))
    for keys, numbers in ((["Home"], [1]), (["k"], [0]), (["j", "ArrowDown"] * count, range(1, count + 1)), (["j"], [count]),
                          (["k", "ArrowUp"] * count, range(count - 1, -1, -1)), (["k"], [0]), (["End"], [count]), (["Home"], [1])):
        for key, number in zip(keys, numbers):
            browser.press(key)
            look(f"{key} to {number}", number)
    go(browser, 3)
    look("#m3", 3)
    wide = browser.value("document.documentElement.scrollWidth <= innerWidth")
    outside = browser.value("performance.getEntriesByType('resource').length")
    if not wide or outside:
        bad.append(f"{example}: {'' if wide else 'wider than the window, '}{outside} other files")
    return bad


def at(browser):
    """The number of the selected move."""
    return browser.value("+(document.querySelector('.row[aria-current]') ?? document.querySelector('.row.at'))?.id.slice(1)")


def go(browser, number):
    """Opens the address of a move, and waits until that is selected, at most five seconds."""
    browser.value(f"location.hash === '#m{number}' ? dispatchEvent(new Event('hashchange')) : location.hash = '#m{number}'")
    reaches(browser, number)


def reaches(browser, number):
    """Waits until a move is selected, at most five seconds."""
    end = time.monotonic() + 5
    while at(browser) != number and time.monotonic() < end:
        time.sleep(0.02)


def differs(page, what, came, wanted):
    return [] if came == wanted else [f"{page.name}, {what}: {came}, and is to be {wanted}"]


def resting(browser, page):
    """Steps while the pointer rests over a lane, so that rows come under it."""
    unfold(browser, page)
    browser.press("Home")
    browser.point(f"#m{min(6, len(page.rows))} .deed")
    came = []
    for _ in page.rows[1:]:
        browser.press("j")
        time.sleep(0.03)
        came.append(at(browser))
    return differs(page, "steps under a pointer that rests", came, list(range(2, len(page.rows) + 1)))


def look(browser, page):
    """A page as it opens: its title, its lanes, and how the run ended."""
    browser.open(f"file://{page.file}")
    lanes = browser.value("[...document.querySelectorAll('.head > [data-lane]')].map(head => head.textContent)")
    counts = f"{len(page.rows)} move{'s'[len(page.rows) == 1:]}, {len(page.switches())} switch{'es' if len(page.switches()) != 1 else ''}"
    failed = page.state.failed is not None or not page.state.moves()
    is_marked = browser.value("getComputedStyle(document.querySelector('pre')).borderLeftColor"
                              " === getComputedStyle(document.body.appendChild(Object.assign(document.createElement('pre'),"
                              " { className: 'fail' }))).borderLeftColor")
    return [*differs(page, "lanes", lanes, [show.thread_of(page.code, page.state, it) for it in sorted(page.state.threads)]),
            *differs(page, "title", browser.value("document.title"), f"{page.program} under {page.model}: {counts}"),
            *differs(page, "the mark of a failure", is_marked, failed and not page.why)]


def walks(browser, page):
    """Goes along the events, switches, accesses of a cell and moves at a line, on and back."""
    unfold(browser, page)
    cell = next((it for it in map(page.cell, range(1, len(page.rows) + 1)) if it), None)
    bad, last = [], len(page.rows)
    lines = [row.line for row in page.rows]
    here = [n for n, line in enumerate(lines, 1) if line == max(lines, key=lines.count)]
    for key, start, numbers in (("e", 1, page.events), ("s", 1, page.switches()), ("c", 1, page.accesses(cell) if cell else []), ("l", here[0], here)):
        go(browser, start)
        number = start
        for way, known in ((key, lambda n: min((it for it in numbers if it > n), default=n)),
                           (key.upper(), lambda n: max((it for it in numbers if it < n), default=n))):
            for _ in range(len(numbers) + 1):
                browser.press(way)
                number = known(number)
                bad += differs(page, f"key {way}", at(browser), number)
    browser.press("Home")
    browser.press("f")
    bad += differs(page, "key f", at(browser), last)
    browser.press("PageUp")
    bad += differs(page, "key PageUp", at(browser), max(1, last - 10))
    browser.press("PageDown")
    bad += differs(page, "key PageDown", at(browser), last)
    for key, other in (("j", 2), ("f", 1)):  # with Ctrl, Meta or Alt a key is the browser's
        browser.press("Home")
        browser.ask("Input.dispatchKeyEvent", type="keyDown", key=key, modifiers=other)
        bad += differs(page, f"modifier {other} with {key}", at(browser), 1)
    is_open = "document.getElementById('keys').open"
    browser.press("?")
    bad += differs(page, "the list of keys", browser.value(is_open), True)
    browser.press("j")
    bad += differs(page, "j while the list is open", at(browser), 1)
    browser.value("document.querySelector('#keys button').click()")
    bad += differs(page, "the list of keys, closed", browser.value(is_open), False)
    browser.click("#help")
    return bad + differs(page, "the button for keys", browser.value(is_open), True)


def pointing(browser, page):
    """Points at moves, pins one by a click, and opens the address that follows."""
    unfold(browser, page)
    place = "[document.querySelector('.row.at').id, document.querySelector('.row[aria-current]').id, document.getElementById('at').textContent]"
    text = lambda shown, pinned: [f"m{shown}", f"m{pinned}", f"after move {shown} of {len(page.rows)}"]
    last, bad = len(page.rows), []
    browser.press("Home")
    browser.point("#m2 .deed")
    bad += differs(page, "pointed at move 2", browser.value(place), text(2, 1))
    browser.click("#m4 .deed")
    bad += differs(page, "a click on move 4", browser.value(place), text(4, 4))
    browser.point("#m3 .deed")
    bad += differs(page, "pointed at move 3", browser.value(place), text(3, 4))
    browser.point("h1")
    bad += differs(page, "pointed elsewhere", browser.value(place), text(4, 4))
    time.sleep(0.2)
    address = browser.value("location.href")
    bad += differs(page, "address", address, f"file://{page.file}#m4")
    browser.press("End")
    time.sleep(0.2)
    bad += differs(page, "address after a key", browser.value("location.hash"), f"#m{last}")
    browser.open("about:blank")
    browser.open(address)
    return bad + differs(page, "the address opened", browser.value(place), text(4, 4)) + differs(page, "move 4 in view", is_seen(browser, 4), True)


def filtering(browser, page):
    """Shows one thread or cell alone, steps, and shows all again."""
    unfold(browser, page)
    names = sorted(page.state.threads)
    count = range(1, len(page.rows) + 1)
    choices = {f"lane {k}": [n for n in count if page.moves[n - 1][1] == it] for k, it in enumerate(names)}
    choices |= {f"cell {k}": page.accesses(it) for k, it in page.code.cells.items()}
    choices = {it: numbers for it, numbers in choices.items() if numbers}
    offered = browser.value("[...document.querySelectorAll('#filter option')].map(option => option.value)")
    bad = differs(page, "what the filter offers", offered, ["", *choices])
    seen = "[...document.querySelectorAll('#moves > .row')].filter(row => row.offsetHeight).map(row => +row.id.slice(1))"
    ends = "[...document.querySelectorAll('#arrows path')].length"
    arrows = browser.value(ends)
    for choice, numbers in choices.items():
        browser.press("End")
        browser.value(f"filter.value = '{choice}', filter.dispatchEvent(new Event('change'))")
        bad += differs(page, choice, browser.value(seen), numbers)
        bad += differs(page, f"{choice}, selected", at(browser), numbers[-1])
        browser.press("Home")
        came = [at(browser)]
        for _ in numbers[1:]:
            browser.press("j")
            came.append(at(browser))
        bad += differs(page, f"{choice}, stepping", came, numbers)
        bad += differs(page, f"{choice}, in view", is_seen(browser, numbers[-1]), True)
        browser.press("f")
        bad += differs(page, f"{choice}, then f", at(browser), len(page.rows))
        browser.press("Escape")
        bad += differs(page, "all again", [browser.value(seen), browser.value(ends)], [list(count), arrows])
    browser.press("/")
    bad += differs(page, "key /", browser.value("document.activeElement.id"), "filter")
    browser.press("j")
    bad += differs(page, "j in the filter", at(browser), len(page.rows))
    browser.press("Enter")
    browser.press("k")
    return bad + differs(page, "k after the filter", at(browser), len(page.rows) - 1)


def reading(browser, page):
    """The page's words for screen readers, and its use by the keyboard alone."""
    unfold(browser, page)
    browser.press("Home")
    browser.press("j")
    row = page.rows[1]
    why = "".join(f". {text}" for text, _ in page.reasons(2))
    said = f"move 2 of {len(page.rows)}, {row.thread}, line {row.line}: {page.code.source[row.line - 1]} {row.words}{why}"
    bad = differs(page, "read out", browser.value("document.querySelector('[aria-live=polite]').textContent"), said)
    browser.press("k")
    browser.press("k")
    bad += differs(page, "read out at the start", browser.value("document.querySelector('[aria-live=polite]').textContent"), "before the first move")
    reached = [""]
    while reached[-1] != "run" and len(reached) < 12:
        browser.ask("Input.dispatchKeyEvent", type="keyDown", key="Tab", code="Tab", windowsVirtualKeyCode=9)
        reached.append(browser.value("document.activeElement.id"))
    # a long summary, which scrolls, is reached too, and has no name
    bad += differs(page, "reached by Tab", [it for it in reached if it], ["filter", "each", "orders", "text", "help", "program", "run"])
    nodes = browser.ask("Accessibility.getFullAXTree")["nodes"]
    parts = {(it["role"]["value"], it.get("name", {}).get("value")) for it in nodes if "role" in it}
    wanted = {("region", "moves"), ("region", "program"), ("complementary", "state"), ("combobox", "show"), ("button", "keys ?"),
              ("button", "each step m"), ("button", "order h"), ("button", "program p")}
    return bad + differs(page, "parts", sorted(wanted - parts), [])


def reasons(browser, page):
    """Looks why each move did what it did, and goes along what leads from move to move, and back."""
    unfold(browser, page)
    browser.press("Home")
    bad = []
    for number in range(1, len(page.rows) + 1):
        why = browser.value("[...document.querySelectorAll('#why p')].map(line => [line.textContent, [...line.querySelectorAll('a')].map(a => +a.hash.slice(2))])")
        bad += differs(page, f"why move {number}", why, [list(it) for it in page.reasons(number)])
        browser.press("j")
    for kind in sorted({it[0] for it in page.history.links}):
        start, end = next(it[1:] for it in page.history.links if it[0] == kind)
        go(browser, end)
        for goes in (start, end):
            browser.value(f"document.querySelector('#why a[href=\"#m{goes}\"]').focus()")
            browser.ask("Input.dispatchKeyEvent", type="keyDown", key="Enter", code="Enter", windowsVirtualKeyCode=13, text="\r")
            reaches(browser, goes)
            focus = browser.value("document.activeElement.id")
            bad += differs(page, f"{kind} along to {goes}", [at(browser), is_seen(browser, goes), focus], [goes, True, "run"])
    return bad


def ordering(browser, page):
    """Switches the arrows on and off that show what happens before what."""
    unfold(browser, page)
    count = "[...document.querySelectorAll('#arrows .order')].length"
    orders = [it for it in page.history.links if it[0] not in ("take", "drain")]
    bad = differs(page, "arrows of order at first", browser.value(count), 0)
    browser.press("h")
    bad += differs(page, "arrows of order", browser.value(count), len(orders))
    bad += differs(page, "order is on", browser.value("document.getElementById('orders').getAttribute('aria-pressed')"), "true")
    for _, start, end in orders:
        go(browser, end)
        ends = browser.value(f"""(() => {{
          const frame = document.getElementById('sheet').getBoundingClientRect();
          const height = n => {{ const box = document.querySelector(`#m${{n}} .deed`).getBoundingClientRect(); return box.top + box.height / 2 - frame.top; }};
          const near = (a, b) => Math.abs(a - b) < 1;
          return [...document.querySelectorAll('#arrows .order.now')].filter(arrow => {{
            const [, y1, , , y2] = /^M[-\\d.]+ ([\\d.]+)C[-\\d.]+ ([\\d.]+) ([-\\d.]+) ([\\d.]+) [-\\d.]+ ([\\d.]+)M/.exec(arrow.getAttribute('d')).map(Number);
            return near(y1, height({start})) && near(y2, height({end}));
          }}).length;
        }})()""")
        bad += differs(page, f"the arrow from {start} to {end}", ends, 1)
    browser.press("h")
    return bad + differs(page, "arrows of order, off", browser.value(count), 0)


def folding(browser, page):
    """Looks at the rows where silent steps are folded and where they aren't, and goes from one to the other."""
    browser.open(f"file://{page.file}")
    words = """[...document.querySelectorAll('#moves > .row')].filter(row => row.offsetHeight)
      .map(row => [+row.id.slice(1), [...row.querySelectorAll('.each, .brief')].filter(part => part.offsetWidth).map(part => part.textContent).join()])"""
    bad = differs(page, "folded", browser.value(words), [list(it) for it in page.folded.items()])
    browser.press("m")
    bad += differs(page, "each step", browser.value(words), [[n, row.words] for n, row in enumerate(page.rows, 1)])
    hidden = [n for n in range(1, len(page.rows) + 1) if n not in page.folded]
    if hidden:
        go(browser, hidden[-1])
        browser.press("m")
        near = max((n for n in page.folded if n < hidden[-1]), default=min(page.folded))
        bad += differs(page, "folded while a folded step is selected", at(browser), near)
        time.sleep(0.2)
        go(browser, hidden[0])
        bad += differs(page, "the address of a folded step", [at(browser), is_seen(browser, hidden[0])], [hidden[0], True])
    return bad


def program(browser, page):
    """Looks at the program beside the run, clicks on its lines, and hides it."""
    unfold(browser, page)
    with open(page.program) as file:
        text = file.read().replace("\t", "    ").split("\n")
    lines = browser.value("[...document.querySelectorAll('#program li')].filter(line => line.offsetHeight).map(line => line.querySelector('code').textContent)")
    bad = differs(page, "the program", [it.rstrip() for it in lines], [it.rstrip() for it in (text[:-1] if text[-1] == "" else text)])
    browser.press("Home")
    number = 1
    for line in sorted({row.line for row in page.rows}) + [page.rows[0].line]:
        there = [n for n, row in enumerate(page.rows, 1) if row.line == line]
        number = next((n for n in there if n > number), there[0])
        browser.value(f"document.querySelectorAll('#program li')[{line - 1}].click()")
        bad += differs(page, f"a click on line {line}", at(browser), number)
        seen = browser.value(f"(box => box.top >= 0 && box.bottom <= innerHeight)(document.querySelectorAll('#program li')[{line - 1}].getBoundingClientRect())")
        bad += differs(page, f"line {line} in view", seen, True)
    width = "document.getElementById('program').offsetWidth > 0"
    bad += differs(page, "the program at first", browser.value(width), True)
    browser.press("p")
    bad += differs(page, "the program, hidden", [browser.value(width), is_seen(browser, number)], [False, True])
    return bad


def narrow(browser, page):
    """A window of 700 pixels, in which lanes, selected move and state are in view, and only the lanes scroll sideways."""
    browser.size(700, 800)
    unfold(browser, page)
    bad = []
    for key, number in (("Home", 1), ("End", len(page.rows))):
        browser.press(key)
        bad += differs(page, f"700 pixels, {key}", is_seen(browser, number), True)
        box = browser.value("(({ top, bottom }) => [top >= 0, bottom <= innerHeight])(document.querySelector('#memory tr').getBoundingClientRect())")
        bad += differs(page, f"700 pixels, memory after {key}", box, [True, True])
    lanes = browser.value("[...document.querySelectorAll('.head > [data-lane]')].filter(head => head.getBoundingClientRect().right <= innerWidth).length")
    bad += differs(page, "700 pixels, lanes in view", lanes >= min(3, len(page.state.threads)), True)
    bad += differs(page, "700 pixels wide", browser.value("document.documentElement.scrollWidth <= innerWidth"), True)
    bad += differs(page, "700 pixels, the lanes' height", browser.value("document.getElementById('run').clientHeight >= 250"), True)
    browser.size(1440, 900)
    return bad


def busy(browser):
    """How many milliseconds of a processor the page has taken."""
    metrics = browser.ask("Performance.getMetrics")["metrics"]
    return 1000 * next(it["value"] for it in metrics if it["name"] == "TaskDuration")


def speed(browser, page):
    """Says how long a page takes until it is painted, and how much of a processor a step by a key takes, its frame included. Gives
    whether that is too long."""
    browser.ask("Performance.enable", timeDomain="threadTicks")
    browser.open("about:blank")
    browser.open(f"file://{page.file}")
    time.sleep(1)
    paint = browser.value("performance.getEntriesByName('first-contentful-paint')[0].startTime")
    browser.press("Home")
    count, start = min(400, len(page.rows) - 1), busy(browser)
    browser.ask("Runtime.evaluate", awaitPromise=True, expression=f"""(async () => {{
      for (let k = 0; k < {count}; k++) {{
        dispatchEvent(new KeyboardEvent('keydown', {{ key: 'j' }}));
        await new Promise(done => requestAnimationFrame(() => setTimeout(done)));
      }}
    }})()""")
    step = (busy(browser) - start) / count
    print(f"{len(page.rows)} moves with {len(page.events)} events: painted after {paint:.0f} ms, a step takes {step:.1f} ms")
    return paint >= 1000 or step >= 16


def made(program, name, source, schedule, folder):
    """The page of a schedule."""
    file = f"{folder}/{name.replace('/', '_')}.html"
    came = subprocess.run([program, source, schedule, "--html", file], capture_output=True, text=True)
    if (came.returncode, came.stdout) != (0, "page kept\n"):
        raise SystemExit(f"{program} of {name}: {came.returncode} {came.stdout}")
    return Page(name, source, schedule, file)


def written(program, name, text, model, moves, folder):
    """The page of a program's moves."""
    source, schedule = f"{folder}/{name}.tc", f"{folder}/{name}.sched"
    with open(source, "w") as file:
        file.write(text)
    with open(schedule, "w") as file:
        file.write(machine.schedule(model, moves))
    return made(program, name, source, schedule, folder)


def late(_):
    """The moves of LATE: main creates all, then some threads run, the last first, but never 0.11."""
    run = lambda *name: ("r", name)
    return [run()] * 11 + [run(10)] * 2 + [run(2)] * 3 + [run(1)] * 2 + [run()] * 3


def to_end(text):
    """The moves of a run of a program, to its end."""
    return machine.run(show.Code(text), "sc", 1, 100)[2]


def page_of(program, name, folder):
    """The page of an example, or of a program of this file's own."""
    own = {"late": (LATE, late), "odd": (ODD, to_end), "locals": (LOCALS, to_end)}
    if name not in own:
        return made(program, name, f"examples/{name}.tc", f"examples/{name}.sched", folder)
    text, moves = own[name]
    return written(program, name, text, "sc", moves(text), folder)


def long(moves=2000, events=None):
    """The first moves of a run of LONG, up to a number of moves or of events."""
    code = show.Code(LONG)
    made = machine.run(code, "tso", 1, moves)[2]
    return made if events is None else made[:events_of(code, "tso", made)[events - 1]]


def faults(browser, show_page, folder):
    """Says which faults no test has found."""
    missed = []
    for number, (name, test, old, new) in enumerate(FAULTS):
        page = page_of(show_page, name, folder)
        with open(page.file) as file:
            text = file.read()
        if old not in text:
            missed.append(f"{name} has no text to break: {old}")
            continue
        page.file = f"{folder}/fault{number}.html"
        with open(page.file, "w") as file:
            file.write(text.replace(old, new, 1))
        try:
            found = globals()[test](browser, page)
        except SystemExit as stopped:
            found = [str(stopped)]
        if not found:
            missed.append(f"{test} doesn't find in {name}: {old}")
    print("\n".join(missed) or f"each of {len(FAULTS)} faults is found")
    return 1 if missed else 0


def main():
    words = [it for it in sys.argv[1:] if not it.startswith("--")]
    show_page = os.path.abspath(words[0] if words else f"{show.TOP}/clap_debug_show")
    os.chdir(show.TOP)
    with tempfile.TemporaryDirectory() as folder, Browser(f"{folder}/browser") as browser:
        browser.size(1440, 900)
        if "--speed" in sys.argv:
            pages = [written(show_page, f"long{count}", LONG, "tso", long(**{what: count}), folder)
                     for what, count in (("events", 256), ("moves", 2000))]
            return 1 if any([speed(browser, page) for page in pages]) else 0
        if "--faults" in sys.argv:
            return faults(browser, show_page, folder)
        pages = [page_of(show_page, it, folder) for it in PAGES]
        tries = (steps, resting, look, walks, pointing, filtering, reading, reasons, ordering, folding, program, narrow)
        bad = [it for page in pages for tried in tries for it in tried(browser, page)]
        if "--pictures" in sys.argv:
            browser.open(f"file://{pages[0].file}")
            browser.press("Home")
            browser.press("j", 5)
            for scheme in ("light", "dark"):
                browser.picture(f"{show.TOP}/docs/show-{scheme}.png", 1440, 800, scheme)
    print("\n".join(bad) or f"{len(pages)} pages say what the machine does")
    return 1 if bad else 0


if __name__ == "__main__":
    run_main("pages.py", lambda _: main())
