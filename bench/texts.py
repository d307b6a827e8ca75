#!/usr/bin/env python3
"""The one fault of a text that is no program, anew from docs/LANGUAGE.md: what rows of `program` in test_parts want is found by it.

  texts.py FILE..        each file's fault, or `a program`
  texts.py --rows        compares the rows of `program` in test_parts, and the refusals in test_show and test_product, with it
"""
import re
import sys
from pathlib import Path

from kept_files import run_main

TOP = Path(__file__).resolve().parent.parent
KEYWORDS = set("int mutex cond thread main tid if else while create join lock unlock wait signal broadcast fence assert swap cas stbar".split())
TOKEN = re.compile(rb"[A-Za-z_][A-Za-z0-9_]*|[0-9][A-Za-z0-9_]*|<<|>>|[<>=!]=|&&|\|\||[()\[\]{},;=+\-*/%!~<>&^|]")
BLANK = re.compile(rb"[ \t\r\n]+|//[^\n]*|/\*.*?\*/", re.S)
LEVELS = [["||"], ["&&"], ["|"], ["^"], ["&"], ["==", "!="], ["<", "<=", ">", ">="], ["<<", ">>"], ["+", "-"], ["*", "/", "%"]]
# What is called, with the kinds of the names in its brackets.
CALLS = {"join": ["tid"], "lock": ["mutex"], "unlock": ["mutex"], "wait": ["cond", "mutex"], "signal": ["cond"], "broadcast": ["cond"],
         "fence": [], "stbar": []}
OPERANDS = {"swap": 1, "cas": 2, "add": 1}


class Fault(Exception):
    pass


def place(text, at):
    """Line and column of a byte."""
    before = text[:at].split(b"\n")
    return f"{len(before)}:{len(before[-1]) + 1}"


def tokens_of(text):
    """The tokens with their places, the text's end as the last one."""
    found, at = [], 0
    while at < len(text):
        blank = BLANK.match(text, at)
        if blank:
            at = blank.end()
            continue
        if text.startswith(b"/*", at):
            raise Fault(f"OpenComment at {place(text, at)}")
        it = TOKEN.match(text, at)
        if not it:
            raise Fault(f"BadByte at {place(text, at)}")
        word = it[0].decode()
        if word[0].isdigit() and not (re.fullmatch(r"0|[1-9][0-9]*", word) and int(word) <= 2147483647):
            raise Fault(f"Number at {place(text, at)}")
        found.append((word, at))
        at = it.end()
    return [*found, ("", len(text))]


def test_sizes(tokens):
    """Brackets before stretches."""
    depth = 0
    for word, _ in tokens:
        if word in ("(", "[", "{"):
            depth += 1
            if depth > 64:
                raise Fault("Brackets 65 of 64")
        elif word in (")", "]", "}"):
            depth = max(0, depth - 1)
    length = 0
    for word, _ in tokens:
        if word in (";", "{", "}", ""):
            if length > 512:
                raise Fault(f"Stretch {length} of 512")
            length = 0
        else:
            length += 1


def is_name(word):
    return bool(re.fullmatch(r"[A-Za-z_]\w*", word, re.A)) and word not in KEYWORDS


class Parser:
    """Goes through the tokens; keeps each declaration and each use of a name, with its place. A use has the kinds that it may have,
    and after `create` the number of arguments."""

    def __init__(self, text):
        self.text, self.tokens, self.at = text, tokens_of(text), 0
        test_sizes(self.tokens)
        self.globals, self.scope, self.uses, self.faults = {}, None, [], []
        self.cells = self.mutexes = self.conditions = 0
        self.program()
        self.test_names()

    def word(self, ahead=0):
        return self.tokens[min(self.at + ahead, len(self.tokens) - 1)][0]

    def stop(self):
        raise Fault(f"Syntax at {place(self.text, self.tokens[self.at][1])}")

    def take(self, *wanted):
        if self.word() not in wanted:
            self.stop()
        self.at += 1
        return self.tokens[self.at - 1][0]

    def name(self):
        if not is_name(self.word()):
            self.stop()
        self.at += 1
        return self.tokens[self.at - 1]

    def number(self):
        if not self.word()[:1].isdigit():
            self.stop()
        self.at += 1
        return int(self.tokens[self.at - 1][0])

    def declare(self, token, kind, more=None):
        word, at = token
        scope = self.globals if self.scope is None else self.scope
        if word in scope:
            self.faults.append((at, "Twice"))
        scope.setdefault(word, (kind, more))

    def use(self, token, *kinds, count=None):
        self.uses.append((token, kinds, count, self.scope))

    def program(self):
        while self.word() in ("int", "mutex", "cond"):
            self.global_()
        while self.word() == "thread":
            self.at += 1
            token, names = self.name(), []
            self.take("(")
            while not names or self.word() == ",":
                if names:
                    self.take(",")
                elif self.word() == ")":
                    break
                self.take("int")
                names.append(self.name())
            self.take(")")
            self.declare(token, "thread", len(names))
            self.body(names)
        self.take("main")
        self.body([])
        if self.word():
            self.stop()

    def global_(self):
        kind, token = self.take("int", "mutex", "cond"), self.name()
        if kind == "int" and self.word() == "[":
            self.at += 1
            at, length = self.tokens[self.at][1], self.number()
            self.take("]")
            if length == 0:
                self.faults.append((at, "Kind"))
            self.cells += length
            kind = "array"
        elif kind == "int":
            self.cells += 1
            kind = "cell"
            if self.word() == "=":
                self.at += 1
                if self.word() == "-":
                    self.at += 1
                self.number()
        self.take(";")
        self.mutexes += kind == "mutex"
        self.conditions += kind == "cond"
        self.declare(token, kind)

    def body(self, parameters):
        self.scope = {}
        for token in parameters:
            self.declare(token, "parameter")
        self.take("{")
        while self.word() in ("int", "tid"):
            kind = self.take("int", "tid")
            self.declare(self.name(), "own" if kind == "int" else "tid")
            self.take(";")
        self.block_end()
        self.scope = None

    def block(self):
        self.take("{")
        self.block_end()

    def block_end(self):
        while self.word() != "}":
            self.statement()
        self.take("}")

    def statement(self):
        word = self.word()
        if word in CALLS:
            self.at += 1
            self.take("(")
            for number, kind in enumerate(CALLS[word]):
                if number:
                    self.take(",")
                self.use(self.name(), kind)
            self.take(")")
            self.take(";")
        elif word in ("assert", "while", "if"):
            self.condition()
            self.take(";") if word == "assert" else self.block()
            while word == "if" and self.word() == "else":
                self.at += 1
                if self.word() == "if":
                    self.condition()
                else:
                    word = "else"
                self.block()
        elif is_name(word):
            self.assignment()
        else:
            self.stop()

    def condition(self):
        """A word that is read already, and what is in the brackets after it."""
        self.at += 1
        self.take("(")
        self.expression()
        self.take(")")

    def assignment(self):
        left = self.name()
        if self.word() == "[":
            self.use(left, "array")
            self.index()
            self.take("=")
            self.expression()
        else:
            self.take("=")
            self.right(left)
        self.take(";")

    def right(self, left):
        """What stands right of a name and `=`."""
        word = self.word()
        if word == "create":
            self.at += 1
            self.use(left, "tid")
            thread, at = self.name(), len(self.uses)
            self.take("(")
            count = 0
            if self.word() != ")":
                count = 1
                self.expression()
                while self.word() == ",":
                    self.at += 1
                    count += 1
                    self.expression()
            self.take(")")
            self.uses.insert(at, (thread, ("thread",), count, self.scope))
        elif word in ("swap", "cas") or (word == "add" and self.word(1) == "("):
            self.at += 1
            self.use(left, "own")
            self.take("(")
            cell = self.name()
            self.use(cell, "array" if self.word() == "[" else "cell")
            if self.word() == "[":
                self.index()
            for _ in range(OPERANDS[word]):
                self.take(",")
                self.expression()
            self.take(")")
        else:
            self.use(left, "cell", "parameter", "own")
            self.expression()

    def index(self):
        self.take("[")
        self.expression()
        self.take("]")

    def expression(self, level=0):
        if level == len(LEVELS):
            self.prefix()
            return
        self.expression(level + 1)
        while self.word() in LEVELS[level]:
            self.at += 1
            self.expression(level + 1)

    def prefix(self):
        word = self.word()
        if word in ("-", "!", "~"):
            self.at += 1
            self.prefix()
        elif word == "(":
            self.at += 1
            self.expression()
            self.take(")")
        elif is_name(word):
            token = self.name()
            if self.word() == "[":
                self.use(token, "array")
                self.index()
            else:
                self.use(token, "cell", "parameter", "own")
        else:
            self.number()

    def test_names(self):
        for (word, at), kinds, count, scope in self.uses:
            found = scope.get(word) or self.globals.get(word)
            if not found:
                self.faults.append((at, "Unknown"))
            elif found[0] not in kinds:
                self.faults.append((at, "Kind"))
            elif count not in (None, found[1]):
                self.faults.append((at, "Arguments"))
        if self.faults:
            at, kind = min(self.faults)
            raise Fault(f"{kind} at {place(self.text, at)}")
        for name, count, most in ("Cells", self.cells, 1024), ("Mutexes", self.mutexes, 64), ("Conditions", self.conditions, 64):
            if count > most:
                raise Fault(f"{name} {count} of {most}")


def fault_of(text):
    """The fault of a text, or that it is a program."""
    try:
        Parser(text)
    except Fault as it:
        return str(it)
    return "a program"


def unquoted(text):
    """The bytes of a text of a table."""
    found = re.compile(r"\\(?:x([0-9a-f]{2})|(\d+)'((?:[^'\\]|\\.)*)'|(.))|([^\\]+)", re.S)

    def part(it, number):
        if it[1]:
            return bytes([int(it[1], 16)])
        if it[2]:
            times = int(it[2])
            return b"".join(one(it[3], number + [k]) for k in range(times)) if "\\#" in it[3] else one(it[3], number) * times
        if it[4]:
            if it[4] == "#":
                return str(number[-1]).encode()
            return {"n": b"\n", "t": b"\t", "r": b"\r", "0": b"\0"}.get(it[4], it[4].encode())
        return it[5].encode()

    def one(piece, number):
        return b"".join(part(it, number) for it in found.finditer(piece))

    return one(text, [])


def rows():
    """Each text that a table has with what is said of it, and where."""
    for number, line in enumerate((TOP / "crates/test_parts/stdin").read_text().split("\n"), 1):
        it = re.fullmatch(r"program (?:(.*) )?=> (.*)", line)
        if it:
            yield f"test_parts {number}", unquoted(it[1] or ""), it[2]
    for crate in ("test_show", "test_product"):
        name, files, shared, program = None, {}, {}, "p"
        for line in (TOP / f"crates/{crate}/stdin").read_text().split("\n"):
            word, _, rest = line.partition(" ")
            if word == "row":
                name, files, program = rest, dict(shared), "p"
            elif word == "file":
                file, _, text = rest.partition(" ")
                (files if name else shared)[file] = unquoted(text)
            elif word in ("words", "then"):
                program = next((it for it in rest.split() if it in files), "p")
            elif word == "want":
                it = re.match(r'3 "program refused: (.*?)\\n', rest)
                if it and program in files:
                    yield f"{crate}, {name}", files[program], it[1]


def main(words):
    if words != ["--rows"]:
        for name in words:
            print(name, fault_of(Path(name).read_bytes()))
        return 0
    sys.setrecursionlimit(10000)
    count = wrong = 0
    for where, text, wanted in rows():
        count += 1
        if fault_of(text) != wanted:
            wrong += 1
            print(f"{where}: {wanted}, and {fault_of(text)} by this script\n{text[:200]!r}")
    print(f"{count} rows, {wrong} differ")
    return 1 if wrong else 0


if __name__ == "__main__":
    run_main("texts.py", main)
