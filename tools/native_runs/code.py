"""Flat code, read from what `clap_debug list` prints and from the text's first values."""
import re
import subprocess
from typing import Dict, List, NamedTuple, Tuple, Union

from kept_files import FAILED, Refused


class Broken(Refused):
    """What a run left behind doesn't fit its program: the recorder is wrong."""

    def __init__(self, line: str) -> None:
        super().__init__(line, FAILED)


class Slot(NamedTuple):
    """An int slot of a function, in an expression."""

    number: int


class Applied(NamedTuple):
    """An operator with its one or two operands."""

    sign: str
    operands: Tuple  # of expressions


Expr = Union[int, Slot, Applied]


class Instr(NamedTuple):
    """An instruction: its word, all that it names, and its line in the text. A slot that it writes is an expression too."""

    word: str
    args: List[Expr]
    line: int


class Function(NamedTuple):
    name: str
    params: int
    ints: int
    tids: int
    instrs: List[Instr]


class Code(NamedTuple):
    """Flat code, with the first value and the variable's name of each cell."""

    functions: List[Function]
    first_values: List[int]
    variables: List[str]
    mutexes: int
    conditions: int


# Instructions that give their first slot a value from memory.
TAKING = {"load", "loadat", "swap", "swapat", "cas", "casat", "add", "addat"}
# Those that others can see, of which a log has room for 256, besides a failure.
EVENTS = TAKING | {"store", "storeat", "lock", "unlock", "sleep", "wake", "signal", "broadcast", "create", "join", "fence", "exit"}
MOST_EVENTS, MOST_STEPS, MOST_DEPTH, MOST_CHILDREN = 256, 65535, 8, 255

TOKEN = re.compile(r"\$\d+|\d+|[()]|<<|>>|[<>=!]=|[-+*/%&|^~!<>]")
DECLARATION = re.compile(r"\s*(int|mutex|cond)\s+(\w+)\s*(?:\[\s*(\d+)\s*\])?\s*(?:=\s*(-?)\s*(\d+))?\s*;")


class Reader:
    """Expressions from their tokens."""

    def __init__(self, text: str) -> None:
        self.tokens = TOKEN.findall(text)
        self.at = 0

    def next(self) -> str:
        self.at += 1
        return self.tokens[self.at - 1]

    def expression(self) -> Expr:
        token = self.next()
        if token.startswith("$"):
            return Slot(int(token[1:]))
        return self.applied() if token == "(" else int(token)

    def applied(self) -> Applied:
        """An operator with its operands, behind the bracket that opens."""
        if self.tokens[self.at] in ("-", "!", "~"):
            found = Applied(self.next(), (self.expression(),))
        else:
            left = self.expression()
            found = Applied(self.next(), (left, self.expression()))
        assert self.next() == ")"
        return found

    def all(self) -> List[Expr]:
        found = []
        while self.at < len(self.tokens):
            found.append(self.expression())
        return found


def functions_in(listing: str) -> List[Function]:
    """The functions of a listing: a line for each, and one for each of its instructions."""
    functions: List[Function] = []
    for line in listing.splitlines():
        words = line.split(" ", 3)
        if words[0].isdigit():
            args = Reader(words[3] if len(words) > 3 else "").all()
            functions[-1].instrs.append(Instr(words[2], args, int(words[1])))
        else:
            functions.append(Function(words[0], *map(int, words[1:]), []))
    return functions


def with_globals(text: str, functions: List[Function]) -> Code:
    """The code, with what the text declares before its first thread."""
    bare = re.sub(r"//[^\n]*|/\*.*?\*/", " ", text, flags=re.S)
    values: List[int] = []
    variables: List[str] = []
    counts: Dict[str, int] = {"mutex": 0, "cond": 0}
    found = DECLARATION.match(bare)
    while found:
        kind, name, length, sign, first = found.groups()
        cells = int(length or 1)
        if kind == "int":
            values += [int((sign or "") + (first or "0"))] * cells
            variables += [name] * cells
        else:
            counts[kind] += 1
        found = DECLARATION.match(bare, found.end())
    return Code(functions, values, variables, counts["mutex"], counts["cond"])


def read_code(program: str, text: str, clap_debug: str) -> Code:
    """The flat code of a program, whose text is given too. Refuses what `clap_debug` refuses."""
    listing = subprocess.run([clap_debug, "list", program], stdout=subprocess.PIPE, stderr=subprocess.DEVNULL, text=True, check=False)
    if listing.returncode:
        lines = listing.stdout.splitlines() or [f"clap_debug ends with status {listing.returncode}"]
        raise Refused(f"{program}: {lines[0]}")
    return with_globals(text, functions_in(listing.stdout))
