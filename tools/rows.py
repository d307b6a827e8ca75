#!/usr/bin/env python3
"""Tries the rows of crates/test_product, test_show, test_finds and test_checks on the built programs, with real files in a folder of their
own. docs/ROWS.md says how a row is written.

usage: tools/rows.py [--program P] [--find F] [--show S] [--jobs N] [--verbose] [TABLE..] [--only WORD]

P, F and S are built programs; the default is this checkout's. A TABLE is one of the crates' names. With --only it tries the rows whose
names have this word. A row whose shelf or output fails as planned is tried where real files can fail so: a file that can't be read is a
folder, an output that ends too early has a limit on its size. Other such rows are skipped: `--verbose` names them. Ends with 1 if a row
comes out otherwise."""
from __future__ import annotations

import argparse
import concurrent.futures
import dataclasses
import os
import re
import resource
import shutil
import subprocess
import sys
import tempfile
from typing import Dict, List, Optional, Tuple, Union

TOP = os.path.dirname(os.path.dirname(os.path.realpath(__file__)))
sys.path.insert(0, os.path.join(TOP, "tools"))
import hint  # noqa: E402
from built import build  # noqa: E402
from kept_files import Refused, run_main  # noqa: E402

SECONDS = 300
READ_FAULT, WRITE_FAULT = 7, 8
ESCAPES = {"n": b"\n", "r": b"\r", "t": b"\t", "0": b"\0"}


class Wrong(Exception):
    """What is wrong with a row, or with what came of it."""


class Skipped(Exception):
    """Why a row can't be tried on real files."""


def plain(text: str) -> bytes:
    """The bytes of a text without repetitions."""
    first, *pieces = text.split("\\")
    made = first.encode()
    for piece in pieces:
        if piece[:1] in ESCAPES:
            made += ESCAPES[piece[0]] + piece[1:].encode()
        elif piece[:1] == "x":
            made += bytes([int(piece[1:3], 16)]) + piece[3:].encode()
        else:
            raise Wrong(f"unknown escape \\{piece[:1]}")
    return made


def repeated(text: str, count: int) -> bytes:
    """A text many times, with the number of the turn in the place of `\\#`, or that and K for `\\#+K`."""
    first, *others = text.split("\\#")
    parts = [(0, plain(first))]
    for part in others:
        more = re.match(r"\+(\d+)", part)
        parts.append((int(more[1]), plain(part[more.end() :])) if more else (0, plain(part)))
    return b"".join(
        (str(turn + more).encode() if place else b"") + it for turn in range(count) for place, (more, it) in enumerate(parts)
    )


def bytes_of(text: str) -> bytes:
    """The bytes that a text of a row means."""
    made, count = b"", None
    for place, piece in enumerate(text.split("'")):
        if place % 2:
            if count is None:
                raise Wrong("a quote without a number")
            made += repeated(piece, count)
            continue
        before, sign, number = piece.rpartition("\\")
        is_number = bool(sign) and number.isascii() and number.isdigit() and not number.startswith("0")
        made += plain(before if is_number else piece)
        count = int(number) if is_number else None
    return made


def quoted(text: str) -> str:
    if len(text) < 2 or text[0] != '"' or text[-1] != '"':
        raise Wrong(f"no text in quotes: {text}")
    return text[1:-1]


def halves(line: str) -> Tuple[str, str]:
    first, _, rest = line.partition(" ")
    return first, rest


@dataclasses.dataclass
class Want:
    """What a call must give: a status, and a text that is all, or has a number and an end behind it, or lines of which this is one."""

    status: int
    begin: bytes
    end: Optional[bytes] = None
    line: Optional[bytes] = None

    @staticmethod
    def read(text: str, usage: str) -> "Want":
        status, text = halves(text)
        if text == "usage":
            return Want(int(status), bytes_of(usage))
        for word in ("number", "with"):
            begin, sign, rest = text.partition(f" {word} ")
            if sign:
                more = bytes_of(quoted(rest))
                return Want(int(status), bytes_of(quoted(begin)), **{"end" if word == "number" else "line": more})
        return Want(int(status), bytes_of(quoted(text)))

    def is_met(self, status: int, written: bytes) -> bool:
        if status != self.status or not written.startswith(self.begin):
            return False
        rest = written[len(self.begin) :]
        if self.line is not None:
            return self.line in rest.splitlines()
        return bool(re.fullmatch(rb"\d+" + re.escape(self.end), rest)) if self.end is not None else not rest


@dataclasses.dataclass
class Call:
    words: List[bytes]
    puts: List[Tuple[int, int]]
    want: Want


@dataclasses.dataclass
class Edit:
    """A change of a file between two calls: a text becomes another one, or, where there is none, the file ends before it."""

    name: bytes
    old: bytes
    new: Optional[bytes]


@dataclasses.dataclass
class Check:
    """What a file must hold by then; without a text there must be none."""

    name: bytes
    text: Optional[str]


@dataclasses.dataclass
class Row:
    """A row: its files, its planned failures, and what is done one after another. A call is made by the line that says what it must give."""

    name: str
    files: Dict[bytes, str] = dataclasses.field(default_factory=dict)
    turns: List[Union[Call, Edit, Check]] = dataclasses.field(default_factory=list)
    fails: List[Tuple[str, int, int]] = dataclasses.field(default_factory=list)
    usage: str = ""
    words: List[bytes] = dataclasses.field(default_factory=list)
    puts: List[Tuple[int, int]] = dataclasses.field(default_factory=list)

    def copy(self, name: str) -> "Row":
        return Row(name, dict(self.files), [], list(self.fails), self.usage, self.words, list(self.puts))

    @property
    def calls(self) -> List[Call]:
        return [it for it in self.turns if isinstance(it, Call)]

    @property
    def checked(self) -> Dict[bytes, Optional[str]]:
        """What files must hold at the end."""
        return {it.name: it.text for it in self.turns if isinstance(it, Check)}

    def take(self, key: str, rest: str) -> None:
        """Reads a line of the row."""
        if key == "file":
            name, text = halves(rest)
            self.files[name.encode()] = text
        elif key in ("fetch", "keep"):
            self.fails.append((key, *map(int, rest.split())))
        elif key == "put":
            self.puts.append(tuple(map(int, rest.split())))
        elif key == "usage":
            self.usage = quoted(rest)
        elif key in ("words", "then"):
            self.words = words_of(rest)
        elif key == "want":
            self.turns.append(Call(self.words, self.puts, Want.read(rest, self.usage)))
            self.puts = []
        elif key in ("edit", "cut"):
            self.turns.append(edit_of(key, rest))
        elif key == "holds":
            name, text = halves(rest)
            self.turns.append(Check(name.encode(), quoted(text)))
        elif key == "stays":
            self.turns += [Check(name.encode(), self.files.get(name.encode())) for name in rest.split()]
        else:
            raise Wrong(f"no such line: {key}")


def words_of(text: str) -> List[bytes]:
    return [b"" if word == "''" else bytes_of(word) for word in text.split()]


def edit_of(key: str, rest: str) -> Edit:
    name, texts = halves(rest)
    old, _, new = quoted(texts).partition('" "')
    return Edit(name.encode(), bytes_of(old), bytes_of(new) if key == "edit" else None)


def rows_of(table: str) -> List[Row]:
    """The rows of a table. Each begins with what the lines above the first row say."""
    base, rows = Row(""), []
    with open(f"{TOP}/crates/{table}/stdin", encoding="utf-8", newline="\n") as file:
        for number, line in enumerate(file.read().split("\n"), 1):
            key, rest = halves(line)
            try:
                if key == "row":
                    rows.append(base.copy(rest))
                elif key and not key.startswith("#"):
                    (rows[-1] if rows else base).take(key, rest)
            except (Wrong, ValueError, IndexError) as fault:
                raise Refused(f"{table}/stdin, line {number}: {fault}") from fault
    return rows


@dataclasses.dataclass
class Plan:
    """How a planned failure is made a real one: a folder in a file's place, the most bytes that a file may have, no room for the line."""

    folder: Optional[bytes] = None
    bytes: Optional[int] = None
    is_line_limited: bool = False
    half: Optional[bytes] = None


def plan_of(row: Row) -> Plan:
    """The real failure for a planned one, if there is one."""
    calls = row.calls
    puts = [it for call in calls for it in call.puts]
    # (where a call that fails never comes, the answer is that of files that don't fail)
    if not row.fails and not puts or all(it.want.status not in (READ_FAULT, WRITE_FAULT) for it in calls):
        return Plan()
    if len(calls) != 1 or len(row.fails) + len(puts) != 1:
        raise Skipped("several calls, or several failures")
    want = calls[0].want
    fault = re.fullmatch(rb"(read|write) fault: (.*)\n", want.begin, re.S)
    if puts:
        number, after = puts[0]
        if number != 1 or want.status != WRITE_FAULT or len(want.begin) != after or row.checked:
            raise Skipped("output that fails behind its end, or beside a file that is kept")
        return Plan(bytes=after, is_line_limited=True)
    kind, _, after = row.fails[0]
    if kind == "fetch" and fault and fault[1] == b"read" and after == 0 and fault[2] in row.files:
        return Plan(folder=fault[2])
    if kind == "keep" and fault and fault[1] == b"write" and len(bytes_of(row.checked.get(fault[2]) or "")) == after and fault[2] in row.checked:
        return Plan(bytes=after, half=fault[2])
    raise Skipped("a failure that real files don't have")


def outputs_of(program: str, row: Row) -> List[bytes]:
    """The names under which the calls of a row keep files."""
    found = []
    for call in row.calls:
        command, *given = hint.split(program, [os.fsdecode(it) for it in call.words[1:]])
        found += [os.fsencode(name) for _, name, is_output in (hint.files(command, *given) if command else ()) if is_output]
    return found


def check_names(program: str, row: Row) -> None:
    """Refuses a row with words or names that a real call can't have."""
    names = [*row.files, *row.checked, *(word for it in row.calls for word in it.words)]
    if any(not it.words for it in row.calls):
        raise Skipped("a call without its program's name")
    if any(b"\0" in it for it in names):
        raise Skipped("a word with a zero byte")
    if any(it == b"" or b"/" in it for it in [*row.files, *row.checked, *outputs_of(program, row)]):
        raise Skipped("a name that no file has")


class Room:
    """A folder with the files of a row, in which a program is called."""

    def __init__(self, program: str, folder: str, plan: Plan):
        self.program, self.folder, self.plan = program, os.fsencode(folder), plan

    def path(self, name: bytes) -> bytes:
        return os.path.join(self.folder, name)

    def put(self, files: Dict[bytes, str]) -> None:
        for name, text in files.items():
            if name == self.plan.folder:
                os.mkdir(self.path(name))
                continue
            with open(self.path(name), "wb") as file:
                file.write(bytes_of(text))

    def read(self, name: bytes) -> Optional[bytes]:
        try:
            with open(self.path(name), "rb") as file:
                return file.read()
        except OSError:
            return None

    def limit(self) -> None:
        if self.plan.bytes is not None:
            resource.setrlimit(resource.RLIMIT_FSIZE, (self.plan.bytes, self.plan.bytes))

    def call(self, words: List[bytes]) -> Tuple[int, bytes]:
        """The status and the output of a call. (A program that runs into the limit isn't to be killed: the signal is ignored.)"""
        with tempfile.TemporaryFile() as out:
            done = subprocess.run(words, executable=self.program, cwd=self.folder, stdin=subprocess.DEVNULL, stderr=subprocess.DEVNULL,
                                  stdout=out if self.plan.is_line_limited else subprocess.PIPE, timeout=SECONDS, check=False,
                                  preexec_fn=self.limit if self.plan.bytes is not None else None, restore_signals=self.plan.bytes is None)
            out.seek(0)
            return done.returncode, out.read() if self.plan.is_line_limited else done.stdout

    def edit(self, it: Edit) -> None:
        text = self.read(it.name)
        if text is None or it.old not in text:
            raise Wrong(f"nothing to change in {it.name.decode()}")
        new = text.replace(it.old, it.new, 1) if it.new is not None else text[: text.rindex(it.old)]
        with open(self.path(it.name), "wb") as file:
            file.write(new)


def shown(text: Optional[bytes]) -> str:
    return "nothing" if text is None else repr(text.decode("utf-8", "backslashreplace")[:2000])


def check_file(it: Check, row: Row, room: Room) -> None:
    """Whether a file is as it must be by then. An output that can't be written whole may also be as before."""
    if it.name == room.plan.folder:
        return
    came, wanted = room.read(it.name), None if it.text is None else bytes_of(it.text)
    before = bytes_of(row.files[it.name]) if it.name in row.files else None
    if came != wanted and not (it.name == room.plan.half and came == before):
        raise Wrong(f"{it.name.decode()} holds {shown(came)}, and must hold {shown(wanted)}")


def check_limit(program: str, row: Row, plan: Plan) -> None:
    """Refuses a row whose output is to fail behind its end: a limit on its size can't do that."""
    with tempfile.TemporaryDirectory(prefix="row-") as folder:
        room = Room(program, folder, Plan())
        room.put(row.files)
        room.call(row.calls[0].words)
        if len(room.read(plan.half) or b"") <= plan.bytes:
            raise Skipped("an output that fails behind its end")


def run_row(name: str, program: str, row: Row) -> None:
    check_names(name, row)
    plan = plan_of(row)
    if plan.half:
        check_limit(program, row, plan)
    with tempfile.TemporaryDirectory(prefix="row-") as folder:
        room = Room(program, folder, plan)
        room.put(row.files)
        for turn in row.turns:
            if isinstance(turn, Call):
                status, written = room.call(turn.words)
                if not turn.want.is_met(status, written):
                    raise Wrong(f"{b' '.join(turn.words).decode()}: {status} {shown(written)}, and must be {turn.want}")
            elif isinstance(turn, Edit):
                room.edit(turn)
            else:
                check_file(turn, row, room)


def verdict_of(name: str, program: str, row: Row) -> Tuple[str, str]:
    try:
        run_row(name, program, row)
        return "passed", ""
    except Skipped as why:
        return "skipped", str(why)
    except subprocess.TimeoutExpired:
        return "failed", f"nothing within {SECONDS} seconds"
    except (Wrong, OSError, ValueError) as why:
        return "failed", str(why)


# The rows of test_checks are of another form: the word of a part, what it is given, and the verdict.


@dataclasses.dataclass
class Part:
    """A row of test_checks."""

    name: str
    part: str
    given: str
    want: str


def parts_of(table: str) -> List[Part]:
    found = []
    with open(f"{TOP}/crates/{table}/stdin", encoding="utf-8", newline="\n") as file:
        for line in file.read().split("\n"):
            if line.startswith(" "):
                found[-1].want += "\n" + line[1:]
            elif line and not line.startswith(("#", "group ")):
                given, _, want = line.partition(" => ")
                part, given = halves(given)
                found.append(Part(line[:120], part, given, want))
    return found


def searched(room: Room, words: str, program: bytes) -> Optional[bytes]:
    """The certificate that a search makes, if it rules runs out."""
    model, kind, outcomes = words.split()
    with open(room.path(b"p"), "wb") as file:
        file.write(program)
    more = [b"--deadlock"] if kind == "deadlock" else []
    status, _ = room.call([b"clap_debug_find", b"p", b"c", b"--model", model.encode(), b"--outcomes", outcomes.encode(), b"--logs", b"1000",
                           b"--budget", b"10000", *more])
    return room.read(b"c") if status == 1 else None


def verdict_on(room: Room, program: bytes, certificate: bytes) -> str:
    for name, it in ((b"p", program), (b"c", certificate)):
        with open(room.path(name), "wb") as file:
            file.write(it)
    status, said = room.call([b"clap_debug_find", b"p", b"c", b"--check"])
    text = said.decode().strip()
    refused = re.fullmatch(r"line (\d+) refused", text)
    form = re.fullmatch(r"certificate refused: line (\d+)", text)
    if status == 0:
        return "holds whole" if text == "accepted, none" else "holds cut"
    return f"refused {refused[1]}" if refused else f"form {form[1]}" if form else "open" if text == "accepted, open" else text


def changed(certificate: bytes, change: str) -> bytes:
    """A certificate without one of its logs, with two swapped, or said to be whole."""
    if change == "whole":
        return certificate.replace(b" cut\n", b" whole\n")
    word, index = change.split()
    head, *logs = re.split(rb"(?m)^(?=log )", certificate)
    at = int(index)
    if word == "without":
        logs[at] = b""
    else:
        logs[at], logs[at + 1] = logs[at + 1], logs[at]
    return b"".join([head, *logs])


def answer(room: Room, row: Part) -> str:
    given = bytes_of(row.given)
    if row.part == "check":
        program, _, certificate = given.partition(b" : ")
        return verdict_on(room, program, certificate)
    asked, _, change = given.rpartition(b" : ") if row.part == "turned" else (given, b"", b"")
    words, _, program = asked.partition(b" : ")
    certificate = searched(room, words.decode(), program)
    if certificate is None:
        return "none"
    return verdict_on(room, program, changed(certificate, change.decode()) if change else certificate)


def verdict_of_part(_name: str, program: str, row: Part) -> Tuple[str, str]:
    with tempfile.TemporaryDirectory(prefix="row-") as folder:
        try:
            came = answer(Room(program, folder, Plan()), row)
        except (Wrong, OSError, ValueError, IndexError, subprocess.TimeoutExpired) as why:
            return "failed", str(why)
    wanted = bytes_of(row.want).decode()
    return ("passed", "") if came == wanted else ("failed", f"{came}, and must be {wanted}")


TABLES = {"test_product": "clap_debug", "test_show": "clap_debug_show", "test_finds": "clap_debug_find", "test_checks": "clap_debug_find"}


def tasks_of(tables: List[str], programs: Dict[str, str], only: str) -> list:
    """What is to be called for each row, with its table and name."""
    found = []
    for table in tables:
        rows, tried = (parts_of(table), verdict_of_part) if table == "test_checks" else (rows_of(table), verdict_of)
        found += [(table, row.name, tried, TABLES[table], programs[TABLES[table]], row) for row in rows if only in row.name]
    return found


def run_all(tasks: list, jobs: int, is_verbose: bool) -> Dict[str, Dict[str, int]]:
    """How many rows of each table passed, failed and were skipped. Says which failed."""
    counts: Dict[str, Dict[str, int]] = {}
    with concurrent.futures.ThreadPoolExecutor(jobs) as pool:
        running = [(table, name, pool.submit(tried, *of)) for table, name, tried, *of in tasks]
        try:
            for table, name, it in running:
                verdict, why = it.result()
                of = counts.setdefault(table, {"passed": 0, "failed": 0, "skipped": 0})
                of[verdict] += 1
                if verdict == "failed" or verdict == "skipped" and is_verbose:
                    print(f"{table}: {name}: {verdict}: {why}", flush=True)
        except BaseException:
            # (where this script is stopped, no row is begun any more)
            for _, _, it in running:
                it.cancel()
            raise
    return counts


def told(of: Dict[str, int]) -> str:
    return f"{of['passed']} passed, {of['failed']} failed, {of['skipped']} skipped"


def main(arguments: List[str]) -> int:
    parser = argparse.ArgumentParser(prog="rows.py", usage=__doc__.split("\n\n")[1][7:])
    for name in ("program", "find", "show"):
        parser.add_argument(f"--{name}")
    parser.add_argument("--jobs", type=int, default=len(os.sched_getaffinity(0)))
    parser.add_argument("--only", default="")
    parser.add_argument("--verbose", action="store_true")
    parser.add_argument("tables", nargs="*", choices=[*TABLES, []])
    given = parser.parse_args(arguments)
    named = {"clap_debug": given.program, "clap_debug_find": given.find, "clap_debug_show": given.show}
    tables = given.tables or list(TABLES)
    programs = {name: os.path.abspath(named[name] or build(name)) for name in sorted({TABLES[it] for it in tables})}
    counts = run_all(tasks_of(tables, programs, given.only), given.jobs, given.verbose)
    for table, of in counts.items():
        print(f"{table}: {told(of)}")
    every = {verdict: sum(of[verdict] for of in counts.values()) for verdict in ("passed", "failed", "skipped")}
    print(told(every))
    return 1 if every["failed"] or not every["passed"] else 0


if __name__ == "__main__":
    run_main("rows.py", main)
