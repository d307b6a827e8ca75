#!/usr/bin/env python3
"""Shows a run of a translated program by the lines of its C file: what clap_debug_show puts, with the line and the text of C in place
of those of the program. What happened at each line is said in the program's own words.

    clap_debug_show PROGRAM SCHEDULE --source FILE.c --map M
    clap_debug_show PROGRAM LOG --source FILE.c --map M

M is the map that tools/fromc has made with the program. Where a line of what is shown isn't of the form that this knows, it ends
with status 125 and shows nothing. NOT PROVED."""
import argparse
import os
import re
import subprocess
import sys
from typing import Dict, List, NamedTuple, Optional, Tuple

TOP = os.path.dirname(os.path.dirname(os.path.realpath(__file__)))
sys.path.insert(0, f"{TOP}/tools")
from kept_files import run_main  # noqa: E402

ROW = re.compile(r"^( *\d+)  (\d+(?:\.\d+)* +\S+ +)( *\d+)  (\S.*)$")
RULE = re.compile(r"^-+$")
STEP = re.compile(r"^( +)(\d+)  (\S.*?)(  -> (?:true|false))?$")
PLACE = re.compile(r"^(.* at line )(\d+): (\S.*?)(  waits .*)?$")
WIDTH = 60
# How long a rule is: the columns before what happened, with two blanks behind each, and as much of it.
BEHIND = 4 * 2 + 24


class Unknown(Exception):
    """A line that isn't of the form of what is shown."""


class Source(NamedTuple):
    """The C file's lines, and which of them each line of the program is."""

    lines: Dict[str, List[str]]
    places: Dict[int, Tuple[str, int]]

    def at(self, line: int) -> Tuple[str, str]:
        """The number, or file and number, of a line in C, and its text."""
        if line not in self.places:
            raise Unknown(f"line {line} of the program, which the map doesn't have")
        file, number = self.places[line]
        first = next(iter(self.lines))
        text = re.sub(r"\s*//.*|/\*.*?\*/", "", self.lines[file][number - 1]).strip() if number <= len(self.lines[file]) else ""
        shown = text if len(text) <= WIDTH else f"{text[: WIDTH - 3]}..."
        return (str(number) if file == first else f"{os.path.basename(file)}:{number}"), shown


class Row(NamedTuple):
    """A row of a schedule: its move, its thread, the line and what happened."""

    move: str
    thread: str
    line: int
    text: str
    width: int


def read_source(source: str, lines: str) -> Source:
    with open(lines, encoding="utf-8") as file:
        head, *rest = file.read().splitlines()
    if head != "from-c 1":
        raise Unknown(f"{lines}, which is no map of tools/fromc")
    places: Dict[int, Tuple[str, int]] = {}
    texts: Dict[str, List[str]] = {}
    for line in [f"0 1 {source}", *rest]:
        ours, theirs, name = line.split(" ", 2)
        name = source if os.path.basename(name) == os.path.basename(source) else name
        if name not in texts:
            with open(name, encoding="utf-8") as file:
                texts[name] = file.read().splitlines()
        places[int(ours)] = (name, int(theirs))
    return Source(texts, places)


def as_row(line: str) -> Optional[Row]:
    found = ROW.match(line)
    return Row(found[1], found[2].rstrip(), int(found[3]), found[4], len(found[1]) + len(found[2]) + len(found[3]) + 4) if found else None


def column_of(rows: List[Row]) -> int:
    """Where the words of what happened begin, behind the texts of the lines: the first column before which all rows have two blanks."""
    shortest = min(len(it.text) for it in rows)
    for column in range(3, shortest):
        if all(it.text[column - 2 : column] == "  " and it.text[column] != " " for it in rows):
            return column
    raise Unknown("rows without a common column")


def schedule_in_c(lines: List[str], source: Source) -> List[str]:
    """The rows of a schedule, and how it ended."""
    rows = [row for row in map(as_row, lines) if row]
    column = column_of(rows)
    places = {it.line: source.at(it.line) for it in rows}
    number_width = max(4, *(len(number) for number, _ in places.values()))
    text_width = max(len(text) for _, text in places.values())
    thread_width = max(len(it.thread) for it in rows)

    def shown(row: Row) -> str:
        number, text = places[row.line]
        return f"{row.move}  {row.thread:<{thread_width}}  {number:>{number_width}}  {text:<{text_width}}  {row.text[column:]}"

    made = [shown(row) if row else line for row, line in ((as_row(line), line) for line in lines)]
    rule = len(rows[0].move) + thread_width + number_width + text_width + BEHIND
    return ["-" * rule if RULE.match(line) else line if as_row(original) else place_in_c(line, source)
            for line, original in zip(made, lines)]


def place_in_c(line: str, source: Source) -> str:
    """A line that says where a thread is, or failed."""
    found = PLACE.match(line)
    if not found:
        return line
    number, text = source.at(int(found[2]))
    return f"{found[1]}{number}: {text}{found[4] or ''}"


def log_in_c(lines: List[str], source: Source) -> List[str]:
    """The lines that each thread went along. Those of one line in C that follow each other without a branch are one."""
    out: List[str] = []
    for line in lines:
        found = STEP.match(line)
        if not found:
            out.append(place_in_c(line, source))
            continue
        number, text = source.at(int(found[2]))
        made = f"{number:>{len(found[1]) + len(found[2])}}  {text}{found[4] or ''}"
        if not out or out[-1] != made or found[4]:
            out.append(made)
    return out


def in_c(text: str, source: Source) -> str:
    lines = text.splitlines()
    is_schedule = any(ROW.match(line) for line in lines)
    made = schedule_in_c(lines, source) if is_schedule else log_in_c(lines, source)
    return "".join(f"{line}\n" for line in made)


def main(arguments: List[str]) -> int:
    parser = argparse.ArgumentParser(prog="clap_debug_show", description="Shows a run by the lines of the C file it was translated from.")
    parser.add_argument("words", nargs=2, metavar="PROGRAM SCHEDULE|LOG")
    parser.add_argument("--source", required=True, metavar="FILE.c")
    parser.add_argument("--map", required=True, metavar="M")
    given, others = parser.parse_known_args(arguments)
    if any(it.startswith("--html") for it in others):
        print("clap_debug_show: --source shows text alone; the page has the program, whose comments name the lines in C", file=sys.stderr)
        return 2
    shows = os.environ.get("CLAP_DEBUG_SHOW", f"{TOP}/clap_debug_show")
    done = subprocess.run([shows, *given.words, *others], stdout=subprocess.PIPE, text=True, check=False)
    if done.returncode != 0:
        sys.stdout.write(done.stdout)
        return done.returncode
    try:
        sys.stdout.write(in_c(done.stdout, read_source(given.source, given.map)))
    except (Unknown, OSError) as fault:
        print(f"clap_debug_show: this can't be shown in C: {fault}", file=sys.stderr)
        return 125
    return 0


if __name__ == "__main__":
    run_main("clap_debug_show", main)
