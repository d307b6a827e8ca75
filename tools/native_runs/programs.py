"""The program that is run: a text of the product's language, or a C file that tools/fromc translates."""
import os
import subprocess
import sys
from typing import Dict, List, NamedTuple, Optional, Tuple

from kept_files import Refused, keeps_nothing

from .code import Code, read_code

TOOLS = os.path.dirname(os.path.dirname(os.path.realpath(__file__)))


class Lines(NamedTuple):
    """The C file, its map as tools/fromc has made it, and of each line of the program the line in C and its file."""

    source: str
    map: bytes
    places: Dict[int, Tuple[int, str]]

    def said(self, line: int) -> str:
        """A line of the program as the line of C that it came from."""
        number, file = self.places.get(line, (line, self.source))
        return str(number) if os.path.basename(file) == os.path.basename(self.source) else f"{os.path.basename(file)}:{number}"


class Program(NamedTuple):
    """A program: its text, its flat code, and where it was C its lines."""

    text: bytes
    code: Code
    lines: Optional[Lines]

    def line(self, number: int) -> str:
        return self.lines.said(number) if self.lines else str(number)

    def inputs(self) -> List[str]:
        """The C files that the program is from."""
        return sorted({self.lines.source, *(file for _, file in self.lines.places.values())}) if self.lines else []


def read_bytes(path: str) -> bytes:
    try:
        with open(path, "rb") as file:
            return file.read()
    except OSError as fault:
        raise Refused(f"{path} can't be read: {fault.strerror}") from None


def lines_in(source: str, content: bytes) -> Lines:
    """The lines of a map: the program's, C's and C's file."""
    places: Dict[int, Tuple[int, str]] = {}
    for line in content.decode().splitlines()[1:]:
        ours, theirs, file = line.split(" ", 2)
        places[int(ours)] = (int(theirs), file)
    return Lines(source, content, places)


def read_program(path: str, clap_debug: str, room: str) -> Program:
    """The program at this path, which is C if it ends in .c. `room` is a folder for what is translated."""
    if not path.endswith(".c"):
        text = read_bytes(path)
        return Program(text, read_code(path, text.decode("utf-8", "replace"), clap_debug), None)
    read_bytes(path)
    translated, lines = f"{room}/p.tc", f"{room}/p.map"
    done = subprocess.run([sys.executable, f"{TOOLS}/fromc", path, "-o", translated, "--map", lines], stdout=subprocess.PIPE,
                          stderr=subprocess.PIPE, text=True, check=False)
    said = [it for it in done.stderr.splitlines() if not it.startswith("fromc: next: ")]
    if done.returncode:
        raise Refused(said[0] if said else f"fromc ends with status {done.returncode}")
    for line in said:
        print(line, file=sys.stderr)
    text = read_bytes(translated)
    return Program(text, read_code(translated, text.decode(), clap_debug), lines_in(path, read_bytes(lines)))


# ---- Where results go ------------------------------------------------------------------------------------------------------------

def refuse_unwritable(path: str) -> None:
    """Refuses, before any run, a name under which nothing can be written."""
    folder = os.path.dirname(os.path.realpath(path))
    if os.path.isdir(path):
        raise Refused(f"{path} is a folder: name a file")
    if not os.path.isdir(folder):
        raise Refused(f"{path} can't be written: there is no folder {folder}")
    if not os.access(path if os.path.exists(path) else folder, os.W_OK):
        raise Refused(f"{path} can't be written: no permission")


def without(path: str, ending: str) -> str:
    return path[:-len(ending)] if path.endswith(ending) else path


class Kept(NamedTuple):
    """Where a translated program and its map go."""

    program: str
    map: str


def first_line(path: str) -> str:
    return read_bytes(path).split(b"\n", 1)[0].decode("utf-8", "replace")


def place_of(source: str, log: str, asked: Optional[str]) -> Optional[Kept]:
    """Where the translation of a C file goes: where `asked` says, or beside the log, but never over a text that somebody wrote. Beside
    what is no ordinary file it isn't kept."""
    if asked is None and keeps_nothing(log):
        return None
    program = asked or f"{without(log, '.log')}.tc"
    kept = Kept(program, f"{without(program, '.tc')}.map")
    heading = f"// From {os.path.basename(source)} by tools/fromc"
    if asked is None and os.path.isfile(program) and not first_line(program).startswith(heading):
        raise Refused(f"{program} is there and isn't a translation of {source}: name another with --keep P.tc")
    if os.path.isfile(kept.map) and first_line(kept.map) != "from-c 1":
        raise Refused(f"{kept.map} is there and isn't a map of tools/fromc: name another program with --keep P.tc")
    return kept
