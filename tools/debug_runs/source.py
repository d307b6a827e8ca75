"""The program that is asked about: its text in the folder, and the lines of C that it was translated from."""
import os
import re
import subprocess
import sys
from typing import FrozenSet, List, NamedTuple, Optional, Tuple

import in_c
from built import TOP

from .faults import Broken, Refused
from .folder import Folder
from .programs import Programs
from .words import Words

CELL = re.compile(r"^  line \d+: int (\w+)", re.M)
PLACE = re.compile(r"(.* at line )(\S+): (\S.*?)(  waits .*)?")


class Source(NamedTuple):
    """A program: the file that was given, its name without an ending, the names of its cells' variables, its text, and the C that it
    was translated from."""

    file: str
    name: str
    cells: FrozenSet[str]
    text: bytes
    in_c: Optional[in_c.Source]

    @property
    def program(self) -> str:
        """The program's file in the folder, as a word that is no option."""
        return f"{'./' if self.name.startswith('-') else ''}{self.name}.tc"

    def line(self, number: int) -> str:
        """A line of the program as the user knows it: its number in C, behind the file's name where that is an included one."""
        if self.in_c is None:
            return str(number)
        try:
            return self.in_c.at(number)[0]
        except in_c.Unknown:
            return f"{self.program}:{number}"

    def statement(self, number: int) -> str:
        """The text of a line of the program, or of its line in C."""
        lines = self.text.decode("utf-8", "replace").splitlines()
        text = re.sub(r"\s*//.*|/\*.*?\*/", "", lines[number - 1]).strip() if number <= len(lines) else ""
        try:
            return self.in_c.at(number)[1] if self.in_c else text
        except in_c.Unknown:
            return text

    def shown(self, text: str) -> str:
        """What clap_debug_show prints, with the lines of C where there are some."""
        if self.in_c is None:
            return text
        try:
            return in_c.in_c(text, self.in_c)
        except in_c.Unknown:
            return text


def translate(words: Words, folder: Folder, name: str) -> None:
    """Translates a C file. The translator's warnings go to standard error."""
    outputs = ["-o", os.path.join(folder.scratch, f"{name}.tc"), "--map", os.path.join(folder.scratch, f"{name}.map")]
    asked = [f"{TOP}/tools/fromc", words.file, *outputs, *words.of_fromc]
    done = subprocess.run(asked, stdout=subprocess.PIPE, stderr=subprocess.PIPE, text=True, check=False)
    said = [it for it in done.stderr.splitlines() if not it.startswith("fromc: next: ")]
    if done.returncode != 0:
        raise Refused("\n".join(said) or f"tools/fromc ended with status {done.returncode}")
    if not words.is_quiet:
        print(*said, sep="\n", end="\n" if said else "", file=sys.stderr)
    folder.keep(f"{name}.tc")
    folder.keep(f"{name}.map")


def copy(file: str, folder: Folder, name: str) -> None:
    try:
        with open(file, "rb") as it:
            folder.keep_bytes(f"{name}.tc", it.read())
    except OSError as fault:
        raise Refused(f"{file} can't be read: {fault.strerror}") from None


def named(words: Words) -> Tuple[str, bool]:
    """The program's name, and whether it is to be translated from C."""
    return os.path.splitext(os.path.basename(words.file))[0], words.file.endswith(".c")


def put(words: Words, folder: Folder) -> None:
    """Puts the program into the folder. It asks none of the programs, which may take minutes to build: a C file that is refused is so
    at once."""
    name, is_c = named(words)
    if is_c:
        translate(words, folder, name)
    else:
        copy(words.file, folder, name)


def read(words: Words, folder: Folder, programs: Programs) -> Source:
    """The program that `put` has put into the folder, of which clap_debug_show says whether it is one."""
    file = words.file
    name, is_c = named(words)
    said = described(file, [programs.show, f"./{name}.tc"], folder.path)
    with open(folder.file(f"{name}.tc"), "rb") as it:
        text = it.read()
    lines = in_c.read_source(file, folder.file(f"{name}.map")) if is_c else None
    return Source(os.path.basename(file), name, frozenset(CELL.findall(said)), text, lines)


def described(file: str, asked: List[str], folder: str) -> str:
    """What clap_debug_show says of a program; of a text that is none it shows the fault."""
    done = subprocess.run(asked, cwd=folder, stdout=subprocess.PIPE, stderr=subprocess.PIPE, text=True, check=False)
    if done.returncode == 0 and done.stdout.startswith("globals\n"):
        return done.stdout
    if done.stdout.startswith(("program refused: ", "limit program-bytes ")):
        raise Refused(f"{file}: {done.stdout.strip()}")
    said = (done.stdout + done.stderr).strip().splitlines()
    raise Broken(f"{os.path.basename(asked[0])} ended with status {done.returncode} and said: {said[-1] if said else 'nothing'}")
