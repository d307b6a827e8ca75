"""The command: from a C file to a program of `clap_debug`."""
import argparse
import os
import sys
from typing import List, Tuple

from kept_files import keep, refuse_clashes

from . import checks
from .front import line_of_include, parsed
from .reading import Reader
from .printing import Printer
from .refusal import Notes, Refusal
from .unit import Options, translate

DESCRIPTION = """Translates a C file with <stdatomic.h> and <pthread.h> or <threads.h> into a program of clap_debug, or says which line has
no exact translation. docs/FROM-C.md has what it takes. NOT PROVED."""


def heading(file: str, options: Options) -> List[str]:
    models = f"under {options.model}" if options.model else "under each memory model"
    return [f"// From {os.path.basename(file)} by tools/fromc, for runs {models}. Behind // is the line in C.", ""]


def translation(file: str, options: Options, defines: List[str], is_checked: bool = False) -> Tuple[str, str, Notes]:
    """The program's text, its map of lines, and the warnings. `is_checked` says that clang is known to take the file."""
    program, notes = translate(Reader().file(parsed(file, defines, is_checked)), options)
    checks.note(program, notes)
    printer = Printer(file)
    printer.program(program)
    above = heading(file, options)
    text = "".join(f"{line}\n" for line in above) + printer.text()
    checks.refuse_limits(program, text)
    return text, printer.map(len(above)), notes


def included(file: str, fault: Refusal) -> str:
    """Where the file includes the header in which something is refused."""
    header = fault.place.file if fault.place else file
    line = line_of_include(file, header) if header != file and os.path.isfile(file) else None
    return f" (included at {file}:{line})" if line else ""


def words(arguments: List[str]) -> argparse.Namespace:
    parser = argparse.ArgumentParser(prog="fromc", description=DESCRIPTION)
    parser.add_argument("file", metavar="FILE.c")
    parser.add_argument("-o", dest="out", metavar="P.tc", help="where the program goes; without it, to standard output")
    parser.add_argument("--map", metavar="M", help="where the map from its lines to those of C goes")
    parser.add_argument("--model", choices=["sc", "tso", "pso"], help="leave out barriers that this memory model doesn't need")
    parser.add_argument("--left-to-right", action="store_true", help="take operands from left to right where C leaves their order open")
    parser.add_argument("--heap", type=int, default=4, metavar="N", help="let each thread allocate N objects of each struct, else 4")
    parser.add_argument("--reuse", action="store_true", help="let a thread's allocation give what it freed last")
    parser.add_argument("--wide", choices=["32", "refuse"], default="32", help="compute integers of 64 bits with 32 bits, or refuse that")
    parser.add_argument("-D", dest="defines", action="append", default=[], metavar="NAME[=VALUE]", help="define a macro")
    return parser.parse_args(arguments)


def main(arguments: List[str]) -> int:
    given = words(arguments)
    refuse_clashes([given.file], [given.out, given.map])
    try:
        options = Options(given.model, given.left_to_right, given.wide == "refuse", given.heap, given.reuse)
        text, lines, notes = translation(given.file, options, [f"-D{it}" for it in given.defines])
        if given.out:
            keep(given.out, text)
        else:
            sys.stdout.write(text)
        if given.map:
            keep(given.map, lines)
    except Refusal as fault:
        for each in fault.all:
            print(f"fromc: {each}{included(given.file, each)}", file=sys.stderr)
        return 1
    for line in notes.lines():
        print(f"fromc: {line}", file=sys.stderr)
    if given.out:
        print(f"fromc: next: ./debug {given.out}{f' --model {given.model}' if given.model else ''}", file=sys.stderr)
    return 0
