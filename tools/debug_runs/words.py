"""The words of ./debug."""
import argparse
import os
from typing import List, NamedTuple

from .answers import MODELS

DESCRIPTION = """Says whether a program can fail or come to a deadlock, under each memory model, and shows how; or keeps a certificate that it
can't. FILE is a C file (FILE.c) with <stdatomic.h> and threads, or a program of clap_debug."""
EPILOG = """examples:
  ./debug examples/c/peterson.c                     a lock in C: each model, native runs, and a page for a browser
  ./debug examples/c/peterson.c -D MENDED           the same file with its fix
  ./debug lock.tc --model sc --model tso            two models alone
  ./debug mended.tc --log lock.debug/lock.sc.log    whether an old failure is still possible
  ./debug lock.tc --json | jq .answer               for scripts

status: 0 no model that was asked fails or deadlocks, in runs of any length; 1 one does; 2 wrong words or files; 3 not decided, and
the line says what to raise. docs/DEBUG.md has the lines, the files and the objects of --json."""


class Words(NamedTuple):
    """What was asked."""

    file: str
    models: List[str]
    seconds: float
    out: str
    log: str
    of_fromc: List[str]
    is_json: bool
    is_quiet: bool

    @property
    def inputs(self) -> List[str]:
        return [self.file, *([self.log] if self.log else [])]


def seconds(word: str) -> float:
    found = float(word)
    if not 0 < found <= 86400:
        raise argparse.ArgumentTypeError(f"it is more than 0 and at most 86400, and not {word}")
    return found


def parse(arguments: List[str]) -> Words:
    parser = argparse.ArgumentParser(prog="debug", description=DESCRIPTION, epilog=EPILOG, allow_abbrev=False,
                                     formatter_class=argparse.RawDescriptionHelpFormatter)
    parser.add_argument("file", metavar="FILE")
    parser.add_argument("--model", action="append", choices=MODELS, default=[], help="ask under this model; several times for several; "
                        "all three if it isn't given. Native runs are made where tso is asked")
    parser.add_argument("--seconds", type=seconds, default=20.0, metavar="S", help="how many seconds of the "
                        "processor each question may take, and thrice as long by the clock; 20 if it isn't given")
    parser.add_argument("--out", metavar="DIR", help="the folder for results; NAME.debug in the current folder if it isn't given")
    parser.add_argument("--log", metavar="OLD.log", default="", help="the log of an old failure: is it still possible?")
    parser.add_argument("--json", action="store_true", help="print objects, one a line")
    parser.add_argument("--quiet", action="store_true", help="print the lines of the models alone: no reasons, notes, warnings or progress")
    parser.add_argument("-D", dest="defines", action="append", default=[], metavar="NAME[=VALUE]", help="of C: define a macro")
    parser.add_argument("--left-to-right", action="store_true", help="of C: take operands from left to right where C leaves it open")
    parser.add_argument("--wide", choices=["32", "refuse"], help="of C: compute integers of 64 bits with 32 bits, or refuse that")
    parser.add_argument("--heap", metavar="N", help="of C: let each thread allocate N objects of each struct, else 4")
    parser.add_argument("--reuse", action="store_true", help="of C: let a thread's allocation give what it freed last")
    given = parser.parse_args(arguments)
    of_fromc = [f"-D{it}" for it in given.defines]
    of_fromc += [f"--{it.replace('_', '-')}" for it in ("left_to_right", "reuse") if getattr(given, it)]
    of_fromc += [f"--{it}={getattr(given, it)}" for it in ("wide", "heap") if getattr(given, it)]
    if of_fromc and not given.file.endswith(".c"):
        parser.error(f"{of_fromc[0].partition('=')[0]} goes with a C file, FILE.c")
    name = os.path.splitext(os.path.basename(given.file))[0]
    models = [it for it in MODELS if it in (given.model or MODELS)]
    return Words(given.file, models, given.seconds, given.out or f"{name}.debug", given.log, of_fromc, given.json, given.quiet)
