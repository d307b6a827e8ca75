#!/usr/bin/env python3
"""Translates a litmus test in herd's format into a program and logs for `solve`. NOT PROVED: `solve` speaks of the program alone.

    litmus.py FILE [--program P] [--log L] [--model M] [--clap-debug C]

FILE is a test for X86 or in C; examples/litmus/README.md has what is supported. Its program is written to P, or printed if neither P
nor L is given. A schedule of a log is a run that ends in the state of `exists` or `~exists`, or outside the state of `forall`.
If only one combination of the threads' paths exists, its log is written to L; else each combination gets a log, L.1, L.2 and so on
with the number before L's extension. A line is printed for each log, with the outcomes of each thread's branches.

  --program P      where to write the program
  --log L          where to write the log or logs
  --model M        the model in the logs: sc, tso or pso, by default tso; `solve --model` overrides it
  --clap-debug C   the program that lists flat code, by default ./clap_debug of this checkout

Status 0: everything is written. 1: the test can't be translated exactly; FILE:LINE and the reason are printed. 2: the words or files
can't be used. It needs Python 3.8 and nothing else.
"""
import argparse
import os
import subprocess
import sys
import tempfile
from typing import List, Sequence

sys.dont_write_bytecode = True
from from_litmus import c, x86
from from_litmus.conditions import Initial, condition_of, initial_of
from from_litmus.logs import MODELS, Path, TooMany, combinations_of, log_of
from from_litmus.programs import Program
from from_litmus.source import Parts, Refused, parts_of
from from_litmus.statements import Final, Test, Thread
from kept_files import keep, refuse_clashes, run_main

CLAP_DEBUG = os.path.join(os.path.dirname(os.path.dirname(os.path.abspath(__file__))), "clap_debug")


def read_test(text: str) -> Test:
    parts = parts_of(text)
    initial = initial_of(parts.initial)
    threads = threads_of(parts, initial)
    test = Test(parts.architecture, parts.name, initial.locations, threads, condition_of(parts.condition))
    check_condition(test, initial, parts.condition.line)
    return test


def threads_of(parts: Parts, initial: Initial) -> List[Thread]:
    if parts.architecture == "X86":
        return x86.threads_of(parts.code, initial)
    if initial.registers:
        raise Refused(parts.initial.line, "a register of a C test gets its first value where it is declared")
    return c.threads_of(parts.code)


def check_condition(test: Test, initial: Initial, line: int) -> None:
    """Refuses a condition on a location or register that the test doesn't have."""
    for name in test.condition.locations():
        if name not in test.locations():
            raise Refused(line, f"the condition names {name}, which neither a thread nor the initial state has")
    for final in test.condition.registers():
        if isinstance(initial.registers.get((final.thread, final.register)), str):
            raise Refused(line, f"the condition names {final.thread}:{final.register}, which holds an address")
        declare(test, final, line)


def declare(test: Test, final: Final, line: int) -> None:
    """Refuses a register that its thread doesn't have. Each thread of X86 has all, also those that it doesn't use."""
    if final.thread >= len(test.threads):
        raise Refused(line, f"the condition names thread {final.thread} of {len(test.threads)}")
    registers = test.threads[final.thread].registers
    if final.register in registers:
        return
    if test.architecture != "X86" or final.register not in x86.REGISTERS:
        raise Refused(line, f"the condition names {final.thread}:{final.register}, and that thread has no such register")
    registers.append(final.register)


def listing_of(program: bytes, clap_debug: str) -> str:
    """The flat code of a program."""
    with tempfile.NamedTemporaryFile(suffix=".tc") as file:
        file.write(program)
        file.flush()
        done = subprocess.run([clap_debug, "list", file.name], capture_output=True, text=True)
    if done.returncode != 0:
        raise OSError(f"{clap_debug} list ended with {done.returncode}: {(done.stdout + done.stderr).strip()}")
    return done.stdout


def log_names(name: str, count: int) -> List[str]:
    stem, extension = os.path.splitext(name)
    return [name] if count == 1 else [f"{stem}.{number}{extension}" for number in range(1, count + 1)]


def outcomes_of(paths: Sequence[Path]) -> str:
    """The outcomes of the threads' branches. The first path is main's."""
    outcomes = [f"P{number} {path.spelled()}" for number, path in enumerate(paths[1:]) if path.outcomes]
    return ", ".join(outcomes) or "no branches"


def translate(words: argparse.Namespace) -> None:
    refuse_clashes([words.file], [words.program, words.log])
    with open(words.file, encoding="utf-8") as file:
        program = Program(read_test(file.read())).text()
    if not words.program and not words.log:
        print(program, end="")
    if words.log:
        combinations = combinations_of(listing_of(program.encode(), words.clap_debug))
        names = log_names(words.log, len(combinations))
        refuse_clashes([words.file], [words.program, *names])
        for name, paths in zip(names, combinations):
            keep(name, log_of(program.encode(), words.model, paths))
            print(f"{name}: {outcomes_of(paths)}")
    if words.program:
        keep(words.program, program.encode())


def words_of(given: List[str]) -> argparse.Namespace:
    words = argparse.ArgumentParser(description=__doc__, formatter_class=argparse.RawDescriptionHelpFormatter)
    words.add_argument("file")
    words.add_argument("--program")
    words.add_argument("--log")
    words.add_argument("--model", choices=MODELS, default="tso")
    words.add_argument("--clap-debug", default=CLAP_DEBUG)
    return words.parse_args(given)


def main(given: List[str]) -> int:
    words = words_of(given)
    try:
        translate(words)
    except Refused as why:
        print(f"{words.file}:{why.line}: {why}", file=sys.stderr)
        return 1
    except TooMany as why:
        print(f"{words.file}: {why}", file=sys.stderr)
        return 1
    except (OSError, UnicodeDecodeError) as why:
        print(f"litmus.py: {why}", file=sys.stderr)
        return 2
    return 0


if __name__ == "__main__":
    run_main("litmus.py", main)
