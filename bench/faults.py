#!/usr/bin/env python3
"""Runs the built program over the examples with each allocation, and then each call of the system, failing in turn.

  bench/faults.py PROGRAM [WORD]   as crates/clap_debug/out/clap_debug; wants cc, strace and minisat
                                   with a word only the runs whose words have it

A run is as it is to be where its answer is the plain one, and the output file whole; or want of memory (9), the file as
before or whole; or a read fault (7), the file as before; or a write fault (8), the file as before or a front of the
result. No other file may change. It prints how many runs ended with each status, and every run that isn't so.

Of a run with many calls the later ones are tried by leaps, which grow with the number of the call.
"""
import collections
import os
import subprocess
import tempfile

from kept_files import Refused, run_main

# An allocator whose call of the number in FAIL_AT gets no memory.
ALLOCATOR = """
#include <errno.h>
#include <stdlib.h>
extern void *__libc_malloc(size_t), *__libc_realloc(void *, size_t), *__libc_calloc(size_t, size_t);
static int fails(void) {
    static long at = -1, count;
    if (at < 0) at = getenv("FAIL_AT") ? atol(getenv("FAIL_AT")) : 0;
    if (++count != at) return 0;
    errno = ENOMEM;
    return 1;
}
void *malloc(size_t n) { return fails() ? 0 : __libc_malloc(n); }
void *realloc(void *p, size_t n) { return fails() ? 0 : __libc_realloc(p, n); }
void *calloc(size_t a, size_t b) { return fails() ? 0 : __libc_calloc(a, b); }
"""
EXAMPLES = os.path.join(os.path.dirname(os.path.abspath(__file__)), "..", "examples")
BEFORE = b"what stood there\n"
# The words, the example whose files are there, the output file, and the words of a run that makes an input before.
RUNS = [
    ("record p.tc new.log --model tso --seed 1", "buffering", "new.log", None),
    ("record p.tc new.log", "first", "new.log", None),
    ("record p.tc new.log --seed 1", "deadlock", "new.log", None),
    ("migrate p.tc p.log new.log", "first", "new.log", None),
    ("replay p.tc p.log p.sched", "passing", None, None),
    ("list p.tc", "increments", None, None),
    ("solve p.tc p.log new.sched", "first", "new.sched", None),
    ("solve mended.tc mended.log new.refutation", "passing", "new.refutation", None),
    ("solve mended.tc mended.log new.refutation --budget 1", "signal", "new.refutation", None),
    ("check mended.tc mended.log p.refutation", "passing", None, "solve mended.tc mended.log p.refutation"),
    ("check mended.tc mended.log p.refutation", "signal", None, "solve mended.tc mended.log p.refutation --budget 1"),
    ("workload 2 1", "first", None, None),
    ("cnf p.tc p.log new.cnf", "first", "new.cnf", None),
    ("import p.tc p.log p.answer new.sched", "first", "new.sched", "cnf p.tc p.log p.answer"),
    ("import p.tc p.log p.wrong new.sched", "first", "new.sched", None),
]
WRONG = b"s SATISFIABLE\nv 0\n"
CALLS = [(call, error) for call in ("openat", "read", "write") for error in ("EIO", "EINTR")]
# A sweep ends after this many runs in a row that nothing disturbs.
QUIET = 45
# Behind a call of some number the next that is tried is so small a part of that number away.
LEAP = 100


def answer_to(clauses):
    """The answer of minisat to a list of clauses, in the form of other solvers."""
    with tempfile.TemporaryDirectory() as folder:
        with open(f"{folder}/list", "wb") as file:
            file.write(clauses)
        subprocess.run(["minisat", f"{folder}/list", f"{folder}/model"], capture_output=True)
        with open(f"{folder}/model", "rb") as file:
            said, values = file.read().splitlines()
        assert said == b"SAT"
        return b"s SATISFIABLE\nv " + values + b"\n"


def contents(folder):
    return {name: open(os.path.join(folder, name), "rb").read() for name in os.listdir(folder)}


class Case:
    def __init__(self, program, words, example, output, maker):
        self.program, self.words, self.output = program, words.split(), output
        given = {**contents(os.path.join(EXAMPLES, example)), "p.wrong": WRONG}
        if maker:
            given = Case(program, maker, example, maker.split()[3], None).plain[2]
            if maker.startswith("cnf"):
                given[maker.split()[3]] = answer_to(given[maker.split()[3]])
        self.files = {name: given[name] for name in self.words if name in given}
        if output:
            self.files[output] = BEFORE
        self.plain = self.run([], {})

    def run(self, before, environment):
        """Returns the status, what was written, and all files afterwards."""
        with tempfile.TemporaryDirectory() as folder:
            for name, text in self.files.items():
                with open(os.path.join(folder, name), "wb") as file:
                    file.write(text)
            command = [*before, self.program, *self.words]
            ran = subprocess.run(command, cwd=folder, capture_output=True, env={**os.environ, **environment})
            return ran.returncode, ran.stdout, contents(folder)

    def is_right(self, status, written, files):
        wanted, line, after = self.plain
        whole, now = after.get(self.output), files.get(self.output)
        same = {n: t for n, t in files.items() if n != self.output} == {n: t for n, t in self.files.items() if n != self.output}
        if not same:
            return False
        if status == wanted:
            return (written, now) == (line, whole)
        if status == 9:
            return written in (b"", b"no memory\n") and now in (self.files.get(self.output), whole)
        if status == 7:
            return now == self.files.get(self.output)
        # 127 is the system's, which couldn't load the program.
        return status == 127 or status == 8 and (now == BEFORE or now is None or whole.startswith(now))

    def sweep(self, what, disturbed):
        """Disturbs the first call, the second and so on, until none is left that makes a difference."""
        ended, quiet, number = collections.Counter(), 0, 0
        while quiet < QUIET:
            number += 1 + number // LEAP
            result = disturbed(number)
            quiet = quiet + 1 if result == self.plain else 0
            ended[result[0]] += 1
            if not self.is_right(*result):
                print(f"  WRONG with {what} {number}: status {result[0]}, {result[1][:80]}")
        print(f"  {what}: " + ", ".join(f"{count} ended with {status}" for status, count in sorted(ended.items())))


def main(words):
    if len(words) not in (1, 2):
        raise Refused("the words are PROGRAM [WORD]")
    program, word = os.path.abspath(words[0]), words[1] if len(words) == 2 else ""
    with tempfile.TemporaryDirectory() as folder:
        library = os.path.join(folder, "allocator.so")
        with open(f"{folder}/allocator.c", "w") as file:
            file.write(ALLOCATOR)
        subprocess.run(["cc", "-shared", "-fPIC", "-o", library, f"{folder}/allocator.c"], check=True)
        for words, example, output, maker in RUNS:
            if word not in words:
                continue
            case = Case(program, words, example, output, maker)
            print(f"{words} ({example}): status {case.plain[0]}, {case.plain[1][:60]}")
            case.sweep("allocation", lambda n: case.run([], {"LD_PRELOAD": library, "FAIL_AT": str(n)}))
            for call, error in CALLS:
                inject = f"inject={call}:error={error}:when="
                case.sweep(f"{call} {error}", lambda n: case.run(["strace", "-qo/dev/null", "-e", f"{inject}{n}"], {}))


if __name__ == "__main__":
    run_main("faults.py", main)
