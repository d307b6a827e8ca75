#!/usr/bin/env python3
"""Solves logs, and replays or checks each answer: a row of bench/results/performance.md for each, seconds of the user and the system.

  solve.py [--models sc,tso,pso] [--budget N] [--seconds N] [--least | --learnt | --false-first] FOLDER..

runs out/clap_debug over each NAME.tc with its NAME.log in the folders, under the log's model where none is given, each run for at
most so many processor seconds, 120 where no number is given. Ends with 1 where an answer isn't taken: a schedule that doesn't
reproduce the log, or a refutation that isn't accepted. With --least the schedule with the fewest context switches is wanted, and
the refutation that none has fewer is what is checked and measured. With --learnt a column says how many clauses the search learns:
those of a refutation, but for the empty one, and for a schedule one fewer than the least budget that it is found with, which is
looked for. With --false-first that column is there too, and three for a search that tries false first, which is that of
crates/test_orders/out/test_orders: seconds, megabytes, and how many clauses it learns.
"""
import argparse
import functools
import glob
import math
import os
import re
import resource
import signal
import subprocess
import sys
import tempfile
import time

sys.dont_write_bytecode = True
import machine
from kept_files import run_main

TOP = os.path.dirname(os.path.dirname(os.path.abspath(__file__)))


def megabytes(pid):
    """The most memory that a process has had so far, or 0 once it has ended; what it had before it became the program isn't counted."""
    with open(f"/proc/{pid}/status") as status:
        return max((int(line.split()[1]) / 1024 for line in status if line.startswith("VmHWM")), default=0)


def run(seconds, *words, row=b""):
    """Its output, status, processor seconds and megabytes; None past that limit of seconds."""
    limit = math.ceil(seconds)
    with tempfile.TemporaryFile() as out, tempfile.TemporaryFile() as given:
        given.write(row)
        given.seek(0)
        child = subprocess.Popen(words, stdin=given, stdout=out,
                                 preexec_fn=lambda: resource.setrlimit(resource.RLIMIT_CPU, (limit, limit)))
        pid, most = 0, 0
        while not pid:
            most = max(most, megabytes(child.pid))
            time.sleep(0.003)
            pid, status, used = os.wait4(child.pid, os.WNOHANG)
        child.returncode = os.waitstatus_to_exitcode(status)
        took = used.ru_utime + used.ru_stime
        if child.returncode == -signal.SIGKILL and took > 0.9 * limit:
            return None
        out.seek(0)
        return out.read().decode().strip(), child.returncode, took, most


def solve(seconds, *words):
    return run(seconds, f"{TOP}/out/clap_debug", *words)


def learnt(is_found):
    """One fewer than the least budget that is enough."""
    few, enough = 0, 1
    while not is_found(enough):
        few, enough = enough, 2 * enough
    while enough - few > 1:
        middle = (few + enough) // 2
        few, enough = (few, middle) if is_found(middle) else (middle, enough)
    return enough - 1


def of_false_first(seconds, program, log, model):
    """A search that tries false first: seconds, megabytes, and the number of learnt clauses."""
    with open(program, encoding="ascii") as text, open(log, "rb") as bytes_:
        words = re.sub(r"//[^\n]*|/\*.*?\*/", " ", text.read(), flags=re.DOTALL).split()
        row = f"group a log\nlearnt {model} : {bytes_.read().hex()} : {' '.join(words)} => ?\n"
    ran = run(seconds, f"{TOP}/crates/test_orders/out/test_orders", row=row.encode())
    if ran is None:
        return None, [f"more than {seconds:.0f} s", "", ""]
    answer, number = ran[0].split("but ")[1].split(" learnt")[0].split(", ")
    return answer, [f"{ran[2]:.2f}", f"{ran[3]:.0f}", number]


def main(words):
    parser = argparse.ArgumentParser(usage=__doc__)
    parser.add_argument("--models")
    parser.add_argument("--budget", default="1000000")
    parser.add_argument("--seconds", type=float, default=120)
    parser.add_argument("--least", action="store_true")
    parser.add_argument("--learnt", action="store_true")
    parser.add_argument("--false-first", action="store_true")
    parser.add_argument("folders", nargs="+")
    given = parser.parse_args(words)
    wrong, ran = 0, functools.partial(solve, given.seconds)
    heads = ["log", "events", "model", "solve", "seconds", "MB", "its answer", "bytes", "seconds", "MB"]
    heads += ["learnt"] * (given.learnt or given.false_first) + ["false first", "MB", "learnt"] * given.false_first
    print(f"| {' | '.join(heads)} |\n{'|---' * len(heads)}|")
    for program in sorted(it for folder in given.folders for it in glob.glob(f"{folder}/*.tc")):
        log = program[:-3] + ".log"
        if not os.path.exists(log):
            continue
        with open(program, newline="") as text, open(log, "rb") as bytes_:
            code, read = machine.Code(text.read()), machine.Log.read(bytes_.read())
        events = machine.shown(code, read).split("\n")[0].split()[-2]
        for model in (given.models or read.model).split(","):
            name = os.path.relpath(program[:-3], os.path.commonpath([os.path.abspath(it) for it in given.folders]))
            with tempfile.NamedTemporaryFile() as out, tempfile.NamedTemporaryFile() as fewer:
                least = ["--least", fewer.name] if given.least else []
                words = ["solve", program, log, out.name, "--model", model, "--budget"]
                other, told_of_other = of_false_first(given.seconds, program, log, model) if given.false_first else (None, [])
                solved = ran(*words, given.budget, *least)
                if solved is None:
                    cells = [name, events, model, f"more than {given.seconds:.0f} s", *[""] * (len(heads) - len(told_of_other) - 4)]
                    print(f"| {' | '.join([*cells, *told_of_other])} |", flush=True)
                    continue
                answer, status, seconds, memory = solved
                wrong += other is not None and status in (0, 1) and (other == "possible") != (status == 0)
                has_schedule = status == 0 or answer.endswith("switches")
                shown = fewer.name if os.path.getsize(fewer.name) else out.name
                if has_schedule and shown == fewer.name:
                    wrong += ran("replay", program, log, out.name)[0] != "reproduces"
                command = "replay" if has_schedule and shown == out.name else "check"
                taken, told, more, needed = ran(command, program, log, shown) or ("too long", -1, 0, 0)
                closed = f"accepted, more than {int(answer.split()[-2]) - 1} switches" if shown == fewer.name else "accepted, impossible"
                wrong += taken != ("reproduces" if command == "replay" else "accepted, open" if status == 10 else closed)
                cells = [name, events, model, answer, f"{seconds:.2f}", f"{memory:.0f}", taken, f"{os.path.getsize(shown):,}",
                         f"{more:.2f}", f"{needed:.0f}"]
                if given.learnt or given.false_first:
                    is_found = lambda budget: solve(2 * given.seconds, *words, str(budget))[1] == 0
                    cells.append(str(learnt(is_found) if status == 0 else int(answer.split()[1]) - 1 if status == 1 else given.budget))
                print(f"| {' | '.join([*cells, *told_of_other])} |", flush=True)
    return 1 if wrong else 0


if __name__ == "__main__":
    run_main("solve.py", main)
