#!/usr/bin/env python3
"""Gives logs to cubes, and their lists to cadical alone: a row of bench/results/solvers.md for each.

  cubes.py [--alone N] [--seconds N] [--cube N] [--depth N] [--clap-debug PROGRAM] FOLDER NAME..

NAME is that of a log and its program in the folder, as logs.py writes them. cadical alone has the settings that tools/refute/worker
gives it, and N processor seconds, 60 if no number is given. tools/cubes gets N seconds by the clock for all and for each cube, 600 and
120 if none are given. What it keeps stays in the current folder until the row is written. Ends with 1 if `check` or `replay` doesn't
take an answer.
"""
import argparse
import os
import resource
import shutil
import signal
import subprocess
import sys
import tempfile
import threading
import time

from kept_files import run_main

TOP = os.path.dirname(os.path.dirname(os.path.abspath(__file__)))


class Ran:
    """A command's output, status, seconds by the clock and of processors, and one process's most
    MB."""

    def __init__(self, words, clock=None, processor=None, folder=None):
        limit = (lambda: resource.setrlimit(resource.RLIMIT_CPU, (processor, processor))) if processor else None
        start = time.monotonic()
        with tempfile.TemporaryFile("w+") as out, tempfile.TemporaryFile("w+") as said:
            run = subprocess.Popen(words, stdout=out, stderr=said, cwd=folder, preexec_fn=limit)
            timer = threading.Timer(clock or 1e6, run.send_signal, [signal.SIGINT])
            timer.start()
            _, status, used = os.wait4(run.pid, 0)
            timer.cancel()
            run.returncode = self.status = os.waitstatus_to_exitcode(status)
            for file in (out, said):
                file.seek(0)
            self.out, self.said = out.read().strip(), said.read().strip()
        self.clock, self.processor, self.megabytes = time.monotonic() - start, used.ru_utime + used.ru_stime, used.ru_maxrss / 1024


def row(given, name, folder):
    log = [os.path.join(os.path.abspath(given.folder), f"{name}.{kind}") for kind in ("tc", "log")]
    listed = os.path.join(folder, "list.cnf")
    clauses = Ran([given.clap_debug, "cnf", *log, listed]).out.split()[-2]
    alone = Ran(["cadical", "-q", "--unsat", "--plain", listed], processor=given.alone)
    alone_said = f"{alone.processor:.0f}" if alone.status in (10, 20) else f"{given.alone} and more"
    cubes = Ran([f"{TOP}/tools/cubes", *log, "out", "--seconds", str(given.cube), "--depth", str(given.depth), "--clap-debug",
                 given.clap_debug], clock=given.seconds, folder=folder)
    print("\n".join(f"{name}: {line}" for line in [*cubes.said.split("\n"), cubes.out]), file=sys.stderr, flush=True)
    came = cubes.out.split(";")[0] if cubes.status in (0, 1) else "open"
    solved = [line for line in cubes.said.split("\n") if line.endswith(" hints")]
    checked = Ran([given.clap_debug, "check", *log, "out"], folder=folder) if cubes.status == 1 else None
    return [name, clauses, alone_said, came, f"{cubes.clock:.0f}", f"{cubes.processor:.0f}", cubes.out.split("; ")[-1].split(",")[0],
            f"{cubes.megabytes:.0f}", solved[-1].split(": ")[1] if solved else "", f"{checked.processor:.1f}" if checked else "",
            f"{checked.megabytes:.0f}" if checked else ""], cubes.status in (0, 1, 10) or cubes.clock >= given.seconds


def main(words):
    parser = argparse.ArgumentParser(usage=__doc__)
    parser.add_argument("--alone", type=int, default=60)
    parser.add_argument("--seconds", type=int, default=600)
    parser.add_argument("--cube", type=int, default=120)
    parser.add_argument("--depth", type=int, default=5)
    parser.add_argument("--clap-debug", default=f"{TOP}/clap_debug", type=os.path.abspath)
    parser.add_argument("folder")
    parser.add_argument("names", nargs="+")
    given = parser.parse_args(words)
    print("| log | clauses | cadical alone, s | what came | s | processor s | cubes | MB of a process | refutation | check, s | MB |")
    print("|---|---|---|---|---|---|---|---|---|---|---|")
    good = True
    for name in given.names:
        folder = tempfile.mkdtemp(prefix="cubes-", dir=".")
        words, is_good = row(given, name, folder)
        good = good and is_good
        print("| " + " | ".join(words) + " |", flush=True)
        shutil.rmtree(folder)
    return 0 if good else 1


if __name__ == "__main__":
    run_main("cubes.py", main)
