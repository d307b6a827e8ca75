#!/usr/bin/env python3
"""Sums the processor time of a gate by crate, while it runs.

  bench/gate.py rt ci          runs the words, and prints the table of bench/results/gate.md once they have ended

A process is looked at each second, so what lives shorter isn't counted. Only the run's own processes are."""
import os, re, subprocess, time

from kept_files import Refused, run_main

TICKS = os.sysconf("SC_CLK_TCK")


def words_of(pid):
    with open(f"/proc/{pid}/cmdline", "rb") as it:
        return it.read().decode(errors="replace").split("\0")


def told(pid):
    """The system's facts of a process: its command, and then the fields from its state on."""
    with open(f"/proc/{pid}/stat", encoding="utf-8", errors="replace") as it:
        comm, rest = re.match(r"\d+ \((.*)\) (.*)", it.read(), re.S).groups()
    return comm, rest.split()


def is_below(pid, top):
    while pid not in (top, "0", "1"):
        pid = told(pid)[1][1]
    return pid == top


def look(seen, top):
    """Notes the time of each process of a prover below the top one, by its crate and by what it is at."""
    for pid in filter(str.isdigit, os.listdir("/proc")):
        try:
            comm, rest = told(pid)
            # A prover's kernel has no words of its own.
            words = words_of(rest[1] if comm == "antt-kernel" else pid)
            if "--crate-name" not in words or not is_below(pid, top):
                continue
            at = os.readlink(f"/proc/{pid}/cwd")
            part = "edits" if "/rt-edit" in at else "tests" if "--test" in words else "proof"
            name = words[words.index("--crate-name") + 1]
            seen[pid, rest[19]] = (name, part, (int(rest[11]) + int(rest[12])) / TICKS)
        except (OSError, AttributeError, IndexError):
            continue


def main(words):
    if not words:
        raise Refused("the words are a command, such as rt ci")
    seen, run = {}, subprocess.Popen(words)
    while run.poll() is None:
        look(seen, str(run.pid))
        time.sleep(1)
    sums = {}
    for name, part, seconds in seen.values():
        row = sums.setdefault(name, {})
        row[part] = row.get(part, 0) + seconds / 60
    for name in sorted(sums):
        cells = (f"{sums[name].get(part, 0):.1f}" if sums[name].get(part, 0) >= 0.05 else "" for part in ("proof", "tests", "edits"))
        print(f"| `{name}` | {' | '.join(cells)} |")
    print(f"all: {sum(sum(row.values()) for row in sums.values()):.0f} processor minutes")
    return run.returncode


if __name__ == "__main__":
    run_main("gate.py", main)
