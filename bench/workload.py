#!/usr/bin/env python3
"""The line that `workload N SEED` must print, found by `machine.py`; and whether a program does.

  workload.py N SEED                 the line that must come
  workload.py rows                   three lines of each number of workers, as rows that `test_product` reads
  workload.py PROGRAM FIRST LAST     tries each number of workers with these seeds, and prints the seconds of each number

A worker reads 0 where it reads before the store of the one that it looks at. Behind a store buffer all can; without one each
store comes before its worker's load, so they can't where each of some workers looks at the next, round and round. A schedule
has all steps, and under total store order the drains of all stores.
"""
import subprocess
import sys
import time

sys.dont_write_bytecode = True
import machine
from kept_files import Refused, run_main

MOVES = 1000000


def cells(workers, seed):
    """The cell that each worker reads, from the first on."""
    words = machine.words_of(seed)
    rests = [next(words) % workers for _ in range(workers)]
    return [rest if rest < worker else rest + 1 for worker, rest in enumerate(rests, 1)]


def text(read):
    numbers = range(1, len(read) + 1)
    lines = ["int a[13]; int r[13];"]
    lines += [f"thread w{k}() {{ a[{k}] = 1; r[{k}] = a[{cell}]; }}" for k, cell in zip(numbers, read)]
    lines += ["main {"] + [f"tid t{k};" for k in numbers] + [f"t{k} = create w{k}();" for k in numbers] + [f"join(t{k});" for k in numbers]
    return "\n".join(lines + ["assert(" + " + ".join(f"r[{k}]" for k in numbers) + " >= 1); }", ""])


def goes_round(read):
    """Whether some workers look at one another in a ring."""
    for cell in read:
        for _ in read:
            cell = read[cell - 1] if cell else 0
        if cell:
            return True
    return False


def line(workers, seed):
    read = cells(workers, seed)
    end, _, _ = machine.run(machine.Code(text(read)), "tso", seed, MOVES)
    assert end in ("failed", "finished"), end
    sc = "impossible" if goes_round(read) else f"{12 * workers + 1} moves"
    return f"workload {workers} {seed}: record {end}, tso {14 * workers + 1} moves, sc {sc}"


def chosen(workers):
    """Three seeds below 200: one of each kind of line, where there is one."""
    lines = {seed: line(workers, seed) for seed in range(20)}
    lines |= {seed: line(workers, seed) for seed in range(20, 200) if workers < 7}
    kinds = [lambda it: "impossible" in it, lambda it: "failed" in it, lambda it: "finished" in it and "impossible" not in it]
    firsts = [next((seed for seed, it in lines.items() if is_kind(it)), None) for is_kind in kinds]
    seeds = [seed for seed in firsts if seed is not None]
    seeds += [seed for seed in lines if seed not in seeds][:3 - len(seeds)]
    return [(seed, lines[seed]) for seed in sorted(seeds)]


def main(words):
    if words == ["rows"]:
        for workers in range(1, 13):
            for seed, it in chosen(workers):
                print(f'row a workload of {workers} workers and seed {seed}\nwords clap_debug workload {workers} {seed}\nwant 0 "{it}\\n"')
    elif len(words) == 2:
        print(line(int(words[0]), int(words[1])))
    elif len(words) != 3:
        raise Refused("the words are rows, WORKERS SEED, or PROGRAM FIRST LAST")
    else:
        program, first, last = words
        for workers in range(1, 13):
            begun = time.time()
            for seed in range(int(first), int(last) + 1):
                ran = subprocess.run([program, "workload", str(workers), str(seed)], capture_output=True, text=True)
                if (ran.returncode, ran.stdout) != (0, line(workers, seed) + "\n"):
                    print(f"WRONG: {ran.returncode} {ran.stdout}must be {line(workers, seed)}")
            print(f"{workers}: {time.time() - begun:.1f} seconds")


if __name__ == "__main__":
    run_main("workload.py", main)
