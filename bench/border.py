#!/usr/bin/env python3
"""Poses the largest logs that a person can write: has `cnf` write the clauses of each, and compares with the law's bound.

    bench/border.py PROGRAM [NAME..]

PROGRAM is the built clap_debug; NAME is one of those below, and all but `asserts` where none is given, which takes some 10 GB.
A log within the limits has fewer than 2,000,000,000 variables and clauses (`clauses_have_room` of clap_solve::formula_sizes), so none of
these may end in `no memory` while there is some. Prints a line for each and model; ends with 1 where one isn't posed.
"""
import pathlib
import subprocess
import tempfile
import time

from kept_files import run_main

MODELS = ("sc", "tso", "pso")
LIMIT = 2_000_000_000


def thread(name: list[int], steps: int, outcomes: str = "") -> bytes:
    """A thread of a log of format 1."""
    bits = outcomes + "0" * (-len(outcomes) % 8)
    packed = int(bits or "0", 2).to_bytes(len(bits) // 8, "big")
    return bytes([len(name), *name]) + steps.to_bytes(2, "big") + len(outcomes).to_bytes(2, "big") + packed


def log(*threads: bytes) -> bytes:
    """A log in which main fails."""
    return b"CLPL\0\1\0" + bytes([len(threads), 0]) + b"".join(threads)


def all_threads(body: str, steps: int) -> tuple[str, bytes]:
    """16 threads of 65,535 steps, each but main a loop of that many steps."""
    fill = "x = 1; " * 998
    program = (
        f"int s = 1; thread t() {{ int x; x = s; while (1) {{ {body} }} }} main {{ tid h; int i; int x; "
        + "h = create t(); " * 15
        + f"while (i < 65) {{ {fill}i = i + 1; }} "
        + "x = 0; " * 453
        + "assert(0); }"
    )
    # main: 15 creates, 65 turns of 1,001 steps, the last branch, 453 stores and the assertion
    main = 15 + 65 * 1_001 + 1 + 453 + 1
    # a child: two steps before its loop
    turns, rest = divmod(65_533, steps + 2)
    way = "1" * (turns + (rest > 0))
    return program, log(thread([], main, "1" * 65 + "0"), *(thread([k + 1], 65_535, way) for k in range(15)))


def constants() -> tuple[str, bytes]:
    body = "".join(f"x={k};" for k in range(8_189))
    return f"main {{ int x; {body}assert(0); }}", log(thread([], 8_190))


def stores() -> tuple[str, bytes]:
    body = "".join(f"a[i + {k}] = {k}; " for k in range(254))
    return f"int s; int a[256]; main {{ int i; i = s; {body}assert(0); }}", log(thread([], 511))


def operators(sign: str, count: int) -> tuple[str, bytes]:
    body = f"x=x{sign}y;" * count
    return f"int s = 1; main {{ int x; int y; y = s; x = y; {body}assert(0); }}", log(thread([], 2 * count + 4))


LOGS = {
    "steps": lambda: all_threads("x = 1; " * 1_000, 1_000),
    "constants": constants,
    "stores": stores,
    "shifts": lambda: operators("<<", 4_094),
    "divisions": lambda: operators("/", 400),
    "asserts": lambda: all_threads("assert(x); " * 1_000, 1_000),
}


def posed(clap_debug: str, folder: pathlib.Path, name: str, model: str) -> bool:
    program, recorded = LOGS[name]()
    (folder / "p").write_text(program)
    (folder / "l").write_bytes(recorded)
    since = time.monotonic()
    words = [clap_debug, "cnf", folder / "p", folder / "l", folder / "o", "--model", model]
    made = subprocess.run(words, capture_output=True, text=True, check=False)
    took = time.monotonic() - since
    said = made.stdout.strip() or f"status {made.returncode}"
    most = max([int(word) for word in said.replace(",", "").split() if word.isdigit()] or [0])
    print(f"{name} {model}: {said}; {took:.1f} s; {most / LIMIT:.2%} of the limit", flush=True)
    return made.returncode == 0


def main(words: list[str]) -> int:
    if not words or words[0].startswith("-") or not set(words[1:]) <= set(LOGS):
        print(__doc__, "\nNAME:", ", ".join(LOGS))
        return 0 if words and words[0] in ("-h", "--help") else 2
    names = words[1:] or [name for name in LOGS if name != "asserts"]
    with tempfile.TemporaryDirectory() as folder:
        results = [posed(words[0], pathlib.Path(folder), name, model) for name in names for model in MODELS]
    return 0 if all(results) else 1


if __name__ == "__main__":
    run_main("border.py", main)
