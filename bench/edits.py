#!/usr/bin/env python3
"""Tries wrong bodies that the gate doesn't try: each has to be refused by the prover.

  bench/edits.py [CRATE..]      tries the edits of bench/edits/CRATE, or all of them
  bench/edits.py --read         says only whether each still fits the text that it changes

Works on a copy of the checkout in the folder that holds it, with what `rt check` has proved there; where nothing is proved, the
crates below are proved first, which for the upper ones takes an hour. An edit is a file as those of crates/CRATE/must-fail."""
import argparse, glob, os, subprocess, tempfile

from kept_files import run_main

TOP = os.path.dirname(os.path.dirname(os.path.abspath(__file__)))
EDITS = f"{TOP}/bench/edits"


def misfits(edit, crate):
    """Says where the edit's texts don't occur exactly once in the crate's files."""
    file, texts = "", {}
    for line in open(edit, encoding="utf-8").read().splitlines():
        word, _, rest = line.partition(": ")
        if word == "file":
            file = rest.strip()
            path = f"{TOP}/crates/{crate}/{file}"
            if not os.path.isfile(path):
                yield f"{os.path.relpath(edit, TOP)}: there is no {os.path.relpath(path, TOP)}"
                return
            texts.setdefault(file, open(path, encoding="utf-8").read())
        elif word == "old":
            old = rest
            if texts[file].count(old) != 1:
                yield f"{os.path.relpath(edit, TOP)}: its text is in {file} {texts[file].count(old)} times"
        elif word == "new":
            texts[file] = texts[file].replace(old, rest)


def edits_of(crate):
    return sorted(glob.glob(f"{EDITS}/{crate}/*.edit"))


def tried(crates):
    """Tries all edits of these crates in a copy, and returns the status of `rt must-fail`."""
    with tempfile.TemporaryDirectory(prefix="edits-", dir=os.path.dirname(TOP)) as room:
        subprocess.run(["cp", "-al", f"{TOP}/crates", f"{TOP}/crates.txt", f"{TOP}/HANDLES", room], check=True)
        for crate in glob.glob(f"{room}/crates/*"):
            subprocess.run(["rm", "-rf", f"{crate}/must-fail"], check=True)
        for crate in crates:
            os.mkdir(f"{room}/crates/{crate}/must-fail")
            subprocess.run(["cp", *edits_of(crate), f"{room}/crates/{crate}/must-fail"], check=True)
        return subprocess.run(["rt", "must-fail", *crates], cwd=room).returncode


def main():
    words = argparse.ArgumentParser(description=__doc__, formatter_class=argparse.RawDescriptionHelpFormatter)
    words.add_argument("--read", action="store_true")
    words.add_argument("crates", nargs="*", metavar="CRATE")
    given = words.parse_args()
    crates = given.crates or sorted(os.listdir(EDITS))
    crates = [it for it in crates if edits_of(it)]
    wrong = [it for crate in crates for edit in edits_of(crate) for it in misfits(edit, crate)]
    print(*wrong, sep="\n", end="\n" if wrong else "")
    if given.read or wrong:
        return 1 if wrong else 0
    return tried(crates)


if __name__ == "__main__":
    run_main("edits.py", lambda _: main())
