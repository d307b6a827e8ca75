#!/usr/bin/env python3
"""Lists public functions with more than five parameters beside `alloc`, and records of definitions with more than six, those of
their modules counted; `6+1` is six and one that is inferred. usage: long_lists.py [--most-fn N] [--most-record N], at the top of
a checkout"""
import argparse, glob, re

from kept_files import run_main

def closed(text, i):
    """The index behind the bracket that closes the one at i."""
    depth = 0
    while True:
        depth += {"(": 1, "{": 1, "[": 1, ")": -1, "}": -1, "]": -1}.get(text[i], 0)
        i += 1
        if depth == 0: return i

def parts(text):
    """The parameters between a function's brackets, split at commas outside brackets."""
    out, depth, last = [], 0, 0
    for i, c in enumerate(text):
        depth += {"(": 1, "[": 1, "{": 1, "<": 1, ")": -1, "]": -1, "}": -1}.get(c, 0) - (c == ">" and text[i - 1] != "-")
        if c == "," and depth == 0:
            out.append(text[last:i]); last = i + 1
    return [p.strip() for p in [*out, text[last:]] if p.strip()]

def functions(most):
    for f in sorted(glob.glob("crates/*/src/**/*.rt", recursive=True)):
        crate = f.split("/")[1]
        if crate.startswith("test_"): continue
        text = re.sub(r"//.*", "", open(f).read())
        for m in re.finditer(r"\bpub (?:const )?fn (\w+)", text):
            i = m.end()
            if text[i] == "<":  # type parameters: up to the bracket of the values
                depth = 0
                while True:
                    depth += (text[i] == "<") - (text[i] == ">" and text[i - 1] != "-")
                    i += 1
                    if depth == 0: break
            args = [p for p in parts(text[i + 1:closed(text, i) - 1]) if not re.match(r"alloc\b", p)]
            if len(args) > most: yield len(args), crate, m[1], ", ".join(a.split(":")[0].lstrip("&") for a in args)

def binders(text):
    """The names of the binders `(a b : T) {c : U}` at the beginning of a text; those that are inferred in braces."""
    names, i = [], 0
    while (m := re.compile(r"\s*([({])").match(text, i)):
        end = closed(text, m.start(1))
        inside = text[m.end():end - 1]
        if ":" in inside: names += [n if m[1] == "(" else "{" + n + "}" for n in inside.split(":")[0].split()]
        i = end
    return names

def records(most):
    for f in sorted(glob.glob("crates/*/specs/**/*.antt", recursive=True)):
        crate = f.split("/")[1]
        text = re.sub(r"--.*", "", open(f).read())
        around = []  # indent and names of the modules that are open
        for m in re.finditer(r"^( *)(?:(pub )?module \w+|(?:pub )?(?:record|data) (\w+)|\S)", text, re.M):
            while around and len(m[1]) <= around[-1][0]: around.pop()
            if "module" in m[0] and not m[3]: around.append((len(m[1]), binders(text[m.end():])))
            elif m[3]:
                names = [n for _, ns in around for n in ns] + binders(text[m.end():])
                inferred = sum(n[0] == "{" for n in names)
                if len(names) > most: yield f"{len(names) - inferred}+{inferred}" if inferred else len(names), crate, m[3], " ".join(names)

def main(arguments):
    words = argparse.ArgumentParser(description=__doc__)
    words.add_argument("--most-fn", type=int, default=5)
    words.add_argument("--most-record", type=int, default=6)
    given = words.parse_args(arguments)
    for what, found in (("functions", [*functions(given.most_fn)]), ("records", [*records(given.most_record)])):
        print(f"{len(found)} {what}")
        for n, crate, name, names in found: print(f"  {n:>4} {crate:18} {name:18} {names}")

if __name__ == "__main__": run_main("long_lists.py", main)
