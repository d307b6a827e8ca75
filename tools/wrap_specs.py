#!/usr/bin/env python3
"""Breaks lines of definitions that have more than 100 columns. usage: wrap_specs.py CRATE.. (all if none), at the top of a checkout"""
import argparse, glob, os, re

from kept_files import Refused, keep, run_main

MOST = 100
OPS = {"=": 0, "→": 1, "⊎": 2, "×": 2, "⇒": 1, "||": 3, "&&": 4, "then": 2, "else": 2, "in": 2, "↔": 2, "≡": 5, "++": 5, "∷": 6, "+": 7, ".": 9}
def tokens(line):
    """Places where the line may be broken: column, depth, rank, whether the break comes behind the token."""
    depth, i, out, quoted = 0, 0, [], False
    for m in re.finditer(r'"(?:[^"\\]|\\.)*"|--.*|[(){}\[\]⟦⟧⌜⌝]|[^\s(){}\[\]⟦⟧⌜⌝]+', line):
        t = m[0]
        if t.startswith("--"): break
        if t in "({[⟦⌜": depth += 1
        elif t in ")}]⟧⌝": depth -= 1
        elif t == "=" and m.end() < len(line) and depth == 0 and "let " not in line[:m.start()] and not any(r == 0 for _, _, r in out) and not re.match(r" *(in|[a-z_]+ =)", line[own_of(line):] if 0 else ""): out.append((m.end(), depth, 0))
        elif t == "in" and m.end() < len(line): out.append((m.end(), depth, 1))
        elif t in ("→", "⊎", "×", "&&", "||", "++", "then", "else", "↔", "∷") and m.start() > 0 and line[m.start()-1] == " ":
            out.append((m.start(), depth, OPS[t]))
    return out
def lambdas(line):
    """Places behind a λ's dot."""
    out, depth = [], 0
    for m in re.finditer(r'"(?:[^"\\]|\\.)*"|--.*|[(){}\[\]⟦⟧]|[^\s(){}\[\]⟦⟧]+', line):
        if m[0].startswith("--"): break
        before = line[m.start() - 1] if m.start() else ""
        if m[0] in "({[⟦":
            if before == " ": out.append((m.start(), depth, 8))
            depth += 1
        elif m[0] in ")}]⟧": depth -= 1
    return out
def wrap(line, indent, first):
    """The lines that this one becomes."""
    own = len(line) - len(line.lstrip(" "))
    places = [p for p in tokens(line) + lambdas(line) if own + 8 < p[0] <= MOST]
    if len(line) <= MOST or not places: return [line]
    lowest = min(d for _, d, _ in places)
    base = line[:own].count("(")
    def worth(p):
        rest = len(line) - p[0]
        fits = rest + indent <= MOST
        return (p[1] - lowest, p[2] if p[2] else (0 if fits else 0.5), -p[0])
    at, depth, _ = min(places, key=worth)
    head, tail = line[:at].rstrip(), line[at:].lstrip()
    indent += 4 if depth > 0 and not first else 0
    return [head, *wrap(" " * indent + tail, indent, False)]
def main(words):
    parser = argparse.ArgumentParser(prog="wrap_specs.py", description=__doc__)
    parser.add_argument("crates", metavar="CRATE", nargs="*")
    crates = parser.parse_args(words).crates
    for it in crates:
        if not os.path.isdir(f"crates/{it}"): raise Refused(f"there is no crate {it} in crates/ here")
    changed = 0
    for f in sorted(glob.glob("crates/*/specs/**/*.antt", recursive=True)):
        if crates and f.split("/")[1] not in crates: continue
        lines, out, head = open(f).read().split("\n"), [], 0
        for l in lines:
            s = l.lstrip(" "); own = len(l) - len(s)
            if l.strip() == "": head = 0
            if len(l) <= MOST or s.startswith(("use ", "pub use", "--")) or re.match(r"\s*\w.*\buse Rattle", l): out.append(l); continue
            # a line that goes on with an earlier one keeps its own place
            goes_on = s.startswith(("→", "×", "⊎", "&&", "||", "++", "then", "else", "∷")) or (out and out[-1].rstrip().endswith((" =", "→", ".", "=")) and own > len(out[-1]) - len(out[-1].lstrip(" ")))
            made = wrap(l, own if goes_on else own + 4, True)
            changed += len(made) > 1
            out += made
        new = "\n".join(out)
        if new != "\n".join(lines): keep(f, new)
    print("broken", changed)
if __name__ == "__main__": run_main("wrap_specs.py", main)
