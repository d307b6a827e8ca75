#!/usr/bin/env python3
"""Writes a clause list and a long DRAT proof of it, to measure what out/refute takes: a chain of STEPS steps, four million by default.

  long_proof.py LIST PROOF [STEPS]

The list has three clauses a step, two of which show that x(i) gives x(i + 1), and four that show that the first x is true and the
last is false. The proof adds a lemma for each step, joins neighbours two by two until one lemma is left, and deletes what was joined; between
them it adds and deletes lemmas of twenty literals that nothing rests on, so that it has a dozen lines a step.
"""
import itertools
import random

from kept_files import Refused, keep, refuse_clashes, run_main

SIDE = 9  # how many lemmas that nothing rests on come with two steps


def blocks(lines, size=1 << 16):
    """Lines, joined to long texts."""
    block = []
    for line in lines:
        block.append(line)
        if len(block) == size:
            yield "".join(block)
            block.clear()
    yield "".join(block)


def clauses(steps):
    """x(i) is the variable 2 * i + 1, and 2 * i + 2 is another of the step."""
    for x in range(1, 2 * steps, 2):
        yield f"-{x} {x + 1} {x + 2} 0\n-{x} -{x + 1} {x + 2} 0\n{x} {x + 1} {x + 2} 0\n"
    first, last, other = 1, 2 * steps + 1, 2 * steps + 2
    yield f"{first} {other} 0\n{first} -{other} 0\n-{last} {other} 0\n-{last} -{other} 0\n"


def side_lemmas(steps, place, pool):
    """Weaker forms of a step's lemma, of which each is deleted again."""
    lemmas = [f"-{2 * (place + k) + 1} {2 * (place + k) + 3} {pool[(place + k) % len(pool)]}" for k in range(SIDE)]
    return "".join(f"{it}d {it}" for it in lemmas)


def proof(steps):
    chance = random.Random(0)
    draw = lambda: " ".join(str(2 * chance.randrange(steps) + 2) for _ in range(18)) + " 0\n"
    pool = [draw() for _ in range(1000)]
    for place in range(0, steps, 2):
        yield f"-{2 * place + 1} {2 * place + 3} 0\n-{2 * place + 3} {2 * place + 5} 0\n"
        if place + SIDE < steps:
            yield side_lemmas(steps, place, pool)
    width = 1
    while width < steps:
        for place in range(0, steps - width, 2 * width):
            first, middle, last = (2 * min(it, steps) + 1 for it in (place, place + width, place + 2 * width))
            yield f"-{first} {last} 0\nd -{first} {middle} 0\nd -{middle} {last} 0\n"
        width *= 2
    yield f"1 0\n-{2 * steps + 1} 0\n0\n"


def main(words):
    if len(words) not in (2, 3) or not all(it.isdecimal() for it in words[2:]):
        raise Refused("the words are LIST PROOF [STEPS]")
    listed, out, steps = words[0], words[1], int(words[2]) if len(words) > 2 else 4_000_000
    refuse_clashes([], [listed, out])
    keep(listed, itertools.chain([f"p cnf {2 * steps + 2} {3 * steps + 4}\n"], blocks(clauses(steps))))
    keep(out, blocks(proof(steps)))


if __name__ == "__main__":
    run_main("long_proof.py", main)
