#!/usr/bin/env python3
"""Writes a clause list as a row of test_solver: of a DIMACS file, pigeons COUNT, or random VARIABLES SEED.

    bench/rows.py bench/clauses/lock3.sc.cnf.gz > row
    bench/rows.py random 200 0 --dimacs > list.cnf

With --dimacs it writes DIMACS, for another solver.
"""
import gzip
import random

from kept_files import Refused, run_main


def of_file(path):
    opener = gzip.open if path.endswith(".gz") else open
    variables, clauses, clause = 0, [], []
    with opener(path, "rt") as lines:
        for line in lines:
            if line.startswith("p"):
                variables = int(line.split()[2])
            elif not line.startswith("c"):
                for word in line.split():
                    if word == "0":
                        clauses.append(sorted(set(clause), key=abs))
                        clause = []
                    else:
                        clause.append(int(word))
    return variables, clauses


def of_pigeons(count):
    holes = count - 1
    sits = lambda pigeon, hole: pigeon * holes + hole + 1
    clauses = [[sits(p, h) for h in range(holes)] for p in range(count)]
    for h in range(holes):
        clauses += [[-sits(p, h), -sits(q, h)] for p in range(count) for q in range(p + 1, count)]
    return count * holes, clauses


def of_random(variables, seed):
    """Three literals a clause, 4.26 clauses a variable: about half of such lists can be satisfied."""
    chance = random.Random(variables * 10 + seed)
    clauses = []
    for _ in range(round(4.26 * variables)):
        chosen = sorted(chance.sample(range(1, variables + 1), 3))
        clauses.append([v if chance.random() < 0.5 else -v for v in chosen])
    return variables, clauses


def main(words):
    plain = [word for word in words if word != "--dimacs"]
    numbers = [int(word) for word in plain[1:] if word.isdecimal()]
    if plain[:1] == ["pigeons"] and len(plain) == 2 and len(numbers) == 1:
        variables, clauses = of_pigeons(*numbers)
    elif plain[:1] == ["random"] and len(plain) == 3 and len(numbers) == 2:
        variables, clauses = of_random(*numbers)
    elif len(plain) == 1:
        variables, clauses = of_file(plain[0])
    else:
        raise Refused("the words are FILE, pigeons COUNT or random VARIABLES SEED, and [--dimacs]")
    if "--dimacs" in words:
        print(f"p cnf {variables} {len(clauses)}")
        for clause in clauses:
            print(*clause, 0)
    else:
        print("group a list")
        print(f"search {variables} :", *(f"{' '.join(map(str, clause))} 0" for clause in clauses), ": 10000000 => closed")


if __name__ == "__main__":
    run_main("rows.py", main)
