#!/usr/bin/env python3
"""Tries refutation.py on proofs that are made of a refutation of crates/test_solver/stdin, whole and spoilt.

What it writes is followed by a checker of its own, as docs/REFUTATIONS.md has it. It wants no solver: bench/others.py does.
"""
import os
import random
import sys
import tempfile
import unittest
from typing import Dict, List, Tuple

sys.dont_write_bytecode = True
import refutation
from kept_files import run_main

TOP = os.path.dirname(os.path.dirname(os.path.abspath(__file__)))
Line = Tuple[List[int], List[int]]


def pigeons() -> Tuple[int, List[List[int]], List[Line]]:
    """The list that says that six pigeons have a hole each of five, and its refutation."""
    with open(f"{TOP}/crates/test_solver/stdin", encoding="ascii") as table:
        row = next(line for line in table if line.startswith("check 30 :"))
    _, clauses, text = row.split(" => ")[0].split(" : ")
    lines = []
    for line in text.split("\\n")[1:-1]:
        numbers = [int(word) for word in line.split()[1:-1]]
        end = numbers.index(0)
        lines.append((numbers[:end], numbers[end + 1 :]))
    return 30, split(clauses.split()), lines


def split(words: List[str]) -> List[List[int]]:
    clauses: List[List[int]] = [[]]
    for word in words:
        if word == "0":
            clauses.append([])
        else:
            clauses[-1].append(int(word))
    return clauses[:-1]


def verdict(clauses: List[List[int]], text: str) -> str:
    """Closed, open, or the first line that doesn't pass."""
    kept: Dict[int, List[int]] = dict(enumerate(clauses, 1))
    closed = False
    for number, line in enumerate(text.split("\n")[1:-1], 2):
        numbers = [int(word) for word in line.split()[1:-1]]
        end = numbers.index(0)
        literals, hints = numbers[:end], numbers[end + 1 :]
        if not passes(kept, literals, hints):
            return f"line {number}"
        kept[len(kept) + 1] = literals
        closed = closed or not literals
    return "closed" if closed else "open"


def passes(kept: Dict[int, List[int]], literals: List[int], hints: List[int]) -> bool:
    variables = [abs(literal) for literal in literals]
    if variables != sorted(set(variables)):
        return False
    true = {-literal for literal in literals}
    for place, hint in enumerate(hints):
        left = [literal for literal in kept.get(hint, [0, 0]) if -literal not in true]
        if not left:
            return place == len(hints) - 1
        if len(left) > 1:
            return False
        true.add(left[0])
    return False


class Made(unittest.TestCase):
    """Proofs that are made of a refutation."""

    def setUp(self) -> None:
        self.variables, self.clauses, self.lines = pigeons()
        self.chance = random.Random(0)

    def tool(self, kind: str, proof: List[str], clauses=None) -> Tuple[int, str]:
        """The status, and the refutation that was written."""
        clauses = self.clauses if clauses is None else clauses
        with tempfile.TemporaryDirectory() as folder:
            files = [f"{folder}/{name}" for name in ("list", "proof", "out")]
            with open(files[0], "w", encoding="ascii") as file:
                file.write(f"p cnf {self.variables} {len(clauses)}\n")
                file.writelines(" ".join(map(str, [*clause, 0])) + "\n" for clause in clauses)
            with open(files[1], "w", encoding="ascii") as file:
                file.writelines(line + "\n" for line in proof)
            out, sys.stdout, err, sys.stderr = sys.stdout, open(os.devnull, "w"), sys.stderr, open(f"{folder}/err", "w")
            try:
                status = refutation.main([kind, *files[:2], "sc", files[2]])
            finally:
                sys.stdout.close()
                sys.stderr.close()
                sys.stdout, sys.stderr = out, err
            with open(files[2] if status == 0 else f"{folder}/err", encoding="ascii") as file:
                return status, file.read()

    def drat(self) -> List[str]:
        return [" ".join(map(str, [*literals, 0])) for literals, _ in self.lines]

    def lrat(self) -> List[str]:
        """The numbers of added clauses rise by chance, and the hints but for the last are in any order."""
        own = {number: number for number in range(1, len(self.clauses) + 1)}
        last, lines = len(own), []
        for literals, hints in self.lines:
            last += self.chance.randint(1, 5)
            own[len(own) + 1] = last
            shuffled = self.chance.sample(hints, len(hints))
            lines.append(" ".join(map(str, [last, *literals, 0, *(own[hint] for hint in shuffled), 0])))
        return lines

    def test_the_refutation_is_one(self) -> None:
        text = "\n".join(" ".join(map(str, ["a", *ls, 0, *hs, 0])) for ls, hs in self.lines)
        self.assertEqual(verdict(self.clauses, f"first\n{text}\n"), "closed")

    def test_drat(self) -> None:
        status, text = self.tool("drat", self.drat())
        self.assertEqual((status, verdict(self.clauses, text)), (0, "closed"))
        self.assertEqual(text.split("\n")[0], "clap-refutation 2 sc")

    def test_lrat(self) -> None:
        status, text = self.tool("lrat", self.lrat())
        self.assertEqual((status, verdict(self.clauses, text)), (0, "closed"))

    def test_what_is_not_needed_is_left_out(self) -> None:
        more = [" ".join(map(str, [*sorted(self.chance.sample(range(1, 31), 20)), *[0]])) for _ in range(50)]
        status, text = self.tool("drat", more + self.drat())
        self.assertEqual((status, verdict(self.clauses, text)), (0, "closed"))
        self.assertLessEqual(text.count("\n"), len(self.lines) + 1)

    def test_deletions(self) -> None:
        proof = self.drat()
        lines = proof[:-1] + ["d " + line for line in proof[:120]] + ["d 1 2 3 0", "d 4 0"] + proof[-1:]
        status, text = self.tool("drat", lines)
        self.assertEqual((status, verdict(self.clauses, text)), (0, "closed"))

    def test_a_line_that_is_not_by_unit_propagation(self) -> None:
        status, text = self.tool("drat", ["1 0", *self.drat()], self.clauses[1:])
        self.assertEqual(status, 1)
        self.assertIn("line 1 isn't by unit propagation", text)

    def test_no_conflict(self) -> None:
        status, text = self.tool("drat", self.drat()[:10])
        self.assertEqual(status, 1)
        self.assertIn("doesn't come to the empty clause", text)

    def test_the_list_has_the_empty_clause(self) -> None:
        status, text = self.tool("drat", [], [[1, 2], []])
        self.assertEqual((status, text), (0, "clap-refutation 2 sc\na 0 2 0\n"))

    def test_spoilt_proofs(self) -> None:
        """A line cut or a literal turned: refused, or still a refutation. Without a clause of the list, always refused."""
        for turn in range(60):
            kind = self.chance.choice(["drat", "lrat"])
            lines = self.drat() if kind == "drat" else self.lrat()
            place = self.chance.randrange(len(lines) - 1)
            if self.chance.random() < 0.5:
                del lines[place]
            else:
                words = lines[place].split()
                first = kind == "lrat"
                words[first] = str(-int(words[first]))
                lines[place] = " ".join(words)
            status, text = self.tool(kind, lines)
            if status == 0:
                self.assertEqual(verdict(self.clauses, text), "closed", turn)
            without = self.clauses[:place % 6] + self.clauses[place % 6 + 1 :]
            status, text = self.tool(kind, lines, without)
            self.assertTrue(status == 1 or verdict(without, text) != "closed", turn)


if __name__ == "__main__":
    run_main("test_refutation.py", lambda _: unittest.main())
