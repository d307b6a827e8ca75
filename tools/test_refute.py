#!/usr/bin/env python3
"""Tries out/refute beside refutation.py, the plain reference: on a refutation of pigeons, whole, in cubes and spoilt, and on proofs
that cadical writes of random lists. Both have to take and to refuse the same proofs, and what either writes is followed by a checker
of its own. It wants g++; tests that want cadical too are skipped where there is none.
"""
import os
import random
import shutil
import subprocess
import sys
import tempfile
import unittest
from typing import Dict, List, Tuple

sys.dont_write_bytecode = True
import test_refutation
from kept_files import run_main

TOP = test_refutation.TOP
Clauses = List[List[int]]


def verdict(clauses: Clauses, text: str) -> str:
    """Closed, open, or the first line that doesn't pass, deletions among them."""
    kept: Dict[int, List[int]] = dict(enumerate(clauses, 1))
    last, closed = len(kept), False
    for number, line in enumerate(text.split("\n")[1:-1], 2):
        kind, *words = line.split()
        numbers = [int(word) for word in words[:-1]]
        if kind == "d":
            if not numbers or any(kept.pop(it, None) is None for it in numbers):
                return f"line {number}"
            continue
        end = numbers.index(0)
        if not test_refutation.passes(kept, numbers[:end], numbers[end + 1 :]):
            return f"line {number}"
        last += 1
        kept[last] = numbers[:end]
        closed = closed or end == 0
    return "closed" if closed else "open"


def random_list(chance: random.Random, variables: int, count: int) -> Clauses:
    draw = lambda: [it * chance.choice((1, -1)) for it in sorted(chance.sample(range(1, variables + 1), 3))]
    return [draw() for _ in range(count)]


@unittest.skipUnless(shutil.which("g++"), "there is no g++")
class Refute(unittest.TestCase):
    @classmethod
    def setUpClass(cls) -> None:
        cls.program = subprocess.run([f"{TOP}/tools/refute/build"], capture_output=True, text=True, check=True).stdout.strip()

    def setUp(self) -> None:
        self.variables, self.clauses, self.lines = test_refutation.pigeons()
        self.chance = random.Random(1)
        room = tempfile.TemporaryDirectory()
        self.addCleanup(room.cleanup)
        self.folder = room.name

    def path(self, name: str) -> str:
        return os.path.join(self.folder, name)

    def write(self, name: str, lines: List[str]) -> str:
        with open(self.path(name), "w", encoding="ascii") as file:
            file.writelines(line + "\n" for line in lines)
        return self.path(name)

    def write_list(self, variables: int, clauses: Clauses) -> str:
        rows = [" ".join(map(str, [*clause, 0])) for clause in clauses]
        return self.write("list", [f"p cnf {variables} {len(clauses)}", *rows])

    def call(self, *words: str) -> Tuple[int, str]:
        ran = subprocess.run([self.program, *words], capture_output=True, text=True, check=False)
        return ran.returncode, ran.stdout + ran.stderr

    def read(self, name: str) -> str:
        with open(self.path(name), encoding="ascii") as file:
            return file.read()

    def both(self, kind: str, variables: int, clauses: Clauses, proof: str) -> int:
        """The status that both tools end with; where it is 0, both refutations are closed."""
        listed = self.write_list(variables, clauses)
        status, said = self.call(kind, listed, proof, "sc", self.path("ours"))
        plain = subprocess.run([sys.executable, f"{TOP}/tools/refutation.py", kind, listed, proof, "sc", self.path("plain")],
                               capture_output=True, text=True, check=False)
        self.assertEqual(status, plain.returncode, said + plain.stderr)
        if status == 0:
            self.assertEqual(verdict(clauses, self.read("ours")), "closed")
            self.assertEqual(verdict(clauses, self.read("plain")), "closed")
        return status

    def drat(self) -> List[str]:
        return [" ".join(map(str, [*literals, 0])) for literals, _ in self.lines]

    def lrat(self, units: int = 0) -> List[str]:
        """Where the list has more clauses at its end, of a cube, the numbers of lines come after these."""
        given = len(self.clauses)
        number = lambda it: it if it <= given else it + units
        return [" ".join(map(str, [number(given + k), *literals, 0, *map(number, hints), 0])) for k, (literals, hints) in enumerate(self.lines, 1)]

    def test_the_same_is_taken(self) -> None:
        for kind, lines in ("drat", self.drat()), ("lrat", self.lrat()):
            self.assertEqual(self.both(kind, self.variables, self.clauses, self.write("proof", lines)), 0)
            self.assertEqual(self.read("ours").split("\n")[0], "clap-refutation 2 sc")

    def test_deletions_stay_few(self) -> None:
        """Clauses that no later line needs are deleted: in the end only the empty clause is
        kept."""
        self.both("drat", self.variables, self.clauses, self.write("proof", self.drat()))
        text = self.read("ours").split("\n")
        gone = sum(len(line.split()) - 2 for line in text if line.startswith("d"))
        self.assertEqual(gone, sum(line.startswith("a") for line in text) - 1)

    def test_deletions_of_the_proof(self) -> None:
        proof = self.drat()
        lines = proof[:-1] + ["d " + line for line in proof[:120]] + ["d 1 2 3 0", "d 4 0"] + proof[-1:]
        self.assertEqual(self.both("drat", self.variables, self.clauses, self.write("proof", lines)), 0)

    def test_spoilt_proofs(self) -> None:
        for turn in range(40):
            kind = self.chance.choice(["drat", "lrat"])
            lines = self.drat() if kind == "drat" else self.lrat()
            place = self.chance.randrange(len(lines) - 1)
            if turn % 2:
                del lines[place]
            else:
                words = lines[place].split()
                words[kind == "lrat"] = str(-int(words[kind == "lrat"]))
                lines[place] = " ".join(words)
            self.both(kind, self.variables, self.clauses, self.write("proof", lines))
            without = self.clauses[: turn % 6] + self.clauses[turn % 6 + 1 :]
            self.assertEqual(self.both("drat", self.variables, without, self.write("proof", self.drat())), 1)

    def test_no_conflict(self) -> None:
        self.assertEqual(self.both("drat", self.variables, self.clauses, self.write("proof", self.drat()[:10])), 1)
        self.assertEqual(self.both("lrat", self.variables, self.clauses, self.write("proof", self.lrat()[:-1])), 1)

    def test_the_list_has_the_empty_clause(self) -> None:
        self.assertEqual(self.both("drat", 2, [[1, 2], []], self.write("proof", [])), 0)
        self.assertEqual(self.read("ours"), "clap-refutation 2 sc\na 0 2 0\n")

    def test_bad_files(self) -> None:
        for lines in ["1 2"], ["1 x 0"], ["1 0 2 0"], ["0 0"]:
            self.assertEqual(self.both("drat", self.variables, self.clauses, self.write("proof", lines)), 2)
        self.assertEqual(self.both("drat", self.variables, self.clauses, self.path("nothing")), 2)
        self.assertFalse(os.path.exists(self.path("ours")))

    def test_a_device_that_never_ends(self) -> None:
        listed, proof = self.write_list(self.variables, self.clauses), self.write("proof", self.drat())
        for words in [listed, "/dev/zero"], ["/dev/zero", proof]:
            status, said = self.call("drat", *words, "sc", self.path("ours"))
            self.assertEqual((status, said), (2, "can't be used: /dev/zero: not a regular file\n"))

    def test_an_output_that_is_an_input(self) -> None:
        listed, proof = self.write_list(self.variables, self.clauses), self.write("proof", self.drat())
        one = self.write("one", ["clap-piece 1 1 0", "a -1 0 2 4 0"])
        os.link(one, self.path("link"))
        os.symlink("proof", self.path("other"))
        before = [self.read(name) for name in ("list", "proof", "one")]
        for words in (["drat", listed, proof, "sc", proof], ["lrat", listed, proof, "sc", self.path("other")], ["split", listed, "1", listed],
                      ["join", listed, "sc", self.path("link"), one], ["join", listed, "sc", listed, one]):
            with self.subTest(words=words):
                status, said = self.call(*words)
                self.assertEqual(status, 2)
                self.assertRegex(said, "can't be used: .* would be written over, and is an input; give the output another name\n")
        self.assertEqual([self.read(name) for name in ("list", "proof", "one")], before)

    def test_a_full_disk(self) -> None:
        listed, proof = self.write_list(self.variables, self.clauses), self.write("proof", self.drat())
        os.symlink("/dev/full", self.path("full.part"))
        status, said = self.call("drat", listed, proof, "sc", self.path("full"))
        self.assertEqual(status, 2)
        self.assertIn("No space left", said)

    # Cubes.

    def piece(self, cube: List[int], kind: str = "drat") -> str:
        """The piece of a cube, made of the proof of the whole list, which is one of the list with a cube too."""
        listed = self.write_list(self.variables, self.clauses)
        proof = self.write("proof", self.drat() if kind == "drat" else self.lrat(len(cube)))
        name = self.path("piece." + "_".join(map(str, cube)))
        status, said = self.call(kind, listed, proof, "sc", name, *map(str, cube))
        self.assertEqual(status, 0, said)
        return name

    def join(self, pieces: List[str]) -> Tuple[int, str]:
        """The status, and what was written or said."""
        status, said = self.call("join", self.write_list(self.variables, self.clauses), "tso", self.path("joined"), *pieces)
        return status, self.read("joined") if status == 0 else said

    CUBES = [[1, 2], [1, -2], [-1, 7, 8], [-1, 7, -8], [-1, -7]]

    def test_pieces_are_joined(self) -> None:
        for kind in ("drat", "lrat"):
            pieces = [self.piece(cube, kind) for cube in self.CUBES]
            self.chance.shuffle(pieces)
            status, text = self.join(pieces)
            self.assertEqual((status, verdict(self.clauses, text)), (0, "closed"), text[:200])
            self.assertEqual(text.split("\n")[0], "clap-refutation 2 tso")

    def test_a_cube_s_clauses_have_numbers_in_lrat(self) -> None:
        self.variables, self.clauses = 2, [[1, 2], [-1, 2], [1, -2], [-1, -2]]
        listed = self.write_list(2, self.clauses)
        for literal, hints in (1, "5 2 4"), (-1, "5 1 3"):
            proof = self.write("proof", [f"6 0 {hints} 0"])
            self.assertEqual(self.call("lrat", listed, proof, "sc", self.path(str(literal)), str(literal))[0], 0)
        self.assertEqual(self.read("1"), "clap-piece 1 1 0\na -1 0 2 4 0\n")
        status, text = self.join([self.path("1"), self.path("-1")])
        self.assertEqual((status, text), (0, "clap-refutation 2 tso\na -1 0 2 4 0\na 1 0 1 3 0\na 0 5 6 0\nd 5 6 0\n"))

    def test_a_cube_that_is_not_there(self) -> None:
        self.variables, self.clauses = 2, [[1, 2], [-1, 2], [1, -2], [-1, -2]]
        one = self.write("one", ["clap-piece 1 1 0", "a -1 0 2 4 0"])
        self.assertEqual(self.join([one]), (1, "refused: no piece refutes the cube -1\n"))

    def test_a_piece_of_another_cube(self) -> None:
        self.variables, self.clauses = 2, [[1, 2], [-1, 2], [1, -2], [-1, -2]]
        one = self.write("one", ["clap-piece 1 1 0", "a -1 0 2 4 0"])
        self.write("other", ["clap-piece 1 -1 0", "a -1 0 2 4 0"])
        status, text = self.join([one, self.path("other")])
        self.assertEqual((status, text), (1, f"refused: {self.path('other')}: ends before its cube is refuted\n"))
        self.write("other", ["clap-piece 1 -1 0", "a 1 0 2 4 0"])
        self.assertEqual(self.join([one, self.path("other")]), (1, f"refused: {self.path('other')}: line 2 doesn't follow\n"))

    def test_spoilt_pieces(self) -> None:
        """A piece with a cut or changed line is refused by name, or the join is a refutation."""
        pieces = [self.piece(cube) for cube in self.CUBES]
        for turn in range(60):
            path = self.chance.choice(pieces)
            with open(path, encoding="ascii") as file:
                whole = file.read()
            lines = whole.split("\n")[:-1]
            place = self.chance.randrange(1, len(lines))
            words = lines[place].split()
            spot = self.chance.randrange(len(words))
            words[spot] = self.chance.choice(["7", "-3", "0", "999999", "x"])
            cut = [lines[:place], lines[:place] + lines[place + 1 :], lines[:place] + [" ".join(words)] + lines[place + 1 :]][turn % 3]
            self.write(os.path.basename(path), cut)
            status, text = self.join(pieces)
            if status == 0:
                self.assertEqual(verdict(self.clauses, text), "closed", turn)
            else:
                self.assertEqual(status, 1)
                self.assertIn(path, text)
            with open(path, "w", encoding="ascii") as file:
                file.write(whole)

    # Solvers.

    @unittest.skipUnless(shutil.which("cadical"), "there is no cadical")
    def test_proofs_of_cadical(self) -> None:
        refuted = 0
        for _ in range(30):
            variables = self.chance.randint(20, 90)
            clauses = random_list(self.chance, variables, variables * 5)
            proof = self.path("proof")
            ran = subprocess.run(["cadical", "-q", "--no-binary", self.write_list(variables, clauses), proof], capture_output=True, check=False)
            if ran.returncode == 20:
                refuted += 1
                self.assertEqual(self.both("drat", variables, clauses, proof), 0)
        self.assertGreater(refuted, 15)

    @unittest.skipUnless(shutil.which("cadical"), "there is no cadical")
    def test_cubes_of_cadical(self) -> None:
        """Random lists, refuted in cubes of each two or three literals: each cube's proof is one of its own list."""
        for _ in range(10):
            self.variables = self.chance.randint(20, 70)
            self.clauses = random_list(self.chance, self.variables, self.variables * 6)
            pieces = [self.piece_by_cadical(cube) for cube in ([3, 4], [3, -4, 9], [3, -4, -9], [-3, 5], [-3, -5])]
            if all(pieces):
                status, text = self.join(pieces)
                self.assertEqual((status, verdict(self.clauses, text)), (0, "closed"), text[:200])

    def piece_by_cadical(self, cube: List[int]) -> str:
        proof, name = self.path("proof"), self.path("piece." + "_".join(map(str, cube)))
        whole = self.write_list(self.variables, self.clauses + [[literal] for literal in cube])
        ran = subprocess.run(["cadical", "-q", "--no-binary", whole, proof], capture_output=True, check=False)
        if ran.returncode != 20:
            return ""
        listed = self.write_list(self.variables, self.clauses)
        status, said = self.call("drat", listed, proof, "sc", name, *map(str, cube))
        self.assertEqual(status, 0, said)
        return name


if __name__ == "__main__":
    run_main("test_refute.py", lambda _: unittest.main(verbosity=2))
