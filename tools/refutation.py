#!/usr/bin/env python3
"""Turns a solver's proof of a clause list into a refutation for `check`. NOT PROVED: `check` decides whether what it writes is one.

    refutation.py drat LIST PROOF MODEL OUT     a DRAT proof, as text
    refutation.py lrat LIST PROOF MODEL OUT     an LRAT proof, as text

LIST is what `cnf` wrote, MODEL is sc, tso or pso. Of both kinds of proof only those lines are kept that the empty clause rests on.
A line of a DRAT proof has no hints: they are found by unit propagation, from the last line back, over clauses that are needed
already before others. The hints of an LRAT proof get the numbers and the order of a refutation.

Status 0: OUT is written, and a line says how much is in it. 1: the proof is refused; a needed line that isn't by unit propagation is
named by its number. 2: the words or the files can't be used. It needs Python 3.8 and nothing else.
"""
import itertools
import os
import sys
from typing import Dict, Iterator, List, NamedTuple, Optional, Tuple

sys.path.insert(0, os.path.dirname(os.path.realpath(__file__)))
import kept_files  # noqa: E402

Clause = Tuple[int, ...]


class Refused(Exception):
    """The proof doesn't show that nothing satisfies the clauses."""


class Added(NamedTuple):
    """A clause that a refutation adds, and the numbers of the clauses that show it, in order."""

    literals: Clause
    hints: List[int]


# Files.


def numbers_in(path: str) -> Iterator[Tuple[int, List[bytes]]]:
    """The lines of a file that aren't empty or comments, as words with the line's number."""
    with open(path, "rb") as file:
        for number, line in enumerate(file, 1):
            words = line.split()
            if words and not words[0].startswith(b"c"):
                yield number, words


def as_clause(literals: List[int]) -> Clause:
    """The literals, each once, in the order of their variables."""
    return tuple(sorted(set(literals), key=lambda literal: (abs(literal), literal)))


def is_tautology(clause: Clause) -> bool:
    return any(clause[i] == -clause[i + 1] for i in range(len(clause) - 1))


def read_list(path: str) -> Tuple[int, List[Clause]]:
    """The number of variables of a clause list, and its clauses."""
    clauses: List[Clause] = []
    literals: List[int] = []
    variables = -1
    for number, words in numbers_in(path):
        if words[0] == b"p":
            variables = int(words[2])
            continue
        for word in words:
            if word == b"0":
                clauses.append(as_clause(literals))
                literals = []
            else:
                literals.append(int(word))
    if variables < 0 or literals:
        raise ValueError(f"{path}: no clause list")
    return variables, clauses


def write_refutation(path: str, model: str, lines: List[Added]) -> None:
    added = (" ".join(["a", *map(str, line.literals), "0", *map(str, line.hints), "0"]) for line in lines)
    kept_files.keep(path, itertools.chain([f"clap-refutation 2 {model}\n"], (f"{line}\n" for line in added)))


# DRAT.


class Step(NamedTuple):
    """A line of a DRAT proof: a clause comes, or goes."""

    line: int
    comes: bool
    clause: Clause


class Propagation:
    """Clauses with two watched literals each, and the literals that they make true.

    Arrays over literals are indexed by the literal itself: a negative index counts from the end. Clauses have numbers from 1, those of
    the list first. A clause is watched in one of two tables, that of the needed ones or that of the others. What a table holds beside
    the two watches of the clauses that are kept is dropped when it is next seen.
    """

    def __init__(self, variables: int) -> None:
        size = 2 * variables + 1
        self.value = [0] * size
        self.place = [0] * (variables + 1)
        self.reason = [0] * (variables + 1)
        self.trail: List[int] = []
        self.needed: List[List[int]] = [[] for _ in range(size)]
        self.others: List[List[int]] = [[] for _ in range(size)]
        self.needed_front = 0
        self.others_front = 0
        self.clauses: List[List[int]] = [[]]
        self.is_kept = bytearray(1)
        self.is_needed = bytearray(1)

    def append(self, clause: Clause) -> int:
        """One clause more, which isn't kept yet: its number."""
        self.clauses.append(list(clause))
        self.is_kept.append(0)
        self.is_needed.append(0)
        return len(self.clauses) - 1

    def keep(self, number: int) -> bool:
        """The clause is kept from now on. Whether it isn't in conflict."""
        self.is_kept[number] = 1
        clause, value, place = self.clauses[number], self.value, self.place
        # Literals that aren't false come first, then those that became false last.
        clause.sort(key=lambda l: (-value[l], -place[abs(l)]))
        if len(clause) > 1:
            table = self.needed if self.is_needed[number] else self.others
            table[clause[0]].append(number)
            table[clause[1]].append(number)
        if not clause or value[clause[0]] < 0:
            return False
        if value[clause[0]] == 0 and (len(clause) == 1 or value[clause[1]] < 0):
            self.make_true(clause[0], number)
        return True

    def need(self, number: int) -> None:
        """The clause is needed: it moves to that table."""
        if not self.is_needed[number]:
            self.is_needed[number] = 1
            clause = self.clauses[number]
            if len(clause) > 1:
                self.needed[clause[0]].append(number)
                self.needed[clause[1]].append(number)

    def is_reason(self, number: int) -> bool:
        clause = self.clauses[number]
        return bool(clause) and self.value[clause[0]] > 0 and self.reason[abs(clause[0])] == number

    def make_true(self, literal: int, reason: int) -> None:
        self.value[literal] = 1
        self.value[-literal] = -1
        variable = abs(literal)
        self.place[variable] = len(self.trail)
        self.reason[variable] = reason
        self.trail.append(literal)

    def take_back(self, length: int) -> None:
        """The literals of the trail from that place on are open again."""
        value = self.value
        for literal in self.trail[length:]:
            value[literal] = value[-literal] = 0
        del self.trail[length:]
        self.needed_front = min(self.needed_front, length)
        self.others_front = min(self.others_front, length)

    def propagate(self) -> int:
        """Makes true what clauses ask for, the needed ones first. The clause that is in conflict, or 0."""
        trail = self.trail
        while True:
            while self.needed_front < len(trail):
                conflict = self.visit(-trail[self.needed_front], self.needed, False)
                if conflict:
                    return conflict
                self.needed_front += 1
            if self.others_front == len(trail):
                return 0
            conflict = self.visit(-trail[self.others_front], self.others, True)
            if conflict:
                return conflict
            self.others_front += 1

    def visit(self, literal: int, table: List[List[int]], others: bool) -> int:
        """Goes through the clauses that watch a literal, which is false now. The one that is in conflict, or 0."""
        value, clauses, is_kept, is_needed = self.value, self.clauses, self.is_kept, self.is_needed
        own = table[literal]
        left: List[int] = []
        for at, number in enumerate(own):
            if not is_kept[number] or (others and is_needed[number]):
                continue
            clause = clauses[number]
            first = clause[0]
            if first == literal:
                first = clause[1]
                clause[0], clause[1] = first, literal
            elif clause[1] != literal:
                continue
            if value[first] > 0:
                left.append(number)
                continue
            for place in range(2, len(clause)):
                other = clause[place]
                if value[other] >= 0:
                    clause[1], clause[place] = other, literal
                    table[other].append(number)
                    break
            else:
                left.append(number)
                if value[first] < 0:
                    left.extend(own[at + 1 :])
                    table[literal] = left
                    return number
                self.make_true(first, number)
        table[literal] = left
        return 0

    def explain(self, conflict: int, given: int = 0) -> List[int]:
        """The clauses by which the one in conflict is so, in order, and it. Of the given variable no reason is asked."""
        seen = {given}
        places: List[Tuple[int, int]] = []
        todo = [conflict]
        while todo:
            for literal in self.clauses[todo.pop()]:
                variable = abs(literal)
                if variable not in seen:
                    seen.add(variable)
                    reason = self.reason[variable]
                    if reason:
                        places.append((self.place[variable], reason))
                        todo.append(reason)
        places.sort()
        hints = [reason for _, reason in places]
        hints.append(conflict)
        for number in hints:
            self.need(number)
        return hints

    def show(self, clause: List[int]) -> Optional[List[int]]:
        """The clauses that show a clause by unit propagation, in order, if there are such."""
        length = len(self.trail)
        conflict = self.propagate()
        length = len(self.trail)
        if conflict:
            return self.explain(conflict)
        held = [literal for literal in clause if self.value[literal] > 0]
        if held:
            # It is true already: its opposite is in conflict with what made it so.
            variable = abs(min(held, key=lambda l: self.place[abs(l)]))
            return self.explain(self.reason[variable], variable)
        for literal in clause:
            if self.value[literal] == 0:
                self.make_true(-literal, 0)
        conflict = self.propagate()
        hints = self.explain(conflict) if conflict else None
        self.take_back(length)
        return hints


def read_drat(path: str) -> List[Step]:
    steps: List[Step] = []
    for number, words in numbers_in(path):
        comes = words[0] != b"d"
        literals = [int(word) for word in (words if comes else words[1:])]
        if not literals or literals.pop() != 0 or 0 in literals:
            raise ValueError(f"{path}: line {number} is no line of a DRAT proof")
        steps.append(Step(number, comes, as_clause(literals)))
    return steps


class Drat:
    """A DRAT proof, of which the lines that are needed are found from the last one back."""

    def __init__(self, variables: int, clauses: List[Clause], steps: List[Step]) -> None:
        self.variables = variables
        most = max((abs(step.clause[-1]) for step in steps if step.clause), default=0)
        self.state = Propagation(max(variables, most))
        self.given = len(clauses)
        # The numbers of the clauses that are kept, by their literals.
        self.numbers: Dict[Clause, List[int]] = {}
        # Additions and deletions, in order.
        self.done: List[Tuple[Step, int]] = []
        self.conflict = 0
        for clause in clauses:
            self.come(clause)
        self.go_on(steps)

    def come(self, clause: Clause) -> int:
        number = self.state.append(clause)
        self.numbers.setdefault(clause, []).append(number)
        if not self.conflict and not is_tautology(clause):
            if not self.state.keep(number):
                self.conflict = number
        return number

    def go_on(self, steps: List[Step]) -> None:
        """Goes through the lines until clauses are in conflict."""
        state = self.state
        self.conflict = self.conflict or state.propagate()
        for step in steps:
            if self.conflict:
                return
            if step.comes:
                number = self.come(step.clause)
                self.done.append((step, number))
                self.conflict = self.conflict or state.propagate()
                continue
            numbers = self.numbers.get(step.clause)
            # A missing clause can't go, and a reason stays: more clauses show nothing else.
            if numbers and not state.is_reason(numbers[-1]):
                number = numbers.pop()
                state.is_kept[number] = 0
                self.done.append((step, number))

    def refutation(self) -> List[Added]:
        if not self.conflict:
            raise Refused("the proof doesn't come to the empty clause")
        state = self.state
        shown: Dict[int, List[int]] = {}
        last = state.explain(self.conflict)
        for step, number in reversed(self.done):
            if not step.comes:
                if not is_tautology(step.clause):
                    state.keep(number)
                continue
            if state.is_reason(number):
                state.take_back(state.place[abs(state.clauses[number][0])])
            state.is_kept[number] = 0
            if state.is_needed[number]:
                shown[number] = self.hints(step, number)
        return self.lines(shown, last)

    def hints(self, step: Step, number: int) -> List[int]:
        if step.clause and abs(step.clause[-1]) > self.variables:
            raise Refused(f"line {step.line} names a variable that the clause list doesn't have")
        hints = self.state.show(self.state.clauses[number])
        if hints is None:
            raise Refused(f"line {step.line} isn't by unit propagation")
        return hints

    def lines(self, shown: Dict[int, List[int]], last: List[int]) -> List[Added]:
        """The lines that are needed, in order, with numbers as a refutation counts them."""
        numbers = {number: number for number in range(1, self.given + 1)}
        lines: List[Added] = []
        for number in sorted(shown):
            literals = as_clause(self.state.clauses[number])
            lines.append(Added(literals, [numbers[hint] for hint in shown[number]]))
            numbers[number] = self.given + len(lines)
        if not lines or lines[-1].literals:
            lines.append(Added((), [numbers[hint] for hint in last]))
        return lines


# LRAT.


class Lrat(NamedTuple):
    """A line of an LRAT proof that adds a clause."""

    line: int
    clause: Clause
    hints: List[int]


def read_lrat(path: str) -> Dict[int, Lrat]:
    """The lines up to the first that adds the empty clause, by the numbers of their clauses."""
    lines: Dict[int, Lrat] = {}
    for number, words in numbers_in(path):
        if len(words) > 1 and words[1] == b"d":
            continue
        own, *numbers = map(int, words)
        if numbers.count(0) != 2 or numbers[-1] != 0:
            raise ValueError(f"{path}: line {number} is no line of an LRAT proof")
        end = numbers.index(0)
        lines[own] = Lrat(number, as_clause(numbers[:end]), numbers[end + 1 : -1])
        if not lines[own].clause:
            return lines
    raise Refused("the proof doesn't come to the empty clause")


def in_order(line: Lrat, clauses: Dict[int, Clause]) -> List[int]:
    """The hints of a line in an order in which each leaves one literal that isn't false, and the last none."""
    true = {-literal for literal in line.clause}
    order: List[int] = []
    left = line.hints
    while left:
        later: List[int] = []
        for hint in left:
            if hint not in clauses:
                raise Refused(f"line {line.line} isn't by unit propagation")
            rest = [literal for literal in clauses[hint] if -literal not in true]
            if len(rest) > 1:
                later.append(hint)
                continue
            if not rest:
                return [*order, hint]
            if rest[0] not in true:
                true.add(rest[0])
                order.append(hint)
        if len(later) == len(left):
            break
        left = later
    raise Refused(f"line {line.line} isn't by unit propagation")


def lrat_refutation(variables: int, given: List[Clause], proof: Dict[int, Lrat]) -> List[Added]:
    clauses = dict(enumerate(given, 1))
    for number, line in proof.items():
        clauses[number] = line.clause
    hints: Dict[int, List[int]] = {}
    todo = [number for number, line in proof.items() if not line.clause]
    while todo:
        number = todo.pop()
        if number in hints:
            continue
        line = proof[number]
        if line.clause and abs(line.clause[-1]) > variables:
            raise Refused(f"line {line.line} names a variable that the clause list doesn't have")
        hints[number] = in_order(line, clauses)
        for hint in hints[number]:
            if hint in proof:
                if proof[hint].line >= line.line:
                    raise Refused(f"line {line.line} rests on a later one")
                todo.append(hint)
    numbers = {number: number for number in range(1, len(given) + 1)}
    lines: List[Added] = []
    for number in sorted(hints, key=lambda n: proof[n].line):
        lines.append(Added(proof[number].clause, [numbers[hint] for hint in hints[number]]))
        numbers[number] = len(given) + len(lines)
    return lines


def main(words: List[str]) -> int:
    if len(words) != 5 or words[0] not in ("drat", "lrat") or words[3] not in ("sc", "tso", "pso"):
        print(__doc__, file=sys.stderr)
        return 2
    kind, listed, proof, model, out = words
    kept_files.refuse_clashes([listed, proof], [out])
    try:
        variables, clauses = read_list(listed)
        if kind == "drat":
            lines = Drat(variables, clauses, read_drat(proof)).refutation()
        else:
            lines = lrat_refutation(variables, clauses, read_lrat(proof))
        write_refutation(out, model, lines)
    except Refused as why:
        print(f"refused: {why}", file=sys.stderr)
        return 1
    except (OSError, ValueError) as why:
        print(f"can't be used: {why}", file=sys.stderr)
        return 2
    print(f"{len(lines)} lines, {sum(len(line.hints) for line in lines)} hints")
    return 0


if __name__ == "__main__":
    kept_files.run_main("refutation.py", main)
