#!/usr/bin/env python3
"""Takes edges out of crates.txt that others imply: a crate names what it cites of a lower crate D through a crate E that it depends on
anyway, as Rattle.E.specs.D.M for Rattle.D.specs.M, and E passes D on by a line of its Lib.antt. What it changes is to be proved again.

    tools/fewer_edges.py [--dry]

Prints how many edges there are and will be, how many ways lead down from the crates, and how many lines pass a crate on. With --dry it
changes nothing, and names each module that such a line would clash with."""
import argparse
import os
import re
import sys
from typing import Dict, Iterator, List, NamedTuple, Set

sys.path.insert(0, os.path.dirname(os.path.realpath(__file__)))
from kept_files import Refused, keep, run_main  # noqa: E402

TOP = os.path.dirname(os.path.dirname(os.path.realpath(__file__)))
KINDS = ("specs", "proofs")
CITE = re.compile(r"\bRattle\.(\w+)\.(specs|proofs)\b")
Edges = Dict[str, Set[str]]  # the crates that each crate depends on


class Cite(NamedTuple):
    """The definitions or the proofs of a crate."""

    crate: str
    kind: str


class Checkout:
    """The crates of crates.txt, lowest first, with those that each depends on, and their sources by path. (Crates of the kit aren't
    among them.)"""

    def __init__(self) -> None:
        self.lines = read("crates.txt").split("\n")
        listed = {name_in(line): line.partition("#")[0].partition(":")[2].split() for line in self.lines if name_in(line)}
        self.edges: Edges = {crate: {it for it in others if it in listed} for crate, others in listed.items()}
        self.texts = {crate: {path: read(path) for path in sources(crate)} for crate in listed}
        self.cites = {crate: self.cited(crate) for crate in listed}

    def cited(self, crate: str) -> Set[Cite]:
        """What a crate cites of others. Refuses what crates.txt doesn't let it cite."""
        found = {Cite(*it) for text in self.texts[crate].values() for it in CITE.findall(text) if it[0] != crate and it[0] in self.edges}
        for it in sorted(found):
            if it.crate not in self.edges[crate]:
                raise Refused(f"crates/{crate} cites {it.crate}, on which it doesn't depend by crates.txt")
        return found

    def in_rust(self, crate: str) -> Set[str]:
        """The crates whose names its Rust has, apart from citations and comments: it must go on depending on them."""
        code = "\n".join(text for path, text in self.texts[crate].items() if path.endswith(".rt"))
        words = set(re.findall(r"\w+", re.sub(r"//[^\n]*|Rattle\.\w+", "", code)))
        return self.edges[crate] & words


def read(path: str) -> str:
    """The text of a file of the checkout, or nothing where there is none."""
    try:
        with open(os.path.join(TOP, path), encoding="utf-8") as file:
            return file.read()
    except FileNotFoundError:
        return ""


def name_in(line: str) -> str:
    """The crate that a line of crates.txt is about, if it is about one."""
    name, colon, _ = line.partition("#")[0].partition(":")
    return name.split()[0] if colon else ""


def sources(crate: str) -> Iterator[str]:
    """The Rust, definitions and proofs of a crate."""
    for part in ("src", *KINDS):
        for at, _, names in os.walk(os.path.join(TOP, "crates", crate, part)):
            yield from (os.path.relpath(os.path.join(at, it), TOP) for it in names if it.endswith((".rt", ".antt")))


def below(edges: Edges) -> Edges:
    """All crates that each crate reaches."""
    found: Edges = {}

    def visit(crate: str) -> Set[str]:
        if crate not in found:
            found[crate] = edges[crate].union(*map(visit, edges[crate]))
        return found[crate]

    for crate in edges:
        visit(crate)
    return found


def ways(edges: Edges) -> int:
    """How many ways lead down from all crates, each way of one crate included."""
    found: Dict[str, int] = {}

    def visit(crate: str) -> int:
        if crate not in found:
            found[crate] = 1 + sum(map(visit, edges[crate]))
        return found[crate]

    return sum(map(visit, edges))


class Fewer:
    """The edges that are left, and what each crate passes on so that all others can be cited."""

    def __init__(self, checkout: Checkout) -> None:
        self.checkout = checkout
        self.below = below(checkout.edges)
        self.edges = {crate: self.left(crate) for crate in checkout.edges}
        self.passes: Dict[str, Set[Cite]] = {crate: set() for crate in checkout.edges}
        # (from above, since what a crate passes on may have to be passed to it; no crate is below one of fewer)
        for crate in sorted(self.below, key=lambda it: -len(self.below[it])):
            for it in checkout.cites[crate] | self.passes[crate]:
                if it.crate not in self.edges[crate]:
                    self.passes[self.route(crate, it.crate)].add(it)

    def left(self, crate: str) -> Set[str]:
        """The crates that a crate goes on depending on: those of its Rust, and of the others each that none of these reaches. Those that
        reach most come first."""
        found = self.checkout.in_rust(crate)
        for it in sorted(self.checkout.edges[crate] - found, key=lambda it: (-len(self.below[it]), it)):
            if not any(it in self.below[other] for other in found):
                found.add(it)
        return found

    def route(self, crate: str, to: str) -> str:
        """The crate through which another one is cited: one that depends on it, if there is one, and reaches few."""
        over = [it for it in self.edges[crate] if to in self.below[it]]
        return min(over, key=lambda it: (to not in self.edges[it], len(self.below[it]), it))

    def cite(self, crate: str, to: Cite) -> str:
        """How a crate names another's definitions or proofs."""
        return f"Rattle.{self.route(crate, to.crate)}.{to.kind}.{to.crate}"

    def rewritten(self, crate: str, text: str) -> str:
        """A source of a crate, whose citations go by the routes."""
        edges = self.checkout.edges

        def new(found: "re.Match[str]") -> str:
            to = Cite(found[1], found[2])
            is_near = to.crate == crate or to.crate not in edges or to.crate in self.edges[crate]
            return found[0] if is_near else self.cite(crate, to)

        return CITE.sub(new, text)

    def lines(self, crate: str, kind: str) -> List[str]:
        """The lines by which a crate passes on what others cite through it."""
        found = sorted(it for it in self.passes[crate] if it.kind == kind)
        return [f"pub use Rattle.{it.crate}.{kind} as {it.crate}" if it.crate in self.edges[crate] else f"pub use {self.cite(crate, it)}"
                for it in found]

    def line(self, line: str) -> str:
        """A line of crates.txt, without the crate's edges that are gone."""
        crate, edges = name_in(line), self.checkout.edges
        if not crate:
            return line
        head, _, others = line.partition(":")
        return " ".join([f"{head}:", *(it for it in others.split() if it not in edges or it in self.edges[crate])])

    def clashes(self) -> Iterator[str]:
        """The modules whose name a line would give to what is passed on."""
        for crate, passed in self.passes.items():
            for it in sorted(passed):
                module = os.path.join("crates", crate, it.kind, it.crate)
                if os.path.exists(os.path.join(TOP, f"{module}.antt")) or os.path.isdir(os.path.join(TOP, module)):
                    yield module

    def write(self) -> None:
        """Rewrites the sources of all crates, and crates.txt."""
        for crate, texts in self.checkout.texts.items():
            made = {path: self.rewritten(crate, text) for path, text in texts.items()}
            for kind in KINDS:
                lines = self.lines(crate, kind)
                if lines:
                    path = os.path.join("crates", crate, kind, "Lib.antt")
                    made[path] = "".join(f"{it}\n" for it in lines) + made.get(path, "")
            for path, text in made.items():
                if text != texts.get(path):
                    os.makedirs(os.path.dirname(os.path.join(TOP, path)), exist_ok=True)
                    keep(os.path.join(TOP, path), text)
        keep(os.path.join(TOP, "crates.txt"), "\n".join(map(self.line, self.checkout.lines)))


def count(edges: Edges) -> int:
    return sum(map(len, edges.values()))


def main(words: List[str]) -> None:
    parser = argparse.ArgumentParser(prog="fewer_edges.py", usage=__doc__)
    parser.add_argument("--dry", action="store_true")
    given = parser.parse_args(words)
    checkout = Checkout()
    if not checkout.edges:
        raise Refused(f"{TOP} has no crates.txt with a crate: this works on a checkout")
    fewer = Fewer(checkout)
    print(f"{count(checkout.edges)} edges, {count(fewer.edges)} are left; {ways(checkout.edges)} ways, {ways(fewer.edges)} are left; "
          f"{sum(map(len, fewer.passes.values()))} lines pass a crate on")
    if not given.dry:
        fewer.write()
    else:
        print("".join(f"{it} would have two meanings\n" for it in fewer.clashes()), end="")


if __name__ == "__main__":
    run_main("fewer_edges.py", main)
