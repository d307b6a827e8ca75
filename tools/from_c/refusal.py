"""Refusals of the translator, and its words beside a translation."""
import dataclasses
from typing import Dict, List, Optional


@dataclasses.dataclass(frozen=True, order=True)
class Place:
    """A place in a C file, lines and columns from 1."""

    file: str
    line: int
    column: int

    def __str__(self) -> str:
        return f"{self.file}:{self.line}:{self.column}"


class Refusal(Exception):
    """A construct that has no translation: where, what, and what to write in its place."""

    def __init__(self, place: Optional[Place], found: str, advice: str) -> None:
        super().__init__(found)
        self.place, self.found, self.advice = place, found, advice

    def __str__(self) -> str:
        return f"{self.place}: {self.found}: {self.advice}" if self.place else f"{self.found}: {self.advice}"

    @property
    def all(self) -> "List[Refusal]":
        return [self]


class Told(Refusal):
    """What follows from another refusal, and isn't said."""


class Refusals(Refusal):
    """All refusals of a file, in the order of their places."""

    def __init__(self, faults: List[Refusal]) -> None:
        self.faults = list({str(it): it for it in sorted(faults, key=lambda it: it.place or Place("", 0, 0))}.values())
        super().__init__(self.faults[0].place, self.faults[0].found, self.faults[0].advice)

    @property
    def all(self) -> List[Refusal]:
        return self.faults


class Notes:
    """Warnings: each kind once, with what it is about in the order in which it was found."""

    def __init__(self) -> None:
        self.kinds: Dict[str, List[str]] = {}

    def add(self, kind: str, subject: object) -> None:
        subjects = self.kinds.setdefault(kind, [])
        if str(subject) not in subjects:
            subjects.append(str(subject))

    def lines(self) -> List[str]:
        return [f"warning: {kind}: {', '.join(subjects)}" for kind, subjects in self.kinds.items()]
