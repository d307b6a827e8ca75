"""Prints lines as answers come, and on a terminal what is still asked."""
import json
import math
import sys
import time
from typing import List, NamedTuple, Sequence

from .objects import Object

# How long a line waits on a terminal for those that come before it. Elsewhere the order is always the same.
PATIENCE_SECONDS = 1.0
CLEAR = "\r\033[K"


class Waiting(NamedTuple):
    slot: str
    line: str
    since: float


class Table:
    """The lines that are there and wait for others, by the slots of the order."""

    def __init__(self, slots: Sequence[str], is_json: bool, shows_progress: bool) -> None:
        self.open = list(slots)
        self.slots = list(slots)
        self.waiting: List[Waiting] = []
        self.is_json = is_json
        self.shows_progress = shows_progress
        self.patience = PATIENCE_SECONDS if sys.stdout.isatty() else math.inf

    def put(self, slot: str, lines: Sequence[str], objects: Sequence[Object] = ()) -> None:
        """Lines of a slot, in text or as objects, which waits for no other."""
        if self.is_json:
            for each in objects:
                self.show_object(each)
            return
        self.waiting += [Waiting(slot, it, time.monotonic()) for it in lines]
        self.flush()

    def close(self, slot: str) -> None:
        """No line of this slot comes any more."""
        self.open.remove(slot)
        self.flush()

    def flush(self, is_last: bool = False) -> None:
        """Prints each line whose earlier slots are closed, or that has waited long enough."""
        for each in sorted(self.waiting, key=lambda it: self.slots.index(it.slot)):
            is_first = not any(it in self.open for it in self.slots[: self.slots.index(each.slot)])
            if is_last or is_first or time.monotonic() - each.since > self.patience:
                self.waiting.remove(each)
                self.show(each.line)

    def show(self, line: str) -> None:
        if self.shows_progress:
            sys.stderr.write(CLEAR)
            sys.stderr.flush()
        print(line, flush=True)

    def show_object(self, made: Object) -> None:
        self.show(json.dumps(made))

    def progress(self, words: str) -> None:
        if self.shows_progress:
            sys.stderr.write(f"{CLEAR}{words[:78]}")
            sys.stderr.flush()

    def end(self) -> None:
        """Prints what is there, and takes the line of progress away."""
        self.flush(is_last=True)
        self.progress("")
