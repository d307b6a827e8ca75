"""Why a run went wrong, in sentences, as far as the schedule shows it: from what `clap_debug_show --moves` prints of it."""
import re
from typing import Callable, FrozenSet, Iterator, List, NamedTuple, Optional

import in_c

OWN = ", from its own buffer"
LOAD = re.compile(rf"(\S+): took (-?\d+)({OWN})?")
ISSUE = re.compile(r"store (\S+) = (-?\d+), waits in its buffer")
DRAIN = re.compile(r"(\S+) = (-?\d+) reaches memory")
STORE = re.compile(r"(\S+) = (-?\d+)")
EXCHANGE = re.compile(r"(?:swap|cas|add) (\S+): took (-?\d+), put (-?\d+|nothing)")
MOST = 2


class Access(NamedTuple):
    """An access of a cell by a move: `load`, `issue` of a store that then waits, `drain` of one, `store`, or `exchange`; what it took,
    and what it put."""

    move: int
    kind: str
    thread: str
    line: int
    cell: str
    took: Optional[int] = None
    put: Optional[int] = None
    is_own: bool = False


def access(row: in_c.Row, words: str, cells: FrozenSet[str]) -> Optional[Access]:
    """The access of a row, if it has one. A row that sets an int of the thread looks like a store, but has no name of a cell."""
    thread = row.thread.split()[0]
    for kind, pattern in (("load", LOAD), ("issue", ISSUE), ("drain", DRAIN), ("store", STORE), ("exchange", EXCHANGE)):
        found = pattern.fullmatch(words)
        if not found or found[1].split("[")[0] not in cells:
            continue
        made = Access(int(row.move), kind, thread, row.line, found[1])
        if kind == "load":
            return made._replace(took=int(found[2]), is_own=found[3] is not None)
        if kind == "exchange":
            return made._replace(took=int(found[2]), put=None if found[3] == "nothing" else int(found[3]))
        return made._replace(put=int(found[2]))
    return None


def accesses(text: str, cells: FrozenSet[str]) -> List[Access]:
    """The accesses of a run, in its order."""
    rows = [row for row in map(in_c.as_row, text.splitlines()) if row]
    column = in_c.column_of(rows) if rows else 0
    return [it for it in (access(row, row.text[column:], cells) for row in rows) if it]


class Stale(NamedTuple):
    """A load that took another value than a store has that waits in another thread's buffer, and a later store of that thread which
    had reached memory before, if there is one."""

    load: Access
    waiting: Access
    passed_by: Optional[Access]


def stale_loads(run: List[Access]) -> Iterator[Stale]:
    """All of them, in their order."""
    waiting: List[Access] = []
    drained: List[Access] = []
    for each in run:
        if each.kind == "issue":
            waiting.append(each)
        elif each.kind == "drain":
            issue = next(it for it in waiting if (it.thread, it.cell) == (each.thread, each.cell))
            waiting.remove(issue)
            drained.append(issue)
        elif each.took is not None and not each.is_own:
            yield from missed(each, waiting, drained)


def missed(load: Access, waiting: List[Access], drained: List[Access]) -> Iterator[Stale]:
    """The newest store of each other thread that a load didn't see."""
    newest = {it.thread: it for it in waiting if it.cell == load.cell and it.thread != load.thread}
    for store in newest.values():
        later = [it for it in drained if it.thread == store.thread and it.move > store.move]
        if store.put != load.took:
            yield Stale(load, store, later[0] if later else None)


class Torn(NamedTuple):
    """A thread's load of a cell and its next store to it, with another thread's store in between."""

    load: Access
    between: Access
    store: Access


def torn_updates(run: List[Access]) -> Iterator[Torn]:
    """All of them, by their last store."""
    for place, store in enumerate(run):
        if store.kind != "store":
            continue
        before = [k for k, it in enumerate(run[:place]) if (it.thread, it.cell) == (store.thread, store.cell)]
        if before and run[before[-1]].kind == "load":
            others = [it for it in run[before[-1] : place] if it.cell == store.cell and it.thread != store.thread and it.put is not None]
            if others:
                yield Torn(run[before[-1]], others[0], store)


def reasons(run: List[Access], model: str, at: Callable[[int], str]) -> List[str]:
    """Up to two sentences, or none where the schedule shows nothing of the kind. Under PSO only loads count whose store was passed by
    another, if there are any."""
    if model == "sc":
        return [torn_sentence(it, at) for it in torn_updates(run)][:MOST]
    found = list(stale_loads(run))
    passed = [it for it in found if it.passed_by] if model == "pso" else []
    sentences = [stale_sentence(it, at) for it in passed or found]
    return list(dict.fromkeys(sentences))[:MOST]


def stale_sentence(stale: Stale, at: Callable[[int], str]) -> str:
    load, store, passed_by = stale
    said = (f"Thread {load.thread} reads {load.cell} (line {at(load.line)}) while thread {store.thread}'s store to it "
            f"(line {at(store.line)}) still waits in its buffer")
    if passed_by is None:
        return f"{said}."
    return f"{said}, and its later store to {passed_by.cell} (line {at(passed_by.line)}) has reached memory."


def torn_sentence(torn: Torn, at: Callable[[int], str]) -> str:
    load, between, store = torn
    return (f"Thread {between.thread} changes {load.cell} (line {at(between.line)}) between thread {load.thread}'s load of it "
            f"(line {at(load.line)}) and its store to it (line {at(store.line)}).")
