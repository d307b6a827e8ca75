"""Rounds of a loop that change nothing, for the walks of thread_paths.py and log_walk.py.

Each pair of visits of a place is tried, by what the definitions say of a turn.
"""
import machine

IDLE = {"set", "load", "loadat", "inside", "branch", "goto", "holds", "ready", "assert", "nonzero", "inrange", "fence"}
WRITES = machine.EXCHANGES | {"set", "load", "loadat"}
# The places of an instruction's expressions.
READS = {
    "set": [2], "store": [2], "loadat": [4], "storeat": [3, 4], "inside": [2], "branch": [1], "assert": [1], "nonzero": [1],
    "inrange": [1], "swap": [3], "cas": [3, 4], "add": [3], "swapat": [4, 5], "casat": [4, 5, 6], "addat": [4, 5],
}


def slots_of(e):
    if isinstance(e, int):
        return set()
    return {e[1]} if e[0] == "slot" else set().union(*map(slots_of, e[1:]))


def read_by(i):
    at = range(3, len(i)) if i[0] == "create" else READS.get(i[0], [])
    return set().union(*(slots_of(i[k]) for k in at))


def written_by(i):
    return {i[1]} if i[0] in WRITES else set()


def targets(instrs, place):
    i = instrs[place]
    if i[0] == "goto":
        return [i[1]]
    return [place + 1, i[2]] if i[0] == "branch" else [place + 1]


def live_slots(instrs):
    """The slots that are live at each place."""
    live = [set() for _ in range(len(instrs) + 1)]
    changed = True
    while changed:
        changed = False
        for place, i in enumerate(instrs):
            after = set().union(*(live[to] for to in targets(instrs, place) if to <= len(instrs)))
            now = read_by(i) | (after - written_by(i))
            if now != live[place]:
                live[place], changed = now, True
    return live


def leads(i, place, slots):
    return place + 1 if i[0] != "branch" or machine.value(i[1], slots) else i[2]


def failed(instrs, places, k, j):
    """Whether step k is a compare-and-exchange that a branch before step j shows to have failed."""
    i = instrs[places[k]]
    if i[0] not in ("cas", "casat") or k + 1 >= j:
        return False
    expected = machine.operands(i[0], i[1:])[1][0]
    if not isinstance(expected, int):
        return False
    copy = instrs[places[k + 1]]
    if copy[0] != "set" or copy[2] != ("slot", i[1]):
        return False
    for b in range(k + 2, j):
        at = instrs[places[b]]
        if at[0] == "branch" and slots_of(at[1]) <= {copy[1]} and leads(at, places[b], {copy[1]: expected}) != places[b + 1]:
            return True
        if copy[1] in written_by(at):
            return False
    return False


class Turns:
    """The turns of the paths through a function."""

    def __init__(self, instrs):
        self.instrs, self.live = instrs, live_slots(instrs)

    def is_turn(self, places, i, j):
        if places[i] != places[j]:
            return False
        taken = [self.instrs[places[k]] for k in range(i, j)]
        if any(written_by(instr) & self.live[places[i]] for instr in taken):
            return False
        return all(instr[0] in IDLE or failed(self.instrs, places, k, j) for k, instr in enumerate(taken, i))

    def ends(self, places):
        """Whether a turn ends at the last of these places."""
        return any(self.is_turn(places, i, len(places) - 1) for i in range(len(places) - 1))
