"""Values of slots that a path alone determines, for the walks of thread_paths.py and log_walk.py.

The values are a dictionary from slots to numbers; a slot that isn't in it is unknown.
"""
import machine
from pure_turns import slots_of, written_by


def at_start(function):
    """A parameter may be anything; each other slot begins as 0."""
    return {slot: 0 for slot in range(function.params, function.ints)}


def value(e, known):
    return machine.value(e, known) if slots_of(e) <= known.keys() else None


def after(i, known):
    """What is known after an instruction: a slot that it writes is unknown, unless it is set to a known value."""
    rest = {slot: number for slot, number in known.items() if slot not in written_by(i)}
    given = value(i[2], known) if i[0] == "set" else None
    return rest if given is None else {**rest, i[1]: given}


def goes_against(i, known, outcome):
    """Whether a branch has this outcome, and its test is known to have another one."""
    tested = value(i[1], known)
    return tested is not None and (tested != 0) != bool(outcome)
