"""Runs the program natively for a few seconds, where tools/native can, and solves the log of a run that fails."""
import re

from .answers import Native, Run, Unsolved
from .faults import Broken
from .reproduce import Impossible, reproduce
from .running import Done, run
from .session import Session

MOST_SECONDS = 4.0
# What the runs may take, of all processors, with their compiling.
LIMIT_SECONDS = 120.0
ENDED = re.compile(r"failed \S+ line (\d+) in (run \d+), \d+ events|deadlock in (run \d+), \d+ events|"
                   r"no failure in (\d+) runs, ([\d.]+) seconds")


def outcome(session: Session, done: Done) -> Native:
    """What tools/native says."""
    found = ENDED.fullmatch(done.line)
    if done.status is None:
        return Native("not run", "tools/native gave no answer in time", done.seconds)
    if found and found[1] and done.status == 0:
        number = int(found[1])
        where = f"{session.source.file} line {session.source.line(number)}, {session.source.statement(number).rstrip(';')}"
        return Native("failed", f"fails in {found[2]}, {done.seconds:.1f} s: {where}", done.seconds)
    if found and found[3] and done.status == 0:
        return Native("deadlock", f"deadlocks in {found[3]}, {done.seconds:.1f} s", done.seconds)
    if found and found[4] and done.status == 1:
        return Native("none", f"no failure in {found[4]} runs, {found[5]} s", done.seconds)
    if done.status == 2:
        said = [*done.out.splitlines(), *done.errors.splitlines()]
        return Native("not run", re.sub(r"^native: ", "", said[-1]) if said else "tools/native refuses it", done.seconds)
    raise Broken(f"tools/native ended with status {done.status} and said: {done.line or done.errors.strip()[-200:]}")


async def run_natively(session: Session) -> Native:
    """The outcome of some seconds of native runs. A failing run's log is kept, and solved under TSO."""
    script = session.programs.native()
    if script is None:
        return Native("not run", "there is no tools/native here", 0.0)
    seconds, name = min(MOST_SECONDS, session.seconds), f"{session.source.name}.native"
    draft = session.folder.draft(f"{name}.log")
    words = [script, session.source.program, draft, "--seconds", f"{seconds:g}"]
    found = outcome(session, await run(words, session.folder.path, LIMIT_SECONDS))
    if found.outcome not in ("failed", "deadlock"):
        return found
    log = session.folder.keep(f"{name}.log")
    came = await reproduce(session, log, "tso", name)
    if isinstance(came, (Run, Unsolved)):
        return found._replace(log=log, run=came)
    why = "no schedule under tso has its log" if isinstance(came, Impossible) else f"its log doesn't fit the program ({came.line})"
    return found._replace(log=log, run=Unsolved(why, "tools/native is wrong there, or this processor isn't TSO"))
