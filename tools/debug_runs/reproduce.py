"""From the log of a failure or a deadlock to a schedule that leads there, and a page that shows it."""
import re
from typing import List, NamedTuple, Union

import in_c

from .answers import SMALLER, Run, Stop, Unsolved
from .programs import SHORT_SECONDS, answer, ask
from .reasons import accesses, reasons
from .running import run
from .session import Session
from .source import PLACE

# How many seconds of the processor go into a schedule with the fewest switches, once there is one with more.
LEAST_SECONDS = 5.0
SOLVED = (r"(schedule) \d+ moves|(impossible), \d+ lines|(spent) after \d+ conflicts|(limit) (?!program-bytes|log-bytes).*|(no memory)|"
          r"(log refused): (?!form at ).*")
LEAST = r"(schedule) \d+ moves, \d+ switches|spent after .*|limit .*|no memory"
HEADER = re.compile(r".* under \w+: moves (\d+), switches (\d+), events \d+ of \d+")
FAILS = re.compile(r"(\S+) fails at line (\S+): (\S.*)")


class Schedule(NamedTuple):
    """The draft of a schedule."""

    name: str
    is_least: bool


class Impossible(NamedTuple):
    """The draft of a refutation."""

    name: str


class Misfit(NamedTuple):
    """The line that refuses a log."""

    line: str


Solved = Union[Schedule, Impossible, Misfit, Unsolved]


async def solve(session: Session, log: str, model: str, stem: str) -> Solved:
    """What `solve` says of a log, first by one search alone, then with the fewest switches if there is time."""
    draft = session.folder.draft(f"{stem}.sched")
    words = session.solve(log, draft, model)
    done = await run(words, session.folder.path, session.seconds)
    if done.status is None:
        return Unsolved(f"no schedule in {session.seconds:g} seconds", session.longer)
    found = answer(done, SOLVED, words)
    what = next(filter(None, found.groups()))
    if what == "schedule":
        return await with_fewest(session, log, model, stem)
    if what == "impossible":
        return Impossible(draft)
    if what == "log refused":
        return Misfit(done.line)
    return Unsolved(done.line, SMALLER)


async def with_fewest(session: Session, log: str, model: str, stem: str) -> Schedule:
    """The schedule that is there, or one with the fewest switches that comes in time."""
    draft, fewer = session.folder.draft(f"{stem}.least"), session.folder.draft(f"{stem}.fewer")
    words = [*session.solve(log, draft, model), "--least", fewer]
    done = await run(words, session.folder.path, min(LEAST_SECONDS, session.seconds))
    if done.status is not None and answer(done, LEAST, words)[1]:
        return Schedule(draft, True)
    return Schedule(session.folder.draft(f"{stem}.sched"), False)


async def keep_run(session: Session, schedule: Schedule, log: str, model: str, stem: str) -> Run:
    """Replays a schedule, and keeps it with its page."""
    programs, folder, program = session.programs, session.folder, session.source.program
    await ask([programs.clap_debug, "replay", program, log, schedule.name], "reproduces", folder.path)
    await ask([programs.show, program, schedule.name, "--html", folder.draft(f"{stem}.html")], "page kept", folder.path)
    name, page = folder.keep_as(schedule.name, f"{stem}.sched"), folder.keep(f"{stem}.html")
    if schedule.is_least and folder.has_draft(f"{stem}.fewer"):
        folder.keep(f"{stem}.fewer")
    text = await shown(session, name)
    folder.keep_bytes(f"{stem}.txt", session.source.shown(text).encode())
    moves, switches = map(int, HEADER.match(text).groups())
    return Run(model, name, page, moves, switches, schedule.is_least, stops(session.source.shown(text)), await why(session, name, model))


async def shown(session: Session, schedule: str, *words: str) -> str:
    """What clap_debug_show prints of a schedule."""
    asked = [session.programs.show, session.source.program, schedule, *words]
    done = await run(asked, session.folder.path, SHORT_SECONDS)
    answer(done, HEADER.pattern, asked)
    return done.out


def stops(text: str) -> List[Stop]:
    """Where the thread failed, or each thread waits."""
    found = []
    for line in text.splitlines():
        fails, waits = FAILS.fullmatch(line), PLACE.fullmatch(line) if line.startswith("  ") else None
        if fails:
            found.append(Stop(fails[1], fails[2], fails[3]))
        elif waits and waits[4]:
            found.append(Stop(waits[1].split()[0], waits[2], waits[3], waits[4].strip()))
    return found


async def why(session: Session, schedule: str, model: str) -> List[str]:
    """Sentences on the run, none where what is shown isn't of the form that is known."""
    text = await shown(session, schedule, "--moves")
    try:
        return reasons(accesses(text, session.source.cells), model, session.source.line)
    except in_c.Unknown:
        return []


async def reproduce(session: Session, log: str, model: str, stem: str) -> Union[Run, Impossible, Misfit, Unsolved]:
    """The run of a log, with its page, or what else `solve` says."""
    solved = await solve(session, log, model, stem)
    return await keep_run(session, solved, log, model, stem) if isinstance(solved, Schedule) else solved
