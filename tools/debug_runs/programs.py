"""The programs that ./debug asks, and how their answers are read."""
import os
import re
from typing import List, NamedTuple, Optional

import hint
from built import TOP, build, is_checkout, proved

from .faults import Broken, Refused
from .running import Done, run

REFUSALS = re.compile(r"(program|log|schedule|refutation|certificate) refused: |limit (program|log|schedule)-bytes |(read|write) fault: |"
                      r"no memory$")
# A file of the folder is read and shown in less time than this, whatever is asked.
SHORT_SECONDS = 120.0


class Programs(NamedTuple):
    """The built programs, and whether all three are those that a gate or ./prove has proved."""

    clap_debug: str
    find: str
    show: str
    are_proved: bool

    def native(self) -> Optional[str]:
        """The script that runs programs natively, if there is one."""
        named = os.environ.get("CLAP_DEBUG_NATIVE", f"{TOP}/tools/native")
        return named if os.access(named, os.X_OK) else None


def is_proved(name: str, program: str) -> bool:
    """Whether a program is the proved one of this checkout."""
    if program.endswith(".unproved"):
        return False
    found = proved(name)
    return found is not None and os.path.realpath(found) == os.path.realpath(program)


def no_proof() -> str:
    """What is said where the programs aren't proved: an installed copy has nothing that could prove them."""
    return f"{TOP}/prove proves the programs, in an hour or more" if is_checkout() else "the programs were installed without their proof"


def load() -> Programs:
    """The three programs, built where they aren't yet."""
    names = ("clap_debug", "clap_debug_find", "clap_debug_show")
    try:
        found = [os.path.abspath(build(name)) for name in names]
    except SystemExit:
        raise Refused("a program is missing; the lines above say why") from None
    for name, program in zip(names, found):
        if not os.access(program, os.X_OK):
            raise Refused(f"there is no program {program}: {name.upper()} in the environment names it")
    return Programs(found[0], found[1], found[2], all(map(is_proved, names, found)))


def answer(done: Done, pattern: str, words: List[str]) -> "re.Match[str]":
    """The parts of a program's line, which has this pattern."""
    found = re.fullmatch(pattern, done.line)
    if found:
        return found
    if REFUSALS.match(done.line):
        raise Refused(f"{os.path.basename(words[0])} says: {done.line}{why_unwritten(done)}")
    said = done.line or (done.errors.strip().splitlines() or ["nothing"])[-1]
    raise Broken(f"{os.path.basename(words[0])} ended with status {done.status} and said: {said}")


def why_unwritten(done: Done) -> str:
    """Why the system refused a write, where that is still to be seen."""
    name = re.fullmatch("write fault: (.+)", done.line)
    try:
        why = hint.wrong_output(os.path.join(done.folder, name[1])) if name else None
    except OSError:
        return ""
    return f", since {why}" if why else ""


async def ask(words: List[str], pattern: str, folder: str) -> "re.Match[str]":
    """Asks a program what takes a moment alone."""
    done = await run(words, folder, SHORT_SECONDS)
    if done.status is None:
        raise Broken(f"{os.path.basename(words[0])} gave no answer within {SHORT_SECONDS:.0f} seconds")
    return answer(done, pattern, words)
