"""Asks clap_debug_find whether some run fails, or comes to a deadlock, and checks its certificate."""
import time
from typing import Iterator, List, NamedTuple, Optional, Tuple, Union

from .answers import DEADLOCK, SMALLER, Excluded, Open, Question
from .faults import Broken
from .programs import answer
from .running import run
from .session import Session

ANSWERS = (r"(?P<found>found) after \d+ logs|(?P<none>none) in \d+ logs(?:, (?P<outcomes>\d+) outcomes)?|"
           r"spent after \d+ logs and \d+ conflicts|no (?:failure|deadlock) in \d+ logs|no memory|(?P<limit>limit) (?!program).*")
ACCEPTED = r"accepted, none(?:, (\d+) outcomes)?"
FIRST_BOUND, USUAL_BOUND, LAST_BOUND = 3, 12, 65535
MOST_LOGS, MOST_BUDGET = 2**32 - 1, 10_000_000
# A check takes about half of the search's time.
CHECK_FACTOR = 4


class Possible(NamedTuple):
    """The draft of the log of a run that ends so."""

    draft: str


class Bounded(NamedTuple):
    """The draft of a certificate about runs with at most so many outcomes in each thread, or about all runs."""

    draft: str
    outcomes: Optional[int]


class Halt(NamedTuple):
    """Why a search ended without an answer, and what to do; with a higher bound it may be another."""

    why: str
    cure: str
    is_last: bool


def bounds() -> Iterator[int]:
    """How many outcomes a thread may have: a search with few of them may come to an end where one with the usual number doesn't."""
    bound = FIRST_BOUND
    while bound < LAST_BOUND:
        yield bound
        bound = (bound * 3 + 1) // 2
    yield LAST_BOUND


def stem(session: Session, question: Question) -> str:
    """How the names of the question's files begin."""
    return f"{session.source.name}.{question.model}{'.deadlock' if question.kind == DEADLOCK else ''}"


def words(session: Session, question: Question, bound: int, out: str) -> List[str]:
    limits = ["--outcomes", str(bound), "--logs", str(MOST_LOGS), "--budget", str(MOST_BUDGET)]
    kind = ["--deadlock"] if question.kind == DEADLOCK else []
    return [session.programs.find, session.source.program, out, "--model", question.model, *kind, *limits]


class Search:
    """The search for the answer to a question, which stops after some seconds and goes on where it was. It asks with rising bounds until
    the answer is about all runs, or the time of the question ends."""

    def __init__(self, session: Session, question: Question) -> None:
        self.session, self.question = session, question
        self.start, self.left = time.monotonic(), session.seconds
        self.bounds = bounds()
        self.bound = next(self.bounds)
        self.possible: Optional[Possible] = None
        self.best: Optional[Bounded] = None
        self.halt: Optional[Halt] = None
        self.is_over = False

    @property
    def is_decided(self) -> bool:
        """Whether a run was found, or the answer is about all runs."""
        return self.possible is not None or self.best is not None and self.best.outcomes is None

    async def go_on(self, seconds: float) -> None:
        """Asks for so many seconds more, as far as the question has them."""
        left = max(0.0, self.left - seconds)
        while not self.is_over and self.left > left:
            came, used = await ask_once(self.session, self.question, self.bound, self.left - left)
            if came is None:
                self.left, self.halt = left, None
            else:
                self.left = max(left, self.left - used)
                self.take(came)
        self.is_over = self.is_over or self.left == 0

    def take(self, came: Union[Possible, Bounded, Halt]) -> None:
        """Takes an answer, and the next bound unless the search ends with it."""
        if isinstance(came, Possible):
            self.possible, self.is_over = came, True
        elif isinstance(came, Bounded):
            self.best, self.halt, self.is_over = came, None, came.outcomes is None
        else:
            self.halt, self.is_over = came, came.is_last or self.bound >= USUAL_BOUND
        if not self.is_over and self.bound == LAST_BOUND:
            self.halt, self.is_over = Halt("no more outcomes can be asked for", SMALLER, True), True
        elif not self.is_over:
            self.bound = next(self.bounds)

    async def judged(self) -> Union[Excluded, Open]:
        """The answer of a search that found nothing, once its certificate is accepted."""
        session, question, best = self.session, self.question, self.best
        halt = self.halt or Halt(f"no answer in {session.seconds - self.left:g} seconds", session.longer, True)
        if best is None:
            return Open(question, halt.why, halt.cure, time.monotonic() - self.start)
        asked = [session.programs.find, session.source.program, best.draft, "--check"]
        done = await run(asked, session.folder.path, session.seconds * CHECK_FACTOR)
        if done.status is None:
            return Open(question, "its certificate isn't checked in time", session.longer, time.monotonic() - self.start)
        if answer(done, ACCEPTED, asked)[1] != (str(best.outcomes) if best.outcomes is not None else None):
            raise Broken(f"the certificate for {question.model} is about other runs than the answer: {done.line}")
        name = f"{session.source.name}.{question.model}.{question.kind}.cert"
        beyond = None if best.outcomes is None else Open(question, halt.why, halt.cure, 0.0)
        return Excluded(question, best.outcomes, beyond, session.folder.keep_as(best.draft, name), time.monotonic() - self.start)


async def ask_once(session: Session, question: Question, bound: int, seconds: float) -> Tuple[Union[Possible, Bounded, Halt, None], float]:
    """What clap_debug_find says with this bound, if it does within so many seconds, and how many it took."""
    out = session.folder.draft(f"{stem(session, question)}.{bound}")
    asked = words(session, question, bound, out)
    done = await run(asked, session.folder.path, seconds)
    if done.status is None:
        return None, done.used
    found = answer(done, ANSWERS, asked)
    if found["found"]:
        return Possible(out), done.used
    if found["none"]:
        return Bounded(out, int(found["outcomes"]) if found["outcomes"] else None), done.used
    return Halt(done.line, SMALLER, found["limit"] is None), done.used
