"""All questions about a program, side by side: what is found under one model is tried under those that allow more."""
import asyncio
import os
import time
from typing import Any, Dict, List, NamedTuple, Optional, Set, Union

from .answers import DEADLOCK, FAILURE, MODELS, Answer, Excluded, Found, Native, Old, Open, Question, Run, Unsolved
from .faults import Broken
from .native import run_natively
from .old import OldLog
from .reproduce import reproduce
from .search import Search, stem
from .session import Session

# How long each question is asked before any is asked for longer.
FIRST_SECONDS = 5.0
MEND = "mend what fails, and ask again"
KIND_OF_NATIVE = {"failed": FAILURE, "deadlock": DEADLOCK}


class Known(NamedTuple):
    """A log that was found elsewhere, and whether some moves under the model in question surely reproduce it."""

    log: str
    is_sure: bool


class Asking:
    """The questions of a session, as tasks."""

    def __init__(self, session: Session, models: List[str], log: Optional[OldLog]) -> None:
        self.session = session
        self.models = models
        self.start = time.monotonic()
        self.room = asyncio.Semaphore(len(os.sched_getaffinity(0)))
        self.native: Optional["asyncio.Task[Native]"] = None
        self.answers: Dict[Question, "asyncio.Task[Answer]"] = {}
        # The log of each run that was found, and the questions that haven't had their first seconds yet.
        self.logs: Dict[Question, str] = {}
        self.unasked: Set[Question] = set()
        self.all_were_asked = asyncio.Event()
        for model in models:
            self.begin(Question(model, FAILURE))
        if "tso" in models:
            self.native = asyncio.ensure_future(self.run_natively())
        for model in models:
            self.begin(Question(model, DEADLOCK))
        self.old = asyncio.ensure_future(self.try_old(log)) if log else None

    def begin(self, question: Question) -> None:
        self.unasked.add(question)
        self.answers[question] = asyncio.ensure_future(self.decide(question))

    def tasks(self) -> "List[asyncio.Task[Any]]":
        return [*self.answers.values(), *filter(None, (self.native, self.old))]

    async def stop(self) -> None:
        """Ends what is still going on, with its processes."""
        for task in self.tasks():
            task.cancel()
        await asyncio.gather(*self.tasks(), return_exceptions=True)

    def progress(self) -> str:
        """What isn't answered yet."""
        names = [f"{it.model} {it.kind}" for it, task in self.answers.items() if not task.done()]
        others = [name for name, task in (("native runs", self.native), ("the old log", self.old)) if task and not task.done()]
        return f"{time.monotonic() - self.start:.0f} s, asking: {', '.join(names + others)}"

    async def try_old(self, log: OldLog) -> List[Old]:
        """What the old failure's log is under each model. If it doesn't fit the program, no model is needed to say so."""
        found: List[Old] = []
        for model in self.models:
            async with self.room:
                found.append(await log.under(model))
            if found[-1].outcome == "none":
                break
        return found

    async def run_natively(self) -> Native:
        async with self.room:
            return await run_natively(self.session)

    async def decide(self, question: Question) -> Answer:
        """The answer of a search, or by a log that was found elsewhere where the search isn't about all runs. The search goes on after
        its first seconds only if no such log is known by then, and for a deadlock only if no run is found that fails."""
        search = Search(self.session, question)
        await self.ask_shortly(search)
        early = None if search.is_over else await self.tried(search, self.known_by_now(question))
        if early:
            return early
        is_beside = not search.is_decided and await self.is_beside_failure(question)
        if not is_beside:
            await self.ask(search, search.left)
        if search.possible:
            return await self.found(search)
        came = await self.judged(search)
        if search.is_decided:
            return came
        return await self.tried(search, await self.known(question)) or (beside_failure(came) if is_beside else came)

    async def ask(self, search: Search, seconds: float) -> None:
        """Searches for so many seconds, unless the search is over, and keeps the log that is found."""
        if search.is_over:
            return
        async with self.room:
            await search.go_on(seconds)
        if search.possible:
            self.logs[search.question] = self.session.folder.keep_as(search.possible.draft, f"{stem(self.session, search.question)}.log")

    async def ask_shortly(self, search: Search) -> None:
        """Searches for the first seconds. Where these weren't enough, it waits until each question had its own."""
        try:
            await self.ask(search, FIRST_SECONDS)
        finally:
            self.unasked.discard(search.question)
            if not self.unasked:
                self.all_were_asked.set()
        if not search.is_over:
            await self.all_were_asked.wait()

    async def is_beside_failure(self, question: Question) -> bool:
        """Whether a deadlock is in question under a model under which some run fails."""
        return question.kind == DEADLOCK and isinstance(await asyncio.shield(self.answers[Question(question.model, FAILURE)]), Found)

    async def judged(self, search: Search) -> Union[Excluded, Open]:
        async with self.room:
            return await search.judged()

    async def found(self, search: Search) -> Found:
        """The answer by the log that a search has found."""
        question, log = search.question, self.logs[search.question]
        answer = await self.tried(search, Known(log, True))
        if answer is None:
            raise Broken(f"clap_debug_find found {log} under {question.model}, and clap_debug says that no schedule reproduces it")
        return answer

    def known_by_now(self, question: Question) -> Optional[Known]:
        """The log of a run under a model that allows less, or of a native run, which should be one under TSO."""
        for model in MODELS[: MODELS.index(question.model)]:
            if Question(model, question.kind) in self.logs:
                return Known(self.logs[Question(model, question.kind)], True)
        native = self.native.result() if self.native and self.native.done() and question.model == "tso" else None
        if native and native.log and KIND_OF_NATIVE[native.outcome] == question.kind:
            return Known(native.log, False)
        return None

    async def known(self, question: Question) -> Optional[Known]:
        """The same once all is answered that may say so."""
        others = [self.answers.get(Question(it, question.kind)) for it in MODELS[: MODELS.index(question.model)]]
        for other in filter(None, [*others, self.native if question.model == "tso" else None]):
            await asyncio.shield(other)
            found = self.known_by_now(question)
            if found:
                return found
        return None

    async def tried(self, search: Search, known: Optional[Known]) -> Optional[Found]:
        """The answer by a known log, if it is one under this model."""
        if known is None:
            return None
        question = search.question
        async with self.room:
            answer = await reproduce(self.session, known.log, question.model, stem(self.session, question))
        if not isinstance(answer, Run) and not (isinstance(answer, Unsolved) and known.is_sure):
            return None
        self.logs[question] = known.log
        return Found(question, known.log, answer, time.monotonic() - search.start)


def beside_failure(came: Union[Excluded, Open]) -> Union[Excluded, Open]:
    """An answer that isn't about all runs, under a model under which some run fails: more time is only given once that is mended."""
    if isinstance(came, Open):
        return came._replace(cure=MEND)
    return came._replace(beyond=came.beyond._replace(cure=MEND)) if came.beyond else came
