"""The command: questions about a program, its table, and the status."""
import asyncio
import os
import signal
import sys
from typing import Dict, List, Optional, Set, Union

from kept_files import reason

from . import lines, objects
from .answers import KINDS, Answer, Excluded, Found, Native, Old, Question
from .asking import Asking
from .faults import Broken, Refused
from .folder import Folder
from .old import OldLog
from .programs import load, no_proof
from .session import Session
from .source import put, read
from .table import Table
from .words import Words, parse

NONE, POSSIBLE, WRONG, OPEN = 0, 1, 2, 3
TICK_SECONDS = 0.25
SIGNALS = (signal.SIGINT, signal.SIGTERM, signal.SIGHUP)
NATIVELY, OLD = "natively", "old log"
STOPPED = "debug: stopped; what isn't said above isn't known"


class Report:
    """What is known so far, and what of it was printed."""

    def __init__(self, words: Words, session: Session, table: Table) -> None:
        self.words, self.session, self.table = words, session, table
        self.style = lines.Style(session.programs.are_proved)
        self.answers: Dict[Question, Answer] = {}
        self.old: List[Old] = []
        self.native: Optional[Native] = None

    def take(self, came: Union[Answer, Native, List[Old]], is_other_log: bool) -> None:
        if isinstance(came, Native):
            self.native = came
            self.table.put(NATIVELY, [lines.native_line(came)], [objects.native_object(came)])
            self.table.close(NATIVELY)
        elif isinstance(came, list):
            self.old = came
            name = os.path.basename(self.words.log)
            self.table.put(OLD, lines.old_lines(came, name, is_other_log), [objects.old_object(it, is_other_log) for it in came])
            self.table.close(OLD)
        else:
            self.answered(came)

    def answered(self, answer: Answer) -> None:
        """Puts the line of what was found at once, and of what wasn't when both answers of the model are there."""
        model = answer.question.model
        self.answers[answer.question] = answer
        self.table.put(model, [lines.found_line(answer)] if isinstance(answer, Found) else [], [objects.answer_object(answer)])
        both = [self.answers[it] for it in (Question(model, kind) for kind in KINDS) if it in self.answers]
        if len(both) == len(KINDS):
            self.table.put(model, lines.rest_lines(both, self.style))
            self.table.close(model)

    def status(self) -> int:
        if any(isinstance(it, Found) for it in self.answers.values()) or any(it.outcome == "possible" for it in self.old):
            return POSSIBLE
        decided = [it for it in self.answers.values() if isinstance(it, Excluded) and it.outcomes is None]
        is_whole = len(decided) == len(KINDS) * len(self.words.models) and all(it.outcome != "open" for it in self.old)
        return NONE if is_whole else OPEN

    def end(self) -> int:
        """Prints what comes below the table, and gives the status."""
        self.table.end()
        status = self.status()
        unproved = self.unproved()
        if self.words.is_json:
            self.table.show_object(objects.end_object(status, self.session.folder.path, unproved))
        elif not self.words.is_quiet:
            ordered = [self.answers[it] for it in (Question(m, k) for m in self.words.models for k in KINDS) if it in self.answers]
            for line in [*lines.why_lines(ordered), lines.last_line(self.session.folder.path, unproved)]:
                self.table.show(line)
        return status

    def unproved(self) -> List[str]:
        """What rests on no proof."""
        was_native = self.native is not None and self.native.outcome != "not run"
        return (["the translation from C"] if self.session.source.in_c else []) + (["the native runs"] if was_native else [])


async def ask_all(report: Report) -> None:
    """Asks everything, and prints lines as they come."""
    words, table = report.words, report.table
    log = OldLog(report.session, words.log) if words.log else None
    asking = Asking(report.session, words.models, log)
    pending: Set["asyncio.Future[object]"] = set(asking.tasks())
    try:
        while pending:
            done, pending = await asyncio.wait(pending, timeout=TICK_SECONDS, return_when=asyncio.FIRST_COMPLETED)
            for task in done:
                report.take(task.result(), log is not None and log.is_of_another)
            table.flush()
            table.progress(asking.progress())
    finally:
        await asking.stop()
        table.progress("")


async def ask_until_stopped(report: Report) -> int:
    """Asks everything; a signal ends this, with what is known so far."""
    loop, task = asyncio.get_running_loop(), asyncio.current_task()
    for each in SIGNALS:
        loop.add_signal_handler(each, task.cancel)
    try:
        await ask_all(report)
    except asyncio.CancelledError:
        report.table.end()
        print(STOPPED, file=sys.stderr)
        return OPEN
    return report.end()


def debug(words: Words) -> int:
    """Asks about a program, in a folder for the results."""
    folder = Folder(words.out, words.inputs)
    try:
        put(words, folder)
        programs = load()
        source = read(words, folder, programs)
        if not programs.are_proved and not words.is_quiet and os.environ.get("CLAP_DEBUG_QUIET") != "1":
            print(f"debug: not proved yet; {no_proof()}", file=sys.stderr)
        shows_progress = sys.stderr.isatty() and not words.is_quiet
        slots = [*words.models, *([NATIVELY] if "tso" in words.models else []), *([OLD] if words.log else [])]
        table = Table(slots, words.is_json, shows_progress)
        session = Session(programs, folder, source, words.seconds, f"raise --seconds above {words.seconds:g}")
        return asyncio.run(ask_until_stopped(Report(words, session, table)))
    finally:
        folder.close()


def main(arguments: List[str]) -> int:
    for each in SIGNALS:
        signal.signal(each, signal.default_int_handler)
    try:
        return debug(parse(arguments))
    except (Refused, Broken) as fault:
        print(f"debug: {fault}", file=sys.stderr)
        return WRONG
    except KeyboardInterrupt:
        print(STOPPED, file=sys.stderr)
        return OPEN
    except BrokenPipeError:
        # (The reader of the output is gone: what is still to be written goes nowhere.)
        os.dup2(os.open(os.devnull, os.O_WRONLY), sys.stdout.fileno())
        return WRONG
    except Exception as fault:  # pylint: disable=broad-except
        print(f"debug: {reason(fault)[0]}", file=sys.stderr)
        return WRONG
