"""Answers as lines of text."""
from typing import List, Optional, Sequence

from .answers import DEADLOCK, FAILURE, Answer, Excluded, Found, Native, Old, Open, Question, Run, Stop, Unsolved

LABEL_WIDTH = 10
WORDS_WIDTH = 60
FOR_AN_END = "waits for the end of "
VERB = {FAILURE: "fails", DEADLOCK: "deadlocks"}


class Style:
    """How certain the programs are: whether their answers are proved here."""

    def __init__(self, are_proved: bool) -> None:
        self.proved = "proved, " if are_proved else ""


def labelled(label: str, words: str, file: str = "") -> str:
    """A line of the table."""
    said = f"{label:<{LABEL_WIDTH}}{words}"
    return f"{said:<{LABEL_WIDTH + WORDS_WIDTH}}  {file}" if file else said


def places(stops: Sequence[Stop]) -> str:
    """The lines where threads stopped; at a deadlock those of threads that don't wait for another's end, if there are any."""
    busy = [it for it in stops if not it.waits.startswith(FOR_AN_END)] or stops
    lines = list(dict.fromkeys(it.line for it in busy))
    if not lines:
        return ""
    *front, last = lines
    return f" at lines {', '.join(front)} and {last}" if front else f" at line {last}"


def length(run: Run) -> str:
    switches = "1 switch" if run.switches == 1 else f"{run.switches} switches"
    return f"{run.moves} moves, {switches}{'' if run.is_least else ', maybe fewer'}"


def found_line(answer: Found) -> str:
    model, kind = answer.question
    if isinstance(answer.run, Run):
        return labelled(model, f"{VERB[kind]}{places(answer.run.stops)}: {length(answer.run)}", answer.run.page)
    return labelled(model, f"{VERB[kind]}: {answer.run.why}; {answer.run.cure}", answer.log)


def extent(outcomes: Optional[int], verbs: str) -> str:
    """About which runs an answer is."""
    if outcomes is None:
        return f"no run {verbs}"
    return f"no run with at most {outcomes} outcomes a thread {verbs}"


def excluded_line(answers: List[Excluded], style: Style) -> str:
    """One line about a failure, a deadlock or both."""
    first = answers[0]
    verbs = " or ".join(VERB[it.question.kind] for it in answers)
    accepted = f"({style.proved}certificate{'s' if len(answers) > 1 else ''} accepted)"
    beyond = f"; with more, {first.beyond.why}: {first.beyond.cure}" if first.beyond else ""
    return labelled(first.question.model, f"{extent(first.outcomes, verbs)} {accepted}{beyond}")


def open_line(answers: List[Open]) -> str:
    first = answers[0]
    what = " or ".join(f"a {it.question.kind}" for it in answers)
    return labelled(first.question.model, f"not decided whether there is {what}: {first.why}: {first.cure}")


def rest_lines(answers: Sequence[Answer], style: Style) -> List[str]:
    """What is said of a model under which nothing was found, once both its answers are there."""
    if any(isinstance(it, Found) for it in answers):
        return []
    groups = [answers] if alike(answers[0], answers[1]) else [[it] for it in answers]
    return [excluded_line(it, style) if isinstance(it[0], Excluded) else open_line(it) for it in groups]


def alike(one: Answer, other: Answer) -> bool:
    """Whether one line says both."""
    if isinstance(one, Excluded) and isinstance(other, Excluded):
        return one.outcomes == other.outcomes and (one.beyond is None or one.beyond.why == other.beyond.why)
    return isinstance(one, Open) and isinstance(other, Open) and one.why == other.why


def native_line(native: Native) -> str:
    if native.outcome == "not run":
        return labelled("natively", f"not run: {native.said}")
    if isinstance(native.run, Unsolved):
        return labelled("natively", f"{native.said}; {native.run.why}: {native.run.cure}", native.log)
    return labelled("natively", native.said, native.run.page if native.run else "")


def old_lines(answers: List[Old], name: str, is_of_another: bool) -> List[str]:
    """What became of an old failure's log, whose name is that of its file."""
    lines = []
    if is_of_another:
        lines.append(labelled("old log", f"{name} is of another program; its threads' steps and outcomes are tried on this one"))
    if answers and answers[0].outcome == "none":
        no_path = f"no thread of this program goes that way ({answers[0].said}); the lines above are about every run"
        return [*lines, labelled("old log", no_path)]
    for it in answers:
        said = f"{name} {it.said}"
        if it.run:
            said += f": {length(it.run)}"
        lines.append(labelled(it.model, said + (" (refutation accepted)" if it.outcome == "impossible" else ""), it.result))
    return lines


def why_lines(answers: Sequence[Answer]) -> List[str]:
    """Why it goes wrong, by the run under the first model that has one: of the failure, or else of the deadlock. None is given where the
    schedule doesn't show it."""
    runs = [(it.question, it.run) for it in answers if isinstance(it, Found) and isinstance(it.run, Run)]
    for question, run in sorted(runs, key=lambda it: it[0].kind == DEADLOCK):
        if question.kind == FAILURE:
            return run.reasons
        return (run.reasons if question.model != "sc" else []) + [waits(it) for it in run.stops if not it.waits.startswith(FOR_AN_END)]
    return []


def waits(stop: Stop) -> str:
    return f"Thread {stop.thread} is at line {stop.line} and {stop.waits}."


def last_line(folder: str, unproved: List[str]) -> str:
    """Where the files are, and what rests on no proof."""
    return f"The files are in {folder}." + (f" Not proved: {' and '.join(unproved)}." if unproved else "")
