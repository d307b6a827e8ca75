"""Answers as objects of JSON, one a line; docs/DEBUG.md lists their names."""
from typing import Any, Dict, List

from .answers import Answer, Excluded, Found, Native, Old, Run

Object = Dict[str, Any]


def run_object(run: Run) -> Object:
    stops = [{"thread": it.thread, "line": it.line, "statement": it.statement, "waits": it.waits} for it in run.stops]
    return {"schedule": run.schedule, "page": run.page, "moves": run.moves, "switches": run.switches, "fewest": run.is_least,
            "stops": stops, "reasons": run.reasons}


def answer_object(answer: Answer) -> Object:
    model, kind = answer.question
    made: Object = {"what": kind, "model": model, "seconds": round(answer.seconds, 2)}
    if isinstance(answer, Found):
        rest = run_object(answer.run) if isinstance(answer.run, Run) else {"why": answer.run.why, "cure": answer.run.cure}
        return {**made, "answer": "found", "log": answer.log, **rest}
    if isinstance(answer, Excluded):
        beyond = {"outcomes": answer.outcomes, "why": answer.beyond.why, "cure": answer.beyond.cure} if answer.beyond else {}
        return {**made, "answer": "bounded" if beyond else "none", "certificate": answer.certificate, **beyond}
    return {**made, "answer": "open", "why": answer.why, "cure": answer.cure}


def native_object(native: Native) -> Object:
    made: Object = {"what": "native", "answer": native.outcome, "said": native.said, "seconds": round(native.seconds, 2)}
    if native.log:
        made["log"] = native.log
    if isinstance(native.run, Run):
        made.update(run_object(native.run))
    return made


def old_object(old: Old, is_of_another: bool) -> Object:
    made: Object = {"what": "old", "model": old.model, "answer": old.outcome, "said": old.said, "other program": is_of_another}
    if old.result:
        made["result"] = old.result
    if old.run:
        made.update(run_object(old.run))
    return made


def end_object(status: int, folder: str, unproved: List[str]) -> Object:
    return {"what": "end", "status": status, "folder": folder, "not proved": unproved}
