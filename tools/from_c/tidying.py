"""Takes out of a thread's body what the translation put there and nothing needs: locals of its own that are never read, and tests of
locals that lead nowhere. No access of shared memory goes."""
import dataclasses
from typing import List, Set

from .program import Assign, Block, If, Local, Statement, While, effects_of, expressions_of, read_in, statements_in


def tidied(block: Block, own: Set[Local]) -> Block:
    """The block without these, where `own` are the translation's locals."""
    while True:
        read = {it for statement in statements_in(block) for each in read_in(statement) for it in expressions_of(each)}
        read |= {it for statement in statements_in(block) for it in expressions_of(getattr(statement, "target", Local("")))
                 if it is not getattr(statement, "target", None)}
        less = without(block, {it for it in own if it not in read})
        if less == block:
            return block
        block = less


def without(block: Block, unread: Set[Local]) -> Block:
    out: List[Statement] = []
    for statement in block:
        if isinstance(statement, If):
            statement = dataclasses.replace(statement, then=without(statement.then, unread), other=without(statement.other, unread))
            if not statement.then and not statement.other and not effects_of(statement.condition).shares:
                continue
        elif isinstance(statement, While):
            statement = dataclasses.replace(statement, body=without(statement.body, unread))
        elif isinstance(statement, Assign) and statement.target in unread and not effects_of(statement.value).shares:
            continue
        out.append(statement)
    return tuple(out)
