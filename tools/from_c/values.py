"""The translation of an expression of C: statements before it, and an expression of the
language."""
import dataclasses
from typing import FrozenSet, Optional

from .program import Block, Effects, Expression, Number, Object, effects_in, effects_of
from .storage import Ref


@dataclasses.dataclass(frozen=True)
class Value:
    """The kind is that of a number, or wide, for a number as a pointer; pointer, to what `ref` leads to; null; function; place, which
    is an lvalue; or void. `direct` is what the expression writes itself, outside calls."""

    kind: str
    before: Block = ()
    expression: Expression = Number(0)
    ref: Optional[Ref] = None
    direct: FrozenSet[Object] = frozenset()
    function: str = ""

    @property
    def effects(self) -> Effects:
        indexes = self.ref.indexes if self.ref else ()
        return effects_in(self.before) | effects_of(self.expression, *indexes)

    @property
    def is_null(self) -> bool:
        """Whether it is a null pointer, which C also writes 0."""
        return self.kind == "null" or self.kind == "int" and self.expression == Number(0) and not self.before

    def after(self, before: Block, direct: FrozenSet[Object] = frozenset()) -> "Value":
        """The same value after more statements."""
        return dataclasses.replace(self, before=(*before, *self.before), direct=self.direct | direct)


VOID = Value("void")
NULL = Value("null")
