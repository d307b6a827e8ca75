"""The C types that have a translation, and how clang spells them."""
import dataclasses
import re
from typing import Container, Dict, Iterator, List, Optional, Tuple, Union

from .refusal import Place, Refusal

# The widths of numbers in bits, and whether they have a sign.
WIDTHS = {
    "bool": (1, False), "signed char": (8, True), "unsigned char": (8, False), "short": (16, True), "unsigned short": (16, False),
    "int": (32, True), "unsigned": (32, False), "long": (64, True), "unsigned long": (64, False), "address": (32, False),
}
HANDLES = {
    "pthread_t": ("thread", 8), "thrd_t": ("thread", 8),
    "pthread_mutex_t": ("mutex", 40), "mtx_t": ("mutex", 40), "pthread_spinlock_t": ("mutex", 40),
    "pthread_cond_t": ("condition", 48), "cnd_t": ("condition", 48),
}
POINTER_SIZE = 8


@dataclasses.dataclass(frozen=True)
class Int:
    """A number of one of the kinds of WIDTHS. An address is the number of an object of a struct, as a pointer."""

    kind: str
    atomic: bool = False
    constant: bool = False
    volatile: bool = False
    to: Optional["Struct"] = None


@dataclasses.dataclass(frozen=True)
class Handle:
    """A mutex, a condition, or a thread."""

    kind: str


@dataclasses.dataclass(frozen=True)
class Array:
    length: int
    element: "Type"


@dataclasses.dataclass(eq=False)
class Struct:
    """A struct. Its fields are filled in once they are known, since one may point to it."""

    name: str
    fields: Tuple[Tuple[str, "Type"], ...] = ()
    at: Place = Place("", 1, 1)

    def field(self, name: str) -> "Type":
        return dict(self.fields)[name]


@dataclasses.dataclass(frozen=True)
class Pointer:
    to: "Type"
    atomic: bool = False


@dataclasses.dataclass(frozen=True)
class FunctionType:
    result: "Type"


@dataclasses.dataclass(frozen=True)
class Void:
    pass


Type = Union[Int, Handle, Array, Struct, Pointer, FunctionType, Void]
Fields = Tuple[str, ...]
Dims = Tuple[int, ...]


def is_unsigned(kind: str) -> bool:
    """Whether arithmetic of this kind is that of unsigned. Narrower kinds are promoted first."""
    return kind in ("unsigned", "unsigned long")


def scalars_of(type_: Type, fields: Fields = (), dims: Dims = ()) -> Iterator[Tuple[Fields, Dims, Type]]:
    """The parts of a variable of this type: the fields that lead to each part, the lengths of the
    arrays on that way, and the part's type."""
    if isinstance(type_, Array):
        yield from scalars_of(type_.element, fields, (*dims, type_.length))
    elif isinstance(type_, Struct):
        for name, inner in type_.fields:
            yield from scalars_of(inner, (*fields, name), dims)
    else:
        yield fields, dims, type_


def dims_of(type_: Type, fields: Fields) -> Dims:
    """The lengths of the arrays on the way to a part."""
    found: List[int] = []
    while isinstance(type_, Array) or fields and isinstance(type_, Struct):
        if isinstance(type_, Array):
            found.append(type_.length)
            type_ = type_.element
        else:
            type_, fields = type_.field(fields[0]), fields[1:]
    return tuple(found)


def structs_within(type_: Type, wanted: Container["Struct"], fields: Fields = (), dims: Dims = ()) -> Iterator[Tuple[Fields, Dims, Struct]]:
    """The parts of a variable that are some structs, the outermost ones."""
    if isinstance(type_, Array):
        yield from structs_within(type_.element, wanted, fields, (*dims, type_.length))
    elif isinstance(type_, Struct) and type_ in wanted:
        yield fields, dims, type_
    elif isinstance(type_, Struct):
        for name, inner in type_.fields:
            yield from structs_within(inner, wanted, (*fields, name), dims)


def layout(type_: Type) -> Tuple[int, int]:
    """The size and the alignment of a type, in bytes."""
    if isinstance(type_, Int):
        size = POINTER_SIZE if type_.to else max(1, WIDTHS[type_.kind][0] // 8)
        return size, size
    if isinstance(type_, Array):
        size, align = layout(type_.element)
        return size * type_.length, align
    if isinstance(type_, Struct):
        end = most = 0
        for _, field in type_.fields:
            size, align = layout(field)
            end, most = (end + align - 1) // align * align + size, max(most, align)
        return (end + most - 1) // most * most if most else 0, max(most, 1)
    if isinstance(type_, Handle):
        return next(size for kind, size in HANDLES.values() if kind == type_.kind), POINTER_SIZE
    return (POINTER_SIZE, POINTER_SIZE) if isinstance(type_, Pointer) else (1, 1)


TOKEN = re.compile(r"\s*((?:struct |union |enum )?\((?:unnamed|anonymous)[^()]* at [^()]*\)|(?:struct|union|enum) \w+|\w+|[*()\[\],.]+?)")
UNNAMED = re.compile(r"\(\S+.* at (.*)\)")
ADVICE = "use integers, bool, arrays and structs of them"
# C's own types of numbers as clang spells them.
NUMBERS = {
    "_Bool": "bool", "char": "signed char", "signed char": "signed char", "unsigned char": "unsigned char", "short": "short",
    "unsigned short": "unsigned short", "int": "int", "unsigned int": "unsigned", "long": "long", "unsigned long": "unsigned long",
    "long long": "long", "unsigned long long": "unsigned long",
}
OWN = {"void", "char", "short", "int", "long", "signed", "unsigned", "_Bool", "float", "double", "_Complex", "__int128"}
QUALIFIERS = {"const", "volatile", "restrict", "_Atomic"}


class Scope:
    """The types that have a name in some part of a file: typedefs by theirs, structs and enumerations with the word before it."""

    def __init__(self, around: Optional["Scope"] = None) -> None:
        self.around = around
        self.types: Dict[str, Union[Type, Refusal]] = {}

    def find(self, name: str) -> Optional[Type]:
        """The type of a name. One that has no translation is refused where it is used."""
        found = self.types.get(name)
        if isinstance(found, Refusal):
            raise found
        return found or (self.around.find(name) if self.around else None)

    def later(self, name: str) -> Struct:
        """A struct of which only the name is known yet."""
        if self.around:
            return self.around.later(name)
        made = self.types[name] = Struct(name.partition(" ")[2])
        return made

    def parse(self, text: str, at: Place) -> Type:
        """The type that clang spells so."""
        return Spelling(text, self, at).whole()


class Spelling:
    """A type's text while it is read. A declarator is the function that makes the type of the one of what it declares."""

    def __init__(self, text: str, scope: Scope, at: Place) -> None:
        self.text, self.scope, self.at = text, scope, at
        self.tokens: List[str] = [it[1] for it in TOKEN.finditer(text)]

    def refused(self, advice: str = ADVICE) -> Refusal:
        return Refusal(self.at, f"the type {self.text}", advice)

    def next(self) -> str:
        return self.tokens[0] if self.tokens else ""

    def take(self, token: str) -> bool:
        if self.next() != token:
            return False
        del self.tokens[0]
        return True

    def whole(self) -> Type:
        made = self.declared(self.specifiers())
        if self.tokens and self.next() != ")":
            raise self.refused()
        return made

    def specifiers(self) -> Type:
        words: List[str] = []
        quals: List[str] = []
        found: Optional[Type] = None
        while self.tokens:
            token = self.next()
            if token in QUALIFIERS:
                del self.tokens[0]
                quals.append(token)
                if token == "_Atomic" and self.take("("):
                    found = self.whole()
                    self.take(")")
            elif token in OWN:
                words.append(self.tokens.pop(0))
            elif re.match(r"\w|\(.*\)", token) and not found and not words:
                found = self.named(self.tokens.pop(0))
            else:
                break
        return self.qualified(found or self.own(words), quals)

    def own(self, words: List[str]) -> Type:
        if words == ["void"]:
            return Void()
        if " ".join(words) not in NUMBERS:
            raise self.refused()
        return Int(NUMBERS[" ".join(words)])

    def named(self, token: str) -> Type:
        if token in HANDLES:
            return Handle(HANDLES[token][0])
        unnamed = UNNAMED.search(token)
        found = self.scope.find(unnamed[1] if unnamed else token)
        if found is None and token == "bool":  # so clang spells _Bool where a macro has that name
            return Int("bool")
        if found is None and token.startswith("union"):
            raise Refusal(self.at, "a union", "use a struct, or one variable for each use")
        if found is None and token.startswith("struct"):
            return self.scope.later(token)
        if found is None:
            raise self.refused()
        return found

    def qualified(self, type_: Type, quals: List[str]) -> Type:
        if isinstance(type_, Int):
            return dataclasses.replace(type_, atomic=type_.atomic or "_Atomic" in quals, constant=type_.constant or "const" in quals,
                                       volatile=type_.volatile or "volatile" in quals)
        if isinstance(type_, Pointer):
            return dataclasses.replace(type_, atomic=type_.atomic or "_Atomic" in quals)
        if isinstance(type_, Array):
            return dataclasses.replace(type_, element=self.qualified(type_.element, quals))
        if "_Atomic" in quals:
            raise Refusal(self.at, "_Atomic of something that isn't a number", "make its fields or elements _Atomic")
        return type_

    def declared(self, type_: Type) -> Type:
        """The type that a declarator without a name makes of a type."""
        while self.take("*"):
            type_ = Pointer(type_)
            quals = []
            while self.next() in QUALIFIERS:
                quals.append(self.tokens.pop(0))
            type_ = self.qualified(type_, quals)
        inner: Optional[List[str]] = None
        if self.next() == "(" and self.tokens[1:2] == ["*"]:
            inner = self.bracketed()
        if self.next() == "(":
            self.bracketed()
            type_ = FunctionType(type_)
        lengths: List[str] = []
        while self.take("["):
            lengths.append(self.tokens.pop(0) if self.next() != "]" else "0")
            if not lengths[-1].isdigit() or not self.take("]"):
                raise Refusal(self.at, "an array whose length isn't constant", "give it a constant length")
        for length in reversed(lengths):
            type_ = Array(int(length), type_)
        if inner is None:
            return type_
        outer, self.tokens = self.tokens, inner
        made = self.declared(type_)
        self.tokens = outer
        return made

    def bracketed(self) -> List[str]:
        """Takes what is between two brackets."""
        depth, found = 0, []
        while self.tokens:
            token = self.tokens.pop(0)
            depth += (token == "(") - (token == ")")
            found.append(token)
            if depth == 0:
                return found[1:-1]
        raise self.refused()
