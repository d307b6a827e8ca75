"""The text of a litmus test: its parts, and tokens with the lines that they come from."""
import re
from dataclasses import dataclass
from typing import List, NoReturn, Optional

NAME = r"[A-Za-z_]\w*"
# Without leading zeros, which C would read as octal.
NUMBER = r"(?:0[xX][0-9a-fA-F]+|0|[1-9]\d*)(?!\w)"
SIGN = r"/\\|\\/|<=|>=|==|!=|&&|\|\||<<|>>|[][(){},;:=+\-*/%!~<>&^|$?.]"
TOKEN = re.compile(rf"\s*({NAME}|{NUMBER}|{SIGN})")
INFORMATION = re.compile(r'\s*(?:"[^"]*"|[\w-]+=.*)?\s*')
CONDITION = re.compile(r"^[ \t]*(?:locations|filter|final|observed|exists|forall|~[ \t]*exists)\b", re.M)
ML_COMMENT = re.compile(r"\(\*.*?\*\)", re.S)
C_COMMENT = re.compile(r"//[^\n]*|/\*.*?\*/", re.S)
ARCHITECTURES = ("X86", "C")


class Refused(Exception):
    """The test can't be translated exactly; the line says where."""

    def __init__(self, line: int, why: str) -> None:
        super().__init__(why)
        self.line = line


@dataclass(frozen=True)
class Text:
    """A part of the test and the line at which it begins."""

    text: str
    line: int

    def at(self, offset: int) -> int:
        """The line of an offset."""
        return self.line + self.text.count("\n", 0, offset)

    def without(self, comments: "re.Pattern[str]") -> "Text":
        """The same text with each comment blanked out, so that lines stay the same."""
        return Text(comments.sub(lambda found: re.sub(r"[^\n]", " ", found[0]), self.text), self.line)

    def split(self, offset: int) -> "tuple[Text, Text]":
        return Text(self.text[:offset], self.line), Text(self.text[offset:], self.at(offset))


@dataclass(frozen=True)
class Parts:
    """The architecture and name of a test, and its three parts."""

    architecture: str
    name: str
    initial: Text
    code: Text
    condition: Text


def parts_of(text: str) -> Parts:
    """Splits a test. Documentation and `Key=Value` lines before the initial state are skipped."""
    opening = re.search(r"^[ \t]*\{", text, re.M)
    if opening is None:
        raise Refused(1, "no initial state: no line begins with {")
    head, rest = Text(text, 1).split(opening.end())
    architecture, name = head_of(Text(head.text[:-1], 1).without(ML_COMMENT))
    closing = rest.text.find("}")
    if closing < 0:
        raise Refused(rest.line, "the initial state has no closing }")
    initial, body = rest.split(closing)
    body = Text(" " + body.text[1:], body.line).without(C_COMMENT if architecture == "C" else ML_COMMENT)
    found = CONDITION.search(body.text)
    if found is None:
        raise Refused(body.at(len(body.text)), "no final condition: no line begins with exists, ~exists or forall")
    code, condition = body.split(found.start())
    return Parts(architecture, name, initial.without(ML_COMMENT), code, condition.without(ML_COMMENT))


def head_of(head: Text) -> "tuple[str, str]":
    """The architecture and the name, from the first line."""
    first, *others = head.text.split("\n")
    words = first.split(None, 1)
    if len(words) < 2 or words[0] not in ARCHITECTURES:
        raise Refused(1, f"expected {' or '.join(ARCHITECTURES)} and a name, found {first.strip() or 'an empty line'}")
    for number, line in enumerate(others, 2):
        if not INFORMATION.fullmatch(line):
            raise Refused(number, f"expected \"documentation\", Key=Value or the initial state, found {line.strip()}")
    return words[0], words[1].strip()


@dataclass(frozen=True)
class Token:
    """A name, a number or a sign. An empty one marks the end."""

    text: str
    line: int

    def is_name(self) -> bool:
        return bool(re.match(r"[A-Za-z_]", self.text))

    def is_number(self) -> bool:
        return self.text[:1].isdigit()


class Tokens:
    """The tokens of a text, taken from left to right."""

    def __init__(self, text: Text) -> None:
        self.left: List[Token] = []
        offset, end = 0, len(text.text.rstrip())
        while offset < end:
            found = TOKEN.match(text.text, offset)
            if found is None:
                line = text.text[offset:end].lstrip()
                raise Refused(text.at(end - len(line)), f"unexpected text: {line.split()[0]}")
            self.left.append(Token(found[1], text.at(found.start(1))))
            offset = found.end()
        self.left.append(Token("", text.at(end)))
        self.left.reverse()

    def next(self) -> Token:
        """The next token, without taking it."""
        return self.left[-1]

    def take(self) -> Token:
        return self.left.pop() if self.next().text else self.next()

    def accept(self, *texts: str) -> Optional[Token]:
        """Takes the next token if it is one of these."""
        return self.take() if self.next().text in texts and self.next().text else None

    def expect(self, text: str) -> Token:
        return self.accept(text) or self.refuse(f"expected {text}, found {self.found()}")

    def name(self, what: str) -> Token:
        return self.take() if self.next().is_name() else self.refuse(f"expected {what}, found {self.found()}")

    def number(self) -> int:
        """Takes a number in the range of int, with or without a sign."""
        sign = -1 if self.accept("-") else 1
        token = self.next()
        if not token.is_number():
            self.refuse(f"expected a number, found {self.found()}")
        value = sign * int(self.take().text, 16 if token.text[:2].lower() == "0x" else 10)
        if not -(2**31) <= value < 2**31:
            raise Refused(token.line, f"{value} doesn't fit into an int of 32 bits")
        return value

    def found(self) -> str:
        """The next token as a message names it."""
        return self.next().text or "the end"

    def refuse(self, why: str) -> NoReturn:
        raise Refused(self.next().line, why)
