"""Rattle's source as tokens: the bodies of functions and the values of constants, without contracts, types and comments."""

import re
from typing import Iterator, List, NamedTuple

TOKEN = re.compile(
    r"""
    (?P<space>\s+ | //[^\n]*)
  | (?P<text>b"(?:\\.|[^"\\])*")
  | (?P<byte>b'(?:\\x[0-9A-Fa-f]{2}|\\.|[^'\\\n])')
  | (?P<number>(?:0x[0-9A-Fa-f_]+|[0-9][0-9_]*)(?:u8|u16|u32|u64|usize)?\b)
  | (?P<word>[A-Za-z_]\w*)
  | (?P<mark>=>|->|::|\.\.=|\.\.|&&|\|\||==|!=|<=|>=|\+=|-=|\*=|/=|%=|.)
    """,
    re.X | re.S,
)

CLAUSES = ("requires", "ensures", "ghost")
OPENING = {"(": ")", "[": "]", "{": "}"}


class Token(NamedTuple):
    kind: str
    text: str
    start: int

    @property
    def end(self) -> int:
        return self.start + len(self.text)


def tokens(source: str) -> List[Token]:
    """The tokens of a file, without blanks and comments."""
    found = (Token(m.lastgroup, m.group(), m.start()) for m in TOKEN.finditer(source))
    return [token for token in found if token.kind != "space"]


def closing(found: List[Token], at: int) -> int:
    """Where the bracket that opens at a place is closed."""
    depth = 0
    for i in range(at, len(found)):
        if found[i].text in OPENING:
            depth += 1
        elif found[i].text in OPENING.values():
            depth -= 1
            if depth == 0:
                return i
    raise ValueError("a bracket is not closed")


def bodies(found: List[Token]) -> Iterator[List[Token]]:
    """The tokens of each function's body, its braces included, and of each constant's value."""
    i = 0
    while i < len(found):
        end = i
        if found[i].text == "const":
            while found[i].text != "=":
                i += 1
            end = i
            while found[end].text != ";":
                end += 1
            yield found[i + 1 : end]
        elif found[i].text == "fn":
            start = body_start(found, i)
            if start is not None:
                end = closing(found, start)
                yield found[start : end + 1]
        i = end + 1


def is_clause(found: List[Token], at: int) -> bool:
    """Whether a clause opens at a place: behind its word, or behind that and the clause's name."""
    return found[at - 1].text in CLAUSES or found[at - 1].kind == "word" and found[at - 2].text in CLAUSES


def body_start(found: List[Token], at: int):
    """Where the body of the function at a place opens: behind its parameters, its result and its clauses."""
    i = at
    while i < len(found):
        text = found[i].text
        if text == ";":
            return None
        if text == "{" and not is_clause(found, i):
            return i
        i = closing(found, i) + 1 if text in OPENING else i + 1
    return None
