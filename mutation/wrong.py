"""One-line wrong edits of a source: another operator, number, byte, condition, argument, part or name."""

import re
from typing import Dict, Iterator, List, NamedTuple, Set

from source import OPENING, Token, bodies, closing, tokens

OPERATORS = {
    "<": "<=", "<=": "<", ">": ">=", ">=": ">", "==": "!=", "!=": "==", "&&": "||", "||": "&&",
    "+": "-", "-": "+", "*": "+", "/": "*", "%": "/", "+=": "-=", "-=": "+=",
}  # fmt: skip
NUMBER = re.compile(r"(0x)?([0-9A-Fa-f_]+?)(u8|u16|u32|u64|usize)?$")


class Edit(NamedTuple):
    """A line by its number from 1, as it is and as it becomes, and what kind of edit that is."""

    line: int
    old: str
    new: str
    kind: str


class Change(NamedTuple):
    """The bytes from start to end give way to a text."""

    start: int
    end: int
    text: str
    kind: str


def edits(source: str) -> List[Edit]:
    """Every edit of a source, each once, in the order of the source."""
    inside = list(bodies(tokens(source)))
    names = paths(inside)
    members = fields(inside)
    seen: Set[Edit] = set()
    made: List[Edit] = []
    for body in inside:
        for change in changes(source, body, names, members):
            edit = on_one_line(source, change)
            if edit is not None and edit not in seen:
                seen.add(edit)
                made.append(edit)
    return sorted(made, key=lambda edit: edit.line)


def on_one_line(source: str, change: Change):
    """The edit that a change makes, where it stays on one line and makes a difference."""
    first = source.rfind("\n", 0, change.start) + 1
    last = source.find("\n", change.start)
    if change.end > last or "\n" in change.text:
        return None
    old = source[first:last]
    new = source[first : change.start] + change.text + source[change.end : last]
    if old == new:
        return None
    return Edit(source.count("\n", 0, first) + 1, old, new, change.kind)


def changes(source: str, body: List[Token], names: Dict[str, Set[str]], members: Set[str]) -> Iterator[Change]:
    """Every change of a body's tokens."""
    for i, token in enumerate(body):
        before = body[i - 1] if i > 0 else None
        after = body[i + 1] if i + 1 < len(body) else None
        if token.kind == "number" and (before is None or before.text != "."):
            yield from numbers(token)
        elif token.kind in ("byte", "text"):
            yield from letters(token)
        elif token.text in ("true", "false"):
            yield Change(token.start, token.end, "false" if token.text == "true" else "true", "condition")
        elif token.text in OPERATORS and is_operand(before):
            yield Change(token.start, token.end, OPERATORS[token.text], "operator")
        elif token.text in ("if", "while") and after.text != "let":
            yield from conditions(source, body, i)
        elif token.text in OPENING:
            yield from parts(source, body, i)
        elif token.text == "." and after.kind == "word" and not is_call(body, i + 1):
            yield from (Change(after.start, after.end, name, "part") for name in sorted(members - {after.text}))
        elif token.text == "::" and after.kind == "word":
            others = names.get(before.text, set()) - {after.text}
            yield from (Change(after.start, after.end, name, "name") for name in sorted(others))


def is_operand(token: Token) -> bool:
    """Whether an operator that follows has a left side."""
    return token is not None and (token.kind in ("word", "number", "byte") or token.text in (")", "]"))


def is_call(body: List[Token], i: int) -> bool:
    return i + 1 < len(body) and body[i + 1].text == "("


def numbers(token: Token) -> Iterator[Change]:
    """One more, and one less where there is one."""
    prefix, digits, suffix = NUMBER.match(token.text).groups(default="")
    value = int(digits.replace("_", ""), 16 if prefix else 10)
    for other in (value + 1, value - 1):
        if other >= 0:
            text = f"0x{other:X}" if prefix else str(other)
            yield Change(token.start, token.end, text + suffix, "number")


def letters(token: Token) -> Iterator[Change]:
    """Another byte for a byte; for a text another last byte, and the text without it."""
    inside = token.text[2:-1]
    if not inside or inside.startswith("\\") or inside[-2:-1] == "\\":
        return
    other = inside[:-1] + ("z" if inside[-1] != "z" else "y")
    yield Change(token.start + 2, token.end - 1, other, "byte")
    if token.kind == "text" and len(inside) > 1:
        yield Change(token.start + 2, token.end - 1, inside[:-1], "byte")


def conditions(source: str, body: List[Token], i: int) -> Iterator[Change]:
    """The condition of an `if`, a guard or a `while`, denied. A guard of `matches!` ends with its call."""
    end = i + 1
    while body[end].text not in ("{", "=>", ")"):
        end = closing(body, end) + 1 if body[end].text in OPENING else end + 1
    start, stop = body[i + 1].start, body[end - 1].end
    asked = source[start:stop]
    text = asked[1:] if body[i + 1].text == "!" else f"!({asked})"
    yield Change(start, stop, text, "condition")


def parts(source: str, body: List[Token], i: int) -> Iterator[Change]:
    """In a list of arguments or parts: two neighbours exchanged, and a part given twice. What a struct takes from another stays."""
    listed = [(first, last) for first, last in items(body, i) if body[first].text != ".."]
    spans = [(body[first].start, body[last].end) for first, last in listed]
    texts = [source[start:end] for start, end in spans]
    named = body[i].text == "{"
    if named and not all(NAMED.match(text) for text in texts):
        return
    kind = "part" if body[i].text in ("[", "{") else "argument"
    for k in range(len(spans) - 1):
        (start, middle), (other, end) = spans[k], spans[k + 1]
        one, two = exchanged(texts[k], texts[k + 1]) if named else (texts[k + 1], texts[k])
        yield Change(start, end, one + source[middle:other] + two, kind)
    for k, (start, end) in enumerate(spans):
        for other in {texts[k - 1], texts[(k + 1) % len(texts)]} if kind == "argument" else ():
            yield Change(start, end, other, kind)


# A named part: its name, and its value where that is not the name itself.
NAMED = re.compile(r"(\w+)(?:: (.*))?$")


def exchanged(one: str, other: str):
    """Two named parts, each with the value of the other."""
    (first, value), (second, worth) = NAMED.match(one).groups(), NAMED.match(other).groups()
    return f"{first}: {worth or second}", f"{second}: {value or first}"


def items(body: List[Token], i: int) -> List:
    """The first and last tokens of each item of the list that opens at a place."""
    end = closing(body, i)
    listed, first, at = [], i + 1, i + 1
    while at < end:
        if body[at].text == ",":
            listed.append((first, at - 1))
            first = at + 1
        at = closing(body, at) + 1 if body[at].text in OPENING else at + 1
    if first < end:
        listed.append((first, end - 1))
    return [(a, b) for a, b in listed if a <= b]


def paths(inside: List[List[Token]]) -> Dict[str, Set[str]]:
    """The names that stand behind each name and `::`: constants and variants, which begin with a capital."""
    names: Dict[str, Set[str]] = {}
    for before, mark, after in triples(inside):
        if mark.text == "::" and after.text[0].isupper():
            names.setdefault(before.text, set()).add(after.text)
    return names


def fields(inside: List[List[Token]]) -> Set[str]:
    """The names of the parts that are asked for."""
    asked = triples(inside)
    return {name.text for mark, name, next in asked if mark.text == "." and name.kind == "word" and next.text != "("}


def triples(inside: List[List[Token]]) -> Iterator:
    return (three for body in inside for three in zip(body, body[1:], body[2:]))
