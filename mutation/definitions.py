"""Wrong edits of definitions, of one line or of two neighbouring ones: another number, test, branch, part or text, an optional part
made due, or a due part made optional."""

import re
from typing import Iterator, List, NamedTuple, Set, Tuple

from wrong import Change, Edit

TOKEN = re.compile(
    r"""
    (?P<space>\s+ | --[^\n]*)
  | (?P<text>"(?:\\.|[^"\\])*")
  | (?P<word>\[\] | [^\s(){}\[\];,"]+)
  | (?P<mark>[(){}\[\];,])
    """,
    re.X | re.S,
)
NUMBER = re.compile(r"0x[0-9A-Fa-f]+$|[0-9]+$")
CLOSED_BY = {"(": ")", "[": "]", "{": "}"}

# What parts an expression, the operators whose operands may change places, and those that bind more tightly.
PARTING = {";", ",", "=", "in", "let", "↦", "|", "→"}
CHAINED = {"∷", "++", "∣", "~", "·"}
BINDING = {"⇒", "+", "-", "*", "/", "%", "^", "‥", "to", "×", "⊎", "≡", "moves-as", "⊕"}
TURNED = {"ltb": "leb", "leb": "ltb", "both": "either", "either": "both", "eqb": "leb", "true": "false", "false": "true"}
OPTIONAL = {"opt", "repeat", "star", "neg"}


class Atom(NamedTuple):
    """A token, or a bracket with what stands in it, and the fields that are asked of that, from start to end."""

    text: str
    start: int
    end: int
    inside: list


class Clause(NamedTuple):
    """A clause of a definition: where its value stands, and the names that its left side binds or compares."""

    start: int
    end: int
    left: Set[str]


def is_table(name: str) -> bool:
    """Whether a file of a crate is a table of examples, which has no definitions."""
    return re.match(r"specs/(Papers|Moved|Examples)[/.]", name) is not None


def edits(source: str) -> List[Edit]:
    """Every edit of a file's definitions, each once, in the order of the file."""
    made, seen = [], set()
    for change in changes(source):
        edit = on_lines(source, change)
        if edit.old != edit.new and edit not in seen and edit.old.count("\n") < 2:
            seen.add(edit)
            made.append(edit)
    return sorted(made, key=lambda edit: edit.line)


def on_lines(source: str, change: Change) -> Edit:
    """The edit that a change makes, with all of the lines that it touches."""
    first = source.rfind("\n", 0, change.start) + 1
    last = source.find("\n", change.end)
    new = source[first : change.start] + change.text + source[change.end : last]
    return Edit(source.count("\n", 0, first) + 1, source[first:last], new, change.kind)


def changes(source: str) -> Iterator[Change]:
    """Every change of a value, and of two clauses that may change theirs."""
    names = set(re.findall(r"[^\s{},()]+", "\n".join(re.findall(r"^use .*$", source, re.M)))) | {"true", "false"}
    for clauses in definitions(source):
        for clause in clauses:
            yield from of_value(source, atoms(source, clause.start, clause.end), names | defined(source))
        for one, other in zip(clauses, clauses[1:]):
            if bound(source, one) <= other.left and bound(source, other) <= one.left:
                values = source[one.start : one.end], source[other.start : other.end]
                yield Change(one.start, other.end, values[1] + source[one.end : other.start] + values[0], "branch")


def defined(source: str) -> Set[str]:
    """The names that a file defines itself."""
    return set(re.findall(r"^(?:abbrev|unfoldable) (?:pub )?(\S+) :", source, re.M))


def definitions(source: str) -> Iterator[List[Clause]]:
    """The clauses of each definition; a definition that only opens others has none."""
    for block in re.finditer(r"^(?:abbrev|unfoldable) .*\n(?:[ ].*\n)*((?:(?!abbrev |unfoldable |pub |infix|--).+\n)+)", source, re.M):
        if not block.group(1).startswith("unfolding"):
            yield [clause(block.start(1), part) for part in re.finditer(r"^[^\s}].*\n(?:[ }].*\n)*", block.group(1), re.M)]


def clause(shift: int, part: re.Match) -> Clause:
    left, value = re.split(r" =\s+", part.group().rstrip(), maxsplit=1)
    end = shift + part.start() + len(part.group().rstrip())
    return Clause(end - len(value), end, set(re.findall(r"[^\s()]+", left)))


def bound(source: str, one: Clause) -> Set[str]:
    """The names of a clause's value that its left side binds, also where a field is asked of one."""
    words = {word.split(".")[0] for word in re.findall(r"[^\s(){};,]+", source[one.start : one.end])}
    return words & one.left


def atoms(source: str, start: int, end: int) -> List[Atom]:
    """What stands from start to end, bracket in bracket."""
    levels: List[Tuple[str, int, list]] = [("", start, [])]
    for token in TOKEN.finditer(source, start, end):
        text = token.group()
        if token.lastgroup == "space":
            continue
        inside = levels[-1][2]
        if text in CLOSED_BY:
            levels.append((text, token.start(), []))
        elif text in CLOSED_BY.values():
            mark, began, inside = levels.pop()
            levels[-1][2].append(Atom(mark, began, token.end(), inside))
        elif text[0] == "." and inside and inside[-1].text == "(" and inside[-1].end == token.start():
            inside[-1] = inside[-1]._replace(end=token.end())
        else:
            inside.append(Atom(text, token.start(), token.end(), []))
    return levels[0][2]


def of_value(source: str, inside: List[Atom], names: Set[str]) -> Iterator[Change]:
    """Every change of an expression and of the expressions in its brackets."""
    for one in inside:
        if one.text in CLOSED_BY:
            yield from of_value(source, one.inside, names)
        else:
            yield from of_token(one, names)
    for chain, marks in chains(inside, CHAINED):
        for operand in chain:
            for applied in chains(operand, BINDING):
                yield from (change for part in applied[0] for change in of_application(source, part))
        yield from of_chain(source, chain, marks, names)


def of_token(one: Atom, names: Set[str]) -> Iterator[Change]:
    if NUMBER.match(one.text):
        value = int(one.text, 0)
        for other in (value + 1, value - 1):
            if other >= 0:
                yield Change(one.start, one.end, f"0x{other:X}" if one.text.startswith("0x") else str(other), "number")
    elif one.text.startswith('"') and len(one.text) > 2:
        inside = one.text[1:-1]
        cut = inside[:-2] if inside[-2:-1] == "\\" else inside[:-1]
        yield Change(one.start + 1, one.end - 1, cut + ("y" if inside.endswith("z") else "z"), "text")
        if cut:
            yield Change(one.start + 1, one.end - 1, cut, "text")
    elif TURNED.get(one.text) in names:
        yield Change(one.start, one.end, TURNED[one.text], "test")


def chains(inside: List[Atom], operators: Set[str]) -> Iterator[Tuple[List[List[Atom]], List[str]]]:
    """The operands of each expression among these, with those of the operators between them."""
    chain, marks = [[]], []
    for one in inside:
        if one.text in PARTING or one.text == "λ" or one.text.endswith("."):
            yield chain, marks
            chain, marks = [[]], []
        elif one.text in operators:
            marks.append(one.text)
            chain.append([])
        else:
            chain[-1].append(one)
    yield chain, marks


def of_application(source: str, operand: List[Atom]) -> Iterator[Change]:
    """Of an application: the branches of a choice, or the sides of a test, exchanged; one of two tests left out; an optional part due."""
    if len(operand) == 4 and operand[0].text == "pick":
        yield exchanged(source, operand[2:3], operand[3:4], "branch")
    if len(operand) == 3 and operand[0].text in ("ltb", "leb"):
        yield exchanged(source, operand[1:2], operand[2:3], "test")
    if len(operand) == 3 and operand[0].text == "both":
        for one in operand[1:]:
            yield Change(operand[0].start, operand[2].end, source[one.start : one.end], "test")
    if len(operand) == 2 and operand[0].text in OPTIONAL - {"neg"}:
        yield Change(operand[0].start, operand[1].end, source[operand[1].start : operand[1].end], "optional")


def of_chain(source: str, chain: List[List[Atom]], marks: List[str], names: Set[str]) -> Iterator[Change]:
    """Of operands: two neighbours exchanged, an alternative left out, a due part made optional."""
    for i, mark in enumerate(marks):
        one, other = chain[i], chain[i + 1]
        if mark != "∷" or marks[i + 1 : i + 2] == ["∷"]:
            yield exchanged(source, one, other, "branch" if mark == "∣" else "part")
        if mark == "∣":
            yield Change(one[0].start, other[-1].end, source[other[0].start : other[-1].end], "branch")
            yield Change(one[0].start, other[-1].end, source[one[0].start : one[-1].end], "branch")
    for i, operand in enumerate(chain):
        if operand and operand[0].text not in OPTIONAL and set(marks[max(0, i - 1) : i + 1]) & {"~", "·"} and "opt" in names:
            yield Change(operand[0].start, operand[-1].end, f"opt ({source[operand[0].start : operand[-1].end]})", "optional")


def exchanged(source: str, one: List[Atom], other: List[Atom], kind: str) -> Change:
    texts = [source[part[0].start : part[-1].end] for part in (one, other)]
    return Change(one[0].start, other[-1].end, texts[1] + source[one[-1].end : other[0].start] + texts[0], kind)
