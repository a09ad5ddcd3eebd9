#!/usr/bin/env python3
"""Spells the repository's own antt names in snake case: `each-number` and `digitOf` become `each_number` and `digit_of`.

A name is own where a file of specs/, or one that stands right in proofs/, declares it; names of a library, and the names of goals,
which are made of the code's, stay. Types, modules and files keep their names. Text in .rt files is turned in clauses and imports,
the pages and comments between backticks. A name that would fall together with another one of the same scope is in TABLE."""

import re
import sys
from pathlib import Path

TOP = Path(__file__).resolve().parent.parent

# Names that snake case alone would make one: a law of a function is told from it by `_lem`.
TABLE = {
    "first-bad": "first_bad_lem",
    "at-end": "at_end_lem",
    "valid-for": "valid_for_lem",
    "one_byte": "one_byte_lem",
    "kids-of": "kids_of_lem",
    "field-items": "field_items_lem",
    "declaration-items": "declaration_items_lem",
    "value-items": "value_items_lem",
    "other_items": "other_items_lem",
    "inner-items": "inner_items_lem",
    "range-items": "range_items_lem",
    "field-by": "field_by_lem",
    "first-of": "first_of_lem",
    "condition-of": "condition_of_lem",
    "field-count": "field_count_lem",
    "value-of": "value_part",
    "tagWords": "words_of_tag",
    "constraintWords": "words_of_constraint",
    "fieldWords": "words_of_field",
    "declarationWords": "words_of_declaration",
    "MAX-CHUNK-WIDTH": "max_chunk_width",
    "CUSTOM-FIELD": "CUSTOM_FIELD",
    "CUSTOM-FIELD-leaf": "CUSTOM_FIELD_leaf",
    "At-condition": "AtCondition",
    "Past-condition": "PastCondition",
}

TOKEN = re.compile(r"[^\s(){}\[\];,.\"`]+")
PLAIN = re.compile(r"[^\W\d][\w'-]*$")
LIBRARY = re.compile(r"^use (?!Rattle\.\w+\.(?:specs|proofs)\b(?<!Rattle\.std\.specs)(?<!Rattle\.std\.proofs))[^\n{]*\{([^}]*)\}", re.MULTILINE)
DECLARED = re.compile(r"^(?: *(?:abbrev |unfoldable |pub )*| +)([^\s(){}:]+(?: [^\s(){}:λ≡→←]+)*) :(?= )", re.MULTILINE)
COMMENT = re.compile(r"--[^\n]*")
QUOTED = re.compile(r"`[^`\n]*`")


def in_snake_case(name):
    return re.sub(r"(?<=[a-z0-9])[A-Z]+", lambda hump: "_" + hump[0].lower(), name).replace("-", "_")


def laws():
    """The files whose names are own: not those of a function's proof, where goals are named."""
    for crate in sorted(TOP.glob("crates/*")):
        yield from sorted(crate.glob("specs/**/*.antt"))
        yield from sorted(crate.glob("proofs/*.antt"))


def own_names():
    declared, taken = set(), set()
    for file in laws():
        text = COMMENT.sub("", file.read_text(encoding="utf-8"))
        for names in DECLARED.findall(text):
            declared |= set(names.split())
        for names in LIBRARY.findall(text):
            taken |= {name.split(" as ")[0].strip() for name in names.split(",")}
    turned = {n: in_snake_case(n) for n in declared - taken if PLAIN.match(n) and ("-" in n or re.match(r"[a-z]\w*[A-Z]", n))}
    return {**{n: s for n, s in turned.items() if n != s and n not in LEFT}, **TABLE}


# Declared here, but names of a library too, as an argument or a field of its own.
LEFT = {"not-true"}


def turn(text, names):
    return TOKEN.sub(lambda it: names.get(it[0], it[0]), text)


def turn_quoted(text, names):
    return QUOTED.sub(lambda it: turn(it[0], names), text)


def turn_lines(text, names, comment, keeps):
    """Turns what stands before a comment; in a comment what stands between backticks. `keeps` says which code stays."""
    lines = []
    for line in text.split("\n"):
        code, sign, rest = line.partition(comment) if comment in line and not re.search(r'"[^"]*' + comment, line) else (line, "", "")
        lines.append((code if keeps(code) else turn(code, names)) + sign + turn_quoted(rest, names))
    return "\n".join(lines)


def clauses(text, names):
    """A .rt file: imports of ghosts, and clauses, which stand between braces behind `requires` or `ensures`."""
    text = re.sub(r"ghost use [^;]*;", lambda it: turn(it[0], names), text)
    pieces, at = [], 0
    for head in re.finditer(r"\b(?:requires|ensures)(?: \w+)? \{|\bghost \w+: \{", text):
        if head.start() < at:
            continue
        depth, end = 1, head.end()
        while depth:
            depth += (text[end] == "{") - (text[end] == "}")
            end += 1
        pieces += [text[at : head.end()], turn(text[head.end() : end], names)]
        at = end
    return "".join(pieces + [text[at:]])


def files():
    for folder in ("crates", "docs", "gate", "mutation"):
        yield from (file for file in sorted((TOP / folder).rglob("*")) if file.is_file() and "out" not in file.parts)
    yield TOP / "README.md"


def main():
    names = own_names()
    if "--names" in sys.argv:
        print("\n".join(f"{old}\t{new}" for old, new in sorted(names.items())))
        return
    for file in files():
        if file.suffix not in (".antt", ".rt", ".edit", ".md") or file.name.startswith("PORT"):
            continue
        text = file.read_text(encoding="utf-8")
        if file.suffix == ".antt":
            turned = turn_lines(text, names, "--", lambda code: False)
        elif file.suffix == ".rt":
            turned = turn_lines(clauses(text, names), names, "//", lambda code: True)
        elif file.suffix == ".edit":
            turned = turn_lines(text, names, "#", lambda code: False)
        else:
            turned = turn_quoted(text, names)
        if turned != text:
            file.write_text(turned, encoding="utf-8")


if __name__ == "__main__":
    main()
