#!/usr/bin/env python3
"""Makes docs/EDITS.md of what `./mutants --count 0 --verbose` prints, which is its standard input: for each edit that is written by hand
the fact that is refused first."""

import re
import sys
from pathlib import Path

sys.dont_write_bytecode = True

from choice import listed  # noqa: E402

TOP = Path(__file__).resolve().parent.parent
REFUSED = re.compile(r"(?P<crate>\w+): refused \(\d+ s\): (?P<folder>must-fail|mutants)/(?P<name>[\w-]+)$")
ERROR = re.compile(r"\s+(?P<folder>proofs|specs)/(?P<path>[\w/]+)\.antt:\d+:\d+: error: `(?P<need>[^`]+)`")
OPEN = re.compile(r"\s+fn (?:\w+::)+(?P<function>\w+): no proof: .*`search` did not prove `(?P<need>[^`]+)`")
KINDS = (
    (r"returns.*", "what `{function}` answers"),
    (r"(?P<callee>\w+)(-.+)?-requires(-.+)?", "what `{callee}` asks of `{function}`"),
    (r"(invariant|decreases)-.*|.+-(init|preserved|smaller)(-.+)?", "what a loop of `{function}` keeps"),
    (r"(overflow|nonzero)_.*|(slice_|offset_)?bounds-.*", "a bound in `{function}`"),
)
HEAD = """# Edits and the facts that refuse them

For each wrong edit that is written by hand: what it tries, and the fact that is refused first. Those marked G are tried at every run of
the gate, the others by `./mutants`. `./mutants --count 0 --verbose | mutation/facts.py` makes this page.
"""


def need_of(function, need):
    """What a need of a function's proof says, or nothing where it is a law of its own."""
    for kind, words in KINDS:
        found = re.fullmatch(kind, need)
        if found:
            return words.format(function=function, **found.groupdict())
    return None


def fact_of(line):
    """The fact that an error's line names."""
    error, unmet = ERROR.match(line), OPEN.match(line)
    if unmet:
        return need_of(**unmet.groupdict())
    if not error:
        return line.strip()
    function = re.fullmatch(r"(?:\w+/)*(\w+)/(Answers|Invariants)", error["path"]) if error["folder"] == "proofs" else None
    named = function and need_of(function[1], error["need"])
    return named or f"`{error['need']}` ({error['folder']}/{error['path'].removesuffix('/Answers').removesuffix('/Invariants')})"


def done_by(crate, folder, name):
    """What the edit does, in the words of its first line."""
    text = (TOP / "crates" / crate / folder / f"{name}.edit").read_text(encoding="utf-8")
    return text.split("\n")[0].lstrip("# ").rstrip(".").replace("|", "\\|")


def main():
    lines, rows = sys.stdin.read().split("\n"), {}
    for line, after in zip(lines, lines[1:]):
        edit = REFUSED.match(line)
        if edit:
            mark = "G" if edit["folder"] == "must-fail" else ""
            cells = f"`{edit['name']}`", mark, done_by(**edit.groupdict()), fact_of(after)
            rows.setdefault(edit["crate"], []).append(f"| {' | '.join(cells)} |")
    print(HEAD)
    for crate in sorted(rows, key=listed(TOP).index):
        print(f"## `{crate}`\n\n| edit | | what it tries | first refused |\n|---|---|---|---|", *sorted(rows[crate]), "", sep="\n")
    return 0 if rows else 1


if __name__ == "__main__":
    sys.exit(main())
