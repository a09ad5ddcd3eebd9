"""Which edits of a crate are tried: those that are written by hand, and those that are made by a seed."""

import random
from itertools import zip_longest
from pathlib import Path
from typing import Dict, List, NamedTuple, Optional, Set

import definitions
import wrong
from prover import Replacement, replacements

BY_HAND = ("must-fail", "mutants")


class Trial(NamedTuple):
    """An edit to try: what a person is shown of it, its replacements, and its line where it was made by a seed."""

    label: str
    replaced: List[Replacement]
    line: Optional[Replacement]


def listed(root: Path) -> List[str]:
    """The crates of crates.txt, in its order: the first word of each line."""
    lines = (line.split("#")[0] for line in (root / "crates.txt").read_text(encoding="utf-8").splitlines())
    return [line.replace(":", " ").split()[0] for line in lines if ":" in line]


def written(crate: Path) -> List[Trial]:
    """The edits of a crate that are written by hand."""
    files = [edit for folder in BY_HAND for edit in sorted((crate / folder).glob("*.edit"))]
    return [Trial(f"{edit.parent.name}/{edit.stem}", replacements(edit), None) for edit in files]


def made(crate: Path, seed: int, of_definitions: bool = False) -> List[Trial]:
    """The edits that can be made of a crate's code, or of its definitions, in an order by chance in which the kinds of edits take turns."""
    files = sorted(crate.glob("specs/**/*.antt" if of_definitions else "src/**/*.rt"))
    edits = definitions.edits if of_definitions else wrong.edits
    kinds: Dict[str, List[Trial]] = {}
    for file in files:
        source, name = file.read_text(encoding="utf-8"), str(file.relative_to(crate))
        for edit in edits(source) if not definitions.is_table(name) else ():
            kinds.setdefault(edit.kind, []).append(trial(name, source, edit))
    chance = random.Random(f"{seed} {crate.name}")
    for trials in kinds.values():
        chance.shuffle(trials)
    turns = zip_longest(*(kinds[kind] for kind in sorted(kinds)))
    return [one for turn in turns for one in turn if one is not None]


def trial(name: str, source: str, edit: wrong.Edit) -> Trial:
    """An edit that was made of a file."""
    lines = source.splitlines(keepends=True)
    behind = edit.line + edit.old.count("\n")
    whole = "".join(lines[: edit.line - 1]) + edit.new + "\n" + "".join(lines[behind:])
    line = Replacement(name, on_one_line(edit.old), on_one_line(edit.new))
    return Trial(f"{name}:{edit.line}: {line.old}  ->  {line.new}", [Replacement(name, source, whole)], line)


def on_one_line(text: str) -> str:
    return " ".join(text.split())


def explained(crate: Path) -> Set[Replacement]:
    """The lines that may survive, each in a file that says why: nearly always because the program is an equal one."""
    return {
        Replacement(part.file, on_one_line(part.old), on_one_line(part.new))
        for edit in (crate / "survivors").glob("*.edit")
        for part in replacements(edit)
    }
