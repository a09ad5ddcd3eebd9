"""Has the prover try wrong edits of a crate, each on a copy of the repository, over what it has checked of that crate before."""

import os
import re
import shutil
import signal
import subprocess
import threading
from pathlib import Path
from typing import List, NamedTuple, Optional

REFUSED, SURVIVED, RAN, INVALID, OPEN = "refused", "survived", "refused by its output", "does not compile", "no verdict"

# What is said where a definition does not compile, of all that rests on it; on an example that is refused nothing rests.
NOT_CHECKED = re.compile(r"which was (rejected|not admitted), w(as|ere) not checked")

# Where the prover keeps what it has checked of a crate, and a library for the crates above it.
KEPT, LIBRARY = "out/incremental", "out/rlib"


class Verdict(NamedTuple):
    """What became of an edit, and the first error that the prover found."""

    word: str
    error: str = ""


class Replacement(NamedTuple):
    """A file of a crate, and a text in it that gives way to another."""

    file: str
    old: str
    new: str


def replacements(edit: Path) -> List[Replacement]:
    """What an .edit file asks for: a 'file:' line holds for the 'old:' and 'new:' pairs behind it."""
    made, file, old = [], "", ""
    for line in edit.read_text(encoding="utf-8").splitlines():
        if line.startswith("file: "):
            file = line[6:]
        elif line.startswith("old: "):
            old = line[5:]
        elif line.startswith("new:"):
            made.append(Replacement(file, old, line[4:].removeprefix(" ")))
    return made


def replaced(text: str, old: str, new: str) -> str:
    """A text with another for a part that stands in it once."""
    if text.count(old) != 1:
        raise ValueError(f"'{old}' stands {text.count(old)} times")
    return text.replace(old, new)


def named(one: str, other: str):
    """Gives a file of what was checked, which is replaced and never written into, a second name; any other is copied."""
    try:
        if one.endswith(".oantt") or f"/{LIBRARY}/" in one:
            os.link(one, other)
            return
    except OSError:
        pass
    shutil.copy2(one, other)


def copied(root: Path, place: Path, crates: List[str]) -> Path:
    """The repository's crates as they are now, with the libraries that are proved and what was checked of some crates."""
    place.mkdir(parents=True)
    shutil.copy(root / "crates.txt", place)
    shutil.copytree(root / "crates", place / "crates", ignore=shutil.ignore_patterns("out"))
    for crate in (root / "crates").iterdir():
        for kept in [LIBRARY] + [KEPT] * (crate.name in crates):
            if (crate / kept).is_dir():
                shutil.copytree(crate / kept, place / "crates" / crate.name / kept, copy_function=named)
    return place


class Copy:
    """A copy of the crates for edits of one of them, of code or of definitions."""

    def __init__(self, source: Path, place: Path, crate: str, of_definitions: bool = False):
        self.top, self.of_definitions = place, of_definitions
        shutil.rmtree(place, ignore_errors=True)
        copied(source, place, [crate])

    def prime(self, crate: str, limit: int):
        """Checks a crate as it is, and keeps what was checked for every edit of it."""
        verdict = self.check(crate, limit)
        if verdict.word != SURVIVED:
            raise RuntimeError(f"{crate} is {verdict.word} as it is: {verdict.error}")
        self.kept = self.top / "kept"
        shutil.move(self.checked(crate), self.kept)

    def checked(self, crate: str) -> Path:
        return self.top / "crates" / crate / KEPT

    def verdict(self, crate: str, wanted: List[Replacement], limit: int) -> Verdict:
        """What the prover says of a crate with these replacements."""
        own = self.top / "crates" / crate
        files = {part.file: (own / part.file).read_text(encoding="utf-8") for part in wanted}
        texts = dict(files)
        for part in wanted:
            texts[part.file] = replaced(texts[part.file], part.old, part.new)
        shutil.rmtree(self.checked(crate), ignore_errors=True)
        shutil.copytree(self.kept, self.checked(crate), copy_function=named)
        try:
            for file, text in texts.items():
                (own / file).write_text(text, encoding="utf-8")
            verdict = self.check(crate, limit)
            if verdict.word == SURVIVED and (own / "src/main.rt").exists():
                verdict = self.output(crate, limit)
            return verdict
        finally:
            for file, text in files.items():
                (own / file).write_text(text, encoding="utf-8")

    def check(self, crate: str, limit: int) -> Verdict:
        status, said, _ = self.rt(["check", "--jobs", "1"], crate, limit)
        if status == 0 and "\nlogic=proved" in said:
            return Verdict(SURVIVED)
        if "\nlogic=not-proved" in said and not (self.of_definitions and NOT_CHECKED.search(said)):
            return Verdict(REFUSED, self.first_error(said))
        return Verdict(INVALID if status == 1 else OPEN, self.first_error(said))

    def first_error(self, said: str) -> str:
        """The first error, or the first function without a proof where the prover had made the proof by itself, not for a callee's sake."""
        errors = [line for line in said.splitlines() if ": error" in line]
        unproved = [line for line in said.splitlines() if line.startswith("fn ") and not line.endswith(": proved")]
        unproved.sort(key=lambda line: "did not prove" not in line)
        return next(iter(errors + unproved), "").removeprefix("./")[:300]

    def output(self, crate: str, limit: int) -> Verdict:
        """Whether a program that is proved still writes what its file `stdout` has and ends well."""
        own = self.top / "crates" / crate
        (own / "out" / crate).unlink(missing_ok=True)
        status, said, wrote = self.rt(["run", "--jobs", "1"], crate, limit, own / "stdin")
        if status is None or not (own / "out" / crate).exists():
            return Verdict(OPEN, self.first_error(said))
        wanted = (own / "stdout").read_bytes() if (own / "stdout").exists() else b""
        return Verdict(SURVIVED if (status, wrote) == (0, wanted) else RAN)

    def rt(self, words: List[str], crate: str, limit: int, given: Optional[Path] = None):
        """The exit status of a command in a crate's folder, what it said, and what a program that it ran wrote, read from a file."""
        with open(given if given and given.exists() else os.devnull, "rb") as read:
            run = RUNNING.started(["rt", *words], self.top / "crates" / crate, read, words[0] == "run")
        with run:
            try:
                wrote, said = run.communicate(timeout=limit)
                return run.returncode, (wrote if said is None else said).decode("utf-8", "replace"), wrote
            except subprocess.TimeoutExpired:
                os.killpg(run.pid, signal.SIGKILL)
                return None, "", b""


class Running:
    """The checks that run now, each with all that it starts in a group of its own, so that none outlives the command."""

    def __init__(self):
        self.groups, self.lock, self.stopped = [], threading.Lock(), False

    def started(self, words: List[str], folder: Path, read, apart: bool) -> subprocess.Popen:
        """Starts a command; what it says as errors is kept apart from what it writes, or among that."""
        streams = {"stdin": read, "stdout": subprocess.PIPE, "stderr": subprocess.PIPE if apart else subprocess.STDOUT}
        with self.lock:
            if self.stopped:
                raise RuntimeError("stopped")
            run = subprocess.Popen(words, cwd=folder, start_new_session=True, **streams)
            self.groups = [other for other in self.groups if other.poll() is None] + [run]
            return run

    def stop(self):
        with self.lock:
            self.stopped = True
            for run in self.groups:
                if run.poll() is None:
                    os.killpg(run.pid, signal.SIGKILL)


RUNNING = Running()
