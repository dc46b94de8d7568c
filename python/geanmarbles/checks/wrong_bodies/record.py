"""The refusals that the repository records, in refused.txt: an edit is tried again only once something that its check
reads has changed."""

import hashlib
import os
import re
import tempfile
import threading
from collections.abc import Iterable, Sequence
from pathlib import Path
from typing import NamedTuple

from geanmarbles.checks.wrong_bodies.checks import Toolchain
from geanmarbles.checks.wrong_bodies.edits import Edit
from geanmarbles.checks.wrong_bodies.exports import sum_of_exports
from geanmarbles.checks.wrong_bodies.rounds import Verdict, try_edits
from geanmarbles.paths import TESTS
from geanmarbles.repository.crates import locked
from geanmarbles.repository.sources import sum_of_library
from geanmarbles.repository.toolchain import Crate

FILE = TESTS / "wrong_bodies" / "refused.txt"
# Which rules say what counts as a refusal, and what it shows. It is raised by one if these change. They are in
# checks.py, edits.py, refusals.py and rounds.py: units/test_judge.py has the sum of their syntax trees.
JUDGE = 2
# The numbers under which lines count: that of the rules before stays until all lines have been renewed, by
# tests/wrong_bodies/run --renew.
COUNTED = (1, JUDGE)
HEAD = """\
# The wrong bodies that the prover has refused. Each line has a sum of all that the wrong body's check reads, its name,
# the number of the rules under which it was seen (1 if there is none), what the refusal shows, and the clause, if it
# has a name, and the goals that refused it. Written by tests/wrong_bodies/run, and by nobody else.
"""
LINE = re.compile(r"([0-9a-f]{32}) (\S+) (?:(\d+) )?(.*)")
# The kinds of refusals that show nothing but that no answer fits: of these an edit has a line `shown:`.
WEAK = ("hand proof alone", "new goal alone")


class Line(NamedTuple):
    """What is recorded of an edit: its sum, the number of the rules, what its refusal shows and what refused it."""

    sum: str
    number: int
    said: str

    @property
    def kind(self) -> str:
        """What the refusal shows, as it is counted."""
        return (
            self.said.partition(":")[0].partition(" at ")[0]
            if self.number == JUDGE
            else f"not seen under rules {JUDGE}"
        )


def logic_of(identity: bytes) -> bytes:
    """What the toolchain says of its logic, as in `rattle-kit-13b logic dac8208d650f15bf`: two kits of one logic know
    one notion of a proof, so what can't be proved in one can't be in the other. An identity of another form is taken
    whole."""
    return identity.strip().rpartition(b" logic ")[2]


def hashed(*what: object) -> str:
    return hashlib.sha256(repr(what).encode()).hexdigest()[:32]


class Record:
    """The recorded refusals, by the edits' labels. Verdicts of other kinds aren't recorded. A sum depends neither on
    the machine nor on where the repository is."""

    def __init__(self, path: Path, identity: bytes) -> None:
        """The identity is the toolchain's."""
        self.path = path
        self.lock = threading.Lock()
        self.logic = logic_of(identity)
        self.refusals = self.read()

    def read(self) -> dict[str, Line]:
        lines = self.path.read_text(encoding="utf-8").splitlines() if self.path.is_file() else []
        found = (it.groups() for it in map(LINE.fullmatch, lines) if it)
        return {label: Line(sum_of, int(number or 1), said) for sum_of, label, number, said in found}

    def basis(self, crate: Crate, number: int = JUDGE) -> str:
        """A sum of the toolchain's logic, the number of this runner's rules, the crate's sources and what is read of
        those below."""
        below = [(it.name, sorted(it.of_kit), sum_of_exports(it.folder)) for it in crate.below()]
        return hashed((self.logic, number), below, crate.name, sorted(crate.of_kit), sum_of_library(crate.folder))

    @staticmethod
    def sum_of(basis: str, edit: Edit) -> str:
        return hashed(basis, edit.label, edit.function, edit.pairs)

    def known(self, crate: Crate, edits: Iterable[Edit], numbers: Sequence[int] = COUNTED) -> dict[str, str]:
        """What is recorded of those of a crate's edits whose refusals were seen over just what a check would read now,
        under rules of one of these numbers."""
        bases = {it: self.basis(crate, it) for it in numbers}
        with self.lock:
            lines = [(it, line) for it in edits if (line := self.refusals.get(it.label)) and line.number in bases]
        return {it.label: line.said for it, line in lines if line.sum == self.sum_of(bases[line.number], it)}

    def lacks(self, crate: Crate, edits: Sequence[Edit], numbers: Sequence[int] = COUNTED) -> list[Edit]:
        """Those of a crate's edits of which no refusal is known."""
        known = self.known(crate, edits, numbers)
        return [it for it in edits if it.label not in known]

    def kinds(self, edits: Iterable[Edit]) -> dict[str, list[Edit]]:
        """The recorded ones of these edits, by what their refusals show."""
        found: dict[str, list[Edit]] = {}
        for edit in edits:
            if line := self.refusals.get(edit.label):
                found.setdefault(line.kind, []).append(edit)
        return found

    def keep(self, basis: str, crate: Crate, edits: Iterable[Edit], verdicts: Iterable[Verdict]) -> None:
        """Records of a crate's edits those that the verdicts refuse, drops those that they don't and those that aren't
        there any more, and writes the file."""
        found = {it.label: self.sum_of(basis, it) for it in edits}
        with self.lock, locked(self.path.parent):
            # (another run may have written what it saw of another crate)
            self.refusals = self.read()
            for refused, label, said in verdicts:
                self.refusals.pop(label, None)
                if refused:
                    self.refusals[label] = Line(found[label], JUDGE, said)
            for label in [it for it in self.refusals if it.partition("/")[0] == crate.name and it not in found]:
                del self.refusals[label]
            self.write()

    def write(self) -> None:
        """Writes the file, sorted by the edits' names, apart first and then renamed, so that nobody reads half of
        it."""
        lines = [f"{it.sum} {label} {it.number} {it.said}\n" for label, it in sorted(self.refusals.items())]
        with tempfile.NamedTemporaryFile("w", dir=self.path.parent, delete=False, encoding="utf-8") as file:
            file.write(HEAD + "".join(lines))
        os.chmod(file.name, 0o644)
        os.replace(file.name, self.path)


def try_and_record(
    toolchain: Toolchain,
    crate: Crate,
    edits: Sequence[Edit],
    tried: Sequence[Edit],
    kept: str,
    record: Record,
    anew: bool = False,
) -> list[Verdict]:
    """The verdicts on some of a crate's edits; the record then has those refused. Of an edit that it has already, under
    the same rules, it keeps what the refusal shows, unless that is to be seen anew."""
    basis = record.basis(crate)
    known = {} if anew else record.known(crate, tried, [JUDGE])
    verdicts = try_edits(toolchain, crate, tried, kept, known)
    # (if files changed meanwhile, it isn't known of which the verdicts are)
    if record.basis(crate) == basis:
        record.keep(basis, crate, edits, verdicts)
    return verdicts
