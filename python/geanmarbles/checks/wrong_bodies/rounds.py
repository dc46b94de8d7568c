"""Rounds: which edits share a check, and what each check shows of them."""

from collections.abc import Iterable, Mapping, Sequence
from pathlib import Path
from typing import NamedTuple

from geanmarbles.checks.wrong_bodies.checks import NoFunction, Rejected, Said, Toolchain
from geanmarbles.checks.wrong_bodies.edits import Edit
from geanmarbles.checks.wrong_bodies.refusals import Control, Refusal, controls_of, said_of
from geanmarbles.repository.toolchain import Crate

# How often an edit is tried in company before it is tried alone, not counted what only sets answers aside.
TRIES = 2


class Verdict(NamedTuple):
    """Whether an edit was refused, its label, and what refused it or why it doesn't count as refused."""

    refused: bool
    label: str
    said: str

    def __str__(self) -> str:
        return f"{'' if self.refused else 'FAILED: '}{self.label}: {self.said}"


class Round:
    """Edits of a crate that can share one check, and the texts with all of them made."""

    def __init__(self, crate: Crate) -> None:
        self.crate = crate
        self.edits: list[Edit] = []
        self.texts: dict[str, str] = {}

    def read(self, file: str) -> str:
        return Path(self.crate.folder, file).read_text(encoding="utf-8")

    @staticmethod
    def collide(one: Edit, other: Edit) -> bool:
        in_one_recursion = one.cycle is not None and one.cycle == other.cycle
        return one.function == other.function or in_one_recursion or not one.bodies.isdisjoint(other.bodies)

    def takes(self, edit: Edit) -> bool:
        """Adds an edit, if it changes a function, bodies and a recursion of its own and its texts are still there."""
        if any(self.collide(it, edit) for it in self.edits):
            return False
        texts = edit.applied(self.texts, self.read)
        if texts is None:
            return False
        self.texts = texts
        self.edits.append(edit)
        return True


def round_of(crate: Crate, edits: Iterable[Edit]) -> Round:
    made = Round(crate)
    for edit in edits:
        made.takes(edit)
    return made


def try_round(toolchain: Toolchain, made: Round, kept: str) -> list[tuple[Edit, Said | Rejected]]:
    """What a check of a round says of its edits, as pairs of an edit and what was said, halved if it can't be read."""
    try:
        said = toolchain.check(made.crate, made.texts, [it.function for it in made.edits], kept)
        return [(it, said) for it in made.edits]
    except Rejected as fault:
        named = [it for it in made.edits if isinstance(fault, NoFunction) and it.function == str(fault)]
        if named:
            others = round_of(made.crate, [it for it in made.edits if it not in named])
            found: list[tuple[Edit, Said | Rejected]] = [
                (it, Rejected(f"the crate has no function {fault}")) for it in named
            ]
            return found + (try_round(toolchain, others, kept) if others.edits else [])
        if len(made.edits) == 1:
            return [(made.edits[0], fault)]
        half = len(made.edits) // 2
        halves = round_of(made.crate, made.edits[:half]), round_of(made.crate, made.edits[half:])
        return [pair for it in halves for pair in try_round(toolchain, it, kept)]


def judged(edit: Edit, said: Said | Rejected) -> Verdict | Refusal | None:
    """What a check says of an edit, or None if that shows nothing.

    An edit is refused by the goals that the prover tried by itself and did not prove. An answer that fails shows
    nothing: the goal may hold, and the answer not fit any more what the edit made of the goal."""
    if isinstance(said, Rejected):
        return Verdict(False, edit.label, f"BAD EDIT: the prover can't be asked: {said}")
    verdict = said.verdict(edit.crate, edit.function)
    if verdict is None:
        return Verdict(False, edit.label, f"BAD EDIT: the check has no function {edit.function}")
    if verdict == "proved":
        return Verdict(False, edit.label, f"NOT REFUSED: {edit.function} is still proved")
    file, goals = said.unproved(edit.crate, edit.function)
    return Refusal(edit, file, goals, said.values_of(file)) if goals else None


def not_shown(edit: Edit, said: Said) -> Verdict:
    why = "; ".join(" ".join(it.said.split())[:200] for it in said.faults(edit)) or said.verdict(
        edit.crate, edit.function
    )
    return Verdict(
        False, edit.label, f"NOT SHOWN: {edit.function} is not proved, but by no goal of its contract: {why}"
    )


def tried_in_rounds(
    toolchain: Toolchain, crate: Crate, edits: Sequence[Edit], kept: str
) -> tuple[list[Verdict], list[Refusal]]:
    """Tries a crate's edits, in as few rounds as show them all. The answers of an edit's function that fail are set
    aside for the next round, where the prover tries their goals by itself."""
    verdicts: list[Verdict] = []
    refusals: list[Refusal] = []
    tries = {it.label: 0 for it in edits}
    left = [it for it in edits if it.in_bodies]
    alone = [it for it in edits if not it.in_bodies]
    while left or alone:
        made = round_of(crate, left or alone[:1])
        for edit, said in try_round(toolchain, made, kept):
            (left if edit in left else alone).remove(edit)
            found = judged(edit, said)
            if (
                found is None
                and isinstance(said, Said)
                and not edit.set_aside(said.faults(edit), made.texts, made.read)
            ):
                tries[edit.label] += 1
                found = not_shown(edit, said) if len(made.edits) == 1 else None
            if isinstance(found, Refusal):
                refusals.append(found)
            elif found:
                verdicts.append(found)
            elif edit.in_bodies and tries[edit.label] < TRIES:
                left.append(edit)
            else:
                alone.append(edit)
    return verdicts, refusals


def try_edits(
    toolchain: Toolchain, crate: Crate, edits: Sequence[Edit], kept: str, known: Mapping[str, str]
) -> list[Verdict]:
    """The verdicts on a crate's edits. Those of which it is known by their labels what their refusal shows have no
    control."""
    verdicts, refusals = tried_in_rounds(toolchain, crate, edits, kept)
    controls = controls_of(toolchain, crate, [it for it in refusals if it.edit.label not in known], kept)
    for it in refusals:
        said = known.get(it.edit.label) or said_of(it, controls.get(it.file, Control()))
        verdicts.append(Verdict(True, it.edit.label, said))
    return verdicts
