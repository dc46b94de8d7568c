"""What a refusal shows: a goal that the prover doesn't prove may still be true.

It shows most if the prover finds values at which the goal is false. Else there is a control: the prover proves the goal
of the unedited function by itself, without an answer. If neither is so, a hand-written answer is all that proved the
goal before, or the goal wasn't there; that it isn't proved then says only that nobody has written an answer for it."""

import re
from collections.abc import Collection, Iterable, Mapping
from pathlib import Path
from typing import NamedTuple

from geanmarbles.checks.wrong_bodies.checks import NoFunction, Said, Toolchain
from geanmarbles.checks.wrong_bodies.edits import Edit, declarations, without
from geanmarbles.repository.toolchain import Crate

# The clause that a goal's name says, as in `returns-in-Some-clause-value`.
CLAUSE = re.compile(r"-clause-(\w+)")
# What is said of an answer that reckons, at which values what it states is false.
STEP = re.compile(r"All of that holds, and the goal fails, at (.*?)\. It read ")


class Refusal(NamedTuple):
    """The goals that refuse an edit, the file where an answer would be, and values at which some are false."""

    edit: Edit
    file: str
    goals: list[str]
    values: Mapping[str, str]


class Control(NamedTuple):
    """Of the goals that refuse edits of a function, those that the unedited function has and that the prover proves
    there by itself; those that have an answer there; and those of which it finds values there too, at which they would
    be false: what it finds under an edit then shows nothing."""

    proved: Collection[str] = ()
    by_hand: Collection[str] = ()
    false: Collection[str] = ()


class Asked:
    """What is asked of an unedited function, or of all of a recursion: the goals that refuse edits of it."""

    def __init__(self, crate: Crate, file: str) -> None:
        self.file = file
        path = Path(crate.folder, file)
        module = ".".join(Path(file).parent.parts)
        head = f"use Rattle.{crate.name}.{module}.Goals as goal\n"
        self.text = path.read_text(encoding="utf-8") if path.is_file() else head
        self.functions: set[str] = set()
        # The goals that are answered, and the others; those proved by the prover itself, and those with values.
        self.by_hand: set[str] = set()
        self.others: set[str] = set()
        self.proved: set[str] = set()
        self.false: Collection[str] = ()

    def add(self, refusal: Refusal) -> None:
        answered = {name for name, _ in declarations(self.text) if name}
        self.functions.add(refusal.edit.function)
        self.by_hand |= answered & set(refusal.goals)
        self.others |= set(refusal.goals) - answered

    def without_answers(self) -> str:
        """The answers without those of the goals, which the prover then tries by itself."""
        return without(self.text, self.by_hand)

    def by_name(self) -> str:
        """The answers with a hole for each of the other goals: an error says which of them aren't there. The prover
        proves each that is there, since the function is proved."""
        return self.text + "".join(f"\npub {it} : goal.{it}\n{it} c = ?\n" for it in sorted(self.others))

    def see_without_answers(self, said: Said, crate: Crate) -> None:
        found = [(said.verdict(crate.name, it), said.unproved(crate.name, it)[1]) for it in self.functions]
        if all(verdict == "proved" or unproved for verdict, unproved in found):
            self.proved |= self.by_hand.difference(*(unproved for _, unproved in found))
        self.false = said.values_of(self.file)


def checked(toolchain: Toolchain, crate: Crate, texts: Mapping[str, str], functions: set[str], kept: str) -> Said:
    """What a check of these functions says, but for those that the unedited crate doesn't have."""
    try:
        return toolchain.check(crate, texts, sorted(functions), kept)
    except NoFunction as fault:
        return checked(toolchain, crate, texts, functions - {str(fault)}, kept)


def controls_of(toolchain: Toolchain, crate: Crate, refusals: Iterable[Refusal], kept: str) -> dict[str, Control]:
    """The controls of the functions whose edits these are, by the files of their answers, in two checks."""
    asked: dict[str, Asked] = {}
    for refusal in refusals:
        asked.setdefault(refusal.file, Asked(crate, refusal.file)).add(refusal)
    if by_hand := [it for it in asked.values() if it.by_hand]:
        functions = set().union(*(it.functions for it in by_hand))
        said = checked(toolchain, crate, {it.file: it.without_answers() for it in by_hand}, functions, kept)
        for it in by_hand:
            it.see_without_answers(said, crate)
    if others := [it for it in asked.values() if it.others]:
        functions = set().union(*(it.functions for it in others))
        said = checked(toolchain, crate, {it.file: it.by_name() for it in others}, functions, kept)
        for it in others:
            it.proved |= it.others.difference(said.absent(it.file))
    return {file: Control(it.proved, it.by_hand, it.false) for file, it in asked.items()}


def refused_by(edit: Edit, goals: Collection[str]) -> str:
    """What is said of an edit that goals refuse, with the names of the clauses that they are of, if there are any."""
    clauses = sorted({it for goal in goals for it in CLAUSE.findall(goal)})
    by = f"{edit.function}, clause{'s' * (len(clauses) > 1)} {', '.join(clauses)}" if clauses else edit.function
    return f"refused by {by}: not proved: {', '.join(f'`{it}`' for it in goals)}"


def said_of(refusal: Refusal, control: Control) -> str:
    """What a refusal shows, and what refused."""
    edit, goals = refusal.edit, refusal.goals
    aside = {name: said for names in edit.aside.values() for name, said in names.items()}
    if false := [it for it in goals if it in refusal.values and it not in control.false]:
        return f"disproved at {refusal.values[false[0]]}: {refused_by(edit, false)}"
    if proved := [it for it in goals if it in control.proved]:
        return f"control: {refused_by(edit, proved)}"
    # A step of the old answer, of which it says so, is as good as the goal that rests on it.
    for goal in goals:
        if found := STEP.search(aside.get(goal, "")):
            return f"disproved at {found[1]}, in the old answer: {refused_by(edit, [goal])}"
    if not any(it in control.by_hand for it in goals):
        return f"new goal alone: {refused_by(edit, goals)}"
    said = next((aside[it] for it in goals if it in aside), next(iter(aside.values()), ""))
    return f"hand proof alone: {refused_by(edit, goals)}" + f"; the answer that was set aside: {said}" * bool(said)
