"""How wrong bodies are read and judged, and what the sums in their record are made of, without the prover."""

import tempfile
from pathlib import Path
from types import SimpleNamespace
from typing import Any

from geanmarbles.checks.units.test_etcd import raised
from geanmarbles.checks.wrong_bodies.checks import Rejected, Said
from geanmarbles.checks.wrong_bodies.edits import (
    BadEdit,
    Edit,
    Fault,
    declared_at,
    function_around,
    parsed,
    read_edits,
    without,
)
from geanmarbles.checks.wrong_bodies.exports import outline_of, sum_of_exports
from geanmarbles.checks.wrong_bodies.record import JUDGE, Record, logic_of
from geanmarbles.checks.wrong_bodies.refusals import Asked, Control, Refusal, said_of
from geanmarbles.checks.wrong_bodies.rounds import Verdict, judged
from geanmarbles.repository.sources import sum_of_sources

SOURCE = """\
/// The number after another.
pub fn after(n: u16) -> u32
    ensures { result ≡ n + 1 }
{
    1 + u32::from(n) // "}"
}

pub const fn two() -> u32 {
    2
}

trait Twice {
    fn twice(&self) -> u32 {
        2
    }
}
"""
ANSWERS = """\
use Rattle.sample.proofs.after.Goals as goal

pub returns : goal.returns
returns c = search

pub start : goal.start
start c = search
"""
# What a check says of three functions.
SAYS = """\
fn sample::after: no proof: expected answers in ./proofs/after/Answers.antt; `search` did not prove `returns`, `start`
fn sample::before: proved
fn sample::other: no proof: it calls `after`
./proofs/other/Answers.antt:4:1: error: names `gone`
  that isn't there
logic=proved functions=3
"""


def sample_in(folder: str) -> Any:
    """A crate in a folder, with nothing below it."""
    return SimpleNamespace(name="sample", folder=folder, of_kit=["std"], below=list)


def edit_of(function: str) -> Edit:
    return Edit("sample", "an_edit", function, [("src/lib.rt", "1 +", "2 +")])


def made(folder: str, **texts: str) -> str:
    """A crate's folder, with these sources of functions' proofs and its own."""
    for name, text in texts.items():
        path = Path(folder, *name.split("__")).with_suffix(".antt" if name.startswith("proofs") else ".rt")
        path.parent.mkdir(parents=True, exist_ok=True)
        path.write_text(text, encoding="utf-8")
    return folder


def test_an_outline_has_no_bodies_but_those_that_can_be_seen() -> None:
    outline = outline_of(SOURCE)
    assert "u32::from" not in outline and "ensures { result ≡ n + 1 }" in outline
    assert outline.count("        2\n") == 1 and "two() -> u32 {\n    2\n}" in outline


def test_sums_change_with_what_is_read() -> None:
    """Neither layout nor, above a library, its bodies and the proofs of its functions change a sum; a contract does."""
    sums = []
    for source, answers in (
        (SOURCE, ANSWERS),
        (SOURCE.replace("    1 +", "        1 +"), ANSWERS),
        (SOURCE.replace("1 +", "2 +"), ANSWERS),
        (SOURCE, ANSWERS.replace("search", "rules")),
        (SOURCE.replace("n + 1", "n + 2"), ANSWERS),
    ):
        with tempfile.TemporaryDirectory() as folder:
            made(folder, src__lib=source, proofs__after__Answers=answers)
            sums.append((sum_of_sources(folder), sum_of_exports(folder)))
    own, given = zip(*sums)
    assert own[0] == own[1] and len(set(own)) == 4
    assert given[0] == given[1] == given[2] == given[3] != given[4]


def test_a_place_is_in_the_body_that_is_around_it() -> None:
    assert function_around(SOURCE, SOURCE.index("1 + u32")) == ("after", 1, None)
    assert function_around(SOURCE, SOURCE.index("n + 1")) is None
    assert function_around(SOURCE, SOURCE.index("trait")) is None
    cycle = "#[cycle(walk)]\n" + SOURCE.partition("\n")[2]
    assert function_around(cycle, cycle.index("1 + u32")) == ("after", 1, "walk")


def test_an_answer_is_set_aside_with_all_its_lines() -> None:
    assert [declared_at(ANSWERS, it) for it in (1, 3, 4, 6)] == [None, "returns", "returns", "start"]
    assert "goal.returns" not in without(ANSWERS, {"returns"}) and "goal.start" in without(ANSWERS, {"returns"})
    assert without(ANSWERS, {None, "returns"}) == ""


def test_an_edit_is_refused_by_goals_of_its_own_function_alone() -> None:
    said = Said(SAYS)
    refused = judged(edit_of("after"), said)
    assert isinstance(refused, Refusal) and refused.goals == ["returns", "start"]
    assert refused.file == "proofs/after/Answers.antt" and not refused.values
    proved = judged(edit_of("before"), said)
    assert isinstance(proved, Verdict) and not proved.refused and proved.said.startswith("NOT REFUSED")
    # A function that isn't proved for what it calls, or for an answer that fails, shows nothing.
    assert judged(edit_of("other"), said) is None
    assert [it.line for it in said.faults(edit_of("other"))] == [4]
    for bad in (judged(edit_of("nowhere"), said), judged(edit_of("after"), Rejected("it doesn't compile"))):
        assert isinstance(bad, Verdict) and not bad.refused and bad.said.startswith("BAD EDIT")


def test_what_a_refusal_shows_is_the_strongest_that_was_seen() -> None:
    edit, file = edit_of("after"), "proofs/after/Answers.antt"
    refusal = Refusal(edit, file, ["returns", "returns-clause-less"], {"returns": "`n` = 1"})
    by = "refused by after: not proved: `returns`"
    less = "refused by after, clause less: not proved: `returns-clause-less`"
    both = "refused by after, clause less: not proved: `returns`, `returns-clause-less`"
    assert said_of(refusal, Control()) == f"disproved at `n` = 1: {by}"
    # Values at which the goal would be false of the right body too show nothing.
    weak = Control(["returns-clause-less"], ["returns"], ["returns"])
    assert said_of(refusal, weak) == f"control: {less}"
    assert said_of(refusal, Control((), ["returns"], ["returns"])) == f"hand proof alone: {both}"
    assert said_of(refusal._replace(values={}), Control()) == f"new goal alone: {both}"
    edit.set_aside([Fault(file, 4, "two\n  lines")], {file: ANSWERS}, lambda it: it)
    said = said_of(refusal, Control((), ["returns"], ["returns"]))
    assert said == f"hand proof alone: {both}; the answer that was set aside: two lines"


def test_a_control_is_without_the_answers_of_the_goals() -> None:
    with tempfile.TemporaryDirectory() as folder:
        crate, file = sample_in(made(folder, proofs__after__Answers=ANSWERS)), "proofs/after/Answers.antt"
        asked = Asked(crate, file)
        asked.add(Refusal(edit_of("after"), file, ["start", "new"], {}))
        assert "goal.start" not in asked.without_answers() and "pub returns" in asked.without_answers()
        assert asked.by_hand == {"start"} and asked.by_name() == f"{ANSWERS}\npub new : goal.new\nnew c = ?\n"
        assert "use Rattle.sample.proofs.other.Goals" in Asked(crate, "proofs/other/Answers.antt").text


def test_an_edit_has_to_apply() -> None:
    head = "function: after\nfile: src/lib.rt\n"
    with tempfile.TemporaryDirectory() as folder:
        made(folder, src__lib=SOURCE)
        path = Path(folder, "it.edit")
        path.write_text(f"{head}old: 1 + u32\nnew: 2 + u32\n", encoding="utf-8")
        edit = read_edits("sample", folder, path)
        assert (edit.label, edit.in_bodies, edit.bodies) == ("sample/it", True, {("src/lib.rt", 1)})
        path.write_text(f"{head}old: n + 1\nnew: n + 2\n", encoding="utf-8")
        assert not read_edits("sample", folder, path).in_bodies
        for text in ("", head, f"{head}old: 2\nnew: 3\n", f"{head}old: nowhere\nnew: 3\n", f"{head}new: 3\n"):
            path.write_text(text, encoding="utf-8")
            raised(BadEdit, lambda: read_edits("sample", folder, path))


def test_an_edit_says_what_it_does_and_what_shows_it() -> None:
    body = "function: after\nfile: src/lib.rt\nold: 1 +\nnew: 2 +\n"
    with tempfile.TemporaryDirectory() as folder:
        path = Path(folder, "it.edit")
        for named, shown in (("It counts two.", None), (None, "row counts: one"), (None, "clause less, at 0")):
            heads = f"named: {named}\n" * bool(named) + f"shown: {shown}\n" * bool(shown)
            path.write_text(heads + body, encoding="utf-8")
            edit = parsed("sample", path)
            assert (edit.named, edit.shown) == (named, shown)
        for head in ("named:\n", "shown: it is wrong\n", "shown: clause less\n", "named: a\nnamed: b\n", "other: a\n"):
            path.write_text(head + body, encoding="utf-8")
            raised(BadEdit, lambda: parsed("sample", path))


def test_a_line_counts_under_the_number_before() -> None:
    """No refusal lapses because the number of the rules is raised; each is renewed when it is asked for. Two kits of
    one logic share a record; of another logic no refusal is known."""
    edits = [edit_of("after"), edit_of("before")]
    edits[1].label = "sample/another"
    with tempfile.TemporaryDirectory() as folder:
        crate, path = sample_in(made(folder, src__lib=SOURCE)), Path(folder, "refused.txt")
        record = Record(path, b"rattle-kit-1 logic abc")
        one, other = (record.sum_of(record.basis(crate, number), it) for number, it in zip((1, JUDGE), edits))
        lines = f"# a head\n{one} sample/an_edit refused by it\n{other} sample/another {JUDGE} control: by it\n"
        path.write_text(lines, encoding="utf-8")
        record = Record(path, b"rattle-kit-2 logic abc")
        assert not record.lacks(crate, edits) and record.lacks(crate, edits, [JUDGE]) == edits[:1]
        assert {kind: len(of) for kind, of in record.kinds(edits).items()} == {
            "not seen under rules 2": 1,
            "control": 1,
        }
        assert Record(path, b"rattle-kit-2 logic abd").lacks(crate, edits) == edits
        record.keep(record.basis(crate), crate, edits, [Verdict(True, "sample/an_edit", "control: by it")])
        assert not Record(path, b"kit logic abc").lacks(crate, edits, [JUDGE])
    assert logic_of(b"rattle-kit-1 logic abc\n") == b"abc"
