"""Edits whose verdicts are known, of a crate made for them: the runner must tell what refuses an edit, and try it again
just when something that the refusal rests on has changed."""

import argparse
import json
import re
import subprocess
import tempfile
from collections.abc import Callable, Iterable, Iterator
from pathlib import Path

from geanmarbles.checks.wrong_bodies.checks import Toolchain
from geanmarbles.checks.wrong_bodies.record import Record
from geanmarbles.checks.wrong_bodies.rounds import Verdict
from geanmarbles.checks.wrong_bodies.trying import Run
from geanmarbles.paths import ROOT
from geanmarbles.repository.reading import read_of
from geanmarbles.repository.sources import files_of
from geanmarbles.repository.toolchain import Crate

FILES = {
    "crates.txt": "numbers:\nsample: numbers\n",
    "crates/numbers/src/lib.rt": """\
//! A function of the library below.
#![tactic(auto)]

ghost use Rattle.std.specs.Prelude.{◌≡◌, ◌+◌};

/// The number after another.
pub fn next(n: u16) -> u32
    ensures { result ≡ n + 1 }
{
    1 + u32::from(n)
}
""",
    "crates/sample/src/lib.rt": """\
//! Small functions, of which edits are tried.
#![tactic(auto)]

use numbers::next;

ghost use Rattle.std.specs.Prelude.{◌≡◌, ◌+◌, ◌≤◌, IfSome};
ghost use Rattle.sample.specs.Counts.{fourth};

/// Whether a number is one of the first nine after 0.
pub fn is_digit(n: u8) -> bool
    ensures { result ≡ result }
{
    let some = n > 0;
    some && n < 10
}

/// The number before another, if there is one.
pub fn before(n: u8) -> Option<u8>
    ensures less { IfSome result (λ less. less + 1 ≡ n) }
    ensures within { IfSome result (λ less. less ≤ n) }
{
    let follows = n > 0;
    if follows { Some(n - 1) } else { None }
}

/// The number after another.
pub fn after(n: u8) -> u16
    ensures { result ≡ n + 1 }
{
    u16::from(n) + 1
}

/// The third number after another.
pub fn third_after(n: u8) -> u32
    ensures { result ≡ n + 3 }
{
    let last = next(after(n));
    1 + last
}

/// The fourth number after another.
pub fn fourth_after(n: u8) -> u16
    ensures { result ≡ fourth n }
{
    u16::from(n) + 4
}

/// The same number.
pub fn fourth_again(n: u8) -> u16
    ensures { result ≡ fourth n }
{
    fourth_after(n)
}
""",
    "crates/sample/specs/Lib.antt": "pub mod Counts\n",
    "crates/sample/specs/Counts.antt": """\
use Rattle.std.specs.Prelude.{ℕ, ◌+◌}

-- the fourth number after another
unfoldable pub fourth : ℕ → ℕ
fourth n = n + 4
""",
    "crates/sample/proofs/Lib.antt": "",
    # The prover doesn't look into the definition by itself.
    "crates/sample/proofs/fourth_after/Answers.antt": """\
use Rattle.std.proofs.Common.{rules, arith, ◌≡◌, ◌+◌, ℕ}
use Rattle.sample.specs.Counts.{fourth}
use Rattle.sample.proofs.fourth_after.Goals as goal

is_fourth : (m n : ℕ) → m ≡ n → m + 4 ≡ fourth n
unfolding fourth
is_fourth m n same = omega arith

pub returns : goal.returns
returns c = is_fourth c.from.result c.args.n (search rules)
""",
    # These files name goals by a local's name, as proof files do.
    "crates/sample/proofs/is_digit/Answers.antt": """\
use Rattle.std.proofs.Common.{rules}
use Rattle.sample.proofs.is_digit.Goals as goal

pub returns-then-some : goal.returns-then-some
returns-then-some c = search rules
""",
    "crates/sample/proofs/before/Answers.antt": """\
use Rattle.std.proofs.Common.{arith, ◌≡◌, ◌+◌, ◌-◌}
use Rattle.sample.proofs.before.Goals as goal

pub returns-then-follows-clause-less : goal.returns-then-follows-clause-less
returns-then-follows-clause-less c =
    let same : c.args.n - 1 + 1 ≡ c.args.n = omega arith in
    same
""",
}

# The name of each edit, what must be said of it, the function that it changes, and what becomes what.
EDITS: dict[str, tuple[str, str, dict[str, str]]] = {
    # A goal of another name, which holds: its answer names one that isn't there.
    "renames_a_local": (
        "NOT REFUSED",
        "is_digit",
        {"    let some =": "    let any =", "    some && n": "    any && n"},
    ),
    "is_let_through": ("NOT REFUSED", "is_digit", {"    some && n < 10": "    some && n < 11"}),
    # A goal that has become trivial: its answer is of what the goal was.
    "gives_up": ("NOT REFUSED", "before", {"follows { Some(n - 1) }": "follows { None }"}),
    "is_no_less": ("refused by before, clause less: not proved: ", "before", {"{ Some(n - 1) }": "{ Some(n) }"}),
    "counts_two": (
        "disproved at `c.from.result` = ",
        "after",
        {"    u16::from(n) + 1": "    u16::from(n) + 2"},
    ),
    "means_the_same": ("NOT REFUSED", "third_after", {"    1 + last": "    last + 1"}),
    # The prover proves the goal of the unedited function, and finds no values, since it doesn't look into `fourth`.
    "halves": (
        "control: refused by fourth_again: ",
        "fourth_again",
        {"    fourth_after(n)": "    fourth_after(n / 2)"},
    ),
    # The prover proved the goal by its answer alone.
    "counts_five": ("hand proof alone: refused by fourth_after: ", "fourth_after", {"(n) + 4": "(n) + 5"}),
}
NAMED = "is_no_less"
OPTIONS = argparse.Namespace(anew=False, renew=False, follow=None, lanes=1, from_nothing=False)


def text_of(stem: str) -> str:
    """The text of an edit of src/lib.rt."""
    _, function, changes = EDITS[stem]
    lines = ["named: It says that a number is less than itself."] * (stem == NAMED)
    lines += [f"function: {function}", "file: src/lib.rt"]
    for old, new in changes.items():
        lines += [f"old: {old}", f"new: {new}"]
    return "\n".join(lines) + "\n"


def sample_in(toolchain: Toolchain, room: str, stems: Iterable[str]) -> Crate:
    """The small crate, written below a folder, and these edits of it."""
    for path, text in FILES.items():
        file = Path(room, path)
        file.parent.mkdir(parents=True, exist_ok=True)
        file.write_text(text, encoding="utf-8")
    crate = next(it for it in toolchain.crates(room) if it.name == "sample")
    folder = Path(crate.folder, "wrong-bodies")
    folder.mkdir()
    for stem in stems:
        Path(folder, f"{stem}.edit").write_text(text_of(stem), encoding="utf-8")
    return crate


def tried(toolchain: Toolchain, crate: Crate, record: Record) -> list[Verdict]:
    """The verdicts on those edits that a run tries."""
    run = Run(OPTIONS, toolchain, record, [crate], {})
    untried = run.untried(crate)
    return run.tried(crate, untried) if untried else []


def verdicts_are_right(toolchain: Toolchain, room: str, record: Record) -> Iterator[Verdict]:
    """Whether each edit gets the verdict that it must get, the record has those that are refused, and the one with a
    name is tried though the record has it."""
    crate = sample_in(toolchain, f"{room}/one", EDITS)
    wanted = {f"sample/{stem}": said for stem, (said, *_) in EDITS.items()}
    for _, label, said in tried(toolchain, crate, record):
        yield Verdict(wanted.pop(label) in said, f"self-test: {label}", said)
    for label in wanted:
        yield Verdict(False, f"self-test: {label}", "no verdict")
    refused = {f"sample/{stem}" for stem, (said, *_) in EDITS.items() if said != "NOT REFUSED"}
    yield Verdict(set(record.refusals) == refused, "self-test: record", "has what was refused")


def names_are_tried(toolchain: Toolchain, crate: Crate, path: Path) -> Verdict:
    """Whether of edits that the record has, in another folder, the one with a name is tried, and its line stays."""
    before = path.read_text(encoding="utf-8")
    verdicts = tried(toolchain, crate, Record(path, toolchain.identity))
    well = [it.label for it in verdicts if it.refused] == [f"sample/{NAMED}"] and len(verdicts) == 1
    well = well and all(it in before for it in path.read_text(encoding="utf-8").splitlines())
    return Verdict(well, "self-test: a refusal is recorded", "wherever the repository is; a name is tried all the same")


def changed(path: Path, old: str, new: str) -> None:
    text = path.read_text(encoding="utf-8")
    if text.count(old) != 1:
        raise ValueError(f"{path} has the text {old!r} {text.count(old)} times")
    path.write_text(text.replace(old, new), encoding="utf-8")


def changes_are_noticed(toolchain: Toolchain, crate: Crate, path: Path) -> Iterator[Verdict]:
    """Whether a refusal that the record at a path has isn't tried again, and is once something that it rests on has
    changed: a body of the crate, a contract of the library below, the edit itself or the toolchain's logic. Neither a
    comment, nor a body below, nor the rest of the kit is anything that it rests on."""
    folder, below = Path(crate.folder), Path(crate.below()[0].folder)
    edit, kit = folder / "wrong-bodies/counts_two.edit", [toolchain.identity]
    other_kit = b"another-kit" + kit[0][kit[0].index(b" logic ") :]
    changes: list[tuple[bool, str, Callable[[], object]]] = [
        (False, "and isn't tried again", lambda: None),
        (False, "after a change of a comment", lambda: changed(folder / "src/lib.rt", "/// The third", "/// A third")),
        (True, "after a change of another body", lambda: changed(folder / "src/lib.rt", "1 + last", "last + 1")),
        (False, "after a change of a body below", lambda: changed(below / "src/lib.rt", "1 + u32", "0 + 1 + u32")),
        (True, "after a change of a contract below", lambda: changed(below / "src/lib.rt", "≡ n + 1", "≡ 1 + n")),
        (True, "after a change of the edit", lambda: changed(edit, "(n) + 2", "(n) + 3")),
        (False, "after a change of the kit alone", lambda: kit.append(other_kit)),
        (True, "after a change of the logic", lambda: kit.append(b"another-kit logic 0")),
    ]
    for again, what, change in changes:
        change()
        verdicts = tried(toolchain, crate, Record(path, kit[-1]))
        well = len(verdicts) == again and all(it.refused for it in verdicts)
        well = well and not Run(OPTIONS, toolchain, Record(path, kit[-1]), [crate], {}).untried(crate)
        yield Verdict(well, "self-test: a refusal is recorded", f"{what}{', tried again' if again else ''}")


def as_one(texts: Iterable[str]) -> str:
    """Tokens written as the toolchain and the sums both have them: one splits more, and has no quotes round a name."""
    return re.sub(r"[\s«»]", "", "".join(texts))


def readings_agree(toolchain: Toolchain) -> Verdict:
    """Whether the sums have of each file of the repository's crates just what the toolchain says that a check reads."""
    files = [it for crate in toolchain.crates(ROOT) for it in files_of(crate.folder)]
    words = [toolchain.rtlib.RATTLE, "fmt", "--tokens", *(str(path) for path, _ in files)]
    said = subprocess.run(words, capture_output=True, encoding="utf-8", check=False)
    read = [
        as_one(json.loads(row.split(" ", 4)[4]) for row in rows.splitlines())
        for rows in re.split(r"(?m)^file \d+\n", said.stdout)[1:]
    ]
    what = "self-test: what a check reads"
    if said.returncode or len(read) != len(files):
        return Verdict(False, what, f"the toolchain doesn't say: {said.stderr.strip()}")
    other = [
        str(path.relative_to(ROOT))
        for (path, text), theirs in zip(files, read)
        if as_one(it.text for it in read_of(text, path.suffix)) != theirs
    ]
    return Verdict(
        not other, what, f"other in {', '.join(other)}" if other else f"is in the sums of {len(files)} files"
    )


def self_test(toolchain: Toolchain) -> Iterator[Verdict]:
    """Whether the runner's verdicts and its record are the right ones."""
    yield readings_agree(toolchain)
    with tempfile.TemporaryDirectory(prefix="wrong-bodies-sample-") as room:
        path = Path(room, "refused.txt")
        yield from verdicts_are_right(toolchain, room, Record(path, toolchain.identity))
        crate = sample_in(toolchain, f"{room}/other", ["counts_two", NAMED])
        yield names_are_tried(toolchain, crate, path)
        Path(crate.folder, f"wrong-bodies/{NAMED}.edit").unlink()
        yield from changes_are_noticed(toolchain, crate, path)
