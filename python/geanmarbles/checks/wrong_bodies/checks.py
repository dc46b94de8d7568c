"""One check of a crate with some texts of its own changed."""

import os
import re
import shutil
import subprocess
import tempfile
from collections.abc import Iterable, Mapping, Sequence
from pathlib import Path

from geanmarbles.checks.wrong_bodies.edits import Edit, Fault
from geanmarbles.repository.crates import locked
from geanmarbles.repository.toolchain import Crate, ToolchainFault, load

# A function's verdict, as `fn hook_changes::kept::Text::new: not proved`.
VERDICT = re.compile(r"^fn ([\w:+]+): (.*)$", re.M)
# An error in what is written of a function's proof, as `./proofs/kept/Text/new/Answers.antt:5:13: error: ...`: a long
# sentence goes on in indented lines.
ERROR = re.compile(r"^(?:\./)?(proofs/(\S+)/\w+\.antt):(\d+):\d+: error: (.*(?:\n  .*)*)$", re.M)
NO_FUNCTION = re.compile(r"has no function `([\w:+]+)`")
LAST_LINE = re.compile(r"^(logic=|only=)", re.M)
# The goals that `search` tried and did not prove: what else the verdict says is of the functions that are called.
UNPROVED = re.compile(r"no proof: expected answers in (?:\./)?(\S+); `search` did not prove ((?:`[^`]*`(?:, )?)+)")
# What is said of a goal of which values were found at which it is false, after its name and the file of its answer.
FALSE = re.compile(r"^note: `([^`]*)` of (?:\./)?(\S+) may be false: the known facts allow (.*?)(?:: help: .*)?$", re.M)
# What is said of an answer to a goal that isn't there.
ABSENT = re.compile(r"\.Goals` has no `([^`]*)`")


class Rejected(Exception):
    """The text doesn't compile, so the prover wasn't asked."""


class NoFunction(Rejected):
    """The crate has no function of the name that an edit says it changes."""


class Said:
    """What a check reported: the verdict on each function, and the errors in what is written of its proof."""

    def __init__(self, text: str) -> None:
        self.text = text
        self.verdicts: dict[str, str] = dict(VERDICT.findall(text))
        self.errors: dict[str, list[Fault]] = {}
        for file, folder, line, error in ERROR.findall(text):
            self.errors.setdefault(folder.replace("/", "::"), []).append(Fault(file, int(line), error))

    def verdict(self, crate: str, function: str) -> str | None:
        return self.verdicts.get(f"{crate}::{function}")

    def unproved(self, crate: str, function: str) -> tuple[str, list[str]]:
        """The file of a function's answers, and the names of those of its goals that `search` tried and did not prove.

        A goal that is answered isn't among them: where the answer fails, that tells nothing of the goal."""
        found = UNPROVED.match(self.verdict(crate, function) or "")
        return (found[1], re.findall("`([^`]*)`", found[2])) if found else ("", [])

    def absent(self, file: str) -> list[str]:
        """The goals that a file answers though they aren't there."""
        return [name for of in self.errors.values() for it in of if it.file == file for name in ABSENT.findall(it.said)]

    def values_of(self, file: str) -> dict[str, str]:
        """Of the goals that would be answered in a file, those of which values were found at which they are false."""
        return {goal: values for goal, at, values in FALSE.findall(self.text) if at == file}

    def faults(self, edit: Edit) -> list[Fault]:
        """The errors in the changed function's proof; of a recursion, which has one proof, those of all of it."""
        if edit.cycle is not None:
            return [it for folder, of in self.errors.items() if folder.endswith(f"+{edit.cycle}") for it in of]
        return self.errors.get(edit.function, [])


class Toolchain:
    """The prover, called as `rt must-fail` calls it."""

    def __init__(self) -> None:
        self.rtlib = load().rtlib
        self.guard = self.rtlib.guarded()
        with open(os.path.join(self.rtlib.KIT, "KIT-ID"), "rb") as file:
            self.identity: bytes = file.read()
        # How many checks each crate had, and their seconds of a processor.
        self.spent: dict[str, tuple[int, float]] = {}

    def crates(self, root: str | Path) -> list[Crate]:
        """The repository's crates, those below before those above."""
        return sorted(self.rtlib.crates_below(str(root)), key=lambda it: len(it.below()))

    def build_below(self, crate: Crate) -> None:
        """Builds the libraries below a crate if they have changed, one at a time: other crates stand on them too."""
        for library in crate.below():
            with locked(Path(library.folder)), tempfile.TemporaryFile("w+", errors="replace") as library.out:
                if library.build_rlib(["--jobs", "1"], anew=False):
                    library.out.seek(0)
                    raise ToolchainFault(f"its library {library.name} isn't proved:\n{library.out.read()}")

    def check(self, crate: Crate, texts: Mapping[str, str], functions: Iterable[str], kept: str) -> Said:
        """Checks these functions of a copy of the crate, with these texts in place of its own, over what kept holds."""
        with tempfile.TemporaryDirectory(prefix="wrong-body-") as room:
            for part in self.rtlib.PARTS:
                if os.path.isdir(f"{crate.folder}/{part}"):
                    shutil.copytree(f"{crate.folder}/{part}", f"{room}/{part}")
            for path, text in texts.items():
                file = Path(room, path)
                file.parent.mkdir(parents=True, exist_ok=True)
                file.write_text(text, encoding="utf-8")
            words = [*crate.words(["--jobs", "1"], keeps=False), "--incremental", kept]
            for function in functions:
                words += ["--only", function]
            said = self.run(crate.name, ["check", *words], room)
        if self.rtlib.STALE.search(said):
            raise ToolchainFault("the kept work of a library can't be used")
        if not LAST_LINE.search(said):
            missing = NO_FUNCTION.search(said)
            raise NoFunction(missing[1]) if missing else Rejected(first_error(said))
        return Said(said)

    def run(self, name: str, words: Sequence[str], folder: str) -> str:
        """What the prover says, on either stream; its seconds are counted to the crate's."""
        child = subprocess.Popen(
            [*self.guard, self.rtlib.RATTLE, *words],
            cwd=folder,
            errors="replace",
            stdin=subprocess.DEVNULL,
            stdout=subprocess.PIPE,
            stderr=subprocess.STDOUT,
        )
        assert child.stdout is not None
        with child.stdout:
            said = child.stdout.read()
        _, status, usage = os.wait4(child.pid, 0)
        child.returncode = os.waitstatus_to_exitcode(status)
        checks, seconds = self.spent.get(name, (0, 0.0))
        self.spent[name] = checks + 1, seconds + usage.ru_utime + usage.ru_stime
        return said


def first_error(text: str) -> str:
    lines = [it for it in text.split("\n") if re.search(r"\berror[:\[]", it)] or text.strip().split("\n")[-1:]
    return lines[0][:200]
