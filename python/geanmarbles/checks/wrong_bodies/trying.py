"""A run over crates: which of their edits are tried, side by side, and what is said of them."""

import argparse
import functools
import json
import shutil
import tempfile
from collections.abc import Mapping, Sequence
from concurrent.futures import ThreadPoolExecutor
from pathlib import Path

from geanmarbles.checks.wrong_bodies.checks import Toolchain
from geanmarbles.checks.wrong_bodies.edits import BadEdit, Edit, read_edits
from geanmarbles.checks.wrong_bodies.following import Log
from geanmarbles.checks.wrong_bodies.record import COUNTED, JUDGE, WEAK, Record, try_and_record
from geanmarbles.checks.wrong_bodies.rounds import Verdict
from geanmarbles.paths import TESTS
from geanmarbles.repository.toolchain import Crate, ToolchainFault

# How many of a crate's edits one lane tries, where proofs are kept.
SHARE = 48


@functools.cache
def names_of_rows() -> set[str]:
    files = (TESTS / "rows").glob("*.json")
    return {row["name"] for it in files for row in json.loads(it.read_text(encoding="utf-8"))}


def edits_of(crate: Crate) -> tuple[list[Edit], list[Verdict]]:
    """The crate's edits, and a verdict for each file that isn't one."""
    edits: list[Edit] = []
    faults: list[Verdict] = []
    for path in sorted(Path(crate.folder, "wrong-bodies").glob("*")):
        try:
            edits.append(read_edits(crate.name, crate.folder, path))
            kind, _, name = (edits[-1].shown or "").partition(" ")
            if kind == "row" and name not in names_of_rows():
                raise BadEdit(f"no row of tests/rows has the name {name}")
        except BadEdit as fault:
            faults.append(Verdict(False, f"{crate.name}/{path.stem}", f"BAD EDIT: {fault}"))
    return edits, faults


class Run:
    """Crates whose edits are tried side by side, and of those in `stems` the edits that are named there alone."""

    def __init__(
        self,
        options: argparse.Namespace,
        toolchain: Toolchain,
        record: Record,
        crates: Sequence[Crate],
        stems: Mapping[str, set[str]],
    ) -> None:
        self.options, self.toolchain, self.record, self.stems = options, toolchain, record, stems
        self.log = Log(options.follow) if options.follow else None
        # What has most to do begins first, but if crates are awaited those at the bottom are ready first.
        self.crates = crates if self.log else sorted(crates, key=lambda it: -it.count(rb"\n"))
        read = {it.name: edits_of(it) for it in self.crates}
        self.edits = {name: edits for name, (edits, _) in read.items()}
        self.faults = {name: faults for name, (_, faults) in read.items()}
        self.verdicts: dict[str, list[Verdict]] = {name: list(faults) for name, faults in self.faults.items()}

    def looked_at(self, crate: Crate) -> list[Edit]:
        stems = self.stems.get(crate.name)
        return [it for it in self.edits[crate.name] if stems is None or it.label.partition("/")[2] in stems]

    def is_anew(self, crate: Crate) -> bool:
        """Whether the edits are tried whatever is recorded of them."""
        return bool(self.options.anew) or crate.name in self.stems

    def untried(self, crate: Crate) -> list[Edit]:
        """The edits to try: those with a name, and those of which no refusal is known."""
        edits = self.looked_at(crate)
        lacking = self.record.lacks(crate, edits, [JUDGE] if self.options.renew else COUNTED)
        return [it for it in edits if it.named or it in lacking or self.is_anew(crate)]

    def shares(self, crate: Crate) -> list[tuple[Crate, list[Edit]]]:
        """The edits to try in shares, which lanes can try side by side: each over a copy of its own of the kept proofs.
        Where none are kept there is one share, since each would prove anew what several changed functions call."""
        edits = self.untried(crate)
        count = 1 if self.options.from_nothing else -(-len(edits) // SHARE)
        return [(crate, edits[it::count]) for it in range(count) if edits]

    def tried(self, crate: Crate, share: Sequence[Edit]) -> list[Verdict]:
        """The verdicts on some of a crate's edits."""
        failed = self.log.wait_for([it.name for it in (*crate.below(), crate)]) if self.log else None
        if failed:
            return [Verdict(False, it.label, f"not tried: {failed} isn't proved") for it in share]
        try:
            if not self.options.from_nothing:
                self.toolchain.build_below(crate)
            with tempfile.TemporaryDirectory(prefix="wrong-bodies-") as kept:
                if not self.options.from_nothing and Path(crate.folder, "out/incremental").is_dir():
                    shutil.copytree(f"{crate.folder}/out/incremental", kept, dirs_exist_ok=True)
                edits, anew = self.edits[crate.name], self.is_anew(crate)
                return try_and_record(self.toolchain, crate, edits, share, kept, self.record, anew)
        except ToolchainFault as fault:
            return [Verdict(False, it.label, f"not tried: {fault}") for it in share]

    def try_share(self, given: tuple[Crate, Sequence[Edit]]) -> None:
        found = self.tried(*given)
        self.verdicts[given[0].name] += found
        print("\n".join(map(str, found)), flush=True)

    def try_all(self) -> list[Verdict]:
        """The verdicts on the edits that are tried, and one that says whether each edit is recorded."""
        with ThreadPoolExecutor(self.options.lanes) as pool:
            list(pool.map(self.try_share, [share for it in self.crates for share in self.shares(it)]))
        for name, verdicts in self.verdicts.items():
            checks, seconds = self.toolchain.spent.get(name, (0, 0.0))
            tried = f"{len(verdicts)} tried in {checks} checks, {seconds:.0f} s of a processor"
            print(*self.faults[name], f"{name}: {len(self.edits[name])} edits, {tried}", sep="\n")
        self.say_kinds()
        lacking = [edit.label for it in self.crates for edit in self.record.lacks(it, self.looked_at(it))]
        said = f"lacks {', '.join(lacking)}" if lacking else "has a refusal of each edit"
        whole = Verdict(not lacking, "tests/wrong_bodies/refused.txt", said)
        print(whole, flush=True)
        return [*(it for verdicts in self.verdicts.values() for it in verdicts), whole]

    def say_kinds(self) -> None:
        """Says what the recorded refusals show, and of which edits nothing else shows that they are wrong."""
        kinds = self.record.kinds([edit for it in self.crates for edit in self.looked_at(it)])
        print("refusals recorded:", ", ".join(f"{kind} {len(of)}" for kind, of in sorted(kinds.items())) or "none")
        bare = [it.label for kind in WEAK for it in kinds.get(kind, []) if not it.shown]
        if bare:
            print(f"{len(bare)} of them show little, and the edit has no line 'shown:': {', '.join(bare)}")
