"""Tries the wrong bodies of the crates, many in one check: the prover must refuse each.

    tests/wrong_bodies/run [--from-nothing] [--follow LOG] [--lanes N] [--anew] [--self-test] [CRATE | CRATE/EDIT ..]
    tests/wrong_bodies/run --renew CRATE ..

A wrong body is a file crates/NAME/wrong-bodies/WHAT.edit, with lines

    named: SENTENCE        what the body does wrong, if the edit is to be tried at each run
    shown: WHAT            what shows that it is wrong, if its refusal doesn't (below)
    function: FUNCTION     the function whose contract must refuse the edit, as a check names it after the crate's name
    file: src/FILE.rt      the file that the next lines change
    old: TEXT              a text that is there once
    new: TEXT              and what comes in its place

The prover judges function by function and names each goal that it tried and did not prove, so one check can try edits
of many functions. An edit counts as refused only by such a goal of the very function that it changes: never because a
function that it calls isn't proved, and never because a proof file names what the edit took away, or answers a goal in
a way that doesn't fit any more what the edit made of it. Answers that fail are set aside, and the edit is tried again,
so that the prover tries their goals by itself: what it then proves isn't refused. Edits are tried in rounds; no two
edits of a round change one body, change one function or functions of one recursion, and an edit that reaches beyond
bodies (a contract, a type, a constant, a definition) has a round of its own. What a round doesn't show, as when a
callee was changed too, goes to a later round, and at last to one of its own.

What a refusal shows is seen too, and recorded in these words, the strongest first: *disproved at VALUES*, at which the
prover finds a goal false, or, *in the old answer*, a step of the answer that proved it; *control*, if it proves the
goals of the unedited function by itself, tried once without their answers; *new goal alone*, if the unedited function
doesn't have them; *hand proof alone*, if they had an answer that was written by hand, and doesn't fit any more: they
may still be true. An edit of the last two kinds has a line `shown: row NAME`, a row of tests/rows that fails under it,
or `shown: clause NAME, SENTENCE`, a clause of its function (`ensures`, if it has no name) and where that is false.
Those that have none are named at the end of a run, which doesn't fail for it.

A refusal is recorded in tests/wrong_bodies/refused.txt, which is committed, under a sum of all that its check read,
which are the sources of the crate, what the libraries below it give to it (exports.py: all but bodies and the proofs of
functions), the edit, the toolchain's logic and the number of the rules by which this runner judges (JUDGE of
record.py). Comments and layout aren't in it. While the sum is the same, the edit isn't tried again, unless it has a
line `named:`; --anew tries every edit. --renew tries those too whose refusals were seen under rules of a number before,
which count still. The record is written as each crate ends, also if an edit wasn't refused: that edit's line is then
gone. Several runs may write to it side by side.

Without --from-nothing the proofs that a crate's own checks kept in out/ are used, and the libraries below it are built
if they have changed. With it nothing is kept: each round proves the changed functions and what they call anew, over
the libraries that crates/NAME/out/rlib holds, as `rt ci` leaves them there. With --follow, a crate begins once LOG, the
output of an `rt ci` that may still be running, says that the crate and all below it are proved. N crates, or shares of
a crate's edits, are tried side by side, as many as there are processors if --lanes isn't given. --self-test tries edits
of a small crate made for it, among them some that no contract refuses, and passes if the verdicts are the right ones.

CRATE/EDIT is one edit, crates/CRATE/wrong-bodies/EDIT.edit. It is tried also if its refusal is recorded, and of its
crate's other edits nothing is said.

The last line is 'N passed, M failed': the edits that were tried, and one for the record, which fails if an edit isn't
in it. The exit status is 0 if none failed, 1 if one did, and 2 if the arguments or the toolchain are at fault.
"""

import argparse
import os
import sys
from collections.abc import Sequence
from pathlib import Path

from geanmarbles.arguments import Parser
from geanmarbles.checks.wrong_bodies.checks import Toolchain
from geanmarbles.checks.wrong_bodies.record import FILE, Record
from geanmarbles.checks.wrong_bodies.selftest import self_test
from geanmarbles.checks.wrong_bodies.trying import Run
from geanmarbles.paths import ROOT
from geanmarbles.repository.toolchain import Crate, ToolchainFault, processors


class BadNames(Exception):
    """Crates or edits that aren't there."""


def asked_for(words: Sequence[str], crates: Sequence[Crate]) -> tuple[list[Crate], dict[str, set[str]]]:
    """The crates that are to be tried, and of those of which single edits are named the edits' names."""
    named: dict[str, set[str]] = {}
    for word in words:
        crate, _, stem = word.partition("/")
        named.setdefault(crate, set()).add(stem.removesuffix(".edit"))
    unknown = sorted(set(named) - {it.name for it in crates})
    if unknown:
        raise BadNames(f"no wrong bodies in {', '.join(unknown)}")
    for crate, stems in named.items():
        lacking = sorted(it for it in stems if it and not Path("crates", crate, "wrong-bodies", f"{it}.edit").is_file())
        if lacking:
            raise BadNames(f"no edit {', '.join(lacking)} in crates/{crate}/wrong-bodies")
    # A crate that is named by itself is tried whole.
    single = {crate: stems for crate, stems in named.items() if "" not in stems}
    return [it for it in crates if not words or it.name in named], single


def read_arguments() -> argparse.Namespace:
    parser = Parser(description="Tries the wrong bodies of the crates, many in one check.")
    parser.add_argument("--from-nothing", action="store_true", help="use no kept proof, and the libraries as they are")
    parser.add_argument("--follow", metavar="LOG", type=Path, help="begin a crate once this log says that it is proved")
    parser.add_argument(
        "--lanes", metavar="N", type=int, default=processors(), help="how many crates or shares side by side"
    )
    parser.add_argument("--anew", action="store_true", help="try the edits whose refusals are recorded, too")
    parser.add_argument("--renew", action="store_true", help="try those, too, that were seen under earlier rules")
    parser.add_argument("--self-test", action="store_true", help="try edits whose verdicts are known")
    about = "the crates or single edits to try; all if none is given"
    parser.add_argument("crates", metavar="CRATE | CRATE/EDIT", nargs="*", help=about)
    options = parser.parse_args()
    if options.renew and not options.crates:
        parser.error("--renew goes with the crates to renew")
    return options


def main() -> int:
    options = read_arguments()
    os.chdir(ROOT)
    try:
        toolchain = Toolchain()
        crates = [it for it in toolchain.crates(ROOT) if Path(it.folder, "wrong-bodies").is_dir()]
        crates, stems = asked_for(options.crates, crates)
    except (ToolchainFault, BadNames) as fault:
        print(f"tests/wrong_bodies/run: {fault}", file=sys.stderr)
        return 2
    if options.self_test:
        verdicts = []
        for verdict in self_test(toolchain):
            print(verdict, flush=True)
            verdicts.append(verdict)
    else:
        verdicts = Run(options, toolchain, Record(FILE, toolchain.identity), crates, stems).try_all()
    failed = sum(not it.refused for it in verdicts)
    print(f"{len(verdicts) - failed} passed, {failed} failed")
    return 1 if failed else 0
