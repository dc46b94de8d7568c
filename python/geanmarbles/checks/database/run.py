"""Runs the program with --database, ends it in every way, and reads what is left by SQLite itself.

    tests/database/run [--rounds N] [--seed N] [--part NAME ..] [PROGRAM]

PROGRAM is the one that is here, built or shipped, if it is left out. SQLite is that of Python's own module; it always
reads a copy of FILE and FILE-wal. The parts, in this order, or some of them, each after a --part:

- keeping: edits are there after the end and a new start, the pages are those of a program in memory that is given the
  same lines, and the rows are exactly the program's first line and the edits that were done, byte for byte; random
  lists of tests/fuzz with a new start after each tenth line have the replies that they have without; one that fails
  is made shorter, and saved in out/fuzz;
- refused: starts that are refused by name, with the database file as it was: a second program, files that can't be
  opened, that are no database or another one, another program's, and histories with a line that is refused. Long
  histories, long logs and as many edits as come in one read are taken;
- exports: what --export prints rebuilds the site: pages, drafts, options, templates, the next ID; exported again it is
  the same; --compact puts it in the place of the history; random lists as in keeping;
- readers: 200 edits in one write, and standard output closed, full, without a reader or never read: what the file then
  holds is what docs/FAILURES.md says;
- commits: each write and each sync of the files refused once, in a run of its own: the next start finds the edits that
  were acknowledged, and of the commit that failed all edits or none; skipped without `cc`;
- disks: a disk that fills up, in a mount namespace of its own, which needs root or user namespaces and is otherwise
  skipped;
- log: one byte of FILE-wal turned, 500 times; FILE-wal cut, 100 times, or overwritten: a start is refused by name and
  writes nothing, or has all of the history;
- file: one byte of FILE turned, 500 times: the same;
- mixed: FILE of one moment and FILE-wal of another, of one site and of two: a start is refused, or has a site as it was
  at a moment. That isn't the newer one of the two only if both are of one moment, if FILE-wal has no commit, or if its
  last one leaves the database no shorter than FILE and it is of a moment before FILE's, or of another site; how often
  is printed;
- salvage: `geanmarbles salvage` over files with lines that were changed or are gone, a page that was overwritten, a log
  that was turned or cut, files that were cut or set to zero, and sound ones: all sound edits are saved, what is left is
  named, what a start says is told, and the files stay as they are;
- check: --check and --export tell how many edits a file has, and their digest, as Python's hashlib finds it, and copy
  nothing into FILE; files that are refused are left as they are; and the mode of new files. `geanmarbles backup`, 33
  times while a client edits: all edits that were replied to before it are there, and the front is the site's after the
  last of them; so it is if FILE-wal is copied into FILE amid a backup. What it can't copy or a start refuses is no
  backup;
- replaced: FILE or FILE-wal is removed or replaced while the program has it: the program ends by name at the next line,
  which isn't carried out;
- readme: the README's own example, with its `kill -9`;
- kills: N rounds, 500 if N is left out: SIGKILL at a random moment of serving a client that waits for its replies, or
  one that sends chunks, of a start, or of a --compact. Each time all edits that were acknowledged are there, in order,
  and nothing that wasn't sent; and the next start gives the pages of those lines;
- power: a kill doesn't test the disk, since the kernel keeps what was written. So each write and each sync is recorded
  by strace, and files are made as a loss of power may leave them: what was synced, and any of the writes after it, torn
  at multiples of 512 bytes. They are judged as after a kill. The moments are those before each sync, with none and with
  all of the writes, as a copy has them that is made while the program is stopped; and others, chosen by the seed, which
  is printed. Files that are judged wrong are kept in out/power. Skipped without `strace`.

The last line is 'N passed, M failed', over the checks and rounds, and the exit status is 0 if none failed.
"""

import argparse
from collections.abc import Callable
from itertools import chain
from random import Random

from geanmarbles.checks.database import (
    backups,
    commits,
    damage,
    damage_checked,
    damage_mixed,
    damage_salvaged,
    disks,
    exports,
    keeping,
    kills,
    power,
    readers,
    readme,
    refused,
    replaced,
)
from geanmarbles.checks.judging import Cases, Counts
from geanmarbles.checks.programs import missing, parser_of

# The checks of each part over a program.
PARTS: dict[str, Callable[[str], Cases]] = {
    "keeping": keeping.cases,
    "refused": refused.cases,
    "exports": exports.cases,
    "readers": readers.cases,
    "commits": commits.cases,
    "disks": disks.cases,
    "log": damage.log_cases,
    "file": damage.file_cases,
    "mixed": damage_mixed.cases,
    "salvage": damage_salvaged.cases,
    "check": lambda program: chain(damage_checked.cases(program), backups.cases(program)),
    "replaced": replaced.cases,
    "readme": readme.cases,
    "kills": kills.cases,
    "power": lambda program: power.cases(program, Random().randrange(1_000_000)),
}


def cases_of(name: str, arguments: argparse.Namespace) -> Cases:
    if name == "kills":
        return kills.cases(arguments.program, arguments.rounds)
    if name == "power" and arguments.seed is not None:
        return power.cases(arguments.program, arguments.seed)
    return PARTS[name](arguments.program)


def judge_part(counts: Counts, name: str, cases: Cases) -> None:
    print(f"{name}: {counts.judge_all(cases)} checks", flush=True)


def read_arguments() -> argparse.Namespace:
    parser = parser_of(__doc__)
    parser.add_argument("--rounds", metavar="N", type=int, default=kills.ROUNDS, help="how often the program is killed")
    seed = "which losses of power there are; a random one if it is left out"
    parser.add_argument("--seed", metavar="N", type=int, help=seed)
    some = f"some parts alone: {', '.join(PARTS)}"
    parser.add_argument("--part", metavar="NAME", action="append", choices=PARTS, help=some)
    return parser.parse_args()


def main() -> int:
    arguments, counts = read_arguments(), Counts()
    if missing(arguments.program):
        print(f"FAILED: {missing(arguments.program)}\n0 passed, 1 failed")
        return 1
    for name in arguments.part or PARTS:
        judge_part(counts, name, cases_of(name, arguments))
    return counts.end()
