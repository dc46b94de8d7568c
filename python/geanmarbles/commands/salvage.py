"""Saves what is sound of a damaged site in a file into a new file.

    geanmarbles salvage [--program PATH] [--snippets] FILE OUT

For example:

    geanmarbles salvage damaged.db sound.db

Each row of FILE and FILE-wal is tested by its digest and the one that is stored beside the row before it. So a line
that was changed costs that edit alone; a digest that was changed, or a row that is gone, also the edit after it; and a
page that can't be read the edits in it and the one after them. FILE alone, and FILE with the first page of a new site,
are read too, and taken if they are sound up to a later row. The program carries out the sound edits, in order, over
OUT, which may not be there yet. FILE and FILE-wal stay as they are: copies are read, in the folder for temporary files,
and if FILE is shorter than its header says, zeros make them as long as that. Nothing may serve the site meanwhile.

The edits after one that is left out were made over a site that had it, so pages may differ from what they were, and by
more than that edit: without a `put` each later post has a smaller ID, so a later `edit` may change another post than it
did. With N edits saved after the first that is left out, `geanmarbles undo OUT NEW N` has the site without them.

Standard output has what `site --database OUT --check` says: how many edits were saved, and the digest of OUT's history.
Standard error has what a start of the program says of FILE, unless it finds the same there, and which rows were left
out, by their numbers in the table: those that aren't sound, and those whose edit the program refuses. Edits that are
lost together with their digests, as those of a FILE-wal that is gone, can't be named (docs/FAILURES.md); compare the
number and the digest with what is known of the site.

The exit status is 0 if a start of the program takes FILE and finds there just what was saved, 3 if edits were saved and
something was left, 1 if no edit could be saved of a damaged FILE, in which case OUT isn't there, and 2 if the arguments
are bad.
"""

import argparse
import contextlib
import fcntl
import hashlib
import os
import shutil
import sqlite3
import subprocess
import sys
import tempfile
from collections.abc import Iterable, Iterator
from itertools import chain, groupby, islice
from pathlib import Path
from typing import Any

from geanmarbles.arguments import Parser
from geanmarbles.client.program import LINES, Program, add_program_option, check_program, end_by_signals
from geanmarbles.client.replies import Ended, NoReply
from geanmarbles.output import quiet_output
from geanmarbles.supervisor.kept import log_of, remove

# The bytes of a file that SQLite locks to read it: how many, and from where on.
READ_LOCK = (510, 0x4000_0002)
# How a file of SQLite's begins, where its header has the size of a page and their number, and the size by the program.
MAGIC, PAGE_SIZE, PAGES, PAGE = b"SQLite format 3\0", slice(16, 18), slice(28, 32), 4_096
ROWS = "SELECT number, line, digest FROM command WHERE number >= ? ORDER BY number LIMIT ?"
ALL, ONE = -1, 1
# After how many numbers at which nothing can be read no more are tried: a page above leaves has fewer rows below it.
GAP = 60_000
# What SQLite's faults come as: one that quotes a damaged schema may be no text, and damaged numbers may be too large.
FAULTS = (sqlite3.Error, UnicodeDecodeError, OverflowError)
# How many edits the program is sent before their replies are read, and how long it may take to end.
TOGETHER, END_SECONDS = 200, 600
NOTHING = hashlib.sha256().digest()
SOME_LEFT = 3
Rows = Iterator[tuple[int, bytes]]


class NotSaved(Exception):
    """Why nothing is saved."""


class Chain:
    """How many edits a history has, and its digest."""

    def __init__(self, identity: bytes) -> None:
        self.count, self.digest = 0, digest_after(NOTHING, identity)

    def add(self, edit: bytes) -> None:
        self.count, self.digest = self.count + 1, digest_after(self.digest, edit)

    def __str__(self) -> str:
        return f"{self.count} edits, digest {self.digest.hex()}"


def digest_after(digest: bytes, line: bytes) -> bytes:
    """The digest of a history and one more line."""
    return hashlib.sha256(digest + line).digest()


@contextlib.contextmanager
def copied(file: Path, with_log: bool = True) -> Iterator[Path]:
    """A copy of both files, or of FILE alone. No program may have it open."""
    with tempfile.TemporaryDirectory() as folder, open(file, "rb") as held:
        copy = Path(folder, "site.db")
        try:
            # The lock is gone once any other opening of the file is closed, so it is copied through this one.
            fcntl.lockf(held, fcntl.LOCK_SH | fcntl.LOCK_NB, *READ_LOCK)
        except (BlockingIOError, PermissionError):
            raise NotSaved(f"{file}: the file is in use") from None
        with open(copy, "wb") as made:
            shutil.copyfileobj(held, made)
        if with_log and log_of(file).is_file():
            shutil.copyfile(log_of(file), log_of(copy))
        yield copy


def lengthen(copy: Path) -> None:
    """Makes a file as long as its header says, and a page at least, since SQLite removes the log of an empty one."""
    with open(copy, "r+b") as file:
        head = file.read(100)
        size = int.from_bytes(head[PAGE_SIZE]) * int.from_bytes(head[PAGES]) if head.startswith(MAGIC) else PAGE
        # (a number of pages that was damaged may be more than a file can have)
        with contextlib.suppress(OSError):
            file.truncate(max(copy.stat().st_size, size))


def mend(copy: Path, page: bytes) -> None:
    """Gives a file another first page, with the number of its pages."""
    with open(copy, "r+b") as file:
        file.write(page[: PAGES.start] + (copy.stat().st_size // PAGE).to_bytes(4) + page[PAGES.stop :])


def checked(program: list[str], file: Path) -> subprocess.CompletedProcess[str]:
    """A start of the program that serves nothing, and says what the file has, or why it is refused."""
    how: dict[str, Any] = {"stdin": subprocess.DEVNULL, "capture_output": True, "text": True, "errors": "replace"}
    return subprocess.run([*program, "--database", str(file), "--check"], **how)


def rows_of(connection: sqlite3.Connection) -> Iterator[tuple[int, Any, Any]]:
    """The rows in order, each with its number as it follows from the first one's, since no digest covers a number; and
    with `None` each number at which nothing can be read, if a later row can be."""
    at, unread, limit = 1, 0, ALL
    # (if there is no such table, no number is tried)
    connection.execute(ROWS, (at, 0))
    while True:
        place = None
        try:
            for place, (number, line, digest) in enumerate(connection.execute(ROWS, (at, limit))):
                yield from ((it, None, None) for it in range(at - unread, at))
                at, unread = (at if place else number) + 1, 0
                yield at - 1, line, digest
            if limit == ALL or place is None:
                return
            limit = ALL
        except FAULTS:
            # Python's module looks one row ahead, and has lost the row before the one that can't be read.
            at, unread, limit = (at + 1, unread + 1, ONE) if limit == ONE else (at, unread, ONE)
            if unread == GAP:
                raise


def sound_rows(copy: Path, file: Path, lost: list[int], left: list[str]) -> Rows:
    """The sound rows of a file, by its copy; `lost` then has the other numbers, and `left` why there may be more."""
    number, before = 0, NOTHING
    try:
        with contextlib.closing(sqlite3.connect(copy)) as connection:
            connection.text_factory = bytes
            for number, line, digest in rows_of(connection):
                are_bytes = isinstance(line, bytes) and isinstance(before, bytes)
                if are_bytes and digest_after(before, line) == digest:
                    yield number, line
                else:
                    lost.append(number)
                before = digest
    except FAULTS as fault:
        left.append(f"{file} can't be read after row {number}: {fault}")


def ends_at(copy: Path) -> tuple[int, int]:
    """The number of the first row that isn't sound, and of the last that is. Numbers only grow, over `--compact` too,
    which makes a history shorter."""
    last, lost = 0, list[int]()
    for last, _ in sound_rows(copy, copy, lost, []):
        pass
    return min([last + 1, *lost[:1]]), last


def carried_out(program: list[str], out: Path, rows: Rows, made: Chain) -> dict[int, str]:
    """Has the program carry out edits over a new file, and adds those that are done to what is made. Returns those that
    it refuses, as their numbers with the replies."""
    refused: dict[int, str] = {}
    site = Program(*program, "--database", str(out))
    try:
        while few := list(islice(rows, TOGETHER)):
            if site.lines + len(few) > LINES:
                end(site, out)
                site = Program(*program, "--database", str(out))
            for (number, line), reply in zip(few, site.ask_all([line for _, line in few])):
                if reply.words[0] == "ok":
                    made.add(line)
                else:
                    refused[number] = reply.text()
        end(site, out)
    except (Ended, NoReply):
        raise NotSaved(f"the program ended over {out} after {made.count} edits or more") from None
    finally:
        # (it has ended by itself, or what it has made is removed)
        site.kill()
    return refused


def end(site: Program, out: Path) -> None:
    """Has the program end, which copies all that it has committed into the file."""
    site.end(END_SECONDS)
    if site.child.returncode:
        raise NotSaved(f"the program ended over {out} with status {site.child.returncode}")


def new_site(program: list[str]) -> tuple[bytes, bytes]:
    """The first line of the program's sites, and the first page of their files."""
    with tempfile.TemporaryDirectory() as folder:
        file = Path(folder, "site.db")
        end(Program(*program, "--database", str(file)), file)
        for _, line in sound_rows(file, file, [], []):
            return line, file.read_bytes()[:PAGE]
    raise NotSaved(f"{program[0]} --database has made no site")


def listed(numbers: Iterable[int]) -> str:
    """Some numbers in ascending order, such as `5, 7-9 (4)`."""
    runs = [[number for _, number in run] for _, run in groupby(enumerate(numbers), lambda it: it[1] - it[0])]
    shown = ", ".join(f"{run[0]}-{run[-1]}" if len(run) > 1 else str(run[0]) for run in runs)
    return f"{shown} ({sum(map(len, runs))})"


def saved(program: list[str], file: Path, out: Path) -> tuple[str, list[str]]:
    """Saves a file into a new one. Returns what the new one has, and what there is to say of what it doesn't have."""
    if not file.is_file():
        raise NotSaved(f"there is no file {file}")
    name, left, lost = " ".join(program), list[str](), list[int]()
    identity, page = new_site(program)
    with copied(file) as both, copied(file, with_log=False) as alone, copied(file) as mended:
        found = checked(program, mended)
        for it in (both, alone, mended):
            lengthen(it)
        mend(mended, page)
        copies: dict[Path, list[str]] = {
            both: [],
            alone: [f"{log_of(file)} is left: without it more rows of {file} are sound"],
            mended: [f"the first page of {file} is left: with that of a new site more rows are sound"],
        }
        copy = max(copies, key=ends_at)
        left += copies[copy]
        rows, made = sound_rows(copy, file, lost, left), Chain(identity)
        first = next(rows, None)
        if first and not lost and first[1] != identity:
            left.append(f"{file} is of another program: {name} has carried its edits out by rules of its own")
        # (if the first row is lost, this one is an edit)
        refused = carried_out(program, out, chain([first], rows) if first and lost else rows, made)
    if lost:
        left.append(f"rows of {file} that don't have their digest, or can't be read: {listed(lost)}")
    if refused:
        left.append(f"rows of {file} that {name} refuses, with {[*refused.values()][0]!r} first: {listed(refused)}")
    told = checked(program, out).stdout
    if told != f"{made}\n":
        raise NotSaved(f"{out} doesn't have what {name} has acknowledged")
    if found.stdout != told:
        said = (found.stderr or found.stdout).strip().replace(str(mended), str(file))
        left.insert(0, f"a start says: {said or f'status {found.returncode}'}")
    if left and not made.count:
        raise NotSaved("; ".join(left))
    return str(made), left


def say(what: object) -> None:
    print(f"salvage: {what}", file=sys.stderr)


def read_arguments() -> argparse.Namespace:
    parser = Parser(__doc__)
    add_program_option(parser)
    parser.add_argument("file", metavar="FILE", type=Path, help="the damaged site in a file")
    parser.add_argument("out", metavar="OUT", type=Path, help="the file to be made")
    return parser.parse_args()


@quiet_output()
def main() -> int:
    arguments = read_arguments()
    check_program(arguments.program)
    end_by_signals()
    try:
        for path in (arguments.out, log_of(arguments.out)):
            if os.path.lexists(path):
                raise NotSaved(f"{path} is there already")
        try:
            found, left = saved(arguments.program, arguments.file, arguments.out)
        except BaseException:
            remove(arguments.out)
            raise
    except (NotSaved, OSError) as fault:
        say(fault)
        return 1
    except KeyboardInterrupt:
        say("stopped")
        return 1
    for what in left:
        say(what)
    print(found)
    return SOME_LEFT if left else 0
