"""What must hold of a random site in a file whose history is shortened: SQLite itself reads the history before and
after, and carries it out in tables of its own."""

import os
import sqlite3
import tempfile
from collections.abc import Iterable, Sequence
from pathlib import Path

from geanmarbles.checks.database.files import history
from geanmarbles.checks.fuzz.checks import Check, Program, at_once, same
from geanmarbles.checks.fuzz.lines import BY_TURNS
from geanmarbles.checks.fuzz.sites import Stored, line_of
from geanmarbles.checks.fuzz.tables import Rows, rows_of
from geanmarbles.checks.fuzz.values import command_of
from geanmarbles.client.replies import Wrong, refusal_of, shown
from geanmarbles.paths import TESTS

HERE = TESTS / "fuzz"
# Where the files are: in memory if there is such a place, since a list takes some hundred syncs, which say nothing
# here.
SHARED = "/dev/shm"
ROOM = SHARED if os.access(SHARED, os.W_OK) else None
PATHS = ("/", "/?paged=2", "/?m=202405", "/?m=202404", "/?page_id=1", "/x")
NO_EDITS = ("get", *BY_TURNS)


def edits_done(lines: Iterable[bytes], replies: Iterable[bytes]) -> list[bytes]:
    """The lines that were done of those that may change rows."""
    pairs = zip(lines, replies, strict=True)
    return [line for line, reply in pairs if reply.startswith(b"ok") and command_of(line).get("cmd") not in NO_EDITS]


def asked(stored: Stored) -> list[bytes]:
    """Requests for the pages of a site: lists, and each post and page, and IDs that none has."""
    ids = sorted({*stored.posts, *range(1, min(stored.largest, 20) + 2)})
    return [
        line_of(cmd="get", path=path) for path in (*PATHS, *(f"/?{key}={it}" for it in ids for key in ("p", "page_id")))
    ]


def same_rows(rows: Rows, wanted: Rows, what: str) -> None:
    """Two sites have the same rows, in each table."""
    for name, found in rows.items():
        for row, other in zip(found, wanted[name]):
            if row != other:
                raise Wrong(f"a row of {name} is {shown(repr(row).encode())}, but {what} {shown(repr(other).encode())}")
        if len(found) != len(wanted[name]):
            raise Wrong(f"{name} has {len(found)} rows, but {what} {len(wanted[name])}")


def read_rows(file: Path) -> Rows:
    """The rows that the history in a file makes, as SQLite reads the one and carries out the other."""
    try:
        return rows_of(history(file)[1:])
    except (sqlite3.Error, KeyError, TypeError) as fault:
        raise Wrong(f"SQLite doesn't carry out the history: {fault!r}") from fault


def compacted(program: Program, lines: Sequence[bytes], replies: Sequence[bytes]) -> None:
    """After --compact the history makes the same rows, each row of each table, and the same pages."""
    lines, wanted = at_once(lines, replies)
    stored = Stored().after(lines, wanted)
    gets = asked(stored)
    with tempfile.TemporaryDirectory(dir=ROOM) as folder:
        file = Path(folder, "site.db")
        same(lines, wanted, program.replies(lines, file=file), "over a file it is")
        rows, pages = read_rows(file), program.replies(gets, file=file)
        same_rows(rows, rows_of(edits_done(lines, wanted)), "the edits that were done make")
        program.compact(file)
        same_rows(read_rows(file), rows, "before --compact it was")
        same(gets, program.replies(gets, file=file), pages, "before --compact it was")
        next_id = line_of(cmd="put", date="2024-05-01 10:00:00")
        came = program.replies([next_id], file=file)[0]
        if not refusal_of(came) and came != b"ok %d\n" % (stored.largest + 1):
            raise Wrong(
                f"after --compact the next post has the reply {shown(came)}, and {stored.largest} was the largest"
            )


CHECKS: tuple[Check, ...] = (compacted,)
