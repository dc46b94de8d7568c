"""The two files of a site that lasts, read and doctored by SQLite itself, always from a copy of both."""

import contextlib
import hashlib
import shutil
import sqlite3
import subprocess
import tempfile
from collections.abc import Iterable, Iterator, Sequence
from pathlib import Path

from geanmarbles.client.replies import Wrong, shown

# A statement of SQL, with its values.
Statement = tuple[str, tuple[object, ...]]
TABLE = "CREATE TABLE command (number INTEGER PRIMARY KEY, line TEXT NOT NULL, digest BLOB NOT NULL) STRICT"
LINES = "SELECT line FROM command ORDER BY number"
ROWS = "SELECT number, line, digest FROM command ORDER BY number"
# What SQLite's faults come as: one that quotes a damaged schema may be no text.
FAULTS = (sqlite3.Error, UnicodeDecodeError)


def log_of(file: Path) -> Path:
    """The file beside the database into which SQLite writes first."""
    return Path(f"{file}-wal")


def copied(file: Path, folder: str | Path, name: str = "copy.db") -> Path:
    """A copy of both files in a folder."""
    copy = Path(folder, name)
    shutil.copyfile(file, copy)
    if log_of(file).exists():
        shutil.copyfile(log_of(file), log_of(copy))
    return copy


@contextlib.contextmanager
def opened(file: Path) -> Iterator[sqlite3.Connection]:
    """A connection of SQLite's to a file, which is closed after the block. That removes the log, and a start wants one
    beside the file."""
    connection = sqlite3.connect(file, isolation_level=None)
    try:
        connection.text_factory = bytes
        # The system stays up meanwhile, so nothing has to reach the disk.
        connection.execute("PRAGMA synchronous = OFF")
        yield connection
    finally:
        connection.close()
        log_of(file).touch(mode=0o600)


@contextlib.contextmanager
def looked_at(file: Path) -> Iterator[sqlite3.Connection]:
    """A connection to a copy of both files: the program has them locked, and SQLite would move the log's lines."""
    with tempfile.TemporaryDirectory() as folder, opened(copied(file, folder)) as connection:
        yield connection


def lines_in(connection: sqlite3.Connection) -> list[bytes]:
    return [line for (line,) in connection.execute(LINES)]


def digests_of(lines: Iterable[bytes]) -> Iterator[bytes]:
    """For each line the digest of the lines up to it: SHA-256 of the digest before it and then the line."""
    digest = hashlib.sha256(b"").digest()
    for line in lines:
        digest = hashlib.sha256(digest + line).digest()
        yield digest


def summary(lines: Sequence[bytes]) -> str:
    """What the program says of a history of these lines, the first of which is no edit."""
    digest = [hashlib.sha256(b"").digest(), *digests_of(lines)][-1]
    return f"{max(len(lines) - 1, 0)} edits, digest {digest.hex()}"


def check_told(ran: subprocess.CompletedProcess[bytes], file: Path) -> None:
    """An export that went well, and says on standard error what the file has."""
    told = f"site: {file}: {summary(history(file))}\n"
    if (ran.returncode, ran.stderr) != (0, told.encode()):
        raise Wrong(f"--export ended with status {ran.returncode} and says {shown(ran.stderr)}, wanted {told!r}")


def seal(connection: sqlite3.Connection) -> None:
    """Gives each line its digest, as somebody does who means to change a history."""
    rows = connection.execute(ROWS).fetchall()
    as_bytes = (line.encode() if isinstance(line, str) else line for _, line, _ in rows)
    for (number, _, _), digest in zip(rows, digests_of(as_bytes)):
        connection.execute("UPDATE command SET digest = ? WHERE number = ?", (digest, number))


def plain(text: str) -> str:
    """A statement's text without what SQLite keeps of its spacing."""
    return "".join(text.split()).upper()


def history(file: Path, *, is_spent: bool = False) -> list[bytes]:
    """All lines of the history, as SQLite reads them; the file has to be sound, to hold that table alone, and each line
    its digest. Of one that is spent no copy is made."""
    try:
        with opened(file) if is_spent else looked_at(file) as connection:
            sound = connection.execute("PRAGMA integrity_check").fetchall()
            mode = connection.execute("PRAGMA journal_mode").fetchall()
            schema = [text.decode() for (text,) in connection.execute("SELECT sql FROM sqlite_master")]
            rows = connection.execute(ROWS).fetchall()
    except FAULTS as fault:
        raise Wrong(f"SQLite says of {file}: {fault}") from None
    if sound != [(b"ok",)] or mode != [(b"wal",)]:
        raise Wrong(f"SQLite's check says {sound}, and the journal mode is {mode}")
    if [plain(text) for text in schema] != [plain(TABLE)]:
        raise Wrong(f"the schema is {schema}")
    numbers = [number for number, _, _ in rows]
    lines = [line for _, line, _ in rows]
    first = numbers[0] if numbers else 1
    if first < 1 or numbers != list(range(first, first + len(numbers))):
        raise Wrong(f"the numbers of {len(numbers)} lines don't follow one another: {numbers[:10]} ..")
    for number, ((_, _, digest), wanted) in enumerate(zip(rows, digests_of(lines)), 1):
        if digest != wanted:
            raise Wrong(f"line {number} has the digest {digest.hex()}, wanted {wanted.hex()}")
    return lines


def found_by_sqlite(file: Path) -> list[bytes]:
    """The lines that SQLite finds, or none if it finds no table or refuses the file."""
    try:
        with looked_at(file) as connection:
            return lines_in(connection)
    except FAULTS:
        return []


def last_number(file: Path) -> int:
    """The number of the last line that SQLite finds, or 0."""
    try:
        with looked_at(file) as connection:
            ((number,),) = connection.execute("SELECT coalesce(max(number), 0) FROM command").fetchall()
            return int(number)
    except FAULTS:
        return 0


def doctored(file: Path, statements: Iterable[Statement], folder: str | Path, *, sealed: bool = True) -> Path:
    """A copy of both files after some statements of SQL, all in the database file. Each line gets its digest, unless it
    is to show that something has changed."""
    copy = copied(file, folder, "doctored.db")
    with opened(copy) as connection:
        for statement, values in statements:
            connection.execute(statement, values)
        if sealed:
            seal(connection)
        connection.execute("PRAGMA wal_checkpoint(TRUNCATE)")
    return copy


def check_equal(found: Sequence[bytes], wanted: Sequence[bytes]) -> None:
    """The history has exactly these lines."""
    for place, (line, other) in enumerate(zip(found, wanted), 1):
        if line != other:
            raise Wrong(f"line {place} of the history is {shown(line)}, wanted {shown(other)}")
    if len(found) != len(wanted):
        raise Wrong(f"the history has {len(found)} lines, wanted {len(wanted)}")


def check_after_a_crash(
    found: Sequence[bytes], before: Sequence[bytes], sent: Sequence[bytes], acknowledged: int
) -> None:
    """The history has what it had before, and then a front of the edits that were sent, with all that were
    acknowledged."""
    check_equal(found[: len(before)], before)
    more = found[len(before) :]
    if len(more) < acknowledged:
        raise Wrong(f"{acknowledged} edits were acknowledged, and {len(more)} are in the history")
    check_equal(more, sent[: len(more)])
