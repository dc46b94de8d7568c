"""FILE and FILE-wal of different moments of one site, or of two sites: as after a backup of which one half was put
back."""

import contextlib
import shutil
import sqlite3
import tempfile
from collections import Counter
from functools import partial
from pathlib import Path
from random import Random
from typing import NamedTuple

from geanmarbles.checks.database.clients import Cases, Client, check_end, over, put, run, same_pages
from geanmarbles.checks.database.damage import FRAME, HEADER, OLDER, SALT, check_refusal
from geanmarbles.checks.database.files import copied, found_by_sqlite, history, last_number, log_of
from geanmarbles.client.replies import Wrong

# How many moments of a site are kept, and of how many pairs of them, both ways, a start is judged.
MOMENTS, PAIRS = 24, 20
PATHS = ("/", "/?p=1", "/?p=9", "/?p=60")
# The most bytes of a log that has no commit: its header, and the begin of a frame.
EMPTY = 41
# The size of a page, as a new file has it.
PAGE = 4_096
# The first byte of a page that has rows of a table.
LEAF = 13
# Sizes of contents: one is larger than a page of the file.
SIZES = (10, 300, 5_000)


def database_of(log: bytes) -> int:
    """How large the last commit in a log leaves the database: its frames are those with the header's salt."""
    frames = range(HEADER, len(log) - FRAME - PAGE + 1, FRAME + PAGE)
    of_log = (log[at : at + FRAME] for at in frames if log[at + 8 : at + 16] == log[SALT : SALT + 8])
    sizes = [int.from_bytes(frame[4:8]) for frame in of_log]
    return PAGE * next((size for size in reversed(sizes) if size), 0)


class Moment(NamedTuple):
    """Both files of a site once some edits were acknowledged, and its history then."""

    file: Path
    lines: list[bytes]

    def both(self) -> tuple[bytes, bytes]:
        return self.file.read_bytes(), log_of(self.file).read_bytes()


class Site:
    """A site that is served, killed and ended in turn, and both of its files at some moments."""

    def __init__(self, program: str, name: str) -> None:
        self.random, self.name, self.count = Random(name), name, 0
        self.room = tempfile.TemporaryDirectory()
        self.moments: list[Moment] = []
        file = Path(self.room.name, "site.db")
        while len(self.moments) < MOMENTS:
            with Client(program, *over(file)) as client:
                for _ in range(self.random.randint(1, 2)):
                    self.edit(client)
                    self.keep(file)
                if self.random.randrange(3):
                    check_end(client.end(), 0, b"")
            self.keep(file)
        self.whole = history(file)

    def edit(self, client: Client) -> None:
        for _ in range(self.random.randint(1, 6)):
            self.count += 1
            line = put(title=f"{self.name} {self.count}", content="x" * self.random.choice(SIZES))
            if client.ask(line) != b"ok %d\n" % self.count:
                raise Wrong(f"edit {self.count} isn't done")

    def keep(self, file: Path) -> None:
        """Keeps both files as they are while the program waits for its client, or has ended."""
        folder = Path(self.room.name, str(len(self.moments)))
        folder.mkdir()
        copy = copied(file, folder)
        self.moments.append(Moment(copy, history(copy)))


class Mixed:
    """Starts over FILE of one moment and FILE-wal of another, by what came of them: they are refused, or have the newer
    of the two, or what docs/FAILURES.md says isn't seen."""

    def __init__(self, program: str, one: Site, other: Site) -> None:
        self.program, self.one, self.other = program, one, other
        self.counts: Counter[str] = Counter()

    def judge(self, file: Moment, log: Moment) -> None:
        """A start is refused by name and writes nothing, or has a site as it was at a moment."""
        with tempfile.TemporaryDirectory() as folder:
            copy = Path(folder, "copy.db")
            shutil.copyfile(file.file, copy)
            shutil.copyfile(log_of(log.file), log_of(copy))
            before = copy.read_bytes(), log_of(copy).read_bytes()
            is_longer = 0 < database_of(before[1]) < len(before[0])
            has_more = self.last_alone(file) > last_number(copied(copy, folder, "both.db"))
            ran = run(self.program, b"", *over(copy))
            if ran.returncode == 1:
                said = ran.stderr.decode(errors="replace")
                check_refusal(copy, said, ran.stdout, before)
                is_older = OLDER.fullmatch(said.removeprefix(f"site: {copy}")) is not None
                if is_older and not (is_longer or has_more) or is_longer and not is_older:
                    raise Wrong(f"FILE is {'longer' if is_longer else 'no longer'} than its log says: {said!r}")
                self.counts["refused as older" if is_older else "refused"] += 1
                return
            if is_longer or has_more:
                raise Wrong(f"FILE {'is longer than its log says' if is_longer else 'has more'}, and isn't refused")
            check_end((ran.returncode, ran.stderr), 0, b"")
            found = history(copy)
            if not any(found == site.whole[: len(found)] for site in (self.one, self.other)):
                raise Wrong(f"the history has {len(found)} lines, which were no site's at any moment")
            self.counts[self.kind(file, log, before, found)] += 1
            same_pages(self.program, copy, found, PATHS)

    def kind(self, file: Moment, log: Moment, before: tuple[bytes, bytes], found: list[bytes]) -> str:
        """What a start has found that wasn't refused."""
        are_two = self.one is not self.other
        if found == (file.lines if are_two else max(file.lines, log.lines, key=len)):
            return "all of FILE" if are_two else "the newer one"
        if any(before == it.both() and found == it.lines for it in self.one.moments):
            return "both files of an older moment"
        if len(before[1]) <= EMPTY and found == (self.alone(file) or self.one.whole[:1]):
            return "FILE without its FILE-wal"
        if found == log.lines:
            return "another site's FILE-wal" if are_two else "an older FILE-wal that has all of FILE"
        raise Wrong(f"of {len(file.lines)} and {len(log.lines)} lines {len(found)} are found without a word")

    def alone(self, file: Moment) -> list[bytes]:
        """The lines that SQLite finds in FILE without its log."""
        with tempfile.TemporaryDirectory() as folder:
            return found_by_sqlite(Path(shutil.copy(file.file, folder)))

    def last_alone(self, file: Moment) -> int:
        """The number of the last of them."""
        with tempfile.TemporaryDirectory() as folder:
            return last_number(Path(shutil.copy(file.file, folder)))

    def cases(self) -> Cases:
        what = "one site" if self.one is self.other else "two sites"
        random = Random(what)
        for number in range(1, PAIRS + 1):
            old, new = sorted(random.sample(range(MOMENTS), 2))
            for name, file, log in (("FILE-wal", old, new), ("FILE", new, old)):
                judged = partial(self.judge, self.one.moments[file], self.other.moments[log])
                yield f"mixed: {what}, a newer {name} {number}", judged
        print(f"mixed: {what}: {', '.join(f'{count} starts: {name}' for name, count in sorted(self.counts.items()))}")


def renumber_last(file: Path, number: int) -> None:
    """Gives the last row of FILE alone another number, as what is left of another row in a page that is half written
    may do. All rows are in page 2."""
    database = bytearray(file.read_bytes())
    if database[PAGE] != LEAF:
        raise Wrong("page 2 of FILE isn't a leaf of a table")
    pointer = PAGE + 8 + 2 * (int.from_bytes(database[PAGE + 3 : PAGE + 5]) - 1)
    at = PAGE + int.from_bytes(database[pointer : pointer + 2])
    while database[at] >= 0x80:
        at += 1
    database[at + 1] = number
    file.write_bytes(database)


def half_written(program: str) -> None:
    """A page of FILE that is half written after a loss of power, and is whole in FILE-wal: it may be taken for one with
    later lines, and then SQLite opens the file."""
    with tempfile.TemporaryDirectory() as folder:
        file = Path(folder, "site.db")
        for count in (3, 2):
            with Client(program, *over(file)) as client:
                for number in range(count):
                    client.ask(put(title=f"post {number}"))
                if count == 3:
                    check_end(client.end(), 0, b"")
        wanted = history(file)
        renumber_last(file, 127)
        before = file.read_bytes(), log_of(file).read_bytes()
        ran = run(program, b"", *over(file))
        said = ran.stderr.decode(errors="replace")
        check_refusal(file, said, ran.stdout, before)
        if not OLDER.fullmatch(said.removeprefix(f"site: {file}")):
            raise Wrong(f"FILE ends at a larger number than its log, and the start says {said!r}")
        with contextlib.closing(sqlite3.connect(file)) as connection:
            connection.execute("SELECT count(*) FROM command").fetchall()
        check_end((run(program, b"", *over(file, "--without-wal")).returncode, b""), 0, b"")
        if history(file) != wanted:
            raise Wrong("the history is another once SQLite has opened and closed the file")


def cases(program: str) -> Cases:
    """Each check by its name, with what judges it."""
    yield "mixed: a page of FILE is half written", partial(half_written, program)
    one, other = Site(program, "one"), Site(program, "other")
    yield from Mixed(program, one, one).cases()
    yield from Mixed(program, one, other).cases()
