"""Commits that fail: each write and each sync of the files is refused once, in a run of its own, and the next start is
judged."""

import os
import tempfile
from collections.abc import Callable, Sequence
from functools import partial
from pathlib import Path

from geanmarbles.checks.database.clients import Cases, Client, get, joined, over, put, replies, run, same_pages
from geanmarbles.checks.database.files import check_equal, copied, history
from geanmarbles.checks.programs import compiled
from geanmarbles.client.replies import Wrong, refusal_of, shown
from geanmarbles.paths import TESTS

HERE = TESTS / "database"
FAILED = b"site: the database failed: the disk failed\n"
# Why a start is refused whose disk fails: as the files are opened, and once they are.
REFUSED = ("the file cannot be opened", "the disk failed")
PATHS = ("/", "/?p=1", "/?p=5", "/?p=9", "/?p=20")
# Edits that wait for their replies, one commit each, before and after a chunk of edits, which is one commit.
WAITING, CHUNK = 3, 6
# More calls than the script below makes.
MOST_CALLS = 400


def edit(number: int) -> bytes:
    return put(title=f"post {number}", content="x" * 700, n=number)


class Disk:
    """A disk that fails once, loaded before the C library."""

    def __init__(self, folder: str) -> None:
        self.library = str(compiled(HERE / "fail.c", Path(folder)))

    def failing(self, at: int, is_half: bool) -> dict[str, str]:
        """The environment in which the call of this number fails."""
        return {**os.environ, "LD_PRELOAD": self.library, "FAIL_AT": str(at), **({"FAIL_HALF": "1"} if is_half else {})}


def sent_until_it_fails(client: Client, number: int) -> tuple[list[bytes], list[bytes], bool]:
    """Sends edits, with a chunk among them, until the program ends. Returns those that were acknowledged, those of the
    commit that then was under way, and whether all had their replies."""
    acknowledged: list[bytes] = []
    for size in (*[1] * WAITING, CHUNK, *[1] * WAITING):
        lines = [edit(number + len(acknowledged) + at) for at in range(size)]
        client.send(joined([get("/x"), *lines, get("/?p=1")]))
        came = [client.next_reply() for _ in range(size + 2)]
        got = [reply for reply in came if reply is not None]
        if len(got) < len(came):
            late = got[1:]
            if late:
                raise Wrong(f"{len(late)} replies to a commit that failed were written, first {shown(late[0])}")
            return acknowledged, lines, False
        refused = [reply for reply in got if refusal_of(reply)]
        if refused:
            raise Wrong(f"an edit has the reply {shown(refused[0])}")
        acknowledged += lines
    return acknowledged, [], True


def check_found(
    found: Sequence[bytes], before: Sequence[bytes], acknowledged: Sequence[bytes], under_way: Sequence[bytes]
) -> None:
    """The history has what was acknowledged, and of the commit that failed all edits or none."""
    wanted = [*before, *acknowledged]
    check_equal(found, [*wanted, *under_way] if len(found) > len(wanted) else wanted)


def is_refused(file: Path, end: tuple[int, bytes]) -> bool:
    """Whether a program has ended before it served anything, with a reason that a disk may give."""
    return end in [(1, f"site: {file}: {why}\n".encode()) for why in REFUSED]


class Failing:
    """A site whose disk fails at each of its calls in turn, and what came of it."""

    def __init__(self, program: str, is_half: bool) -> None:
        self.program, self.is_half = program, is_half
        self.folder = tempfile.TemporaryDirectory()
        self.disk = Disk(self.folder.name)
        self.file = Path(self.folder.name, "site.db")
        self.starts = self.commits = self.stored = 0

    def begun(self, folder: str, is_new: bool) -> tuple[Path, list[bytes]]:
        """A site that is there, or a file that isn't there yet; and its history so far."""
        if is_new:
            return Path(folder, "new.db"), []
        if not self.file.exists():
            replies(self.program, [edit(number) for number in range(1, 5)], *over(self.file))
        return copied(self.file, folder), history(self.file)

    def served(self, at: int, is_new: bool) -> bool:
        """Serves with the call of this number refused, and judges the next start; returns whether it was met."""
        with tempfile.TemporaryDirectory() as folder:
            file, before = self.begun(folder, is_new)
            with Client(self.program, *over(file), env=self.disk.failing(at, self.is_half)) as client:
                acknowledged, under_way, is_whole = sent_until_it_fails(client, max(len(before), 1))
                status, said = client.end()
            if is_whole:
                if (status, said) != (0, b""):
                    raise Wrong(f"it ended with status {status} and {shown(said)}, and every edit had its reply")
                found = history(file)
                check_equal(found, [*(before or found[:1]), *acknowledged])
                return False
            self.judge(file, before, acknowledged, under_way, (status, said))
        return True

    def judge(
        self, file: Path, before: list[bytes], acknowledged: list[bytes], under_way: list[bytes], end: tuple[int, bytes]
    ) -> None:
        """The end has its name, and the next start finds a site that goes on."""
        if is_refused(file, end) and not acknowledged:
            self.starts, under_way = self.starts + 1, []
        elif end == (1, FAILED):
            self.commits += 1
        else:
            raise Wrong(f"it ended with status {end[0]} and {shown(end[1])}")
        replies(self.program, [], *over(file))
        found = history(file)
        before = before or found[:1]
        check_found(found, before, acknowledged, under_way)
        self.stored += len(found) > len(before) + len(acknowledged)
        same_pages(self.program, file, found, PATHS)
        more = edit(len(found))
        replies(self.program, [more], *over(file))
        check_equal(history(file), [*found, more])

    def shortened(self, at: int) -> bool:
        """Shortens a history with the call of this number refused: it is the old one or the short one."""
        with tempfile.TemporaryDirectory() as folder:
            file, before = self.begun(folder, False)
            short = [before[0], *run(self.program, b"", *over(file, "--export")).stdout.splitlines()]
            env = self.disk.failing(at, self.is_half)
            ran = run(self.program, b"", *over(file, "--compact"), env=env)
            if (ran.returncode, ran.stdout, ran.stderr) == (0, b"", b""):
                check_equal(history(file), short)
                return False
            if ran.stdout or not is_refused(file, (ran.returncode, ran.stderr)):
                raise Wrong(f"it ended with status {ran.returncode} and {shown(ran.stderr)}")
            replies(self.program, [], *over(file))
            found = history(file)
            check_equal(found, short if found != before else before)
            same_pages(self.program, file, found, PATHS)
        return True

    def all_of(self, tried: Callable[[int], bool]) -> int:
        """Refuses the first call, then the second, and so on, until a run has made fewer."""
        for at in range(1, MOST_CALLS):
            try:
                if not tried(at):
                    return at - 1
            except Wrong as wrong:
                raise Wrong(f"call {at}: {wrong}") from None
        raise Wrong(f"after {MOST_CALLS} refused calls there are more")

    def cases(self) -> Cases:
        half = ", with half of its bytes written" if self.is_half else ""
        for is_new, what in ((False, "a site that is there"), (True, "a new file")):
            yield f"{what}, each write and sync refused in turn{half}", partial(self.check, is_new)
        yield f"--compact, each write and sync refused in turn{half}", self.check_shortened
        print(
            f"commits that fail{half}: {self.commits}, of which {self.stored} are there at the next start all the same,"
            f" and {self.starts} starts"
        )
        self.folder.cleanup()

    def check(self, is_new: bool) -> None:
        # Each edit, and each chunk, is a commit of at least one write and two syncs.
        if self.all_of(lambda at: self.served(at, is_new)) < 3 * (2 * WAITING + 1):
            raise Wrong("fewer calls were refused than the commits make")

    def check_shortened(self) -> None:
        if self.all_of(self.shortened) < 3:
            raise Wrong("fewer calls were refused than a commit makes")


def cases(program: str) -> Cases:
    """Each check by its name, with what judges it."""
    for is_half in (False, True):
        yield from Failing(program, is_half).cases()
