"""Files that were damaged: bytes that were turned, and logs that were cut or overwritten."""

import os
import re
import tempfile
from collections.abc import Callable
from functools import partial
from pathlib import Path
from random import Random

from geanmarbles.checks.database.clients import (
    Cases,
    Client,
    check_end,
    line_of,
    over,
    put,
    replies,
    run,
    same_pages,
)
from geanmarbles.checks.database.files import check_equal, copied, found_by_sqlite, history, log_of
from geanmarbles.client.replies import Wrong, shown

# How often one byte of a log and of a file is turned, and how often a log is cut, or damaged in some other way.
TURNED, CUT, TORN = 500, 100, 60
PATHS = ("/", "/?p=1", "/?p=7", "/?p=30")
# A log: its header, the header of each frame, and where a frame has its gate. A page is as large as the file says.
HEADER, FRAME, GATE, SALT = 32, 24, 8, 16
DAMAGED = re.compile(r"-wal is damaged after commit \d+; \d+ bytes follow\n")
OLDER = re.compile(r"-wal is older than .*, or another file's\n")
Change = Callable[[Path, Random], str]


def grown(program: str, file: Path) -> list[bytes]:
    """A file whose log has each of its edits as a commit of its own; returns its history."""
    with Client(program, *over(file)) as client:
        for number in range(1, 41):
            client.ask(put(title=f"post {number}", content="x" * (100 * number)))
            client.ask(line_of(cmd="option", name="blogname", value=str(number)))
    return history(file)


def used(whole: bytes) -> int:
    """Where a log ends: after its last frame it is zero."""
    return len(whole.rstrip(b"\0"))


def turned(path: Path, random: Random) -> str:
    """Turns one byte, half of the time one bit of it."""
    whole = bytearray(path.read_bytes())
    at = random.randrange(used(whole))
    mask = 1 << random.randrange(8) if random.randrange(2) else random.randrange(1, 256)
    whole[at] ^= mask
    path.write_bytes(whole)
    return f"byte {at} of {len(whole)} turned by {mask:#x}"


def cut(path: Path, random: Random) -> str:
    """Cuts a file somewhere."""
    end = used(path.read_bytes())
    at = random.randrange(end)
    os.truncate(path, at)
    return f"cut at {at} of {end}"


def torn(path: Path, random: Random) -> str:
    """Overwrites a log from somewhere on, with random bytes or with zeros, or a page of it."""
    whole = path.read_bytes()
    end = used(whole)
    at = random.randrange(end)
    match random.randrange(3):
        case 0:
            path.write_bytes(whole[:at] + random.randbytes(end - at) + whole[end:])
            return f"overwritten from {at} of {end} on"
        case 1:
            path.write_bytes(whole[:at] + bytes(end - at) + whole[end:])
            return f"zero from {at} of {end} on"
        case _:
            to = min(at + 4_096, end)
            path.write_bytes(whole[:at] + random.randbytes(to - at) + whole[to:])
            return f"{to - at} bytes overwritten at {at} of {end}"


def is_like_a_crash(whole: bytes, now: bytes) -> bool:
    """Whether a log can't be told from one that a crash left: it is cut short of its first gate or right after a frame,
    or at the first change the gate, or the header's first byte, has the byte that shuts it."""
    if len(now) <= HEADER + GATE or now[0] == 0:
        return True
    first = next((at for at, (old, new) in enumerate(zip(whole, now)) if old != new), len(now))
    size = FRAME + int.from_bytes(whole[8:12], "big")
    start = HEADER + max(first - HEADER, 0) // size * size
    shut = 0 if whole[SALT] else 1
    return len(now) == start or now[start + GATE : start + GATE + 1] == bytes([shut])


def check_refusal(copy: Path, said: str, written: bytes, before: tuple[bytes, bytes]) -> None:
    """A start was refused by name and wrote nothing: FILE is as it was, and FILE-wal too if that is what is damaged."""
    begin = f"site: {copy}"
    is_named = said.startswith(begin) and said.count("\n") == 1
    is_of_a_log = any(it.fullmatch(said[len(begin) :]) for it in (DAMAGED, OLDER))
    if written or not is_named or not (is_of_a_log or said[len(begin) :].startswith(": ")):
        raise Wrong(f"it wrote {shown(written)} and said {said!r}")
    if copy.read_bytes() != before[0] or (is_of_a_log and log_of(copy).read_bytes() != before[1]):
        raise Wrong("a file is another after a refused start")


class Damaged:
    """A site in a file, of which copies are damaged."""

    def __init__(self, program: str, ends_well: bool) -> None:
        self.program, self.ends_well = program, ends_well
        self.folder = tempfile.TemporaryDirectory()
        self.file = Path(self.folder.name, "site.db")
        self.lines = grown(program, self.file)
        self.refused = self.whole = self.missed = 0
        if len(self.lines) != 81:
            raise Wrong(f"{len(self.lines)} lines are in the file to be damaged")
        if ends_well:
            # What the log has is copied into the file.
            replies(program, [], *over(self.file))

    def target(self, copy: Path) -> Path:
        return copy if self.ends_well else log_of(copy)

    def judge(self, change: Change, number: int) -> None:
        """A start over the damaged copy is refused by name and writes nothing, or has all of the history."""
        with tempfile.TemporaryDirectory() as folder:
            copy = copied(self.file, folder)
            path = self.target(copy)
            whole = path.read_bytes()
            how = change(path, Random(f"{change.__name__}/{number}"))
            before = copy.read_bytes(), log_of(copy).read_bytes()
            is_crash = not self.ends_well and is_like_a_crash(whole, before[1])
            found_before = found_by_sqlite(copy) if is_crash else []
            ran = run(self.program, b"", *over(copy))
            said = ran.stderr.decode(errors="replace")
            if ran.returncode == 1:
                try:
                    check_refusal(copy, said, ran.stdout, before)
                except Wrong as wrong:
                    raise Wrong(f"{how}: {wrong}") from None
                self.refused += 1
                return
            check_end((ran.returncode, ran.stderr), 0, b"")
            found = history(copy)
            if not is_crash:
                self.whole += 1
                try:
                    check_equal(found, self.lines)
                except Wrong as wrong:
                    raise Wrong(f"{how}: {wrong}") from None
            else:
                self.missed += 1
                check_equal(found, self.lines[: max(len(found), 1)])
                if len(found) < len(found_before):
                    raise Wrong(f"{how}: it finds {len(found)} lines, and SQLite {len(found_before)}")
            same_pages(self.program, copy, found, PATHS)

    def cases(self, change: Change, count: int) -> Cases:
        what = "FILE" if self.ends_well else "FILE-wal"
        for number in range(1, count + 1):
            yield f"{what} {change.__name__} {number}", partial(self.judge, change, number)
        print(
            f"{what} {change.__name__}: {self.refused} of {count} starts were refused, {self.whole} had the whole"
            f" history, and {self.missed} were like one after a crash"
        )
        self.refused = self.whole = self.missed = 0


def log_cases(program: str) -> Cases:
    """Each check of a damaged log by its name, with what judges it."""
    log = Damaged(program, ends_well=False)
    for change, count in ((turned, TURNED), (cut, CUT), (torn, TORN)):
        yield from log.cases(change, count)


def file_cases(program: str) -> Cases:
    """Each check of a damaged file whose edits are all in it."""
    yield from Damaged(program, ends_well=True).cases(turned, TURNED)
