"""A file or its log that is removed or replaced while the program has it: the program ends, and says so."""

import os
import shutil
import tempfile
from collections.abc import Callable
from functools import partial
from pathlib import Path

from geanmarbles.checks.database.clients import Cases, Client, check_end, get, over, put, replies
from geanmarbles.checks.database.files import check_equal, copied, history, log_of
from geanmarbles.client.replies import Wrong

GONE = "the file or its log was removed or replaced while it was in use"
Change = Callable[[Path], None]


def removed(path: Path) -> None:
    path.unlink()


def replaced_by_a_copy(path: Path) -> None:
    copy = Path(f"{path}.copy")
    shutil.copyfile(path, copy)
    copy.replace(path)


def replaced_by_nothing(path: Path) -> None:
    empty = Path(f"{path}.empty")
    empty.touch()
    empty.replace(path)


def moved_away(path: Path) -> None:
    path.rename(f"{path}.away")


def touched(path: Path) -> None:
    os.utime(path)
    path.chmod(0o640)


def linked(path: Path) -> None:
    """Another name for it; an open refuses a file that has two, so the name goes again."""
    other = Path(f"{path}.linked")
    os.link(path, other)
    other.unlink()


CHANGES: tuple[Change, ...] = (removed, replaced_by_a_copy, replaced_by_nothing, moved_away)
HARMLESS: tuple[Change, ...] = (touched, linked)
NEXT: dict[str, bytes | None] = {"an edit": put(title="lost"), "a page": get("/"), "the end": None}


class Replaced:
    """A program that serves a file, which is changed while the program waits for its client."""

    def __init__(self, program: str) -> None:
        self.program = program

    def ends(self, change: Change, is_log: bool, after: bytes | None) -> None:
        """The next line is neither carried out nor replied to, and what is at the path now is left as it is."""
        with tempfile.TemporaryDirectory() as folder:
            file = Path(folder, "site.db")
            path = log_of(file) if is_log else file
            with Client(self.program, *over(file)) as client:
                if client.ask(put(title="kept")) != b"ok 1\n":
                    raise Wrong("the first edit isn't done")
                change(path)
                before = path.read_bytes() if path.exists() else None
                if after is not None and client.ask(after) is not None:
                    raise Wrong("a line is replied to after the file is gone")
                check_end(client.end(), 1, f"site: {file}: {GONE}\n".encode())
            if (path.read_bytes() if path.exists() else None) != before:
                raise Wrong("what is at the path is written into")

    def goes_on(self, change: Change, is_log: bool) -> None:
        """The file is the same one, so edits go on."""
        with tempfile.TemporaryDirectory() as folder:
            file = Path(folder, "site.db")
            with Client(self.program, *over(file)) as client:
                client.ask(put(title="one"))
                change(log_of(file) if is_log else file)
                if client.ask(put(title="two")) != b"ok 2\n":
                    raise Wrong("an edit isn't done")
                check_end(client.end(), 0, b"")
            if len(history(file)) != 3:
                raise Wrong("an edit is lost")

    def is_seen_at_the_first_line(self) -> None:
        """a file that is replaced before the first edit comes"""
        with tempfile.TemporaryDirectory() as folder:
            file = Path(folder, "site.db")
            replies(self.program, [put(title="kept")], *over(file))
            lines = history(file)
            copy = copied(file, folder)
            with Client(self.program, *over(file)) as client:
                if client.ask(b"") is None:
                    raise Wrong("it doesn't serve")
                copy.replace(file)
                if client.ask(put(title="lost")) is not None:
                    raise Wrong("a line is replied to after the file is replaced")
                check_end(client.end(), 1, f"site: {file}: {GONE}\n".encode())
            check_equal(history(file), lines)

    def cases(self) -> Cases:
        for is_log, name in ((False, "FILE"), (True, "FILE-wal")):
            for change in CHANGES:
                for what, after in NEXT.items():
                    judged = partial(self.ends, change, is_log, after)
                    yield f"replaced: {name} is {change.__name__}, and then {what}", judged
            for change in HARMLESS:
                yield f"replaced: {name} is {change.__name__}", partial(self.goes_on, change, is_log)
        yield f"replaced: {self.is_seen_at_the_first_line.__doc__}", self.is_seen_at_the_first_line


def cases(program: str) -> Cases:
    """Each check by its name, with what judges it."""
    return Replaced(program).cases()
