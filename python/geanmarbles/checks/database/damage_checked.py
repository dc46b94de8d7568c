"""What the program says of a file with --check and --export: how many edits it has and their digest; and who may read
the files that it makes."""

import os
import tempfile
from collections.abc import Callable
from functools import partial
from pathlib import Path
from random import Random

from geanmarbles.checks.database.clients import Cases, check_end, over, put, replies, run
from geanmarbles.checks.database.damage import cut, grown, is_like_a_crash, turned
from geanmarbles.checks.database.files import (
    Statement,
    check_equal,
    copied,
    doctored,
    found_by_sqlite,
    history,
    log_of,
    summary,
)
from geanmarbles.client.replies import Wrong, shown

LINE = "UPDATE command SET line = ? WHERE number = ?"
# Changes of a file, and how what the program then says goes on.
CHANGED: dict[str, tuple[Statement, bool, str]] = {
    "a line": ((LINE, ("{}", 7)), False, "line 7 of the log has changed since it was written"),
    "a line that is gone": (("DELETE FROM command WHERE number = 9", ()), False, "line 9 of the log has changed"),
    "an edit that is refused": ((LINE, ("{}", 7)), True, "line 7 of the history is refused: 1 BadCommand"),
    "another program's": ((LINE, ("{}", 1)), True, "the file was written by a program with other plugins"),
    "another table": (("CREATE TABLE more (x)", ()), True, "the database is not a log of commands"),
}
LOGS = 10
UMASKS = (0o000, 0o022, 0o077)
READ_BY_ALL, OWNERS = 0o644, 0o600


def mode(path: Path) -> int:
    return path.stat().st_mode & 0o777


def check_tells(program: str, file: Path, lines: list[bytes]) -> None:
    """--check and --export tell the number of edits and the digest that hashlib finds, and leave the history. They copy
    nothing into FILE."""
    told, before = f"{summary(lines)}\n", file.read_bytes()
    ran = run(program, b"no line is read\n", *over(file, "--check"))
    if (ran.returncode, ran.stdout.decode(), ran.stderr) != (0, told, b""):
        raise Wrong(f"--check: status {ran.returncode}, {shown(ran.stdout)} {shown(ran.stderr)}, wanted {told!r}")
    check_equal(history(file), lines)
    ran = run(program, None, *over(file, "--export"))
    check_end((ran.returncode, ran.stderr), 0, f"site: {file}: {told}".encode())
    check_equal(history(file), lines)
    if file.read_bytes() != before:
        raise Wrong("FILE is another after --check and --export")


class Checked:
    """A site in a file, with its edits in its log."""

    def __init__(self, program: str) -> None:
        self.program, self.room = program, tempfile.TemporaryDirectory()
        self.file = Path(self.room.name, "site.db")
        self.lines = grown(program, self.file)

    def sound(self) -> None:
        """a sound file, its edits in its log and copied into it; with one edit more; a new one; and a short history"""
        with tempfile.TemporaryDirectory() as folder:
            copy = copied(self.file, folder)
            check_tells(self.program, copy, self.lines)
            line = put(title="one more", content="\u00e9\u2028")
            replies(self.program, [line], *over(copy))
            check_tells(self.program, copy, [*self.lines, line])
            run(self.program, None, *over(copy, "--compact"))
            check_tells(self.program, copy, history(copy))
            new = Path(folder, "new.db")
            replies(self.program, [], *over(new))
            check_tells(self.program, new, self.lines[:1])

    def refuses(self, file: Path, *says: str, may_have_log: bool = False) -> None:
        """A file is refused as at a start, with status 1, and neither file is changed or made. If FILE was opened, it
        may have got a FILE-wal, and has the same lines."""
        both = (file,) if may_have_log else (file, log_of(file))
        before = [it.read_bytes() if it.exists() else None for it in both]
        lines = found_by_sqlite(file) if file.exists() else []
        ran = run(self.program, b"", *over(file, "--check"))
        said = ran.stderr.decode(errors="replace")
        if (ran.returncode, ran.stdout) != (1, b"") or said.count("\n") != 1 or not all(it in said for it in says):
            raise Wrong(f"status {ran.returncode}, {shown(ran.stdout)}, and it says {said!r}, wanted {says}")
        if [it.read_bytes() if it.exists() else None for it in both] != before:
            raise Wrong(f"it says {said!r}, and a file is another")
        if may_have_log and found_by_sqlite(file) != lines:
            raise Wrong(f"it says {said!r}, and the lines are others")

    def changed(self, statement: Statement, is_sealed: bool, says: str) -> None:
        with tempfile.TemporaryDirectory() as folder:
            file = doctored(self.file, [statement], folder, sealed=is_sealed)
            self.refuses(file, f"site: {file}: {says}", may_have_log=True)

    def damaged(self, change: Callable[[Path, Random], str], number: int) -> None:
        with tempfile.TemporaryDirectory() as folder:
            file = copied(self.file, folder)
            whole = log_of(file).read_bytes()
            how = change(log_of(file), Random(f"checked/{change.__name__}/{number}"))
            if is_like_a_crash(whole, log_of(file).read_bytes()):
                return
            try:
                self.refuses(file, f"site: {file}-wal is damaged after commit ")
            except Wrong as wrong:
                raise Wrong(f"{how}: {wrong}") from None

    def has_to_be_there(self) -> None:
        """a file that isn't there, or is empty, is refused and not made"""
        with tempfile.TemporaryDirectory() as folder:
            nowhere, empty = Path(folder, "nowhere.db"), Path(folder, "empty.db")
            empty.touch()
            self.refuses(nowhere, f"site: {nowhere}: there is no such file")
            self.refuses(empty, f"site: {empty}: the file is empty")
            if os.listdir(folder) != ["empty.db"]:
                raise Wrong(f"there are {sorted(os.listdir(folder))}")

    def is_its_owners(self, umask: int) -> None:
        """A new file and its log are for their owner alone, while it is served and afterwards."""
        with tempfile.TemporaryDirectory() as folder:
            file = Path(folder, "new.db")
            for lines in ([put(title="T")], [put(title="U")]):
                ran = run(self.program, b"".join(it + b"\n" for it in lines), *over(file), umask=umask)
                check_end((ran.returncode, ran.stderr), 0, b"")
                modes = {it.name: oct(mode(it)) for it in Path(folder).iterdir()}
                if set(modes.values()) != {oct(OWNERS)} or len(modes) != 2:
                    raise Wrong(f"the modes are {modes}")

    def keeps_modes(self) -> None:
        """the mode of a file that is there isn't changed, whatever is done with it"""
        with tempfile.TemporaryDirectory() as folder:
            file = copied(self.file, folder)
            for path in (file, log_of(file)):
                path.chmod(READ_BY_ALL)
            for words in ((), ("--check",), ("--export",), ("--compact",), ()):
                run(self.program, put(title="T") + b"\n", *over(file, *words), umask=0o077)
                modes = [oct(mode(it)) for it in (file, log_of(file))]
                if modes != [oct(READ_BY_ALL)] * 2:
                    raise Wrong(f"after {words} the modes are {modes}")

    def cases(self) -> Cases:
        yield "check: " + str(self.sound.__doc__), self.sound
        for name, how in CHANGED.items():
            yield f"check: {name}", partial(self.changed, *how)
        for change in (turned, cut):
            for number in range(LOGS):
                yield f"check: FILE-wal {change.__name__} {number}", partial(self.damaged, change, number)
        yield "check: " + str(self.has_to_be_there.__doc__), self.has_to_be_there
        for umask in UMASKS:
            yield f"check: the mode of new files under umask {umask:03o}", partial(self.is_its_owners, umask)
        yield "check: " + str(self.keeps_modes.__doc__), self.keeps_modes


def cases(program: str) -> Cases:
    """Each check by its name, with what judges it."""
    return Checked(program).cases()
