"""What `geanmarbles salvage` saves of damaged files: the edits that are sound, in order; the others are named, and the
files stay as they are."""

import os
import re
import shutil
import sqlite3
import subprocess
import tempfile
from collections.abc import Callable, Sequence
from functools import partial
from pathlib import Path
from random import Random

from geanmarbles.checks.database.clients import (
    SECONDS,
    Cases,
    Client,
    check_end,
    over,
    put,
    replies,
    run,
    same_pages,
)
from geanmarbles.checks.database.damage import cut, grown, is_like_a_crash, turned
from geanmarbles.checks.database.damage_mixed import PAGE, renumber_last
from geanmarbles.checks.database.files import (
    Statement,
    check_equal,
    copied,
    doctored,
    found_by_sqlite,
    history,
    log_of,
    summary,
)
from geanmarbles.checks.judging import must
from geanmarbles.checks.programs import REPLACED, executable
from geanmarbles.client.replies import Wrong
from geanmarbles.paths import command

# How often FILE-wal is turned and cut.
LOGS = 12
PATHS = ("/", "/?p=1", "/?p=7", "/?p=30")
ALL, SOME, NOTHING = 0, 3, 1
LINE = "UPDATE command SET line = ? WHERE number = ?"
LOST, UNREAD = re.compile(r"or can't be read: (.*) \((\d+)\)$", re.M), re.compile(r"can't be read after row (\d+): ")
# Carries out another edit than it is given, and acknowledges it.
CHANGES = f"""#!/bin/sh
{REPLACED} '"post 7"' '"post 8"' | {{program}} "$@"
"""
REFUSED = '{"cmd":"activate","plugin":"another program\'s"}'


def both(file: Path) -> list[bytes | None]:
    """The bytes of both files, as far as they are there."""
    return [it.read_bytes() if it.is_file() else None for it in (file, log_of(file))]


def without_named(lines: Sequence[bytes], said: str) -> list[bytes]:
    """The lines but for the edits that are said to be lost. The first line is the program's."""
    runs = [it.split("-") for found in LOST.findall(said) for it in found[0].split(", ")]
    lost = {number for run in runs for number in range(int(run[0]), int(run[-1]) + 1)}
    must(len(lost) == sum(int(found[1]) for found in LOST.findall(said)), f"it counts otherwise: {said}")
    end = min([len(lines), *map(int, UNREAD.findall(said))])
    return [line for number, line in enumerate(lines[:end], 1) if number == 1 or number not in lost]


class Salvaged:
    """A site in a file: with its edits in its log, and copied into the file."""

    def __init__(self, program: str) -> None:
        self.program, self.room = program, tempfile.TemporaryDirectory()
        self.logged = Path(self.room.name, "logged.db")
        self.lines = grown(program, self.logged)
        self.ended = copied(self.logged, self.room.name, "ended.db")
        replies(program, [], *over(self.ended))

    def run(self, file: Path, out: Path, program: str | None = None) -> tuple[int, str, str]:
        """The status of a run, and what it has written to standard output and standard error. Standard error has what
        a start says, if that is something else."""
        before = both(file)
        with tempfile.TemporaryDirectory() as folder:
            copy = copied(file, folder) if file.is_file() else file
            start = run(program or self.program, None, *over(copy, "--check"))
        words = [*command("geanmarbles"), "salvage", "--program", program or self.program, str(file), str(out)]
        ran = subprocess.run(words, capture_output=True, text=True, timeout=SECONDS)
        if both(file) != before:
            raise Wrong("FILE or FILE-wal is another")
        if ran.returncode == NOTHING and (ran.stdout or not ran.stderr.startswith("salvage: ")):
            raise Wrong(f"it saves nothing, and says {ran.stdout!r} and {ran.stderr!r}")
        if ran.returncode != NOTHING and (ran.returncode == ALL) != (start.stdout == ran.stdout.encode()):
            raise Wrong(f"it ends with {ran.returncode} and {ran.stdout!r}, and a start says {start}")
        told = start.stderr.decode(errors="replace").strip().replace(str(copy), str(file))
        if ran.returncode == SOME and told not in ran.stderr:
            raise Wrong(f"it doesn't say {told!r}, but {ran.stderr!r}")
        return ran.returncode, ran.stdout, ran.stderr

    def saves(self, file: Path, status: int, wanted: Sequence[bytes] | int, *says: str) -> str:
        """Saves these lines, or so many edits and all that it doesn't name, with this status, and says this. Returns
        all that it says."""
        with tempfile.TemporaryDirectory() as folder:
            out = Path(folder, "out.db")
            came, told, said = self.run(file, out)
            found = history(out) if out.exists() else []
            if came != status or not all(it in said for it in says) or (status == ALL and said):
                raise Wrong(f"it ends with {came}, wanted {status}, and says {said!r}, wanted {says}")
            if isinstance(wanted, int):
                must(max(len(found) - 1, 0) == wanted, f"it saves {len(found) - 1} edits, wanted {wanted}: {said}")
                wanted = without_named(self.lines, said)[: len(found)]
            check_equal(found, wanted)
            if found:
                if told != f"{summary(found)}\n":
                    raise Wrong(f"it tells {told!r}, and OUT has {summary(found)}")
                same_pages(self.program, out, found, PATHS)
            elif log_of(out).exists():
                raise Wrong("OUT-wal is there, and OUT isn't")
            return said

    def sound(self) -> None:
        """all of a sound file is saved, from its log and without it"""
        self.saves(self.logged, ALL, self.lines)
        self.saves(self.ended, ALL, self.lines)

    def changed(self, number: int) -> None:
        """A line that was changed is left, and no other."""
        text = self.lines[number - 1].decode() + " "
        with tempfile.TemporaryDirectory() as folder:
            file = doctored(self.logged, [(LINE, (text, number))], folder, sealed=False)
            wanted = [line for it, line in enumerate(self.lines, 1) if it in {1} | {*range(82)} - {number}]
            self.saves(
                file, SOME, wanted, f"rows of {file} that don't have their digest, or can't be read: {number} (1)"
            )

    def gone(self) -> None:
        """of rows that are gone, the one after them is left too"""
        with tempfile.TemporaryDirectory() as folder:
            gone: Statement = ("DELETE FROM command WHERE number IN (9, 10, 20)", ())
            file = doctored(self.logged, [gone], folder, sealed=False)
            wanted = [line for number, line in enumerate(self.lines, 1) if number not in (9, 10, 11, 20, 21)]
            self.saves(file, SOME, wanted)

    def damaged_log(self, change: Callable[[Path, Random], str], number: int) -> None:
        """of a log that was damaged, its sound commits are saved"""
        with tempfile.TemporaryDirectory() as folder:
            file = copied(self.logged, folder)
            whole = log_of(file).read_bytes()
            how = change(log_of(file), Random(f"salvage/{change.__name__}/{number}"))
            front = found_by_sqlite(file)
            check_equal(front, self.lines[: len(front)])
            is_told = not is_like_a_crash(whole, log_of(file).read_bytes())
            says = (f"{file}-wal is damaged after commit ", " bytes follow") if is_told else ()
            status = NOTHING if len(front) < (2 if is_told else 1) else SOME if is_told else ALL
            try:
                self.saves(file, status, front if status != NOTHING else [], *says)
            except Wrong as wrong:
                raise Wrong(f"{how}: {wrong}") from None

    def damaged_page(self, number: int) -> None:
        """Of a file with a damaged page all is saved but what is named: a few rows, unless it is the table's root."""
        with tempfile.TemporaryDirectory() as folder:
            file, out = copied(self.ended, folder), Path(folder, "out.db")
            with file.open("r+b") as opened:
                opened.seek(number * PAGE)
                opened.write(Random(f"page {number}").randbytes(PAGE))
            status, _, said = self.run(file, out)
            if (status == NOTHING) == out.exists():
                raise Wrong(f"it ends with status {status}, and OUT is{'' if out.exists() else ' not'} there: {said}")
            found = history(out) if out.exists() else []
            check_equal(found, without_named(self.lines, said) if found else [])
            must(number == 1 or len(self.lines) - len(found) < 20, f"{len(found)} lines are saved: {said}")

    def older_log(self) -> None:
        """a FILE-wal of an earlier moment is left, where FILE alone has more"""
        with tempfile.TemporaryDirectory() as folder:
            file = copied(self.ended, folder)
            shutil.copyfile(log_of(self.logged), log_of(file))
            replies(self.program, [put(title="later")], *over(copied(self.ended, folder, "newer.db")))
            newer = Path(folder, "newer.db")
            shutil.copyfile(log_of(self.logged), log_of(newer))
            why = f"{newer}-wal is left: without it more rows of {newer} are sound"
            self.saves(newer, SOME, [*self.lines, put(title="later")], why)
            self.saves(file, ALL, self.lines)

    def compacted(self) -> None:
        """a short history and what came after it are saved, where FILE alone still has the longer one"""
        with tempfile.TemporaryDirectory() as folder:
            file = copied(self.ended, folder)
            ran = run(self.program, b"", *over(file, "--compact"))
            check_end((ran.returncode, ran.stderr), 0, b"")
            with Client(self.program, *over(file)) as client:
                client.ask(put(title="later"))
            wanted = history(file)
            if len(wanted) >= len(self.lines):
                raise Wrong(f"--compact leaves {len(wanted)} of {len(self.lines)} lines")
            self.saves(file, ALL, wanted)

    def renumbered(self) -> None:
        """a larger number in FILE alone doesn't stand for more lines than FILE-wal has"""
        with tempfile.TemporaryDirectory() as folder:
            file = Path(folder, "site.db")
            replies(self.program, [put(title="one")], *over(file))
            with Client(self.program, *over(file)) as client:
                client.ask(put(title="two"))
            wanted = history(file)
            renumber_last(file, 127)
            self.saves(file, SOME, wanted, f"{file}-wal is older than {file}")

    def refused(self) -> None:
        """an edit that the program refuses is left, and no other"""
        with tempfile.TemporaryDirectory() as folder:
            file = doctored(self.logged, [(LINE, (REFUSED, number)) for number in (9, 12, 13)], folder)
            why = f"rows of {file} that {self.program} refuses, with 'refused 6 UnknownPlugin' first: 9, 12-13 (3)"
            self.saves(file, SOME, [*self.lines[:8], *self.lines[9:11], *self.lines[13:]], why)

    def other_program(self) -> None:
        """edits of another program are carried out by this one, which is said"""
        identity: list[Statement] = [(LINE, ('{"site":0,"plugins":[]}', 1))]
        with tempfile.TemporaryDirectory() as folder:
            file = doctored(self.logged, identity, folder)
            self.saves(file, SOME, self.lines, f"{file} is of another program", "with other plugins")

    def changing_program(self) -> None:
        """nothing is saved by a program whose file doesn't have what it has acknowledged"""
        with tempfile.TemporaryDirectory() as folder:
            changes, out = executable(folder, "changes", CHANGES.format(program=self.program)), Path(folder, "out.db")
            status, _, said = self.run(self.ended, out, str(changes))
            if status != NOTHING or "doesn't have what" not in said or out.exists() or log_of(out).exists():
                raise Wrong(f"it ends with status {status} and says {said!r}")

    def refuses(self) -> None:
        """nothing is done if OUT or OUT-wal is there, if a program has FILE open, and if there is no FILE"""
        with tempfile.TemporaryDirectory() as folder:
            file, out = copied(self.ended, folder), Path(folder, "out.db")
            for there in (out, log_of(out)):
                there.write_bytes(b"mine")
                status, _, said = self.run(file, out)
                if (status, said, there.read_bytes()) != (NOTHING, f"salvage: {there} is there already\n", b"mine"):
                    raise Wrong(f"it ends with status {status} and says {said!r}")
                there.unlink()
            with Client(self.program, *over(file)) as client:
                client.ask(b"{}")
                self.saves(file, NOTHING, [], "the file is in use")
            self.saves(Path(folder, "nowhere.db"), NOTHING, [], "there is no file")
            self.saves(Path(folder), NOTHING, [], "there is no file")

    def cases(self) -> Cases:
        moments = (self.sound, self.gone, self.older_log, self.compacted, self.renumbered)
        for judged in (*moments, self.refused, self.other_program, self.changing_program, self.refuses):
            yield f"salvage: {judged.__doc__}", judged
        for number in (1, 2, 40, len(self.lines)):
            yield f"salvage: line {number} was changed", partial(self.changed, number)
        for change in (turned, cut):
            for number in range(LOGS):
                yield f"salvage: FILE-wal {change.__name__} {number}", partial(self.damaged_log, change, number)
        for number in range(self.ended.stat().st_size // PAGE):
            yield f"salvage: page {number} of FILE is damaged", partial(self.damaged_page, number)


def turn(file: Path, text: bytes) -> None:
    """Turns a byte in the middle of a text that FILE has once."""
    whole = bytearray(file.read_bytes())
    must(whole.count(text) == 1, f"FILE has {text!r} {whole.count(text)} times")
    whole[whole.index(text) + len(text) // 2] ^= 0x21
    file.write_bytes(whole)


def digest_at(file: Path, number: int) -> bytes:
    with tempfile.TemporaryDirectory() as folder, sqlite3.connect(copied(file, folder)) as connection:
        ((digest,),) = connection.execute("SELECT digest FROM command WHERE number = ?", (number,))
        return bytes(digest)


def shorten(file: Path, part: float) -> None:
    """Cuts a part of FILE's pages, one at least."""
    pages = file.stat().st_size // PAGE
    os.truncate(file, PAGE * min(int(pages * (1 - part)), pages - 1))


def clear(file: Path, begin: int = 0, length: int | None = None) -> None:
    """Overwrites FILE, or a part of it, with zeros."""
    whole = file.read_bytes()
    end = len(whole) if length is None else begin + length
    file.write_bytes(whole[:begin] + bytes(end - begin) + whole[end:])


# Damages, each of a site that has ended, of one with half of its edits in FILE-wal, or of FILE as it was after a few
# edits beside the FILE-wal of after many: the status, and how many of the 110 edits are saved.
ENDED, HALF, EARLIER = "ended.db", "half.db", "earlier.db"
Damage = Callable[[Path], object]
# Two for which FILE is read with the first page of a new site.
FIRST_PAGE, SCHEMA = MENDED = ("the first page of FILE is zero", "a byte of the schema is turned")
DAMAGES: dict[str, tuple[str, Damage, int, int]] = {
    "nothing is damaged, and FILE has all": (ENDED, lambda file: None, ALL, 110),
    "nothing is damaged, and FILE-wal has a half": (HALF, lambda file: None, ALL, 110),
    "FILE-wal is gone": (HALF, lambda file: log_of(file).unlink(), SOME, 55),
    "FILE is of an earlier moment than FILE-wal": (EARLIER, lambda file: None, SOME, 8),
    "FILE is cut by a page": (ENDED, lambda file: shorten(file, 0), SOME, 107),
    "FILE is cut by a quarter": (ENDED, lambda file: shorten(file, 1 / 4), SOME, 79),
    "FILE is cut by a half": (ENDED, lambda file: shorten(file, 1 / 2), SOME, 51),
    "a byte of a line is turned": (ENDED, lambda file: turn(file, b"content 4 "), SOME, 109),
    "a byte of the first line is turned": (ENDED, lambda file: turn(file, b'"plugins"'), SOME, 110),
    "a byte of a digest is turned": (ENDED, lambda file: turn(file, digest_at(file, 5)), SOME, 108),
    "a page of FILE is zero": (ENDED, lambda file: clear(file, 20 * PAGE, PAGE), SOME, 107),
    FIRST_PAGE: (ENDED, lambda file: clear(file, 0, PAGE), SOME, 110),
    SCHEMA: (ENDED, lambda file: turn(file, b"CREATE TABLE"), SOME, 110),
    "FILE is zero, and FILE-wal has a half": (HALF, clear, SOME, 55),
    "FILE is empty, and FILE-wal has a half": (HALF, lambda file: os.truncate(file, 0), SOME, 55),
    "FILE is zero, and FILE-wal has nothing": (ENDED, clear, NOTHING, 0),
}


class Table(Salvaged):
    """A site of 110 posts of 1,500 bytes, with the files of each row of the table."""

    def __init__(self, program: str) -> None:
        self.program, self.room = program, tempfile.TemporaryDirectory()
        self.folder = Path(self.room.name)
        puts = [put(title=f"post {it}", content=f"content {it} ".ljust(1_500, "x")) for it in range(1, 111)]
        ended, half, earlier = (self.folder / it for it in (ENDED, HALF, EARLIER))
        replies(program, puts, *over(ended))
        replies(program, puts[:55], *over(half))
        self.killed_after(half, puts[55:])
        replies(program, puts[:8], *over(earlier))
        later = copied(earlier, self.folder, "later.db")
        replies(program, puts[8:28], *over(later))
        self.killed_after(later, puts[28:36])
        shutil.copyfile(log_of(later), log_of(earlier))
        self.lines = history(ended)

    def killed_after(self, file: Path, lines: list[bytes]) -> None:
        """The program is killed once it has replied to some edits, which are then in FILE-wal."""
        with Client(self.program, *over(file)) as client:
            must(all(client.ask(it) for it in lines), "an edit isn't done")

    def damaged(self, name: str) -> None:
        site, damage, status, edits = DAMAGES[name]
        with tempfile.TemporaryDirectory() as folder:
            file = copied(self.folder / site, folder)
            damage(file)
            said = self.saves(file, status, edits)
            must((f"the first page of {file} is left" in said) == (name in MENDED), f"it says {said}")

    def cases(self) -> Cases:
        for name in DAMAGES:
            yield f"salvage: {name}", partial(self.damaged, name)


def cases(program: str) -> Cases:
    """Each check by its name, with what judges it."""
    yield from Salvaged(program).cases()
    yield from Table(program).cases()
