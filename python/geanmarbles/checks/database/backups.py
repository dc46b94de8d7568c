"""What `geanmarbles backup` copies while a program serves the file: every edit that was replied to before, and a site
as it was at a moment; and when it makes no backup."""

import contextlib
import hashlib
import os
import signal
import subprocess
import tempfile
import threading
import time
from collections.abc import Iterator
from functools import partial
from pathlib import Path
from random import Random
from typing import Self

from geanmarbles.checks.cluster.processes import wait_for
from geanmarbles.checks.database.clients import SECONDS, Cases, Client, check_end, get, line_of, over, put, replies
from geanmarbles.checks.database.damage import HEADER
from geanmarbles.checks.database.files import (
    check_after_a_crash,
    check_equal,
    copied,
    doctored,
    history,
    log_of,
    summary,
)
from geanmarbles.checks.judging import must
from geanmarbles.paths import command

# How many sites are served, and how many backups are made of each while it is edited.
SITES, BACKUPS = 3, 11
# The sizes of contents, and how long a client waits after each edit.
SIZES, PAUSE = (300, 5_000, 200_000), 0.03
# A few such edits fill the log, and so many make a file that takes some milliseconds to copy.
LARGE, SMALL, MANY = put(title="large", content="x" * 200_000), put(title="small"), 120
FRONT = get("/")


def round_of(file: Path) -> bytes:
    """The header of a log, which is another once the log has begun anew."""
    with open(log_of(file), "rb") as log:
        return log.read(HEADER)


class Edited:
    """A client that makes one edit after the other, each after the reply to the one before, and looks at a page."""

    def __init__(self, program: str, file: Path, random: Random) -> None:
        self.client, self.random, self.is_over = Client(program, *over(file)), random, False
        # What was sent, how many of these were replied to, and the front after each.
        self.sent, self.done, self.fronts = list[bytes](), 0, list[bytes]()
        self.thread = threading.Thread(target=self.edit_on, daemon=True)

    def edit_on(self) -> None:
        line = line_of(cmd="option", name="posts_per_page", value="2")
        while not self.is_over:
            self.sent.append(line)
            if self.client.ask(line) is None or (front := self.client.ask(FRONT)) is None:
                return
            self.fronts.append(hashlib.sha256(front).digest())
            self.done += 1
            line = put(title=f"post {self.done}", content="x" * self.random.choice(SIZES))
            time.sleep(PAUSE)

    def __enter__(self) -> Self:
        self.thread.start()
        wait_for(lambda: self.done, SECONDS, "an edit is done")
        return self

    def __exit__(self, *_: object) -> None:
        self.is_over = True
        self.thread.join()
        with self.client:
            check_end(self.client.end(), 0, b"")


class Backups:
    """A site in a file, and one that takes some milliseconds to copy."""

    def __init__(self, program: str) -> None:
        self.program, self.random, self.room = program, Random("backups"), tempfile.TemporaryDirectory()
        folder = Path(self.room.name)
        self.file, self.large, self.out = (folder / it for it in ("site.db", "large.db", "out.db"))
        replies(program, [], *over(self.file))
        replies(program, [LARGE] * MANY, *over(self.large))

    def begin(self, file: Path, *options: str) -> subprocess.Popen[str]:
        words = [*command("geanmarbles"), "backup", "--program", self.program, *options, str(file), str(self.out)]
        return subprocess.Popen(words, stdout=subprocess.PIPE, stderr=subprocess.PIPE, text=True)

    def makes(self, running: subprocess.Popen[str]) -> list[bytes]:
        """The history of a backup, which tells what it has, and is its owner's alone."""
        told, said = running.communicate(timeout=SECONDS)
        must(running.returncode == 0 and not said, f"it ends with status {running.returncode} and says {said!r}")
        found = history(self.out)
        must(told == f"{summary(found)}\n", f"it tells {told!r}, and OUT has {summary(found)}")
        modes = {oct(it.stat().st_mode & 0o777) for it in (self.out, log_of(self.out))}
        must(modes == {"0o600"}, f"the modes are {modes}")
        return found

    def remove(self) -> None:
        for it in (self.out, log_of(self.out)):
            it.unlink(missing_ok=True)

    def makes_none(self, running: subprocess.Popen[str], says: str) -> None:
        """There is no backup, for a reason in one line, and no file is left."""
        told, said = running.communicate(timeout=SECONDS)
        is_said = said.startswith("backup: ") and said.count("\n") == 1 and says in said
        must((running.returncode, told) == (1, "") and is_said, f"status {running.returncode}, {told!r}, {said!r}")
        must(not self.out.exists() and not log_of(self.out).exists(), "a file is left")

    def while_edited(self) -> None:
        """Each backup has every edit that was replied to before, and its front is the site's after its last edit."""
        file, fronts = Path(self.room.name, "edited.db"), dict[int, bytes]()
        replies(self.program, [LARGE, SMALL], *over(file))
        before = history(file)
        with Edited(self.program, file, self.random) as edited:
            for _ in range(BACKUPS):
                done = edited.done
                found = self.makes(self.begin(file))
                check_after_a_crash(found, before, [*edited.sent], done)
                [front] = replies(self.program, [FRONT], *over(self.out))
                fronts[len(found) - len(before) - 1] = hashlib.sha256(front).digest()
                self.remove()
        for number, front in fronts.items():
            must(edited.fronts[number] == front, f"after {number + 1} edits the site had another front")
        check_equal(history(file, is_spent=True), [*before, *edited.sent])
        for it in (file, log_of(file)):
            it.unlink()

    def has_begun(self) -> bool:
        """Whether the pages of FILE are copied that edits change: the first ones, and the last leaf of the table."""
        return self.out.exists() and self.out.stat().st_size > 1_000_000

    @contextlib.contextmanager
    def amid(self) -> Iterator[subprocess.Popen[str]]:
        """A backup that is stopped once it has copied the begin of FILE, before it comes to FILE-wal."""
        for _ in range(20):
            running = self.begin(self.large)
            with running:
                try:
                    wait_for(self.has_begun, SECONDS, "OUT is copied", 0.0001)
                    running.send_signal(signal.SIGSTOP)
                    os.waitid(os.P_PID, running.pid, os.WSTOPPED | os.WNOWAIT)
                    if not log_of(self.out).exists():
                        yield running
                        return
                finally:
                    running.kill()
                    self.remove()
        must(False, "each time FILE was copied before it was stopped")

    def amid_a_copy(self, lines: list[bytes], ends: bool) -> None:
        """If FILE-wal is copied into FILE meanwhile, both are copied again, so no edit is missing. The first one was
        made before."""
        before = history(self.large)
        with Client(self.program, *over(self.large)) as client:
            client.ask(lines[0])
            begun = round_of(self.large)
            with self.amid() as running:
                for line in lines[1:]:
                    client.ask(line)
                if ends:
                    check_end(client.end(), 0, b"")
                must(round_of(self.large) != begun, "the log hasn't begun anew")
                running.send_signal(signal.SIGCONT)
                check_equal(self.makes(running), [*before, *lines])

    def stopped(self) -> None:
        """SIGTERM amid a copy leaves no file"""
        with self.amid() as running:
            running.terminate()
            running.send_signal(signal.SIGCONT)
            self.makes_none(running, "backup: stopped\n")

    def changing(self) -> None:
        """a FILE that is another after each copy is given up"""
        with tempfile.TemporaryDirectory() as folder:
            file = Path(folder, "site.db")
            # (another text at each look)
            file.symlink_to("/proc/sys/kernel/random/uuid")
            log_of(file).touch()
            self.makes_none(self.begin(file), f"{file} was another after each of 10 copies")

    def refused(self) -> None:
        """there is no backup of a FILE that isn't there, that has no FILE-wal, or that a start refuses; OUT is kept"""
        with tempfile.TemporaryDirectory() as folder:
            other = Path(folder, "other.db")
            replies(self.program, [SMALL], *over(other, "--snippets"))
            must(len(self.makes(self.begin(other, "--snippets"))) == 2, "the edit isn't there")
            self.remove()
            alone = copied(self.file, folder)
            log_of(alone).unlink()
            changed = doctored(self.file, [("UPDATE command SET line = '{}'", ())], folder, sealed=False)
            missing = Path(folder, "nowhere.db")
            for file, says in (
                (missing, f"No such file or directory: '{missing}'"),
                (alone, f"No such file or directory: '{log_of(alone)}'"),
                (changed, f"site: {self.out}: line 1 of the log has changed"),
                (other, f"site: {self.out}: the file was written by a program with other plugins"),
            ):
                self.makes_none(self.begin(file), says)
        for there in (self.out, log_of(self.out)):
            there.write_bytes(b"mine")
            running = self.begin(self.file)
            said = running.communicate(timeout=SECONDS)
            must((running.returncode, *said) == (1, "", f"backup: {there} is there already\n"), f"it says {said}")
            must(there.read_bytes() == b"mine", "OUT is another")
            there.unlink()

    def cases(self) -> Cases:
        for number in range(SITES):
            yield f"backup: {BACKUPS} of a site that is edited, {number}", self.while_edited
        yield "backup: the log begins anew while FILE is copied", partial(self.amid_a_copy, [LARGE] * 40, False)
        # (FILE then has as many pages as before)
        yield "backup: the program ends while FILE is copied", partial(self.amid_a_copy, [SMALL] * 3, True)
        for judged in (self.stopped, self.changing, self.refused):
            yield f"backup: {judged.__doc__}", judged


def cases(program: str) -> Cases:
    """Each check by its name, with what judges it."""
    return Backups(program).cases()
