"""Runs each script that has a program over a site's file, and checks that FILE alone is the whole site afterwards.

    tests/left_files/run [PROGRAM]

PROGRAM is the one that is here, built or shipped, if it is left out. Each script begins with a site whose last edits
are in FILE-wal, as a program that is killed leaves them, and makes a further edit if it makes any. After its end, which
for one that serves is that after SIGTERM or Ctrl-C, FILE is moved alone, as a person does who thinks that it is the
site: to another folder, where the program starts with --without-wal, and over an older site in a file whose FILE-wal
stays. Both starts must find every edit. `undo` is also followed by `mv NEW.db SITE.db`, and it and `salvage` are
stopped in the middle, which must leave no file; `cluster/three` must leave no process. `serve` must make no site of a
wrong path. At last the command of docs/BEHAVIOUR.md that looks at a file by `sqlite3` is given to a shell: the site
must start after it.

The last line is 'N passed, M failed', with ', K skipped' if `sqlite3` or etcd isn't installed. The exit status is 0 if
nothing failed.
"""

from __future__ import annotations

import contextlib
import http.client
import json
import os
import re
import shutil
import signal
import subprocess
import sys
import tempfile
import threading
import time
from collections.abc import Callable, Iterator, Sequence
from functools import partial
from pathlib import Path
from typing import Any, Self

from geanmarbles.checks.browse.browsing import take_interrupts
from geanmarbles.checks.cluster.processes import Processes, free_port, wait_for
from geanmarbles.checks.judging import Counts, Skipped, must
from geanmarbles.checks.programs import executable, missing, parser_of
from geanmarbles.client.program import Program, pipe
from geanmarbles.paths import GEANMARBLES, ROOT, TESTS, command
from geanmarbles.supervisor.kept import log_of

SECONDS = 120
TOKEN = "secret"
# How many edits a site has at first; how many if a script is to be stopped in the middle, and the older site.
EDITS, MANY, OLDER = 20, 4_000, 3
EXPORT = TESTS / "from_wordpress" / "whole" / "pottery.xml"
POST = "title: Last\ndate: 2024-05-01 10:00:00\n\nx\n"
# What stands for the command `sqlite3` where it isn't installed: Python's own module.
SQLITE = """#!/usr/bin/env python3
import sqlite3, sys

*options, file, query = sys.argv[1:]
mode = "ro" if "-readonly" in options else "rw"
for row in sqlite3.connect(f"file:{file}?mode={mode}", uri=True).execute(query):
    print(*row, sep="|")
"""


def put_line(number: int) -> bytes:
    return json.dumps({"cmd": "put", "title": f"Post {number}", "date": "2024-05-01 10:00:00"}).encode()


class Room:
    """A folder with a site in a file, whose program was killed."""

    def __init__(self, program: str, lines: Sequence[bytes] = ()) -> None:
        self.program, self.lines = program, lines or [put_line(it) for it in range(EDITS)]

    def __enter__(self) -> Self:
        self.room = tempfile.TemporaryDirectory()
        self.folder = Path(self.room.name)
        self.site, self.new, self.token = self.folder / "site.db", self.folder / "new.db", self.folder / "token"
        self.token.write_text(TOKEN, encoding="ascii")
        site = Program(self.program, "--database", str(self.site))
        for line in self.lines:
            must(site.ask(line).text().startswith("ok"), f"an edit is refused: {line[:80]!r}")
        site.kill()
        return self

    def __exit__(self, *_: object) -> None:
        self.room.cleanup()

    def file(self, text: str) -> Path:
        path = self.folder / "post.txt"
        path.write_text(text, encoding="utf-8")
        return path

    def run(self, script: str, *words: str | Path) -> None:
        """Runs a script of examples/ to its end."""
        given: list[str | Path] = [GEANMARBLES, *script.split(), "--program", self.program, *words]
        ran = subprocess.run(given, capture_output=True, text=True, timeout=SECONDS)
        must(ran.returncode == 0, f"{script} ended with status {ran.returncode}: {ran.stderr[-300:]}")

    def summary(self, file: Path, *options: str) -> str:
        """How many edits a start finds, and the digest of them all."""
        words = [self.program, "--database", str(file), *options, "--check"]
        ran = subprocess.run(words, capture_output=True, text=True, timeout=SECONDS)
        must(ran.returncode == 0, f"{file.name} isn't read: {ran.stderr}")
        return ran.stdout.strip()

    def copy(self, name: str, *files: Path) -> Path:
        """A copy of a file, or of one with its log, in a folder of its own."""
        folder = self.folder / name
        folder.mkdir()
        for it in files:
            shutil.copyfile(it, folder / it.name)
        return folder / files[0].name


def is_whole(room: Room, file: Path, count: int | None = None) -> None:
    """FILE alone has the edits that FILE and FILE-wal have, which are so many."""
    whole = room.summary(room.copy("both", file, log_of(file)))
    must(count is None or whole.startswith(f"{count} edits, "), f"both files have {whole}, wanted {count} edits")
    found = room.summary(room.copy("elsewhere", file), "--without-wal")
    must(found == whole, f"elsewhere FILE alone has {found}, and with FILE-wal it is {whole}")
    older = room.folder / "older.db"
    with Program(room.program, "--database", str(older)) as site:
        for number in range(OLDER):
            site.ask(put_line(number))
    must(log_of(older).exists(), "the older site has no log")
    os.replace(room.copy("moved", file), older)
    found = room.summary(older)
    must(found == whole, f"over an older site FILE alone has {found}, and with FILE-wal it is {whole}")


def is_hidden(program: str) -> None:
    """After a kill FILE alone lacks edits, so these checks show something."""
    with Room(program) as room:
        whole = room.summary(room.copy("both", room.site, log_of(room.site)))
        with contextlib.suppress(Exception):
            must(room.summary(room.copy("alone", room.site), "--without-wal") != whole, "FILE has every edit")
            return
        must(whole.startswith(f"{EDITS} edits, "), f"both files have {whole}")


def posted(program: str, *words: str) -> None:
    with Room(program) as room:
        room.run(f"post {words[0]}", room.site, *words[1:], room.file(POST))
        is_whole(room, room.site, EDITS + 1)


def told(program: str) -> None:
    with Room(program) as room:
        room.run("history", room.site, "1")
        is_whole(room, room.site, EDITS)


def undone(program: str) -> None:
    with Room(program) as room:
        room.run("undo", room.site, room.new)
        is_whole(room, room.new, EDITS - 1)


def undone_in_place(program: str) -> None:
    """`mv NEW.db SITE.db` takes an edit back, as often as one likes."""
    with Room(program) as room:
        for count in (EDITS - 1, EDITS - 2):
            room.run("undo", room.site, room.new)
            wanted = room.summary(room.new)
            must(wanted.startswith(f"{count} edits, "), f"the new file has {wanted}")
            os.replace(room.new, room.site)
            must(room.summary(room.site) == wanted, f"after the move there are {room.summary(room.site)}")
        room.run("post new", room.site, room.file(POST))
        must(room.summary(room.site).startswith(f"{EDITS - 1} edits, "), "the next edit isn't there")


def saved(program: str) -> None:
    with Room(program) as room:
        room.run("salvage", room.site, room.new)
        is_whole(room, room.new, EDITS)


def stopped(program: str, script: str) -> None:
    """SIGTERM in the middle ends it with a reason, and leaves no file."""
    with Room(program, [put_line(it) for it in range(MANY)]) as room:
        words: list[str | Path] = [GEANMARBLES, script, "--program", program, room.site, room.new]
        with subprocess.Popen(words, stdout=subprocess.DEVNULL, stderr=subprocess.PIPE) as running:
            wait_for(room.new.exists, SECONDS, "the new file is there", 0.001)
            running.terminate()
            status, said = running.wait(SECONDS), pipe(running.stderr).read().decode()
        must((status, said) == (1, f"{script}: stopped\n"), f"status {status}, {said!r}")
        must(not room.new.exists() and not log_of(room.new).exists(), "the new file is left")
        is_whole_again = room.summary(room.site)
        must(is_whole_again.startswith(f"{MANY} edits, "), f"the site has {is_whole_again}")


def published(program: str) -> None:
    ran = subprocess.run([GEANMARBLES, "import", "wordpress", EXPORT], capture_output=True, timeout=SECONDS)
    lines = ran.stdout.splitlines()
    with Room(program, lines) as room:
        room.run("publish", EXPORT, room.site, room.folder / "archive")
        is_whole(room, room.site, len(lines))


def first_line(running: subprocess.Popen[bytes]) -> str:
    """The first line that a script writes. One that writes nothing is killed."""
    timer = threading.Timer(SECONDS, running.kill)
    timer.start()
    try:
        return pipe(running.stdout).readline().decode()
    finally:
        timer.cancel()


def port_of(running: subprocess.Popen[bytes]) -> int:
    """The port at which a script serves."""
    found = re.fullmatch(r"http://127\.0\.0\.1:(\d+)/\n", line := first_line(running))
    must(found, f"where it serves: {line!r}")
    return int(found[1]) if found else 0


class Served:
    """A script that serves the site of a room, for a `with` block."""

    def __init__(self, room: Room, script: str, *words: str) -> None:
        self.room, self.acknowledged = room, 0
        given: list[str | Path] = [GEANMARBLES, script, "--program", room.program, "--port", "0"]
        given += ["--database", room.site, "--token-file", room.token, *words]
        how: dict[str, Any] = {"stdout": subprocess.PIPE, "preexec_fn": take_interrupts}
        with open(room.folder / "said", "wb") as said:
            self.running: subprocess.Popen[bytes] = subprocess.Popen(given, stderr=said, **how)
        self.port = port_of(self.running)

    def __enter__(self) -> Self:
        return self

    def __exit__(self, *_: object) -> None:
        self.running.kill()
        self.running.wait()
        pipe(self.running.stdout).close()

    def edit(self) -> None:
        connection = http.client.HTTPConnection("127.0.0.1", self.port, timeout=SECONDS)
        with contextlib.closing(connection):
            head = {"Authorization": f"Bearer {TOKEN}"}
            connection.request("POST", "/command", put_line(0), head)
            said = connection.getresponse().read()
        must(said.startswith(b"ok "), f"an edit is {said!r}")
        self.acknowledged += 1

    def edit_on(self) -> None:
        """Makes edits until there is nobody who takes them."""
        with contextlib.suppress(OSError, http.client.HTTPException):
            while True:
                self.edit()

    def ended(self, number: int) -> None:
        self.running.send_signal(number)
        status = self.running.wait(SECONDS)
        must(status == 0, f"its status is {status}: {(self.room.folder / 'said').read_text()[-300:]}")


def served(program: str, script: str, number: int, *words: str) -> None:
    with Room(program) as room:
        with Served(room, script, *words) as running:
            running.edit()
            running.ended(number)
        is_whole(room, room.site, EDITS + 1)


def served_busy(program: str, script: str, number: int) -> None:
    """Every edit is there that a response told of before the end."""
    with Room(program) as room:
        with Served(room, script) as running:
            author = threading.Thread(target=running.edit_on)
            author.start()
            time.sleep(0.5)
            running.ended(number)
            author.join(SECONDS)
        is_whole(room, room.site)
        count = int(room.summary(room.site).split()[0])
        least = EDITS + running.acknowledged
        must(least <= count <= least + 1 and running.acknowledged, f"{count} edits, and {least} were told of")


def served_from_a_file(program: str, script: str) -> None:
    """The edits of a command file are there that it has carried out before it began to serve."""
    with Room(program) as room:
        commands = room.folder / "more.jsonl"
        commands.write_bytes(b"".join(put_line(it) + b"\n" for it in range(3)))
        with Served(room, script, str(commands)) as running:
            running.ended(signal.SIGTERM)
        is_whole(room, room.site, EDITS + 3)


def edited_by_lines(program: str) -> None:
    """Lines of standard input are edits of `browse --edits`."""
    with Room(program) as room:
        given: list[str | Path] = [GEANMARBLES, "browse", "--program", program, "--port", "0", "--edits"]
        how: dict[str, Any] = {"stdin": subprocess.PIPE, "stdout": subprocess.PIPE, "stderr": subprocess.DEVNULL}
        running: subprocess.Popen[bytes] = subprocess.Popen([*given, "--database", room.site], bufsize=0, **how)
        with running:
            port_of(running)
            pipe(running.stdin).write(put_line(0) + b"\n")
            must(pipe(running.stdout).readline() == b"ok %d\n" % (EDITS + 1), "the reply to a line")
            running.terminate()
            must(running.wait(SECONDS) == 0, "the status")
        is_whole(room, room.site, EDITS + 1)


def undone_through_browse(program: str) -> None:
    """A site that is served is undone into a new file."""
    with Room(program) as room, Served(room, "browse") as running:
        room.run("undo", "--token-file", room.token, f"http://127.0.0.1:{running.port}/", room.new)
        is_whole(room, room.new, EDITS - 1)


def ends_with_all(program: str) -> None:
    """`cluster/three` has no site's file: it leaves no process."""
    if not shutil.which("etcd"):
        raise Skipped("there is no etcd (Debian: etcd-server)")
    with tempfile.TemporaryDirectory() as folder, Processes(folder) as processes:
        words = [*command("geanmarbles"), "cluster", "three", "--program", program, "--port", str(free_port())]
        running = processes.start("three", words)
        must(running.first_line(SECONDS).startswith("pages: "), f"it said {running.said()!r}")
        running.send(signal.SIGTERM)
        must(running.child.wait(SECONDS) == 0, f"its status is {running.child.returncode}")
        must(not processes.left(), f"processes are left: {processes.left()}")


def wrong_paths_are_told(program: str) -> None:
    """`serve` makes no site where none is, unless it is told to, and none in place of one that is gone."""
    with tempfile.TemporaryDirectory() as folder:
        typo, commands = Path(folder, "typo.db"), Path(folder, "more.jsonl")
        commands.write_bytes(put_line(0) + b"\n")
        words: list[str | Path] = [GEANMARBLES, "serve", "--program", program, "--port", "0", "--database", typo]
        given: tuple[list[Path], ...] = ([], [commands])
        for more in given:
            ran = subprocess.run([*words, *more], capture_output=True, text=True, timeout=SECONDS)
            must((ran.returncode, ran.stdout) == (1, ""), f"status {ran.returncode}: {ran.stdout!r}")
            must("there is no such file" in ran.stderr and "Traceback" not in ran.stderr, f"it said {ran.stderr!r}")
            must(not typo.exists(), "a site is made")
        for more, wanted in zip((given[0], *given), (b"Nothing found", b"Nothing found", b"Post 0")):
            with subprocess.Popen([*words, "--new", *more], stdout=subprocess.PIPE) as running:
                connection = http.client.HTTPConnection("127.0.0.1", port_of(running), timeout=SECONDS)
                connection.request("GET", "/")
                came = connection.getresponse().read()
                connection.close()
                running.terminate()
                must(running.wait(SECONDS) == 0 and wanted in came, f"the front of a new site is {came!r}")
        ran = subprocess.run([GEANMARBLES, "serve", "--new"], capture_output=True, text=True, timeout=SECONDS)
        must((ran.returncode, ran.stdout) == (2, ""), "--new without a file")


def shown_commands() -> list[tuple[str, str]]:
    """The commands of the example in docs/BEHAVIOUR.md that looks at a file, each with what it shows."""
    text = (ROOT / "docs" / "BEHAVIOUR.md").read_text(encoding="utf-8")
    found = re.search(r"^```\n(\$ [^`]*sqlite3[^`]*)^```$", text, re.M)
    must(found, "BEHAVIOUR.md has no example with sqlite3")
    parts = re.split(r"^\$ ", found[1] if found else "", flags=re.M)[1:]
    return [(typed, shows) for typed, _, shows in (it.partition("\n") for it in parts)]


def looked_at(program: str, is_python: bool) -> None:
    """A person copies the commands into a shell, twice, and makes an edit after each."""
    if not is_python and not shutil.which("sqlite3"):
        raise Skipped("there is no sqlite3 (Debian: sqlite3)")
    with tempfile.TemporaryDirectory() as folder:
        executable(folder, "site", f'#!/bin/sh\nexec {program!r} "$@"\n')
        path = f"{folder}:{os.environ['PATH']}" if is_python else os.environ["PATH"]
        if is_python:
            executable(folder, "sqlite3", SQLITE.replace("/usr/bin/env python3", sys.executable))
        how: dict[str, Any] = {"cwd": folder, "env": {**os.environ, "PATH": path}, "timeout": SECONDS}
        for typed, shows in shown_commands():
            ran = subprocess.run(typed, shell=True, capture_output=True, text=True, **how)
            must((ran.stdout, ran.stderr) == (shows, ""), f"{typed!r} shows {ran.stdout!r}, {ran.stderr!r}")
        look = next(typed for typed, _ in shown_commands() if typed.startswith("sqlite3"))
        for number in (2, 3):
            words = [program, "--database", "t.db"]
            ran = subprocess.run(words, input=put_line(0), capture_output=True, **how)
            must((ran.returncode, ran.stdout) == (0, b"ok %d\n" % number), f"after a look: {ran}")
            subprocess.run(look, shell=True, capture_output=True, check=True, **how)


def cases(program: str) -> Iterator[tuple[str, Callable[[], None]]]:
    checks: dict[str, partial[None]] = {
        "a program that is killed": partial(is_hidden, program),
        "post new": partial(posted, program, "new"),
        "post set": partial(posted, program, "set", "1"),
        "history": partial(told, program),
        "undo": partial(undone, program),
        "undo, and the new file moved over the site": partial(undone_in_place, program),
        "undo of a site that is served": partial(undone_through_browse, program),
        "salvage": partial(saved, program),
        "publish": partial(published, program),
        "browse --edits": partial(edited_by_lines, program),
        "browse --explain": partial(served, program, "browse", signal.SIGTERM, "--explain"),
        "cluster/three and SIGTERM": partial(ends_with_all, program),
        "serve over a path where no site is": partial(wrong_paths_are_told, program),
        "sqlite3, as documented": partial(looked_at, program, False),
        "sqlite3 by Python, as documented": partial(looked_at, program, True),
    }
    for script in ("undo", "salvage"):
        checks[f"{script}, stopped"] = partial(stopped, program, script)
    for script in ("serve", "browse"):
        for number in (signal.SIGTERM, signal.SIGINT):
            checks[f"{script} and {number.name}"] = partial(served, program, script, number)
        checks[f"{script} with a command file"] = partial(served_from_a_file, program, script)
        checks[f"{script} and SIGTERM amid edits"] = partial(served_busy, program, script, signal.SIGTERM)
    yield from checks.items()


def main() -> int:
    program = parser_of(__doc__).parse_args().program
    if missing(program):
        print(f"FAILED: {missing(program)}\n0 passed, 1 failed")
        return 1
    counts = Counts()
    counts.judge_all(cases(program))
    return counts.end()
