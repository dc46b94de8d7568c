"""Readers of the replies that are lost: what the file then holds is what docs/FAILURES.md says, edit by edit."""

import contextlib
import fcntl
import os
import re
import subprocess
import tempfile
import time
from collections.abc import Callable, Iterator, Sequence
from contextlib import AbstractContextManager
from functools import partial
from pathlib import Path
from typing import Any

from geanmarbles.checks.database.clients import SECONDS, Cases, check_end, joined, over, put, replies, same_pages
from geanmarbles.checks.database.files import check_equal, history
from geanmarbles.client.program import pipe
from geanmarbles.client.replies import Wrong
from geanmarbles.paths import TESTS

HERE = TESTS / "database"
FAILURES = HERE.parents[1] / "docs" / "FAILURES.md"
WRITE_FAILED = b"site: write failed\n"
# So many edits come in one write, and take less than a pipe holds; and so many in a file, more than are read at a time.
ONE_WRITE, FILE = 200, 3_000
PATHS = ("/", "/?p=1", "/?p=100", "/?p=200", "/?p=201")
# How long edits may take until they are in the file.
SOON = 30


def edits(count: int) -> list[bytes]:
    return [put(title=f"post {number}", n=number) for number in range(1, count + 1)]


def read_ahead() -> int:
    """How many bytes the program reads ahead, as the document says it."""
    text = " ".join(FAILURES.read_text(encoding="utf-8").split())
    found = re.search(r"The program reads up to ([0-9,]+) bytes ahead", text)
    if found is None:
        raise Wrong("docs/FAILURES.md doesn't say how many bytes are read ahead")
    return int(found[1].replace(",", ""))


def lines_within(lines: Sequence[bytes], size: int) -> int:
    """The lines that end within so many bytes."""
    return joined(lines)[:size].count(b"\n")


@contextlib.contextmanager
def in_one_write(lines: Sequence[bytes]) -> Iterator[int]:
    """A pipe's end for reading, in which some lines are already, written at once, and nothing follows."""
    reader, writer = os.pipe()
    if os.write(writer, joined(lines)) != len(joined(lines)):
        raise Wrong("a pipe doesn't take so many lines at once")
    os.close(writer)
    try:
        yield reader
    finally:
        os.close(reader)


@contextlib.contextmanager
def nobody() -> Iterator[int]:
    """A pipe's end for writing whose reader is gone."""
    reader, writer = os.pipe()
    os.close(reader)
    try:
        yield writer
    finally:
        os.close(writer)


@contextlib.contextmanager
def full() -> Iterator[int]:
    """A device that takes no byte."""
    with open("/dev/full", "wb") as device:
        yield device.fileno()


@contextlib.contextmanager
def unread() -> Iterator[list[int]]:
    """Both ends of a pipe that has no room, and that nobody reads."""
    reader, writer = os.pipe()
    size = fcntl.fcntl(writer, fcntl.F_GETPIPE_SZ)
    os.write(writer, bytes(size))
    ends = [reader, writer]
    try:
        yield ends
    finally:
        for end in ends:
            os.close(end)


def ended(program: str, file: Path, stdin: Any, stdout: Any, *shell: str) -> tuple[int, bytes]:
    """How a run ended, whose output goes there, or where a shell turns it."""
    words = [*shell, program, *over(file)]
    ran = subprocess.run(words, stdin=stdin, stdout=stdout, stderr=subprocess.PIPE, timeout=SECONDS)
    return ran.returncode, ran.stderr


def check_all_there(program: str, file: Path, identity: bytes, lines: Sequence[bytes]) -> None:
    """The edits are there, and the next start makes the site of them."""
    check_equal(history(file), [identity, *lines])
    same_pages(program, file, [identity, *lines], PATHS)
    check_equal(history(file), [identity, *lines])


def without_a_reader(program: str, file: Path) -> None:
    """200 edits in one write, and no reader, no room or no output: all are there, though none was replied to"""
    lines = edits(ONE_WRITE)
    closed = ["sh", "-c", 'exec "$0" "$@" >&-']
    ways: list[tuple[str, Callable[[], AbstractContextManager[int]], list[str]]] = [
        ("nobody", nobody, []),
        ("full", full, []),
        ("closed", full, closed),
    ]
    for name, output, shell in ways:
        own = file.with_name(f"{name}.db")
        replies(program, [], *over(own))
        [identity] = history(own)
        with in_one_write(lines) as given, output() as stdout:
            check_end(ended(program, own, given, stdout, *shell), 1, WRITE_FAILED)
        check_all_there(program, own, identity, lines)


def wait_for(file: Path, count: int, child: subprocess.Popen[bytes]) -> None:
    """Waits until the history has so many lines, while the program goes on."""
    until = time.monotonic() + SOON
    while (found := len(history(file))) < count:
        if time.monotonic() > until or child.poll() is not None:
            raise Wrong(f"{found} lines are in the file, wanted {count}, and the status is {child.poll()}")
        time.sleep(0.02)


def never_read(program: str, file: Path) -> None:
    """200 edits in one write, no reply of which is read: all are there while it waits, and after its end"""
    lines = edits(ONE_WRITE)
    for name in ("killed", "goes"):
        own = file.with_name(f"{name}.db")
        replies(program, [], *over(own))
        [identity] = history(own)
        with in_one_write(lines) as given, unread() as ends:
            words = [program, *over(own)]
            with subprocess.Popen(words, stdin=given, stdout=ends[1], stderr=subprocess.PIPE) as child:
                try:
                    wait_for(own, 1 + len(lines), child)
                    if name == "goes":
                        os.close(ends.pop(0))
                        check_end((child.wait(SECONDS), pipe(child.stderr).read()), 1, WRITE_FAILED)
                finally:
                    child.kill()
        check_all_there(program, own, identity, lines)


def reads_ahead(program: str, file: Path) -> None:
    """Many edits, and nobody who reads the replies: those are there that end in the bytes read ahead, and no others"""
    lines = edits(FILE)
    replies(program, [], *over(file))
    [identity] = history(file)
    count = lines_within(lines, read_ahead())
    if not 1 < count < FILE:
        raise Wrong(f"{count} of {FILE} lines are read ahead")
    with tempfile.TemporaryFile() as given, nobody() as stdout:
        given.write(joined(lines))
        given.seek(0)
        check_end(ended(program, file, given, stdout), 1, WRITE_FAILED)
    check_all_there(program, file, identity, lines[:count])


CHECKS = (without_a_reader, never_read, reads_ahead)


def cases(program: str) -> Cases:
    """Each check by its name, with what judges it."""
    for check in CHECKS:
        yield check.__doc__, partial(in_a_folder, check, program)


def in_a_folder(check: Callable[[str, Path], None], program: str) -> None:
    with tempfile.TemporaryDirectory() as folder:
        check(program, Path(folder, "site.db"))
