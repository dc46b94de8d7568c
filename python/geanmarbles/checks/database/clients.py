"""Programs over a file and in memory: runs to the end, and clients that wait for replies or that send chunks."""

import contextlib
import json
import subprocess
import threading
from collections.abc import Iterable, Iterator, Sequence
from functools import lru_cache
from pathlib import Path
from typing import Any, Self

from geanmarbles.checks import judging
from geanmarbles.checks.fuzz.values import command_of
from geanmarbles.client.program import pipe
from geanmarbles.client.replies import Wrong, read_replies, refusal_of, shown, whole_replies
from geanmarbles.paths import TESTS

HERE = TESTS / "database"
# What the checks here are, and how one says that it can't be made.
Cases = judging.Cases
Skipped = judging.Skipped
SECONDS = 120
EDITS = ("put", "edit", "delete", "option", "activate", "deactivate", "template", "import")
DATE = "2024-05-01 10:00:00"


def line_of(**keys: object) -> bytes:
    return json.dumps(keys, ensure_ascii=False, separators=(",", ":")).encode()


def get(path: str) -> bytes:
    return line_of(cmd="get", path=path)


def put(**keys: object) -> bytes:
    return line_of(cmd="put", date=DATE, **keys)


def joined(lines: Iterable[bytes]) -> bytes:
    return b"".join(line + b"\n" for line in lines)


def over(file: Path, *words: str) -> tuple[str, ...]:
    """The program's arguments for a site in a file."""
    return ("--database", str(file), *words)


def run(program: str, given: bytes | None, *words: str, **how: Any) -> subprocess.CompletedProcess[bytes]:
    """A run of the program to its end."""
    whole: dict[str, Any] = {"capture_output": True, "timeout": SECONDS, **how}
    whole |= {} if given is None else {"input": given}
    return subprocess.run([program, *words], **whole)


def replies(program: str, lines: Sequence[bytes], *words: str) -> list[bytes]:
    """The replies of a run that ends well, one for each line."""
    ran = run(program, joined(lines), *words)
    if ran.returncode or ran.stderr:
        raise Wrong(f"it ended with status {ran.returncode} and says {shown(ran.stderr)}")
    found = whole_replies(ran.stdout)
    if len(found) != len(lines):
        raise Wrong(f"{len(lines)} lines have {len(found)} replies")
    return found


def is_edit(line: bytes) -> bool:
    kind = command_of(line).get("cmd")
    return isinstance(kind, str) and kind in EDITS


def done(lines: Iterable[bytes], got: Iterable[bytes]) -> list[bytes]:
    """The edits among some lines that were done, by their replies."""
    pairs = zip(lines, got, strict=True)
    return [line for line, reply in pairs if is_edit(line) and not refusal_of(reply)]


def same_pages(program: str, file: Path, lines: Sequence[bytes], paths: Iterable[str]) -> None:
    """The site in the file gives the same pages as one in memory that is given the lines of its history."""
    gets = [get(path) for path in paths]
    came = replies(program, gets, *over(file))
    for path, page, other in zip(paths, came, replies_in_memory(program, tuple(lines[1:]), tuple(gets))):
        if page != other:
            raise Wrong(f"the page {path} is {shown(page)}, and in memory {shown(other)}")


@lru_cache(maxsize=100)
def replies_in_memory(program: str, lines: tuple[bytes, ...], gets: tuple[bytes, ...]) -> list[bytes]:
    """What a program in memory replies to some lines after others: hundreds of damaged files have the same history."""
    return replies(program, [*lines, *gets])[len(lines) :]


class Client:
    """A running program, and what it has written and not yet been read; it is killed at the block's end."""

    def __init__(self, program: str, *words: str, **how: Any) -> None:
        pipes: dict[str, Any] = {it: subprocess.PIPE for it in ("stdin", "stdout", "stderr")}
        self.child: subprocess.Popen[bytes] = subprocess.Popen([program, *words], bufsize=0, **pipes, **how)
        self.given, self.told, self.errors = map(pipe, (self.child.stdin, self.child.stdout, self.child.stderr))
        self.output, self.ready = b"", list[bytes]()
        self.timers: list[threading.Timer] = []
        self.killed_in(SECONDS)

    def __enter__(self) -> Self:
        return self

    def __exit__(self, *_: object) -> None:
        for timer in self.timers:
            timer.cancel()
        self.child.kill()
        self.child.wait()
        for stream in (self.given, self.told, self.errors):
            with contextlib.suppress(OSError):
                stream.close()

    def killed_in(self, seconds: float) -> None:
        """Sends SIGKILL after some seconds."""
        timer = threading.Timer(seconds, self.child.kill)
        timer.daemon = True
        timer.start()
        self.timers.append(timer)

    def send(self, given: bytes) -> bool:
        """Writes some bytes, or what the program still reads of them; returns whether it has read them all."""
        try:
            while given:
                given = given[self.given.write(given) :]
        except (BrokenPipeError, ValueError):
            return False
        return True

    def next_reply(self) -> bytes | None:
        """The next whole reply, or None if the program ended before it."""
        while not self.ready:
            more = self.told.read(1 << 16)
            if not more:
                return None
            self.ready, self.output = read_replies(self.output + more)
        return self.ready.pop(0)

    def ask(self, line: bytes) -> bytes | None:
        return self.next_reply() if self.send(line + b"\n") else None

    def replies(self) -> Iterator[bytes]:
        """All whole replies up to the end of the program, as they come."""
        while (reply := self.next_reply()) is not None:
            yield reply

    def rest(self) -> list[bytes]:
        return list(self.replies())

    def end(self) -> tuple[int, bytes]:
        """Its status, and what it says on standard error, once its input has ended."""
        with contextlib.suppress(OSError):
            self.given.close()
        said = self.errors.read()
        return self.child.wait(SECONDS), said


def check_end(came: tuple[int, bytes], status: int, said: bytes) -> None:
    if came != (status, said):
        raise Wrong(f"it ended with status {came[0]} and {shown(came[1])}, wanted {status} and {said!r}")
