"""`geanmarbles serve` as a process, and what its clients do."""

from __future__ import annotations

import re
import socket
import struct
import tempfile
import time
from pathlib import Path
from typing import Self

from geanmarbles.checks.cluster.processes import Processes, wait_for
from geanmarbles.checks.cluster.raw import Raw
from geanmarbles.checks.judging import must
from geanmarbles.checks.over_http import BEGUN, DONE, SECONDS, START, TOKEN, same, sent
from geanmarbles.client.replies import Wrong
from geanmarbles.paths import command

GET = sent("GET", "/")
LAST = sent("GET", "/", "Connection: close")
# How long a client may take in most checks, and be idle in some.
BRIEF = 2


class Serve:
    """`geanmarbles serve` over a site in a file, for a `with` block."""

    def __init__(self, program: str, *words: str, database: Path | None = None, begun: bool = True) -> None:
        """`begun` has a client make the first post."""
        self.room = tempfile.TemporaryDirectory()
        self.folder, self.begun = Path(self.room.name), begun
        self.processes = Processes(self.folder)
        self.database = database or self.folder / "site.db"
        token = self.folder / "token"
        token.write_text(TOKEN, encoding="utf-8")
        kept = ["--database", str(self.database), "--new", "--token-file", str(token)]
        where = [] if {"--port", "--unix"} & set(words) else ["--port", "0"]
        self.words = [*command("geanmarbles"), "serve", "--program", program, *kept, *where, *words]

    def __enter__(self) -> Self:
        try:
            self.process = self.processes.start("serve", self.words)
            self.place = self.process.first_line(SECONDS).strip()
            if self.begun:
                same(self.asked(BEGUN), DONE, "the first edit")
        except BaseException:
            self.__exit__()
            raise
        return self

    def __exit__(self, *_: object) -> None:
        self.processes.kill_all()
        self.room.cleanup()

    @property
    def address(self) -> tuple[str, int]:
        found = re.fullmatch(r"http://([\d.]+):(\d+)/", self.place)
        if not found:
            raise Wrong(f"it is at {self.place!r}")
        return found[1], int(found[2])

    def raw(self, buffer: int = 0) -> Raw:
        return Raw(self.address, SECONDS, buffer)

    def asked(self, stream: bytes, size: int = 0) -> bytes:
        """All that comes of some bytes, after which the client sends nothing more. They may go in pieces."""
        with self.raw() as raw:
            size = size or max(1, len(stream))
            for at in range(0, len(stream), size):
                raw.send(stream[at : at + size])
            raw.socket.shutdown(socket.SHUT_WR)
            return rest_of(raw)

    def is_served(self) -> None:
        """A page comes."""
        with self.raw() as raw:
            raw.send(GET)
            response = raw.response()
            must(response and response.status == 200, f"a page: {response}")

    def pid(self) -> int:
        """The program that runs now."""
        found = wait_for(lambda: self.children(), SECONDS, "a program runs")
        return found[0]

    def children(self) -> list[int]:
        """The programs that the script has started and that run."""
        text = Path(f"/proc/{self.process.child.pid}/task/{self.process.child.pid}/children").read_text("ascii")
        return [int(it) for it in text.split()]

    def kilobytes(self) -> int:
        """What the script and its program have in memory."""
        return sum(memory_of(it) for it in (self.process.child.pid, *self.children()))


def memory_of(pid: int) -> int:
    """The memory of a process, in kilobytes."""
    found = re.search(r"VmRSS:\s*(\d+)", Path(f"/proc/{pid}/status").read_text("ascii"))
    return int(found[1]) if found else 0


def rest_of(raw: Raw) -> bytes:
    """All that comes up to the end of a connection, whose tags begin with START."""
    while raw.more():
        pass
    return START.sub(b"START", raw.came)


def reset(raw: Raw) -> None:
    """Ends a connection by a reset: nothing more is sent or read."""
    raw.socket.setsockopt(socket.SOL_SOCKET, socket.SO_LINGER, struct.pack("ii", 1, 0))
    raw.socket.close()


def closed_after(raw: Raw, seconds: float) -> float:
    """After how long the other side ends a connection, at most some seconds."""
    begin = time.monotonic()
    must(raw.is_closed_by(begin + seconds), f"the connection stays for {seconds} s")
    return time.monotonic() - begin
