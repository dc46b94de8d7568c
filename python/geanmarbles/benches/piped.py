"""Times what programs reply to one line over pipes: by the clock, and by what each takes of a processor.

Programs take turns, a batch of requests each, so that a busy moment of the machine slows them alike. By the clock a
request lasts from the line to the last byte of its reply, and a figure is the smallest mean of a batch. What it takes
of a processor is the program's own time and the system's for it, so neither waiting for a processor nor the time of
this script is in it. There a figure is the median of the batches: a virtual machine takes off what its host took from
it, in part later than it happened, so a batch may come out at nearly nothing.

Each reply is compared with the first, so a program that replies wrongly isn't timed.
"""

import os
import sys
import time
from collections.abc import Sequence
from pathlib import Path
from statistics import median
from typing import NamedTuple, NoReturn

from geanmarbles.benches.measured import difference
from geanmarbles.client.exchanges import Exchange, apart
from geanmarbles.client.program import Program, pipe
from geanmarbles.client.replies import Ended, NoReply, Reply

# A batch lasts for BATCH seconds. A program is asked for SECONDS in all, and for at least FEWEST batches, but not for
# more than PATIENCE if they take so long.
BATCH, SECONDS, FEWEST, PATIENCE = 0.001, 1.0, 3, 5.0


class Request(NamedTuple):
    """A line, and all bytes of its reply."""

    line: bytes
    reply: bytes

    def numbered(self, number: int) -> "Request":
        """The same by a line that differs from those of other numbers."""
        return Request(apart(self.line.decode().removesuffix("\n"), number).encode() + b"\n", self.reply)


class Figure(NamedTuple):
    """Seconds of a request by the clock, and those that the program takes of a processor."""

    clock: float
    processor: float


def request_of(exchange: Exchange) -> Request:
    return Request(exchange.lines.encode(), exchange.replies.encode())


class Piped(Program):
    """A program that is asked over pipes."""

    def __init__(self, words: Sequence[str]) -> None:
        super().__init__(*words)
        self.name = " ".join(words)
        self.given, self.taken = self.input.fileno(), pipe(self.child.stdout).fileno()
        self.room = bytearray()
        self.count = 0

    def fail(self, why: str) -> NoReturn:
        sys.exit(f"{self.name}: {why}")

    def ask_all(self, lines: Sequence[bytes]) -> list[Reply]:
        try:
            return super().ask_all(lines)
        except Ended:
            self.fail("it has ended")
        except NoReply as fault:
            self.fail(f"{fault} is no reply")

    def make(self, site: Exchange) -> None:
        for line in site.lines.encode().splitlines():
            reply = self.ask(line)
            if reply.words[0] != "ok":
                self.fail(f"its reply to {line[:80]!r} is {reply.text()!r}")

    def request(self, line: bytes) -> Request:
        """A line, which has a newline, with the reply that it gets now."""
        reply = self.ask(line.removesuffix(b"\n"))
        body = reply.page + b"\n" if reply.is_page() else b""
        return Request(line, f"{reply.text()}\n".encode() + body)

    def processor(self) -> float:
        """Seconds of a processor that the program has taken so far, once it waits for a line: while it runs, Linux adds
        what it takes at each tick alone. The number is that of the clock of a process."""
        state = b"R"
        while state != b"S":
            stat = Path(f"/proc/{self.child.pid}/stat").read_bytes()
            state = stat.rpartition(b") ")[2][:1]
            if state == b"Z":
                self.fail("it has ended")
        return time.clock_gettime(~self.child.pid << 3 | 2)

    def seconds(self, request: Request) -> float:
        """Seconds from a line to the last byte of its reply, read as it comes into memory that is there already."""
        size = len(request.reply)
        if len(self.room) < size:
            self.room = bytearray(size)
        rest = memoryview(self.room)[:size]
        begin = time.perf_counter()
        try:
            os.write(self.given, request.line)
        except BrokenPipeError:
            self.fail("it has ended")
        while rest:
            count = os.readv(self.taken, [rest])
            if not count:
                self.fail("it has ended")
            rest = rest[count:]
        seconds = time.perf_counter() - begin
        if not self.room.startswith(request.reply):
            self.fail(f"its reply to {request.line!r} isn't the first one")
        return seconds

    def batch(self, request: Request, before: Request | None = None, again: bool = False) -> Figure:
        """The mean of a batch of requests, each by a line of its own unless `again`. What is asked before each counts
        for the processor alone."""
        processor, clock, count = self.processor(), 0.0, 0
        while clock < BATCH:
            if before:
                self.seconds(before)
            self.count += 1
            clock += self.seconds(request if again else request.numbered(self.count))
            count += 1
        return Figure(clock / count, (self.processor() - processor) / count)


class Asked:
    """A program that is asked for a page, perhaps after a change each time, or by the same line again, and what its
    batches took."""

    def __init__(self, program: Piped, page: Request, change: Request | None = None, again: bool = False) -> None:
        self.program, self.page, self.change, self.again = program, page, change, again
        self.batches: list[Figure] = []
        # What a change alone takes of a processor, after each batch.
        self.changing: list[float] = []
        self.spent = 0.0

    def turn(self) -> None:
        begin = time.perf_counter()
        self.batches.append(self.program.batch(self.page, self.change, self.again))
        self.changing.append(self.program.batch(self.change, again=True).processor if self.change else 0.0)
        self.spent += time.perf_counter() - begin

    def is_done(self, seconds: float) -> bool:
        return self.spent >= (seconds if len(self.batches) >= FEWEST else PATIENCE)

    def figure(self) -> Figure:
        """What the page takes, of a processor without the change before it."""
        processor = difference(median(it.processor for it in self.batches), median(self.changing))
        return Figure(min(it.clock for it in self.batches), processor)


def figures_of(asked: Sequence[Asked], seconds: float = SECONDS) -> list[Figure]:
    """What the page of each takes, asked in turns for some seconds each; once each if these are none."""
    for it in asked:
        it.turn()
    while waiting := [it for it in asked if seconds and not it.is_done(seconds)]:
        for it in waiting:
            it.turn()
    return [it.figure() for it in asked]
