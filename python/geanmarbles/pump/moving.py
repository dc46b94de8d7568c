"""Moves bytes between the sockets of many clients and one program, which gets and writes them in frames.

A frame is a client's number and a count of bytes, both as four bytes with the highest first, and then the bytes; one
without bytes says that nothing more comes. Of what clients send and get no byte is looked at.

The program answers a frame before it reads the next one. So each client has one small frame there at a time, clients
take turns, and one that doesn't read what it got isn't handed on. A frame of the number 0, which no client has, comes
back empty once all before it was answered: that ends a round, and at most ROUNDS are under way.
"""

import asyncio
import struct
from collections import deque
from collections.abc import Iterable
from typing import NamedTuple, cast

HEAD = struct.Struct(">II")
ROUND_END = HEAD.pack(0, 0)
LAST_NUMBER, MAX_BYTES = 2**32 - 1, 65_536
# How many clients the program has at once: it takes 1,024, and hears a moment later that one has gone.
OPEN = 1_000
# The most bytes of a client in one frame, and rounds that the program hasn't answered; after how many bytes or frames a
# round is full. What the program holds in memory is all the pages that these ask for.
FRAME_BYTES, ROUND_BYTES, FRAMES, ROUNDS = 1_024, 2_048, 16, 2
# How much is read at once, how much of a client waits here before no more of it is read, and how much of what it was
# sent it may leave unread before no more of it is handed on.
READ_BYTES, HELD_BYTES, UNREAD_BYTES = 16_384, 16_384, 65_536
# How many bytes have to come or go while a client is waited for, so that it is waited for longer.
PROGRESS_BYTES = 16_384


class Limits(NamedTuple):
    """What clients may take. A client is waited for `seconds` while it sends a request or reads a response, and again
    after each PROGRESS_BYTES; it may be idle for `idle` seconds. `unread` and `unread_by_all` are bytes."""

    connections: int = 1_000
    seconds: int = 10
    idle: int = 60
    unread: int = 32 << 20
    unread_by_all: int = 256 << 20
    # How long the program may take to answer a round.
    answer: int = 60


class Client(asyncio.BufferedProtocol):
    """A client's connection."""

    room = memoryview(bytearray(READ_BYTES))

    def __init__(self, pump: "Pump") -> None:
        self.pump, self.number, self.held = pump, 0, bytearray()
        # It sends nothing more; the program sends it nothing more.
        self.has_ended = self.is_over = False
        # Its next frame waits, or its last one isn't answered; bytes came since it was last sent some; it is slow.
        self.waits = self.asks = self.is_slow = False
        # Bytes that came and went; how many had when it began to be waited for, in which state, and for how long.
        self.moved = self.mark = self.seconds = 0
        self.state = ""

    def connection_made(self, transport: asyncio.BaseTransport) -> None:
        self.transport = cast(asyncio.Transport, transport)
        self.transport.set_write_buffer_limits(UNREAD_BYTES)
        self.pump.admit(self)

    def get_buffer(self, sizehint: int) -> memoryview:
        return self.room

    def buffer_updated(self, nbytes: int) -> None:
        self.moved += nbytes
        if self.is_over:
            return
        self.asks = True
        self.held += self.room[:nbytes]
        if len(self.held) > HELD_BYTES:
            self.transport.pause_reading()
        self.offer()

    def eof_received(self) -> bool:
        self.has_ended = True
        self.offer()
        return bool(self.number or self.held) and not self.is_over

    def connection_lost(self, exc: Exception | None) -> None:
        self.has_ended, self.is_slow = True, False
        self.held.clear()
        self.pump.clients.pop(self, None)
        self.pump.slow.discard(self)
        self.offer(at_once=True)

    def pause_writing(self) -> None:
        self.is_slow = True
        self.pump.slow.add(self)

    def resume_writing(self) -> None:
        self.is_slow = False
        self.pump.slow.discard(self)
        self.offer()

    def offer(self, at_once: bool = False) -> None:
        """Has the next frame wait for its turn, if there is one: bytes, or that none come any more. If it has gone, the
        program hears that before it takes others."""
        is_next = self.held or self.has_ended and self.number
        if is_next and not (self.waits or self.is_slow or self.is_over):
            self.waits = True
            (self.pump.waiting.appendleft if at_once else self.pump.waiting.append)(self)
            self.pump.hand_over()

    def frame(self) -> bytes:
        """The next frame."""
        part = bytes(self.held[:FRAME_BYTES])
        del self.held[:FRAME_BYTES]
        if len(self.held) <= HELD_BYTES < len(self.held) + len(part):
            self.transport.resume_reading()
        return HEAD.pack(self.number, len(part)) + part

    def send(self, part: bytes) -> None:
        if self.transport.is_closing():
            return
        self.asks, self.seconds = False, 0
        self.moved += len(part)
        self.transport.write(part)
        if self.is_slow:
            self.pump.cut_slow(self)

    def unread(self) -> int:
        return self.transport.get_write_buffer_size()

    def finish(self) -> None:
        """Sends what is left, and then the end. One that still sends is read from for some time: its connection would
        be reset otherwise, and the last response be lost on its way."""
        self.is_over = True
        self.held.clear()
        if self.has_ended:
            self.transport.close()
        elif not self.transport.is_closing():
            self.transport.resume_reading()
            end_of(self.transport)

    def is_idle(self) -> bool:
        return not (self.waits or self.asks and not self.is_over or self.unread())

    def pass_second(self) -> None:
        """Ends the connection if the client has been waited for too long."""
        if self.waits:
            return
        unread, limits = self.unread(), self.pump.limits
        state = "reads" if unread else "ends" if self.is_over else "asks" if self.asks else "idle"
        if state != self.state or self.moved - unread >= self.mark + PROGRESS_BYTES:
            self.state, self.mark, self.seconds = state, self.moved - unread, 0
        self.seconds += 1
        if self.seconds > (limits.idle if state == "idle" else limits.seconds):
            self.transport.abort()


def end_of(transport: asyncio.Transport) -> None:
    """Ends what is sent. The other side may be gone already, which isn't noticed yet."""
    try:
        transport.write_eof()
    except OSError:
        transport.abort()


def end_idle(clients: Iterable[Client]) -> bool:
    """Ends the client that is idle for the longest, or else the one whose request is waited for the longest. Whether
    there was one."""
    found = [it for it in clients if not (it.waits or it.unread() or it.transport.is_closing())]
    out = max(found, key=lambda it: (it.is_idle(), it.seconds), default=None)
    if out:
        out.transport.abort()
    return out is not None


class Program(asyncio.Protocol):
    """The stream to and from a running program."""

    def __init__(self, pump: "Pump") -> None:
        self.pump, self.last, self.held, self.seconds = pump, 0, b"", 0
        self.clients: dict[int, Client] = {}
        # The clients that have a frame in each round that isn't answered. The first has none: its end says that the
        # program is there.
        self.rounds: deque[list[Client]] = deque([[]])
        self.is_ready, self.ended = False, asyncio.Event()

    def connection_made(self, transport: asyncio.BaseTransport) -> None:
        self.transport = cast(asyncio.Transport, transport)
        self.transport.write(ROUND_END)

    def eof_received(self) -> None:
        self.transport.abort()

    def connection_lost(self, exc: Exception | None) -> None:
        self.ended.set()

    def data_received(self, data: bytes) -> None:
        data, at = self.held + data, 0
        while len(data) >= at + 8:
            number, count = HEAD.unpack_from(data, at)
            if count > MAX_BYTES or not (number in self.clients if number else self.rounds):
                # What runs isn't the program.
                self.transport.abort()
                return
            if len(data) < at + 8 + count:
                break
            at += 8 + count
            if not number:
                self.end_round()
            elif count:
                self.clients[number].send(data[at - count : at])
            else:
                self.clients.pop(number).finish()
        self.held = data[at:]

    def end_round(self) -> None:
        self.is_ready, self.seconds = True, 0
        self.pump.begun.set()
        for client in self.rounds.popleft():
            client.waits = False
            client.offer()
        self.pump.hand_over()

    def take(self, clients: list[Client]) -> None:
        """Begins a round."""
        for client in clients:
            if not client.number:
                if len(self.clients) >= OPEN:
                    end_idle(self.clients.values())
                self.last += 1
                client.number = self.last
                self.clients[self.last] = client
        self.rounds.append(clients)
        self.transport.write(b"".join([client.frame() for client in clients]) + ROUND_END)


class Pump:
    """The clients, and the program that serves them while there is one."""

    def __init__(self, limits: Limits) -> None:
        self.limits = limits
        self.clients: dict[Client, None] = {}
        self.slow: set[Client] = set()
        self.waiting: deque[Client] = deque()
        self.program: Program | None = None
        # There is a program, or there was one.
        self.begun = asyncio.Event()

    def admit(self, client: Client) -> None:
        """Takes a client, in place of another if there are too many."""
        if len(self.clients) >= self.limits.connections and not end_idle(self.clients):
            client.transport.abort()
        else:
            self.clients[client] = None

    def hand_over(self) -> None:
        """Hands the next frames to the program, as far as it may have some."""
        program = self.program
        while program and self.waiting and program.is_ready and len(program.rounds) < ROUNDS:
            if program.last > LAST_NUMBER - FRAMES:
                program.transport.abort()
                return
            clients, count = list[Client](), 0
            while self.waiting and len(clients) < FRAMES and count < ROUND_BYTES:
                clients.append(self.waiting.popleft())
                count += min(len(clients[-1].held), FRAME_BYTES)
            program.take(clients)

    def cut_slow(self, client: Client) -> None:
        """Ends a client that leaves too much unread, or the worst one if all together do."""
        if client.unread() > self.limits.unread:
            client.transport.abort()
        elif sum(it.unread() for it in self.slow) > self.limits.unread_by_all:
            max(self.slow, key=Client.unread).transport.abort()

    def lose(self, program: Program) -> None:
        """Ends the clients of a program that has ended. Those of which it has got nothing wait for the next one."""
        self.program = None
        for client in program.clients.values():
            client.finish()
            client.transport.close()
        self.waiting = deque(it for it in self.waiting if not it.number)

    def pass_second(self) -> None:
        for client in list(self.clients):
            client.pass_second()
        # A start may take long: it reads the whole history.
        if self.program and self.program.is_ready and self.program.rounds:
            self.program.seconds += 1
            if self.program.seconds > self.limits.answer:
                self.program.transport.abort()
