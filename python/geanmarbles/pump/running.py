"""Runs the program that a pump moves bytes for, the next one when one ends, and takes clients until it is told to end.

A program is there once it has answered a round without frames. If the first one ends before that, nothing is served; a
later one is tried again, up to TRIES in a row.
"""

import asyncio
import contextlib
import signal
import socket
import time
from collections.abc import Callable, Sequence
from typing import Any

from geanmarbles.client.program import END_SECONDS
from geanmarbles.pump.moving import Client, Limits, Program, Pump, end_of

# How many programs in a row may end before they are there, and how long is waited before the next one, in seconds, if
# the ones before ran for less than LONG.
TRIES, PAUSES, LONG = 5, (0.0, 0.1, 0.2, 0.5, 1.0, 2.0), 10
# How long clients have to end at the end, and how often that is looked at; and how long a program that replies no more
# has to end.
LAST_SECONDS, MOMENT = 10, 0.02
BACKLOG = 512
# How much the system keeps for a client to read: it would take megabytes.
SEND_BYTES = 131_072


class NotRun(Exception):
    """Why there is no program any more."""


class Running:
    """A pump over a program, and the next one when that ends."""

    def __init__(self, first: Sequence[str], later: Sequence[str], limits: Limits, tell: Callable[[str], None]) -> None:
        """`first` begins the first program, and `later` each one after it."""
        self.first_words, self.later_words, self.pump, self.tell = first, later, Pump(limits), tell
        self.is_ending = asyncio.Event()

    async def started(self) -> tuple[asyncio.subprocess.Process, Program]:
        """The next program, over one end of a pair of sockets."""
        words = self.later_words if self.pump.begun.is_set() else self.first_words
        ours, its = socket.socketpair()
        with its:
            try:
                # In a session of its own, so that Ctrl-C reaches this process alone, which ends the program.
                process = await asyncio.create_subprocess_exec(
                    *words, stdin=its.fileno(), stdout=its.fileno(), start_new_session=True
                )
            except OSError as fault:
                ours.close()
                raise NotRun(f"{words[0]}: {fault.strerror}") from None
        _, program = await asyncio.get_running_loop().create_connection(lambda: Program(self.pump), sock=ours)
        return process, program

    async def run_one(self) -> tuple[bool, str]:
        """Runs a program. Whether it was there, and how it has ended."""
        process, program = await self.started()
        self.pump.program = program
        try:
            await program.ended.wait()
            self.pump.lose(program)
            with contextlib.suppress(TimeoutError):
                await asyncio.wait_for(process.wait(), END_SECONDS if self.is_ending.is_set() else LAST_SECONDS)
        finally:
            with contextlib.suppress(ProcessLookupError):
                process.kill()
        status = await process.wait()
        return program.is_ready, f"signal {-status}" if status < 0 else f"status {status}"

    async def run(self) -> None:
        """Runs programs until this is told to end. Raises NotRun if there can be none."""
        failed = quick = 0
        while not self.is_ending.is_set():
            begun = time.monotonic()
            was_there, how = await self.run_one()
            if self.is_ending.is_set():
                break
            failed = 0 if was_there else failed + 1
            if not self.pump.begun.is_set() or failed == TRIES:
                raise NotRun(f"the program has ended with {how}" + f", {failed} times in a row" * (failed > 1))
            quick = 0 if time.monotonic() - begun > LONG else min(quick + 1, len(PAUSES) - 1)
            self.tell(f"the program has ended with {how}; the next one is started")
            await asyncio.sleep(PAUSES[quick])

    async def end(self) -> None:
        """Ends the clients, each once it is idle, and then the program."""
        until = time.monotonic() + LAST_SECONDS
        while self.pump.clients and time.monotonic() < until:
            for client in list(self.pump.clients):
                if client.is_idle():
                    client.transport.close()
            await asyncio.sleep(MOMENT)
        if self.pump.program:
            end_of(self.pump.program.transport)

    async def pass_seconds(self) -> None:
        while True:
            await asyncio.sleep(1)
            self.pump.pass_second()

    def note(self, loop: asyncio.AbstractEventLoop, context: dict[str, Any]) -> None:
        """Tells of a fault of the system in a line, such as that no more files may be open."""
        fault = context.get("exception")
        if isinstance(fault, OSError):
            self.tell(f"{context['message']}: {fault.strerror}")
        else:
            loop.default_exception_handler(context)

    def client(self) -> Client:
        return Client(self.pump)

    @staticmethod
    async def first(running: asyncio.Task[None], *events: asyncio.Event) -> None:
        """Waits for one of some events. Raises what ends the programs before that."""
        waits = [asyncio.create_task(it.wait()) for it in events]
        await asyncio.wait([running, *waits], return_when=asyncio.FIRST_COMPLETED)
        for it in waits:
            it.cancel()
        if running.done():
            running.result()

    async def serve(self, sockets: Sequence[socket.socket], announce: Callable[[], None]) -> None:
        """Serves what comes to some sockets until SIGTERM or SIGINT. Raises NotRun if there can be no program."""
        loop = asyncio.get_running_loop()
        loop.set_exception_handler(self.note)
        for it in sockets:
            it.setsockopt(socket.SOL_SOCKET, socket.SO_SNDBUF, SEND_BYTES)
        for number in (signal.SIGTERM, signal.SIGINT):
            loop.add_signal_handler(number, self.is_ending.set)
        seconds, running = asyncio.create_task(self.pass_seconds()), asyncio.create_task(self.run())
        await self.first(running, self.pump.begun, self.is_ending)
        if not self.is_ending.is_set():
            servers = [await loop.create_server(self.client, sock=it, backlog=BACKLOG) for it in sockets]
            announce()
            await self.first(running, self.is_ending)
            for server in servers:
                server.close()
        await self.end()
        # (the program copies its log into FILE before its end)
        with contextlib.suppress(TimeoutError):
            await asyncio.wait_for(running, END_SECONDS)
        seconds.cancel()
