"""Processes of a test: started in sessions of their own, and all ended at the end, whatever happens."""

from __future__ import annotations

import contextlib
import os
import select
import signal
import socket
import subprocess
import time
import uuid
from collections.abc import Callable
from pathlib import Path
from random import SystemRandom
from typing import Any, Self, TypeVar

from geanmarbles.client.program import pipe

T = TypeVar("T")

# In the environment of each process that a test starts, and of those that they start.
MARK = "SITE_CLUSTER_TEST"
# How long a process may take to end by itself: a node has ten seconds for what is under way.
SECONDS = 13
# What holds ports for this test.
RANDOM, HELD = SystemRandom(), []


def free_port(host: str = "127.0.0.1") -> int:
    """A port for this test alone. Nothing listens on it, and no connection gets it for its own end: Linux takes those
    from 32768 on. Other tests leave it alone for the socket for datagrams that is held on it."""
    while True:
        port, kept = RANDOM.randrange(10_000, 32_768), socket.socket(type=socket.SOCK_DGRAM)
        try:
            with socket.socket() as tried:
                tried.bind((host, port))
            kept.bind((host, port))
        except OSError:
            kept.close()
        else:
            HELD.append(kept)
            return port


def listens(port: int, host: str = "127.0.0.1") -> bool:
    """Whether somebody takes connections at a port."""
    with contextlib.suppress(OSError), socket.create_connection((host, port), SECONDS):
        return True
    return False


def wait_for(holds: Callable[[], T], seconds: float, what: str, pause: float = 0.02) -> T:
    """Waits until something holds, and returns it; `what` says what was waited for."""
    until = time.monotonic() + seconds
    while True:
        found = holds()
        if found:
            return found
        if time.monotonic() > until:
            raise TimeoutError(f"{what} within {seconds} s")
        time.sleep(pause)


class Process:
    """A running process, and the file to which it writes what isn't read."""

    def __init__(self, name: str, words: list[str], log: Path, env: dict[str, str], handed: int | None = None) -> None:
        """`handed` is a file of this process that it gets as well."""
        self.name, self.log = name, log
        how: dict[str, Any] = {
            "stdin": subprocess.DEVNULL,
            "stdout": subprocess.PIPE,
            "start_new_session": True,
            "env": env,
            "pass_fds": () if handed is None else (handed,),
        }
        with open(log, "ab") as errors:
            self.child = subprocess.Popen(words, stderr=errors, bufsize=0, **how)
        self.is_stopped = False

    def first_line(self, seconds: float) -> str:
        """The first line that it writes to standard output."""
        line, until = b"", time.monotonic() + seconds
        while not line.endswith(b"\n"):
            if not select.select([self.child.stdout], [], [], max(0, until - time.monotonic()))[0]:
                raise TimeoutError(f"{self.name} writes no line within {seconds} s: {self.said()}")
            more = pipe(self.child.stdout).read(1)
            if not more:
                raise TimeoutError(f"{self.name} has ended: {self.said()}")
            line += more
        return line.decode()

    def said(self) -> str:
        """The end of what it wrote to standard error."""
        return Path(self.log).read_text(encoding="utf-8", errors="replace")[-600:]

    def is_running(self) -> bool:
        return self.child.poll() is None

    def send(self, number: int) -> None:
        """Sends a signal to the process itself, not to those that it has started."""
        with contextlib.suppress(ProcessLookupError):
            self.child.send_signal(number)

    def stop(self) -> None:
        self.send(signal.SIGSTOP)
        self.is_stopped = True

    def go_on(self) -> None:
        self.send(signal.SIGCONT)
        self.is_stopped = False

    def kill(self) -> None:
        self.send(signal.SIGKILL)
        self.child.wait()
        pipe(self.child.stdout).close()
        self.is_stopped = False

    def end(self) -> int:
        """Asks it to end, and kills it if it doesn't; returns its status."""
        self.go_on()
        self.send(signal.SIGTERM)
        try:
            self.child.wait(SECONDS)
        except subprocess.TimeoutExpired:
            self.send(signal.SIGKILL)
        pipe(self.child.stdout).close()
        return self.child.wait()


class Processes:
    """All processes of a test. Those that are left at the end of the block are killed, with all that they started."""

    def __init__(self, folder: str | Path) -> None:
        self.folder, self.mark = Path(folder), uuid.uuid4().hex
        self.started: list[Process] = []

    def __enter__(self) -> Self:
        return self

    def __exit__(self, *_: object) -> None:
        self.kill_all()

    def start(self, name: str, words: list[str], handed: int | None = None, **env: str) -> Process:
        given = {**os.environ, **env, MARK: self.mark}
        process = Process(name, words, self.folder / f"{name}.log", given, handed)
        self.started.append(process)
        return process

    def left(self) -> list[int]:
        """The IDs of all processes that were started here, or by one that was, and haven't ended."""
        wanted, found = f"{MARK}={self.mark}".encode(), []
        for entry in Path("/proc").iterdir():
            # A process may end meanwhile; one that has ended and isn't waited for has no environment.
            with contextlib.suppress(OSError):
                if entry.name.isdigit() and wanted in (entry / "environ").read_bytes().split(b"\0"):
                    found.append(int(entry.name))
        return found

    def kill_all(self) -> None:
        # Not all have the mark: nginx writes over its environment.
        for process in self.started:
            if process.is_running():
                with contextlib.suppress(OSError):
                    os.killpg(process.child.pid, signal.SIGKILL)
        until = time.monotonic() + SECONDS
        while (left := self.left()) and time.monotonic() < until:
            for pid in left:
                with contextlib.suppress(OSError):
                    os.kill(pid, signal.SIGKILL)
            time.sleep(0.02)
        for process in self.started:
            process.child.wait()
            pipe(process.child.stdout).close()

    def check_ended(self) -> None:
        """All have ended by themselves."""
        wait_for(lambda: not self.left(), SECONDS, "all programs end with their nodes")
