"""Clients that are slow, and clients that stall: the first have what they asked for, whole; the others are given up."""

from __future__ import annotations

import contextlib
import time
from collections.abc import Callable
from concurrent.futures import ThreadPoolExecutor
from functools import partial
from pathlib import Path
from typing import NamedTuple

from geanmarbles.checks.cluster import attacks
from geanmarbles.checks.cluster.attacks import Address
from geanmarbles.checks.cluster.raw import Raw
from geanmarbles.client.replies import Wrong

# How long a server waits for a head, and for each few bytes of a body and of a response; and how much longer it may
# take, on a machine that has much else to do.
LIMIT, LATE = 10, 10
# How much a slow reader reads, and a slow sender sends, a second; and the buffer of a reader.
READ_RATE, SEND_RATE, BUFFER = 500_000, 16_000, 1 << 16
PAUSE = 0.05
# How many connections a server has at most.
MOST = 512
PAGE = b"GET / HTTP/1.1\r\nHost: x\r\n\r\n"
# How many bytes a slow sender sends: more than it can in the time that a head may take.
SENT = 15 * SEND_RATE
# How many clients send heads that don't end, and by how much these may make a server grow.
MANY, HEAD_FIELDS, GROWTH = 60, 98, 64 << 20


class Told(NamedTuple):
    """What became of a slow client: how many bytes, in how many seconds."""

    size: int
    seconds: float


def read_slowly(address: Address, path: str, size: int) -> Told:
    """A client that reads a page slowly has all of it."""
    with Raw(address, buffer=BUFFER) as raw:
        begin = time.monotonic()
        raw.send(f"GET {path} HTTP/1.1\r\nHost: x\r\nConnection: close\r\n\r\n".encode())
        count = 0
        while came := raw.socket.recv(int(READ_RATE * PAUSE)):
            count += len(came)
            time.sleep(max(0.0, begin + count / READ_RATE - time.monotonic()))
        spent = time.monotonic() - begin
    if count < size:
        raise Wrong(f"a slow reader has {count} bytes of a page of {size} after {spent:.0f} s")
    return Told(count, spent)


def read_nothing(address: Address, path: str, size: int) -> Told:
    """A client that reads nothing is given up, so the end of the page never comes."""
    with Raw(address, buffer=BUFFER) as raw:
        begin = time.monotonic()
        raw.send(f"GET {path} HTTP/1.1\r\nHost: x\r\nConnection: close\r\n\r\n".encode())
        time.sleep(2 * LIMIT + LATE / 2)
        count = 0
        with contextlib.suppress(ConnectionResetError):
            while came := raw.socket.recv(1 << 20):
                count += len(came)
    if count >= size:
        raise Wrong(f"a client that read nothing for {2 * LIMIT} s has all of a page of {size} bytes")
    return Told(count, time.monotonic() - begin)


def send_slowly(address: Address, token: str) -> Told:
    """A client that sends a body slowly has it taken."""
    line = b'{"cmd":"put","title":"slow","date":"2024-05-01 10:00:00","content":"","n":"slow"}'
    body = line.replace(b'"content":""', b'"content":"' + b"x" * (SENT - len(line)) + b'"')
    with Raw(address) as raw:
        begin = time.monotonic()
        raw.send(attacks.edits(token, len(body)))
        step = int(SEND_RATE * PAUSE)
        for first in range(0, len(body), step):
            raw.send(body[first : first + step])
            time.sleep(PAUSE)
        response = raw.response("POST")
        spent = time.monotonic() - begin
    if response is None or response.status != 200 or spent < LIMIT:
        raise Wrong(f"a slow sender is answered {response and (response.status, response.body)} after {spent:.1f} s")
    return Told(len(body), spent)


def given_up(address: Address, head: bytes, rest: bytes, status: int | None) -> Told:
    """A client that sends a byte of the rest now and then is given up in time, with a status or without a word."""
    with Raw(address) as raw:
        begin, sent = time.monotonic(), 0
        raw.send(head)
        raw.socket.settimeout(1)
        while time.monotonic() < begin + LIMIT + LATE:
            raw.send(rest[sent : sent + 1])
            sent += 1
            with contextlib.suppress(TimeoutError):
                if not raw.more():
                    break
        spent = time.monotonic() - begin
        is_told = raw.came.startswith(f"HTTP/1.1 {status} ".encode()) if status else not raw.came
    if not is_told or not LIMIT - 1 < spent < LIMIT + LATE:
        raise Wrong(f"a client that drips {head[:20]!r} has {raw.came[:40]!r} after {spent:.1f} s")
    return Told(sent, spent)


def stalls_and_drips(address: Address, token: str, path: str, size: int) -> tuple[dict[str, Told], int]:
    """All kinds of slow clients at once, what became of each, and how many pages others had meanwhile."""
    drip = b"x" * 1000
    kinds: dict[str, Callable[[], Told]] = {
        "a page read slowly": partial(read_slowly, address, path, size),
        "a page not read": partial(read_nothing, address, path, size),
        "a body sent slowly": partial(send_slowly, address, token),
        "a head that drips": partial(given_up, address, b"GET / HTTP/1.1\r\nX: ", drip, None),
        "a body that drips": partial(given_up, address, attacks.edits(token, 1000), drip, 408),
        "nothing": partial(given_up, address, b"", b"", None),
    }
    with ThreadPoolExecutor(len(kinds)) as pool:
        running = {name: pool.submit(call) for name, call in kinds.items()}
        others = 0
        while not all(it.done() for it in running.values()):
            with Raw(address) as raw:
                begin = time.monotonic()
                raw.send(PAGE)
                response = raw.response()
            if response is None or response.status not in attacks.PAGE or time.monotonic() - begin > LATE:
                raise Wrong(f"meanwhile {response and response.status} came after {time.monotonic() - begin:.1f} s")
            others += 1
            time.sleep(0.1)
        return {name: it.result() for name, it in running.items()}, others


def crowd(address: Address) -> None:
    """As many clients as a server takes, which do nothing, and one more, which is told to come back later."""
    with contextlib.ExitStack() as stack:
        for _ in range(MOST):
            stack.enter_context(Raw(address))
        # (what others had open before them may have ended since)
        deadline, response = time.monotonic() + LATE, None
        while time.monotonic() < deadline and (response is None or response.status != 503):
            raw = stack.enter_context(Raw(address))
            raw.send(PAGE)
            raw.socket.settimeout(1)
            with contextlib.suppress(TimeoutError):
                response = raw.response()
        if response is None or response.status != 503 or not response.fields.get("retry-after"):
            raise Wrong(f"beside {MOST} clients another one has {response}")
    deadline = time.monotonic() + LATE
    while time.monotonic() < deadline:
        with Raw(address) as raw:
            raw.send(PAGE)
            response = raw.response()
        if response is not None and response.status in attacks.PAGE:
            return
        time.sleep(0.1)
    raise Wrong(f"once they have gone {response} comes")


def resident(pid: int) -> int:
    """How many bytes a process has in memory."""
    [line] = [it for it in Path(f"/proc/{pid}/status").read_text(encoding="ascii").splitlines() if "VmRSS" in it]
    return int(line.split()[1]) * 1024


def heads_without_end(address: Address, pid: int) -> int:
    """Clients that send megabytes of head at once, none of which is kept; by how many bytes the server has grown."""
    before, field = resident(pid), b"X: " + b"x" * 60_000 + b"\r\n"
    raws = [Raw(address) for _ in range(MANY)]
    try:
        for raw in raws:
            raw.socket.settimeout(0.5)
            with contextlib.suppress(OSError):
                raw.socket.sendall(b"GET / HTTP/1.1\r\nHost: x\r\n")
        for _ in range(HEAD_FIELDS // 7):
            for raw in raws:
                with contextlib.suppress(OSError):
                    raw.socket.sendall(field * 7)
        grown = resident(pid) - before
        for raw in raws:
            raw.socket.settimeout(LIMIT)
            response = raw.response()
            if response is None or response.status != 431:
                raise Wrong(f"{response and response.status} came, wanted 431")
    finally:
        for raw in raws:
            raw.socket.close()
    if grown > GROWTH:
        raise Wrong(f"{MANY} heads of {HEAD_FIELDS} fields of 60 kB have made the server {grown >> 20} MiB larger")
    return grown
