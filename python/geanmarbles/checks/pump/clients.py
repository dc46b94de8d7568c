"""What clients of the pump get: what they would get from the program alone, also beside others that are slow, silent,
many, or gone at once."""

from __future__ import annotations

import contextlib
import os
import resource
import signal
import socket
import threading
import time
from collections.abc import Callable, Iterator
from concurrent.futures import ThreadPoolExecutor
from functools import partial
from pathlib import Path
from random import Random

from geanmarbles.checks.cluster.raw import Raw
from geanmarbles.checks.judging import Skipped, must
from geanmarbles.checks.over_http import CLOSING, MALFORMED, OPEN, PUT, RYE, SECONDS, TOKEN, Exchange
from geanmarbles.checks.over_http import edit, page, same, sent
from geanmarbles.checks.pump.serving import BRIEF, GET, LAST, Serve, closed_after, reset, rest_of

# How many clients are idle at once, if there may be so many files.
CROWDS = (300, 1_000, 10_000)
# A post whose page has some 60 kB, and how many there are on a page of the site.
CONTENT = b"x" * 60_000
LARGE = b'{"cmd":"put","title":"Large","content":"%s","date":"2024-05-01 10:00:00"}' % CONTENT
POSTS = 10
# How much more memory the pump and the program may have after an attack, in kilobytes.
GROWN = 150_000
RESTLESS_SECONDS = 10


def pieces(program: str) -> Iterator[tuple[str, partial[None]]]:
    """Each exchange of tests/http, whole and in pieces."""
    with Serve(program) as serve:
        for it in [*OPEN, *CLOSING]:
            for size in (0, 997) if len(it.request) > 1_000 else (0, 1, 50):
                how = f", in pieces of {size} bytes" if size else ""
                yield f"pump: {it.name}{how}", partial(exchanged, serve, it, size)
        stream, wanted = b"".join(it.request for it in OPEN), b"".join(it.response for it in OPEN)
        for size in (7, 1_024, 1 << 20):
            every = Exchange("all", stream * 5, wanted * 5)
            yield f"pump: all exchanges five times, in pieces of {size} bytes", partial(exchanged, serve, every, size)


def exchanged(serve: Serve, of: Exchange, size: int) -> None:
    same(serve.asked(of.request, size), of.response, "what came")


def at_once(program: str) -> None:
    """many clients at once, each of which gets what it asked for"""
    with Serve(program) as serve:
        serve.asked(b"".join(edit(PUT % b"post %d" % at) for at in range(2, 41)))

        def ask(number: int) -> None:
            post = 2 + number % 39
            with serve.raw() as raw:
                for _ in range(30):
                    raw.send(sent("GET", f"/?p={post}"))
                    response = raw.response()
                    same(response and response.body, b"<h2>post %d</h2>" % post, f"the page of post {post}")

        with ThreadPoolExecutor(64) as pool:
            for done in [pool.submit(ask, number) for number in range(128)]:
                done.result()


def half_closed(program: str) -> None:
    """a client that sends nothing more gets its responses, and then the end"""
    with Serve(program) as serve:
        for stream, wanted in (
            (GET * 40, page(RYE, 1) * 40),
            (GET + GET[:5], page(RYE, 1) + MALFORMED),
            (GET[:5], MALFORMED),
            (b"", b""),
        ):
            same(serve.asked(stream), wanted, f"what came for {len(stream)} bytes")


def reset_ones(program: str) -> None:
    """clients that are reset in mid-request or mid-response leave nothing behind: far more than the program takes"""
    with Serve(program, *large()) as serve:
        make_large(serve)
        for number in range(2_500):
            raw = serve.raw()
            raw.send((b"", GET[:7], GET, GET * 3, edit(PUT % b"x")[:-3], b"x")[number % 6])
            reset(raw) if number % 2 else raw.socket.close()
            if number % 100 == 0:
                serve.is_served()
        serve.is_served()
        same(serve.process.said(), "", "what was said")


def large() -> tuple[str, ...]:
    return ("--seconds", str(BRIEF), "--idle", str(2 * BRIEF))


def make_large(serve: Serve) -> None:
    """Makes the front a page of some 600 kB."""
    got = serve.asked(b"".join(edit(LARGE) for _ in range(POSTS)))
    same(got.count(b"HTTP/1.1 200 OK"), POSTS, "the edits")


def slow_ones(program: str) -> None:
    """a head, a body that doesn't come, or comes a byte at a time: closed in time, and others are served meanwhile"""
    head = edit(PUT % b"slow")[:-5]
    with Serve(program, *large()) as serve, contextlib.ExitStack() as held:
        slow = [held.enter_context(serve.raw()) for _ in range(60)]
        for raw, part in zip(slow, (GET[:9], head, GET + GET[:9]) * 20):
            raw.send(part)
        is_over = threading.Event()
        dripping = held.enter_context(serve.raw())
        thread = threading.Thread(target=drip, args=[dripping, is_over])
        thread.start()
        begin = time.monotonic()
        serve.is_served()
        for number, raw in enumerate(slow):
            closed_after(raw, 2 * BRIEF + 4 - (time.monotonic() - begin))
            wanted = 1 if number % 3 == 2 else 0
            same(raw.came.count(b"HTTP/1.1"), wanted, "how many responses came")
        closed_after(dripping, BRIEF + 2)
        is_over.set()
        thread.join()
        same(serve.asked(GET), page(RYE, 1), "the page afterwards")


def drip(raw: Raw, is_over: threading.Event) -> None:
    """Sends a byte of a head now and then."""
    raw.send(GET[:9])
    while not is_over.wait(0.2):
        raw.send(b"x")


def steady_ones(program: str) -> None:
    """a body that comes slowly but steadily is taken, however long it takes, and so is a page that is read so"""
    body = LARGE.ljust(160_000)
    with Serve(program, *large()) as serve:
        make_large(serve)
        with serve.raw() as raw:
            stream = edit(body)
            for at in range(0, len(stream), 10_000):
                raw.send(stream[at : at + 10_000])
                time.sleep(BRIEF / 6)
            response = raw.response("POST")
            must(response and response.body.startswith(b"ok "), f"of a steady body {response}")
        with serve.raw(buffer=20_000) as raw:
            raw.send(LAST * 1)
            count = 0
            begin = time.monotonic()
            while more := raw.socket.recv(8_000):
                count += len(more)
                time.sleep(0.04)
            spent = time.monotonic() - begin
        must(count > POSTS * len(CONTENT) and spent > BRIEF, f"{count} bytes came in {spent:.1f} s")


def stalled_readers(program: str) -> None:
    """readers that stall are closed, and hold up nobody, and little is kept for them"""
    with Serve(program, *large()) as serve, contextlib.ExitStack() as held:
        make_large(serve)
        before = serve.kilobytes()
        stalled = [held.enter_context(serve.raw(buffer=4_096)) for _ in range(20)]
        for raw in stalled:
            raw.socket.settimeout(BRIEF)
            raw.send(GET * 5)
        begin = time.monotonic()
        for _ in range(20):
            serve.is_served()
        spent = time.monotonic() - begin
        must(spent < BRIEF + 3, f"20 pages took {spent:.1f} s beside stalled readers")
        grown = serve.kilobytes() - before
        must(grown < GROWN, f"{grown} kB more are held")
        time.sleep(2 * BRIEF + 1)
        for raw in stalled:
            closed_after(raw, SECONDS)
            must(len(raw.came) < 5 * POSTS * len(CONTENT), f"{len(raw.came)} bytes came")


def greedy_ones(program: str) -> None:
    """a client that asks for thousands of pages at once doesn't starve others, and what it doesn't read is bounded"""
    with Serve(program) as serve:
        make_large(serve)
        before = serve.kilobytes()
        with serve.raw() as raw:
            sender = threading.Thread(target=raw.send, args=[GET * 20_000], daemon=True)
            sender.start()
            for _ in range(20):
                begin = time.monotonic()
                serve.is_served()
                spent = time.monotonic() - begin
                must(spent < 5, f"a page took {spent:.1f} s")
            grown = serve.kilobytes() - before
            must(grown < GROWN, f"{grown} kB more are held")
            reset(raw)
            sender.join(SECONDS)
        serve.is_served()


def large_takers(program: str) -> None:
    """a page larger than what a client may leave unread by far comes whole to one that reads it"""
    with Serve(program) as serve:
        make_large(serve)
        one = serve.asked(GET)
        same(serve.asked(GET * 20) == one * 20, True, "20 pages are 20 times the page")


def crowd(program: str, count: int) -> None:
    """Many clients that are idle, some after a page, others before."""
    most = resource.getrlimit(resource.RLIMIT_NOFILE)
    if most[1] < count + 500:
        raise Skipped(f"there may be {most[1]} files")
    resource.setrlimit(resource.RLIMIT_NOFILE, (most[1], most[1]))
    with Serve(program, "--connections", str(count + 20)) as serve, contextlib.ExitStack() as held:
        idle = []
        for number in range(count):
            raw = held.enter_context(serve.raw())
            if number % 2:
                raw.send(GET)
                must((response := raw.response()) and response.status == 200, "a page")
            idle.append(raw)
        time.sleep(0.5)
        begin = time.monotonic()
        same(serve.asked(GET * 100), page(RYE, 1) * 100, "pages beside them")
        must(time.monotonic() - begin < 5, "pages take long beside them")
        # The program takes no more than 1,024, so those that had a page may be closed for others.
        late = idle[-200:]
        for raw in late:
            raw.send(GET)
        for raw in late:
            must((response := raw.response()) and response.status == 200, "a page of one that was idle")


def one_too_many(program: str) -> None:
    """one client too many takes the place of the one that is idle for the longest, not of one that is served"""
    with Serve(program, "--connections", "10", "--seconds", "60") as serve, contextlib.ExitStack() as held:
        asking = [held.enter_context(serve.raw()) for _ in range(5)]
        for raw in asking:
            raw.send(GET[:9])
        idle = [held.enter_context(serve.raw()) for _ in range(5)]
        time.sleep(0.3)
        held.enter_context(serve.raw())
        closed_after(idle[0], BRIEF)
        for _ in range(20):
            serve.is_served()
        for raw in asking:
            raw.send(GET[9:])
            must((response := raw.response()) and response.status == 200, "a page of one that was asking")
        slow = [held.enter_context(serve.raw()) for _ in range(30)]
        for raw in slow:
            raw.send(GET[:9])
        time.sleep(0.3)
        serve.is_served()


def idle_ones(program: str) -> None:
    """a client that is idle is closed in time, and one that asks now and then isn't"""
    with Serve(program, *large()) as serve, serve.raw() as silent, serve.raw() as kept:
        begin = time.monotonic()
        while time.monotonic() - begin < 3 * BRIEF:
            kept.send(GET)
            must((response := kept.response()) and response.status == 200, "a page of a kept connection")
            time.sleep(BRIEF / 2)
        spent = closed_after(silent, BRIEF)
        must(spent < 0.5, f"closed {spent:.1f} s later than it should")


def closed_while_sending(program: str) -> None:
    """a client whose request is refused while it still sends has the whole response"""
    with Serve(program) as serve:
        for _ in range(10):
            with serve.raw() as raw:
                raw.send(sent("POST", "/command", f"Authorization: Bearer {TOKEN}", "Content-Length: 9000000"))
                for _ in range(9):
                    raw.send(b"x" * 1_000_000)
                raw.socket.shutdown(socket.SHUT_WR)
                must(rest_of(raw).startswith(b"HTTP/1.1 413 "), f"it got {raw.came[:80]!r}")


class Restless(threading.Thread):
    """A client that connects again and again, and does anything."""

    def __init__(self, serve: Serve, seed: int, until: float) -> None:
        super().__init__(daemon=True)
        self.serve, self.random, self.until = serve, Random(seed), until

    def run(self) -> None:
        while time.monotonic() < self.until:
            with contextlib.suppress(OSError), self.serve.raw(buffer=self.random.choice((0, 2_048))) as raw:
                raw.socket.settimeout(0.3)
                for _ in range(self.random.randrange(6)):
                    self.act(raw)
                if self.random.random() < 0.3:
                    reset(raw)
                elif self.random.random() < 0.3:
                    time.sleep(self.random.random() * BRIEF)
                elif self.random.random() < 0.5:
                    raw.is_closed_by(time.monotonic() + BRIEF)

    def act(self, raw: Raw) -> None:
        """Sends something or other, and perhaps reads a part of what comes."""
        random, one = self.random, edit(PUT % b"any")
        parts = (GET, GET * random.randrange(300), GET[: random.randrange(27)], one, one[: random.randrange(120)])
        raw.socket.send(random.choice((*parts, random.randbytes(3_000), b"x" * random.randrange(200_000))))
        if random.random() < 0.5:
            with contextlib.suppress(TimeoutError):
                raw.socket.recv(random.choice((1, 100, 65_536)))
        if random.random() < 0.1:
            raw.socket.shutdown(socket.SHUT_WR)


def restless_ones(program: str) -> None:
    """clients that do anything, more of them than may be there, over a program that is killed: nothing is left of it"""
    with Serve(program, "--connections", "50", "--seconds", "1", "--idle", "1") as serve:
        begin = time.monotonic()
        clients = [Restless(serve, seed, begin + RESTLESS_SECONDS) for seed in range(60)]
        for client in clients:
            client.start()
        for at in (0.4, 0.7):
            time.sleep(max(0.0, begin + at * RESTLESS_SECONDS - time.monotonic()))
            os.kill(serve.pid(), signal.SIGKILL)
        for client in clients:
            client.join(SECONDS)
        time.sleep(BRIEF + 1)
        for _ in range(50):
            serve.is_served()
        same(serve.process.said(), "serve: the program has ended with signal 9; the next one is started\n" * 2, "words")
        files = len(list(Path(f"/proc/{serve.process.child.pid}/fd").iterdir()))
        must(files < 20, f"{files} files are open")


def cases(program: str) -> Iterator[tuple[str, Callable[[], None]]]:
    yield from pieces(program)
    checks = (at_once, half_closed, reset_ones, slow_ones, steady_ones, stalled_readers, greedy_ones, large_takers)
    for check in (*checks, restless_ones, one_too_many, idle_ones, closed_while_sending):
        yield f"pump: {check.__doc__}", partial(check, program)
    for count in CROWDS:
        yield f"pump: {count} clients that are idle", partial(crowd, program, count)
