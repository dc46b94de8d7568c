"""A node's front without a node: what comes slowly, who is there when it ends, answers of etcd that count for several,
cookies, and what is said to systemd."""

from __future__ import annotations

import contextlib
import os
import socket
import tempfile
import threading
import time
from collections.abc import Callable, Iterator
from pathlib import Path
from unittest import mock

from geanmarbles.checks.judging import must
from geanmarbles.client.replies import Reply, Wrong
from geanmarbles.cluster import news, service
from geanmarbles.cluster.etcd import Unreachable, text_of
from geanmarbles.cluster.history import Last
from geanmarbles.cluster.pages import Wanted
from geanmarbles.web import streams
from geanmarbles.web.edit_bodies import EditHandler
from geanmarbles.web.heads import Fields
from geanmarbles.web.pages import PageServer
from geanmarbles.web.streams import Stream


class Alike(EditHandler):
    """The server that nodes have, over a site whose pages are all alike."""

    is_kept = True

    def log(self, status: int, size: int) -> None:
        """Nothing is logged."""

    def is_taken(self) -> bool:
        return True

    def page_of(self, path: str) -> tuple[Reply, dict[str, str]]:
        return Reply(["page", "200", "4"], b"page"), {}


@contextlib.contextmanager
def served() -> Iterator[tuple[str, int]]:
    with PageServer(("127.0.0.1", 0), Alike) as server:
        thread = threading.Thread(target=server.serve_forever, daemon=True)
        thread.start()
        try:
            yield "127.0.0.1", server.server_port
        finally:
            server.end()
            thread.join()


@contextlib.contextmanager
def joined_streams(seconds: float, size: int) -> Iterator[tuple[Stream, socket.socket]]:
    """A stream and its client's end, with limits that are over soon."""
    one, other = socket.socketpair()
    with one, other, mock.patch.object(streams, "SECONDS", seconds), mock.patch.object(streams, "PROGRESS_BYTES", size):
        yield Stream(one), other


def dripped(client: socket.socket, count: int, pause: float) -> None:
    """Has a client send so many bytes, one after the other."""

    def drip() -> None:
        with contextlib.suppress(OSError):
            for _ in range(count):
                client.send(b"x")
                time.sleep(pause)

    threading.Thread(target=drip, daemon=True).start()


def test_bytes_that_come_too_slowly_are_given_up() -> None:
    """Bytes that come fast enough come all, however long that takes; those that come too slowly are given up."""
    with joined_streams(1.0, 4) as (stream, client):
        dripped(client, 80, 0.02)
        must(stream.body(80) == b"x" * 80, "a body that comes slowly isn't read whole")
        client.send(b"abc")
        begin = time.monotonic()
        with contextlib.suppress(TimeoutError):
            raise Wrong(f"it waits for no longer than it gets {stream.body(4)!r}")
        must(0.7 < time.monotonic() - begin < 20, "it is given up too early, or too late")
    with joined_streams(0.3, 1000) as (stream, client):
        dripped(client, 100, 0.02)
        with contextlib.suppress(TimeoutError):
            raise Wrong(f"it takes {stream.body(100)!r}")
    with joined_streams(0.3, 1000) as (stream, client):
        with contextlib.suppress(TimeoutError):
            stream.send(b"x" * (1 << 24))
            raise Wrong("it sends to a client that reads nothing")
    with joined_streams(5, 1000) as (stream, client):
        client.send(b"\r\nGET / HTTP/1.1\r\n\r\nmore")
        must(stream.has_begun() and stream.head() == b"GET / HTTP/1.1\r\n\r\n", "it reads no head")
        must(stream.has_more() and stream.body(4) == b"more" and not stream.has_more(), "it loses what comes after")
        client.shutdown(socket.SHUT_WR)
        must(not stream.has_begun(), "it sees no end")


def ask_until_refused(address: tuple[str, int], came: list[str]) -> None:
    """Asks for pages, each over a connection of its own, and notes what comes, until there is no server any more."""
    while True:
        try:
            with socket.create_connection(address, 5) as client:
                client.sendall(b"GET / HTTP/1.1\r\nHost: x\r\nConnection: close\r\n\r\n")
                text = b""
                while more := client.recv(4096):
                    text += more
                came.append("page" if text.endswith(b"page") else f"{text!r}")
        except ConnectionRefusedError:
            return
        except OSError as fault:
            came.append(repr(fault))


def test_a_server_that_ends_resets_nobody() -> None:
    """A server that ends answers or refuses each connection, whenever it comes, and resets none."""
    came: list[str] = []
    for number in range(6):
        with served() as address:
            clients = [threading.Thread(target=ask_until_refused, args=(address, came)) for _ in range(4)]
            for client in clients:
                client.start()
            time.sleep(0.02 + number / 100)
        for client in clients:
            client.join()
    must(set(came) == {"page"}, f"these came: { {it: came.count(it) for it in set(came)} }")


def test_an_answer_counts_for_those_before_its_question() -> None:
    """An answer counts for those who had come before its question, and for nobody who has come since."""
    heard = news.News()
    moment = time.monotonic()
    heard.told(moment - 1, Last(5, "a", 1))
    with contextlib.suppress(Unreachable):
        raise Wrong(f"an answer to an earlier question counts: {heard.after(moment, 0.05, False)}")
    heard.told(moment, Last(6, "b", 2))
    must(heard.after(moment, 1, False).place == 6, "the answer doesn't count")
    heard.failed(moment + 1, Unreachable("gone", False))
    with contextlib.suppress(Unreachable):
        raise Wrong(f"a question without an answer counts: {heard.after(moment, 1, False)}")
    waits = news.News()
    threading.Timer(0.1, lambda: waits.told(time.monotonic(), Last(7, "c", 3))).start()
    must(waits.after(time.monotonic(), 5, True).place == 7, "whoever waits isn't told")


def test_questions_are_apart_by_some_time() -> None:
    """However many are in a hurry, questions are apart by some time; without a hurry by more."""
    heard, begin, count = news.News(), time.monotonic(), 0
    while time.monotonic() < begin + 0.5:
        heard.is_wanted.set()
        heard.told(heard.wait_to_ask(), Last(1, "a", 1))
        count += 1
    must(count <= 0.5 / news.HURRY_SECONDS + 2, f"in a hurry it asks {count} times in half a second")
    before = heard.begun
    must(heard.wait_to_ask() - before > 0.9 * news.POLL_SECONDS, "without a hurry it doesn't wait")


def test_a_cookie_counts_if_it_is_of_this_site() -> None:
    """A cookie counts if it is of this cluster's site, and nobody's page is kept for somebody else."""

    def wanted(*fields: tuple[str, str]) -> tuple[int, bool, bool]:
        found = Wanted(Fields(fields), "abc")
        return found.place, found.is_foreign, found.is_promised()

    cases_of = {
        (): (0, False, False),
        (("Cookie", "a=b"),): (0, False, False),
        (("Cookie", "site_revision=abc.7"),): (7, False, True),
        (("Cookie", "a=b; site_revision=abc.7; c=d"),): (7, False, True),
        (("Cookie", "site_revision=abd.7"),): (0, True, True),
        (("Cookie", "site_revision=7"),): (0, True, True),
        (("Cookie", "site_revision=abc.7; site_revision=abd.9"),): (7, True, True),
        (("Cookie", "site_revision=abc.7"), ("Cookie", "site_revision=abc.8")): (8, False, True),
        (("Cookie", "xsite_revision=abc.7"),): (0, False, False),
        (("Cookie", "site_revision=abc." + "9" * 20),): (0, True, True),
        (("X-Site-Revision", "5"), ("Cookie", "site_revision=abd.7")): (5, False, True),
        (("X-Site-Fresh", "1"),): (0, False, True),
        (("X-Site-Fresh", "0"),): (0, False, False),
    }
    for fields, came in cases_of.items():
        must(wanted(*fields) == came, f"{fields} is read as {wanted(*fields)}, wanted {came}")


def test_systemd_is_told_each_reason_once() -> None:
    """What is said to systemd: ready once, each new reason once, and that it lives while it does."""
    with tempfile.TemporaryDirectory() as folder, socket.socket(socket.AF_UNIX, socket.SOCK_DGRAM) as told:
        path = str(Path(folder, "notify"))
        told.bind(path)
        told.setblocking(False)

        def said() -> list[str]:
            found: list[str] = []
            with contextlib.suppress(BlockingIOError):
                while True:
                    found.append(told.recv(1000).decode())
            return found

        given = {"NOTIFY_SOCKET": path, "WATCHDOG_USEC": "200000", "WATCHDOG_PID": str(os.getpid())}
        with mock.patch.dict(os.environ, given):
            manager = service.Service()
            must(not set(given) & set(os.environ), "programs see what was for the node")
        manager.every = 0.0
        steps: list[tuple[Callable[[], None], list[str]]] = [
            (lambda: manager.tell("catching-up", True), ["STATUS=catching-up"]),
            (lambda: manager.tell("catching-up", True), []),
            (lambda: manager.tell("", True), ["READY=1\nSTATUS=ready"]),
            (lambda: manager.tell("", True), []),
            (lambda: manager.tell("lagging", True), ["STATUS=lagging"]),
            (lambda: manager.tell("", True), ["STATUS=ready"]),
            (lambda: setattr(manager, "every", 60.0), []),
            (lambda: manager.tell("", False), []),
            (lambda: manager.tell("", True), ["WATCHDOG=1"]),
            (lambda: manager.tell("", True), []),
            (manager.tell_end, ["STOPPING=1\nSTATUS=stopping"]),
        ]
        for number, (step, wanted) in enumerate(steps):
            step()
            came = said()
            must(came == wanted, f"at step {number} it says {came}, wanted {wanted}")
    with mock.patch.dict(os.environ, {"LISTEN_PID": "1", "LISTEN_FDS": "1"}):
        must(service.inherited() is None and "LISTEN_FDS" not in os.environ, "it takes another's socket")
    service.Service().tell("", True)


def test_a_fault_that_says_nothing_is_named_by_its_kind() -> None:
    """A fault that says nothing is named by its kind."""
    came = [text_of(it) for it in (ValueError(), ValueError("why"), OSError(2, "No such file"), Unreachable("", False))]
    must(came == ["ValueError", "why", "[Errno 2] No such file", "Unreachable"], f"they are {came}")
