"""Pages over HTTP: what `geanmarbles browse` and `geanmarbles node` have in common, from a request to its response.

Each GET or HEAD becomes one line {"cmd":"get","path":PATH}, with the path and its query as the client sent them, and
the page's status becomes the response's. What is no page is plain text:

    400    the path isn't UTF-8, or the program can't take it, such as one over 8,192 bytes; or the request isn't one,
           or can be read in two ways (web.heads)
    414    a request line of more than 16,384 bytes
    431    a head of more than 16,384 bytes, or of more than 100 fields
    500    the page is refused
    503    the page is refused because memory ran out, or there is none now
    505    HTTP/2 or later

A connection is closed without an answer if its request hasn't come in ten seconds, and in the middle of a response if
ten seconds pass in which the client takes next to nothing of it (web.streams).
"""

from __future__ import annotations

import contextlib
import selectors
import socket
import struct
import sys
import threading
import time
import traceback
from array import array
from collections.abc import Iterator, Mapping
from email.utils import formatdate
from functools import lru_cache
from http import HTTPStatus
from typing import Any, Self

from geanmarbles.client.replies import Reply
from geanmarbles.web.heads import BadHead, Fields, Head, head_of
from geanmarbles.web.streams import Stream

# The statuses of a refused page, by the refusal's name; any other refusal is 500.
REFUSED = {"BadCommand": 400, "TooLarge": 400, "OutOfMemory": 503}
# How many connections may wait to be taken, and how many are open at most.
WAITING, MOST = 512, 512
# How long to wait after a connection that couldn't be taken, and for those that have begun when the server ends.
PAUSE_SECONDS, HANDSHAKE_SECONDS = 0.01, 0.05
# The option that sets a filter of packets on a socket, and one that drops those by which a client begins a connection:
# of the flags of TCP it looks at SYN and ACK.
SO_ATTACH_FILTER = 26
NO_SYN = ((0x30, 0, 0, 13), (0x54, 0, 0, 0x12), (0x15, 0, 1, 0x02), (0x06, 0, 0, 0), (0x06, 0, 0, 0xFFFFFFFF))
# What a connection is told that comes while there are as many as there may be.
FULL = (
    b"HTTP/1.1 503 Service Unavailable\r\nContent-Type: text/plain; charset=utf-8\r\nContent-Length: 27\r\n"
    b"Retry-After: 1\r\nCache-Control: no-store\r\nConnection: close\r\n\r\nthere are too many clients\n"
)
# With every response: it is of the type that it says, whatever it looks like.
ALWAYS = {"X-Content-Type-Options": "nosniff"}
# With what is no page: it is for whoever asked, now; and if a browser shows it, nothing in it runs.
PLAIN = {"Cache-Control": "no-store", "Content-Security-Policy": "default-src 'none'; frame-ancestors 'none'"}
# With a page, if nothing else is said: it is asked for anew each time.
PAGE = {"Cache-Control": "no-cache", "Referrer-Policy": "strict-origin-when-cross-origin"}


class NoPage(Exception):
    """Why there is no page for a request now: what the client is told, with which status, and with which headers."""

    def __init__(self, why: str, status: int = 503, **headers: str) -> None:
        super().__init__(why)
        self.why, self.status, self.headers = why, status, headers


class Unchanged(Exception):
    """The client has the page as it is; the headers to tell that with."""

    def __init__(self, headers: Mapping[str, str]) -> None:
        super().__init__()
        self.headers = headers


class PageServer:
    """A server of one site, which has a thread for each of its connections."""

    def __init__(
        self, address: tuple[str, int], handler: type[PageHandler], listening: socket.socket | None = None
    ) -> None:
        """Listens on an address, or takes a socket that listens already: what comes there as the server ends is left
        to the next one."""
        self.handler, self.outlives = handler, listening is not None
        self.socket = listening or listening_at(address)
        self.socket.setblocking(False)
        self.server_port = int(self.socket.getsockname()[1])
        # The connections, and those of them on which no request is under way.
        self.open: set[socket.socket] = set()
        self.idle: set[socket.socket] = set()
        self.turn = threading.Condition()
        # Whether no new connection is taken, and no new request; and what wakes the thread that takes them.
        self.is_ending = self.is_over = False
        self.woken, self.waker = socket.socketpair()
        self.waker.setblocking(False)

    def __enter__(self) -> Self:
        return self

    def __exit__(self, *_: object) -> None:
        for it in (self.socket, self.woken, self.waker):
            it.close()

    def serve_forever(self, seconds: float = 0.5) -> None:
        """Takes connections until it is told to end; `service_actions` is called at least every so many seconds."""
        with selectors.DefaultSelector() as selector:
            selector.register(self.socket, selectors.EVENT_READ)
            selector.register(self.woken, selectors.EVENT_READ)
            while not self.is_ending:
                selector.select(seconds)
                self.take_all()
                self.service_actions()
        if not self.outlives:
            drop_new(self.socket)
            time.sleep(HANDSHAKE_SECONDS)
            self.take_all()
        self.socket.close()

    def service_actions(self) -> None:
        """What is done now and then by the thread that takes connections."""

    def end(self) -> None:
        """Takes no more connections, once those are taken that have come. A signal's handler may call this."""
        self.is_ending = True
        with contextlib.suppress(OSError):
            self.waker.send(b"x")

    def take_all(self) -> None:
        """Takes the connections that have come."""
        while True:
            try:
                connection, address = self.socket.accept()
            except BlockingIOError:
                return
            except OSError:
                # One has gone again, or there is no file left, which isn't asked for all the time.
                time.sleep(PAUSE_SECONDS)
                return
            with self.turn:
                is_room = len(self.open) < MOST
                if is_room:
                    self.open.add(connection)
            if is_room:
                threading.Thread(target=self.serve, args=(connection, address), daemon=True).start()
            else:
                refuse_for_now(connection)

    def serve(self, connection: socket.socket, address: Any) -> None:
        """Answers the requests of a connection, and reports what went wrong, unless only its client is gone."""
        try:
            with connection:
                self.handler(self, connection, address).handle()
        except OSError:
            pass
        except Exception:
            traceback.print_exc()
        finally:
            with self.turn:
                self.open.discard(connection)
                self.turn.notify_all()

    @contextlib.contextmanager
    def idling(self, connection: socket.socket) -> Iterator[None]:
        """Counts a connection as one without a request under way, for as long as a block lasts."""
        with self.turn:
            self.idle.add(connection)
            if self.is_over:
                end_reading(connection)
        try:
            yield
        finally:
            with self.turn:
                self.idle.discard(connection)

    def drain(self, idle_seconds: float, seconds: float) -> None:
        """Waits until no connection is left, for some seconds at most. One on which nothing is asked for is closed
        after fewer: until then a client may use it that doesn't know yet that the server ends."""
        until = time.monotonic() + seconds
        with self.turn:
            self.turn.wait_for(lambda: not self.open, idle_seconds)
            self.is_over = True
            for connection in self.idle:
                end_reading(connection)
            self.turn.wait_for(lambda: not self.open, max(0.0, until - time.monotonic()))


def drop_new(listening: socket.socket) -> None:
    """Has a socket take no more connections, without a word: those that have come can then be taken before it is
    closed, and none comes between, which its end would reset. A client that is dropped asks again, and is refused."""
    steps = array("B", b"".join(struct.pack("HBBI", *it) for it in NO_SYN))
    # (a system that has no such filter may reset a connection that comes at that moment)
    with contextlib.suppress(OSError):
        filtered = struct.pack("HP", len(NO_SYN), steps.buffer_info()[0])
        listening.setsockopt(socket.SOL_SOCKET, SO_ATTACH_FILTER, filtered)


@lru_cache(1)
def date_of(second: int) -> str:
    """A second as HTTP writes it."""
    return formatdate(second, usegmt=True)


def end_reading(connection: socket.socket) -> None:
    """Has whoever reads from a connection see its end, after what has come."""
    with contextlib.suppress(OSError):
        connection.shutdown(socket.SHUT_RD)


def listening_at(address: tuple[str, int]) -> socket.socket:
    """A socket that listens on an address, and if that is of all of IPv6 on all of IPv4 as well."""
    if ":" not in address[0]:
        return socket.create_server(address, backlog=WAITING)
    is_both = socket.has_dualstack_ipv6()
    return socket.create_server(address, family=socket.AF_INET6, backlog=WAITING, dualstack_ipv6=is_both)


def refuse_for_now(connection: socket.socket) -> None:
    """Tells a client that there are too many, as far as that doesn't take long."""
    with contextlib.suppress(OSError), connection:
        connection.setblocking(False)
        connection.send(FULL)
        connection.shutdown(socket.SHUT_WR)
        # What has come and isn't read would reset the connection.
        connection.recv(1 << 16)


class PageHandler:
    """The requests of one connection. A script says by `page_of` where its pages come from, and by `is_taken` which
    requests it takes at all."""

    # Whether a connection stays for further requests; and the name of the server, if it tells one.
    is_kept, name = False, ""

    # The request under way: its head; its method, its path with the query as it came, and its fields.
    head: Head
    command: str
    asked: bytes
    headers: Fields

    def __init__(self, server: Any, connection: socket.socket, address: Any) -> None:
        self.server, self.connection, self.client = server, connection, str(address[0])
        self.stream = Stream(connection)
        # Whether the connection ends with the response under way, and whether its request's body is read, or is being.
        self.close_connection = self.is_read = False
        connection.setsockopt(socket.IPPROTO_TCP, socket.TCP_NODELAY, True)

    def is_taken(self) -> bool:
        """Whether this server takes a request that was read; if not, it has been refused."""
        return True

    def page_of(self, path: str) -> tuple[Reply, dict[str, str]]:
        """The program's reply to a path, and the headers to send with it. Raises NoPage if there is none now, and
        Unchanged if the client has it."""
        raise NotImplementedError

    def handle(self) -> None:
        """Answers one request after the other."""
        while not self.close_connection:
            with self.server.idling(self.connection):
                has_begun = self.stream.has_begun()
            if not has_begun or not self.answer():
                return
        if self.is_owed():
            self.stream.pass_over()

    def answer(self) -> bool:
        """Answers the next request; whether there was one."""
        try:
            text = self.stream.head()
            if not text:
                return False
            self.begin(text.partition(b"\r\n")[0], head_of(text))
        except BadHead as fault:
            self.begin(b"-", Head("", b"", False, Fields([]), None, False))
            self.close_connection = True
            self.refuse(fault.status, fault.why)
            return True
        if self.is_taken():
            self.methods()[self.command]()
        return True

    def begin(self, line: bytes, head: Head) -> None:
        self.line, self.head, self.is_read, self.begun = line, head, False, time.monotonic()
        self.command, self.asked, self.headers = head.method, head.path, head.fields
        self.close_connection = not self.is_kept or head.is_old or "close" in head.fields.words("Connection")

    def methods(self) -> dict[str, Any]:
        return {"GET": self.do_GET, "HEAD": self.do_HEAD}

    def is_owed(self) -> bool:
        """Whether the client may still send what isn't read: a body, or what comes after a head that is none."""
        is_page = self.command in ("GET", "HEAD")
        return not self.is_read and not (is_page and self.head.length in (None, 0))

    def do_GET(self) -> None:
        try:
            reply, headers = self.page_of(self.asked.decode())
        except UnicodeDecodeError:
            self.refuse(400, "the path isn't UTF-8")
        except NoPage as fault:
            self.refuse(fault.status, fault.why, **fault.headers)
        except Unchanged as same:
            self.send(304, same.headers)
        else:
            self.tell_page(reply, headers)

    def do_HEAD(self) -> None:
        self.do_GET()

    def tell_page(self, reply: Reply, headers: Mapping[str, str]) -> None:
        if reply.is_page():
            self.respond(int(reply.words[1]), "text/html", reply.page, {**PAGE, **headers})
        else:
            self.refuse(REFUSED.get(reply.words[-1], 500), reply.text())

    def refuse(self, status: int, why: str, **headers: str) -> None:
        self.respond(status, "text/plain", f"{why}\n".encode(), headers)

    def respond(self, status: int, kind: str, body: bytes, headers: Mapping[str, str] | None = None) -> None:
        """Sends a response. What is no page gets what goes with such, unless its headers say otherwise."""
        about = {} if kind == "text/html" else PLAIN
        named = {name.replace("_", "-"): value for name, value in (headers or {}).items()}
        of_body = {"Content-Type": f"{kind}; charset=utf-8", "Content-Length": str(len(body))}
        self.send(status, {**of_body, **about, **named}, body)

    def send(self, status: int, headers: Mapping[str, str], body: bytes = b"") -> None:
        # A body that nobody reads would be taken for the next request.
        self.close_connection |= self.is_owed() or self.server.is_ending
        first = {"Server": self.name} if self.name else {}
        last = {"Connection": "close"} if self.close_connection else {}
        fields = {**first, "Date": date_of(int(time.time())), **ALWAYS, **headers, **last}
        lines = [f"HTTP/1.1 {status} {HTTPStatus(status).phrase}", *(f"{name}: {it}" for name, it in fields.items())]
        head = "".join(f"{line}\r\n" for line in [*lines, ""]).encode("iso-8859-1")
        sent = b"" if self.command == "HEAD" else body
        try:
            self.stream.send(head + sent)
        finally:
            self.log(status, len(sent))

    def log(self, status: int, size: int) -> None:
        """Tells of a request and its response on standard error, one line each."""
        asked = self.line.decode("ascii", "backslashreplace")
        now = time.strftime("%d/%b/%Y %H:%M:%S")
        sys.stderr.write(f'{self.client} - - [{now}] "{asked}" {status} {size}\n')
