"""Requests that two servers might read in two ways, or that cost a server much before it knows who asks.

Each attack is bytes, with the status that has to come. Of one that is refused there is this one response, and the
connection ends: what follows on it would otherwise be read as a request that nobody has sent. `failures` asks them all
of a server, and returns what came otherwise.
"""

from __future__ import annotations

import time
from collections.abc import Callable, Iterable, Iterator
from concurrent.futures import ThreadPoolExecutor
from functools import partial
from typing import NamedTuple

from geanmarbles.checks.cluster.raw import Raw, asked
from geanmarbles.client.replies import Wrong

Address = tuple[str, int]

# What is hidden in a body.
HIDDEN = b"GET /hidden HTTP/1.1\r\nHost: x\r\n\r\n"
SIZE = b"%d" % len(HIDDEN)
# The most bytes and fields of a head, and of a body.
HEAD_BYTES, FIELDS, BODY_BYTES = 16_384, 100, 8 << 20
# How long what is refused before its body may take at most: far less than the body would.
AT_ONCE = 4.0
PIPELINED = 100
# How many attacks are made at once.
TOGETHER = 12
# A page, or none: what a path has by the site.
PAGE = (200, 404)


class Attack(NamedTuple):
    """A request, or several, as bytes, and the statuses that the first response may have."""

    name: str
    sent: bytes
    statuses: tuple[int, ...] = (400,)


def get(*lines: bytes, target: bytes = b"/", host: bytes = b"Host: x\r\n", version: bytes = b"HTTP/1.1") -> bytes:
    """A request for a page with some lines in its head, each with what ends it, and another request after it."""
    return b"GET " + target + b" " + version + b"\r\n" + host + b"".join(lines) + b"\r\n" + HIDDEN


def post(token: str, *lines: bytes, version: bytes = b"HTTP/1.1") -> bytes:
    """Edits with some lines in their head, and a request where the body is."""
    head = f"Host: x\r\nAuthorization: Bearer {token}\r\n".encode()
    return b"POST /command " + version + b"\r\n" + head + b"".join(lines) + b"\r\n" + HIDDEN


# Lengths that are none, some of which are numbers to one reader or another.
LENGTHS = (
    *(b"+5", b"-1", b"0x10", b"5 5", b"5, 5", b"", b"5;", b"1e1", b"5.0", "\u0665".encode(), b"5\x0b", b'"5"'),
    *(b"5\t5", b"5,5", b"5,", b",5", b"5_0", "\u00b2".encode(), b"\xb2", b"5L", b"0b101", b"0o5", b"-0", b"+0", b"NaN"),
)
# Lines that are no field. What comes after one is another request's, or is lost with the length in it.
NO_FIELDS = {
    "a blank in a name": b"X Y: z\r\n",
    "no colon": b"garbage\r\n",
    "a name that isn't ASCII": "X\u00e9: a\r\n".encode(),
    "a zero in a name": b"X\x00: a\r\n",
    "no name": b": a\r\n",
    "brackets in a name": b"X(): a\r\n",
    "a line that is a blank": b" \r\n",
    "a zero in a value": b"X: a\x00b\r\n",
    "a control in a value": b"X: a\x01b\r\n",
    "a DEL in a value": b"X: a\x7fb\r\n",
    "a value that goes on in the next line": b"X: a\r\n b\r\n",
    "the same by a tab": b"X: a\r\n\tb\r\n",
    "a carriage return alone": b"X: a\rY: b\r\n",
    "two carriage returns": b"X: a\r\r\n",
    "a newline alone": b"X: a\n",
    "a carriage return in a name": b"X\r: a\r\n",
    "a comma in a name": b"X,Y: a\r\n",
    "a slash in a name": b"X/Y: a\r\n",
    "an at sign in a name": b"X@Y: a\r\n",
    "a backslash in a name": b"X\\: a\r\n",
    "a quote in a name": b'"X": a\r\n',
    "a vertical tab in a value": b"X: a\x0bb\r\n",
    "a form feed in a value": b"X: a\x0cb\r\n",
    "an escape in a value": b"X: a\x1bb\r\n",
}
# Request lines.
LINES = {
    "two blanks": b"GET  / HTTP/1.1",
    "a tab": b"GET\t/ HTTP/1.1",
    "a vertical tab": b"GET\x0b/ HTTP/1.1",
    "a form feed": b"GET /\x0cHTTP/1.1",
    "a blank before it": b" GET / HTTP/1.1",
    "a blank after it": b"GET / HTTP/1.1 ",
    "four words": b"GET / / HTTP/1.1",
    "no version": b"GET /",
    "a method alone": b"GET",
    "no method": b" / HTTP/1.1",
    "a method that is none": b"G(T / HTTP/1.1",
    "a method that isn't ASCII": "G\u00e9T / HTTP/1.1".encode(),
    "a control in the path": b"GET /\x01 HTTP/1.1",
    "a DEL in the path": b"GET /\x7f HTTP/1.1",
    "a zero in the path": b"GET /\x00 HTTP/1.1",
    "a carriage return in it": b"GET /\rX HTTP/1.1",
    "HTTP/1.10": b"GET / HTTP/1.10",
    "HTTP/01.1": b"GET / HTTP/01.1",
    "HTTP/1": b"GET / HTTP/1",
    "HTTP/0.9": b"GET / HTTP/0.9",
    "http/1.1": b"GET / http/1.1",
    "HTTP/1.1 in another case": b"GET / Http/1.1",
    "HTTPS/1.1": b"GET / HTTPS/1.1",
    "a host with a user": b"GET http://user@x/ HTTP/1.1",
    "a whole address without a host": b"GET http:/// HTTP/1.1",
    "half a bracket in a whole address": b"GET http://[::1/ HTTP/1.1",
    "two ports in a whole address": b"GET http://x:1:2/ HTTP/1.1",
    "a method with a colon": b"GET: / HTTP/1.1",
    "HTTP/1.1.1": b"GET / HTTP/1.1.1",
    "HTTP/11": b"GET / HTTP/11",
    "HTTP/+1.1": b"GET / HTTP/+1.1",
    "HTTP/1,1": b"GET / HTTP/1,1",
    "HTTP1.1": b"GET / HTTP1.1",
    "a blank in the version": b"GET / HTTP /1.1",
}
# Hosts that are none, or several.
HOSTS = {
    "no Host": b"",
    "two Hosts": b"Host: x\r\nHost: y\r\n",
    "one Host twice": b"Host: x\r\nhost: x\r\n",
    "two Hosts in one": b"Host: x, y\r\n",
    "a blank in Host": b"Host: x y\r\n",
    "a path in Host": b"Host: x/y\r\n",
    "a user in Host": b"Host: y@x\r\n",
    "half a bracket in Host": b"Host: [::1\r\n",
    "no port in Host": b"Host: x:y\r\n",
    "two ports in Host": b"Host: x:1:2\r\n",
    "a query in Host": b"Host: x?y\r\n",
    "a fragment in Host": b"Host: x#y\r\n",
    "a quote in Host": b'Host: "x"\r\n',
    "a backslash in Host": b"Host: x\\y\r\n",
    "half a percent sign in Host": b"Host: x%2\r\n",
}
# Transfer codings other than chunks alone.
CODINGS = (
    *(b"identity", b"gzip, chunked", b"xchunked", b"chunked, identity", b"chunked;a=b", b'"chunked"'),
    *(b"", b"deflate", b"chunked, gzip"),
)
TWICE = ("Authorization", "Content-Length", "Content-Type", "Idempotency-Key", "X-Site-Fresh", "X-Site-Revision")


def of_lengths(token: str) -> Iterator[Attack]:
    """Bodies whose length can be read in two ways."""
    length = b"Content-Length: " + SIZE + b"\r\n"
    yield Attack("a length of 0 and another", post(token, b"Content-Length: 0\r\n", length))
    yield Attack("a length and one of 0", post(token, length, b"content-length: 0\r\n"))
    yield Attack("one length twice", post(token, length, length))
    yield Attack("a blank before the colon", post(token, b"Content-Length : " + SIZE + b"\r\n"))
    yield Attack("a tab before the colon", post(token, b"Content-Length\t: " + SIZE + b"\r\n"))
    yield Attack("a blank before the name", post(token, b" Content-Length: " + SIZE + b"\r\n"))
    yield Attack("a length in the next line", post(token, b"Content-Length:\r\n " + SIZE + b"\r\n"))
    yield Attack("a length and an empty one", post(token, b"Content-Length:\r\n", length))
    yield Attack("one length, written in two ways", post(token, b"Content-Length: 0" + SIZE + b"\r\n", length))
    yield Attack("a form feed before a length", post(token, b"Content-Length:\x0c" + SIZE + b"\r\n"))
    yield Attack("a zero after a length", post(token, b"Content-Length: " + SIZE + b"\x00\r\n"))
    yield Attack("a newline alone after a length", post(token, b"Content-Length: " + SIZE + b"\n"))
    yield Attack("a carriage return alone after a length", post(token, b"Content-Length: " + SIZE + b"\rX: y\r\n"))
    for given in LENGTHS:
        yield Attack(f"a length {given!r}", post(token, b"Content-Length: " + given + b"\r\n"))
    yield Attack("no length", post(token), (411,))
    yield Attack("a length under another name", post(token, b"Content_Length: " + SIZE + b"\r\n"), (411,))
    for what, line in NO_FIELDS.items():
        yield Attack(f"{what}, and a length after it", post(token, line, length))
        yield Attack(f"a length, and {what} after it", post(token, length, line))


def of_codings(token: str) -> Iterator[Attack]:
    """Bodies with a transfer coding, and a length beside it."""
    length, chunked = b"Content-Length: " + SIZE + b"\r\n", b"Transfer-Encoding: chunked\r\n"
    yield Attack("a length and chunks", post(token, length, chunked))
    yield Attack("chunks and a length", post(token, chunked, length))
    yield Attack("chunks and a length of 0", post(token, chunked, b"Content-Length: 0\r\n"))
    yield Attack("chunks", post(token, chunked), (411,))
    yield Attack("chunks in another case", post(token, b"transfer-encoding: CHUNKED\r\n"), (411,))
    yield Attack("chunks twice", post(token, chunked, chunked), (411,))
    yield Attack("chunks of HTTP/1.0", post(token, chunked, version=b"HTTP/1.0"))
    yield Attack("a blank before the colon of a coding", post(token, b"Transfer-Encoding : chunked\r\n", length))
    yield Attack("a vertical tab before a coding", post(token, b"Transfer-Encoding:\x0bchunked\r\n", length))
    yield Attack("a coding in the next line", post(token, b"Transfer-Encoding:\r\n chunked\r\n", length))
    yield Attack("chunks after another coding", post(token, b"Transfer-Encoding: gzip\r\n", chunked), (501,))
    for coding in CODINGS:
        yield Attack(f"a coding {coding!r}", post(token, b"Transfer-Encoding: " + coding + b"\r\n"), (501,))
        yield Attack(
            f"a coding {coding!r} and a length", post(token, b"Transfer-Encoding: " + coding + b"\r\n", length)
        )
    yield Attack("a page with chunks", get(chunked), (411,))
    yield Attack("an expectation that nobody has", get(b"Expect: 200-ok\r\n"), (417,))


def of_heads() -> Iterator[Attack]:
    """Heads that are none."""
    for what, line in LINES.items():
        yield Attack(f"a request line: {what}", line + b"\r\nHost: x\r\n\r\n" + HIDDEN)
    yield Attack("HTTP/2.0", get(version=b"HTTP/2.0"), (505,))
    yield Attack("newlines alone", get().replace(b"\r\n", b"\n"))
    yield Attack("two empty lines before it", b"\r\n\r\n" + get())
    yield Attack("a newline before it", b"\n" + get())
    yield Attack("TLS", b"\x16\x03\x01\x00\xa5\x01\x00\x00\xa1\x03\x03\r\n\r\n")
    for what, line in HOSTS.items():
        yield Attack(what, get(host=line))
    yield Attack("two Hosts of HTTP/1.0", get(host=HOSTS["two Hosts"], version=b"HTTP/1.0"))
    yield Attack("two Hosts beside a whole address", get(host=HOSTS["two Hosts"], target=b"http://x/"))
    for name in TWICE:
        yield Attack(f"{name} twice", get(f"{name}: 1\r\n".encode(), f"{name.lower()}: 1\r\n".encode()))


def of_sizes() -> Iterator[Attack]:
    """Heads that are too large, of which the rest isn't read."""
    yield Attack("a long path", get(target=b"/" + b"x" * HEAD_BYTES), (414,))
    yield Attack("a path without an end", b"GET /" + b"x" * (1 << 20), (414,))
    yield Attack("a long field", get(b"X: " + b"x" * HEAD_BYTES + b"\r\n"), (431,))
    yield Attack("a field without an end", b"GET / HTTP/1.1\r\nHost: x\r\nX: " + b"x" * (1 << 20), (431,))
    yield Attack("98 fields of 60 kB", get(*[b"X: " + b"x" * 60_000 + b"\r\n"] * 98), (431,))
    yield Attack("one field too many", get(*[b"X: y\r\n"] * FIELDS), (431,))
    yield Attack("one byte too many", filled(HEAD_BYTES + 1) + HIDDEN, (431,))


def filled(size: int) -> bytes:
    """A head of some size."""
    head = b"GET / HTTP/1.1\r\nHost: x\r\nX: \r\n\r\n"
    return head.replace(b"X: ", b"X: " + b"x" * (size - len(head)))


def attacks(token: str) -> list[Attack]:
    return [*of_lengths(token), *of_codings(token), *of_heads(), *of_sizes()]


def resisted(address: Address, attack: Attack) -> None:
    """A server refuses an attack, and reads nothing after it."""
    responses, is_closed = asked(address, attack.sent)
    statuses = [it.status for it in responses]
    if len(statuses) != 1 or statuses[0] not in attack.statuses:
        raise Wrong(f"{statuses} came, wanted one of {attack.statuses}")
    if not is_closed:
        raise Wrong(f"the connection stays after {statuses[0]}")
    if responses[0].fields.get("connection") != "close":
        raise Wrong(f"{statuses[0]} doesn't say that the connection ends")


# Requests that are sound, and have to be served.


def statuses_of(address: Address, text: bytes) -> tuple[list[int], bool]:
    responses, is_closed = asked(address, text)
    return [it.status for it in responses], is_closed


def is_served(address: Address, text: bytes, count: int, is_closed: bool) -> None:
    """A server answers so many pages to some bytes, and ends the connection or doesn't."""
    statuses, has_ended = statuses_of(address, text)
    if len(statuses) != count or any(it not in PAGE for it in statuses) or has_ended != is_closed:
        raise Wrong(f"{statuses[:5]} came, {len(statuses)} in all, and the connection {'ended' * has_ended or 'stays'}")


def alone(text: bytes) -> bytes:
    """A request of `get` without the one after it."""
    return text.removesuffix(HIDDEN)


def one_by_one(address: Address) -> None:
    """A head that comes byte by byte, and the next one with its end."""
    with Raw(address) as raw:
        for byte in alone(get(b"X: y\r\n")):
            raw.send(bytes([byte]))
            time.sleep(0.001)
        raw.send(HIDDEN)
        responses, is_closed = raw.rest()
    if [it.status in PAGE for it in responses] != [True, True] or is_closed:
        raise Wrong(f"{[it.status for it in responses]} came")


SOUND: dict[str, tuple[bytes, int, bool]] = {
    "two requests at once": (get(), 2, False),
    "many requests at once": (alone(get()) * PIPELINED, PIPELINED, False),
    "an empty line before each": ((b"\r\n" + alone(get())) * 2, 2, False),
    "HTTP/1.0 without a Host": (get(host=b"", version=b"HTTP/1.0"), 1, True),
    "a later version of HTTP/1": (alone(get(version=b"HTTP/1.2")), 1, False),
    "a connection that ends": (get(b"Connection: Keep-Alive, CLOSE\r\n"), 1, True),
    "no blank after a colon, and some": (alone(get(b"X:y\r\n", b"Y: \t z \t \r\n", b"Z:\r\n")), 1, False),
    "a value that isn't ASCII": (alone(get("X: \u00e9\r\n".encode())), 1, False),
    "names in another case": (alone(get(b"cONNECTION: keep-alive\r\n", host=b"hOsT: x\r\n")), 1, False),
    "an address of IPv6 as Host": (alone(get(host=b"Host: [::1]:80\r\n")), 1, False),
    "an empty Host": (alone(get(host=b"Host:\r\n")), 1, False),
    "a whole address": (alone(get(target=b"http://y:80/?p=1")), 1, False),
    "a whole address without a path": (alone(get(target=b"HTTP://y?p=1")), 1, False),
    "a path that isn't ASCII": (alone(get(target="/?x=\u00e9".encode())), 1, False),
    "a page with a body": (get(b"Content-Length: " + SIZE + b"\r\n"), 1, True),
    "a page with a body of no bytes": (get(b"Content-Length: 0\r\n"), 2, False),
    "the largest head": (filled(HEAD_BYTES) + HIDDEN, 2, False),
    "as many fields as there may be": (get(*[b"X: y\r\n"] * (FIELDS - 1)), 2, False),
}


# Bodies that are refused before they have come, and those that are waited for.


def edits(token: str, size: int, *lines: bytes, version: bytes = b"HTTP/1.1") -> bytes:
    """The head of a request that brings a body of some size."""
    return post(token, b"Content-Length: %d\r\n" % size, *lines, version=version).removesuffix(HIDDEN)


def is_refused_at_once(address: Address, head: bytes, status: int) -> None:
    """A server refuses a head whose body doesn't come."""
    with Raw(address, AT_ONCE) as raw:
        begin = time.monotonic()
        raw.send(head)
        response = raw.response()
        spent = time.monotonic() - begin
    if response is None or response.status != status or spent > AT_ONCE:
        raise Wrong(f"{response and response.status} came after {spent:.1f} s, wanted {status} at once")


def is_told_to_go_on(address: Address, token: str, body: bytes, status: int) -> None:
    """A client that waits to be told to send its body is told so, and then gets its response."""
    with Raw(address, AT_ONCE) as raw:
        begin = time.monotonic()
        raw.send(edits(token, len(body), b"Expect: 100-Continue\r\n"))
        first = raw.response("POST")
        spent = time.monotonic() - begin
        if first is None or first.status != 100 or spent > AT_ONCE:
            raise Wrong(f"{first and first.status} came after {spent:.1f} s, wanted 100 at once")
        raw.send(body)
        last = raw.response("POST")
    if last is None or last.status != status:
        raise Wrong(f"{last and (last.status, last.body[:80])} came after the body, wanted {status}")


def is_never_told(address: Address, head: bytes, body: bytes, status: int) -> None:
    """A client that doesn't wait is told nothing before its response."""
    with Raw(address) as raw:
        raw.send(head + body)
        first = raw.response("POST")
    if first is None or first.status != status:
        raise Wrong(f"{first and first.status} came, wanted {status}")


def is_answered_while_it_sends(address: Address, head: bytes, size: int, status: int) -> None:
    """A client that is refused while it sends a body has the whole response, though nobody takes the body."""
    with Raw(address) as raw:
        raw.send(head)
        left = size
        while left > 0:
            raw.send(b"x" * min(left, 1 << 20))
            left -= 1 << 20
        responses, is_closed = raw.rest()
    if [it.status for it in responses] != [status] or not is_closed:
        raise Wrong(f"{[it.status for it in responses]} came, wanted {status} and the connection's end")


def of_bodies(address: Address, token: str) -> Iterator[tuple[str, Callable[[], None]]]:
    """What becomes of bodies, by names."""
    waits, large, wrong = b"Expect: 100-continue\r\n", BODY_BYTES + 1, f"{token}x"
    heads = {
        "a body that is too large": (edits(token, large), 413),
        "a body that is too large, and waits": (edits(token, large, waits), 413),
        "a length beyond all numbers": (edits(token, 10**40), 413),
        "a wrong token before its body": (edits(wrong, 1000), 401),
        "a wrong token that waits": (edits(wrong, 1000, waits), 401),
        "a wrong token and a large body": (edits(wrong, large), 401),
        "a key that is none": (edits(token, 1000, b"Idempotency-Key: a b\r\n"), 400),
        "a body for what takes none": (edits(token, 1000).replace(b"/command", b"/", 1), 405),
    }
    for name, (head, status) in heads.items():
        yield name, partial(is_refused_at_once, address, head, status)
    yield "a body that waits", partial(is_told_to_go_on, address, token, b"{}", 400)
    old = edits(token, 2, waits, version=b"HTTP/1.0")
    yield "a body of HTTP/1.0 that waits", partial(is_never_told, address, old, b"{}", 400)
    yield "a body that has come", partial(is_never_told, address, edits(token, 2), b"{}", 400)
    for name, head, status in (("too large", edits(token, large), 413), ("a stranger's", edits(wrong, large), 401)):
        asked_for = partial(is_answered_while_it_sends, address, head, large, status)
        yield f"a body that comes all the same: {name}", asked_for


def checks(address: Address, token: str) -> Iterator[tuple[str, Callable[[], None]]]:
    """All that a server is asked, by names."""
    for attack in attacks(token):
        yield attack.name, partial(resisted, address, attack)
    for name, sound in SOUND.items():
        yield f"sound: {name}", partial(is_served, address, *sound)
    yield "sound: byte by byte", partial(one_by_one, address)
    yield from of_bodies(address, token)


def failures(given: Iterable[tuple[str, Callable[[], None]]]) -> dict[str, str]:
    """What came otherwise than it must, by the names of what was asked. Some are asked at once."""

    def failure(check: Callable[[], None]) -> str | None:
        try:
            check()
        except (Wrong, OSError, ValueError) as fault:
            return str(fault) or repr(fault)
        return None

    with ThreadPoolExecutor(TOGETHER) as pool:
        running = [(name, pool.submit(failure, check)) for name, check in given]
        return {name: fault for name, it in running if (fault := it.result()) is not None}
