"""Heads of requests, read in one way alone."""

import contextlib
from random import Random

from geanmarbles.checks.units.drawn import each, text_of
from geanmarbles.checks.units.test_etcd import raised
from geanmarbles.web.heads import FIELDS, BadHead, head_of

NAMES = ("Accept", "X-A", "cookie", "Range")


def test_a_head_is_read_as_it_was_written() -> None:
    def check(random: Random) -> None:
        method = random.choice(["GET", "HEAD", "POST", "M-SEARCH"])
        path = "/" + text_of(random, "abc?&=%/é.", 20)
        fields = [(random.choice(NAMES), text_of(random, 'az 09,;="')) for _ in range(random.randint(0, 5))]
        length = random.choice([None, 0, 7, 10**9])
        lines = [f"{method} {path} HTTP/1.1", "Host: a.example:80", *(f"{name}: {value}" for name, value in fields)]
        lines += [] if length is None else [f"Content-Length: {length}"]
        head = head_of("\r\n".join([*lines, "", ""]).encode("iso-8859-1"))
        assert (head.method, head.path, head.is_old, head.length) == (method, path.encode("iso-8859-1"), False, length)
        for name, value in fields:
            assert value.strip(" \t") in head.fields.get_all(name.upper())
        assert not head.waits

    each(check)


def test_a_head_with_a_defect_is_refused() -> None:
    def check(random: Random) -> None:
        lines = [b"GET /a HTTP/1.1", b"Host: a", b"X-A: b", b"Accept: c"]
        at = random.randrange(len(lines))
        place = random.randint(1, len(lines[at]))
        put = random.choice([b"\r", b"\n", b"\0", b"\x0b", b"\r\n ", b"\x7f"])
        lines[at] = lines[at][:place] + put + lines[at][place:]
        assert raised(BadHead, lambda: head_of(b"\r\n".join([*lines, b"", b""]))).status in (400, 505)

    each(check)


def test_any_bytes_are_a_head_or_are_refused() -> None:
    def check(random: Random) -> None:
        pieces = [
            b"GET ",
            b"/ ",
            b"HTTP/1.1",
            b"\r\n",
            b"\n",
            b":",
            b"Host: a",
            b"\xff",
            b" ",
            b"Content-Length: 1",
            b"\t",
        ]
        text = b"".join(random.choice(pieces) for _ in range(random.randint(0, 12)))
        try:
            head_of(text)
        except BadHead as bad:
            assert 400 <= bad.status < 600 and bad.why

    each(check, 300)


def refused(*lines: str) -> int:
    text = "\r\n".join([*lines, "", ""]).encode()
    return int(raised(BadHead, lambda: head_of(text)).status)


def test_each_way_to_be_read_in_two_ways_is_refused() -> None:
    get, host = "GET / HTTP/1.1", "Host: a"
    assert refused(get) == 400, "no host"
    assert refused(get, host, host) == 400
    for name in ("Content-Length", "Authorization", "Idempotency-Key", "X-Site-Fresh"):
        assert refused(get, host, f"{name}: 1", f"{name.lower()}: 1") == 400, name
    assert refused(get, host, "Content-Length: 1", "Transfer-Encoding: chunked") == 400
    assert refused(get, host, "Content-Length: +1") == refused(get, host, "Content-Length: 1 1") == 400
    assert refused(get, host, "Transfer-Encoding: chunked") == 411
    assert refused(get, host, "Transfer-Encoding: gzip") == 501
    assert refused(get, host, "Host : b") == refused(get, host, " folded") == 400
    assert refused(get, host, "Expect: something") == 417
    assert refused("GET / HTTP/2.0", host) == 505
    assert refused("GET  / HTTP/1.1", host) == refused("GET /", host) == refused("GET / HTTP/0.9", host) == 400
    assert refused(get, host, *["X: y"] * FIELDS) == 431
    assert refused("GET http:///x HTTP/1.1", host) == 400


def test_a_target_that_names_a_host_counts() -> None:
    head = head_of(b"GET http://b:1/x?y HTTP/1.1\r\nHost: a\r\n\r\n")
    assert (head.path, head.fields.get("host")) == (b"/x?y", "b:1")
    assert head_of(b"GET http://b HTTP/1.1\r\nHost: a\r\n\r\n").path == b"/"
    assert head_of(b"GET / HTTP/1.0\r\n\r\n").is_old
    waits = head_of(b"POST /c HTTP/1.1\r\nHost: a\r\nExpect: 100-Continue\r\nContent-Length: 3\r\n\r\n")
    assert waits.waits and waits.length == 3


# Heads, and what they are read as: the method, the path, the length, and whether the body waits.
READ: dict[bytes, tuple[str, bytes, int | None, bool]] = {
    b"GET //a?b=%20c#d HTTP/1.1\r\nHost: x\r\n\r\n": ("GET", b"//a?b=%20c#d", None, False),
    b"GET * HTTP/1.1\r\nHost: x\r\n\r\n": ("GET", b"*", None, False),
    b"GET https://y:1?q=http://z/ HTTP/1.0\r\n\r\n": ("GET", b"/?q=http://z/", None, False),
    b"POST /a HTTP/1.1\r\nHost: x\r\nContent-Length:  007\t\r\n\r\n": ("POST", b"/a", 7, False),
    b"POST /a HTTP/1.1\r\nHost: x\r\nExpect: 100-CONTINUE\r\ncontent-length: 1\r\n\r\n": ("POST", b"/a", 1, True),
    b"POST /a HTTP/1.0\r\nExpect: 100-continue\r\nContent-Length: 1\r\n\r\n": ("POST", b"/a", 1, False),
    b"POST / HTTP/1.1\r\nHost: x\r\nContent-Length: " + b"9" * 30 + b"\r\n\r\n": ("POST", b"/", 10**19, False),
}


def test_a_head_is_read_as_what_it_is() -> None:
    for text, wanted in READ.items():
        head = head_of(text)
        assert (head.method, head.path, head.length, head.waits) == wanted, text
    head = head_of(b"GET / HTTP/1.1\r\nHost: x\r\nA: b \t\r\na:\tc,D\r\n\r\n")
    assert head.fields.get("a") == "b, c,D" and head.fields.words("A") == {"b", "c", "d"}
    assert "x" not in head.fields and head.fields.get("x") is None and not head.fields.get_all("x")


def test_what_is_left_of_a_head_is_never_another_request() -> None:
    whole = b"POST /command HTTP/1.1\r\nHost: x\r\nContent-Length: 5\r\n\r\n"
    for size in range(len(whole)):
        with contextlib.suppress(BadHead):
            head = head_of(whole[:size] + b"\r\n\r\n")
            assert head.path == whole.split()[1][: len(head.path)], whole[:size]
