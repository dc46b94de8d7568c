"""The head of a request of HTTP/1.1, read by its grammar and no more loosely.

Two servers that read one head in two ways can be played off against each other: what one takes for a part of a body is
the next request to the other, with a path and a token that nobody has looked at. So a head is taken only if there is
one way to read it, and everything else is refused: a line that is no field, a carriage return or a newline alone, a
field that goes on in the next line, two lengths, a length beside a transfer coding, two hosts or none.

    400    the head is none, or can be read in two ways
    411    the body comes in chunks
    414    a request line that is longer than a head may be
    417    an expectation other than `100-continue`
    431    a head of more than HEAD_BYTES bytes, or of more than FIELDS fields
    501    a transfer coding other than chunks
    505    HTTP/2 or later
"""

import re
from collections.abc import Iterable
from typing import NamedTuple

# The most bytes and fields of a head.
HEAD_BYTES, FIELDS = 16_384, 100
# The end of a head as far as it is looked for. Whether its lines end as they must is looked at once it is there.
END = re.compile(rb"\n\r?\n")
TOKEN = r"[!#$%&'*+.^_`|~0-9A-Za-z-]+"
# A request line. The path comes as the client has it: what isn't ASCII is taken, blanks and controls aren't.
REQUEST = re.compile(rf"({TOKEN}) ([^\x00-\x20\x7f]+) HTTP/([0-9])\.([0-9])")
# Fields, each with what ends its line: a name, a colon without a blank before it, and a value without controls but the
# tab; and after the last one an empty line.
LINES = re.compile(rf"(?:{TOKEN}:[ \t]*(?:[^\x00-\x20\x7f][^\x00-\x08\x0a-\x1f\x7f]*)?\r\n)*\r\n")
# A host by name or address, with a port or none; it may be empty.
HOST = re.compile(r"(\[[0-9A-Fa-f:.]+\]|(?:[A-Za-z0-9._~!$&'()*+,;=-]|%[0-9A-Fa-f]{2})*)(:[0-9]*)?")
# A target that names the host as well, as those who take a server for a proxy send it.
WHOLE = re.compile(r"https?://([^/?#]*)(.*)", re.I | re.S)
# Fields of which a request has one at most, beside Host: which of two is meant nobody can know.
SINGLE = ("authorization", "content-length", "content-type", "idempotency-key", "x-site-fresh", "x-site-revision")
# A length of more digits is larger than any that is taken.
DIGITS = 19


class BadHead(Exception):
    """Why a head is refused: the status, and what the client is told."""

    def __init__(self, status: int, why: str) -> None:
        super().__init__(why)
        self.status, self.why = status, why


class Fields:
    """The fields of a head, in order. Names are compared without regard to case."""

    def __init__(self, fields: Iterable[tuple[str, str]]) -> None:
        self.by_name: dict[str, list[str]] = {}
        for name, value in fields:
            self.by_name.setdefault(name.lower(), []).append(value)

    def get_all(self, name: str) -> list[str]:
        return self.by_name.get(name.lower(), [])

    def get(self, name: str) -> str | None:
        """The value of a field, or None; of a field that came several times all its values, as one list."""
        found = self.get_all(name)
        return ", ".join(found) if found else None

    def words(self, name: str) -> set[str]:
        """The words of a field that is a list of them."""
        return {it.strip().lower() for value in self.get_all(name) for it in value.split(",")} - {""}

    def __contains__(self, name: str) -> bool:
        return name.lower() in self.by_name


class Head(NamedTuple):
    """A head that was read: the method, the path with its query as it came, whether the version is HTTP/1.0, the
    fields, the body's length (None if it isn't told), and whether the client waits to be told to send the body."""

    method: str
    path: bytes
    is_old: bool
    fields: Fields
    length: int | None
    waits: bool


def head_of(text: bytes) -> Head:
    """Reads a head with the empty line at its end. Raises BadHead."""
    first, _, rest = text.decode("iso-8859-1").partition("\r\n")
    method, target, is_old = request_of(first)
    fields = fields_of(rest)
    path = path_of(target, fields)
    check_host(fields, is_old)
    length = length_of(fields, is_old)
    waits = "Expect" in fields and not is_old
    if waits and fields.words("Expect") != {"100-continue"}:
        raise BadHead(417, "no expectation but 100-continue is met")
    return Head(method, path.encode("iso-8859-1"), is_old, fields, length, waits)


def request_of(line: str) -> tuple[str, str, bool]:
    """The method and the target of a request line, and whether its version is HTTP/1.0."""
    words = REQUEST.fullmatch(line)
    if not words or words[3] == "0":
        raise BadHead(400, "a request line is a method, a path and a version of HTTP, with one blank between them")
    if words[3] != "1":
        raise BadHead(505, "this server speaks HTTP/1.1")
    return words[1], words[2], words[4] == "0"


def fields_of(rest: str) -> Fields:
    """The fields of a head, of which the first line is missing."""
    if not LINES.fullmatch(rest):
        raise BadHead(400, "a line of the head is no field, or doesn't end with a carriage return and a newline")
    lines = rest.split("\r\n")[:-2]
    if len(lines) > FIELDS:
        raise BadHead(431, f"a head has at most {FIELDS} fields")
    parts = (line.partition(":") for line in lines)
    fields = Fields((name, value.strip(" \t")) for name, _, value in parts)
    if len(fields.by_name) < len(lines):
        for name in SINGLE:
            if (count := len(fields.get_all(name))) > 1:
                raise BadHead(400, f"a request has one {name.title()} at most, and this one has {count}")
    return fields


def path_of(target: str, fields: Fields) -> str:
    """The path of a target with its query, as it came. The host of a target that names one counts, whatever the field
    says."""
    whole = WHOLE.fullmatch(target)
    if not whole:
        return target
    host, path = whole[1], whole[2]
    if not host or not HOST.fullmatch(host):
        raise BadHead(400, "the request line names no host that there can be")
    if "Host" in fields:
        fields.by_name["host"] = [host, *fields.get_all("Host")[1:]]
    return path if path.startswith("/") else f"/{path}"


def check_host(fields: Fields, is_old: bool) -> None:
    """Makes sure that a request names one host, or none if it is of a time when none was named."""
    hosts = fields.get_all("Host")
    if len(hosts) > 1 or not hosts and not is_old:
        raise BadHead(400, f"a request has one Host, and this one has {len(hosts)}")
    if hosts and not HOST.fullmatch(hosts[0]):
        raise BadHead(400, "the Host is none that there can be")


def length_of(fields: Fields, is_old: bool) -> int | None:
    """The length that the body has by its field, or None."""
    given = fields.get("Content-Length")
    if "Transfer-Encoding" in fields:
        if given is not None or is_old:
            raise BadHead(400, "a body has a length or a transfer coding, not both, and HTTP/1.0 has no coding")
        if fields.words("Transfer-Encoding") == {"chunked"}:
            raise BadHead(411, "the body's length has to be told by Content-Length")
        raise BadHead(501, "no transfer coding is read here")
    if given is None:
        return None
    if not given.isascii() or not given.isdigit():
        raise BadHead(400, "Content-Length isn't a number")
    digits = given.lstrip("0")
    return int(digits or "0") if len(digits) <= DIGITS else 10**DIGITS
