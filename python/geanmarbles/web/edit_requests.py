"""Edits that come to `geanmarbles browse` by HTTP: who may make them, what a request may hold, and what became of it.

A request and its response have the form that those of a node of a cluster have (docs/CLUSTER.md, Requests), so one
client serves both:

    POST /command    edits, one a line, with Authorization: Bearer TOKEN; the replies, one a line
    GET /history     with the same token, every edit that the site is made of, one a line, as it was given

A request with an Idempotency-Key that came before gets what it got then, and nothing is carried out again. Keys are
known as long as this program serves, the last KEYS of them.
"""

import hashlib
import threading
from collections import OrderedDict
from pathlib import Path
from typing import NamedTuple

from geanmarbles.client.replies import NoReply
from geanmarbles.supervisor.programs import NotServed, Site, Unknown
from geanmarbles.web.edit_bodies import Bad, key_of


COMMAND, HISTORY = b"/command", b"/history"
# How many keys of requests are known.
KEYS = 10_000


class Outcome(NamedTuple):
    """What became of a request: a sum of its lines, its status and the replies."""

    sum: bytes
    status: int
    replies: list[str]


def token_of(path: Path) -> bytes:
    """The token that a file has, without the white space around it."""
    text = path.read_bytes().strip()
    if not text or not text.isascii() or not text.decode().isprintable():
        raise ValueError(f"{path} has to hold visible ASCII characters in one line")
    return text


class Edits:
    """Carries out requests over a site, one after the other, and each of them once."""

    def __init__(self, site: Site) -> None:
        self.site, self.turn = site, threading.Lock()
        self.known: OrderedDict[str, Outcome] = OrderedDict()

    def made(self, key: str | None, lines: list[bytes]) -> tuple[str, Outcome]:
        """The key of a request and what became of it, now or when it came before."""
        key = key_of(key)
        told = hashlib.sha256(b"\n".join(lines)).digest()
        with self.turn:
            if key not in self.known:
                self.known[key] = Outcome(told, *self.carried_out(lines))
                if len(self.known) > KEYS:
                    self.known.popitem(last=False)
            if self.known[key].sum != told:
                raise Bad(422, "another body was given with this Idempotency-Key before")
            return key, self.known[key]

    def carried_out(self, lines: list[bytes]) -> tuple[int, list[str]]:
        """The status and the replies of some edits. It ends at the first whose outcome isn't known."""
        replies: list[str] = []
        for line in lines:
            try:
                replies.append(self.site.edit(line).text())
            except Unknown:
                return 504, [*replies, f"unknown {len(replies) + 1}"]
            except (NoReply, NotServed):
                if not replies:
                    raise Bad(503, "the program has ended", Retry_After="1") from None
                return 504, [*replies, f"unknown {len(replies) + 1}"]
        return 200, replies
