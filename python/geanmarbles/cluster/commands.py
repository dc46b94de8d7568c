"""The body of `POST /command`: edits, one a line, each of which is made once."""

from __future__ import annotations

from typing import TYPE_CHECKING, NamedTuple

from geanmarbles.cluster.etcd import Refused, Unreachable, WentBack, reason_of
from geanmarbles.cluster.history import OtherBody, sum_of
from geanmarbles.cluster.tokens import NAMELESS, Tokens
from geanmarbles.web.edit_bodies import Bad, lines_of_body

if TYPE_CHECKING:
    from geanmarbles.cluster.site_node import Node

# How long one line may take, and how long the program may owe a reply before no edit is taken.
LINE_SECONDS, OWES_SECONDS = 12, 5


class Request(NamedTuple):
    """A request: its key, its lines, a sum of them if it has several, and the name of its token if that has one."""

    key: str
    lines: list[bytes]
    sum: str
    by: str = ""

    def id_of(self, number: int) -> str:
        return f"{self.key}/{number}"


class Result(NamedTuple):
    """What became of a request: its status, the replies, and the place of the last edit that is known."""

    status: int
    replies: list[str]
    place: int


def name_of(tokens: Tokens | None, given: str | None) -> str:
    """The name of whoever edits by a request, which has to have a token."""
    if tokens is None:
        raise Bad(403, "this node takes no edits: it was started without a token")
    return tokens.name_of(given)


def request_of(key: str, body: bytes, by: str = "") -> Request:
    """The request that a body makes. Each line is looked at before any is carried out."""
    lines = lines_of_body(body)
    return Request(key, lines, sum_of(b"\n".join(lines)) if len(lines) > 1 else "", "" if by == NAMELESS else by)


def check_ready(node: Node) -> None:
    """Makes sure that a node can take edits now. They wait for a slow program longer than visitors should."""
    why = node.state(OWES_SECONDS)
    if why:
        raise Bad(503, ": ".join(why), Retry_After="1")


def carry_out(node: Node, request: Request) -> Result:
    """Makes each line an edit, one after the other, and waits for its reply."""
    check_ready(node)
    replies: list[str] = []
    place = 0
    for number in range(1, len(request.lines) + 1):
        try:
            made = node.history.append(request, number, node.last, LINE_SECONDS)
        except OtherBody:
            raise Bad(422, "another body was given with this Idempotency-Key before") from None
        except WentBack:
            return Result(504, [*replies, f"unknown {number}"], place)
        except (Unreachable, Refused) as fault:
            if number == 1 and not fault.may_be_done:
                raise Bad(503, ": ".join(reason_of(fault)), Retry_After="1") from None
            return Result(504, [*replies, f"unknown {number}"], place)
        place = made.place
        reply = made.reply or node.reply_to(request.id_of(number), place, LINE_SECONDS)
        if reply is None:
            return Result(504, [*replies, f"unknown {number}"], place)
        replies.append(reply)
    return Result(200, replies, place)
