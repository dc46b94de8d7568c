"""The edits of a history as they come, in order and without a gap.

Edits come from a watch of etcd, which tells what was made from a revision on, each once and in the order of revisions.
A watch that ends is begun anew after the last edit that came. If etcd has dropped what lies between, the edits that are
still there are read instead.
"""

import http.client
import json
import socket
import threading
import time
from collections.abc import Callable, Iterator

from geanmarbles.cluster.etcd import Json, Lost, NotSent, Refused, Unreachable, decoded, encoded, end_of
from geanmarbles.cluster.history import KEYS_LISTED, TRANSACTION_KEYS, Edit, Gap, History, Last, edit_of, told

# How long to wait before a watch that has ended is begun anew.
PAUSE_SECONDS = 0.1
# The most bytes that are asked for at once of edits that are read.
READ_BYTES = 1 << 22


class Compacted(Exception):
    """etcd no longer tells what was made from that revision on."""


class Following:
    """The edits of a history after one of them, until it is closed.

    `reached` says which edit this node has come to before, so that none of its programs goes on with a history that
    hasn't that edit."""

    def __init__(self, history: History, last: Last, reached: Callable[[], Last]) -> None:
        self.history, self.last, self.reached = history, last, reached
        # The revision from which on edits are wanted, and whether etcd has dropped some of what was made from there on.
        self.next, self.is_compacted = last.place + 1, False
        # The connection of the watch; since when nothing has come while it was waited for; and whether this is closed.
        self.connection: http.client.HTTPConnection | None = None
        self.idle_since: float | None = None
        self.is_closed = False
        self.turn = threading.Lock()

    def batches(self) -> Iterator[list[Edit]]:
        """Lists of edits. Raises WentBack or Gap if the history no longer goes on from where this has come to."""
        while not self.is_closed:
            try:
                self.check()
                yield from self.read() if self.is_compacted else self.watched()
            except Compacted:
                self.is_compacted = True
            except (Lost, NotSent, Refused, Unreachable, OSError, ValueError, http.client.HTTPException):
                # It is begun anew, with another endpoint if this one is at fault; the node says what is wrong.
                self.history.etcd.pass_on(self.history.etcd.at)
                time.sleep(PAUSE_SECONDS)

    def check(self) -> None:
        """Makes sure that the history in etcd goes on from here, and from where this node has come to."""
        if self.last.place and not self.history.has_still(self.last):
            raise Gap(f"nothing is left of edit {told(self.last)}")
        reached = self.reached()
        if reached.place and not self.history.has_still(reached):
            # It is gone with the edits that a snapshot has, if this began with that one.
            if self.last.place < reached.place or self.last.count < reached.count:
                raise Gap(f"nothing is left of edit {told(reached)}")

    def passed(self, edits: list[Edit]) -> list[Edit]:
        """Notes edits that whoever follows is given now."""
        for it in edits:
            self.last = Last(it.place, it.id, self.last.count + 1)
        self.next = max(self.next, self.last.place + 1)
        return edits

    def watched(self) -> Iterator[list[Edit]]:
        keys = self.history.keys
        wanted: Json = {"key": encoded(keys.edits), "range_end": encoded(end_of(keys.edits)), "filters": ["NODELETE"]}
        wanted |= {"start_revision": str(self.next), "fragment": True}
        connection, response = self.history.etcd.watching({"create_request": wanted})
        try:
            self.hold(connection)
            for message in self.messages(response):
                edits = self.edits_in(message)
                if edits:
                    yield self.passed(edits)
        finally:
            self.hold(None)
            connection.close()

    def hold(self, connection: http.client.HTTPConnection | None) -> None:
        with self.turn:
            self.connection = connection
            if connection and self.is_closed:
                shut(connection)

    def messages(self, response: http.client.HTTPResponse) -> Iterator[Json]:
        """What a watch tells, until it ends."""
        pieces: list[bytes] = []
        while not self.is_closed:
            self.idle_since = time.monotonic()
            came = response.read1(1 << 16)
            self.idle_since = None
            if not came:
                raise Lost("the watch has ended")
            # A message of many edits comes in hundreds of pieces, which are put together once.
            *ends, rest = came.split(b"\n")
            for end in ends:
                yield json.loads(b"".join([*pieces, end]))
                pieces = []
            pieces.append(rest)

    def edits_in(self, message: Json) -> list[Edit]:
        """The edits that a message of a watch tells. Raises Compacted or Lost at the end of the watch."""
        if "result" not in message:
            raise Lost(str(message.get("error")))
        result = message["result"]
        self.history.etcd.note_cluster(result["header"])
        if result.get("canceled"):
            raise Compacted() if result.get("compact_revision") else Lost(str(result.get("cancel_reason")))
        edits = []
        for event in result.get("events", []):
            found = event["kv"]
            if int(found["mod_revision"]) < self.next:
                continue
            if found["mod_revision"] != found["create_revision"]:
                raise Gap(f"the edit at {decoded(found['key'])!r} was changed after it had been made")
            edits.append(edit_of(self.history.keys, found))
        return edits

    def read(self) -> Iterator[list[Edit]]:
        """The edits that etcd still has, all at one revision, some at a time."""
        listed: list[tuple[int, bytes]] = []
        revision = 0
        for found, revision in self.history.all_of(self.history.keys.edits, limit=KEYS_LISTED, keys_only=True):
            places = ((int(it["create_revision"]), decoded(it["key"])) for it in found)
            listed += [it for it in places if it[0] >= self.next]
        head = self.history.head(revision=str(revision))
        if head and head.last.place > self.last.place:
            raise Gap("a snapshot has taken the place of edits that are missing")
        listed.sort()
        count = 8
        while listed:
            edits = self.history.edits_at(listed[:count], revision)
            del listed[:count]
            size = sum(len(it.line) for it in edits)
            count = min(TRANSACTION_KEYS, 2 * count) if size < READ_BYTES // 2 else max(1, count // 2)
            yield self.passed(edits)
        self.next, self.is_compacted = max(self.next, revision + 1), False

    def kick(self, seconds: float) -> None:
        """Ends the watch if nothing has come of it for some seconds, so that it is begun anew with another endpoint."""
        with self.turn:
            since = self.idle_since
            if self.connection and since and time.monotonic() - since > seconds:
                shut(self.connection)

    def close(self) -> None:
        with self.turn:
            self.is_closed = True
            if self.connection:
                shut(self.connection)


def shut(connection: http.client.HTTPConnection) -> None:
    """Has whoever reads from a connection see its end."""
    try:
        socket.socket.shutdown(connection.sock, socket.SHUT_RDWR)
    except (OSError, AttributeError):
        pass
