"""The history of a site's edits in etcd: one key for each edit, whose place is the revision that made it.

The keys of a site that is called NAME:

    NAME/edit/ID        an edit's line. ID is the request's key, a slash, and the line's number in the request
    NAME/done/ID        the same edit once a snapshot has it: its place, its reply, and a sum of its line
    NAME/request/KEY    a sum of the body of a request that has several lines
    NAME/by/KEY         the name of the token that a request had, if the node's tokens have names
    NAME/last           the ID of the last edit; its version says how many there are
    NAME/identity       the identity of the program that gives the lines their meaning
    NAME/snapshot/..    a snapshot's parts, and `head`
    NAME/maker          the node that makes the next snapshot

An edit is made by one transaction, if neither NAME/edit/ID nor NAME/done/ID is there. From then on one of the two is
there for as long as requests are remembered, so trying again makes no second one.
"""

from __future__ import annotations

import hashlib
import json
from collections.abc import Iterable, Iterator, Sequence
from dataclasses import dataclass
from typing import TYPE_CHECKING, Any, NamedTuple

from geanmarbles.cluster.etcd import Etcd, Json, Refused, Unreachable, WentBack, decoded, encoded, end_of

if TYPE_CHECKING:
    from geanmarbles.cluster.commands import Request

# The most keys that one transaction may name is 128, unless etcd is told otherwise.
TRANSACTION_KEYS = 100
# How many keys are listed at once without their values.
KEYS_LISTED = 10_000


class Edit(NamedTuple):
    """An edit: the revision that made it, its ID and its line."""

    place: int
    id: str
    line: bytes


@dataclass(frozen=True, order=True)
class Last:
    """The last edit of a history: its place and ID, and how many edits there are up to it."""

    place: int
    id: str
    count: int


class Front(NamedTuple):
    """The edits of a history up to some place: the last of them, and the digest of their lines if it is known.

    It is SHA-256 of the digest before the last edit and then that edit's line; that of no edit is SHA-256 of
    nothing."""

    last: Last
    digest: bytes | None

    def with_edit(self, edit: Edit) -> Front:
        """The same edits and the next one."""
        digest = None if self.digest is None else hashlib.sha256(self.digest + edit.line).digest()
        return Front(Last(edit.place, edit.id, self.last.count + 1), digest)


class Made(NamedTuple):
    """An edit that is in the history: its place, and its reply if a snapshot has it already, else None."""

    place: int
    reply: str | None


class Head(NamedTuple):
    """A snapshot: the last edit that it has, its parts, the revision at which its head was written, and the digest of
    all edits up to the last, unless an older node made it."""

    last: Last
    folder: str
    parts: int
    sum: str
    revision: int
    digest: bytes | None = None

    def front(self) -> Front:
        return Front(self.last, self.digest)


class OtherBody(Exception):
    """The request's key was given to another body before."""


class Gap(Exception):
    """Edits are missing in what etcd still has, so the site must be made anew from the newest snapshot."""


def sum_of(text: bytes) -> str:
    return hashlib.sha256(text).hexdigest()


NONE = Last(0, "", 0)
NO_EDIT = Front(NONE, hashlib.sha256().digest())


class Keys:
    """The names of a site's keys."""

    def __init__(self, name: str) -> None:
        self.root = f"{name}/".encode()
        self.edits, self.parts = self.root + b"edit/", self.root + b"snapshot/"
        self.requests, self.names = self.root + b"request/", self.root + b"by/"
        self.last, self.identity = self.root + b"last", self.root + b"identity"
        self.head, self.maker = self.parts + b"head", self.root + b"maker"

    def edit(self, name: str) -> bytes:
        return self.edits + name.encode()

    def done(self, name: str) -> bytes:
        return self.root + b"done/" + name.encode()

    def parts_of(self, folder: str) -> bytes:
        """What the keys of a snapshot's parts begin with."""
        return self.parts + folder.encode() + b"/"

    def request(self, key: str) -> bytes:
        return self.requests + key.encode()

    def by(self, key: str) -> bytes:
        return self.names + key.encode()

    def id_of(self, key: bytes) -> str:
        """The ID of an edit by its key."""
        return key[len(self.edits) :].decode()


# What a transaction compares and does, as etcd's API has it.


def is_absent(key: bytes) -> Json:
    return {"key": encoded(key), "target": "CREATE", "result": "EQUAL", "create_revision": "0"}


def is_made_at(key: bytes, revision: int | str) -> Json:
    return {"key": encoded(key), "target": "CREATE", "result": "EQUAL", "create_revision": str(revision)}


def is_late(key: bytes, revision: int) -> Json:
    """The key was last changed at a revision or later."""
    return {"key": encoded(key), "target": "MOD", "result": "GREATER", "mod_revision": str(revision - 1)}


def is_changed_at(key: bytes, revision: int) -> Json:
    return {"key": encoded(key), "target": "MOD", "result": "EQUAL", "mod_revision": str(revision)}


def put(key: bytes, value: bytes, **more: str) -> Json:
    return {"request_put": {"key": encoded(key), "value": encoded(value), **more}}


def get(key: bytes) -> Json:
    return {"request_range": {"key": encoded(key)}}


def delete(key: bytes) -> Json:
    return {"request_delete_range": {"key": encoded(key)}}


class History:
    """The history of one site."""

    def __init__(self, etcd: Etcd, name: str) -> None:
        self.etcd, self.keys = etcd, Keys(name)

    def transaction(
        self, compare: Iterable[Json], success: Iterable[Json], failure: Iterable[Json] = (), seconds: float = 10.0
    ) -> tuple[bool, Json, list[list[Json]]]:
        """Whether a transaction's conditions held, its answer, and the keys that each of its reads has found."""
        body = {"compare": list(compare), "success": list(success), "failure": list(failure)}
        answer = self.etcd.call("/v3/kv/txn", body, seconds)
        reads = [it.get("response_range", {}) for it in answer.get("responses", [])]
        return answer.get("succeeded", False), answer, [it.get("kvs", []) for it in reads]

    def range(self, key: bytes, seconds: float = 10.0, **how: Any) -> tuple[list[Json], int]:
        """The keys of a range as they are now, and the revision of that. It is a linearizable read."""
        answer = self.etcd.call("/v3/kv/range", {"key": encoded(key), **how}, seconds)
        return answer.get("kvs", []), int(answer["header"]["revision"])

    def read(self, key: bytes, seconds: float = 10.0, **how: Any) -> Json | None:
        """A key as it is now, or None."""
        found, _ = self.range(key, seconds, **how)
        return found[0] if found else None

    def all_of(self, prefix: bytes, limit: int = 1000, **how: Any) -> Iterator[tuple[list[Json], int]]:
        """The keys that begin with a prefix, some at a time, all at the revision that is returned with each."""
        first, revision = prefix, 0
        while True:
            fixed = {"revision": str(revision)} if revision else {}
            more: Json = {"range_end": encoded(end_of(prefix)), "limit": str(limit), **fixed, **how}
            found, now = self.range(first, **more)
            revision = revision or now
            yield found, revision
            if len(found) < limit:
                return
            first = decoded(found[-1]["key"]) + b"\0"

    def last(self, seconds: float = 10.0, **how: Any) -> Last:
        """The last edit as the cluster has it now, or NONE."""
        found = self.read(self.keys.last, seconds, **how)
        return last_of(found) if found else NONE

    def now(self, seconds: float = 10.0) -> tuple[Last, Head | None]:
        """The last edit as the cluster has it now, and the head of the newest snapshot or None, at one moment."""
        _, _, (last, head) = self.transaction([], [get(self.keys.last), get(self.keys.head)], (), seconds)
        return (last_of(last[0]) if last else NONE), (head_of(head[0]) if head else None)

    def head(self, **how: Any) -> Head | None:
        """The head of the newest snapshot, or None."""
        found = self.read(self.keys.head, **how)
        return head_of(found) if found else None

    def has_still(self, last: Last) -> bool:
        """Whether the history has an edit at its place. Raises WentBack if it has another one there, or ends before it;
        false is the answer if nothing is left there to tell."""
        now = self.last()
        if now.place < last.place or now.place == last.place and now != last:
            raise WentBack(f"the last edit was {told(last)}, and is {told(now)}")
        if now == last:
            return True
        try:
            then = self.last(revision=str(last.place))
        except Refused as fault:
            if "compacted" in fault.message:
                return self.has_key_of(last)
            raise
        if then != last:
            raise WentBack(f"the edit of revision {last.place} was {told(last)}, and is {told(then)}")
        return True

    def has_key_of(self, last: Last) -> bool:
        """Whether an edit is in the history by its own key, or as the last one of the newest snapshot."""
        edit, done = self.read(self.keys.edit(last.id)), self.read(self.keys.done(last.id))
        if edit is not None and int(edit["create_revision"]) == last.place:
            return True
        if done is not None and json.loads(decoded(done["value"]))["place"] == last.place:
            return True
        head = self.head()
        return head is not None and head.last == last

    def append(self, request: Request, number: int, last: Last, seconds: float) -> Made:
        """Makes a line of a request an edit, unless it is one, in a history that has an edit `last`.

        Raises OtherBody if the request is another than before, and WentBack."""
        keys, name, line = self.keys, request.id_of(number), request.lines[number - 1]
        names = (keys.edit(name), keys.done(name))
        writes = [put(names[0], line), put(keys.last, name.encode())]
        if number == 1 and request.sum:
            writes.append(put(keys.request(request.key), request.sum.encode()))
        if number == 1 and request.by:
            writes.append(put(keys.by(request.key), request.by.encode()))
        reads = [*map(get, names), get(keys.request(request.key))]
        conditions = [*map(is_absent, names), is_late(keys.last, last.place)]
        refusal: Refused | None = None
        try:
            is_new, answer, found = self.transaction(conditions, writes, reads, seconds)
        except Refused as fault:
            refusal, is_new, found = fault, False, self.found_after(fault, reads, seconds)
        if is_new:
            return Made(int(answer["header"]["revision"]), None)
        edit, done, record = [it[0] if it else None for it in found]
        if not edit and not done:
            raise refusal or WentBack(f"edit {told(last)} has gone")
        if number == 1 and (decoded(record["value"]).decode() if record else "") != request.sum:
            raise OtherBody
        return found_edit(edit, done, line)

    def found_after(self, refusal: Refused, reads: Iterable[Json], seconds: float) -> list[list[Json]]:
        """What is there after a refusal: an earlier try may have made the edit, and an etcd that is full refuses
        whatever might write."""
        try:
            return self.transaction([], reads, (), seconds)[2]
        except (Refused, Unreachable) as fault:
            fault.may_be_done |= refusal.may_be_done
            raise

    def edits_at(self, listed: Sequence[tuple[int, bytes]], revision: int) -> list[Edit]:
        """The edits at some places and keys, as they were at a revision. Raises Gap if one is no longer there."""
        reads = [{"request_range": {"key": encoded(key), "revision": str(revision)}} for _, key in listed]
        _, _, found = self.transaction([], reads)
        if any(not it for it in found):
            raise Gap("an edit has gone meanwhile")
        return [edit_of(self.keys, it[0]) for it in found]

    def reply_of(self, name: str) -> str | None:
        """The reply of an edit that a snapshot has, or None."""
        found = self.read(self.keys.done(name))
        return json.loads(decoded(found["value"]))["reply"] if found else None


def last_of(found: Json) -> Last:
    """The last edit as its key has it."""
    return Last(int(found["mod_revision"]), decoded(found["value"]).decode(), int(found["version"]))


def head_of(found: Json) -> Head:
    """A snapshot's head as its key has it."""
    head = json.loads(decoded(found["value"]))
    last = Last(head["place"], head["id"], head["count"])
    digest = bytes.fromhex(head["digest"]) if "digest" in head else None
    return Head(last, head["folder"], head["parts"], head["sum"], int(found["mod_revision"]), digest)


def told(last: Last) -> str:
    return f"{last.id}, number {last.count} at revision {last.place}"


def found_edit(edit: Json | None, done: Json | None, line: bytes) -> Made:
    """The edit that is there under a line's ID."""
    if done is not None:
        noted = json.loads(decoded(done["value"]))
        if noted["sum"] != sum_of(line):
            raise OtherBody
        return Made(noted["place"], noted["reply"])
    assert edit is not None
    if decoded(edit.get("value")) != line:
        raise OtherBody
    return Made(int(edit["create_revision"]), None)


def edit_of(keys: Keys, found: Json) -> Edit:
    """An edit as a key of etcd has it."""
    return Edit(int(found["create_revision"]), keys.id_of(decoded(found["key"])), decoded(found.get("value")))
