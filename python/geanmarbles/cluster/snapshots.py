"""Snapshots: what the history up to some edit makes, as lines that a program is given in place of it.

A snapshot is made from the history alone: a program of its own carries out the last snapshot and the edits after it in
a file, `--compact` makes a short history of it, and `--export` prints its lines. They go to etcd in parts; then each
edit that they have gets a key `done` with its place and reply; then the head is written, which makes this the newest
snapshot; and only then are the edits' own keys deleted. So at every moment each edit is in the newest snapshot or has
its key, and each that may be asked for again has its key or its `done`.

One node at a time does this: it holds the key `maker` by a lease, and each of its writes is a transaction that compares
this key. A node that loses the lease, as by being stopped, writes no more.
"""

import hashlib
import json
import subprocess
import tempfile
import threading
from collections.abc import Iterable, Iterator, Sequence
from contextlib import suppress
from pathlib import Path
from typing import Self

from geanmarbles.client.program import LINES, Program
from geanmarbles.client.replies import Reply
from geanmarbles.cluster.etcd import Json, Refused, Unreachable, WentBack, decoded, encoded, end_of
from geanmarbles.cluster.following import Following
from geanmarbles.cluster.history import (
    KEYS_LISTED,
    NO_EDIT,
    NONE,
    Edit,
    Front,
    Gap,
    Head,
    History,
    Last,
    delete,
    get,
    is_absent,
    is_changed_at,
    is_made_at,
    put,
    sum_of,
)

# The most bytes of a part: with what goes around them less than the 1.5 MiB that etcd takes in a request.
PART_BYTES = 1_000_000
# How many parts are read at once.
PARTS_TOGETHER = 8
# Of how many edits the keys are written by one transaction: three each at most, of the 128 that etcd allows.
KEYS_TOGETHER = 40
# How long the right to make a snapshot lasts without a sign of life, and how often there is one.
LEASE_SECONDS, BEAT_SECONDS = 15, 3
# How many lines a program is given at once, and how many before the next one goes on with its file.
TOGETHER, MANY = 200, LINES // 2
# How long a program may take to end, and to print what its file has.
LAST_SECONDS, EXPORT_SECONDS = 60, 600


# An edit's ID, and what is noted of it once a snapshot has it.
Noted = tuple[str, Json]


class NotMade(Exception):
    """Why a snapshot wasn't made. The one before is still the newest."""


class OtherMaker(Exception):
    """Another node makes a snapshot."""


def newest(history: History) -> tuple[Head | None, list[bytes]]:
    """The head of the newest snapshot and its lines, or None and no line. Raises Gap if it isn't whole."""
    head = history.head()
    while head:
        parts: list[bytes] = []
        for found, _ in history.all_of(history.keys.parts_of(head.folder), limit=PARTS_TOGETHER):
            parts += [decoded(it["value"]) for it in found]
        text = b"".join(parts)
        if len(parts) == head.parts and hashlib.sha256(text).hexdigest() == head.sum:
            return head, text.splitlines()
        former, head = head, history.head()
        if head == former:
            raise Gap("a part of the newest snapshot is missing")
        # It was the newest until a moment ago, and its parts have gone.
    return None, []


class Turn:
    """The right to make a snapshot, for a `with` block. Raises OtherMaker if another node has it."""

    def __init__(self, history: History) -> None:
        self.history, self.key = history, history.keys.maker
        self.is_over = threading.Event()

    def __enter__(self) -> Self:
        etcd = self.history.etcd
        self.lease = etcd.call("/v3/lease/grant", {"TTL": str(LEASE_SECONDS)})["ID"]
        is_mine, answer, _ = self.history.transaction([is_absent(self.key)], [put(self.key, b"", lease=self.lease)])
        if not is_mine:
            self.revoke()
            raise OtherMaker
        self.revision = answer["header"]["revision"]
        threading.Thread(target=self.beat, daemon=True).start()
        return self

    def __exit__(self, *_: object) -> None:
        self.is_over.set()
        self.revoke()

    def revoke(self) -> None:
        # If that fails, it runs out by itself.
        with suppress(Unreachable, Refused, WentBack):
            self.history.etcd.call("/v3/lease/revoke", {"ID": self.lease}, 2)

    def beat(self) -> None:
        """Keeps the lease. If it can't, the next write says so."""
        while not self.is_over.wait(BEAT_SECONDS):
            with suppress(Unreachable, Refused, WentBack):
                self.history.etcd.call("/v3/lease/keepalive", {"ID": self.lease}, BEAT_SECONDS)

    def write(self, writes: Iterable[Json], *conditions: Json) -> bool:
        """Writes, if this still has the turn and some conditions hold; whether they do."""
        mine = is_made_at(self.key, self.revision)
        is_done, _, found = self.history.transaction([mine, *conditions], [*writes, get(self.key)], [get(self.key)])
        held = found[-1]
        if not held or held[0]["create_revision"] != self.revision:
            raise NotMade("the lease has run out")
        return is_done


class Rebuilt:
    """A site in a file, in a folder that is gone after the `with` block, made by lines."""

    def __init__(self, words: list[str]) -> None:
        """`words` start a program."""
        self.words = words

    def __enter__(self) -> Self:
        self.folder = tempfile.TemporaryDirectory()
        self.file = str(Path(self.folder.name, "site.db"))
        self.program = Program(*self.words, "--database", self.file)
        return self

    def __exit__(self, *_: object) -> None:
        self.program.kill()
        self.folder.cleanup()

    def told(self, lines: Sequence[bytes]) -> list[Reply]:
        """The replies to some lines, none of which is refused by chance."""
        replies: list[Reply] = []
        for first in range(0, len(lines), TOGETHER):
            if self.program.lines > MANY:
                self.end()
                self.program = Program(*self.words, "--database", self.file)
            replies += self.program.ask_all(lines[first : first + TOGETHER])
        for reply in replies:
            if reply.is_refused() and reply.words[1] in ("11", "12"):
                raise NotMade(f"a line has the reply {reply.text()!r}")
        return replies

    def end(self) -> None:
        self.program.end(LAST_SECONDS)
        if self.program.child.returncode:
            raise NotMade(f"the program has ended with status {self.program.child.returncode}")

    def exported(self) -> bytes:
        """The lines that make the site, as one text. The program has seen that they do: that is what `--compact` tries
        before it puts them in the place of the others."""
        self.end()
        for option in ("--compact", "--export"):
            words = [*self.words, "--database", self.file, option]
            ran = subprocess.run(words, stdin=subprocess.DEVNULL, stdout=subprocess.PIPE, timeout=EXPORT_SECONDS)
            if ran.returncode:
                raise NotMade(f"{option} has ended with status {ran.returncode}")
        return ran.stdout


def edits_up_to(history: History, last: Last, goal: Last) -> Iterator[list[Edit]]:
    """Lists of the edits after one, up to another one."""
    following, is_over = Following(history, last, lambda: NONE), threading.Event()

    def kick() -> None:
        while not is_over.wait(BEAT_SECONDS):
            following.kick(BEAT_SECONDS)

    threading.Thread(target=kick, daemon=True).start()
    try:
        for batch in following.batches() if last.place < goal.place else ():
            yield [it for it in batch if it.place <= goal.place]
            if following.last.place >= goal.place:
                return
    finally:
        is_over.set()
        following.close()


def front_of(head: Head | None) -> Front:
    """The edits that a snapshot has. An older node's has no digest: it begins anew with the sum of the snapshot."""
    return Front(head.last, head.digest or bytes.fromhex(head.sum)) if head else NO_EDIT


def rebuilt(history: History, program: list[str]) -> tuple[bytes, Front, Head | None, list[Noted]]:
    """What the history makes up to its last edit: the lines, the edits up to there, the snapshot that it began with,
    and of each edit after that its ID, and what is noted of it."""
    (head, lines), goal = newest(history), history.last()
    front = front_of(head)
    edits: list[Noted] = []
    with Rebuilt(program) as site:
        if any(it.is_refused() for it in site.told(lines)):
            raise NotMade("a line of the snapshot before is refused")
        for batch in edits_up_to(history, front.last, goal):
            for edit, reply in zip(batch, site.told([it.line for it in batch])):
                edits.append((edit.id, {"place": edit.place, "reply": reply.text(), "sum": sum_of(edit.line)}))
                front = front.with_edit(edit)
        if front.last != goal:
            raise NotMade(f"the history ends with {front.last}, and the cluster says {goal}")
        return site.exported(), front, head, edits


def make(history: History, program: list[str], remember: int) -> tuple[Last, int]:
    """Makes a snapshot of the whole history. Raises OtherMaker, NotMade, or what a call of etcd raises."""
    with Turn(history) as turn:
        tidy(turn, history.head())
        text, (last, digest), head, edits = rebuilt(history, program)
        assert digest is not None
        folder = f"{last.place}-{turn.revision}"
        parts = [text[first : first + PART_BYTES] for first in range(0, len(text), PART_BYTES)]
        for number, part in enumerate(parts):
            turn.write([put(history.keys.parts_of(folder) + b"%08d" % number, part)])
        note_done(turn, edits, remember)
        told: Json = {"place": last.place, "id": last.id, "count": last.count, "folder": folder, "parts": len(parts)}
        told |= {"sum": hashlib.sha256(text).hexdigest(), "digest": digest.hex()}
        former = is_changed_at(history.keys.head, head.revision if head else 0)
        if not turn.write([put(history.keys.head, json.dumps(told).encode())], former):
            raise NotMade("another snapshot has come meanwhile")
        tidy(turn, history.head())
        return last, len(text)


def note_done(turn: Turn, edits: Sequence[Noted], remember: int) -> None:
    """Gives each edit a key with its place and reply, which etcd drops after `remember` seconds, and with it what is
    noted of its request."""
    history = turn.history
    lease = history.etcd.call("/v3/lease/grant", {"TTL": str(remember)})["ID"]
    there: set[bytes] = set()
    for prefix in (history.keys.requests, history.keys.names):
        for found, _ in history.all_of(prefix, limit=KEYS_LISTED, keys_only=True):
            there |= {decoded(it["key"]) for it in found}
    for first in range(0, len(edits), KEYS_TOGETHER):
        writes = []
        for name, noted in edits[first : first + KEYS_TOGETHER]:
            writes.append(put(history.keys.done(name), json.dumps(noted).encode(), lease=lease))
            key, _, number = name.rpartition("/")
            # What is noted of the request goes with its first edit.
            noted_of = {history.keys.request(key), history.keys.by(key)} & there if number == "1" else set()
            for about in sorted(noted_of):
                writes.append({"request_put": {"key": encoded(about), "ignore_value": True, "lease": lease}})
        turn.write(writes)


def tidy(turn: Turn, head: Head | None) -> None:
    """Deletes what a snapshot has taken the place of: edits that it has, and the parts of others."""
    history = turn.history
    folder = history.keys.parts_of(head.folder) if head else None
    others: set[bytes] = set()
    for found, _ in history.all_of(history.keys.parts, limit=KEYS_LISTED, keys_only=True):
        keys = (decoded(it["key"]) for it in found)
        others |= {key.rpartition(b"/")[0] + b"/" for key in keys if key != history.keys.head}
    for other in others - {folder}:
        turn.write([{"request_delete_range": {"key": encoded(other), "range_end": encoded(end_of(other))}}])
    if head is None:
        return
    listed: list[tuple[bytes, str]] = []
    for found, _ in history.all_of(history.keys.edits, limit=KEYS_LISTED, keys_only=True):
        listed += [(decoded(it["key"]), it["create_revision"]) for it in found]
    listed = [it for it in listed if int(it[1]) <= head.last.place]
    for first in range(0, len(listed), KEYS_TOGETHER):
        few = listed[first : first + KEYS_TOGETHER]
        # An edit under the same ID may have been made anew once the request was forgotten: that one stays.
        if not turn.write([delete(key) for key, _ in few], *(is_made_at(*it) for it in few)):
            for it in few:
                turn.write([delete(it[0])], is_made_at(*it))
