"""Checks what clients saw of a site on several machines against the history of its edits, and names what is wrong.

`violations_of` is given

- the history: the edits in the order that the cluster gave them, each as a pair of its revision and its name;
- operations: what clients asked for. Each has `kind`, `start` and `end` (seconds of one clock; the end may be later
  than the truth, the start may be earlier) and `outcome`: `ok`, `unknown` if no answer came, so it may have happened at
  any time after the start, or `failed` if the answer was that nothing was done. Besides, if known:
  - an `edit`: its `name`, and once it is `ok` the `revision` and the `reply` that it was answered by, and `wanted`, the
    reply of a single program that is given the history. An edit that was asked for again is another operation of the
    same name. `after` names the edit before it in the same request;
  - a `read`: the `node`, its `promise` (absent, a revision that the node waits for, or `fresh`), and once it is `ok`
    the `revision` and the `page`, and `wanted`, the page of a single program that is given the history up to that
    revision;
- pages: by a node's name, what it has at the end; all nodes, and a single program that is given the history, must
  have the same.

It names each violation:

- lost: an edit that was acknowledged is not in the history;
- doubled: an edit is in the history more than once;
- unsent: an edit is in the history that no client asked for;
- undone: an edit is in the history whose every answer was that nothing was done;
- reordered: an edit is in the history before one that was acknowledged before it was sent, or before one that precedes
  it in its request;
- other revision, other reply: an edit was acknowledged by another revision than it has, or by another reply than a
  single program gives;
- stale read: a node promised to wait for a revision, and answered by an older one;
- stale fresh read: a read of the cluster's last revision was answered by one older than that of an edit that was
  acknowledged, or of a read that was answered, before it was sent;
- went back: a node answered by an older revision than it had answered by before;
- early read: a read was answered by the revision of an edit that was sent only after the answer;
- other page: a page is not the one that the history has at its revision;
- unordered: revisions of the history don't ascend;
- unequal: what nodes have at the end differs.
"""

from __future__ import annotations

import bisect
import math
from collections.abc import Iterable, Iterator, Sequence
from typing import Any, NamedTuple

# What a client has done and seen: an edit or a read.
Operation = dict[str, Any]
# Edits by their revisions and names, in the order of the history.
History = Sequence[tuple[int, str]]

# How much of a text a message shows.
SHOWN = 80


class Violation(NamedTuple):
    """What is wrong: its name, and what it was seen by."""

    name: str
    text: str

    def __str__(self) -> str:
        return f"{self.name}: {self.text}"


def shown(text: str) -> str:
    return repr(text) if len(text) <= SHOWN else f"{text[:SHOWN]!r} .. ({len(text)} characters)"


class Asked:
    """All that clients asked of one edit: when it was first sent, and when it was first acknowledged."""

    def __init__(self) -> None:
        self.start, self.acknowledged = math.inf, math.inf
        self.outcomes: set[str] = set()
        self.after: str | None = None

    def add(self, operation: Operation) -> None:
        self.start = min(self.start, operation["start"])
        self.outcomes.add(operation["outcome"])
        self.after = operation.get("after", self.after)
        if operation["outcome"] == "ok":
            self.acknowledged = min(self.acknowledged, operation["end"])


def asked_of(operations: Iterable[Operation]) -> dict[str, Asked]:
    """What was asked of each edit, by its name."""
    asked: dict[str, Asked] = {}
    for operation in operations:
        if operation["kind"] == "edit":
            asked.setdefault(operation["name"], Asked()).add(operation)
    return asked


class Floor:
    """The largest revision that was answered before a moment."""

    def __init__(self, answers: Iterable[tuple[float, int]]) -> None:
        """Takes pairs of when an answer came and its revision."""
        self.ends: list[float] = []
        self.largest: list[int] = []
        for end, revision in sorted(answers):
            self.ends.append(end)
            self.largest.append(max(revision, self.largest[-1] if self.largest else revision))

    def before(self, moment: float) -> int | None:
        """The largest revision of all answers that came before a moment, or None if there was none."""
        at = bisect.bisect_left(self.ends, moment)
        return self.largest[at - 1] if at else None


class Checked:
    """A history, and the operations that are judged by it."""

    def __init__(self, history: History, operations: list[Operation]) -> None:
        self.history = [(int(revision), name) for revision, name in history]
        self.operations = operations
        self.asked = asked_of(operations)
        self.revisions: dict[str, int] = {}
        for revision, name in self.history:
            self.revisions.setdefault(name, revision)
        self.done = [it for it in operations if it["outcome"] == "ok"]

    def reads(self) -> list[Operation]:
        return [it for it in self.done if it["kind"] == "read" and it.get("revision") is not None]

    def edits(self) -> list[Operation]:
        return [it for it in self.done if it["kind"] == "edit"]

    def violations(self) -> Iterator[Violation]:
        """All that is wrong, in the order of the list in this module's documentation."""
        for judged in (self.places, self.order, self.requests, self.answers, self.promises, self.steps, self.pages):
            yield from judged()

    def places(self) -> Iterator[Violation]:
        """Edits that the history must have, or must not."""
        for name, asked in self.asked.items():
            if "ok" in asked.outcomes and name not in self.revisions:
                yield Violation("lost", f"{name} was acknowledged")
            if asked.outcomes == {"failed"} and name in self.revisions:
                yield Violation("undone", f"{name} is at {self.revisions[name]}, and each answer was that nothing is")
        seen = set()
        for place, (revision, name) in enumerate(self.history):
            if name in seen:
                yield Violation("doubled", f"{name} is at {self.revisions[name]} and at {revision}")
            seen.add(name)
            if name not in self.asked:
                yield Violation("unsent", f"{name} is at {revision}")
            if place and revision <= self.history[place - 1][0]:
                yield Violation("unordered", f"{revision} comes after {self.history[place - 1][0]}")

    def order(self) -> Iterator[Violation]:
        """Edits that were sent after another was acknowledged, and come before it."""
        first, whose = math.inf, None
        for _, name in reversed(self.history):
            asked = self.asked.get(name)
            if asked is None:
                continue
            if asked.start > first:
                yield Violation("reordered", f"{name} comes before {whose}, which was acknowledged before it was sent")
            if asked.acknowledged < first:
                first, whose = asked.acknowledged, name

    def requests(self) -> Iterator[Violation]:
        """Edits of one request that are in another order."""
        for name, asked in self.asked.items():
            if asked.after is None or name not in self.revisions:
                continue
            before = self.revisions.get(asked.after)
            if before is None or before >= self.revisions[name]:
                where = "is not in the history" if before is None else f"is at {before}"
                what = f"{name} is at {self.revisions[name]}, and {asked.after}, which precedes it, {where}"
                yield Violation("reordered", what)

    def answers(self) -> Iterator[Violation]:
        """Edits that were answered otherwise than the history has them."""
        for edit in self.edits():
            name, revision = edit["name"], edit.get("revision")
            if revision is not None and self.revisions.get(name, revision) != revision:
                yield Violation("other revision", f"{name} is at {self.revisions[name]}, answered by {revision}")
            if edit.get("wanted", edit.get("reply")) != edit.get("reply"):
                yield Violation("other reply", f"{name} has {shown(edit['reply'])}, wanted {shown(edit['wanted'])}")

    def promises(self) -> Iterator[Violation]:
        """Reads that were older than they were promised to be."""
        reads = self.reads()
        known: list[tuple[float, int | None]] = [(it["end"], self.revisions.get(it["name"])) for it in self.edits()]
        known += [(it["end"], it["revision"]) for it in reads]
        floor = Floor([(at, it) for at, it in known if it is not None])
        for read in reads:
            promise, revision = read.get("promise"), read["revision"]
            if promise == "fresh":
                smallest = floor.before(read["start"])
                if smallest is not None and revision < smallest:
                    what = f"{read['node']} answered by {revision}, and {smallest} was known"
                    yield Violation("stale fresh read", what)
            elif promise is not None and revision < promise:
                yield Violation("stale read", f"{read['node']} answered by {revision}, asked for {promise}")

    def steps(self) -> Iterator[Violation]:
        """Nodes that went back, and reads of what was not yet sent."""
        reads = self.reads()
        by_node: dict[str, list[tuple[float, int]]] = {}
        for read in reads:
            by_node.setdefault(read["node"], []).append((read["end"], read["revision"]))
        floors = {node: Floor(answers) for node, answers in by_node.items()}
        starts = [(self.asked[name].start, revision) for revision, name in self.history if name in self.asked]
        revisions = [revision for _, revision in starts]
        for read in reads:
            node, revision = read["node"], read["revision"]
            smallest = floors[node].before(read["start"])
            if smallest is not None and revision < smallest:
                yield Violation("went back", f"{node} answered by {revision} after {smallest}")
            at = bisect.bisect_right(revisions, revision)
            if at and starts[at - 1][0] > read["end"]:
                yield Violation("early read", f"{node} answered by {revision} before its edit was sent")

    def pages(self) -> Iterator[Violation]:
        """Pages that are not those of their revision."""
        for read in self.reads():
            if read.get("wanted", read.get("page")) != read.get("page"):
                what = f"{read['node']} at {read['revision']}: {shown(read['page'])}, wanted {shown(read['wanted'])}"
                yield Violation("other page", what)


def unequal(pages: dict[str, str]) -> Iterator[Violation]:
    """What differs of the nodes at the end."""
    if len(set(pages.values())) > 1:
        yield Violation("unequal", ", ".join(f"{name} has {shown(page)}" for name, page in sorted(pages.items())))


def violations_of(history: History, operations: list[Operation], pages: dict[str, str]) -> list[Violation]:
    """All violations of a history, of operations and of what the nodes have at the end."""
    return [*Checked(history, operations).violations(), *unequal(pages)]
