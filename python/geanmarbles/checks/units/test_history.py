"""The history of edits, over an etcd that is a dictionary with the versions of its keys."""

import hashlib
import json
from random import Random
from typing import NamedTuple

from geanmarbles.checks.units.drawn import each
from geanmarbles.checks.units.test_etcd import raised
from geanmarbles.cluster.commands import Request, request_of
from geanmarbles.cluster.etcd import Etcd, Json, Refused, Unreachable, WentBack, decoded, encoded
from geanmarbles.cluster.history import (
    NO_EDIT,
    NONE,
    Edit,
    Front,
    Gap,
    Head,
    History,
    Last,
    Made,
    OtherBody,
    put,
    sum_of,
)
from geanmarbles.cluster.snapshots import Turn, front_of, note_done
from geanmarbles.cluster.tokens import NAMELESS
from geanmarbles.web.edit_bodies import Bad

PUT = b'{"cmd":"put","date":"2024-05-01 10:00:00"}'
DELETE = b'{"cmd":"delete","id":%d}'


class Version(NamedTuple):
    """A key from a revision on: its value, or None once it is deleted."""

    made: int
    changed: int
    number: int
    value: bytes | None


GONE = Version(0, 0, 0, None)


class Kept(Etcd):
    """An etcd as far as a history asks for it. `faults` are raised by the next calls: before these are carried out, or
    after if they say that they may be done."""

    def __init__(self) -> None:
        super().__init__(["http://a:1"])
        self.now, self.compacted = 1, 0
        self.keys: dict[bytes, list[Version]] = {}
        self.leases: dict[bytes, str] = {}
        self.faults: list[Refused | Unreachable | None] = []
        self.calls = self.most = 0

    def call(self, path: str, body: Json, seconds: float = 10.0) -> Json:
        self.calls += 1
        fault = self.faults.pop(0) if self.faults else None
        if fault and not fault.may_be_done:
            raise fault
        if path.startswith("/v3/lease/"):
            return {"ID": f"lease of {body['TTL']} s"} if path == "/v3/lease/grant" else {}
        answer = self.ranged(body) if path == "/v3/kv/range" else self.carried_out(body)
        if fault:
            raise fault
        return {"header": {"revision": str(self.now)}, **answer}

    def version_of(self, key: bytes, revision: int = 0) -> Version:
        found = [it for it in self.keys.get(key, []) if it.changed <= (revision or self.now)]
        return found[-1] if found and found[-1].value is not None else GONE

    def shown(self, key: bytes, found: Version) -> Json:
        value = {"value": encoded(found.value)} if found.value else {}
        places = {"create_revision": str(found.made), "mod_revision": str(found.changed)}
        return {"key": encoded(key), **places, "version": str(found.number), **value}

    def ranged(self, body: Json) -> Json:
        revision = int(body.get("revision", 0))
        if revision and revision < self.compacted:
            raise Refused("etcdserver: mvcc: required revision has been compacted", 11)
        first, end = decoded(body["key"]), decoded(body.get("range_end"))
        keys = [it for it in sorted(self.keys) if it == first or first <= it < end]
        found = [
            self.shown(it, self.version_of(it, revision)) for it in keys if self.version_of(it, revision) is not GONE
        ]
        return {"kvs": found[: int(body.get("limit", 0)) or None]}

    def holds(self, compare: Json) -> bool:
        found = self.version_of(decoded(compare["key"]))
        if compare["target"] == "CREATE":
            return found.made == int(compare["create_revision"])
        is_greater = compare["result"] == "GREATER"
        return (
            found.changed > int(compare["mod_revision"])
            if is_greater
            else found.changed == int(compare["mod_revision"])
        )

    def carried_out(self, body: Json) -> Json:
        well = all(map(self.holds, body["compare"]))
        does = body["success" if well else "failure"]
        self.most = max(self.most, len(body["success"]), len(body["failure"]), len(body["compare"]))
        self.now += any("request_range" not in it for it in does)
        answers = []
        for it in does:
            [(name, asked)] = it.items()
            key = decoded(asked["key"])
            if name == "request_range":
                answers.append({"response_range": self.ranged(asked)})
                continue
            before = self.version_of(key)
            value = (
                None if name != "request_put" else before.value if "ignore_value" in asked else decoded(asked["value"])
            )
            self.leases.pop(key, None)
            if "lease" in asked:
                self.leases[key] = asked["lease"]
            made = before.made or self.now
            self.keys.setdefault(key, []).append(Version(made, self.now, before.number + 1, value))
            answers.append({})
        return {"succeeded": well, "responses": answers}


def histories() -> tuple[Kept, History]:
    kept = Kept()
    return kept, History(kept, "site")


def append(history: History, request: Request, number: int = 1, last: Last = NONE) -> Made:
    return history.append(request, number, last, 1)


def snapshot(history: History, request: Request, number: int, reply: str) -> None:
    """Puts a key `done` in the place of an edit, as a snapshot does."""
    name, keys = request.id_of(number), history.keys
    made = history.read(keys.edit(name))
    assert made is not None
    noted = {"place": int(made["create_revision"]), "reply": reply, "sum": sum_of(decoded(made["value"]))}
    gone = {"request_delete_range": {"key": encoded(keys.edit(name))}}
    history.transaction([], [put(keys.done(name), json.dumps(noted).encode()), gone])


def test_an_edit_is_made_once() -> None:
    kept, history = histories()
    request = request_of("k", PUT)
    assert append(history, request) == append(history, request) == Made(2, None)
    assert history.last() == Last(2, "k/1", 1)
    assert append(history, request_of("l", PUT)) == Made(3, None)
    assert history.last() == Last(3, "l/1", 2)
    assert (kept.now, kept.calls) == (3, 5)


def test_the_lines_of_a_request_are_edits_of_their_own() -> None:
    _, history = histories()
    request = request_of("k", PUT + b"\n" + DELETE % 1)
    assert [append(history, request, number).place for number in (1, 2, 1, 2)] == [2, 3, 2, 3]
    assert history.last() == Last(3, "k/2", 2)


def test_a_key_has_one_body() -> None:
    kept, history = histories()
    append(history, request_of("k", PUT))
    raised(OtherBody, lambda: append(history, request_of("k", DELETE % 1)))
    raised(OtherBody, lambda: append(history, request_of("k", PUT + b"\n" + PUT)))
    append(history, request_of("l", PUT + b"\n" + PUT))
    raised(OtherBody, lambda: append(history, request_of("l", PUT + b"\n" + DELETE % 1)))
    raised(OtherBody, lambda: append(history, request_of("l", PUT)))
    assert kept.now == 3


def test_an_edit_that_a_snapshot_has_is_known_by_its_reply() -> None:
    _, history = histories()
    request = request_of("k", PUT)
    append(history, request)
    snapshot(history, request, 1, "ok 1")
    assert append(history, request) == Made(2, "ok 1") and history.reply_of("k/1") == "ok 1"
    assert history.reply_of("l/1") is None
    raised(OtherBody, lambda: append(history, request_of("k", DELETE % 1)))


def test_a_request_has_the_name_of_its_token() -> None:
    _, history = histories()
    append(history, request_of("k", PUT, "ann"))
    append(history, request_of("l", PUT + b"\n" + PUT, "bob"))
    append(history, request_of("l", PUT + b"\n" + PUT, "bob"), 2)
    append(history, request_of("m", PUT, NAMELESS))
    append(history, request_of("n", PUT))
    append(history, request_of("k", PUT, "bob"))
    listed = [
        (decoded(it["key"]), decoded(it["value"])) for keys, _ in history.all_of(history.keys.names) for it in keys
    ]
    assert listed == [(b"site/by/k", b"ann"), (b"site/by/l", b"bob")], "the token of the first try counts"


def test_what_is_noted_of_a_request_is_kept_as_long_as_its_edits() -> None:
    kept, history = histories()
    requests = [request_of(f"k{number:02}", PUT + b"\n" + PUT, "ann") for number in range(60)]
    for request in requests:
        append(history, request)
    for request in requests:
        append(history, request, 2)
    with Turn(history) as turn:
        listed = [(it.id_of(number), {"place": 2}) for number in (1, 2) for it in requests]
        note_done(turn, listed, 300)
    of_edits = {history.keys.done(it.id_of(number)) for it in requests for number in (1, 2)}
    of_requests = {known(it.key) for it in requests for known in (history.keys.request, history.keys.by)}
    wanted = {key: "lease of 300 s" for key in of_edits | of_requests}
    assert {key: it for key, it in kept.leases.items() if key != history.keys.maker} == wanted
    assert kept.version_of(history.keys.by("k59")).value == b"ann", "a lease leaves the value"
    assert kept.most <= 128, "etcd takes no more in a transaction"


def test_nothing_is_written_into_a_history_that_has_lost_edits() -> None:
    kept, history = histories()
    append(history, request_of("k", PUT))
    assert "number 9 at revision 9" in str(
        raised(WentBack, lambda: append(history, request_of("l", PUT), 1, Last(9, "z/1", 9)))
    )
    assert kept.now == 2
    assert append(history, request_of("k", PUT), 1, Last(9, "z/1", 9)) == Made(
        2, None
    ), "an edit that is there stays known"


def test_a_refusal_is_told_unless_the_edit_is_there() -> None:
    kept, history = histories()
    request = request_of("k", PUT)
    kept.faults = [Refused("mvcc: database space exceeded", 8)]
    assert raised(Refused, lambda: append(history, request)).code == 8
    append(history, request)
    kept.faults = [Refused("mvcc: database space exceeded", 8)]
    assert append(history, request) == Made(2, None)
    # An earlier try may have been carried out, and what is there can't be read either.
    kept.faults = [Refused("full", 8, True), Unreachable("gone", False)]
    assert raised(Unreachable, lambda: append(history, request_of("l", PUT))).may_be_done


def test_a_history_still_has_an_edit_or_went_back() -> None:
    kept, history = histories()
    lasts = [NONE]
    for key in "abc":
        append(history, request_of(key, PUT))
        lasts.append(history.last())
    assert all(map(history.has_still, lasts[1:]))
    for last in (Last(3, "z/1", 2), Last(4, "z/1", 3), Last(4, "c/1", 4), Last(5, "d/1", 4)):
        raised(WentBack, lambda: history.has_still(last))
    # Once etcd has dropped old revisions, an edit's own key says so, then the key `done`, and then the head.
    kept.compacted = 4
    assert history.has_still(lasts[1]) and not history.has_still(Last(2, "z/1", 1))
    kept.compacted = 5
    raised(WentBack, lambda: history.has_still(Last(4, "z/1", 3)))
    kept.compacted = 4
    snapshot(history, request_of("a", PUT), 1, "ok 1")
    assert history.has_still(lasts[1])
    history.transaction([], [put(history.keys.head, head_text(lasts[2]))])
    history.transaction([], [{"request_delete_range": {"key": encoded(history.keys.edit("b/1"))}}])
    assert history.has_still(lasts[2])


def head_text(last: Last) -> bytes:
    head = {"place": last.place, "id": last.id, "count": last.count, "folder": "f", "parts": 1, "sum": "s"}
    return json.dumps(head).encode()


def test_the_last_edit_and_the_head_are_of_one_moment() -> None:
    _, history = histories()
    assert history.now() == (NONE, None) and history.head() is None
    append(history, request_of("k", PUT))
    last = history.last()
    history.transaction([], [put(history.keys.head, head_text(last))])
    assert history.now() == (last, Head(last, "f", 1, "s", 3))


def test_a_digest_is_of_all_edits_however_many_a_snapshot_has() -> None:
    edits = [Edit(place, f"{place}/1", DELETE % place) for place in range(2, 9)]
    fronts = [NO_EDIT]
    for edit in edits:
        fronts.append(fronts[-1].with_edit(edit))
    wanted = hashlib.sha256(hashlib.sha256(hashlib.sha256().digest() + DELETE % 2).digest() + DELETE % 3).digest()
    assert fronts[2] == Front(Last(3, "3/1", 2), wanted)
    assert len({it.digest for it in fronts}) == len(fronts), "each edit makes another digest"
    others = NO_EDIT.with_edit(edits[1]).with_edit(edits[0])
    assert others.digest != fronts[2].digest, "so does another order"
    # A node that begins with a snapshot goes on with its digest, by way of the text that etcd keeps.
    _, history = histories()
    told = json.loads(head_text(fronts[3].last)) | {"digest": (fronts[3].digest or b"").hex()}
    history.transaction([], [put(history.keys.head, json.dumps(told).encode())])
    head = history.head()
    assert head and head.front() == front_of(head) == fronts[3]
    front = head.front()
    for edit in edits[3:]:
        front = front.with_edit(edit)
    assert front == fronts[-1]


def test_an_older_snapshot_has_no_digest_and_the_next_one_begins_anew() -> None:
    last, edit = Last(7, "b/1", 5), Edit(8, "c/1", PUT)
    head = Head(last, "f", 1, sum_of(b"its lines"), 9)
    assert head.front().with_edit(edit) == Front(Last(8, "c/1", 6), None)
    digest = hashlib.sha256(hashlib.sha256(b"its lines").digest() + PUT).digest()
    assert front_of(head).with_edit(edit) == Front(Last(8, "c/1", 6), digest)
    assert front_of(None) == NO_EDIT


def test_keys_are_listed_in_pieces_at_one_revision() -> None:
    _, history = histories()
    for number in range(7):
        append(history, request_of(f"k{number}", PUT))
    found, revisions = [], set()
    for keys, revision in history.all_of(history.keys.edits, limit=3):
        found += [history.keys.id_of(decoded(it["key"])) for it in keys]
        revisions.add(revision)
        append(history, request_of(f"later{revision}", PUT))
    assert found == [f"k{number}/1" for number in range(7)] and revisions == {8}


def test_edits_that_have_gone_are_a_gap() -> None:
    _, history = histories()
    for key in "ab":
        append(history, request_of(key, PUT))
    places = [(2, history.keys.edit("a/1")), (3, history.keys.edit("b/1"))]
    assert [(it.place, it.id, it.line) for it in history.edits_at(places, 3)] == [(2, "a/1", PUT), (3, "b/1", PUT)]
    raised(Gap, lambda: history.edits_at([*places, (4, history.keys.edit("c/1"))], 3))


def test_bodies_that_are_no_edits_are_refused() -> None:
    for body in (b"", b"\n", b"{}", b'{"cmd":"get","path":"/"}', PUT + b"\n" + b"x"):
        raised(Bad, lambda: request_of("k", body))
    assert request_of("k", PUT).sum == "" != request_of("k", PUT + b"\n" + PUT).sum


def test_edits_that_are_tried_again_are_made_once_in_order() -> None:
    """Clients try their requests again after faults of any kind, until each has its place: every line is one edit, and
    the lines of a request are in their order."""

    def check(random: Random) -> None:
        kept, history = histories()
        requests = [
            request_of(key, b"\n".join(DELETE % (number + 1) for number in range(random.randint(1, 3))))
            for key in "abcd"[: random.randint(1, 4)]
        ]
        wanted = {it.id_of(number): it.lines[number - 1] for it in requests for number in range(1, len(it.lines) + 1)}
        places: dict[str, int] = {}
        left, faults = [(it, 1) for it in requests], random.randint(0, 9)
        while left:
            request, number = random.choice(left)
            if faults and random.random() < 0.5:
                faults -= 1
                kept.faults = [Unreachable("x", may_be_done=random.random() < 0.5)]
            try:
                made = append(history, request, number, history_last(kept, history))
            except Unreachable:
                continue
            name = request.id_of(number)
            assert places.setdefault(name, made.place) == made.place
            left.remove((request, number))
            if number < len(request.lines):
                left.append((request, number + 1))
        listed = [it for keys, _ in history.all_of(history.keys.edits) for it in keys]
        assert {history.keys.id_of(decoded(it["key"])): decoded(it["value"]) for it in listed} == wanted
        assert len(set(places.values())) == len(wanted) == history.last().count == kept.now - 1
        for request in requests:
            of_one = [places[request.id_of(number)] for number in range(1, len(request.lines) + 1)]
            assert of_one == sorted(of_one)

    each(check)


def history_last(kept: Kept, history: History) -> Last:
    """The last edit as a node knows it, which doesn't meet the next fault."""
    faults, kept.faults = kept.faults, []
    last = history.last()
    kept.faults = faults
    return last
