"""Calls of etcd that fail and are made again, over endpoints whose answers are listed."""

import json
import socket
import threading
from collections.abc import Callable
from contextlib import closing
from random import Random
from typing import Any

from geanmarbles.checks.units.drawn import each
from geanmarbles.cluster import etcd
from geanmarbles.cluster.etcd import (
    INVALID,
    NOTHING_DONE,
    UNAUTHENTICATED,
    Etcd,
    Json,
    Lost,
    NotSent,
    Refused,
    Unreachable,
    WentBack,
    answer_of,
    decoded,
    encoded,
    end_of,
    reason_of,
)

URLS = ["http://a:1", "http://b:2", "http://c:3"]
OTHER = {"header": {"cluster_id": "2", "revision": "9"}}


def at_revision(number: int) -> Json:
    return {"header": {"cluster_id": "1", "revision": str(number)}}


class Listed(Etcd):
    """Endpoints whose answers, or faults, are listed in the order in which they are asked for."""

    def __init__(self, *answers: Json | Exception, user: tuple[str, str] | None = None, count: int = 3) -> None:
        super().__init__(URLS[:count], user=user)
        self.at, self.answers, self.asked = 0, list(answers), list[int]()

    def tried(self, at: int, path: str, data: bytes, until: float) -> tuple[int, Json]:
        self.check()
        self.asked.append(at)
        answer = self.answers.pop(0) if self.answers else NotSent("no more")
        if isinstance(answer, Exception):
            raise answer
        return self.revision, answer


def raised(kind: type[Any], call: Callable[[], object]) -> Any:
    """The exception of a kind that a call raises."""
    try:
        call()
    except kind as fault:
        return fault
    raise AssertionError(f"no {kind.__name__} is raised")


def test_an_answer_is_taken_at_once() -> None:
    client = Listed(at_revision(3))
    assert client.call("/v3/kv/range", {}) == at_revision(3)
    assert (client.asked, client.at, client.revision, client.cluster) == ([0], 0, 3, "1")


def test_the_next_endpoint_is_asked_if_one_fails_and_stays_the_first() -> None:
    client = Listed(NotSent("x"), Lost("y"), at_revision(3), at_revision(4))
    client.call("/v3/kv/txn", {})
    client.call("/v3/kv/txn", {})
    assert client.asked == [0, 1, 2, 2]


def test_a_call_that_was_sent_nowhere_has_not_been_done() -> None:
    fault = raised(Unreachable, lambda: Listed().call("/v3/kv/txn", {}, 0.15))
    assert not fault.may_be_done


def test_a_call_that_was_lost_once_may_be_done() -> None:
    faults: list[list[Exception]] = [[Lost("x")], [NotSent("x"), Lost("y")], [Lost("x"), NotSent("y")]]
    for before in faults:
        fault = raised(Unreachable, lambda: Listed(*before).call("/v3/kv/txn", {}, 0.15))
        assert fault.may_be_done, before


def test_a_refusal_after_a_lost_call_may_be_of_a_second_try() -> None:
    tries: list[tuple[list[Exception], bool]] = [
        ([], False),
        ([NotSent("x")], False),
        ([Lost("x")], True),
        ([Lost("x"), NotSent("y")], True),
    ]
    for before, may_be_done in tries:
        client = Listed(*before, Refused("full", 8))
        fault = raised(Refused, lambda: client.call("/v3/kv/txn", {}))
        assert (fault.message, fault.code, fault.may_be_done) == ("full", 8, may_be_done), before
        assert len(client.asked) == len(before) + 1


def test_a_call_goes_round_all_endpoints_until_its_time_is_over() -> None:
    client = Listed()
    raised(Unreachable, lambda: client.call("/v3/kv/txn", {}, 2))
    assert client.asked[:6] == [0, 1, 2, 0, 1, 2] and len(client.asked) % 3 == 0


def test_a_token_that_has_lapsed_is_asked_for_again() -> None:
    client = Listed(Refused("invalid token", UNAUTHENTICATED), at_revision(2), user=("a", "b"))
    client.token = "old"
    assert client.call("/v3/kv/txn", {}) == at_revision(2)
    assert client.token is None and client.asked == [0, 1]


def test_a_user_whom_no_endpoint_knows_is_refused() -> None:
    client = Listed(*[Refused("who", UNAUTHENTICATED)] * 9, user=("a", "b"))
    assert raised(Refused, lambda: client.call("/v3/kv/txn", {})).code == UNAUTHENTICATED
    assert len(client.asked) == len(URLS) + 1
    client = Listed(Refused("who", UNAUTHENTICATED))
    raised(Refused, lambda: client.call("/v3/kv/txn", {}))
    assert client.asked == [0], "without a user there is nothing to try again"


def test_a_smaller_revision_ends_all_calls() -> None:
    client = Listed(at_revision(7), at_revision(6), at_revision(9))
    client.call("/v3/kv/range", {})
    assert "revision 6" in str(raised(WentBack, lambda: client.call("/v3/kv/range", {})))
    raised(WentBack, lambda: client.call("/v3/kv/range", {}))
    assert client.asked == [0, 0], "a client that has seen a history go back asks for nothing more"


def test_another_cluster_ends_all_calls() -> None:
    client = Listed(at_revision(7), OTHER)
    client.call("/v3/kv/range", {})
    assert "cluster 2" in str(raised(WentBack, lambda: client.call("/v3/kv/range", {})))
    raised(WentBack, lambda: client.call("/v3/lease/grant", {}))


def test_the_revision_of_a_lease_may_be_late() -> None:
    client = Listed(at_revision(7), at_revision(6), at_revision(7))
    for path in ("/v3/kv/range", "/v3/lease/grant", "/v3/kv/range"):
        client.call(path, {})
    assert client.revision == 7


def test_revisions_of_calls_that_cross_may_come_in_any_order() -> None:
    client = Listed()
    for before, revision in ((5, 9), (5, 7), (9, 9)):
        client.noted("/v3/kv/range", before, at_revision(revision))
    assert client.revision == 9
    raised(WentBack, lambda: client.noted("/v3/kv/range", 9, at_revision(8)))


def test_any_order_of_faults_ends_in_one_way() -> None:
    """However the endpoints fail, an answer is taken if one comes in time, and a call that was lost may be done."""

    def check(random: Random) -> None:
        faults: list[Exception] = [random.choice([NotSent, Lost])("x") for _ in range(random.randint(0, 2))]
        client = Listed(*faults, at_revision(1), count=3)
        assert client.call("/v3/kv/txn", {}, 5) == at_revision(1)
        assert client.asked == list(range(len(faults) + 1)) and client.at == len(faults)
        client = Listed(*faults, Refused("no", INVALID))
        fault = raised(Refused, lambda: client.call("/v3/kv/txn", {}, 5))
        assert fault.may_be_done == any(isinstance(it, Lost) for it in faults)

    each(check)


def test_answers_of_the_gateway() -> None:
    assert answer_of(200, b'{"a":1}') == {"a": 1}
    assert answer_of(200, b'{"result":{"b":2}}') == {"b": 2}
    for status, text in ((500, b"oops"), (200, b"[]"), (502, b""), (200, b"{")):
        raised(Lost, lambda: answer_of(status, text))
    assert raised(Refused, lambda: answer_of(404, b"not found")).code == INVALID
    for code in range(20):
        text = json.dumps({"error": "e", "message": "m", "code": code}).encode()
        assert str(raised(Refused if code in NOTHING_DONE else Lost, lambda: answer_of(400, text))) == "m"
    assert str(raised(Lost, lambda: answer_of(503, b'{"error":"only"}'))) == "only"


def test_reasons_have_names() -> None:
    assert reason_of(WentBack("w")) == ("history-went-back", "w")
    assert reason_of(Refused("mvcc: database space exceeded", 8))[0] == "etcd-full"
    assert reason_of(Refused("no", 7)) == ("etcd-refuses", "no")
    assert reason_of(Unreachable("u", True)) == ("etcd-unreachable", "u")


def test_texts_of_keys_come_back() -> None:
    def check(random: Random) -> None:
        text = bytes(random.randrange(256) for _ in range(random.randint(0, 9)))
        assert decoded(encoded(text)) == text
        prefix = text + b"/"
        assert prefix < prefix + text < end_of(prefix) or not text
        assert not end_of(prefix).startswith(prefix)

    each(check)
    assert decoded(None) == decoded("") == b""


def served(*answers: bytes | None) -> tuple[Etcd, list[bytes]]:
    """A client of one real endpoint, which answers each request with the next text, or ends the connection for None;
    and the requests as they come."""
    listening = socket.create_server(("127.0.0.1", 0))
    got: list[bytes] = []

    def serve() -> None:
        left = list(answers)
        with closing(listening):
            while left:
                connection, _ = listening.accept()
                with closing(connection):
                    while left and (came := request_of(connection)):
                        got.append(came)
                        answer = left.pop(0)
                        if answer is None:
                            break
                        connection.sendall(b"HTTP/1.1 200 OK\r\nContent-Length: %d\r\n\r\n%s" % (len(answer), answer))
                    if not left:
                        # Whoever sees that this connection has ended gets no other one.
                        listening.close()

    threading.Thread(target=serve, daemon=True).start()
    return Etcd([f"http://127.0.0.1:{listening.getsockname()[1]}"]), got


def request_of(connection: socket.socket) -> bytes:
    """A whole request, or nothing at the connection's end."""
    came = b""
    while b"\r\n\r\n" not in came or len(came.partition(b"\r\n\r\n")[2]) < size_of(came):
        more = connection.recv(65536)
        if not more:
            return b""
        came += more
    return came


def size_of(head: bytes) -> int:
    (found,) = [it for it in head.split(b"\r\n") if it.lower().startswith(b"content-length:")]
    return int(found.partition(b":")[2])


def test_a_connection_is_kept_and_a_dead_one_is_replaced() -> None:
    text = json.dumps(at_revision(2)).encode()
    client, got = served(text, text, None, text)
    client.call("/v3/kv/range", {"key": "a"})
    client.call("/v3/kv/range", {"key": "b"})
    assert len(client.free[0]) == 1, "one connection serves calls that follow each other"
    # The endpoint takes the third call and ends without an answer; the same call then goes over a new connection.
    client.call("/v3/kv/range", {"key": "c"}, 5)
    assert [it.rpartition(b"\r\n\r\n")[2] for it in got] == [b'{"key": "a"}', b'{"key": "b"}', *[b'{"key": "c"}'] * 2]


def test_a_connection_that_ended_while_idle_has_lost_no_call() -> None:
    client, got = served(json.dumps(at_revision(2)).encode())
    client.call("/v3/kv/range", {"key": "a"})
    (kept,) = client.free[0]
    assert kept.sock.recv(1, socket.MSG_PEEK) == b"", "the endpoint has ended it"
    assert not raised(Unreachable, lambda: client.call("/v3/kv/txn", {}, 0.2)).may_be_done and len(got) == 1


def test_an_endpoint_that_is_silent_is_given_up() -> None:
    with closing(socket.create_server(("127.0.0.1", 0))) as listening:
        client = Etcd([f"http://127.0.0.1:{listening.getsockname()[1]}"])
        before, etcd.TRY_SECONDS = etcd.TRY_SECONDS, 0
        try:
            assert raised(Unreachable, lambda: client.call("/v3/kv/txn", {}, 0.3)).may_be_done
        finally:
            etcd.TRY_SECONDS = before


def test_an_endpoint_that_is_not_there_has_done_nothing() -> None:
    with closing(socket.create_server(("127.0.0.1", 0))) as listening:
        port = listening.getsockname()[1]
    client = Etcd([f"http://127.0.0.1:{port}"])
    assert not raised(Unreachable, lambda: client.call("/v3/kv/txn", {}, 0.2)).may_be_done
