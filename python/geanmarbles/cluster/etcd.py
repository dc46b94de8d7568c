"""A client of etcd: the JSON gateway of its v3 API over HTTP or HTTPS, with several endpoints.

A call goes to one endpoint, and to the next one if that doesn't answer, until its time is over; so the same call may be
carried out twice, and whoever makes one sees to it that the second changes nothing. Keys and values are bytes.

Every answer names the cluster, and one to a read or a transaction its revision, which never becomes smaller. They are
compared with what was seen before the call was sent: another cluster, or a smaller revision, is WentBack, at this call
and all later ones.
"""

import base64
import http.client
import json
import random
import select
import ssl
import threading
import time
from collections.abc import Sequence
from typing import Any
from urllib.parse import urlsplit

# A request, an answer or a part of one.
Json = dict[str, Any]
# How long one endpoint may take for its answer before the next is asked.
TRY_SECONDS = 3
# How long to wait after all endpoints were asked in vain.
PAUSE_SECONDS = 0.1
# Codes of refusals that change nothing, whatever is asked: invalid, not found, already there, not permitted, no
# room, a condition that doesn't hold, out of range, not authenticated.
NOTHING_DONE = {3, 5, 6, 7, 8, 9, 11, 16}
INVALID, UNAUTHENTICATED = 3, 16


class Unreachable(Exception):
    """No endpoint has answered. `may_be_done` says whether one may have carried out the call all the same."""

    def __init__(self, why: str, may_be_done: bool) -> None:
        super().__init__(why)
        self.may_be_done = may_be_done


class Refused(Exception):
    """etcd has refused a call, with one of its messages. `may_be_done` is as for Unreachable: of an earlier try."""

    def __init__(self, message: str, code: int, may_be_done: bool = False) -> None:
        super().__init__(message)
        self.message, self.code, self.may_be_done = message, code, may_be_done


class WentBack(Exception):
    """This isn't the history that was seen before: etcd has another one, or has forgotten some of it."""


class NotSent(Exception):
    """An endpoint can't be reached, so it has done nothing."""


class Lost(Exception):
    """An endpoint was sent a call and hasn't answered, or has failed at it."""


def text_of(fault: BaseException) -> str:
    """What a fault says, or of which kind it is if it says nothing."""
    return str(fault) or type(fault).__name__


def encoded(text: bytes) -> str:
    return base64.b64encode(text).decode()


def decoded(text: str | None) -> bytes:
    return base64.b64decode(text or "")


def end_of(prefix: bytes) -> bytes:
    """The key after all that begin with a prefix."""
    return prefix[:-1] + bytes([prefix[-1] + 1])


class Etcd:
    """The endpoints of one cluster. Any number of threads may call."""

    def __init__(
        self, urls: Sequence[str], context: ssl.SSLContext | None = None, user: tuple[str, str] | None = None
    ) -> None:
        """`context` is the TLS context for URLs of https, and `user` a name and a password."""
        self.endpoints, self.context, self.user = [urlsplit(it) for it in urls], context, user
        # The endpoint that is asked first, at random so that many nodes don't all ask one; the connections that are
        # free; and etcd's token for the user.
        self.at = random.randrange(len(urls))
        self.free: list[list[http.client.HTTPConnection]] = [[] for _ in urls]
        self.token: str | None = None
        self.turn = threading.Lock()
        # The cluster and the largest revision that any answer has named; and why no call is made any more.
        self.cluster: str | None = None
        self.revision, self.fault = 0, ""

    def call(self, path: str, body: Json, seconds: float = 10.0) -> Json:
        """etcd's answer. Raises Unreachable, Refused or WentBack."""
        data, until, may_be_done, tries = json.dumps(body).encode(), time.monotonic() + seconds, False, 0
        while True:
            at, tries = self.at, tries + 1
            try:
                return self.noted(path, *self.tried(at, path, data, until))
            except NotSent as fault:
                why = str(fault)
            except Lost as fault:
                why, may_be_done = str(fault), True
            except Refused as fault:
                if fault.code != UNAUTHENTICATED or self.user is None or tries > len(self.endpoints):
                    fault.may_be_done |= may_be_done
                    raise
                why, self.token = fault.message, None
            self.pass_on(at)
            pause = 0 if tries % len(self.endpoints) else PAUSE_SECONDS
            if time.monotonic() + pause >= until:
                raise Unreachable(why, may_be_done)
            time.sleep(pause)

    def pass_on(self, at: int) -> None:
        """Has the next call begin with another endpoint."""
        with self.turn:
            if self.at == at:
                self.at = (at + 1) % len(self.endpoints)

    def noted(self, path: str, before: int, answer: Json) -> Json:
        """An answer that goes on from what was seen before it was asked for."""
        header = answer.get("header", {})
        self.note_cluster(header)
        # Other answers, as to leases, have the revision of one node of the cluster, which may be late.
        if path.startswith("/v3/kv/"):
            revision = int(header.get("revision", 0))
            with self.turn:
                if revision < before:
                    self.fault = f"etcd is at revision {revision}, and has been at {before}"
                self.revision = max(self.revision, revision)
        self.check()
        return answer

    def note_cluster(self, header: Json) -> None:
        cluster = header.get("cluster_id")
        with self.turn:
            self.cluster = self.cluster or cluster
            if cluster != self.cluster:
                self.fault = f"an endpoint is of cluster {cluster}, and the history that was seen is of {self.cluster}"
        self.check()

    def check(self) -> None:
        if self.fault:
            raise WentBack(self.fault)

    def tried(self, at: int, path: str, data: bytes, until: float) -> tuple[int, Json]:
        """The largest revision seen before, and the answer of one endpoint."""
        self.check()
        seconds = max(0.2, min(TRY_SECONDS, until - time.monotonic()))
        headers = self.headers(at, seconds)
        before = self.revision
        connection = self.taken(at, seconds)
        try:
            connection.request("POST", path, data, headers)
            response = connection.getresponse()
            status, text = response.status, response.read()
        except (OSError, http.client.HTTPException) as fault:
            connection.close()
            raise Lost(f"{self.endpoints[at].netloc}: {text_of(fault)}") from None
        with self.turn:
            self.free[at].append(connection)
        return before, answer_of(status, text)

    def taken(self, at: int, seconds: float) -> http.client.HTTPConnection:
        """A connection to an endpoint, with a limit on each wait for it."""
        while True:
            with self.turn:
                connection = self.free[at].pop() if self.free[at] else None
            if connection is None:
                return self.connected(at, seconds)
            # Nothing is owed on it, so if there is something to read it is its end.
            poll = select.poll()
            poll.register(connection.sock, select.POLLIN)
            if not poll.poll(0):
                connection.sock.settimeout(seconds)
                return connection
            connection.close()

    def connected(self, at: int, seconds: float) -> http.client.HTTPConnection:
        url = self.endpoints[at]
        host = url.hostname or ""
        connection = (
            http.client.HTTPSConnection(host, url.port, timeout=seconds, context=self.context)
            if url.scheme == "https"
            else http.client.HTTPConnection(host, url.port, timeout=seconds)
        )
        try:
            connection.connect()
        except OSError as fault:
            raise NotSent(f"{url.netloc}: {fault}") from None
        return connection

    def headers(self, at: int, seconds: float) -> dict[str, str]:
        headers = {"Content-Type": "application/json"}
        if self.user:
            self.token = self.token or self.authenticated(at, seconds)
            headers["Authorization"] = self.token
        return headers

    def authenticated(self, at: int, seconds: float) -> str:
        """A token for the user, which etcd drops after some minutes without a call, or as its users change."""
        assert self.user is not None
        name, password = self.user
        connection = self.connected(at, seconds)
        try:
            body = json.dumps({"name": name, "password": password})
            connection.request("POST", "/v3/auth/authenticate", body, {"Content-Type": "application/json"})
            response = connection.getresponse()
            return str(answer_of(response.status, response.read())["token"])
        except (OSError, http.client.HTTPException) as fault:
            raise NotSent(f"{self.endpoints[at].netloc}: {text_of(fault)}") from None
        except Lost as fault:
            raise NotSent(str(fault)) from None
        finally:
            connection.close()

    def watching(self, body: Json) -> tuple[http.client.HTTPConnection, http.client.HTTPResponse]:
        """The connection and the response of a watch that an endpoint has begun; nothing of it was read."""
        at = self.at
        try:
            headers = {**self.headers(at, TRY_SECONDS), "Grpc-Metadata-hasleader": "true"}
            connection = self.connected(at, TRY_SECONDS)
        except (NotSent, Refused):
            self.pass_on(at)
            raise
        try:
            connection.request("POST", "/v3/watch", json.dumps(body), headers)
            response = connection.getresponse()
            connection.sock.settimeout(None)
        except (OSError, http.client.HTTPException) as fault:
            connection.close()
            self.pass_on(at)
            raise NotSent(f"{self.endpoints[at].netloc}: {text_of(fault)}") from None
        return connection, response


def answer_of(status: int, text: bytes) -> Json:
    """What an answer of the gateway says. Raises Refused, or Lost if nobody knows what became of the call."""
    try:
        answer = json.loads(text)
    except ValueError:
        answer = None
    if not isinstance(answer, dict):
        said = f"status {status}: {text[:200].decode(errors='replace').strip()}"
        # The server in front of the gateway refuses some requests by itself.
        raise Refused(said, INVALID) if 400 <= status < 500 else Lost(said)
    if status == 200 and "error" not in answer:
        # A call that might have several answers has each of them as a result.
        return answer.get("result", answer)
    message, code = str(answer.get("message") or answer.get("error")), answer.get("code", 2)
    if code in NOTHING_DONE:
        raise Refused(message, code)
    raise Lost(message)


def reason_of(fault: Unreachable | Refused | WentBack) -> tuple[str, str]:
    """A name for why a call has failed, and what there is to say."""
    if isinstance(fault, WentBack):
        return "history-went-back", str(fault)
    if isinstance(fault, Refused):
        return ("etcd-full" if "space exceeded" in fault.message else "etcd-refuses"), fault.message
    return "etcd-unreachable", str(fault)


def tls_context(authorities: str | None, certificate: str | None, key: str | None) -> ssl.SSLContext:
    """The TLS context that trusts the authorities in a file, or the system's, and shows a certificate if given one."""
    context = ssl.create_default_context(cafile=authorities)
    if certificate:
        context.load_cert_chain(certificate, key)
    return context
