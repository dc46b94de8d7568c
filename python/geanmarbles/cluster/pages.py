"""A node's HTTP: pages, edits and its health."""

import json
import re
import select
import socket
import time
from collections.abc import Callable
from typing import NoReturn

from geanmarbles.client.replies import Reply
from geanmarbles.cluster.commands import carry_out, check_ready, name_of, request_of
from geanmarbles.cluster.etcd import Refused, Unreachable, WentBack, reason_of
from geanmarbles.cluster.replica import Fault
from geanmarbles.cluster.service import Service
from geanmarbles.cluster.sight import Seen, Sight
from geanmarbles.cluster.site_node import WAIT_SECONDS, Node
from geanmarbles.cluster.tokens import Tokens
from geanmarbles.web.edit_bodies import Bad, EditHandler, key_of, number
from geanmarbles.web.heads import Fields, Head
from geanmarbles.web.pages import NoPage, PageServer, Unchanged

# The cookie of those who have edited, what goes with it, and for how many seconds a browser sends it: nodes are seconds
# apart, so whoever comes later sees the edit without it.
COOKIE, OF_COOKIE, COOKIE_SECONDS = "site_revision", "Path=/; HttpOnly; SameSite=Lax", 60
COOKIE_VALUE = re.compile(r"([0-9a-f]+)\.([0-9]{1,19})")
NO_COOKIE = f"{COOKIE}=; Max-Age=0; {OF_COOKIE}"
# What a page rests on beside its path: a cache keeps one for each.
VARY = "Cookie, X-Site-Fresh, X-Site-Revision"


class Wanted:
    """What a request wants its page to show: an edit's place, which a header or a cookie names, or every edit that is
    there. A cookie that another cluster's node has set wants nothing."""

    def __init__(self, headers: Fields, origin: str) -> None:
        self.is_fresh, self.is_by_cookie = headers.get("X-Site-Fresh") == "1", False
        self.place, self.is_foreign = 0, False
        given = headers.get("X-Site-Revision")
        self.has_header = given is not None
        if given is not None:
            revision = number(given)
            if revision is None:
                raise NoPage("X-Site-Revision has to be a number", 400)
            self.place = revision
            return
        for it in cookies_of(headers):
            value, self.is_by_cookie = COOKIE_VALUE.fullmatch(it), True
            if value and value[1] == origin:
                self.place = max(self.place, int(value[2]))
            else:
                self.is_foreign = True

    def is_promised(self) -> bool:
        """Whether the page is for this request alone, so that no cache may answer another one with it."""
        return self.is_fresh or self.has_header or self.is_by_cookie


def cookies_of(headers: Fields) -> list[str]:
    """The values that the cookie of a request has; there may be some by mistake."""
    found = [it.strip().partition("=") for given in headers.get_all("Cookie") for it in given.split(";")]
    return [value for name, _, value in found if name == COOKIE]


class Server(PageServer):
    """A node's server. A cache may keep a page that no promise was asked of for `max_age` seconds."""

    def __init__(
        self,
        address: tuple[str, int],
        node: Node,
        tokens: Tokens | None,
        max_age: int = 0,
        listening: socket.socket | None = None,
        service: Service | None = None,
        sight: Sight | None = None,
    ) -> None:
        super().__init__(address, Handler, listening)
        self.node, self.tokens, self.service = node, tokens, service or Service()
        self.sight = sight or Sight()
        self.cached = f"public, max-age=0, s-maxage={max_age}" if max_age else "public, max-age=0, must-revalidate"

    def service_actions(self) -> None:
        """Tells the service's manager how the node is."""
        why = self.node.state()
        self.service.tell(": ".join(why) if why else "", self.node.is_alive())

    def wait_until(self, is_time: Callable[[], bool], seconds: float, step: float = 0.05) -> None:
        """Takes no connection until it is time to, for some seconds at most."""
        until = time.monotonic() + seconds
        while not is_time() and time.monotonic() < until and not self.is_ending:
            select.select([self.woken], [], [], step)
            self.service_actions()


class Handler(EditHandler):
    """The requests of one connection to a node."""

    server: Server

    is_kept, name = True, "site-node"
    # The place that the response names; and who edits by the request, and how many of its lines have a reply.
    told: int | None
    by: str | None
    edits: int | None

    def begin(self, line: bytes, head: Head) -> None:
        super().begin(line, head)
        self.told = self.by = self.edits = None

    def log(self, status: int, size: int) -> None:
        path = self.asked.decode("utf-8", "replace")
        forwarded, spent = self.headers.get("X-Forwarded-For"), time.monotonic() - self.begun
        told = (self.told, self.by, self.edits)
        self.server.sight.note(Seen(self.client, forwarded, self.command, path, status, size, spent, *told))

    def is_taken(self) -> bool:
        is_command = self.asked == b"/command"
        if self.command in ("GET", "HEAD") or self.command == "POST" and is_command:
            return True
        self.close_connection = True
        self.refuse(405, f"there is no {self.command} here", Allow="POST" if is_command else "GET, HEAD")
        return False

    def do_GET(self) -> None:
        if self.asked == b"/health":
            self.tell_health()
        else:
            super().do_GET()

    # Pages.

    def page_of(self, path: str) -> tuple[Reply, dict[str, str]]:
        node, wanted = self.server.node, Wanted(self.headers, self.server.node.origin())
        self.awaited(node, wanted)
        cached = "private, no-cache" if wanted.is_promised() else self.server.cached
        about = {"Vary": VARY, "Cache-Control": cached} | ({"Set-Cookie": NO_COOKIE} if wanted.is_foreign else {})
        shown = node.shown_place()
        if shown and shown >= wanted.place and self.has(node.tag(shown)):
            self.told = shown
            raise Unchanged({**about, "ETag": node.tag(shown), "X-Site-Revision": str(shown)})
        try:
            reply, place = node.get(path, wanted.place)
        except Fault as fault:
            raise NoPage(str(fault), Retry_After="1") from None
        self.told, about["X-Site-Revision"] = place, str(place)
        if reply.words[:2] == ["page", "200"]:
            about["ETag"] = node.tag(place)
            if self.has(about["ETag"]) or self.has("*"):
                raise Unchanged(about)
        return reply, about

    def has(self, tag: str) -> bool:
        """Whether the client has the page with a tag."""
        given = ",".join(self.headers.get_all("If-None-Match")).split(",")
        return tag in (it.strip().removeprefix("W/") for it in given)

    def awaited(self, node: Node, wanted: Wanted) -> None:
        """Waits until this node has come to what a page is to show. A place that nobody has heard of yet costs the
        cluster no question: the next one that is asked anyway tells."""
        if wanted.is_fresh or wanted.place > max(node.place(), node.known.place):
            try:
                last = node.news.after(time.monotonic(), WAIT_SECONDS, wanted.is_fresh).place
            except (Unreachable, Refused, WentBack) as fault:
                # A node that serves no more asks no more, and says why.
                raise NoPage(": ".join(node.ended or reason_of(fault)), Retry_After="1") from None
            if wanted.place > last:
                # No edit has that place, so there is nothing to wait for.
                if not wanted.is_by_cookie:
                    self.refuse_place(node, wanted.place)
                wanted.place, wanted.is_foreign = 0, True
            if wanted.is_fresh:
                wanted.place = max(wanted.place, last)
        if wanted.place and not node.wait(wanted.place):
            self.refuse_place(node, wanted.place)

    def refuse_place(self, node: Node, place: int) -> NoReturn:
        why = node.state() or ("revision-not-reached", f"this node is at {node.place()}, and {place} was asked for")
        raise NoPage(": ".join(why), Retry_After="1", X_Site_Revision=str(node.place()))

    # Edits.

    def do_POST(self) -> None:
        node = self.server.node
        try:
            # What can be told without the body is told before it has come.
            self.by = name_of(self.server.tokens, self.headers.get("Authorization"))
            check_ready(node)
            key = key_of(self.headers.get("Idempotency-Key"))
            result = carry_out(node, request_of(key, self.body(), self.by))
        except Bad as fault:
            self.refuse(fault.status, fault.text, **fault.headers)
            return
        headers = {"Idempotency-Key": key}
        self.edits = len(result.replies) - (result.status != 200)
        if result.place:
            self.told = result.place
            cookie = f"{COOKIE}={node.origin()}.{result.place}; Max-Age={COOKIE_SECONDS}; {OF_COOKIE}"
            headers |= {"X-Site-Revision": str(result.place), "Set-Cookie": cookie}
        self.respond(result.status, "text/plain", "".join(f"{it}\n" for it in result.replies).encode(), headers)

    # Health.

    def tell_health(self) -> None:
        node = self.server.node
        why = ("stopping", "the node ends") if self.server.is_ending else node.state()
        head, front = node.head, node.front()
        told: dict[str, object] = {
            "ready": why is None,
            "applied": front.last.place,
            "digest": front.digest and front.digest.hex(),
            "known": max(node.known.place, node.last.place),
        }
        told |= {"reason": why and why[0], "why": why and why[1], "snapshot": head.last.place if head else 0}
        told |= {"edits": node.last.count, "name": node.name, "cluster": node.history.etcd.cluster}
        self.respond(503 if why else 200, "application/json", json.dumps(told).encode() + b"\n")
