"""Pages that are kept outside of a node: by browsers, which ask whether what they have is still right, and by a cache
before the nodes, which may not break what a read promises."""

from __future__ import annotations

import argparse
import re
import shutil
from collections.abc import Iterator, Sequence
from functools import partial
from typing import Protocol

from geanmarbles.checks.cluster.clients import DATE, Answer, ask, joined, line_of
from geanmarbles.checks.cluster.nodes import TOKEN, Cluster, Node
from geanmarbles.checks.cluster.processes import Process, free_port, wait_for
from geanmarbles.checks.judging import Cases, Skipped, must
from geanmarbles.client.replies import Wrong

SECONDS = 60
# How many edits are made behind a cache, and for how many seconds it may keep a page, if it may keep any.
EDITS, MAX_AGE = 12, 60
# Where Debian has Varnish, which isn't on the path of everybody.
VARNISH = shutil.which("varnishd", path="/usr/sbin:/usr/bin:/sbin:/bin")


def put(name: str) -> bytes:
    return joined([line_of(cmd="put", title=name, date=DATE, n=name)])


def has_private(answer: Answer) -> bool:
    return "private" in (answer.headers["Cache-Control"] or "")


class Tags:
    """The checks of tags, over a cluster of two nodes."""

    def __init__(self, cluster: Cluster) -> None:
        self.cluster, self.nodes = cluster, cluster.nodes

    def tag(self, node: Node, path: str = "/") -> str:
        page = node.get(path)
        must(page.status == 200, f"{path} is {page.shown()}")
        must(re.fullmatch(r'"[0-9a-f]+-[0-9a-f]+-[0-9]+"', page.headers["ETag"] or ""), f"{page.headers.items()}")
        return str(page.headers["ETag"])

    def edited(self, node: Node, name: str) -> Answer:
        answer = node.post(put(name))
        must(answer.status == 200, f"an edit is answered by {answer.shown()}")
        for it in self.nodes:
            must(it.get("/", X_Site_Revision=str(answer.place())).status == 200, f"{it.name} doesn't come to the edit")
        return answer

    def tells_what_is_unchanged(self) -> None:
        """a client that names the tag of a page is told that it has it, at each node, until there is another edit"""
        one, other = self.nodes
        self.edited(one, "tagged")
        tag = self.tag(one)
        must(self.tag(other) == tag, f"the tags are {tag} and {self.tag(other)}")
        for given in (tag, f"W/{tag}", f'"x", {tag}', f'"x",W/{tag} , "y"'):
            for method in ("GET", "HEAD"):
                same = other.ask(method, "/", If_None_Match=given)
                must((same.status, same.body) == (304, b""), f"with {given} it answered {same.shown()}")
                must(same.headers["ETag"] == tag and same.headers["X-Site-Revision"], f"{same.headers.items()}")
                must(same.headers["Vary"] and same.headers["Cache-Control"], f"{same.headers.items()}")
        must(one.get("/", If_None_Match="*").status == 304, "no page is any page")
        for given in ('"x"', tag[:-1], tag.strip('"'), "", f'{tag[:-2]}9999999"'):
            must(one.get("/", If_None_Match=given).status == 200, f"with {given!r} it doesn't send the page")
        answer = self.edited(one, "tagged anew")
        must(other.get("/", If_None_Match=tag).status == 200, "a page from before an edit is said to be right")
        must(other.get("/", If_None_Match=self.tag(other)).status == 304, "the page after it isn't")
        again = other.get("/", If_None_Match=self.tag(other), X_Site_Fresh="1")
        must(again.status == 304 and again.place() >= answer.place(), f"a fresh page is {again.shown()}")
        late = other.get("/", If_None_Match=self.tag(other), X_Site_Revision=str(answer.place() + 1_000_000))
        must(late.status == 503, f"of an edit that isn't there it answered {late.shown()}")

    def says_who_may_keep(self) -> None:
        """pages say who may keep them, and for whom; what is no page may be kept by nobody, and runs nothing"""
        node = self.nodes[0]
        answer = self.edited(node, "kept")
        cookie = answer.cookie()
        plain = node.get("/")
        must("max-age=0" in plain.headers["Cache-Control"] and not has_private(plain), f"{plain.headers.items()}")
        for it in (plain, node.get("/?p=99999"), node.ask("HEAD", "/")):
            varies = {word.strip() for word in (it.headers["Vary"] or "").split(",")}
            must(varies == {"Cookie", "X-Site-Fresh", "X-Site-Revision"}, f"{it.shown()} varies by {varies}")
        must(node.get("/?p=99999").headers["ETag"] is None, "what isn't there has a tag")
        promised: Sequence[dict[str, str]] = (
            {"X_Site_Fresh": "1"},
            {"X_Site_Revision": str(answer.place())},
            {"Cookie": cookie},
        )
        for headers in promised:
            must(has_private(node.get("/", **headers)), f"a page with {headers} may be kept")
        must("Max-Age=60" in answer.headers["Set-Cookie"], f"its cookie is {answer.headers['Set-Cookie']}")
        others = (answer, node.get("/health"), node.ask("PUT", "/"), node.get("/", X_Site_Revision="x"), node.post(b""))
        for it in others:
            must(it.headers["Cache-Control"] == "no-store", f"{it.shown()} may be kept: {it.headers.items()}")
            must("default-src 'none'" in it.headers["Content-Security-Policy"], f"{it.shown()} may run something")
        for it in (*others, plain, node.get("/", If_None_Match=plain.headers["ETag"])):
            must(it.headers["X-Content-Type-Options"] == "nosniff", f"{it.shown()} has {it.headers.items()}")
            must("Python" not in (it.headers["Server"] or ""), f"it tells its version: {it.headers['Server']}")


class Front(Protocol):
    """What is before a node, as a client sees it."""

    def get(self, path: str, **headers: str) -> Answer:
        """The answer to a request for a page; `headers` have an underscore where the name has a hyphen."""
        ...

    def post(self, body: bytes) -> Answer:
        """The answer to edits."""
        ...


class Cache:
    """Varnish as Debian ships it, before a port; it ends with the `with` block."""

    def __init__(self, cluster: Cluster, port: int) -> None:
        self.cluster, self.backend, self.port = cluster, port, free_port()
        self.folder = cluster.folder / f"varnish-{self.port}"
        self.process: Process | None = None

    def __enter__(self) -> Cache:
        assert VARNISH is not None
        words = [VARNISH, "-F", "-n", str(self.folder), "-a", f"127.0.0.1:{self.port}"]
        words += ["-b", f"127.0.0.1:{self.backend}", "-s", "malloc,64m"]
        self.process = self.cluster.processes.start(f"varnish-{self.port}", words)
        wait_for(self.answers, SECONDS, f"Varnish answers: {self.process.said()}", pause=0.2)
        return self

    def __exit__(self, *_: object) -> None:
        if self.process:
            self.process.end()

    def answers(self) -> bool:
        try:
            return self.get("/").status in (200, 404)
        except Exception:  # It isn't there yet.
            return False

    def get(self, path: str, **headers: str) -> Answer:
        named = {name.replace("_", "-"): it for name, it in headers.items()}
        return ask("127.0.0.1", self.port, "GET", path, None, named, SECONDS)

    def post(self, body: bytes) -> Answer:
        return ask("127.0.0.1", self.port, "POST", "/command", body, {"Authorization": f"Bearer {TOKEN}"}, SECONDS)


def is_hit(answer: Answer) -> bool:
    """Whether a cache has answered by what it had: Varnish then names two of its transactions."""
    return len((answer.headers["X-Varnish"] or "").split()) == 2


def keeps_promises(cache: Front, plain_may_be_old: bool) -> tuple[int, int]:
    """Edits and reads through a cache, all of which are as promised; how many pages it was asked for, and how many of
    them it had."""
    asked = hits = 0
    for number in range(EDITS):
        for _ in range(3):
            page = cache.get("/")
            asked, hits = asked + 1, hits + is_hit(page)
        answer = cache.post(put(f"cached {number}"))
        if answer.status != 200:
            raise Wrong(f"an edit is answered by {answer.shown()}")
        place, cookie = answer.place(), answer.cookie()
        shown = cache.get("/")
        must(
            shown.status == 200 and (plain_may_be_old or shown.place() >= place), f"a plain page is of {shown.place()}"
        )
        for headers in ({"X_Site_Fresh": "1"}, {"X_Site_Revision": str(place)}, {"Cookie": cookie}) * 2:
            page = cache.get("/", **headers)
            must(
                page.status == 200 and page.place() >= place, f"after edit {place}, with {headers} it is {page.place()}"
            )
        late = cache.get("/", X_Site_Revision=str(place + 1_000_000))
        must(late.status == 503, f"of an edit that isn't there the answer is {late.shown()} at {late.revision()}")
        cleared = cache.get("/", Cookie="site_revision=0.1")
        must(bool(cleared.headers["Set-Cookie"]), "a cookie isn't cleared")
        must(cache.get("/").headers["Set-Cookie"] is None, "a plain page has another client's cookie")
        tag = cache.get("/", X_Site_Revision=str(place)).headers["ETag"]
        same = cache.get("/", X_Site_Revision=str(place), If_None_Match=tag)
        must(same.status == 304, f"of a page that the client has it answered {same.shown()}")
    return asked, hits


def need_varnish() -> None:
    if VARNISH is None:
        raise Skipped("there is no varnishd here (Debian: varnish)")


def behind_varnish(arguments: argparse.Namespace, max_age: int) -> None:
    """What reads promise holds behind Varnish as Debian ships it."""
    need_varnish()
    options = ("--max-age", str(max_age)) if max_age else ()
    with Cluster(arguments.program, count=1, options=options) as cluster:
        must(cluster.nodes[0].post(put("first")).status == 200, "an edit isn't taken")
        with Cache(cluster, cluster.nodes[0].port) as cache:
            asked, hits = keeps_promises(cache, plain_may_be_old=bool(max_age))
        must((hits > 0) == bool(max_age), f"of {asked} plain pages it had {hits}")
        told = f"kept for {max_age} s" if max_age else "not kept"
        print(f"caches: pages {told}: of {asked} plain pages Varnish had {hits}", flush=True)


def of_tags(arguments: argparse.Namespace) -> Iterator[tuple[str | None, partial[None]]]:
    with Cluster(arguments.program, count=2) as cluster:
        tags = Tags(cluster)
        for judged in (tags.tells_what_is_unchanged, tags.says_who_may_keep):
            yield judged.__doc__, partial(judged)


def cases(arguments: argparse.Namespace) -> Cases:
    yield from of_tags(arguments)
    for max_age in (0, MAX_AGE):
        yield f"behind Varnish, pages kept for {max_age} s", partial(behind_varnish, arguments, max_age)
