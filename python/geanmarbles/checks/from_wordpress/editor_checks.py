"""Checks of `post`, `history` and `undo`: posts of a site in a file as files, their versions, and edits taken back.

It is a module, and runs nothing by itself.
"""

import contextlib
import json
import socket
import subprocess
import tempfile
import threading
from collections.abc import Iterator
from http.server import BaseHTTPRequestHandler, ThreadingHTTPServer
from pathlib import Path
from socketserver import BaseRequestHandler, ThreadingTCPServer
from typing import Any

from geanmarbles.checks.browse.browsing import Browse
from geanmarbles.checks.from_wordpress.archive_checks import SECONDS
from geanmarbles.checks.judging import must
from geanmarbles.client.program import pipe
from geanmarbles.paths import GEANMARBLES

EDITS = (
    {"cmd": "put", "title": "Rye", "content": "a\nb", "date": "2024-04-02 06:00:00"},
    {"cmd": "edit", "id": 1, "content": "a\nc"},
    {"cmd": "put", "title": "Two\nlines", "content": "", "date": "2024-04-03 06:00:00", "status": "draft"},
    {"cmd": "edit", "id": 1, "title": '"Quoted"'},
    {"cmd": "delete", "id": 2},
)
VERSIONS = """1: put: date "2024-04-02 06:00:00", title "Rye", content of 3 bytes
    @@ -0,0 +1,2 @@
    +a
    +b
2: edit: content of 3 bytes
    @@ -1,2 +1,2 @@
     a
    -b
    +c
4: edit: title "\\"Quoted\\""
"""


class Kept:
    """A site in a file with some edits, in a folder that is gone after the `with` block."""

    def __init__(self, program: Path) -> None:
        self.program = program

    def __enter__(self) -> "Kept":
        self.room = tempfile.TemporaryDirectory()
        self.database = Path(self.room.name, "site.db")
        given = "".join(json.dumps(it) + "\n" for it in EDITS).encode()
        words: list[str | Path] = [self.program, "--database", self.database]
        ran = subprocess.run(words, input=given, capture_output=True, timeout=SECONDS, check=True)
        must(b"refused" not in ran.stdout, f"the edits are refused: {ran.stdout!r}")
        return self

    def __exit__(self, *_: object) -> None:
        self.room.cleanup()

    def run(self, script: str, *words: str | Path, status: int = 0) -> str:
        """Runs a command and returns what it wrote, or the reason if it is to fail."""
        words = (GEANMARBLES, *script.split(), "--program", self.program, *words)
        ran = subprocess.run(words, capture_output=True, text=True, timeout=SECONDS, check=False)
        must(ran.returncode == status, f"{script} ended with status {ran.returncode}: {ran.stderr[-300:]}")
        return ran.stdout if status == 0 else ran.stderr

    def post(self, verb: str, *words: str | Path, status: int = 0) -> str:
        return self.post_at(str(self.database), verb, *words, status=status)

    def post_at(self, site: str, verb: str, *words: str | Path, status: int = 0) -> str:
        return self.run(f"post {verb}", site, *words, status=status)

    def file(self, text: str) -> Path:
        path = Path(self.room.name, "post.txt")
        path.write_text(text, encoding="utf-8")
        return path


def check_posts(program: Path) -> None:
    """A post is listed, printed with its head, and set to what a file says; a new one gets the next ID."""
    with Kept(program) as kept:
        row = '1\tpost\tpublish\t2024-04-02 06:00:00\t"\\"Quoted\\""\n'
        must(kept.post("list") == row, f"the list is {kept.post('list')!r}")
        must(kept.post("list", "QUOTED", "c") == row and kept.post("list", "nowhere") == "\n", "words don't choose")
        text = kept.post("get", "1")
        must(text == 'title: "\\"Quoted\\""\ndate: 2024-04-02 06:00:00\nstatus: publish\n\na\nc\n', f"it is {text!r}")
        kept.post("set", "1", kept.file(text))
        must(kept.post("get", "1") == text, "a post that was set to itself is another")
        kept.post("set", "1", kept.file("status: draft\n\n\n\nnew\n\n"))
        must(kept.post("get", "1").endswith("status: draft\n\n\n\nnew\n\n"), f"it is {kept.post('get', '1')!r}")
        new = kept.file("title: A: b\ndate: 2024-05-01 00:00:00\nkind: page\n\nx\n")
        must(kept.post("new", new) == "3\n", "a new page has another ID")
        must("3\tpage\tpublish\t2024-05-01 00:00:00\tA: b\n" in kept.post("list"), "the new page isn't listed")


def check_heads(program: Path) -> None:
    """A file with a head alone leaves the content of a post, and one more empty line empties it."""
    with Kept(program) as kept:
        for ending in ("", "\n", "\n\n"):
            for status in ("draft", "publish"):
                kept.post("set", "1", kept.file(f"status: {status}{ending}"))
                said = kept.post("get", "1")
                must(said.endswith(f"status: {status}\n\na\nc\n"), f"after a head and {ending!r} it is {said!r}")
        kept.post("set", "1", kept.file("status: draft\n\n\n"))
        said = kept.post("get", "1")
        must(said.endswith("status: draft\n\n\n"), f"with an empty content it is {said!r}")
        kept.post("set", "1", kept.file(said))
        must(kept.post("get", "1") == said, "an empty post that was set to itself is another")
        must(
            kept.post("new", kept.file("title: A\ndate: 2024-05-01 00:00:00\n")) == "3\n", "a new post without content"
        )


def check_settings(program: Path) -> None:
    """An option that was set is printed and listed, and a plugin is active from then on; a refused edit is told."""
    with Kept(program) as kept:
        site = kept.database
        listed = kept.run("option list", site)
        must(kept.run("option set", site, "blogname", "R y\u00e9") == "", "setting an option prints something")
        must(kept.run("option get", site, "blogname") == "R y\u00e9\n", "the option isn't what it was set to")
        lines = {*kept.run("option list", site).splitlines()} - {*listed.splitlines()}
        must(lines == {'blogname\t"R y\u00e9"'}, f"after it is set there is {lines}")
        must("isn't set" in kept.run("option get", site, "none", status=1), "an option that wasn't set is printed")
        must("refused 1 " in kept.run("option set", site, "", "x", status=1), "an option without a name is set")
        before = kept.run("plugin list", site).splitlines()
        for verb, wanted in (("activate", [*before, "bold"]), ("deactivate", before)):
            must(kept.run(f"plugin {verb}", site, "bold") == "", f"{verb} prints something")
            now = kept.run("plugin list", site).splitlines()
            must(now == wanted, f"after {verb} there is {now}")
        must("refused 6 " in kept.run("plugin activate", site, "nowhere", status=1), "a plugin of no program is active")
        line = kept.run("option set", "-", "a", "b")
        must(json.loads(line) == {"cmd": "option", "name": "a", "value": "b"}, f"the line is {line!r}")


def check_typos(program: Path) -> None:
    """A path where no site is gets none: the reason is told."""
    with Kept(program) as kept, tempfile.TemporaryDirectory() as folder:
        empty, new = Path(folder, "empty.db"), kept.file("title: x\ndate: 2024-05-01 00:00:00\n\ny")
        empty.touch()
        for site, why in ((Path(folder, "typo.db"), "no"), (empty, "empty")):
            given: dict[str, tuple[str | Path, ...]] = {
                "option get": ("blogname",),
                "plugin activate": ("bold",),
                "post list": (),
                "post get": ("1",),
                "post set": ("1", new),
                "post new": (new,),
                "history": ("1",),
                "undo": (f"{folder}/new.db",),
            }
            for script, words in given.items():
                said = kept.run(script, site, *words, status=1)
                must(why in said and said.count("\n") == 1, f"{script} of {site.name}: {said!r}")
        must([it.name for it in Path(folder).iterdir()] == ["empty.db"], f"there is {[*Path(folder).iterdir()]}")
        must(empty.stat().st_size == 0, "the empty file has become a site")


def check_faults(program: Path) -> None:
    """What can't be read or isn't taken ends with a reason, and changes nothing."""
    with Kept(program) as kept:
        before = kept.post("get", "1")
        for text, reason in (
            ("no head", "the head has"),
            ("", "the head has"),
            ("titel: x\n\ny", "the head has"),
            ("title: x\ntitle: y\n\nz", "each once"),
            ("kind: page\n\nz", "can't be changed"),
            ("date: today\n\nz", "refused 5 BadDate"),
        ):
            said = kept.post("set", "1", kept.file(text), status=1)
            must(reason in said and said.count("\n") == 1, f"{text!r}: {said!r}")
        must(
            "refused 3" in kept.post("set", "9", kept.file("title: x\n\ny"), status=1), "a post that isn't there is set"
        )
        must("no post" in kept.post("get", "9", status=1), "a post that isn't there is printed")
        must(kept.post("get", "1") == before, "a refused edit has changed something")
        with subprocess.Popen([program, "--database", kept.database], stdin=subprocess.PIPE) as server:
            said = ""
            for _ in range(100):
                if "in use" in said:
                    break
                try:
                    said = kept.run("history", kept.database, "1", status=1)
                except Exception:
                    continue
            must("in use" in said, f"a site that is served: {said}")
            server.terminate()


class Node(ThreadingHTTPServer):
    """What stands for a node of a cluster: it takes edits as docs/CLUSTER.md says, each key once, over a program of its
    own. The first time that a key comes it makes the edit, and says that the outcome isn't known."""

    def __init__(self, program: Path) -> None:
        super().__init__(("127.0.0.1", 0), NodeRequest)
        self.words = [program]
        self.lines: list[bytes] = []
        self.replies: dict[str, bytes] = {}
        self.is_down = False
        threading.Thread(target=self.serve_forever, daemon=True).start()

    def edited(self, line: bytes) -> bytes:
        self.lines.append(line)
        ran = subprocess.run(self.words, input=b"\n".join(self.lines), capture_output=True, timeout=SECONDS, check=True)
        return ran.stdout.splitlines()[-1] + b"\n"


class NodeRequest(BaseHTTPRequestHandler):
    server: Node

    def log_message(self, *_: object) -> None:
        """Nothing is logged."""

    def do_HEAD(self) -> None:
        self.send_response(404)
        self.send_header("X-Site-Revision", "1")
        self.end_headers()

    def do_POST(self) -> None:
        key, node = self.headers["Idempotency-Key"], self.server
        line = self.rfile.read(int(self.headers["Content-Length"]))
        if self.path != "/command" or self.headers["Authorization"] != "Bearer secret":
            return self.tell(401, b"the token is missing or wrong\n")
        if node.is_down:
            return self.tell(503, b"etcd-unreachable\n")
        if key not in node.replies:
            node.replies[key] = node.edited(line)
            return self.tell(504, b"unknown 1\n")
        return self.tell(200, node.replies[key])

    def tell(self, status: int, body: bytes) -> None:
        self.send_response(status)
        self.send_header("Content-Length", str(len(body)))
        self.end_headers()
        self.wfile.write(body)


def check_served(program: Path) -> None:
    """Edits go to a node, once each, or are printed; posts are read from a site's lines."""
    with Kept(program) as kept, Node(program) as node:
        address = f"http://127.0.0.1:{node.server_port}/"
        token, lines = Path(kept.room.name, "token"), Path(kept.room.name, "site.jsonl")
        token.write_text("secret\n", encoding="ascii")
        words: list[str | Path] = ["--token-file", token, address]
        new = kept.file("title: Rye\ndate: 2024-05-01 00:00:00\n\nx\n")
        must(kept.run("post new", *words, new) == "1\n", "a new post has no ID")
        must(kept.run("post set", *words, "1", kept.file("title: Corn\n\ny")) == "", "an edit says something")
        must("refused 3" in kept.run("post set", *words, "2", new, status=1), "a refusal isn't told")
        must(len(node.lines) == 3, f"the node has made {len(node.lines)} edits, wanted 3")
        must("--token-file" in kept.post_at(address, "set", "1", new, status=1), "without a token it asks the node")
        must("--token-file" in kept.post_at(address, "list", status=1), "without a token it asks the node for posts")
        must("--export" in kept.run("post list", *words, status=1), "a node has no posts")
        token.write_text("other", encoding="ascii")
        must("401: the token" in kept.run("post set", *words, "1", new, status=1), "a wrong token isn't told")
        token.write_text("secret", encoding="ascii")
        node.is_down = True
        said = kept.run("post set", *words, "1", new, status=1)
        must("isn't known" in said and "503: etcd-unreachable" in said, f"a node that can't edit: {said!r}")
        node.shutdown()
        line = kept.post_at("-", "set", "1", kept.file('title: "A\\nb"\n\ny'))
        must(json.loads(line) == {"cmd": "edit", "id": 1, "title": "A\nb", "content": "y"}, f"the line is {line!r}")
        exported = subprocess.run([program, "--database", kept.database, "--export"], capture_output=True, check=True)
        lines.write_bytes(exported.stdout)
        must(kept.post_at(str(lines), "list") == kept.post("list"), "the lines of a site have other posts")
        must(kept.post_at(str(lines), "get", "1") == kept.post("get", "1"), "the lines of a site have another post")
        must("nothing edits" in kept.post_at(str(lines), "set", "1", new, status=1), "lines are edited")
        must(lines.read_bytes() == exported.stdout, "lines have changed")


class Losing(ThreadingTCPServer):
    """A proxy that loses the first response to an edit."""

    daemon_threads = True

    def __init__(self, behind: tuple[str, int]) -> None:
        super().__init__(("127.0.0.1", 0), LosingRequest)
        self.behind, self.edits = behind, 0
        threading.Thread(target=self.serve_forever, daemon=True).start()


class LosingRequest(BaseRequestHandler):
    server: Losing

    def handle(self) -> None:
        with socket.create_connection(self.server.behind, SECONDS) as behind:
            begin: bytes = self.request.recv(1 << 16)
            behind.sendall(begin)
            threading.Thread(target=handed_on, args=(self.request, behind), daemon=True).start()
            came = b"".join(iter(lambda: behind.recv(1 << 16), b""))
        is_edit = begin.startswith(b"POST ")
        self.server.edits += is_edit
        if not is_edit or self.server.edits > 1:
            self.request.sendall(came)


def handed_on(one: socket.socket, other: socket.socket) -> None:
    """Hands on what comes from one side, until either has gone."""
    with contextlib.suppress(OSError):
        while part := one.recv(1 << 16):
            other.sendall(part)


def check_lost_responses(program: Path) -> None:
    """An edit whose response is lost is sent once to `geanmarbles serve` and to `geanmarbles browse`, and isn't
    known."""
    for name in ("serve", "browse"):
        with Kept(program) as kept:
            token, new = Path(kept.room.name, "token"), kept.file("title: Lost\ndate: 2024-05-01 00:00:00\n\nx\n")
            token.write_text("secret", encoding="ascii")
            words: list[str | Path] = [GEANMARBLES, name, "--program", program, "--port", "0"]
            words += ["--database", kept.database, "--token-file", token]
            with subprocess.Popen(words, stdout=subprocess.PIPE, stderr=subprocess.DEVNULL) as running:
                port = int(pipe(running.stdout).readline().decode().rstrip("/\n").rpartition(":")[2])
                with Losing(("127.0.0.1", port)) as losing:
                    address = f"http://127.0.0.1:{losing.server_address[1]}/"
                    asked: list[str | Path] = ["--token-file", token, address, new]
                    said = kept.run("post new", *asked, status=1)
                    must("isn't known" in said and said.count("\n") == 1, f"{name}: {said!r}")
                    must(losing.edits == 1, f"{name}: the edit was sent {losing.edits} times")
                    must(kept.run("post new", *asked) == "4\n", f"{name}: the next post has another ID")
                    losing.shutdown()
                running.terminate()
                must(running.wait(SECONDS) == 0, f"{name}: the status")
            must(kept.post("list", "lost").count("Lost") == 2, f"{name}: there are {kept.post('list')!r}")


def check_browsed(program: Path) -> None:
    """A file that `geanmarbles browse` serves is read and edited through it as the file is when nothing serves it."""
    with Kept(program) as kept:
        token, new = Path(kept.room.name, "token"), Path(kept.room.name, "new.db")
        token.write_text("secret\n", encoding="ascii")
        posts, post, versions = kept.post("list"), kept.post("get", "1"), kept.run("history", kept.database, "1")
        with Browse(program, "--database", str(kept.database), "--token-file", token) as browse:
            site: list[str | Path] = ["--token-file", token, f"http://127.0.0.1:{browse.port}/"]
            must(kept.run("post list", *site) == posts, "through browse other posts are listed")
            must(kept.run("post get", *site, "1") == post, "through browse the post is another")
            must(kept.run("history", *site, "1") == versions, "through browse there are other versions")
            said = kept.post("list", status=1)
            must(
                "in use: end the program that has it, or edit the site through that one" in said,
                f"of the file it says {said!r}",
            )
            edited = kept.file("title: Corn\n\ny\n")
            must(kept.run("post set", *site, "1", edited) == "", "an edit says something")
            must(b"<h2>Corn</h2>y" in browse.ask("/?p=1").body, "the page isn't the one after the edit")
            new_post = kept.file("title: Oats\ndate: 2024-05-01 00:00:00\nstatus: draft\n\nz\n")
            must(kept.run("post new", *site, new_post) == "3\n", "a new post has another ID")
            must("3\tpost\tdraft\t2024-05-01 00:00:00\tOats\n" in kept.run("post list", *site), "it isn't listed")
            left = kept.run("undo", *site, new)
            must(json.loads(left)["title"] == "Oats", f"what is left out is {left!r}")
            check_browse_refuses(kept, site, browse)
            whole = kept.run("post list", *site)
        must(kept.post("list") == whole, "the file has other posts than what served it")
        undone = kept.run("post list", new)
        must("Corn" in undone and "Oats" not in undone, f"without the last edit there is {undone!r}")


def check_browse_refuses(kept: Kept, site: list[str | Path], browse: Browse) -> None:
    """What isn't taken through `geanmarbles browse` ends with a reason, and changes nothing."""
    before, others = kept.run("post list", *site), Path(kept.room.name, "other")
    others.write_text("other", encoding="ascii")
    head = "title: Rye\ndate: 2024-05-01 00:00:00\n\n"
    given: tuple[tuple[str, list[str | Path], str, str], ...] = (
        ("set", [*site, "9"], head, "refused 3 NoSuchPost"),
        ("set", [*site, "1"], "date: today\n\nz", "refused 5 BadDate"),
        ("new", site, head + "x" * 524_289, "refused 8 TooLarge"),
        ("new", site, head + "x" * (1 << 21), "400: line 1: it has"),
        ("new", site, head + "x" * (9 << 20), "413: the body has"),
        ("new", ["--token-file", others, site[2]], head, "401: the token"),
        ("new", [site[2]], head, "--token-file"),
    )
    for verb, words, text, reason in given:
        said = kept.run(f"post {verb}", *words, kept.file(text), status=1)
        must(reason in said and said.count("\n") == 1, f"{verb}, {text[:20]!r}: {said!r}")
    for script, *more in (["post list"], ["history", "1"], ["undo", f"{kept.room.name}/none.db"]):
        said = kept.run(script, "--token-file", others, site[2], *more, status=1)
        must("refuses with 401" in said, f"{script} with another token: {said!r}")
    must("has had no post" in kept.run("history", *site, "7", status=1), "a post that never was has versions")
    must("edits, and not 99" in kept.run("undo", *site, f"{kept.room.name}/none.db", "99", status=1), "99 are undone")
    must(kept.run("post list", *site) == before, "what was refused has changed something")
    nowhere: list[str | Path] = ["--token-file", others, "http://127.0.0.1:1/"]
    must("refused" in kept.run("post list", *nowhere, status=1), "an address where nothing is has posts")


def check_history(program: Path) -> None:
    """Each version of a post is shown, also of one that is gone."""
    with Kept(program) as kept:
        said = kept.run("history", "--difference", kept.database, "1")
        must(said == VERSIONS, f"the versions are {said!r}")
        gone = kept.run("history", kept.database, "2")
        must(gone.startswith('3: put: status "draft"') and gone.endswith("5: delete: nothing\n"), f"they are {gone!r}")
        must(
            "has had no post" in kept.run("history", kept.database, "7", status=1), "a post that never was has versions"
        )


def check_undo(program: Path) -> None:
    """A new file has all edits but the last, and the old one stays as it is."""
    with Kept(program) as kept:
        before, new = kept.database.read_bytes(), Path(kept.room.name, "new.db")
        left = kept.run("undo", kept.database, new, "2")
        must([json.loads(it) for it in left.splitlines()] == [EDITS[4], EDITS[3]], f"it left out {left!r}")
        must(kept.database.read_bytes() == before, "the old file has changed")
        must(
            "is there already" in kept.run("undo", kept.database, new, status=1), "a file that is there is overwritten"
        )
        must(
            "has 5 edits" in kept.run("undo", kept.database, f"{new}.2", "6", status=1), "more is undone than was done"
        )
        listed = kept.run("post list", new)
        must("\tRye\n" in listed and '\t"Two\\nlines"\n' in listed, f"the new file has {listed!r}")


def checks(program: Path) -> Iterator[tuple[Any, ...]]:
    """What each check shows, and the check with its arguments."""
    yield "posts as files", check_posts, program
    yield "files with a head alone", check_heads, program
    yield "posts that can't be set", check_faults, program
    yield "options and plugins", check_settings, program
    yield "a path where no site is", check_typos, program
    yield "posts of a site that a node serves", check_served, program
    yield "posts whose response is lost", check_lost_responses, program
    yield "posts of a site that geanmarbles browse serves", check_browsed, program
    yield "versions of a post", check_history, program
    yield "edits taken back", check_undo, program
