"""The posts and settings of a site in a file, for scripts that write its pages elsewhere.

The site is read by `site --export`, line by line. Its posts are put into a temporary database and their contents into a
temporary file, so memory doesn't grow with them.
"""

import json
import subprocess
import tempfile
from collections.abc import Iterable, Iterator
from dataclasses import dataclass
from hashlib import blake2b
from typing import IO, Any

from geanmarbles.client.program import LINES, LINE_BYTES, Program, pipe
from geanmarbles.client.replies import Ended, NoReply, Reply
from geanmarbles.disk_tables import Disk, DiskDict

# How many lines before a program's last one the next takes its place.
MARGIN = 1_000
# The largest number of posts of one list; the option posts_per_page has to be in this range.
MOST_PER_PAGE = 100


class NotRead(Exception):
    """Why a site can't be read, or its pages can't be printed."""


@dataclass(slots=True)
class Post:
    """A post or page as the site has it, without its content."""

    number: int
    kind: str
    status: str
    title: str
    date: str
    # What stands for its content: another content has another sum.
    sum: bytes = b""

    def is_published(self) -> bool:
        return self.status == "publish"


class Texts:
    """Texts by number in a temporary file."""

    def __init__(self, disk: Disk) -> None:
        self.file: IO[bytes] = tempfile.TemporaryFile()
        self.places: DiskDict[int, tuple[int, int]] = DiskDict(disk)
        self.size, self.is_at_end = 0, True

    def put(self, number: int, text: str) -> bytes:
        """Puts a text, and returns its sum."""
        data = text.encode()
        # (to seek is to write what is held so far)
        if not self.is_at_end:
            self.file.seek(self.size)
        self.places[number] = self.size, len(data)
        self.size, self.is_at_end = self.size + self.file.write(data), True
        return blake2b(data, digest_size=16).digest()

    def get(self, number: int) -> str:
        at, size = self.places.get(number, (0, 0))
        self.is_at_end = False
        self.file.seek(at)
        return self.file.read(size).decode()

    def close(self) -> None:
        self.file.close()


class Store:
    """What a site holds that some edits make of an empty one: its posts by ID, and the lines that make all else of it.

    The edits are those that an export has, or all that were done."""

    def __init__(self, lines: Iterable[bytes], disk: Disk | None = None) -> None:
        self.disk = disk or Disk()
        self.posts: DiskDict[int, Post] = DiskDict(self.disk)
        # The largest ID so far: a new post gets the next one, also if that post is gone.
        self.largest = 0
        self.contents = Texts(self.disk)
        self.options: dict[str, str] = {}
        self.templates: dict[str, list[Any]] = {}
        # The lines that make an empty site one with the settings, templates and plugins of this one.
        self.settings: list[bytes] = []
        for line in lines:
            self.take(line)

    def take(self, line: bytes) -> None:
        """Does what an edit does, as far as it is looked at here."""
        command = json.loads(line)
        kind = command.get("cmd")
        if kind == "import":
            self.take_import(command["site"])
        elif kind == "put":
            # What may be left out of it, docs/BEHAVIOUR.md says.
            given = {"kind": "post", "status": "publish", "title": "", "content": "", **command}
            self.take_post({**given, "id": self.largest + 1})
        elif kind == "edit":
            post = self.posts.get(command["id"])
            for name in ("title", "status", "date"):
                if post and name in command:
                    setattr(post, name, command[name])
            if post and "content" in command:
                post.sum = self.contents.put(post.number, command["content"])
            if post:
                self.posts[post.number] = post
        elif kind == "delete":
            self.posts.discard(command["id"])
        else:
            if kind == "option":
                self.options[command["name"]] = command["value"]
            elif kind == "template" and command["body"] is not None:
                self.templates[command["name"]] = command["body"]
            self.settings.append(line)

    def take_post(self, entry: dict[str, Any]) -> None:
        number = entry["id"]
        kind, status, title, date = (entry[it] for it in ("kind", "status", "title", "date"))
        self.posts[number] = Post(number, kind, status, title, date, self.contents.put(number, entry["content"]))
        self.largest = max(self.largest, number)

    def take_import(self, site: dict[str, Any]) -> None:
        """Takes the posts of an import, and keeps the rest of it as a line."""
        for it in site.pop("posts", []):
            self.take_post(it)
        front = site.get("front")
        if front and site.get("version") == 2:
            shown = {"show_on_front": front["show"]}
            if "page" in front:
                shown["page_on_front"] = str(front["page"])
            self.options |= shown
        self.options |= site.get("options", {})
        self.templates |= site.get("templates", {})
        if set(site) - {"version"}:
            self.settings.append(line_of({"cmd": "import", "site": {**site, "posts": []}}))

    def published(self, kind: str) -> Iterator[Post]:
        return (it for it in self.posts.values() if it.kind == kind and it.is_published())

    def content(self, number: int) -> str:
        return self.contents.get(number)

    def per_page(self) -> int:
        given = self.options.get("posts_per_page", "")
        is_number = given.isascii() and given.isdigit() and 1 <= int(given[:10]) <= MOST_PER_PAGE
        return int(given) if is_number else 10

    def page_option(self, name: str) -> int:
        """The ID that an option has, or 0."""
        given = self.options.get(name, "")
        return int(given) if given.isascii() and given.isdigit() and len(given) <= 10 else 0

    def front(self) -> Post | None:
        """The page that the front shows, if it shows one."""
        post = self.posts.get(self.page_option("page_on_front"))
        is_shown = self.options.get("show_on_front") == "page"
        return post if post and is_shown and post.kind == "page" and post.is_published() else None

    def close(self) -> None:
        self.contents.close()


def line_of(command: dict[str, Any]) -> bytes:
    return json.dumps(command, ensure_ascii=False, separators=(",", ":")).encode()


def read_store(program: list[str], database: str, disk: Disk | None = None) -> Store:
    """Reads the site in a file, which no program may serve meanwhile."""
    words = [*program, "--database", database, "--must-exist", "--export"]
    with subprocess.Popen(words, stdin=subprocess.DEVNULL, stdout=subprocess.PIPE, stderr=subprocess.PIPE) as ran:
        store = Store((it.rstrip(b"\n") for it in pipe(ran.stdout)), disk)
        said = pipe(ran.stderr).read().decode(errors="replace").strip()
    if ran.returncode:
        raise NotRead(said.partition("\n")[0] or f"{program[0]} --export ended with status {ran.returncode}")
    return store


class Printer:
    """The program over the site in the file: it prints a post's or a page's page as whoever serves the file does."""

    def __init__(self, program: list[str], database: str) -> None:
        self.words = [*program, "--database", database, "--must-exist"]
        # (it is started for the first page: perhaps there is none)
        self.program: Program | None = None

    def __enter__(self) -> "Printer":
        return self

    def __exit__(self, *_: object) -> None:
        if self.program is not None:
            self.program.end()

    def page(self, path: str) -> tuple[int, str]:
        """The status and the text of the page at a path."""
        self.program = self.program or Program(*self.words)
        try:
            return status_of(self.program.ask(line_of({"cmd": "get", "path": path})), path)
        except (Ended, NoReply) as error:
            raise NotRead(f"the program ended at {path}") from error


class Lister:
    """A program in memory that has the site's settings, and for each page that it prints the posts of that page alone.

    So it prints any list of posts with the site's own templates and plugins, and stays as small as one page."""

    def __init__(self, program: list[str], store: Store) -> None:
        self.words, self.store = program, store
        # What makes it print lists by a template of archives, or nothing yet.
        self.listing_lines: list[bytes] = []
        self.program: Program | None = None

    def __enter__(self) -> "Lister":
        return self

    def __exit__(self, *_: object) -> None:
        if self.program is not None:
            self.program.kill()

    def begin(self) -> None:
        self.__exit__()
        self.program = Program(*self.words)
        for line in self.store.settings:
            self.must([line])
        self.must(self.listing_lines)

    def must(self, lines: list[bytes]) -> None:
        """Has the program carry out some edits, a few hundred at most."""
        for line, reply in zip(lines, self.running().ask_all(lines)):
            if reply.words[0] != "ok":
                said = line[:80].decode(errors="replace")
                raise NotRead(f"a line that the site in the file has is {reply.text()!r}: {said}")

    def running(self) -> Program:
        if self.program is None:
            raise NotRead("no program runs")
        return self.program

    def list_as(self, body: list[Any] | None, front: list[Any] | None) -> None:
        """Has all lists printed by a template, or if there is none by the default one; `front` comes before it."""
        options = {"show_on_front": "posts", "posts_per_page": str(MOST_PER_PAGE)}
        self.listing_lines = [
            *(line_of({"cmd": "option", "name": name, "value": value}) for name, value in options.items()),
            line_of({"cmd": "template", "name": "front-page", "body": front}),
            line_of({"cmd": "template", "name": "home", "body": body}),
        ]
        if self.program is not None:
            self.must(self.listing_lines)

    def page(self, entries: dict[int, bytes], path: str) -> tuple[int, str]:
        """The page at a path of a site that has these posts and no others, each as JSON: its status and its text."""
        if self.program is None or self.program.lines > LINES - MARGIN:
            self.begin()
        imports, get = [*import_lines(entries.values())], line_of({"cmd": "get", "path": path})
        try:
            *replies, page = self.running().ask_all([*imports, get])
            self.must([line_of({"cmd": "delete", "id": it}) for it in entries])
        except (Ended, NoReply) as error:
            raise NotRead(f"the program ended at {path}") from error
        if refused := [it.text() for it in replies if it.words[0] != "ok"]:
            raise NotRead(f"the posts of a page at {path} are {refused[0]!r}")
        return status_of(page, path)


def import_lines(entries: Iterable[bytes]) -> Iterator[bytes]:
    """Imports of some posts, each no longer than a line may be."""
    held: list[bytes] = []
    used = 0
    for entry in entries:
        if held and used + len(entry) > LINE_BYTES - 100:
            yield import_of(held)
            held, used = [], 0
        held.append(entry)
        used += len(entry) + 1
    if held:
        yield import_of(held)


def import_of(entries: list[bytes]) -> bytes:
    return b'{"cmd":"import","site":{"version":1,"posts":[' + b",".join(entries) + b"]}}"


def status_of(reply: Reply, path: str) -> tuple[int, str]:
    """The status and the text of a page that the program has replied with."""
    if not reply.is_page():
        raise NotRead(f"the page at {path} is {reply.text()!r}")
    return int(reply.words[1]), reply.page.decode()
