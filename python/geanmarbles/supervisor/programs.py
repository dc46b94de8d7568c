"""The program that serves a site, and the next one for each that ends.

A program ends after 1,000,000 lines. So the next one takes its place some lines before, and so it does if a program has
ended for another reason: a page that it owed is asked of the next. A site that lasts is in its file; the next program
of a site in memory is given each edit that was done.

Whoever asks for the edits that a site is made of gets them from here, since nobody else can read a file that a program
has: they are read from it before a program is started, and each that is done is noted.
"""

import json
import subprocess
import threading
from collections.abc import Callable, Iterable, Iterator, Sequence
from contextlib import contextmanager
from pathlib import Path
from typing import Self

from geanmarbles.client.log import STYLE, Page, as_html, tree_of
from geanmarbles.client.program import END_SECONDS, LINES, LINE_BYTES, Program, get_line
from geanmarbles.client.replies import Ended, NoReply, Reply
from geanmarbles.client.watched import Watched
from geanmarbles.supervisor.kept import NotKept, history

# How many lines before a program's last one the next takes its place.
MARGIN = 10
# How often a program is started, and how many are asked for a page, before either is given up.
TRIES = 3
# How long a program may take for its first reply.
FIRST_SECONDS = 20
# Commands that reply `ok` and change nothing that is stored.
BY_TURNS = ("begin", "turns")


class NotServed(Exception):
    """Why a site can't be served, or not any more."""


class Killed(Ended):
    """A signal has ended a program, so it says nothing of the next."""


class Unknown(Exception):
    """The program ended before it had replied to an edit, so nobody knows whether it was done."""


class Plain:
    """Programs whose pages are served as they are."""

    start: type[Program] = Program

    @staticmethod
    def ready(program: Program) -> None:
        """What is to be done before a program is asked for its first page."""

    @staticmethod
    def get(program: Program, path: str) -> Reply:
        return program.ask(get_line(path))


class Explained(Plain):
    """Programs with a log: each page has below it which callbacks ran for it."""

    start: type[Program] = Watched

    @staticmethod
    def ready(program: Program) -> None:
        """Passes over what the lines so far have written to the log."""
        assert isinstance(program, Watched)
        program.pass_over()

    @staticmethod
    def get(program: Program, path: str) -> Reply:
        assert isinstance(program, Watched)
        reply, page = program.get(path)
        return reply._replace(page=reply.page + below(page)) if reply.is_page() else reply


def below(page: Page) -> bytes:
    """What is shown below a page, in a tree of its own: the page's style doesn't reach into it."""
    tree = tree_of(page)
    assert tree is not None
    ran = "".join(as_html(tree))
    shown = f"<style>{STYLE}</style><main><strong>Which callbacks ran</strong>\n{ran}</main>"
    return f'\n<div id="which-callbacks-ran"><template shadowrootmode="open">{shown}</template></div>\n'.encode()


def is_edit(line: bytes) -> bool:
    """Whether a line whose reply begins with `ok` has changed what is stored."""
    return json.loads(line)["cmd"] not in BY_TURNS


def was_killed(program: Program) -> bool:
    """Whether a signal has ended a program that replies no more."""
    try:
        return program.child.wait(1) < 0
    except subprocess.TimeoutExpired:
        return False


class Place:
    """A place for a program, in which the next one is started when one has ended or has had its lines."""

    def __init__(self, started: Callable[[], Program], kind: type[Plain], most: int) -> None:
        self.started, self.kind, self.most = started, kind, most
        self.program: Program | None = None

    def renew(self) -> None:
        """Starts the next program. The one before ends first: two can't have one file."""
        self.end()
        program = self.begun()
        if program.lines > self.most - MARGIN:
            program.end()
            raise NotServed(f"the site takes {program.lines} lines, and a program takes {self.most}")
        self.kind.ready(program)
        self.program = program

    def begun(self) -> Program:
        for _ in range(TRIES):
            try:
                return self.started()
            except Killed:
                pass
            except (Ended, OSError):
                break
        raise NotServed("the program has ended, so the site is gone")

    def end(self) -> None:
        if self.program is not None:
            self.program.end()
        self.program = None

    def kill(self) -> None:
        if self.program is not None:
            self.program.kill()

    def is_ready(self) -> bool:
        """Whether there is a program that runs, and that has room for another line."""
        program = self.program
        return program is not None and program.child.poll() is None and program.lines <= self.most - MARGIN

    def be_ready(self) -> Program:
        if not self.is_ready():
            self.renew()
        assert self.program is not None
        return self.program

    def get(self, path: str) -> Reply:
        """The reply to a request. It changes nothing, so the next program is asked if one ends before it replies."""
        for _ in range(TRIES):
            program = self.be_ready()
            try:
                return self.kind.get(program, path)
            except Ended:
                self.end()
        raise Ended

    def carry_out(self, line: bytes) -> Reply:
        """The reply to a line that may be an edit. It is sent once, whatever happens."""
        assert self.program is not None
        reply = self.program.ask(line)
        self.kind.ready(self.program)
        return reply


class Site:
    """A site over some programs, which `words` start. It ends with the `with` block that it is made for.

    With `database` it is the one in that file, else it is in memory. With `notes_edits` it can be asked for
    its edits."""

    def __init__(
        self,
        words: list[str],
        database: str | None = None,
        most: int = LINES,
        kind: type[Plain] = Plain,
        notes_edits: bool = False,
    ) -> None:
        self.words, self.database, self.kind, self.most = words, database, kind, most
        # Every edit that the site in a file is made of, if anybody may ask for them.
        self.notes_edits = notes_edits and database is not None
        self.noted: list[bytes] = []
        # The edits that were done to a site in memory.
        self.history: list[bytes] = []
        self.editing = threading.Lock()
        self.writer = Place(self.started_writer, kind, most)
        # Held by whoever asks the program for something.
        self.asking = threading.Lock()
        # Why no program can be started any more.
        self.fault: Exception | None = None

    def __enter__(self) -> Self:
        try:
            self.read_again()
        except BaseException:
            self.__exit__()
            raise
        return self

    def __exit__(self, *_: object) -> None:
        if self.database is None:
            self.writer.kill()
        elif self.editing.acquire(timeout=END_SECONDS):
            # The edit that was under way is done, and no other comes.
            self.writer.end()
        else:
            self.writer.kill()

    def has_ended(self) -> bool:
        return self.fault is not None

    def file(self) -> str:
        """The file of a site that lasts."""
        assert self.database is not None
        return self.database

    def edits_in_the_file(self) -> list[bytes]:
        """The edits of the site in the file, which no program may have meanwhile; a file that isn't there has none."""
        try:
            return history(self.words, Path(self.file())) if Path(self.file()).exists() else []
        except NotKept as fault:
            raise NotServed(fault) from None

    def started_writer(self) -> Program:
        return self.started(("--database", self.database) if self.database else (), self.history)

    def started(self, options: Sequence[str], lines: Iterable[bytes]) -> Program:
        """A program that has carried out some lines."""
        program = self.kind.start(*self.words, *options)
        try:
            program.check(FIRST_SECONDS)
            for line in lines:
                reply = program.ask(line)
                if reply.words[0] != "ok":
                    raise NotServed(f"a line that was done has the reply {reply.text()!r}: {line[:80].decode()}")
        except BaseException as fault:
            if isinstance(fault, Ended) and was_killed(program):
                raise Killed from None
            program.kill()
            raise
        return program

    def edits_done(self) -> list[bytes]:
        """Every edit that the site is made of, in order. A site in memory is made of those that were done here."""
        with self.editing:
            return list(self.noted if self.notes_edits else self.history)

    def read_again(self) -> None:
        """Starts the program anew, over what the file has by now."""
        self.writer.end()
        if self.notes_edits:
            self.noted = self.edits_in_the_file()
        self.writer.renew()

    @contextmanager
    def taken(self) -> Iterator[Place]:
        """The program's place, of which nothing else is asked until the block ends. If no program can be started, the
        site is gone."""
        with self.asking:
            try:
                yield self.writer
            except (NoReply, NotServed) as fault:
                self.fault = fault
                raise

    def get(self, path: str) -> Reply:
        """The reply to a request for a path."""
        with self.taken() as place:
            return place.get(path)

    def edit(self, line: bytes) -> Reply:
        """The reply to a line, which may be any command. Once it is there, all pages are those after the line."""
        if len(line) > LINE_BYTES:
            raise ValueError(f"a line of {len(line)} bytes, and at most {LINE_BYTES} are read")
        with self.editing, self.taken():
            return self.carried_out(line)

    def carried_out(self, line: bytes) -> Reply:
        self.writer.be_ready()
        try:
            reply = self.writer.carry_out(line)
        except Ended:
            self.read_again()
            raise Unknown from None
        if reply.words[0] == "ok" and is_edit(line):
            if self.notes_edits:
                self.noted.append(line)
            if self.database is None:
                self.history.append(line)
        return reply
