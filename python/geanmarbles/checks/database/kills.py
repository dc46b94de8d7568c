"""SIGKILL at random moments, while a site that lasts is served, while it starts, and while its history is shortened."""

import tempfile
import threading
import time
from collections import Counter
from functools import partial
from pathlib import Path
from random import Random
from typing import Any

from geanmarbles.checks.database.clients import (
    Cases,
    Client,
    get,
    is_edit,
    joined,
    line_of,
    over,
    put,
    replies,
    run,
    same_pages,
)
from geanmarbles.checks.database.files import check_after_a_crash, check_equal, history
from geanmarbles.client.replies import Wrong, refusal_of, shown

# A file goes on over so many rounds, and then a new one begins.
ROUNDS_OF_A_FILE = 25
# After how many seconds of serving a program is killed at the latest.
SERVING = 0.06
# The most lines that a client sends in a round without waiting for replies.
PIPED = 600
# How many rounds are made, and how often each kind of them.
ROUNDS = 500
KINDS = {"waits": 4, "pipes": 4, "starts": 3, "compacts": 1}
TAGS = ("the_title", "the_content", "the_ID")


class Life:
    """A file over many rounds: what its history held at the end of the last one."""

    def __init__(self, program: str, folder: str, random: Random) -> None:
        self.program, self.random = program, random
        self.file = Path(folder, "site.db")
        self.sent = self.stored = 0
        # The first start of all is a round too: it is killed at some moment, and leaves no file, or a sound one.
        self.kill_while_starting([])
        replies(program, [put(title="first")], *over(self.file))
        self.lines = history(self.file)
        self.start_seconds = self.timed()

    def timed(self, *words: str) -> float:
        begin = time.monotonic()
        run(self.program, b"", *over(self.file, *words))
        return time.monotonic() - begin

    def edit(self) -> bytes:
        """An edit that is done whatever was before it, unlike all others by a key that is ignored."""
        self.sent += 1
        kind = self.random.randrange(6)
        plugin = self.random.choice(("bold", "marks", "atts"))
        edits: dict[int, dict[str, Any]] = {
            0: {"cmd": "edit", "id": 1, "title": f"title {self.sent}", "content": "[b]x[/b]" * (self.sent % 50)},
            1: {"cmd": "option", "name": "blogname", "value": f"name {self.sent}"},
            2: {"cmd": self.random.choice(("activate", "deactivate")), "plugin": plugin},
            3: {"cmd": "template", "name": "single", "body": [{"loop": [{"tag": TAGS[self.sent % 3]}]}]},
        }
        keys = edits.get(kind)
        return line_of(**keys, n=self.sent) if keys else put(title=f"post {self.sent}", n=self.sent)

    def wait_for_each(self) -> tuple[list[bytes], int]:
        """A client that waits for each reply: all edits that were answered count as acknowledged."""
        sent: list[bytes] = []
        acknowledged = 0
        with Client(self.program, *over(self.file)) as client:
            reply = client.ask(get("/"))
            client.killed_in(self.random.uniform(0, SERVING))
            while reply is not None:
                line = self.edit() if self.random.randrange(4) else get("/")
                reply = client.ask(line)
                if is_edit(line):
                    sent.append(line)
                    acknowledged += self.is_done(line, reply)
        return sent, acknowledged

    def is_done(self, line: bytes, reply: bytes | None) -> bool:
        if reply is not None and refusal_of(reply):
            raise Wrong(f"{shown(line)} has the reply {shown(reply)}")
        return reply is not None

    def pipe_chunks(self) -> tuple[list[bytes], int]:
        """A client that sends chunks and waits for nothing: each edit whose whole reply came counts."""
        lines = [self.edit() if self.random.randrange(3) else get("/") for _ in range(self.random.randint(1, PIPED))]
        with Client(self.program, *over(self.file)) as client:
            if client.ask(get("/")) is None:
                raise Wrong("it ended before anything was sent")
            client.killed_in(self.random.uniform(0, SERVING))
            sender = threading.Thread(target=client.send, args=[joined(lines)], daemon=True)
            sender.start()
            got = client.rest()
            sender.join()
        return [it for it in lines if is_edit(it)], sum(self.is_done(*it) for it in zip(lines, got) if is_edit(it[0]))

    def kill_while_starting(self, lines: list[bytes]) -> tuple[list[bytes], int]:
        """A kill within some milliseconds after the start; some edits wait to be read."""
        with Client(self.program, *over(self.file)) as client:
            client.killed_in(self.random.uniform(0, 1.2 * getattr(self, "start_seconds", 0.03)))
            client.send(joined(lines))
            got = client.rest()
        return lines, len(got)

    def kill_while_compacting(self) -> None:
        """A kill while the history is shortened: it is the old one or the short one."""
        ran = run(self.program, b"", *over(self.file, "--export"))
        short = [self.lines[0], *ran.stdout.splitlines()]
        if ran.returncode:
            raise Wrong(f"--export ended with status {ran.returncode} and {shown(ran.stderr)}")
        with Client(self.program, *over(self.file, "--compact")) as client:
            client.killed_in(self.random.uniform(0, 1.5 * self.start_seconds))
            client.rest()
        found = history(self.file)
        check_equal(found, short if len(found) == len(short) and found != self.lines else self.lines)
        self.lines = found

    def round(self, kind: str) -> None:
        """A round: a kill, what the files hold then, and the pages of the next start."""
        if kind == "compacts":
            self.kill_while_compacting()
        else:
            some = [self.edit() for _ in range(self.random.randrange(3))]
            kills = {"waits": self.wait_for_each, "pipes": self.pipe_chunks}
            sent, acknowledged = kills[kind]() if kind in kills else self.kill_while_starting(some)
            found = history(self.file)
            check_after_a_crash(found, self.lines, sent, acknowledged)
            self.stored += len(found) - len(self.lines) - acknowledged
            self.lines = found
        same_pages(self.program, self.file, self.lines, ("/", "/?p=1", f"/?p={len(self.lines)}", "/?p=2"))
        check_equal(history(self.file), self.lines)


class Rounds:
    """All rounds, and what came of them."""

    def __init__(self, program: str, count: int) -> None:
        self.program, self.count = program, count
        self.random = Random()
        self.life: Life | None = None
        self.folder: tempfile.TemporaryDirectory[str] | None = None
        self.made: Counter[str] = Counter()
        self.edits, self.stored = 0, 0

    def next_life(self) -> Life:
        self.end_life()
        self.folder = tempfile.TemporaryDirectory()
        self.life = Life(self.program, self.folder.name, self.random)
        return self.life

    def end_life(self) -> None:
        if self.life:
            self.edits, self.stored = self.edits + self.life.sent, self.stored + self.life.stored
        if self.folder:
            self.folder.cleanup()
        self.life = self.folder = None

    def make(self, number: int) -> None:
        """A round in a file that goes on, or in a new one: after a round that went wrong a new one begins too."""
        life = self.life
        if life is None or number % ROUNDS_OF_A_FILE == 0:
            life = self.next_life()
        kind = self.random.choices(tuple(KINDS), tuple(KINDS.values()))[0]
        try:
            life.round(kind)
        except BaseException:
            self.end_life()
            raise
        self.made[kind] += 1

    def cases(self) -> Cases:
        for number in range(self.count):
            yield f"round {number + 1} of kills", partial(self.make, number)
        self.end_life()
        kinds = ", ".join(f"{count} {kind}" for kind, count in sorted(self.made.items()))
        print(
            f"kills: {sum(self.made.values())} of {self.count} rounds ({kinds}); {self.edits} edits were sent,"
            f" and {self.stored} were stored whose replies never came"
        )


def cases(program: str, rounds: int = ROUNDS) -> Cases:
    """Each round by its number, with what judges it."""
    return Rounds(program, rounds).cases()
