"""The program as a child process that replies to one line at a time, for scripts.

A script uses it so, with the folder `python` of the checkout on its path:

    from geanmarbles.client.program import Program
    from geanmarbles.repository import shipped

    with Program(str(shipped.program())) as site:
        site.ask(b'{"cmd":"put","title":"Rye","date":"2024-04-02 06:00:00"}')
        reply = site.ask(b'{"cmd":"get","path":"/?p=1"}')
        if reply.is_page():
            print(reply.words[1], reply.page.decode())      # 200 <h2>Rye</h2>
"""

import argparse
import json
import os
import select
import signal
import subprocess
import sys
import time
from collections.abc import Sequence
from typing import IO, Any, Self

from geanmarbles.arguments import command_name
from geanmarbles.client.replies import Ended, NoReply, Reply, read_reply
from geanmarbles.repository import shipped

# How many lines the program reads, and the longest that it reads.
LINES, LINE_BYTES = 1_000_000, 1_048_576
# How long a program may take to end by itself. Over a site in a file it then copies FILE-wal into FILE.
END_SECONDS = 60


def pipe(stream: IO[bytes] | None) -> IO[bytes]:
    """A pipe of a process that was started with it."""
    assert stream is not None
    return stream


def get_line(path: str) -> bytes:
    """The line that asks a program for the page of a path."""
    return json.dumps({"cmd": "get", "path": path}).encode()


class Program:
    """A running program, with some options. It ends by itself with the `with` block that it is made for, so a site in a
    file is then whole in FILE alone.

    `lines` is how many lines it was sent; after 1,000,000 it ends."""

    # What becomes of its standard error: it is that of the script.
    errors: int | None = None

    def __init__(self, path: str, *options: str) -> None:
        # In a session of its own, so that Ctrl-C reaches the script alone, and the script ends the program.
        self.child = subprocess.Popen(
            [path, *options],
            stdin=subprocess.PIPE,
            stdout=subprocess.PIPE,
            stderr=self.errors,
            bufsize=0,
            start_new_session=True,
        )
        self.input, self.output = pipe(self.child.stdin), pipe(self.child.stdout)
        self.replies = open(self.output.fileno(), "rb", closefd=False)
        self.lines = 0

    def __enter__(self) -> Self:
        return self

    def __exit__(self, *_: object) -> None:
        self.end()

    def kill(self) -> None:
        """Ends the program at once. A site in a file is then in FILE and FILE-wal together."""
        self.child.kill()
        self.child.wait()

    def end(self, seconds: float = END_SECONDS) -> None:
        """Has the program end by itself, as it does once there are no more lines, or kills it after some seconds."""
        self.input.close()
        until = time.monotonic() + seconds
        poll = select.poll()
        poll.register(self.output, select.POLLIN)
        # It can't end before what it still writes is read.
        while poll.poll(max(0.0, 1000 * (until - time.monotonic()))) and os.read(self.output.fileno(), 1 << 16):
            pass
        try:
            self.child.wait(max(0.1, until - time.monotonic()))
        except subprocess.TimeoutExpired:
            self.kill()

    def ask(self, line: bytes) -> Reply:
        """The reply to a line, which has no newline."""
        [reply] = self.ask_all([line])
        return reply

    def ask_all(self, lines: Sequence[bytes]) -> list[Reply]:
        """The replies to some lines, which are sent before any of these is read. So but for the last they have to be
        edits, and a few hundred at most: what the program replies before it has read all must fit into a pipe."""
        rest = memoryview(b"".join(line + b"\n" for line in lines))
        self.lines += len(lines)
        try:
            while rest:
                rest = rest[self.input.write(rest) :]
        except BrokenPipeError:
            raise Ended from None
        return [read_reply(self.replies) for _ in lines]

    def check(self, seconds: float) -> None:
        """Makes sure that what runs replies to a line as the program does, within some seconds.

        The line is an empty object, which the program refuses; nothing is changed by it."""
        self.lines += 1
        try:
            self.input.write(b"{}\n")
        except BrokenPipeError:
            raise Ended from None
        poll = select.poll()
        poll.register(self.replies, select.POLLIN)
        if not poll.poll(int(1000 * seconds)):
            raise NoReply(b"")
        read_reply(self.replies)


def end_by_signals() -> None:
    """Has SIGTERM end this script as Ctrl-C does, so that its programs end by themselves before it."""
    signal.signal(signal.SIGTERM, signal.default_int_handler)


def lines_of(commands: bytes) -> list[bytes]:
    """The lines of a command file's bytes, as the program counts them."""
    lines = commands.split(b"\n")
    return lines if lines[-1] else lines[:-1]


def absolute(path: str) -> str:
    return os.path.abspath(path)


class Words(argparse.Action):
    """Keeps the words that start the program: its path, and then its options, in whichever order they are given."""

    def __call__(self, _: object, found: argparse.Namespace, given: object, option: str | None = None) -> None:
        path, *options = found.program
        found.program = [given, *options] if self.nargs is None else [path, *self.option_strings]


def add_program_option(parser: argparse.ArgumentParser) -> None:
    """Adds the options that say which program runs, as the words that start it."""
    how: dict[str, Any] = {"dest": "program", "action": Words, "default": [str(shipped.program())]}
    what = "the program, `site`: the built one, else the shipped one"
    parser.add_argument("--program", metavar="PATH", type=absolute, help=what, **how)
    parser.add_argument("--snippets", nargs=0, help="the program's option: hand the plugin `snippets` in too", **how)


def check_program(program: list[str], instead: str = "") -> None:
    """Ends the script if there is no such program, and says what can be done instead."""
    path = program[0]
    if not os.access(path, os.X_OK) or os.path.isdir(path):
        sys.exit(f"{command_name()}: there is no program at {path}; ./build builds it{instead}")
