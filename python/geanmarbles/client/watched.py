"""The program with `--trace`, for scripts that read its log beside its replies.
"""

import json
import queue
import subprocess
import threading
from collections.abc import Callable

from geanmarbles.client.log import Page, Told, told_by
from geanmarbles.client.program import Program, pipe
from geanmarbles.client.replies import Reply

# How long to wait for a line of the log. It is written before the reply, so it is there, unless memory ran out for it.
SECONDS = 2
# A path that finds nothing and that no browser asks for, and how the lines of its page begin.
MARK = "/the log is read up to here"
MARKED = f'{{"page":"{MARK}",'.encode()


class Watched(Program):
    """A program whose log is read as it comes."""

    errors = subprocess.PIPE

    def __init__(self, path: str, *options: str) -> None:
        super().__init__(path, "--trace", *options)
        self.log: queue.SimpleQueue[bytes] = queue.SimpleQueue()
        threading.Thread(target=self.read_log, daemon=True).start()

    def read_log(self) -> None:
        for line in open(pipe(self.child.stderr).fileno(), "rb", closefd=False):
            self.log.put(line)

    def told(self, is_wanted: Callable[[Told], bool]) -> Told | None:
        """The next line of the log that is wanted, or None if there is none."""
        try:
            while True:
                told = told_by(self.log.get(timeout=SECONDS))
                if told is not None and is_wanted(told):
                    return told
        except queue.Empty:
            return None

    def command(self, **keys: object) -> Reply:
        return self.ask(json.dumps(keys).encode())

    def pass_over(self) -> None:
        """Passes over what the log has told so far, without a look at it: that may be very long."""
        self.command(cmd="get", path=MARK)
        try:
            while not is_end_of_mark(self.log.get(timeout=SECONDS)):
                pass
        except queue.Empty:
            pass

    def get(self, path: str) -> tuple[Reply, Page]:
        """The reply to a request for a path, and the page as the log told of it if it wasn't refused.

        Nothing may have been told since the last call of `pass_over` or of this."""
        reply = self.command(cmd="get", path=path)
        page = Page(path, None)
        if not reply.is_page():
            self.pass_over()
        while reply.is_page() and page.end is None:
            told = self.told(lambda told: "open" not in told)
            if told is None:
                break
            if "invocations" in told:
                page.end = told
            else:
                page.lines.append(told)
        return reply, page


def is_end_of_mark(line: bytes) -> bool:
    """Whether a line of the log is the end of the mark's page: callbacks may have run for it before."""
    return line.startswith(MARKED) and "invocations" in (told_by(line) or {})
