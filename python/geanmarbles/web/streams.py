"""One connection of a client: what comes is read, and what goes is sent, with limits on how long that takes.

A head has to be there within some seconds. A body, and a response, may take as long as they need while they go on: in
each SECONDS at least PROGRESS_BYTES of them, or all that is left. So a slow client has the whole of a large page, and
one that stalls, or sends a byte now and then, is given up.
"""

import contextlib
import select
import socket
import time

from geanmarbles.web.heads import END, HEAD_BYTES, BadHead

# How long a client may take for a head, and for each PROGRESS_BYTES of a body and of a response.
SECONDS, PROGRESS_BYTES = 10, 16_384
# How many bytes are read or sent at once.
AT_ONCE = 1 << 16
# How long, and for how many bytes, a client that still sends is read from once it has been refused.
LAST_SECONDS, LAST_BYTES = 30, 1 << 26


class Progress:
    """The limit on how slowly bytes may come or go, for one body or one response."""

    def __init__(self, connection: socket.socket) -> None:
        self.connection, self.count, self.until = connection, 0, time.monotonic() + SECONDS

    def limit(self) -> None:
        """Has the next wait for the connection end in time. Raises TimeoutError if it is over."""
        set_limit(self.connection, self.until)

    def note(self, count: int) -> None:
        """Notes bytes that have come or gone."""
        self.count += count
        if self.count >= PROGRESS_BYTES:
            self.count, self.until = 0, time.monotonic() + SECONDS


def set_limit(connection: socket.socket, until: float) -> None:
    seconds = until - time.monotonic()
    if seconds <= 0:
        raise TimeoutError("the client has taken too long")
    connection.settimeout(seconds)


class Stream:
    """A connection. A wait for it that takes too long raises TimeoutError, which is an OSError."""

    def __init__(self, connection: socket.socket) -> None:
        self.connection = connection
        # What has come and wasn't read yet.
        self.held = b""

    def received(self) -> bytes:
        """What comes next; nothing at the end of what the client sends."""
        return self.connection.recv(AT_ONCE)

    def has_begun(self) -> bool:
        """Whether the next request begins to come within some seconds. An empty line before it is passed over."""
        until, is_passed = time.monotonic() + SECONDS, False
        while True:
            if not is_passed and self.held.startswith(b"\r\n"):
                self.held, is_passed = self.held[2:], True
            if self.held and (is_passed or self.held != b"\r"):
                return True
            set_limit(self.connection, until)
            came = self.received()
            if not came:
                return False
            self.held += came

    def head(self) -> bytes:
        """The bytes of a head that has begun to come, with the empty line at its end, or nothing if the client ends
        before that. Raises BadHead if it is too large."""
        until, looked_at = time.monotonic() + SECONDS, 0
        while True:
            end = END.search(self.held, max(0, looked_at - 2), HEAD_BYTES)
            if end:
                head, self.held = self.held[: end.end()], self.held[end.end() :]
                return head
            if len(self.held) >= HEAD_BYTES:
                is_line = b"\n" not in self.held[:HEAD_BYTES]
                raise BadHead(414 if is_line else 431, f"a head has at most {HEAD_BYTES} bytes")
            looked_at = len(self.held)
            set_limit(self.connection, until)
            came = self.received()
            if not came:
                return b""
            self.held += came

    def body(self, size: int) -> bytes:
        """The next bytes, or fewer at the end of what the client sends."""
        pieces, self.held = [self.held[:size]], self.held[size:]
        left, progress = size - len(pieces[0]), Progress(self.connection)
        while left:
            progress.limit()
            came = self.connection.recv(min(left, AT_ONCE))
            if not came:
                break
            pieces.append(came)
            left -= len(came)
            progress.note(len(came))
        return b"".join(pieces)

    def send(self, text: bytes) -> None:
        rest, progress = memoryview(text), Progress(self.connection)
        while rest:
            progress.limit()
            sent = self.connection.send(rest[:AT_ONCE])
            rest = rest[sent:]
            progress.note(sent)

    def has_more(self) -> bool:
        """Whether something has come that wasn't read yet."""
        poll = select.poll()
        poll.register(self.connection, select.POLLIN)
        return bool(self.held) or bool(poll.poll(0))

    def pass_over(self) -> None:
        """Ends what is sent, and reads on for some time: a connection that is closed while its client still sends is
        reset, and the client then loses the response that is on its way."""
        with contextlib.suppress(OSError):
            self.connection.shutdown(socket.SHUT_WR)
            last, passed, progress = time.monotonic() + LAST_SECONDS, 0, Progress(self.connection)
            while passed < LAST_BYTES:
                set_limit(self.connection, min(last, progress.until))
                came = self.received()
                if not came:
                    return
                passed += len(came)
                progress.note(len(came))
