"""What systemd gives a node and is told by it: a socket that listens, and how the node is.

A socket that systemd holds outlives the node: what comes while the node is started anew waits there. What is said goes
as datagrams to the socket that the environment names; without one, nothing is said to anybody.
"""

import contextlib
import os
import socket
import time

# The first descriptor of those that are handed over.
FIRST = 3


def taken(name: str) -> str | None:
    """What the environment has under a name, which no program of the node is to see."""
    return os.environ.pop(name, None)


def inherited() -> socket.socket | None:
    """The socket that was handed over, or None. Raises ValueError if it isn't one that a node can have."""
    pid, count, _ = taken("LISTEN_PID"), taken("LISTEN_FDS"), taken("LISTEN_FDNAMES")
    if pid != str(os.getpid()) or not count:
        return None
    if count != "1":
        raise ValueError(f"{count} sockets were handed over, and a node listens on one")
    try:
        found = socket.socket(fileno=FIRST)
        listens = found.getsockopt(socket.SOL_SOCKET, socket.SO_ACCEPTCONN)
    except OSError as fault:
        raise ValueError(f"what was handed over is no socket: {fault.strerror}") from None
    if not listens or found.family not in (socket.AF_INET, socket.AF_INET6):
        raise ValueError("the socket that was handed over doesn't listen on an address")
    os.set_inheritable(FIRST, False)
    return found


class Service:
    """The manager that has started this process, if it wants to be told how it is."""

    def __init__(self) -> None:
        path, micro, pid = taken("NOTIFY_SOCKET"), taken("WATCHDOG_USEC"), taken("WATCHDOG_PID")
        self.path = f"\0{path[1:]}" if path and path.startswith("@") else path
        # How often it wants a sign of life, if at all; it is sent twice as often.
        is_mine = pid in (None, str(os.getpid())) and micro is not None and micro.isdigit()
        self.every = int(micro or 0) / 2e6 if is_mine else 0.0
        self.beat, self.is_ready, self.status = float("-inf"), False, ""

    def say(self, *words: str) -> None:
        if self.path:
            with contextlib.suppress(OSError), socket.socket(socket.AF_UNIX, socket.SOCK_DGRAM) as told:
                # A manager that doesn't listen isn't waited for.
                told.setblocking(False)
                told.sendto("\n".join(words).encode(), self.path)

    def tell(self, why: str, is_alive: bool) -> None:
        """Tells of a node that isn't ready for a reason, or that is ready if there is none. The first time that it is,
        it counts as started."""
        status = why or "ready"
        if not why and not self.is_ready:
            self.is_ready, self.status = True, status
            self.say("READY=1", f"STATUS={status}")
        elif status != self.status:
            self.status = status
            self.say(f"STATUS={status}")
        now = time.monotonic()
        if self.every and is_alive and now - self.beat >= self.every:
            self.beat = now
            self.say("WATCHDOG=1")

    def tell_end(self) -> None:
        self.say("STOPPING=1", "STATUS=stopping")
