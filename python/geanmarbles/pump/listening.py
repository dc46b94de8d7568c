"""The sockets that a pump takes clients from: of an address and a port, of a path, or those that systemd hands over."""

import contextlib
import os
import socket
import stat
from collections.abc import Iterator
from pathlib import Path

# The first descriptor of those that are handed over.
FIRST = 3


def handed_over() -> list[socket.socket]:
    """The sockets that systemd has for this process, if any. Raises OSError if they are none."""
    given = {name: os.environ.pop(f"LISTEN_{name}", "") for name in ("PID", "FDS", "FDNAMES")}
    if given["PID"] != str(os.getpid()) or not given["FDS"].isdigit():
        return []
    return [socket.socket(fileno=FIRST + number) for number in range(int(given["FDS"]))]


def at_port(address: str, port: int) -> socket.socket:
    return socket.create_server((address, port), family=socket.AF_INET6 if ":" in address else socket.AF_INET)


@contextlib.contextmanager
def at_path(path: Path) -> Iterator[socket.socket]:
    """A socket at a path, which is gone after the block. One that was left there and that nobody listens to is
    replaced."""
    listening = socket.socket(socket.AF_UNIX)
    with contextlib.suppress(FileNotFoundError):
        if stat.S_ISSOCK(path.lstat().st_mode) and not is_listened_to(path):
            path.unlink()
    listening.bind(str(path))
    try:
        yield listening
    finally:
        path.unlink(missing_ok=True)


def is_listened_to(path: Path) -> bool:
    with contextlib.suppress(ConnectionRefusedError), socket.socket(socket.AF_UNIX) as tried:
        tried.connect(str(path))
        return True
    return False


def name_of(listening: socket.socket) -> str:
    """Where clients find a socket."""
    if listening.family == socket.AF_UNIX:
        return f"unix:{listening.getsockname()}"
    address, port, *_ = listening.getsockname()
    return f"http://[{address}]:{port}/" if ":" in address else f"http://{address}:{port}/"
