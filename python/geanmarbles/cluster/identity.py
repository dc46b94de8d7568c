"""Which program gives a site's lines their meaning.

A program's identity is the first line of a file that it makes: its plugins, and the version of what lines mean. The
history of a site belongs to one identity, which the first node notes in etcd.
"""

import sqlite3
import subprocess
import tempfile
from pathlib import Path

from geanmarbles.cluster.etcd import decoded
from geanmarbles.cluster.history import History, get, is_absent, put

SECONDS = 60


class NotTold(Exception):
    """Why a program's identity isn't known."""


def identity_of(program: list[str]) -> bytes:
    """The identity of a program, which some words start."""
    with tempfile.TemporaryDirectory() as folder:
        file = Path(folder, "site.db")
        words = [*program, "--database", str(file)]
        try:
            ran = subprocess.run(words, stdin=subprocess.DEVNULL, stdout=subprocess.DEVNULL, timeout=SECONDS)
        except (OSError, subprocess.TimeoutExpired) as fault:
            raise NotTold(f"{program[0]}: {fault}") from None
        if ran.returncode:
            raise NotTold(f"{program[0]} --database ended with status {ran.returncode}")
        try:
            database = sqlite3.connect(file)
            identity: str
            [identity] = database.execute("SELECT line FROM command WHERE number = 1").fetchone()
            database.close()
        except (sqlite3.Error, TypeError) as fault:
            raise NotTold(f"{program[0]} --database has made no site: {fault}") from None
    return identity.encode()


def noted(history: History) -> bytes | None:
    """The identity that the history has, or None."""
    found = history.read(history.keys.identity)
    return decoded(found["value"]) if found else None


def claimed(history: History, identity: bytes, seconds: float = 10.0) -> bytes:
    """The identity that the history has, which is this one if it had none."""
    key = history.keys.identity
    found = history.read(key, seconds)
    if found is None:
        _, _, all_found = history.transaction([is_absent(key)], [put(key, identity), get(key)], [get(key)], seconds)
        [found] = all_found[-1]
    return decoded(found["value"])
