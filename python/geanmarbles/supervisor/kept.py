"""A site in a file that nothing serves: its history read, and single edits made.
"""

import contextlib
import json
import shutil
import sqlite3
import subprocess
import tempfile
from collections.abc import Generator, Iterator
from pathlib import Path
from typing import Any

from geanmarbles.client.program import Program
from geanmarbles.client.replies import Ended, NoReply


class NotKept(Exception):
    """Why a site in a file can't be read or edited."""


def check_site(program: list[str], database: Path) -> None:
    """Makes sure that a file is a site of the program, and that nothing serves it. The site is then whole in FILE: a
    start without any line copies what an earlier program has left in FILE-wal."""
    if not database.is_file():
        raise NotKept(f"there is no file {database}")
    words = [*program, "--database", str(database), "--must-exist"]
    how: dict[str, Any] = {"stdin": subprocess.DEVNULL, "stdout": subprocess.DEVNULL, "stderr": subprocess.PIPE}
    ran = subprocess.run(words, check=False, **how)
    if ran.returncode:
        raise NotKept(ran.stderr.decode(errors="replace").strip() or f"the program ended with status {ran.returncode}")


def history(program: list[str], database: Path) -> list[bytes]:
    """The edits of a site, the oldest first: every line that was done, byte for byte."""
    check_site(program, database)
    with tempfile.TemporaryDirectory() as folder:
        copy = Path(folder, "site.db")
        shutil.copyfile(database, copy)
        if log_of(database).is_file():
            shutil.copyfile(log_of(database), log_of(copy))
        try:
            with contextlib.closing(sqlite3.connect(copy)) as opened:
                rows = opened.execute("SELECT line FROM command ORDER BY number").fetchall()
        except sqlite3.Error as error:
            raise NotKept(f"{database}: {error}") from error
    # The first line says which program the file is of.
    return [line.encode() for (line,) in rows[1:]]


def log_of(database: Path) -> Path:
    return Path(f"{database}-wal")


def remove(database: Path) -> None:
    """Removes a site in a file."""
    for path in (database, log_of(database)):
        path.unlink(missing_ok=True)


def carried_out(program: list[str], database: Path, lines: list[bytes]) -> Generator[str, None, None]:
    """The replies of the program over a file to some edits, which it carries out one by one. After the last one the
    program has ended, and the site is whole in FILE."""
    try:
        with Program(*program, "--database", str(database)) as site:
            for line in lines:
                yield site.ask(line).text()
    except (Ended, NoReply) as error:
        raise NotKept(f"the program ended before it had replied: is {database} served, or no site?") from error


def touched(line: bytes) -> Iterator[tuple[int, dict[str, Any]]]:
    """The posts that an edit is about, each with what the edit says of it; a `put` doesn't say which ID it gets."""
    command = json.loads(line)
    if command["cmd"] in ("edit", "delete"):
        yield command["id"], command
    elif command["cmd"] == "import":
        yield from ((it["id"], {"cmd": "import", **it}) for it in command["site"].get("posts", []))
    elif command["cmd"] == "put":
        yield 0, command
