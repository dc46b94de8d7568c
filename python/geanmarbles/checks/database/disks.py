"""Disks that fill up."""

import shutil
import subprocess
import sys
import tempfile
from pathlib import Path

from geanmarbles.checks.database.clients import (
    Cases,
    Client,
    Skipped,
    check_end,
    get,
    joined,
    over,
    put,
    replies,
    run,
    same_pages,
)
from geanmarbles.checks.database.files import check_equal, history
from geanmarbles.client.replies import Wrong
from geanmarbles.paths import command

FULL = b"site: the database failed: the disk is full\n"
# How large the small disk is, and what is taken of it to be given back later: the log may grow by 256 KB at a time.
DISK, FILLER = "1m", 400_000
SECONDS = 120
PATHS = ("/", "/?p=1", "/?p=7", "/?p=30")
# Runs this module in a mount namespace of its own, in which a folder is a small disk; a user namespace lets whoever
# isn't root do the same, if the system allows it.
MOUNTED = 'mount -t tmpfs -o size="$1" small "$2" && shift 2 && exec "$@"'
SPACES = (["unshare", "-m"], ["unshare", "-r", "-m"])


def may_mount() -> list[str] | None:
    """How a disk of one's own is made here, or None."""
    with tempfile.TemporaryDirectory() as folder:
        for words in SPACES if shutil.which("unshare") else ():
            tried = [*words, "sh", "-c", MOUNTED, "sh", DISK, folder, "true"]
            if subprocess.run(tried, capture_output=True).returncode == 0:
                return words
    return None


def on_a_small_disk(program: str, name: str) -> None:
    """One of the checks below, by this module as a program over a disk of its own."""
    space = may_mount()
    if space is None:
        raise Skipped("no disk of one's own can be mounted: that takes root, or user namespaces")
    with tempfile.TemporaryDirectory() as folder:
        inner = [*command("tests/database/disks"), folder, program, name]
        words = [*space, "sh", "-c", MOUNTED, "sh", DISK, folder, *inner]
        ran = subprocess.run(words, capture_output=True, timeout=SECONDS)
    if ran.returncode:
        raise Wrong((ran.stdout + ran.stderr).decode(errors="replace").strip()[-500:])


def filled_by_waiting(program: str, file: Path) -> list[bytes]:
    """Edits one after the other until the disk is full; returns those that were acknowledged."""
    acknowledged: list[bytes] = []
    with Client(program, *over(file)) as client:
        while True:
            line = put(title=f"post {len(acknowledged) + 1}", content="x" * 1_000)
            reply = client.ask(line)
            if reply is None:
                break
            acknowledged.append(line)
        check_end(client.end(), 1, FULL)
    return acknowledged


def filled_by_chunks(program: str, file: Path) -> list[bytes]:
    """Chunks of two pages, some edits and a page, until there is no room for the edits of one: its first pages are
    written, and nothing from its first edit on. A chunk is short enough for a pipe to hand it on whole."""
    lines = [put(title="first")]
    with Client(program, *over(file)) as client:
        client.ask(lines[0])
        while True:
            edits = [put(content="y" * 400, n=len(lines) + at) for at in range(6)]
            client.send(joined([get("/?p=1"), get("/x"), *edits, get("/?p=1")]))
            got = [client.next_reply() for _ in range(9)]
            if None in got:
                break
            lines += edits
        check_end(client.end(), 1, FULL)
    pages = replies(program, [lines[0], get("/?p=1"), get("/x")])[1:]
    if got[:3] != [*pages, None]:
        raise Wrong(f"of the last chunk it wrote {got}")
    return lines


FILLS = {"waiting": filled_by_waiting, "chunks": filled_by_chunks}


def judged_on_a_small_disk(folder: str, program: str, name: str) -> None:
    """Fills the disk: the next start finds exactly what was acknowledged, --compact has no room and leaves it, and with
    room the site goes on."""
    file, filler = Path(folder, "site.db"), Path(folder, "filler")
    filler.write_bytes(b"x" * FILLER)
    replies(program, [], *over(file))
    [identity] = history(file)
    acknowledged = FILLS[name](program, file)
    if len(acknowledged) < 20:
        raise Wrong(f"only {len(acknowledged)} edits had room")
    wanted = [identity, *acknowledged]
    check_equal(history(file), wanted)
    same_pages(program, file, wanted, PATHS)
    ran = run(program, b"", *over(file, "--compact"))
    check_end((ran.returncode, ran.stderr), 1, f"site: {file}: the disk is full\n".encode())
    check_equal(history(file), wanted)
    filler.unlink()
    line = put(title="with room")
    replies(program, [line], *over(file))
    check_equal(history(file), [*wanted, line])
    same_pages(program, file, [*wanted, line], PATHS)


def cases(program: str) -> Cases:
    """Each check by its name, with what judges it."""
    yield "a disk that fills up, one edit after the other", lambda: on_a_small_disk(program, "waiting")
    yield "a disk that fills up by chunks of edits", lambda: on_a_small_disk(program, "chunks")


def main() -> None:
    """What `on_a_small_disk` runs."""
    try:
        judged_on_a_small_disk(*sys.argv[1:])
    except Wrong as wrong:
        sys.exit(str(wrong))
