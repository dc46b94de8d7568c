"""Copies a site in a file, also while a program serves it.

    geanmarbles backup [--program PATH] [--snippets] FILE OUT

For example:

    geanmarbles backup site.db backups/monday.db

FILE and FILE-wal are copied, byte by byte, into OUT and OUT-wal, which may not be there yet. Both together are the
backup, and only their owner can read them. Nothing is locked, and what serves the site isn't disturbed. If its program
copies FILE-wal into FILE meanwhile, or begins FILE-wal anew, both are copied again, a few times. The program is then
started over OUT, as by `site --database OUT --check`, and OUT is a backup only if that isn't refused: it has every edit
that was replied to before this began, and perhaps some that were made meanwhile. Standard output has how many edits
there are, and the digest of OUT's history.

The exit status is 0, 1 if there is no backup, and then neither OUT nor OUT-wal, and 2 if the arguments are bad.
"""

import os
import shutil
import subprocess
import sys
from pathlib import Path
from typing import Any

from geanmarbles.arguments import Parser
from geanmarbles.client.program import add_program_option, check_program, end_by_signals
from geanmarbles.output import quiet_output
from geanmarbles.supervisor.kept import log_of, remove

# How often the files are copied at most.
TRIES = 10


class NoBackup(Exception):
    """Why there is no backup."""


def moment(file: Path) -> tuple[object, ...]:
    """What is another once the log is copied into FILE, or begins anew, by which its header gets other salts."""
    found = file.stat()
    with open(file, "rb") as opened, open(log_of(file), "rb") as log:
        return found.st_ino, found.st_size, found.st_mtime_ns, opened.read(100), log.read(32)


def copy(path: Path, made: Path) -> None:
    """Copies a file until its end is reached, into one that isn't there yet."""
    with open(path, "rb") as file, open(os.open(made, os.O_WRONLY | os.O_CREAT | os.O_EXCL, 0o600), "wb") as copied:
        shutil.copyfileobj(file, copied)


def backed_up(program: list[str], file: Path, out: Path) -> str:
    """Copies a site, and returns what the copy has."""
    how: dict[str, Any] = {"stdin": subprocess.DEVNULL, "capture_output": True, "text": True, "errors": "replace"}
    for _ in range(TRIES):
        begun = moment(file)
        # The log comes last: as long as it isn't begun anew, it has every page that may be written into FILE meanwhile.
        copy(file, out)
        copy(log_of(file), log_of(out))
        if moment(file) == begun:
            # (a start also syncs both files and their folder)
            ran = subprocess.run([*program, "--database", str(out), "--check"], **how)
            if not ran.returncode:
                return str(ran.stdout)
            # (a time may have been too coarse to show that FILE was written)
            if moment(file) == begun:
                raise NoBackup(ran.stderr.strip() or f"{program[0]} ended with status {ran.returncode} over {out}")
        remove(out)
    raise NoBackup(f"{file} was another after each of {TRIES} copies: its site is edited too fast")


@quiet_output()
def main() -> int:
    parser = Parser(__doc__)
    add_program_option(parser)
    parser.add_argument("file", metavar="FILE", type=Path, help="the site in a file")
    parser.add_argument("out", metavar="OUT", type=Path, help="the file to be made")
    arguments = parser.parse_args()
    check_program(arguments.program)
    end_by_signals()
    try:
        for path in (arguments.out, log_of(arguments.out)):
            if os.path.lexists(path):
                raise NoBackup(f"{path} is there already")
        try:
            found = backed_up(arguments.program, arguments.file, arguments.out)
        except BaseException:
            remove(arguments.out)
            raise
    except (NoBackup, OSError) as fault:
        print(f"backup: {fault}", file=sys.stderr)
        return 1
    except KeyboardInterrupt:
        print("backup: stopped", file=sys.stderr)
        return 1
    print(found, end="")
    return 0
