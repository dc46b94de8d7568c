"""The README's own example of a site that lasts, as somebody new would try it, `kill -9` included."""

import re
import shutil
import subprocess
import tempfile
import time
from pathlib import Path
from typing import Any

from geanmarbles.checks.database.clients import Cases
from geanmarbles.checks.programs import executable
from geanmarbles.client.program import pipe
from geanmarbles.client.replies import Wrong
from geanmarbles.paths import ROOT, TESTS

HERE = TESTS / "database"
SECONDS = 30
BLOCK = re.compile(r"^```\n(\$ [^`]*--database[^`]*kill -9[^`]*)^```$", re.M)


def shown_commands() -> list[tuple[str, str]]:
    """The commands of the README's example, each with what it shows."""
    block = BLOCK.search((ROOT / "README.md").read_text(encoding="utf-8"))
    if block is None:
        raise Wrong("README.md has no example with --database and kill -9")
    parts = re.split(r"^\$ ", block[1], flags=re.M)[1:]
    pairs = (part.partition("\n") for part in parts)
    return [(command, shows) for command, _, shows in pairs]


def wait_for(file: Path, wanted: str) -> None:
    """Waits until exactly this is in a file."""
    until = time.monotonic() + SECONDS
    while (came := file.read_text(encoding="utf-8")) != wanted:
        if time.monotonic() > until or not wanted.startswith(came):
            raise Wrong(f"it shows {came!r}, wanted {wanted!r}")
        time.sleep(0.01)


def tried(program: str) -> None:
    """Gives a shell the commands one by one, each once what the one before it shows is there."""
    with tempfile.TemporaryDirectory() as folder:
        for name in ("examples", "geanmarbles"):
            Path(folder, name).symlink_to(ROOT / name)
        executable(folder, "site", f'#!/bin/sh\nexec {program!r} "$@"\n')
        output, shown = Path(folder, "output"), ""
        with output.open("wb") as file:
            how: dict[str, Any] = {"stdin": subprocess.PIPE, "stdout": file, "stderr": subprocess.DEVNULL}
            shell = subprocess.Popen([shutil.which("bash") or "sh"], cwd=folder, **how)
            typed = pipe(shell.stdin)
        try:
            for command, shows in shown_commands():
                # Nobody types so fast that a killed program still has its file.
                waits = "; wait $! 2>/dev/null" if "kill -9" in command else ""
                typed.write(f"{command}{waits}\n".encode())
                typed.flush()
                shown += shows
                wait_for(output, shown)
            typed.close()
            shell.wait(SECONDS)
        finally:
            shell.kill()
            shell.wait()
        wait_for(output, shown)


def cases(program: str) -> Cases:
    """The one check, with what judges it."""
    yield "the README's example", lambda: tried(program)
