"""Runs of a command that is given small inputs hundreds of times, each in a process of its own, forked from one that
has the command's modules already. Of such a run Python's start is what takes long."""

from __future__ import annotations

import json
import os
import signal
import subprocess
import sys
import tempfile
import threading
from collections.abc import Sequence
from importlib import import_module
from pathlib import Path

from geanmarbles.client.program import pipe
from geanmarbles.paths import command


class Warm:
    """A command of the package, by its module. Each thread has a process that is forked."""

    def __init__(self, module: str) -> None:
        self.module, self.own = module, threading.local()

    def run(self, words: Sequence[str], given: bytes, seconds: int) -> subprocess.CompletedProcess[bytes]:
        """A run with the script's name, its arguments and its input, as `subprocess.run` does it."""
        if not hasattr(self.own, "child"):
            start = [*command("tests/refusals/warm"), self.module]
            self.own.child = subprocess.Popen(start, stdin=subprocess.PIPE, stdout=subprocess.PIPE)
        with tempfile.TemporaryDirectory() as folder:
            streams = [Path(folder, name) for name in ("in", "out", "err")]
            streams[0].write_bytes(given)
            asked = json.dumps([list(words), list(map(str, streams)), seconds])
            pipe(self.own.child.stdin).write(asked.encode() + b"\n")
            pipe(self.own.child.stdin).flush()
            status = int(pipe(self.own.child.stdout).readline())
            return subprocess.CompletedProcess(list(words), status, streams[1].read_bytes(), streams[2].read_bytes())


def become(words: list[str], streams: Sequence[str], seconds: int) -> None:
    """Has this process be a run of the script: its standard streams are files, and it ends after some seconds."""
    for number, path in enumerate(streams):
        opened = os.open(path, os.O_WRONLY | os.O_CREAT if number else os.O_RDONLY, 0o600)
        os.dup2(opened, number)
        os.close(opened)
    sys.stdin, sys.stdout, sys.stderr = (
        open(number, "w" if number else "r", encoding="utf-8", closefd=False) for number in range(len(streams))
    )
    signal.alarm(seconds)
    sys.argv = words[1:]


def main() -> int:
    """Forks a run for each line, and writes how it ended."""
    _, name = sys.argv
    module = import_module(name)
    for line in sys.stdin.buffer:
        pid = os.fork()
        if not pid:
            become(*json.loads(line))
            return int(module.main() or 0)
        print(os.waitstatus_to_exitcode(os.waitpid(pid, 0)[1]), flush=True)
    return 0
