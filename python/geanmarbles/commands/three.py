"""Starts three etcd and three nodes of one site on this machine, to look at: a page in a browser at each of the nodes.

    geanmarbles cluster three [--program PATH] [--snippets] [--port N] [--folder FOLDER] [FILE]

For example:

    geanmarbles cluster three --folder cluster

The nodes listen on 127.0.0.1, at port N and the next two, 8081 if it is left out; etcd takes the ports from N + 100 and
N + 200 on. A new site gets the edits of FILE, examples/bakery.jsonl of this repository if it is left out. Standard
output then says where the pages are, how to make an edit, and how to kill a process of each kind; a process that ends
is started again after five seconds, as the units in examples/cluster have it. Ctrl-C and SIGTERM end them all.

What etcd has is in FOLDER, with the token of those who may edit and what each process writes; another start with it
goes on with the site. If it is left out, a folder is made, and is gone at the end.

etcd is Debian's package etcd-server. The exit status is 0 after Ctrl-C or SIGTERM, 1 if something can't be started, and
2 if the arguments are bad.
"""

import argparse
import contextlib
import http.client
import json
import os
import secrets
import shutil
import subprocess
import sys
import tempfile
import time
from pathlib import Path
from typing import Any, NoReturn, Self

from geanmarbles.arguments import Parser
from geanmarbles.client.program import add_program_option, check_program, end_by_signals, lines_of
from geanmarbles.paths import EXAMPLES, command

ADDRESS = "127.0.0.1"
COUNT = 3
READY_SECONDS, AGAIN_SECONDS, END_SECONDS = 60, 5, 60
# An edit to try, as a line.
TRIAL = '{"cmd":"put","title":"News","content":"<p>Here at once.</p>","date":"2026-11-26 12:00:00"}'


def stop(why: object) -> NoReturn:
    sys.exit(f"cluster three: {why}")


def say(what: str) -> None:
    print(what, flush=True)


class Process:
    """A process that is started again whenever it ends. What it writes is in a file."""

    def __init__(self, name: str, words: list[str], folder: Path) -> None:
        self.name, self.words, self.log = name, words, folder / f"{name.replace(' ', '-')}.log"
        self.ended: float | None = None
        self.start()

    def start(self) -> None:
        with open(self.log, "ab") as log:
            # In a session of its own, so that Ctrl-C reaches this script alone.
            how: dict[str, Any] = {"stdin": subprocess.DEVNULL, "stdout": log, "stderr": log, "start_new_session": True}
            self.child = subprocess.Popen(self.words, **how)
        self.ended = None

    def look(self) -> None:
        """Starts it again some seconds after its end."""
        if self.child.poll() is None:
            return
        if self.ended is None:
            self.ended = time.monotonic()
            say(f"{self.name} has ended, and is started again in {AGAIN_SECONDS} s")
        elif time.monotonic() - self.ended > AGAIN_SECONDS:
            self.start()
            say(f"{self.name} runs again, as process {self.child.pid}")

    def end(self) -> None:
        self.child.terminate()
        try:
            self.child.wait(END_SECONDS)
        except subprocess.TimeoutExpired:
            self.child.kill()
            self.child.wait()


class Cluster:
    """Three etcd and three nodes, until the `with` block ends."""

    def __init__(self, program: list[str], port: int, folder: Path) -> None:
        self.program, self.port, self.folder = program, port, folder
        self.token = folder / "token"
        self.processes: list[Process] = []

    def __enter__(self) -> Self:
        if not self.token.exists():
            with open(os.open(self.token, os.O_WRONLY | os.O_CREAT, 0o600), "w", encoding="utf-8") as file:
                file.write(f"{secrets.token_hex(16)}\n")
        try:
            for number in range(COUNT):
                self.processes.append(Process(f"etcd {number + 1}", self.etcd_words(number), self.folder))
            for number in range(COUNT):
                self.processes.append(Process(f"node {number + 1}", self.node_words(number), self.folder))
            for number in range(COUNT):
                self.wait_for(number)
        except BaseException:
            self.__exit__()
            raise
        return self

    def __exit__(self, *_: object) -> None:
        for process in reversed(self.processes):
            process.end()

    def etcd_words(self, number: int) -> list[str]:
        clients, peers = ([self.port + gap + it for it in range(COUNT)] for gap in (100, 200))
        mine, peer = f"http://{ADDRESS}:{clients[number]}", f"http://{ADDRESS}:{peers[number]}"
        members = ",".join(f"etcd{it + 1}=http://{ADDRESS}:{peers[it]}" for it in range(COUNT))
        words = ["etcd", "--name", f"etcd{number + 1}", "--data-dir", str(self.folder / f"etcd{number + 1}")]
        words += ["--listen-client-urls", mine, "--advertise-client-urls", mine, "--listen-peer-urls", peer]
        words += ["--initial-advertise-peer-urls", peer, "--initial-cluster", members]
        words += ["--auto-compaction-mode", "periodic", "--auto-compaction-retention", "1h"]
        return [*words, "--logger", "zap", "--log-level", "warn"]

    def node_words(self, number: int) -> list[str]:
        urls = ",".join(f"http://{ADDRESS}:{self.port + 100 + it}" for it in range(COUNT))
        words = [*command("geanmarbles"), "node", "--etcd", urls, "--listen", f"{ADDRESS}:{self.port + number}"]
        return [*words, "--program", *self.program, "--token-file", str(self.token)]

    def ask(
        self, number: int, method: str, path: str, body: bytes | None = None, headers: dict[str, str] | None = None
    ) -> tuple[int, str]:
        connection = http.client.HTTPConnection(ADDRESS, self.port + number, timeout=READY_SECONDS)
        with contextlib.closing(connection):
            connection.request(method, path, body, headers or {})
            response = connection.getresponse()
            return response.status, response.read().decode()

    def wait_for(self, number: int) -> None:
        """Waits until a node is ready."""
        until, said = time.monotonic() + READY_SECONDS, "it doesn't listen"
        while time.monotonic() < until:
            for process in self.processes:
                if process.child.poll() is not None:
                    stop(f"{process.name} has ended: {process.log.read_text(errors='replace')[-600:]}")
            with contextlib.suppress(OSError, http.client.HTTPException):
                status, said = self.ask(number, "GET", "/health")
                if status == 200:
                    return
            time.sleep(0.2)
        stop(f"node {number + 1} isn't ready: {said}")

    def make(self, file: Path) -> None:
        """Makes the edits of a command file, if the site is new."""
        if json.loads(self.ask(0, "GET", "/health")[1])["edits"]:
            return
        lines = [it for it in lines_of(file.read_bytes()) if json.loads(it)["cmd"] not in ("get", "begin", "turns")]
        token = self.token.read_text(encoding="utf-8").strip()
        status, said = self.ask(0, "POST", "/command", b"\n".join(lines), {"Authorization": f"Bearer {token}"})
        if status != 200 or "refused" in said:
            stop(f"{file}: status {status}: {said}")

    def tell(self) -> None:
        pages = "   ".join(f"http://{ADDRESS}:{self.port + it}/" for it in range(COUNT))
        say(f"pages: {pages}\n\nan edit, which each of them shows at once:")
        say(f'    curl -H "Authorization: Bearer $(cat {self.token})" --data-binary \\')
        say(f"        '{TRIAL}' http://{ADDRESS}:{self.port}/command\n")
        say(f"how a node is: http://{ADDRESS}:{self.port}/health")
        pids = ", ".join(f"{it.name}: {it.child.pid}" for it in self.processes)
        say(f"kill one of each kind by kill -9, and ask for pages and make edits meanwhile: {pids}")
        say(f"what they write is in {self.folder}; Ctrl-C ends them\n")


def read_arguments() -> argparse.Namespace:
    parser = Parser(__doc__)
    add_program_option(parser)
    parser.add_argument("--port", metavar="N", type=int, default=8081, help="the first node's port, 1024 to 65000")
    parser.add_argument("--folder", metavar="FOLDER", type=Path, help="where the site is kept")
    parser.add_argument("file", metavar="FILE", nargs="?", type=Path, default=EXAMPLES / "bakery.jsonl")
    arguments = parser.parse_args()
    if not 1024 <= arguments.port <= 65000:
        parser.error("--port is a number from 1024 to 65000")
    return arguments


def run(arguments: argparse.Namespace, folder: Path) -> NoReturn:
    with Cluster(arguments.program, arguments.port, folder) as cluster:
        cluster.make(arguments.file)
        cluster.tell()
        while True:
            for process in cluster.processes:
                process.look()
            time.sleep(0.2)


def main() -> None:
    arguments = read_arguments()
    check_program(arguments.program)
    if not shutil.which("etcd"):
        stop("etcd isn't there; on Debian, apt-get install etcd-server installs it")
    end_by_signals()
    try:
        if arguments.folder is None:
            with tempfile.TemporaryDirectory(prefix="site-cluster-") as name:
                run(arguments, Path(name))
        else:
            arguments.folder.mkdir(mode=0o700, parents=True, exist_ok=True)
            run(arguments, arguments.folder.resolve())
    except KeyboardInterrupt:
        pass
    except (OSError, ValueError) as fault:
        stop(fault)
