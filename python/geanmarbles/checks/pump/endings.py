"""What becomes of the pump's clients when its program ends, when it is told to end itself, and where it listens."""

from __future__ import annotations

import contextlib
import os
import signal
import socket
import subprocess
import sys
import tempfile
import threading
import time
from collections.abc import Callable, Iterator
from functools import partial
from pathlib import Path
from random import Random

from geanmarbles.checks.cluster.nodes import HAND_OVER
from geanmarbles.checks.cluster.processes import wait_for
from geanmarbles.checks.cluster.raw import Raw
from geanmarbles.checks.database.files import history
from geanmarbles.checks.judging import must
from geanmarbles.checks.over_http import BEGUN, PUT, RYE, SECONDS, edit, page, same
from geanmarbles.checks.programs import executable
from geanmarbles.checks.pump.serving import GET, LAST, Serve, closed_after, rest_of
from geanmarbles.paths import command

# How many authors edit at once where the program is killed, and how often it is.
AUTHORS, KILLS = 8, 12
# Becomes the program once, and ends at once after that.
ONCE = "#!/bin/sh\ntest -e '{file}' && exit 3\ntouch '{file}'\nexec '{program}' \"$@\"\n"
# Becomes the program, no file of which may have more than some 500 kB.
FULL = "#!/bin/sh\ntrap '' XFSZ\nulimit -f 1000\nexec '{program}' \"$@\"\n"
# Speaks no frames.
CHATTER = "#!/bin/sh\nprintf '{}'\nsleep 5\n"
NOISE = {"words": "hello, what is this", "a client of its own": r"\0\0\0\001\0\0\0\0"}


class Author(threading.Thread):
    """Makes edits one after the other, and notes which it is told of."""

    def __init__(self, serve: Serve, name: str) -> None:
        super().__init__(daemon=True)
        self.serve, self.title, self.is_over = serve, name, threading.Event()
        self.sent = 0
        self.told: list[bytes] = []

    def run(self) -> None:
        while not self.is_over.is_set():
            try:
                with self.serve.raw() as raw:
                    self.edit_over(raw)
            except OSError:
                time.sleep(0.01)

    def edit_over(self, raw: Raw) -> None:
        while not self.is_over.is_set():
            self.sent += 1
            line = PUT % f"{self.title} {self.sent}".encode()
            raw.send(edit(line))
            response = raw.response("POST")
            if response is None:
                return
            if response.status == 200 and response.body.startswith(b"ok "):
                self.told.append(line)


def is_there(serve: Serve) -> bool:
    return serve.asked(LAST).startswith(b"HTTP/1.1 200 ")


def killed(program: str) -> None:
    """the program is killed again and again while authors edit: no edit that was told of is lost, none comes twice"""
    random = Random(1)
    with Serve(program) as serve:
        authors = [Author(serve, f"author {number}") for number in range(AUTHORS)]
        for author in authors:
            author.start()
        for _ in range(KILLS):
            wait_for(lambda: is_there(serve), SECONDS, "the next program serves")
            time.sleep(random.uniform(0.0, 0.4))
            os.kill(serve.pid(), signal.SIGKILL)
        time.sleep(0.5)
        for author in authors:
            author.is_over.set()
        for author in authors:
            author.join(SECONDS)
        wait_for(lambda: is_there(serve), SECONDS, "the next program serves")
        serve.process.send(signal.SIGTERM)
        same(serve.process.child.wait(SECONDS), 0, "the status")
        found = history(serve.database)
        told = [line for author in authors for line in author.told]
        must(len(told) > 10 * KILLS, f"only {len(told)} edits were told of")
        must(len(found) == len(set(found)), "an edit is there twice")
        lost = set(told) - set(found)
        must(not lost, f"{len(lost)} of {len(told)} edits that were told of are lost")
        said = serve.process.said()
        must("serve: the program has ended with signal 9; the next one is started" in said, f"it said {said!r}")


def full(program: str) -> None:
    """a file that can't grow any more: every edit that was told of is in it, and pages are served all the same"""
    with tempfile.TemporaryDirectory() as folder:
        with Serve(str(executable(folder, "full", FULL.format(program=program)))) as serve:
            authors = [Author(serve, f"author {number}") for number in range(AUTHORS)]
            for author in authors:
                author.start()
            wait_for(lambda: serve.process.said().count("serve: ") >= 3, SECONDS, "programs end")
            for author in authors:
                author.is_over.set()
            for author in authors:
                author.join(SECONDS)
            wait_for(lambda: is_there(serve), SECONDS, "a page comes")
            serve.process.send(signal.SIGTERM)
            same(serve.process.child.wait(SECONDS), 0, "the status")
            told = [line for author in authors for line in author.told]
            must(len(told) > AUTHORS, f"only {len(told)} edits were told of")
            lost = set(told) - set(history(serve.database))
            must(not lost, f"{len(lost)} of {len(told)} edits that were told of are lost")
            said = serve.process.said()
            must("site: the database failed: the disk " in said, f"it said {said!r}")


def closed_with_it(program: str) -> None:
    """clients of a program that is killed are closed, and one that had sent it nothing is served by the next one"""
    with Serve(program) as serve, serve.raw() as idle, serve.raw() as asking, serve.raw() as silent:
        idle.send(GET)
        must(idle.response(), "a page")
        asking.send(GET[:9])
        time.sleep(0.2)
        os.kill(serve.pid(), signal.SIGKILL)
        for raw in (idle, asking):
            closed_after(raw, 2)
            same(raw.came, b"", "what else came")
        silent.send(LAST)
        must(rest_of(silent).startswith(b"HTTP/1.1 200 "), f"what the next program says: {silent.came!r}")


def stopped(program: str) -> None:
    """a program that is stopped holds clients up until it goes on, and none is closed for that"""
    with Serve(program, "--seconds", "1") as serve, serve.raw() as raw:
        pid = serve.pid()
        os.kill(pid, signal.SIGSTOP)
        raw.send(GET)
        time.sleep(3)
        os.kill(pid, signal.SIGCONT)
        response = raw.response()
        must(response and response.status == 200, "a page after it")


def gives_up(program: str) -> None:
    """programs that end at once are given up by name; the first one at once"""
    with tempfile.TemporaryDirectory() as folder:
        once = executable(folder, "once", ONCE.format(file=Path(folder, "file"), program=program))
        with Serve(str(once)) as serve:
            os.kill(serve.pid(), signal.SIGKILL)
            same(serve.process.child.wait(SECONDS), 1, "the status")
            said = serve.process.said()
            must(said.endswith("serve: the program has ended with status 3, 5 times in a row\n"), f"it said {said!r}")
        program = str(executable(folder, "false", "#!/bin/sh\nexit 4\n"))
        words = [*command("geanmarbles"), "serve", "--port", "0", "--database", str(Path(folder, "new.db"))]
        ran = subprocess.run([*words, "--program", program], capture_output=True, text=True, timeout=SECONDS)
        same((ran.returncode, ran.stdout), (1, ""), "its end")
        same(ran.stderr, "serve: the program has ended with status 4\n", "what it said")


def noticed(_program: str) -> None:
    """what speaks no frames is no program, and is ended"""
    for name, said in NOISE.items():
        with tempfile.TemporaryDirectory() as folder:
            noise = str(executable(folder, "noise", CHATTER.format(said)))
            words = [*command("geanmarbles"), "serve", "--port", "0", "--database", str(Path(folder, "new.db"))]
            ran = subprocess.run([*words, "--program", noise], capture_output=True, text=True, timeout=SECONDS)
            must(ran.returncode == 1 and ran.stderr.startswith("serve: the program has ended with "), f"{name}: {ran}")


def no_commit(program: str) -> None:
    """a commit that fails is told to no client, and no new site takes the place of a file that is gone"""
    with Serve(program) as serve:
        serve.database.unlink()
        same(serve.asked(edit(PUT % b"lost")), b"", "what was said of an edit")
        wait_for(lambda: "removed or replaced" in serve.process.said(), SECONDS, "the program says why it ends")
        same(serve.process.child.wait(SECONDS), 1, "the status")
        must("there is no such file" in serve.process.said(), f"it said {serve.process.said()!r}")
        must(not serve.database.exists(), "there is a new site")


def ends_well(program: str) -> None:
    """after SIGTERM nobody is taken, idle clients are closed, and one that is being served has its response"""
    with Serve(program) as serve, serve.raw() as idle, serve.raw() as asking:
        idle.send(GET)
        must(idle.response(), "a page")
        stream = edit(PUT % b"last")
        asking.send(stream[:-5])
        time.sleep(0.2)
        begin = time.monotonic()
        serve.process.send(signal.SIGTERM)
        closed_after(idle, 1)
        try:
            with serve.raw():
                must(False, "a client is taken")
        except ConnectionRefusedError:
            pass
        asking.send(stream[-5:])
        response = asking.response("POST")
        must(response and response.body.startswith(b"ok "), f"the last edit: {response}")
        same(serve.process.child.wait(SECONDS), 0, "the status")
        spent = time.monotonic() - begin
        must(spent < 3, f"it took {spent:.1f} s")
        same(history(serve.database)[1:], [PUT % b"Rye", PUT % b"last"], "the history")
        same(serve.process.said(), "", "what it said")


def ends_without_them(program: str) -> None:
    """after SIGTERM a client that sends no more of its request holds the end up for some seconds, and no longer"""
    with Serve(program) as serve, serve.raw() as asking:
        asking.send(GET[:9])
        time.sleep(0.2)
        begin = time.monotonic()
        serve.process.send(signal.SIGTERM)
        same(serve.process.child.wait(SECONDS), 0, "the status")
        spent = time.monotonic() - begin
        must(spent < 14, f"it took {spent:.1f} s")


def of_a_port(program: str) -> None:
    """a port that is taken is told, and nothing is served or fed"""
    with Serve(program) as serve, tempfile.TemporaryDirectory() as folder:
        file = Path(folder, "other.db")
        words = [*command("geanmarbles"), "serve", "--program", program, "--port", str(serve.address[1])]
        ran = subprocess.run([*words, "--database", str(file)], capture_output=True, text=True, timeout=SECONDS)
        said = f"serve: port {serve.address[1]} is taken\n"
        same((ran.returncode, ran.stdout, ran.stderr, file.exists()), (1, "", said, False), "another one at the port")


def without_files(program: str) -> None:
    """once no more files may be open it is told in lines, and who is there is served; later others are too"""
    serve = Serve(program)
    serve.words = ["sh", "-c", 'ulimit -n 24; exec "$@"', "sh", *serve.words]
    with serve, serve.raw() as kept:
        with contextlib.ExitStack() as held:
            for _ in range(30):
                held.enter_context(serve.raw())
            wait_for(lambda: "Too many open files" in serve.process.said(), SECONDS, "it is told")
            kept.send(GET)
            response = kept.response()
            must(response and response.status == 200, f"a page: {response}")
        serve.is_served()
        said = serve.process.said()
        must("Traceback" not in said and said.count("\n") < 20, f"it said {said!r}")


def of_a_path(program: str) -> None:
    """a socket at a path: one that was left there is replaced, another's isn't, and it is gone at the end"""
    with tempfile.TemporaryDirectory() as folder:
        path = Path(folder, "site.sock")
        with socket.socket(socket.AF_UNIX) as left:
            left.bind(str(path))
        with Serve(program, "--unix", str(path), begun=False) as serve:
            same(serve.place, f"unix:{path}", "where it says it is")
            with socket.socket(socket.AF_UNIX) as ours:
                ours.connect(str(path))
                ours.sendall(BEGUN + LAST)
                came = b""
                while more := ours.recv(1 << 16):
                    came += more
            must(came.endswith(RYE), f"what came: {came!r}")
            other = subprocess.run(serve.words, capture_output=True, text=True, timeout=SECONDS, check=False)
            same((other.returncode, other.stderr), (1, f"serve: {path} is taken\n"), "another one at that path")
            serve.process.send(signal.SIGTERM)
            same(serve.process.child.wait(SECONDS), 0, "the status")
            must(not path.exists(), "the socket is left")


def handed_over(program: str) -> None:
    """a socket that systemd hands over outlives it: a client that comes in between is served by the next one"""
    with socket.create_server(("127.0.0.1", 0)) as listening, Serve(program) as serve:
        serve.process.send(signal.SIGTERM)
        same(serve.process.child.wait(SECONDS), 0, "the status")
        words = [sys.executable, "-c", HAND_OVER, str(listening.fileno()), *serve.words]
        address = listening.getsockname()
        for _ in range(2):
            with Raw(address) as raw:
                raw.send(LAST)
                process = serve.processes.start("handed", words, handed=listening.fileno())
                same(process.first_line(SECONDS), f"http://127.0.0.1:{address[1]}/\n", "where it says it is")
                same(rest_of(raw), closing(page(RYE, 0)), "the page of a client that came before")
            process.send(signal.SIGTERM)
            same(process.child.wait(SECONDS), 0, "the status")


def closing(response: bytes) -> bytes:
    """A response that says that it is the last one."""
    return response.replace(b"\r\n\r\n", b"\r\nconnection: close\r\n\r\n", 1)


def of_a_command_file(program: str) -> None:
    """a command file makes the site, in memory as it were or in a file; one that has a line that is refused does not"""
    with tempfile.TemporaryDirectory() as folder:
        commands, file = Path(folder, "site.jsonl"), Path(folder, "site.db")
        commands.write_bytes(PUT % b"Rye" + b"\n")
        words = [*command("geanmarbles"), "serve", "--program", program, "--port", "0", str(commands)]
        for more in ((), ("--database", str(file), "--new")):
            same(served_by([*words, *more]), RYE, f"the page with {more}")
        same(history(file)[1:], [PUT % b"Rye"], "the history")
        commands.write_bytes(PUT % b"Rye" + b"\n{}\n")
        ran = subprocess.run(words, capture_output=True, text=True, timeout=SECONDS, check=False)
        said = f"serve: {commands}, line 2: refused 1 BadCommand\n"
        same((ran.returncode, ran.stdout, ran.stderr), (1, "", said), "a line that is refused")


def served_by(words: list[str]) -> bytes:
    """The front page of a site that is served for a moment, and that ends well."""
    with subprocess.Popen(words, stdout=subprocess.PIPE, bufsize=0) as running:
        assert running.stdout
        port = int(running.stdout.readline().decode().rstrip("/\n").rpartition(":")[2])
        with Raw(("127.0.0.1", port)) as raw:
            raw.send(LAST)
            response = raw.response()
        running.send_signal(signal.SIGINT)
        same(running.wait(SECONDS), 0, "the status after Ctrl-C")
    return response.body if response else b""


CHECKS = (
    *(killed, full, no_commit, closed_with_it, stopped, gives_up, noticed, ends_well, ends_without_them),
    *(without_files, of_a_port, of_a_path, handed_over, of_a_command_file),
)


def cases(program: str) -> Iterator[tuple[str, Callable[[], None]]]:
    for check in CHECKS:
        yield f"pump: {check.__doc__}", partial(check, program)
