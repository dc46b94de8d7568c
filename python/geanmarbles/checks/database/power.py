"""What a loss of power leaves of a site's files, made from a record of what the program did.

A kill doesn't show what the program syncs, since the kernel keeps every write. So `strace` records each write, cut and
sync of FILE and FILE-wal while a site is served, with its bytes and its place, and each reply that comes out. From
that, for a moment of the record, files are made as a disk may have them that has lost its power then:

- what was written before a file's last sync is there;
- of the calls after it each is there or not, in whole or in part. A part of a write ends or begins at a multiple of 512
  bytes, and the 512 bytes there may be neither old nor new;
- the file may be as long as at its last sync, or as at the moment;
- a file that was made since the folder's last sync may be missing.

The program is started over these files. All edits whose replies had come out before the moment must be there, in order,
and nothing that wasn't sent; pages must be those of a program in memory that is given this history; and one more edit
is done. The moments are those before each sync and the end, without any of the calls after the sync before and with all
of them, and then random moments, each with some of the calls.

Four records are made: of a new file; of a start over files that have lost their power once already; of edits so large
that the log is copied into FILE amid them; and of a --compact, which leaves the long history or the short one. Records
that are changed show that this notices something: one without the syncs, one with each reply before the sync that it
waits for, and one without the first of the two syncs of a commit are each judged wrong.
"""

import contextlib
import os
import re
import shutil
import sqlite3
import subprocess
import tempfile
from collections.abc import Callable, Iterator, Mapping, Sequence
from functools import partial
from itertools import chain
from pathlib import Path
from random import Random
from typing import NamedTuple

from geanmarbles.checks.database.clients import (
    Cases,
    Client,
    Skipped,
    check_end,
    get,
    joined,
    line_of,
    over,
    put,
    replies_in_memory,
    run,
)
from geanmarbles.checks.database.damage import HEADER, OLDER
from geanmarbles.checks.database.files import check_after_a_crash, check_equal, history, log_of
from geanmarbles.checks.judging import must
from geanmarbles.client.replies import Wrong, read_replies, refusal_of, shown, whole_replies
from geanmarbles.paths import ROOT

# How many random images are made of each record, and where one that fails is kept.
SOME, KEPT = 12, ROOT / "out" / "power"
SECTOR = 512
# How many losses of power a record that was changed is judged by at most.
TRIES = 40
# Every call that has a file or a path, strings as numbers of two digits, and for each descriptor its path.
STRACE = ("strace", "-f", "-qq", "-y", "-xx", "-s", "16777216", "-e", "trace=%file,%desc", "-e", "signal=none")
CALL = re.compile(rb"\d+ +(\w+)\((?:(\d+)|\w+)?(?:<([^>]*)>)?")
PLACES = re.compile(rb"(?:, (\d+))?\) += (\d+)")
FAILED = re.compile(rb"\) += -1 E[^\"]*$")
# Calls that change neither a file nor which files there are.
HARMLESS = {
    *("access", "close", "execve", "fadvise64", "fchmod", "fchown", "fcntl", "fstat", "lseek", "newfstatat", "pread64"),
    *("read", "readlink", "statx"),
}
GETS = [get(path) for path in ("/", "/?p=1", "/?p=2", "/?p=4", "/?p=7", "/?p=11", "/?p=14")]
AFTER = put(title="after the power came back")


class Call(NamedTuple):
    """What the program has done: `make`, `write`, `cut` or `sync` of a file, or `tell`, which hands on replies. FILE
    has no name here, its log the name `-wal` and the folder `/`. A write begins at a place, and a cut ends there."""

    what: str
    name: str = ""
    at: int = 0
    given: bytes = b""


# FILE and FILE-wal, where they are there.
Image = tuple[bytes | None, bytes | None]


class Cut(NamedTuple):
    """A loss of power: in which record, before which of its calls, and with which of the calls since the last syncs;
    what it leaves, and how many edits had been replied to."""

    record: str
    at: int
    how: str
    image: Image
    acknowledged: int

    def __str__(self) -> str:
        return f"{self.record}-{self.at}-{self.how}"


class Record(NamedTuple):
    """What was done over files: the history in them before, the edits that were sent, and each call. If it is of a
    --compact, it has the short history."""

    name: str
    before: Image
    lines: list[bytes]
    sent: list[bytes]
    calls: list[Call]
    short: list[bytes]

    def check(self, found: list[bytes], acknowledged: int) -> None:
        """The history that was found after a loss of power is one that may be there."""
        if self.short:
            is_short = acknowledged or len(found) == len(self.short)
            check_equal(found, self.short if is_short else self.lines)
        else:
            check_after_a_crash(found, self.lines or found[:1], self.sent, acknowledged)


def hexed(text: Path) -> bytes:
    """A path as strace writes it."""
    return "".join(f"\\x{byte:02x}" for byte in str(text).encode()).encode()


def plain(text: bytes) -> bytes:
    return bytes.fromhex(text.decode().replace("\\x", ""))


def call_of(line: bytes, names: Mapping[bytes, str]) -> Call | None:
    """A line of the record as a call of one of these files, or a reply. One that isn't known here is a fault."""
    head, *texts = line.split(b'"')
    found, places = CALL.match(head), PLACES.search(texts[-1] if texts else head)
    if FAILED.search(line):
        return None
    if not found or not places:
        must(not any(it in line for it in names), f"a line that can't be read: {shown(line)}")
        return None
    what, number, path = found[1].decode(), found[2], found[3]
    name, at, done = names.get(path), int(places[1] or 0), int(places[2])
    if what == "write" and number == b"1":
        return Call("tell", given=plain(texts[0])[:done])
    if what == "openat" and b"O_TRUNC" not in line:
        return Call("make", names[texts[0]]) if b"O_CREAT" in line and texts[0] in names else None
    if what == "pwrite64" and name is not None:
        return Call("write", name, at, plain(texts[0])[:done])
    if what in ("fsync", "fdatasync") and name is not None:
        return Call("sync", name)
    if what == "ftruncate" and name is not None:
        return Call("cut", name, at)
    must(what in HARMLESS or not any(it in line for it in names), f"a call that isn't known here: {shown(line)}")
    return None


def calls_in(record: Path, file: Path) -> list[Call]:
    names = {hexed(file): "", hexed(log_of(file)): "-wal", hexed(file.parent): "/"}
    with open(record, "rb") as lines:
        return [call for line in lines if (call := call_of(line, names)) is not None]


def apply(whole: bytearray, call: Call) -> None:
    """Writes or cuts, as the kernel does: what is new and wasn't written is zero."""
    whole.extend(bytes(max(call.at - len(whole), 0)))
    if call.what == "cut":
        del whole[call.at :]
    else:
        whole[call.at : call.at + len(call.given)] = call.given


def some_of(call: Call, random: Random) -> list[Call]:
    """Of a call nothing, all, or a part of a write."""
    places = range(call.at // SECTOR * SECTOR + SECTOR, call.at + len(call.given), SECTOR)
    if not places or random.randrange(2):
        return [call] if random.randrange(2) else []
    at = random.choice(places)
    front = call._replace(given=call.given[: at - call.at])
    rear = call._replace(at=at, given=call.given[at - call.at :])
    return random.choice(([front], [rear], [front, rear._replace(given=random.randbytes(SECTOR)[: len(rear.given)])]))


class Held:
    """A file as the disk has it for sure, and the calls since its last sync."""

    def __init__(self, whole: bytes | None) -> None:
        self.whole, self.pending = bytearray(whole or b""), list[Call]()
        self.is_made = self.is_named = whole is not None

    def add(self, call: Call) -> None:
        if call.what == "make":
            self.is_made = True
        elif call.what == "sync":
            for it in self.pending:
                apply(self.whole, it)
            self.pending.clear()
        else:
            self.pending.append(call)

    def left(self, how: str, random: Random) -> bytes | None:
        """What a loss of power leaves: with `none` of the calls, with `all`, or with `some` of them."""
        may_be_there = {"none": False, "all": True, "some": random.random() < 0.5}
        if not self.is_named and not (self.is_made and may_be_there[how]):
            return None
        whole, now = bytearray(self.whole), bytearray(self.whole)
        for call in self.pending if how != "none" else ():
            apply(now, call)
            for part in [call] if how == "all" else some_of(call, random):
                apply(whole, part)
        if how == "some":
            apply(whole, Call("cut", at=random.choice((len(self.whole), len(now), len(whole)))))
        return bytes(whole)


def cuts(record: Record, points: Mapping[int, Sequence[str]], random: Random) -> Iterator[Cut]:
    """The losses of power at some moments, each of which is the number of a call that isn't made any more."""
    held, output = {name: Held(it) for name, it in zip(("", "-wal"), record.before)}, b""
    for number, call in enumerate([*record.calls, Call("end")]):
        for how in points.get(number, ()):
            image = held[""].left(how, random), held["-wal"].left(how, random)
            yield Cut(record.name, number, how, image, len(read_replies(output)[0]))
        if call.what == "tell":
            output += call.given
        elif call.name in held:
            held[call.name].add(call)
        elif call.what == "sync":
            for it in held.values():
                it.is_named = it.is_made


def edges(calls: Sequence[Call]) -> dict[int, tuple[str, ...]]:
    """The moments before each sync, and the end."""
    return {at: ("none", "all") for at, it in enumerate([*calls, Call("sync")]) if it.what == "sync"}


def at_random(calls: Sequence[Call], random: Random) -> dict[int, tuple[str, ...]]:
    """Some moments, each with some of the calls since the syncs before it."""
    return dict.fromkeys(random.choices(range(len(calls) + 1), k=SOME), ("some",))


def told(calls: Sequence[Call]) -> list[int]:
    """Where replies come out."""
    return [at for at, it in enumerate(calls) if it.what == "tell"]


def without_syncs(calls: Sequence[Call]) -> list[Call]:
    """A record that has no sync any more once the first reply has come out."""
    return [it for at, it in enumerate(calls) if at < told(calls)[0] or it.what != "sync"]


def told_early(calls: Sequence[Call]) -> list[Call]:
    """A record in which each reply comes out before the sync that it waits for."""
    changed = list(calls)
    for at, (call, after) in enumerate(zip(calls, calls[1:])):
        if call.what == "sync" and after.what == "tell":
            changed[at : at + 2] = after, call
    return changed


def without_first_syncs(calls: Sequence[Call]) -> list[Call]:
    """A record in which nothing is synced between the pages of a commit and the byte that makes a commit of them."""
    after = [*calls[1:], Call("end")]
    return [it for it, then in zip(calls, after) if it.what != "sync" or len(then.given) != 1 or then.at < HEADER]


# What changes a record, how far from a reply that then is wrong shows, and with which of the calls.
Changed = tuple[Callable[[Sequence[Call]], list[Call]], int, str]
CHANGED: tuple[Changed, ...] = (
    (without_syncs, 1, "none"),
    (told_early, 1, "none"),
    (without_first_syncs, -1, "some"),
)


def written(image: Image, folder: Path) -> Path:
    """The files of an image in a folder."""
    file = folder / "site.db"
    for path, whole in zip((file, log_of(file)), image):
        if whole is not None:
            path.write_bytes(whole)
    return file


def small(number: int) -> bytes:
    """Edits of some kinds, each of which is done whatever was before it."""
    others = {
        1: line_of(cmd="option", name="posts_per_page", value="3", n=number),
        2: line_of(cmd="activate", plugin="bold", n=number),
        3: line_of(cmd="edit", id=1, content=f"[b]{number}[/b]" * number),
    }
    return others.get(number % 5) or put(title=f"post {number}", content=f"[b]{number}[/b] " * number)


def long(number: int, size: int) -> bytes:
    """An edit of so many bytes, by a key that is ignored."""
    return put(title=f"long {number}", ignored="x" * size)


class Power:
    """Records of a program, and what starts over files that have lost their power."""

    def __init__(self, program: str, seed: int) -> None:
        self.program, self.seed, self.random = program, seed, Random(seed)
        # For the files of each loss of power, how many edits had to be in them.
        self.judged: dict[int, int] = {}
        self.losses = self.older = 0

    @contextlib.contextmanager
    def recorded(self, image: Image) -> Iterator[tuple[Path, list[str], list[Call]]]:
        """Some files, the words that run the program over them, and what becomes the record after the block."""
        calls: list[Call] = []
        with tempfile.TemporaryDirectory() as folder:
            file, path = written(image, Path(folder).resolve()), Path(folder, "calls")
            yield file, [*STRACE, "-o", str(path), self.program], calls
            calls += calls_in(path, file)

    def served(self, name: str, image: Image, lines: list[bytes], chunks: Sequence[list[bytes]]) -> Record:
        """What a program does over some files for a client that waits for the replies to each of some chunks."""
        with self.recorded(image) as (file, words, calls), Client(*words, *over(file)) as client:
            for chunk in chunks:
                client.send(joined(chunk))
                got = [client.next_reply() or b"" for _ in chunk]
                must(all(got) and not any(map(refusal_of, got)), f"the replies are {got}")
            check_end(client.end(), 0, b"")
        return Record(name, image, lines, [*chain(*chunks)], calls, [])

    def compacted(self, image: Image, lines: list[bytes]) -> Record:
        """What a --compact does over some files; its end counts as a reply."""
        with tempfile.TemporaryDirectory() as folder:
            export = run(self.program, b"", *over(written(image, Path(folder)), "--export"))
        with self.recorded(image) as (file, words, calls):
            ran = run(words[0], b"", *words[1:], *over(file, "--compact"))
            check_end((ran.returncode, ran.stderr), 0, b"")
        short = [lines[0], *export.stdout.splitlines()]
        return Record("compact", image, lines, [], [*calls, Call("tell", given=b"ok\n")], short)

    def started(self, file: Path, cut: Cut) -> list[bytes]:
        """The replies of a start over files that have lost their power. If a page of FILE is half written, its log may
        be taken for an older one, for which docs/FAILURES.md says what to do."""
        lines = joined([*GETS, AFTER])
        ran = run(self.program, lines, *over(file))
        if cut.how == "some" and OLDER.fullmatch(ran.stderr.decode().removeprefix(f"site: {file}")):
            self.older += 1
            with contextlib.closing(sqlite3.connect(file)) as connection:
                connection.execute("SELECT count(*) FROM command").fetchall()
            ran = run(self.program, lines, *over(file, "--without-wal"))
        check_end((ran.returncode, ran.stderr), 0, b"")
        return whole_replies(ran.stdout)

    def judge(self, record: Record, cut: Cut) -> list[bytes]:
        """A start over what was left finds what it must, gives its pages, and goes on; returns the history there."""
        with tempfile.TemporaryDirectory() as folder:
            file = written(cut.image, Path(folder))
            *pages, reply = self.started(file, cut)
            *found, last = history(file, is_spent=True)
        must(last == AFTER and not refusal_of(reply), f"an edit after it has the reply {shown(reply)}")
        record.check(found, cut.acknowledged)
        for line, page, other in zip(GETS, pages, replies_in_memory(self.program, tuple(found[1:]), tuple(GETS))):
            must(page == other, f"{shown(line)} has the reply {shown(page)}, and in memory {shown(other)}")
        return found

    def check(self, record: Record, cut: Cut) -> None:
        """Judges what was left, which is kept if it is judged wrong."""
        try:
            self.judge(record, cut)
        except Wrong as wrong:
            kept = KEPT / f"{self.seed}-{cut}"
            kept.mkdir(parents=True, exist_ok=True)
            raise Wrong(f"{wrong}; both files are {written(cut.image, kept)}") from None

    def cases_of(self, record: Record) -> Cases:
        """Each loss of power by its name, those at the edges first. Files that were judged already are left out."""
        for points in (edges(record.calls), at_random(record.calls, self.random)):
            for cut in cuts(record, points, self.random):
                files = hash((record.name, cut.image))
                if self.judged.get(files, -1) < cut.acknowledged:
                    self.judged[files] = cut.acknowledged
                    self.losses += 1
                    yield f"power: {cut}", partial(self.check, record, cut)

    def notices(self, record: Record, changed: Changed) -> None:
        """A changed record is judged wrong at some moment, mostly at the first one."""
        change, beside, how = changed
        record = record._replace(calls=change(record.calls))
        at = self.random.choice(told(record.calls)[1:]) + beside
        for cut in cuts(record, {at: [how] * TRIES}, self.random):
            try:
                self.judge(record, cut)
            except Wrong:
                return
        raise Wrong(f"nothing is wrong {cut}")

    def again(self, new: Record) -> Record:
        """A record over what a loss of power has left of a log that has edits."""
        some = self.random.randint(told(new.calls)[0], told(new.calls)[-1])
        [cut] = cuts(new, {some: ("some",)}, self.random)
        return self.served("again", cut.image, self.judge(new, cut), [[small(9)], [long(10, 30_000)], [small(11)]])

    def cases(self) -> Cases:
        """All cases: each record is made once the cases of the one before are judged."""
        chunks = [[small(0)], [small(1)], [small(it) for it in range(2, 8)], [small(8)]]
        new = self.served("new", (None, None), [], chunks)
        yield from self.cases_of(new)
        for changed in CHANGED:
            yield f"power: new, {changed[0].__name__}", partial(self.notices, new, changed)
        again = self.again(new)
        yield from self.cases_of(again)
        # (what a kill leaves, with all edits in the log)
        [killed] = cuts(again, {told(again.calls)[-1] + 1: ("all",)}, self.random)
        lines = [*again.lines, *again.sent]
        chunks = [*([long(it, 1_000_000)] for it in range(12, 17)), [small(17)]]
        yield from self.cases_of(self.served("large", killed.image, lines, chunks))
        yield from self.cases_of(self.compacted(killed.image, lines))
        print(
            f"power: {self.losses} losses of power, seed {self.seed}; after {self.older} the log was refused as an"
            " older one, since a page of FILE was half written"
        )


def why_not() -> str | None:
    """Why no record can be made here."""
    if not shutil.which("strace"):
        return "there is no strace on the PATH"
    tried = subprocess.run([*STRACE, "-o", os.devnull, "true"], capture_output=True, text=True)
    return f"strace can't record a program here: {tried.stderr.strip()}" if tried.returncode else None


def skip(why: str) -> None:
    raise Skipped(why)


def cases(program: str, seed: int) -> Cases:
    """Each loss of power by its name, with what judges it."""
    print(f"power: seed {seed}", flush=True)
    why = why_not()
    yield from Power(program, seed).cases() if why is None else [("power", partial(skip, why))]
