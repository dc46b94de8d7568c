"""The program over frames: what each client of many gets on one stream, byte by byte.

Each exchange of tests/http is made between others, and a stream of them is cut into frames, and frames into writes, in
many ways. What a client gets is what it would get alone.
"""

from __future__ import annotations

import errno
import signal
import struct
import subprocess
from collections.abc import Iterable, Iterator, Sequence
from functools import partial
from random import Random
from typing import NamedTuple, Self

from geanmarbles.checks.database.files import history
from geanmarbles.checks.judging import must
from geanmarbles.checks.over_http import (
    BEGUN,
    CLOSING,
    DONE,
    EMPTY,
    LARGE,
    LARGE_PAGE,
    MALFORMED,
    OPEN,
    PUT,
    RYE,
    SECONDS,
    START,
    Exchange,
    Program,
    edit,
    ends_at_faults,
    page,
    same,
    sent,
    system_error,
)
from geanmarbles.client.program import pipe

HEAD = struct.Struct(">II")
MAX_BYTES, MAX_OPEN = 65_536, 1_024
GET = sent("GET", "/")
# How many streams are cut at random, and by how many clients at once.
STREAMS, CLIENTS = 30, 6
# How many frames come one after another, and how many large pages one frame asks for.
FRAMES, PAGES = 70_000, 100


class Frame(NamedTuple):
    """Bytes of a client, or to it; none say that no more come."""

    number: int
    part: bytes

    def bytes(self) -> bytes:
        return HEAD.pack(self.number, len(self.part)) + self.part


def cut(number: int, stream: bytes, size: int = MAX_BYTES) -> list[Frame]:
    """The frames of a client's bytes, of some size each."""
    return [Frame(number, stream[at : at + size]) for at in range(0, len(stream), size)]


class Got:
    """What came for each client: its bytes, and how often it was said that no more come."""

    def __init__(self, output: bytes) -> None:
        self.bytes: dict[int, bytes] = {}
        self.ends: dict[int, int] = {}
        at = 0
        while at < len(output):
            number, count = HEAD.unpack_from(output, at)
            part = output[at + 8 : at + 8 + count]
            must(count <= MAX_BYTES and len(part) == count, f"a frame of {count} bytes, of which {len(part)} came")
            if part:
                must(number not in self.ends, f"client {number} got {part[:60]!r} after its end")
                self.bytes[number] = self.bytes.get(number, b"") + part
            else:
                self.ends[number] = self.ends.get(number, 0) + 1
            at += 8 + count

    def of(self, number: int) -> bytes:
        return START.sub(b"START", self.bytes.get(number, b""))


class Framed(NamedTuple):
    """The program, over frames."""

    program: Program

    def words(self, *more: str) -> list[str]:
        return self.program.words("--framed", *more)

    def run(self, frames: Iterable[Frame], size: int = 1 << 20) -> Got:
        """What comes of some frames, which are written in pieces of some size. The program ends with them."""
        stream = b"".join(it.bytes() for it in frames)
        with subprocess.Popen(
            self.words(), stdin=subprocess.PIPE, stdout=subprocess.PIPE, stderr=subprocess.PIPE, bufsize=0
        ) as running:
            if size >= len(stream):
                output, errors = running.communicate(stream, SECONDS)
            else:
                for at in range(0, len(stream), size):
                    pipe(running.stdin).write(stream[at : at + size])
                output, errors = running.communicate(timeout=SECONDS)
        same((running.returncode, errors), (0, b""), "the end")
        return Got(output)

    def refuses(self, stream: bytes, why: str) -> None:
        """The program ends at a stream that isn't frames, and says why. What frames before that ask for has come."""
        stream = Frame(1, GET).bytes() + stream
        ran = subprocess.run(self.words(), input=stream, capture_output=True, timeout=SECONDS, check=False)
        same((ran.returncode, ran.stderr), (1, f"site: {why}\n".encode()), "the end")
        got = Got(ran.stdout)
        same((got.of(1), got.ends), (page(EMPTY, 0), {}), "what came before it")


class Client:
    """The program over frames, which are sent one by one. It ends with the `with` block."""

    def __init__(self, words: Sequence[str], errors: int | None = None) -> None:
        self.child = subprocess.Popen(words, stdin=subprocess.PIPE, stdout=subprocess.PIPE, stderr=errors, bufsize=0)
        self.input, self.output = pipe(self.child.stdin), pipe(self.child.stdout)

    def __enter__(self) -> Self:
        return self

    def __exit__(self, *_: object) -> None:
        self.child.kill()
        self.child.wait()
        self.input.close()
        self.output.close()

    def send(self, *frames: Frame) -> None:
        self.input.write(b"".join(it.bytes() for it in frames))

    def frame(self) -> Frame | None:
        """The next frame that comes, or None at the end."""
        head = self.exactly(8)
        if head is None:
            return None
        number, count = HEAD.unpack(head)
        part = self.exactly(count)
        return None if part is None else Frame(number, part)

    def exactly(self, count: int) -> bytes | None:
        came = b""
        while len(came) < count:
            more = self.output.read(count - len(came))
            if not more:
                return None
            came += more
        return came


def one(framed: Framed, of: Exchange) -> None:
    """An exchange between others, which an end of its connection doesn't end."""
    closes = of not in OPEN
    got = framed.run([Frame(1, BEGUN), *cut(2, of.request), *cut(2, GET), Frame(3, GET), Frame(1, GET), Frame(2, b"")])
    after = b"" if closes else page(RYE, 1)
    same(got.of(2), of.response + after, "what its client got")
    same((got.of(1), got.of(3)), (DONE + page(RYE, 1), page(RYE, 1)), "what others got")
    must(2 in got.ends and not {1, 3} & set(got.ends), f"ends: {got.ends}")


def in_pieces(framed: Framed, part: int, size: int) -> None:
    """All exchanges of one client in frames of some bytes, which come in pieces."""
    stream = BEGUN + b"".join(it.request for it in OPEN)
    got = framed.run([*cut(1, stream, part), Frame(1, b"")], size)
    same(got.of(1), DONE + b"".join(it.response for it in OPEN), "the responses")
    same(got.ends, {1: 1}, "the ends")


def at_random(framed: Framed, seed: int) -> None:
    """Streams of several clients, cut at random and in a random order."""
    random = Random(seed)
    left: dict[int, list[Frame]] = {}
    wanted: dict[int, bytes] = {}
    for number in range(2, 2 + random.randrange(1, CLIENTS)):
        chosen = random.choices(OPEN, k=random.randrange(1, 12)) + random.choices(CLOSING, k=random.randrange(2))
        stream, parts = b"".join(it.request for it in chosen), []
        while stream:
            size = random.choice((1, 3, 20, 200, 2_000, MAX_BYTES))
            parts.append(Frame(number, stream[:size]))
            stream = stream[size:]
        left[number], wanted[number] = [*parts, Frame(number, b"")], b"".join(it.response for it in chosen)
    frames = [Frame(1, BEGUN)] + [frames.pop(0) for frames in left.values()]
    while left := {number: frames for number, frames in left.items() if frames}:
        frames.append(left[random.choice(list(left))].pop(0))
    got = framed.run(frames, random.choice((1, 100, 5_000, 1 << 20)))
    same({number: got.of(number) for number in wanted}, wanted, f"what clients got of stream {seed}")
    must(set(wanted) <= set(got.ends) and 1 not in got.ends, f"ends: {got.ends}")


def numbers(framed: Framed) -> None:
    """Numbers only grow: one that has ended, or that is less than another, gets its end alone."""
    got = framed.run([Frame(0, b""), Frame(5, GET), Frame(3, GET), Frame(0, GET), Frame(5, b""), Frame(5, GET)])
    same({number: got.of(number).count(b"HTTP/1.1") for number in got.bytes}, {5: 1}, "the responses")
    same(got.ends, {0: 2, 3: 1, 5: 2}, "the ends")


def many(framed: Framed) -> None:
    """At most 1,024 clients are there at once; one more gets its end, and another one once one has ended."""
    first = [Frame(number, GET[:9]) for number in range(1, MAX_OPEN + 1)]
    late, rest = MAX_OPEN + 1, [Frame(number, GET[9:]) for number in range(2, MAX_OPEN + 1)]
    got = framed.run([*first, Frame(late, GET), Frame(1, b""), Frame(late + 1, GET), *rest])
    served = {number for number in got.bytes if got.of(number).startswith(b"HTTP/1.1 200 ")}
    same(served, {*range(2, MAX_OPEN + 1), late + 1}, "who was served")
    same((got.of(1), got.ends), (MALFORMED, {late: 1, 1: 1}), "who wasn't")


def long_run(framed: Framed) -> None:
    """Frames come one by one, each after what the one before gets, for as long as they come."""
    with Client(framed.words()) as client:
        for number in range(FRAMES):
            client.send(Frame(0, b""))
            same(client.frame(), Frame(0, b""), f"what came of frame {number}")
        client.input.close()
        same(client.child.wait(SECONDS), 0, "the status")


def large(framed: Framed) -> None:
    """One frame asks for a hundred pages that are longer than a frame."""
    got = framed.run([Frame(1, edit(LARGE)[:MAX_BYTES]), Frame(1, edit(LARGE)[MAX_BYTES:]), Frame(1, GET * PAGES)])
    must(got.of(1) == DONE + page(LARGE_PAGE, 1) * PAGES, f"{len(got.of(1))} bytes came")
    same(got.ends, {}, "the ends")


def in_order(framed: Framed) -> None:
    """All that a frame asks for comes before what the next one does, and a frame that asks for nothing gets nothing."""
    with Client(framed.words()) as client:
        for number in range(1, 50):
            client.send(Frame(number, GET * 3 + GET[:9]), Frame(0, b""))
            came = b""
            while (frame := client.frame()) and frame.number:
                same(frame.number, number, "whose frame came")
                came += frame.part
            same(came.count(b"HTTP/1.1 200 "), 3, "the responses")


def after_a_kill(framed: Framed) -> None:
    """An edit that a frame told of is in the file, whatever ends the program."""
    random = Random(1)
    for number in range(10):
        file = framed.program.folder / f"framed-{number}.db"
        told = done = 0
        with Client(framed.words("--database", str(file))) as client:
            client.send(*[Frame(1 + at % 7, edit(PUT % b"%d" % at)) for at in range(200)])
            until = random.randrange(1, 150)
            while told < until:
                frame = client.frame()
                assert frame
                told += frame.part.count(b"HTTP/1.1 200 ")
            client.child.send_signal(signal.SIGKILL)
            while frame := client.frame():
                told += frame.part.count(b"HTTP/1.1 200 ")
        found = history(file)[1:]
        done = len(found)
        same(found, [PUT % b"%d" % at for at in range(done)], "the history")
        must(done >= told, f"{told} edits were told, and {done} are there")


def no_commit(framed: Framed) -> None:
    """Once a commit fails, no client is told of anything more, and the program ends."""
    file = framed.program.folder / "framed-gone.db"
    with Client(framed.words("--database", str(file)), errors=subprocess.PIPE) as client:
        client.send(Frame(1, BEGUN))
        frame = client.frame()
        same(frame, Frame(1, DONE), "the first edit")
        file.unlink()
        client.send(Frame(2, BEGUN), Frame(3, GET))
        client.input.close()
        same(client.frame(), None, "what came of the edits after that")
        said = pipe(client.child.stderr).read().decode()
        must("removed or replaced" in said, f"it said {said!r}")
        same(client.child.wait(SECONDS), 1, "the status")


def failing_ends(framed: Framed) -> None:
    """A read that fails ends the program with the system's error, and a write that does with the kind of its fault."""
    request = Frame(1, GET).bytes()
    ends_at_faults(framed.words(), request, of_write="write zero", of_read=system_error(errno.EISDIR))


# Streams that aren't frames, and what is said of them.
TOO_LONG, CUT_SHORT = "invalid data", "unexpected end of file"
BAD = {
    "a frame that is too long": (Frame(1, b"a" * (MAX_BYTES + 1)).bytes(), TOO_LONG),
    "a head of a frame that is too long": (HEAD.pack(2, MAX_BYTES + 1), TOO_LONG),
    "a head that isn't whole": (b"\0\0\0", CUT_SHORT),
    "a frame that isn't whole": (Frame(1, GET).bytes()[:-1], CUT_SHORT),
}


def cases(program: Program) -> Iterator[tuple[str, partial[None]]]:
    framed = Framed(program)
    for it in [*OPEN, *CLOSING]:
        yield f"frames: {it.name}", partial(one, framed, it)
    for part in (1, 7, 100, MAX_BYTES):
        for size in (1, 11, 4_096):
            yield f"frames of {part} bytes in pieces of {size}", partial(in_pieces, framed, part, size)
    for seed in range(STREAMS):
        yield f"frames at random, {seed}", partial(at_random, framed, seed)
    for check in (numbers, many, long_run, large, in_order, after_a_kill, no_commit, failing_ends):
        yield f"frames: {check.__doc__}", partial(check, framed)
    for name, (stream, why) in BAD.items():
        yield f"frames: {name}", partial(framed.refuses, stream, why)
