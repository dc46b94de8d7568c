"""The pump over clients and a program that are only said to be there: any order in which bytes come and go."""

import asyncio
from random import Random

from geanmarbles.pump.moving import FRAME_BYTES, FRAMES, HEAD, HELD_BYTES, READ_BYTES, ROUND_BYTES, ROUNDS, UNREAD_BYTES
from geanmarbles.pump.moving import Client, Limits, Program, Pump

# How many runs are made. Each draws far more than can be made smaller.
SEEDS = 60
# The most bytes that the program sends at once, and it does so three times at most for a frame.
BACK_BYTES = 40_000


class Wire(asyncio.Transport):
    """A connection that keeps what is written to it, and of which a part may be unread."""

    def __init__(self, client: Client | None = None) -> None:
        super().__init__()
        self.client = client
        self.written, self.unread, self.is_closed, self.has_eof, self.is_paused = b"", 0, False, False, False

    def write(self, data: bytes | bytearray | memoryview) -> None:
        assert not self.is_closed and not self.has_eof
        self.written += bytes(data)
        self.unread += len(data)
        if self.client and self.unread > UNREAD_BYTES and not self.client.is_slow:
            self.client.pause_writing()

    def write_eof(self) -> None:
        self.has_eof = True

    def close(self) -> None:
        self.is_closed = True

    abort = close

    def is_closing(self) -> bool:
        return self.is_closed

    def get_write_buffer_size(self) -> int:
        return self.unread

    def set_write_buffer_limits(self, high: int | None = None, low: int | None = None) -> None:
        assert high == UNREAD_BYTES

    def pause_reading(self) -> None:
        self.is_paused = True

    def resume_reading(self) -> None:
        self.is_paused = False


class Visitor:
    """A client, what it has sent, and what the program has got and sent of it."""

    def __init__(self, pump: Pump, reads: bool = True) -> None:
        self.client, self.reads = Client(pump), reads
        self.wire = Wire(self.client)
        self.sent, self.got, self.answered = b"", b"", b""
        self.is_gone = self.is_told = self.is_ended = False
        self.client.connection_made(self.wire)

    def send(self, random: Random) -> None:
        if not (self.wire.is_paused or self.client.has_ended or self.wire.is_closed):
            part = random.randbytes(random.choice((1, 10, FRAME_BYTES, READ_BYTES)))
            self.client.get_buffer(0)[: len(part)] = part
            if not self.client.is_over:
                self.sent += part
            self.client.buffer_updated(len(part))

    def read(self, random: Random) -> None:
        """Reads some or all of what is unread, unless it never reads."""
        if not self.reads:
            return
        self.wire.unread -= random.choice((0, self.wire.unread // 2, self.wire.unread))
        if self.client.is_slow and not self.wire.unread:
            self.client.resume_writing()

    def end(self, random: Random) -> None:
        """Sends nothing more, or is gone."""
        if self.is_gone:
            return
        if random.random() < 0.5 and not self.client.has_ended and not self.wire.is_closed:
            if not self.client.eof_received():
                self.wire.close()
        elif random.random() < 0.5 or self.wire.is_closed:
            self.is_gone = self.wire.is_closed = True
            self.client.connection_lost(OSError() if random.random() < 0.5 else None)


class Site:
    """A program that reads frames when it likes, and answers each at once."""

    def __init__(self, pump: Pump) -> None:
        self.wire, self.program, self.read = Wire(), Program(pump), 0
        self.visitors: dict[int, Visitor] = {}
        self.out = b""
        self.program.connection_made(self.wire)
        pump.program = self.program

    def answer(self, random: Random, visitors: list[Visitor]) -> None:
        """Reads a frame."""
        if self.read == len(self.wire.written):
            return
        number, count = HEAD.unpack_from(self.wire.written, self.read)
        part = self.wire.written[self.read + 8 : self.read + 8 + count]
        self.read += 8 + count
        assert count <= FRAME_BYTES
        if not number:
            self.out += HEAD.pack(0, 0)
            return
        if number not in self.visitors:
            assert number == 1 + len(self.visitors)
            self.visitors[number] = next(it for it in visitors if it.client.number == number)
        visitor = self.visitors[number]
        assert not visitor.is_told and not visitor.is_ended
        visitor.got += part
        visitor.is_told = not part
        for _ in range(random.choice((0, 0, 1, 3)) if part else 0):
            back = random.randbytes(random.choice((1, 100, BACK_BYTES, BACK_BYTES)))
            self.out += HEAD.pack(number, len(back)) + back
            visitor.answered += back
        if not part or random.random() < 0.05:
            visitor.is_ended = True
            self.out += HEAD.pack(number, 0)

    def send(self, random: Random) -> None:
        """Sends a part of what it has to send, cut anywhere."""
        size = random.choice((1, 9, 5_000, len(self.out)))
        part, self.out = self.out[:size], self.out[size:]
        if part:
            self.program.data_received(part)


def test_bytes_come_as_they_went() -> None:
    """Each client's bytes reach the program in order, and what it answers reaches that client; a client has one frame
    there at a time; whoever ends is told of, and nothing is handed over of one that has ended."""

    def check(random: Random) -> None:
        pump = Pump(Limits(connections=5))
        visitors, site = [Visitor(pump)], Site(pump)

        def step() -> None:
            visitor, done = random.choice(visitors), random.random()
            if done < 0.02 and len(visitors) < 12:
                visitors.append(Visitor(pump, random.random() < 0.6))
            elif done < 0.3:
                visitor.send(random)
            elif done < 0.5:
                visitor.read(random)
            elif done < 0.52:
                visitor.end(random)
            elif done < 0.75:
                site.answer(random, visitors)
            else:
                site.send(random)
            under_way = [it for of in site.program.rounds for it in of]
            assert len(under_way) == len(set(under_way)) and len(site.program.rounds) <= ROUNDS
            ahead = len(site.wire.written) - site.read
            assert ahead <= ROUNDS * (ROUND_BYTES + FRAME_BYTES + 8 * (FRAMES + 1))
            for it in visitors:
                assert len(it.client.held) <= HELD_BYTES + READ_BYTES
                # One frame may be there, or wait, when it begins to be much.
                assert it.wire.unread <= UNREAD_BYTES + 3 * BACK_BYTES

        for _ in range(800):
            step()
        # Whoever is cut is gone in the end, and all that is left is handed over and answered.
        for _ in range(2_000):
            for it in visitors:
                it.reads = True
                it.read(random)
                if it.wire.is_closed and not it.is_gone:
                    it.is_gone = True
                    it.client.connection_lost(None)
            site.answer(random, visitors)
            site.send(random)
        for it in visitors:
            assert it.sent.startswith(it.got)
            assert it.is_ended or it.is_gone or it.got == it.sent
            assert it.is_gone or it.wire.written == it.answered
            assert it.answered.startswith(it.wire.written)
            assert not it.client.waits
            if it.client.has_ended and it.client.number:
                assert it.is_told or it.is_ended
            if it.is_ended and not it.is_gone:
                assert it.wire.is_closed or it.wire.has_eof and not it.client.has_ended
        assert len(site.program.clients) == sum(not it.is_ended for it in site.visitors.values())

    for seed in range(SEEDS):
        check(Random(seed))


def begun(pump: Pump) -> Site:
    """A program that is there."""
    site = Site(pump)
    site.program.data_received(HEAD.pack(0, 0))
    site.read = 8
    return site


def seconds_left(visitor: Visitor, most: int = 1_000) -> int:
    """How many seconds pass until a client is cut off."""
    for passed in range(most):
        if visitor.wire.is_closed:
            return passed
        visitor.client.pump.pass_second()
    return most


def test_clients_are_waited_for_by_seconds() -> None:
    """Idle ones, those that ask, those that read, and none while it is the program's turn."""
    limits = Limits(seconds=3, idle=5)
    random = Random(1)

    def visitor() -> Visitor:
        made = Visitor(Pump(limits))
        made.client.pump.clients = {made.client: None}
        return made

    assert seconds_left(visitor()) == 6
    asks = visitor()
    site = begun(asks.client.pump)
    asks.client.get_buffer(0)[:1] = b"x"
    asks.client.buffer_updated(1)
    assert asks.client.waits and seconds_left(asks, 50) == 50
    site.answer(random, [asks])
    site.program.data_received(HEAD.pack(0, 0))
    assert not asks.client.waits and seconds_left(asks) == 4
    for steps, lasts in ((4, False), (60, True)):
        reads = visitor()
        begun(reads.client.pump)
        reads.client.number = 1
        reads.client.send(b"x" * 4_000_000)
        for _ in range(steps):
            reads.client.pump.pass_second()
            reads.wire.unread -= 16_384 if lasts else 100
        assert reads.wire.is_closed is not lasts


def test_a_program_that_answers_nothing_is_given_up() -> None:
    """Once it is there; its start may take any time."""
    pump = Pump(Limits(answer=7))
    site = Site(pump)
    for _ in range(100):
        pump.pass_second()
    assert not site.wire.is_closed
    site.program.data_received(HEAD.pack(0, 0))
    visitor = Visitor(pump)
    visitor.client.get_buffer(0)[:1] = b"x"
    visitor.client.buffer_updated(1)
    for passed in range(100):
        if site.wire.is_closed:
            break
        pump.pass_second()
    assert passed == 8


def test_who_leaves_too_much_unread_is_cut_off() -> None:
    """One by itself, and the one with the most if it is all together."""
    pump = Pump(Limits(unread=1_000_000, unread_by_all=2_500_000))
    visitors = [Visitor(pump) for _ in range(4)]
    begun(pump)
    visitors[0].client.send(b"x" * 1_000_001)
    assert [it.wire.is_closed for it in visitors] == [True, False, False, False]
    visitors[0].client.connection_lost(None)
    for it, size in zip(visitors[1:], (800_000, 900_000, 799_999)):
        it.client.send(b"x" * size)
    assert not any(it.wire.is_closed for it in visitors[1:])
    visitors[3].client.send(b"xx")
    assert [it.wire.is_closed for it in visitors[1:]] == [False, True, False]


def test_one_too_many_takes_the_place_of_an_idle_one() -> None:
    """The one that is idle for the longest, or else that has asked for the longest, and none that is served."""
    pump = Pump(Limits(connections=3))
    visitors = [Visitor(pump) for _ in range(3)]
    begun(pump)
    pump.pass_second()
    visitors[0].client.asks = True
    visitors[1].client.seconds = 1
    visitors[2].client.seconds = 2
    for cut in (2, 1, 0):
        more = Visitor(pump)
        assert [at for at, it in enumerate(visitors) if it.wire.is_closed] == list(range(cut, 3))
        assert not more.wire.is_closed
        visitors[cut].client.connection_lost(None)
        more.client.waits = True
    last = Visitor(pump)
    assert last.wire.is_closed and last.client not in pump.clients
