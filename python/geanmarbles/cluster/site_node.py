"""One node of a site: the replica that serves its pages, the next one, and what the node knows of the cluster."""

import hashlib
import subprocess
import sys
import threading
import time
import traceback
from collections.abc import Callable
from typing import NamedTuple

from geanmarbles.client.program import Program
from geanmarbles.client.replies import Ended, NoReply, Reply
from geanmarbles.cluster.etcd import Refused, Unreachable, WentBack, reason_of, text_of
from geanmarbles.cluster.history import NO_EDIT, NONE, Front, Gap, Head, History, Last
from geanmarbles.cluster.identity import claimed
from geanmarbles.cluster.news import News
from geanmarbles.cluster.replica import Fault, Replica, Slow
from geanmarbles.cluster.snapshots import NotMade, OtherMaker, make

# For how long at most the cluster is asked for its last edit, and after how long without an answer it counts as
# unreachable.
ASK_SECONDS, UNHEARD_SECONDS = 4, 5
# How long a request waits for an edit that this node hasn't come to, and for its page.
WAIT_SECONDS = 5
# How long the program may owe a reply before the node says that it isn't ready.
OWES_SECONDS = 1
# How long the threads that see to the node may take for one round before they count as stuck.
STUCK_SECONDS = 60
# How many digits of a sum tell one cluster's site, or one program, from another.
SUM_DIGITS = 12
# How long an edit may be known to be there that this node hasn't applied, before its health says so.
LAG_SECONDS = 10
# How long to wait before a replica is begun after one that has failed, at first and at most.
AGAIN_SECONDS, AGAIN_SECONDS_AT_MOST = 0.2, 10
# How long the next replica waits for the former to be asked nothing, and then to come as far.
TURN_SECONDS = 0.5
# How often the replicas are looked at, and whether a snapshot is due; and how long to wait after one that wasn't made.
KEEP_SECONDS, DUE_SECONDS, UNMADE_SECONDS = 0.05, 1, 5
# How many bytes of edits make a snapshot due, however few there are.
DUE_BYTES = 100_000_000
# Reasons that end a node's service until it is started anew.
FOR_GOOD = {"history-went-back", "other-program"}


def sum_of(text: str) -> str:
    return hashlib.sha256(text.encode()).hexdigest()[:SUM_DIGITS]


def say(what: str) -> None:
    print(f"node: {what}", file=sys.stderr, flush=True)


class Arrivals:
    """Threads that wait until a place in the history is reached."""

    def __init__(self) -> None:
        # The place that each waits for, by its event.
        self.turn = threading.Lock()
        self.waiting: dict[threading.Event, int] = {}

    def wait(self, place: int, is_there: Callable[[], bool], seconds: float) -> None:
        """Waits until `reached` is called with that place or a later one, unless `is_there()` holds already."""
        event = threading.Event()
        with self.turn:
            self.waiting[event] = place
        if not is_there():
            event.wait(seconds)
        with self.turn:
            del self.waiting[event]

    def reached(self, place: int) -> None:
        with self.turn:
            for event, wanted in self.waiting.items():
                if wanted <= place:
                    event.set()


class Snapshots(NamedTuple):
    """The program that makes snapshots, after how many edits one is due, and for how many seconds the requests of its
    edits are known."""

    program: list[str]
    due: int
    remember: int


class Node:
    """A node of a site. `identity` is its program's, and `begin` starts a program, which takes `most` lines."""

    def __init__(
        self,
        history: History,
        identity: bytes,
        begin: Callable[[], Program],
        most: int,
        snapshots: Snapshots,
        made_by: str = "",
    ) -> None:
        """`made_by` tells a program and its options from others that may print other pages of the same history."""
        self.made_by = made_by
        self.history, self.identity, self.begin, self.most = history, identity, begin, most
        self.name = history.keys.root.decode().rstrip("/")
        self.snapshots = snapshots
        # The replica that serves, the one that is to take its place, and the last edit that any of them has come to.
        self.current: Replica | None = None
        self.next: Replica | None = None
        self.begun_count = 0
        self.last = NONE
        # What the cluster has said last, its last edit and its newest snapshot; and when.
        self.news = News()
        self.known, self.heard = NONE, float("-inf")
        self.head: Head | None = None
        # The place of an edit that this node hasn't applied yet, and since when that is known.
        self.awaited, self.awaited_since = 0, 0.0
        self.arrivals = Arrivals()
        # Why no page is served, and why not ever again.
        self.reason = ("catching-up", "the node has just started")
        self.ended: tuple[str, str] | None = None
        self.has_served, self.is_stopping = False, threading.Event()
        # When each of the threads that see to the node was last at its begin.
        self.beats: dict[str, float] = {}
        # Whether the history belongs to this node's program; and when the next replica may be begun, as one that has
        # failed isn't tried again at once.
        self.is_claimed, self.pause, self.not_before = threading.Event(), AGAIN_SECONDS, 0.0

    def start(self) -> None:
        for work, seconds in ((self.keep, KEEP_SECONDS), (self.poll, 0.0), (self.make_snapshot, DUE_SECONDS)):
            threading.Thread(target=self.repeated, args=[work, seconds], daemon=True).start()

    def repeated(self, work: Callable[[], object], seconds: float) -> None:
        """Does some work time after time until the node ends. A mistake in it is told, and the work goes on."""
        while not self.is_stopping.wait(seconds):
            self.beats[work.__name__] = time.monotonic()
            try:
                work()
            except WentBack as fault:
                self.end(*reason_of(fault))
            except Exception:
                traceback.print_exc()
        # Also ends a replica that was begun as the node ended.
        self.stop()

    def is_alive(self) -> bool:
        """Whether what sees to the replicas and to the cluster's news goes on."""
        now = time.monotonic()
        return all(now - self.beats.get(name, now) < STUCK_SECONDS for name in ("keep", "poll"))

    def stop(self) -> None:
        self.is_stopping.set()
        self.news.end()
        for replica in (self.current, self.next):
            if replica:
                replica.end(Fault("stopping", "the node ends"))

    def end(self, name: str, text: str) -> None:
        """Serves no more, until the node is started anew by somebody who has looked at it."""
        if not self.ended:
            self.ended = self.reason = (name, text)
            say(f"{name}: {text}; this node serves no more")
        self.stop()

    # The replicas.

    def keep(self) -> None:
        """Sees to it that there is a replica that serves, and that the next one is there before that has ended."""
        if not self.is_claimed.is_set():
            self.claim()
            return
        if self.current and self.current.fault:
            self.say_end(self.current.fault)
            self.current = None
        is_wanted = self.current is None or self.current.is_near_its_end() or self.current.is_full is not None
        if self.next is None and is_wanted and time.monotonic() >= self.not_before:
            self.next = self.begun()
        if self.next and self.next.fault:
            self.say_end(self.next.fault)
            self.next, self.not_before = None, time.monotonic() + self.pause
            self.pause = min(2 * self.pause, AGAIN_SECONDS_AT_MOST)
        elif self.next and self.next.is_verified and self.takes_over():
            self.pause = AGAIN_SECONDS

    def claim(self) -> None:
        """Makes sure that the history belongs to this node's program."""
        try:
            if claimed(self.history, self.identity, ASK_SECONDS) == self.identity:
                self.is_claimed.set()
            else:
                self.end("other-program", "the history belongs to a program with another identity")
        except (Unreachable, Refused) as fault:
            self.reason = reason_of(fault)

    def begun(self) -> Replica:
        self.begun_count += 1
        return Replica(self.history, self.begin, self.most, lambda: self.last, self.came).start()

    def say_end(self, fault: Fault) -> None:
        if fault.name in FOR_GOOD:
            self.end(fault.name, fault.text)
        else:
            self.reason = (fault.name, fault.text)
            say(f"a program ends: {fault}")

    def takes_over(self) -> bool:
        """Whether the next replica has taken the current one's place. It has to have come as far."""
        former, following = self.current, self.next
        assert following is not None
        if former is None:
            if following.last.place < self.last.place:
                return False
            self.current, self.next = following, None
        else:
            if following.last.place < former.last.place:
                return False
            # Nothing is asked of the former meanwhile, so it comes no further.
            if not former.turn.acquire(timeout=TURN_SECONDS):
                return False
            try:
                until = time.monotonic() + TURN_SECONDS
                while following.last.place < former.last.place and time.monotonic() < until:
                    time.sleep(0.002)
                if following.last.place < former.last.place or following.fault:
                    return False
                self.current, self.next = following, None
            finally:
                former.turn.release()
            former.end(Fault("replaced", "the next program has taken its place"))
        self.has_served = True
        self.came()
        return True

    def came(self) -> None:
        """Notes where the replica that serves has come to in the history."""
        current = self.current
        if current:
            self.last = max(self.last, current.last)
            self.arrivals.reached(current.last.place)

    # What the cluster has.

    def poll(self) -> None:
        """Asks the cluster for its last edit and its newest snapshot, once it is time to."""
        asked = self.news.wait_to_ask()
        if self.is_stopping.is_set():
            return
        try:
            known = self.ask()
        except (Unreachable, Refused) as fault:
            self.news.failed(asked, fault)
            if not self.is_heard() and self.current is None:
                self.reason = reason_of(fault)
        except WentBack as fault:
            self.news.failed(asked, fault)
            raise
        else:
            self.news.told(asked, known)
            self.look_after(known)

    def ask(self) -> Last:
        before = self.last
        known, self.head = self.history.now(seconds=ASK_SECONDS)
        if known.place < before.place:
            raise WentBack(f"the last edit is of revision {known.place}, and this node has one of {before.place}")
        self.known, self.heard = max(known, self.known), time.monotonic()
        if self.place() >= self.awaited:
            self.awaited, self.awaited_since = known.place, time.monotonic()
        return known

    def look_after(self, known: Last) -> None:
        """Has the replicas compared with what the cluster has."""
        for replica in (self.current, self.next):
            if replica:
                replica.look_after(known, self.head)
                if replica.is_verified and not replica.fault:
                    replica.set_goal(known)

    def make_snapshot(self) -> None:
        """Makes a snapshot if one is due and no other node makes it."""
        path, due, remember = self.snapshots
        if not self.is_claimed.is_set() or not self.is_heard() or not self.is_due(due):
            return
        try:
            last, size = make(self.history, path, remember)
            say(f"a snapshot of {last.count} edits up to revision {last.place}: {size} bytes")
        except OtherMaker:
            self.is_stopping.wait(UNMADE_SECONDS)
        except (NotMade, Gap, Unreachable, Refused, Ended, NoReply, OSError, subprocess.SubprocessError) as fault:
            say(f"no snapshot: {text_of(fault)}")
            self.is_stopping.wait(UNMADE_SECONDS)

    def is_due(self, due: int) -> bool:
        """Whether there are that many edits which no snapshot has, or very large ones."""
        had, current = self.head.last.count if self.head else 0, self.current
        return self.known.count - had >= due or current is not None and current.size() > DUE_BYTES

    def state(self, owes: float = OWES_SECONDS) -> tuple[str, str] | None:
        """Whether the node is ready, and if not a name for why and what there is to say. Its program may owe a reply
        for some seconds."""
        if self.ended:
            return self.ended
        current = self.current
        if current is None:
            return self.reason
        fault = current.fault or current.is_full
        if fault:
            return fault.name, fault.text
        if current.owes() > owes:
            return ("program-slow", f"the program has owed a reply for {current.owes():.0f} s")
        if not self.is_heard():
            return ("etcd-unreachable", "etcd hasn't answered for some seconds")
        if self.place() < self.awaited and time.monotonic() - self.awaited_since > LAG_SECONDS:
            return ("lagging", f"this node is at revision {current.last.place}, and the cluster at {self.known.place}")
        return None

    def origin(self) -> str:
        """What tells the history of this site from that of another one, or of another cluster."""
        return sum_of(f"{self.history.etcd.cluster} {self.name}")

    def tag(self, place: int) -> str:
        """What tells the pages at a place in the history from all others: equal tags are equal pages at each path."""
        return f'"{self.origin()}-{self.made_by}-{place}"'

    def is_heard(self) -> bool:
        return self.silence() < UNHEARD_SECONDS

    def silence(self) -> float:
        """For how many seconds etcd hasn't answered."""
        return time.monotonic() - self.heard

    def front(self) -> Front:
        """The edits that the replica which serves has carried out."""
        current = self.current
        return current.front if current else NO_EDIT

    def place(self) -> int:
        return self.front().last.place

    # What requests ask.

    def wait(self, place: int, seconds: float = WAIT_SECONDS) -> bool:
        """Whether this node has come to a place in the history, within some seconds."""
        self.arrivals.wait(place, lambda: self.place() >= place, seconds)
        return self.place() >= place

    def get(self, path: str, place: int) -> tuple[Reply, int]:
        """The reply to a path at a place in the history or later, and its place. Raises Fault if there is none now."""
        until = time.monotonic() + WAIT_SECONDS
        while True:
            current = self.current
            if current and not self.ended:
                try:
                    reply, at = current.get(path, until)
                    if at >= place:
                        return reply, at
                except Slow:
                    raise
                except Fault:
                    pass
            if self.ended or not self.has_served or time.monotonic() > until:
                raise Fault(*(self.state() or ("catching-up", "no program is there in time")))
            time.sleep(0.02)

    def shown_place(self) -> int:
        """The place that a page would show now, or 0 if there is none now."""
        current = self.current
        return 0 if current is None or current.fault or self.ended else current.last.place

    def reply_to(self, name: str, place: int, seconds: float) -> str | None:
        """The reply to an edit that is in the history, or None if it isn't there in time."""
        until = time.monotonic() + seconds
        while True:
            current = self.current
            if current and current.last.place >= place:
                reply = current.reply_to(name) or self.noted_reply(name)
                if reply:
                    return reply
            if time.monotonic() > until or self.ended:
                return None
            if current is None or current.last.place >= place:
                time.sleep(0.05)
            self.wait(place, max(0.0, until - time.monotonic()))

    def noted_reply(self, name: str) -> str | None:
        """The reply to an edit that a snapshot has, or None."""
        try:
            return self.history.reply_of(name)
        except (Unreachable, Refused, WentBack):
            return None
