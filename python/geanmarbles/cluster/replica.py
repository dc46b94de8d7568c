"""A program that has carried out the history up to some edit, and goes on with it as edits come.

A replica is made from the newest snapshot and the edits after it. What its program does is a function of these lines,
but for four things that end a replica for good, so that the next one takes its place: the program refuses an edit
because memory ran out (11) or by its database (12), it ends, or it has had its lines. The last of these are kept for
pages: a replica without lines for edits goes on with the pages that it has, until the next one has come as far.

A page has a limit of time of its own. If the program hasn't begun to reply by then, its client is told so; the reply is
read all the same when it comes, before anything else is asked.
"""

import select
import sys
import threading
import time
import traceback
from collections.abc import Callable, Sequence
from typing import Self

from geanmarbles.client.program import LINE_BYTES, Program, get_line
from geanmarbles.client.replies import Ended, NoReply, Reply, read_reply
from geanmarbles.cluster import snapshots
from geanmarbles.cluster.etcd import Refused, Unreachable, WentBack, reason_of
from geanmarbles.cluster.following import Following
from geanmarbles.cluster.history import NO_EDIT, Edit, Gap, Head, History, Last

# What a program may refuse an edit with that isn't a function of the lines before it.
BY_CHANCE = {"11", "12"}
# How many lines a program is sent before its replies are read: these are far less than a pipe holds.
TOGETHER = 200
# How long a program may take for one reply, and for its first one.
REPLY_SECONDS, FIRST_SECONDS = 30, 20
# How long a goal waits for the program.
GOAL_SECONDS = 0.2
# How many lines are left to a program when no more is asked of it, and which part of its lines is for pages alone.
MARGIN, FOR_PAGES = 10, 8


class Fault(Exception):
    """Why a replica has ended: a name for it, and what there is to say."""

    def __init__(self, name: str, text: str) -> None:
        super().__init__(f"{name}: {text}")
        self.name, self.text = name, text


class Slow(Fault):
    """There is no page in time. The replica goes on."""

    def __init__(self) -> None:
        super().__init__("program-slow", "the program hasn't replied in time")


class Full(Exception):
    """The program has no line left for an edit."""


class Replica:
    """One program over the history. `begin` starts the program, `reached` says the last edit that this node has come
    to, and `moved` is called whenever this one has come further, or has ended."""

    def __init__(
        self,
        history: History,
        begin: Callable[[], Program],
        most: int,
        reached: Callable[[], Last],
        moved: Callable[[], None],
    ) -> None:
        self.history, self.begin, self.most = history, begin, most
        self.together = min(TOGETHER, most // 8)
        self.reached, self.moved = reached, moved
        self.program: Program | None = None
        self.following: Following | None = None
        # Why it has ended, and why it carries out no more edits.
        self.fault: Fault | None = None
        self.is_full: Fault | None = None
        # The edits that were carried out, and how many lines the program had been sent once they were the cluster's.
        self.front, self.lines_at_start = NO_EDIT, 0
        # The edits that no snapshot has: the place, the reply and the size of each by its ID; and the place up to which
        # a snapshot has them.
        self.done: dict[str, tuple[int, str, int]] = {}
        self.forgotten = 0
        # An edit of the cluster's, with how many there are up to it, and whether this has come to it.
        self.goal: Last | None = None
        self.is_verified = False
        # Held while the program is asked, until it has replied; and since when it has owed a reply.
        self.turn = threading.Lock()
        self.owes_since: float | None = None

    @property
    def last(self) -> Last:
        """The last edit that was carried out."""
        return self.front.last

    def start(self) -> Self:
        threading.Thread(target=self.run, daemon=True).start()
        return self

    def run(self) -> None:
        try:
            self.make()
            self.follow()
        except Full:
            self.stop_following()
        except Fault as fault:
            self.end(fault)
        except Gap as fault:
            self.end(Fault("history-has-a-gap", str(fault)))
        except (WentBack, Unreachable, Refused) as fault:
            self.end(Fault(*reason_of(fault)))
        except (Ended, NoReply, OSError) as fault:
            self.end(Fault("program-ended", str(fault) or "it has ended"))
        except Exception as fault:
            # A mistake of this script or of etcd's, which the next replica may not meet.
            traceback.print_exc(file=sys.stderr)
            self.end(Fault("failed", repr(fault)))

    def end(self, fault: Fault) -> None:
        """Ends the program, and says why, unless that was said before."""
        self.fault = self.fault or fault
        if self.following:
            self.following.close()
        if self.program:
            self.program.kill()
        self.moved()

    def stop_following(self) -> None:
        """Carries out no more edits. What it has is still the site as it was, if it was compared with the cluster's."""
        fault = Fault("lines-used-up", f"a program takes {self.most} lines, and the next one isn't there yet")
        if not self.is_verified:
            self.end(fault)
            return
        self.is_full = fault
        if self.following:
            self.following.close()
        self.moved()

    def make(self) -> None:
        """Starts the program with what the newest snapshot has."""
        head, lines = snapshots.newest(self.history)
        self.program = self.begin()
        for first in range(0, len(lines), self.together):
            for reply in self.told(lines[first : first + self.together]):
                if reply.words[0] != "ok":
                    raise Fault("snapshot-refused", f"a line of the snapshot has the reply {reply.text()!r}")
        if head:
            self.front = head.front()
        self.set_goal(self.history.last())

    def follow(self) -> None:
        self.following = Following(self.history, self.last, self.reached)
        if self.fault:
            raise self.fault
        for batch in self.following.batches():
            for first in range(0, len(batch), self.together):
                self.carry_out(batch[first : first + self.together])

    def told(self, lines: Sequence[bytes]) -> list[Reply]:
        """The program's replies to some lines."""
        assert self.program is not None
        if self.program.lines + len(lines) > self.most - MARGIN:
            raise Fault("lines-used-up", f"a program takes {self.most} lines")
        self.owes_since = time.monotonic()
        try:
            return self.program.ask_all(lines)
        finally:
            self.owes_since = None

    def carry_out(self, edits: Sequence[Edit]) -> None:
        """Has the program carry out some edits. No page is printed between one that fails and the replica's end."""
        with self.turn:
            try:
                if self.fault:
                    raise self.fault
                assert self.program is not None
                if self.program.lines + len(edits) > self.most - MARGIN - self.most // FOR_PAGES:
                    raise Full
                for edit in edits:
                    if len(edit.line) > LINE_BYTES or b"\n" in edit.line:
                        raise Fault("history-is-damaged", f"the edit of revision {edit.place} isn't one line")
                for edit, reply in zip(edits, self.told([it.line for it in edits])):
                    self.note(edit, reply)
            except Fault as fault:
                self.fault = self.fault or fault
                raise
            except (Ended, NoReply, OSError) as fault:
                self.fault = self.fault or Fault("program-ended", str(fault) or "it has ended")
                raise self.fault from None
        self.moved()

    def note(self, edit: Edit, reply: Reply) -> None:
        if reply.is_page() or reply.is_refused() and reply.words[1] in BY_CHANCE:
            raise Fault("edit-refused", f"the edit of revision {edit.place} has the reply {reply.text()!r}")
        # Whoever sees that the edit was carried out finds its reply.
        self.done[edit.id] = (edit.place, reply.text(), len(edit.line))
        self.front = self.front.with_edit(edit)
        if self.goal and edit.place >= self.goal.place:
            self.compare()

    def compare(self) -> None:
        """Makes sure that the history up to the goal is the cluster's: the same last edit, and as many."""
        if self.last != self.goal:
            raise Fault("history-has-a-gap", f"edit {self.last} was carried out where the cluster has {self.goal}")
        if not self.is_verified:
            assert self.program is not None
            self.is_verified, self.lines_at_start = True, self.program.lines
        self.goal = None

    def set_goal(self, goal: Last) -> None:
        """Has the replica compared with the cluster's last edit, once it comes there. Does nothing if the program is
        busy for long: another goal comes soon."""
        if not self.turn.acquire(timeout=GOAL_SECONDS):
            return
        try:
            if self.goal is None and goal.place >= self.last.place:
                self.goal = goal
                if goal.place == self.last.place:
                    self.compare()
        except Fault as fault:
            self.end(fault)
        finally:
            self.turn.release()

    def get(self, path: str, until: float) -> tuple[Reply, int]:
        """The reply to a path, and the place of the last edit before it. Raises Slow if there is none by a time, or
        Fault if the replica has ended."""
        if not self.turn.acquire(timeout=max(0.0, until - time.monotonic())):
            raise Slow
        is_owed = False
        try:
            if self.fault:
                raise self.fault
            self.send(get_line(path))
            is_owed = not self.has_reply(until)
            if is_owed:
                threading.Thread(target=self.pass_over, daemon=True).start()
                raise Slow
            return self.read(), self.last.place
        except Slow:
            raise
        except (Ended, NoReply, OSError) as fault:
            ended = Fault("program-ended", str(fault) or "it has ended")
            self.end(ended)
            raise self.fault or ended from None
        except Fault as fault:
            self.end(fault)
            raise
        finally:
            if not is_owed:
                self.turn.release()

    def send(self, line: bytes) -> None:
        """Sends the program a line, whose reply is read next."""
        program = self.program
        assert program is not None
        if program.lines >= self.most - MARGIN:
            raise Fault("lines-used-up", f"a program takes {self.most} lines")
        self.owes_since = time.monotonic()
        program.lines += 1
        rest = memoryview(line + b"\n")
        while rest:
            rest = rest[program.input.write(rest) :]

    def has_reply(self, until: float) -> bool:
        """Whether the program has begun to reply, by a time at the latest."""
        assert self.program is not None
        poll = select.poll()
        poll.register(self.program.replies, select.POLLIN)
        return bool(poll.poll(max(0, int(1000 * (until - time.monotonic())))))

    def read(self) -> Reply:
        """The reply that the program owes."""
        assert self.program is not None
        try:
            return read_reply(self.program.replies)
        finally:
            self.owes_since = None

    def pass_over(self) -> None:
        """Reads a reply that nobody waits for any more, and has the program asked again."""
        try:
            self.read()
        except (Ended, NoReply, OSError) as fault:
            self.end(Fault("program-ended", str(fault) or "it has ended"))
        finally:
            self.turn.release()

    def owes(self) -> float:
        """For how many seconds the program has owed a reply."""
        since = self.owes_since
        return time.monotonic() - since if since is not None else 0.0

    def is_near_its_end(self) -> bool:
        """Whether the next replica should be begun, so that it is there before this one's program has had its lines."""
        room = self.most - MARGIN - self.lines_at_start
        lines = self.program.lines if self.program else 0
        return self.is_verified and lines > self.lines_at_start + room // 2

    def forget(self, place: int) -> None:
        """Drops what is known of edits that a snapshot has: etcd has it for as long as it may be asked for."""
        if place > self.forgotten:
            self.forgotten = place
            for name, (at, _, _) in list(self.done.items()):
                if at <= place:
                    del self.done[name]

    def size(self) -> int:
        """How many bytes the edits have that no snapshot has."""
        return sum(size for _, _, size in list(self.done.values()))

    def reply_to(self, name: str) -> str | None:
        """The reply to an edit that this has carried out and no snapshot has, or None."""
        found = self.done.get(name)
        return found[1] if found else None

    def look_after(self, known: Last, head: Head | None) -> None:
        """What is to be done now and then: ends a program that owes a reply for too long, and a watch that is silent
        although there are edits."""
        if self.owes() > REPLY_SECONDS:
            self.end(Fault("program-ended", f"it has owed a reply for {REPLY_SECONDS} s"))
        if head:
            self.forget(head.last.place)
        if self.following and known.place > self.last.place:
            self.following.kick(2)


def begin_program(words: Sequence[str]) -> Program:
    """Starts a program, and makes sure that it is one."""
    program = Program(*words)
    try:
        program.check(FIRST_SECONDS)
    except BaseException:
        program.kill()
        raise
    return program
