"""What the cluster says of its last edit, and those who wait until it has said so anew.

One thread of a node asks, and any number of requests wait for what it hears. An answer counts for all who had come
before its question was asked. So however many requests want to know, and whoever sends them, the cluster is asked once
in POLL_SECONDS, or in HURRY_SECONDS while somebody is in a hurry.
"""

import threading
import time

from geanmarbles.cluster.etcd import Refused, Unreachable, WentBack
from geanmarbles.cluster.history import NONE, Last

# Why a question had no answer.
Fault = Unreachable | Refused | WentBack
# How often the cluster is asked, and how often if somebody is in a hurry.
POLL_SECONDS, HURRY_SECONDS = 0.5, 0.02


class News:
    """The questions that were asked of the cluster, and the newest answer."""

    def __init__(self) -> None:
        # When the last question was begun; when the last one was that has had its answer, or has failed; and what came
        # of that.
        self.begun = self.asked = float("-inf")
        self.last = NONE
        self.fault: Fault | None = None
        # How many questions have had no answer.
        self.failures = 0
        self.turn, self.is_wanted = threading.Condition(), threading.Event()
        self.is_over = False

    def wait_to_ask(self) -> float:
        """Waits until it is time for the next question; returns the time."""
        self.is_wanted.wait(max(0.0, self.begun + POLL_SECONDS - time.monotonic()))
        if not self.is_over:
            time.sleep(max(0.0, self.begun + HURRY_SECONDS - time.monotonic()))
        self.is_wanted.clear()
        self.begun = time.monotonic()
        return self.begun

    def told(self, asked: float, last: Last) -> None:
        """Notes the answer to a question."""
        with self.turn:
            self.asked, self.last, self.fault = asked, last, None
            self.turn.notify_all()

    def failed(self, asked: float, fault: Fault) -> None:
        """Notes that a question has had no answer."""
        with self.turn:
            self.asked, self.fault, self.failures = asked, fault, self.failures + 1
            self.turn.notify_all()

    def end(self) -> None:
        """Has nobody wait to ask, or for an answer, any more."""
        self.is_over = True
        self.is_wanted.set()
        with self.turn:
            self.turn.notify_all()

    def after(self, moment: float, seconds: float, in_a_hurry: bool) -> Last:
        """The last edit by an answer to a question that was asked after a moment. Raises what the question came to if
        it has failed, or Unreachable if there is no answer in time."""
        if in_a_hurry:
            self.is_wanted.set()
        with self.turn:
            self.turn.wait_for(lambda: self.asked >= moment or self.is_over, seconds)
            if self.asked < moment:
                raise Unreachable("etcd hasn't answered in time", False)
            if self.fault is not None:
                raise self.fault.with_traceback(None)
            return self.last
