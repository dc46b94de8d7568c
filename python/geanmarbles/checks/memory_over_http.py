"""HTTP with each allocation of a run refused in turn: what a client then gets, and how the program ends."""

from __future__ import annotations

import re
import subprocess
from collections import Counter
from collections.abc import Iterator, Sequence
from concurrent.futures import ThreadPoolExecutor
from pathlib import Path
from typing import NamedTuple

from geanmarbles.checks.over_http import NO_TOKEN, PUT, SECONDS, START, UNKNOWN, Program, came, edit, sent
from geanmarbles.checks.programs import lanes
from geanmarbles.client.replies import Wrong, shown

NOTHING = edit(b"{}")
# A response for which memory ran out, and a page that was refused for it.
EMPTY_503 = came("503 Service Unavailable", "content-length: 0")
# The first of these to a HEAD, which has no body whose length it could say.
BARE_503 = b"HTTP/1.1 503 Service Unavailable\r\n\r\n"
NO_MEMORY = came("503 Service Unavailable", body=b"memory ran out\n")
REFUSED = b"refused 11 OutOfMemory\n"
# What is said if memory ran out at the start, for a read or a request, and if it did for the copy of an edit.
ENDED, LOST = re.compile(rb"site: (\S+/token: )?out of memory\n"), b"site: other error\n"
# What a start over a folder in place of a file says; why, for want of memory; and why, if there is enough.
NO_START, NO_ROOM, CANNOT_OPEN = re.compile(r"site: (?:\S+: )?(.*)\n"), "out of memory", "the file cannot be opened"


class Asked(NamedTuple):
    """A request, and what else may come of it than its response."""

    request: bytes
    others: tuple[bytes, ...] = (EMPTY_503,)

    def is_edit(self) -> bool:
        return self.request.startswith(b"POST /command ")

    def is_head(self) -> bool:
        return self.request.startswith(b"HEAD ")


PAGE = (EMPTY_503, NO_MEMORY)
REPLIED = tuple(came("200 OK", body=body) for body in (REFUSED, REFUSED * 2, b"refused 1 BadCommand\n" + REFUSED))
SCRIPT = [
    Asked(edit(PUT % b"Rye"), (EMPTY_503, *REPLIED)),
    Asked(sent("GET", "/"), PAGE),
    Asked(edit(b"{}", PUT % b"Oat"), (EMPTY_503, *REPLIED, came("200 OK", body=REFUSED + b"ok 2\n"))),
    Asked(sent("GET", "/?p=2"), PAGE),
    Asked(sent("GET", "/?p=9"), PAGE),
    Asked(sent("GET", "/?p=1", "If-None-Match: *"), PAGE),
    Asked(sent("PUT", "/")),
    Asked(sent("POST", "/command", body=b"{}")),
    Asked(sent("HEAD", "/"), (EMPTY_503, BARE_503, NO_MEMORY.partition(b"\r\n\r\n")[0] + b"\r\n\r\n")),
]


def responses(output: bytes, script: Sequence[Asked]) -> list[bytes]:
    """The responses of an output, which ends with a whole one."""
    found, rest = [], output
    for asked in script:
        if not rest:
            break
        head, _, after = rest.partition(b"\r\n\r\n")
        length = 0
        if not asked.is_head() and b"content-length: " in head:
            length = int(head.partition(b"content-length: ")[2].split(b"\r\n")[0])
        if not rest.startswith(b"HTTP/1.1 ") or len(after) < length:
            raise Wrong(f"this is no whole response: {shown(rest)}")
        size = len(head) + 4 + length
        found.append(rest[:size])
        rest = rest[size:]
    if rest:
        raise Wrong(f"more came than was asked for: {shown(rest)}")
    return found


class Runs:
    """Runs of the program over the script."""

    def __init__(self, program: Program, refuser: Path) -> None:
        self.program, self.refuser = program, refuser
        self.words = program.words()
        self.whole = self.plain(SCRIPT)
        if self.whole[6:8] != [UNKNOWN, NO_TOKEN]:
            raise Wrong(f"with all memory, what comes is {self.whole!r:.2000}")

    def run(self, script: Sequence[Asked], **variables: str) -> subprocess.CompletedProcess[bytes]:
        stream = b"".join(it.request for it in script)
        given = {"LD_PRELOAD": str(self.refuser), **variables}
        return subprocess.run(self.words, input=stream, capture_output=True, env=given, timeout=SECONDS, check=False)

    def got(self, ran: subprocess.CompletedProcess[bytes], script: Sequence[Asked]) -> list[bytes]:
        return responses(START.sub(b"START", ran.stdout), script)

    def plain(self, script: Sequence[Asked]) -> list[bytes]:
        """The responses if no allocation is refused."""
        ran = self.run(script)
        if ran.returncode or ran.stderr:
            raise Wrong(f"with all memory it ended with status {ran.returncode} and {shown(ran.stderr)}")
        return self.got(ran, script)

    def count(self) -> int:
        """How many allocations a run makes."""
        file = self.program.folder / "count"
        self.run(SCRIPT, REFUSE_COUNT=str(file))
        return int(file.read_text(encoding="ascii"))

    def judge(self, number: int) -> str:
        """What came of a refused allocation: 'nothing', 'ended', 'lost' or 'refused'."""
        try:
            return self.kind(self.run(SCRIPT, REFUSE_AT=str(number)))
        except Wrong as wrong:
            raise Wrong(f"allocation {number}: {wrong}") from None

    def kind(self, ran: subprocess.CompletedProcess[bytes]) -> str:
        got = self.got(ran, SCRIPT)
        if ran.returncode:
            return self.ended(ran, got)
        if ran.stderr:
            raise Wrong(f"it ended with status 0 and {shown(ran.stderr)}")
        if got == self.whole:
            return "nothing"
        if len(got) < len(self.whole):
            raise Wrong(f"it ended with status 0 after {len(got)} responses")
        return self.refused(got)

    def ended(self, ran: subprocess.CompletedProcess[bytes], got: list[bytes]) -> str:
        """The program says why it ends, and has told of nothing else than without the refusal."""
        if ran.returncode != 1 or got != self.whole[: len(got)]:
            raise Wrong(f"status {ran.returncode}, {shown(ran.stderr)}, after {len(got)} responses, or other ones")
        if ENDED.fullmatch(ran.stderr):
            return "ended"
        if ran.stderr == LOST:
            return "lost"
        raise Wrong(f"it says {shown(ran.stderr)} after {len(got)} responses")

    def refused(self, got: list[bytes]) -> str:
        """One request is refused, and what follows is as if that had been asked, or if it is an edit, as if not."""
        place = next(at for at, response in enumerate(got) if response != self.whole[at])
        if got[place] not in SCRIPT[place].others:
            raise Wrong(f"the response to request {place + 1} is {shown(got[place])}")
        followed = [self.whole]
        if SCRIPT[place].is_edit():
            followed.append(self.plain([*SCRIPT[:place], Asked(NOTHING), *SCRIPT[place + 1 :]]))
        if got[place + 1 :] not in [it[place + 1 :] for it in followed]:
            raise Wrong(f"what follows the refused request {place + 1} is as neither with nor without it")
        return "refused"


def refused_starts(program: Program, refuser: Path) -> Counter[str]:
    """What is said at starts over a folder in place of a file, each with another allocation refused."""
    words, count_file = program.words("--database", str(program.folder)), program.folder / "count"

    def said(**variables: str) -> str:
        given = {"LD_PRELOAD": str(refuser), **variables}
        ran = subprocess.run(words, input=b"", capture_output=True, env=given, timeout=SECONDS, check=False)
        why = NO_START.fullmatch(ran.stderr.decode())
        if (ran.returncode, ran.stdout) != (1, b"") or not why:
            raise Wrong(f"a start over a folder: status {ran.returncode}, {shown(ran.stderr)}, with {variables}")
        return why[1]

    said(REFUSE_COUNT=str(count_file))
    numbers = range(1, 1 + int(count_file.read_text(encoding="ascii")))
    with ThreadPoolExecutor(lanes()) as pool:
        return Counter(pool.map(lambda number: said(REFUSE_AT=str(number)), numbers))


def http_checks(program: Program, refuser: Path) -> Iterator[tuple[str, bool]]:
    """What must come of the allocations of a run, and whether it came."""
    starts = refused_starts(program, refuser)
    yield f"starts over a folder: {dict(starts)}", {NO_ROOM} <= set(starts) <= {NO_ROOM, CANNOT_OPEN}
    runs = Runs(program, refuser)
    count = runs.count()
    with ThreadPoolExecutor(lanes()) as pool:
        kinds = Counter(pool.map(runs.judge, range(1, count + 1)))
    for kind in ("ended", "lost", "refused", "nothing"):
        yield f"{kind}: {kinds[kind]} allocations of {count}", kinds[kind] > 0
