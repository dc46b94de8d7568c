"""Runs the program with each of its allocations refused in turn.

    tests/memory/run [--snippets] [PROGRAM]
    tests/memory/run --database [PROGRAM]
    tests/memory/run --http [PROGRAM]

PROGRAM is the one that is here, built or shipped, if it is left out. It reads script.jsonl, whose replies are
script.out, or with --snippets, which it is given too, snippets.jsonl and snippets.out; and refuse.c, loaded before the
C library, refuses one allocation of the run: the first in one run, the second in the next, to the last. What must come
of it is one of these:

- the program ends with status 1 and `site: out of memory`, the replies so far being those of script.out;
- the reply to one line is `refused 11 OutOfMemory`, those before it are as in script.out, and those after it as in a
  run of the script without that line, so the refused line has changed nothing, no row and no open page. If it is a
  `turns`, they may also be as in a run in which it gives its page all its turns: then it has closed that page alone;
- nothing: the output is script.out, since the program can do without what it asked that memory for.

Each line must be refused in some run.

With `--database` a site in a file is served so, whose edits and pages take several reads, and what SQLite then finds in
the file is judged too. Besides a refused line and nothing, what may come is

- a start that is refused: with `site: FILE: out of memory`, `site: FILE: line N of the history is refused: 11
  OutOfMemory` or `site: out of memory`. Nothing is replied, and the history is as it was;
- the end `site: out of memory` later on: exactly the lines before it have their replies, and the history has all of
  their edits that were done, and no others. Which lines these are follows from the lines that the allocations before
  and after this one refuse;
- a commit that fails, with `site: the database failed: out of memory`: no reply from the first edit of the commit on is
  written, and the history has the edits that were replied to, and no others.

Each of these must come of some allocation. `--export` and `--compact` of the same file are either whole or refused as a
start is, and then the history is as it was and nothing was printed. A file without its log is never opened.

With `--http` the program serves requests so. What may come is

- the end `site: out of memory`, at the start or as the next requests are read;
- one response that is a 503, or of commands has `refused 11 OutOfMemory` for a line; those before it are as without the
  refusal, and so are those after it, or if it is an edit, as without it;
- the end `site: other error`, as no copy of an edit could be kept: no response tells of that edit;
- the end of the connection, with status 0, as memory ran out for a request or a response that is under way.

What was written before an end is the first responses, as they are without the refusal. A start over a folder in place
of a file ends with status 1, and says that it can't be opened, or that memory ran out.

refuse.c is compiled by `cc`, without which all is skipped. The last line is 'N passed, M failed', over the lines of the
script and what else must come. The exit status is 0 if nothing failed.
"""

import json
import re
import subprocess
import tempfile
from collections import Counter
from collections.abc import Callable, Iterable, Iterator, Sequence
from concurrent.futures import ThreadPoolExecutor
from pathlib import Path
from typing import NamedTuple

from geanmarbles.checks.database.clients import done, get, is_edit, joined, line_of, over, put, replies, run
from geanmarbles.checks.database.files import check_equal, copied, history, log_of, summary
from geanmarbles.checks.judging import Counted, Counts, must
from geanmarbles.checks.memory_over_http import http_checks
from geanmarbles.checks.over_http import Program
from geanmarbles.checks.programs import compiled, lanes, missing, parser_of
from geanmarbles.client.replies import Wrong, shown, whole_replies
from geanmarbles.paths import TESTS

HERE = TESTS / "memory"
REFUSED = b"refused 11 OutOfMemory\n"
SECONDS = 60
# How many runs over a file are made at once on a processor: they wait for the disk most of their time.
WAITING = 4
# More turns than any page of the script has.
ALL_TURNS = 1_000
# What may become of what a refused line speaks of.
KEPT, CLOSED = "as it was", "closed"
ENDED = b"site: out of memory\n"
COMMIT_FAILED = b"site: the database failed: out of memory\n"
# What a start may say after the name of its file.
START_FAULT = re.compile(rb"(out of memory|line ([0-9]+) of the history is refused: 11 OutOfMemory)\n")
# What a file holds before it is served.
STORED = [
    line_of(cmd="activate", plugin="bold"),
    put(title="first", content="[b]x[/b]"),
    line_of(cmd="option", name="blogname", value="S"),
]
# How many groups of lines are then served, and the length of the content in each: some four groups fit into one read.
GROUPS, LENGTH = 10, 15_000


class Runs:
    """Runs of a program over the script, with the replies that each must write."""

    def __init__(self, words: Sequence[str], refuser: Path, count_file: Path, script: Path) -> None:
        self.words = words
        self.refuser = refuser
        self.count_file = count_file
        self.lines = script.read_bytes().splitlines(keepends=True)
        self.replies = whole_replies(script.with_suffix(".out").read_bytes())
        self.others: dict[int, dict[str, list[bytes]]] = {}

    def run(self, lines: Iterable[bytes], **variables: str) -> subprocess.CompletedProcess[bytes]:
        given = {"LD_PRELOAD": str(self.refuser), **variables}
        return subprocess.run(self.words, input=b"".join(lines), capture_output=True, env=given, timeout=SECONDS)

    def count(self) -> int:
        """How many allocations the whole script makes."""
        done = self.run(self.lines, REFUSE_COUNT=str(self.count_file))
        if done.returncode != 0 or whole_replies(done.stdout) != self.replies:
            raise Wrong("with all memory, the output is another")
        return int(self.count_file.read_text())

    def expected(self, place: int) -> dict[str, list[bytes]]:
        """The replies to the other lines if the line at a place is refused, for each of what may become of its page."""
        if place not in self.others:
            before, after = self.lines[:place], self.lines[place + 1 :]
            others = {KEPT: whole_replies(self.run(before + after).stdout)}
            command = json.loads(self.lines[place])
            if command["cmd"] == "turns":
                all_turns = json.dumps({**command, "count": ALL_TURNS}).encode() + b"\n"
                replies = whole_replies(self.run([*before, all_turns, *after]).stdout)
                others[CLOSED] = replies[:place] + replies[place + 1 :]
            self.others[place] = others
        return self.others[place]

    def judge(self, number: int) -> str | tuple[int, str]:
        """What came of a refused allocation: 'ended', 'nothing', or a refused line's place and its page's state."""
        done = self.run(self.lines, REFUSE_AT=str(number))
        replies = whole_replies(done.stdout)
        if done.returncode == 1 and done.stderr == b"site: out of memory\n":
            if replies != self.replies[: len(replies)]:
                raise Wrong(f"allocation {number}: another reply before the end")
            return "ended"
        if done.returncode != 0:
            raise Wrong(f"allocation {number}: status {done.returncode}")
        if replies == self.replies:
            return "nothing"
        place = next(at for at, reply in enumerate(replies) if reply != self.replies[at])
        if replies[place] != REFUSED:
            raise Wrong(f"allocation {number}: the reply to line {place + 1} is {shown(replies[place])}")
        for what, others in self.expected(place).items():
            if replies[:place] + replies[place + 1 :] == others:
                return place, what
        raise Wrong(f"allocation {number}: what follows the refused line {place + 1} isn't as without it")


def tried(words: Sequence[str], script: Path) -> Counted:
    """Refuses each allocation once, and says which lines passed and which were never refused."""
    with tempfile.TemporaryDirectory() as name:
        folder = Path(name)
        runs = Runs(words, compiled(HERE / "refuse.c", folder), folder / "count", script)
        count = runs.count()
        with ThreadPoolExecutor(lanes()) as pool:
            came = Counter(pool.map(runs.judge, range(1, count + 1)))
    places = [came[place, KEPT] + came[place, CLOSED] for place in range(len(runs.lines))]
    for place, times in enumerate(places):
        print(f"line {place + 1}: refused {times} times{'' if times else ': FAILED, it was never tried'}")
    print(f"{count} allocations, each refused in one run of {len(places)} lines: {came['ended']} runs ended,", end=" ")
    closed = sum(came[place, CLOSED] for place in range(len(places)))
    print(f"{sum(places)} refused one line, of which {closed} closed a page, {came['nothing']} were as without it")
    return Counted(sum(map(bool, places)), places.count(0))


def served() -> list[bytes]:
    """Lines for a site in a file: in each group an edit with a long content, a page that shows it, and one without."""
    groups = range(2, 2 + GROUPS)
    return [line for it in groups for line in (put(content="x" * LENGTH), get(f"/?p={it}"), get("/x"))]


class Came(NamedTuple):
    """What came of a refused allocation: 'start', 'named', 'ended', 'commit', 'refused' or 'nothing', and how many
    lines, or which one."""

    kind: str
    lines: int = 0


class FileRuns:
    """Runs of a program over copies of a file."""

    def __init__(self, program: str, refuser: Path, folder: Path) -> None:
        self.program, self.refuser, self.folder = program, refuser, folder
        self.file = folder / "site.db"
        replies(program, STORED, *over(self.file))
        self.before = history(self.file)
        # What its export prints, which is its short history but for the first line.
        self.export = run(program, b"", *over(copied(self.file, folder), "--export")).stdout
        self.short = [self.before[0], *self.export.splitlines()]
        self.lines = served()
        # The replies and the history of a run whose memory isn't refused, and the same without one of the lines.
        self.whole, self.after = self.plain(self.lines)
        self.others: dict[int, tuple[list[bytes], list[bytes]]] = {}

    def plain(self, lines: Sequence[bytes]) -> tuple[list[bytes], list[bytes]]:
        """The replies to some lines by a program in memory, after those of the file, and the history that they make."""
        got = replies(self.program, [*STORED, *lines])[len(STORED) :]
        return got, [*self.before, *done(lines, got)]

    def without(self, place: int) -> tuple[list[bytes], list[bytes]]:
        if place not in self.others:
            self.others[place] = self.plain(self.lines[:place] + self.lines[place + 1 :])
        return self.others[place]

    def run(self, file: Path, given: bytes, *words: str, **variables: str) -> subprocess.CompletedProcess[bytes]:
        """A run whose input is a file, so that each read of it is as long as it can be."""
        environment = {"LD_PRELOAD": str(self.refuser), **variables}
        with tempfile.TemporaryFile() as lines:
            lines.write(given)
            lines.seek(0)
            return run(self.program, None, *over(file, *words), stdin=lines, env=environment)

    def count(self, given: bytes, *words: str) -> int:
        """How many allocations a run makes."""
        with tempfile.TemporaryDirectory() as folder:
            count = Path(folder, "count")
            ran = self.run(copied(self.file, folder), given, *words, REFUSE_COUNT=str(count))
            if ran.returncode or ran.stderr and "--export" not in words:
                raise Wrong(f"with all memory it ended with status {ran.returncode} and {shown(ran.stderr)}")
            return int(count.read_text(encoding="ascii"))

    def is_start_refused(self, file: Path, said: bytes, longest: int) -> bool:
        """Whether a start was refused for its memory; a line that it names must be among so many."""
        if said == ENDED:
            return True
        front = f"site: {file}: ".encode()
        found = START_FAULT.fullmatch(said.removeprefix(front))
        return said.startswith(front) and found is not None and (found[2] is None or 1 <= int(found[2]) <= longest)

    def served(self, number: int) -> Came:
        """What comes of a refused allocation as the file is served."""
        with tempfile.TemporaryDirectory() as folder:
            file = copied(self.file, folder)
            ran = self.run(file, joined(self.lines), REFUSE_AT=str(number))
            got, found = whole_replies(ran.stdout), history(file, is_spent=True)
            if ran.returncode == 0:
                return self.refused(got, found)
            return self.ended(file, ran, got, found)

    def ended(self, file: Path, ran: subprocess.CompletedProcess[bytes], got: list[bytes], found: list[bytes]) -> Came:
        """What came of a run that has ended before its input."""
        count = len(got)
        if ran.returncode != 1 or got != self.whole[:count]:
            raise Wrong(f"status {ran.returncode}, {shown(ran.stderr)}, after {count} replies, or other replies")
        check_equal(found, [*self.before, *done(self.lines[:count], got)])
        if ran.stderr == COMMIT_FAILED:
            if not is_edit(self.lines[count]):
                raise Wrong(f"a commit failed, and the reply to line {count + 1}, which is no edit, was held back")
            return Came("commit", count)
        if count and ran.stderr == ENDED:
            return Came("ended", count)
        if count or not self.is_start_refused(file, ran.stderr, len(self.before)):
            raise Wrong(f"it says {shown(ran.stderr)} after {count} replies")
        return Came("start")

    def refused(self, got: list[bytes], found: list[bytes]) -> Came:
        """What came of a run that has read its whole input."""
        if got == self.whole:
            check_equal(found, self.after)
            return Came("nothing")
        place = next(at for at, reply in enumerate(got) if reply != self.whole[at])
        if got[place] != REFUSED:
            raise Wrong(f"the reply to line {place + 1} is {shown(got[place])}")
        others, after = self.without(place)
        if got[:place] + got[place + 1 :] != others:
            raise Wrong(f"what follows the refused line {place + 1} isn't as without it")
        check_equal(found, after)
        return Came("refused", place)

    def printed(self, number: int) -> Came:
        """What comes of a refused allocation as the file is exported: all its lines, and what the file has, or none of
        them."""
        with tempfile.TemporaryDirectory() as folder:
            file = copied(self.file, folder)
            ran = self.run(file, b"", "--export", REFUSE_AT=str(number))
            check_equal(history(file, is_spent=True), self.before)
            return self.made(file, ran, self.export, f"site: {file}: {summary(self.before)}\n".encode())

    def compacted(self, number: int) -> Came:
        """What comes of a refused allocation as the history is made shorter: it is the short one or as it was."""
        with tempfile.TemporaryDirectory() as folder:
            file = copied(self.file, folder)
            ran = self.run(file, b"", "--compact", REFUSE_AT=str(number))
            came = self.made(file, ran, b"")
            check_equal(history(file, is_spent=True), self.before if came.kind == "start" else self.short)
            return came

    def lone(self, folder: str, **variables: str) -> tuple[Path, subprocess.CompletedProcess[bytes]]:
        """A run over a copy of the file without its log."""
        file = copied(self.file, folder)
        log_of(file).unlink()
        return file, self.run(file, b"", **variables)

    def count_alone(self) -> int:
        """How many allocations a run over such a copy makes. With all memory it is refused by name."""
        with tempfile.TemporaryDirectory() as folder:
            count = Path(folder, "count")
            file, ran = self.lone(folder, REFUSE_COUNT=str(count))
            if not ran.stderr.startswith(self.lack_of_log(file)):
                raise Wrong(f"without its log it says {shown(ran.stderr)}")
            return int(count.read_text(encoding="ascii"))

    def lack_of_log(self, file: Path) -> bytes:
        return f"site: {file}: {log_of(file)} is not there".encode()

    def alone(self, number: int) -> Came:
        """What comes of a refused allocation as the file has no log: it is never opened."""
        with tempfile.TemporaryDirectory() as folder:
            file, ran = self.lone(folder, REFUSE_AT=str(number))
            if (ran.returncode, ran.stdout) != (1, b"") or file.read_bytes() != self.file.read_bytes():
                raise Wrong(
                    f"without its log: status {ran.returncode}, it wrote {shown(ran.stdout)} or changed the file"
                )
            if log_of(file).exists():
                raise Wrong("without its log: it was opened, which made the log")
            if ran.stderr.startswith(self.lack_of_log(file)):
                return Came("named")
            if self.is_start_refused(file, ran.stderr, 0):
                return Came("start")
            raise Wrong(f"without its log it says {shown(ran.stderr)}")

    def made(self, file: Path, ran: subprocess.CompletedProcess[bytes], output: bytes, told: bytes = b"") -> Came:
        """What came of a run that prints this, and says this, or is refused as a start is."""
        if (ran.returncode, ran.stdout, ran.stderr) == (0, output, told):
            return Came("nothing")
        longest = max(len(self.before), len(self.short))
        if (ran.returncode, ran.stdout) == (1, b"") and self.is_start_refused(file, ran.stderr, longest):
            return Came("start")
        raise Wrong(f"it ended with status {ran.returncode}, wrote {shown(ran.stdout)} and said {shown(ran.stderr)}")


def check_order(came: Sequence[Came]) -> None:
    """A run that ended has replied to all lines that it had begun, which are those that earlier allocations refuse, and
    to none that only later ones do."""
    most = len(served())
    for at, (kind, count) in enumerate(came):
        if kind not in ("ended", "start"):
            continue
        before = max((it.lines + 1 for it in came[:at] if it.kind == "refused"), default=0)
        after = min((it.lines for it in came[at:] if it.kind == "refused"), default=most)
        if not before <= count <= after:
            what = f"it ended after {count} replies, where {before} lines had been carried out"
            raise Wrong(f"allocation {at + 1}: {what}")


def in_turn(count: int, judge: Callable[[int], Came]) -> list[Came]:
    """What came of each of so many allocations."""

    def judged(number: int) -> Came:
        try:
            return judge(number)
        except Wrong as wrong:
            raise Wrong(f"allocation {number}: {wrong}") from None

    with ThreadPoolExecutor(WAITING * lanes()) as pool:
        return list(pool.map(judged, range(1, count + 1)))


def file_checks(program: str, folder: Path) -> Iterator[tuple[str, bool]]:
    """What must come of the allocations of runs over a file, and whether it came."""
    runs = FileRuns(program, compiled(HERE / "refuse.c", folder), folder)
    came = in_turn(runs.count(joined(runs.lines)), runs.served)
    check_order(came)
    kinds = Counter(it.kind for it in came)
    for kind in ("start", "ended", "commit", "nothing"):
        yield f"{kind}: {kinds[kind]} allocations of {len(came)}", kinds[kind] > 0
    refused = Counter(it.lines for it in came if it.kind == "refused")
    for place in range(len(runs.lines)):
        yield f"line {place + 1}: refused {refused[place]} times", refused[place] > 0
    for what, judge in (("--export", runs.printed), ("--compact", runs.compacted)):
        made = Counter(it.kind for it in in_turn(runs.count(b"", what), judge))
        yield f"{what}: {made['start']} refused, {made['nothing']} as without", made["start"] > 0
    made = Counter(it.kind for it in in_turn(runs.count_alone(), runs.alone))
    yield f"without its log: {made['start']} out of memory, {made['named']} refused by name", made["start"] > 0


def tried_over_a_file(program: str) -> Counted:
    """Refuses each allocation of runs over a file once, and says what came and what never did."""
    with tempfile.TemporaryDirectory() as name:
        return counted(file_checks(program, Path(name)))


def tried_over_http(program: str) -> Counted:
    """Refuses each allocation of a run over HTTP once, and says what came and what never did."""
    with tempfile.TemporaryDirectory() as name:
        folder = Path(name)
        return counted(http_checks(Program(program, folder), compiled(HERE / "refuse.c", folder)))


def counted(of: Iterable[tuple[str, bool]]) -> Counted:
    """How many of some checks hold, and how many don't; each is said."""
    checks = list(of)
    for what, holds in checks:
        print(f"{what}{'' if holds else ': FAILED, it never came'}")
    passed = sum(holds for _, holds in checks)
    return Counted(passed, len(checks) - passed)


def main() -> int:
    parser = parser_of(__doc__)
    parser.add_argument("--snippets", action="store_true", help="read lines for the plugin snippets")
    parser.add_argument("--database", action="store_true", help="serve a site in a file, and judge what it then holds")
    parser.add_argument("--http", action="store_true", help="serve requests of HTTP")
    options = parser.parse_args()
    program = options.program
    counts = Counts()

    def check() -> Counted:
        must(not missing(program), missing(program) or "")
        if options.http:
            return tried_over_http(program)
        if options.database:
            return tried_over_a_file(program)
        if options.snippets:
            return tried([program, "--snippets"], HERE / "snippets.jsonl")
        return tried([program], HERE / "script.jsonl")

    counts.judge("each allocation refused in turn", check)
    return counts.end()
