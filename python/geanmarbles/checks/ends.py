"""Runs the program with an input that comes in pieces, and with ends that fail in mid-stream.

    tests/ends/run [PROGRAM]

PROGRAM is the one that is here, built or shipped, if it is left out. fail.c, loaded before the C library, cuts
reads of standard input and writes to standard output short, and lets a read or a write fail after some bytes. A pipe
that nobody reads and a device that is full let every write fail without it. Each run must end with the status and the
line on standard error of its fault, having written the replies to the lines that it had read whole, up to the byte
at which the writing failed. The short pieces of a reply must be written together.

The same is done to what else is written:

- the log of `--trace` on standard error: short writes change nothing of it, and after one that fails nothing more is
  written, though later ones wouldn't fail. The replies and the status are as without;
- the lines of `--export`, and the line of `--check`: they end at the byte at which the writing failed, with status 1
  and `site: write failed`. The file's history is as it was;
- the text of `--help`, whose status is 0 all the same; and `--compact`, which writes nothing.

fail.c is compiled by `cc`, without which all is skipped. The last lines say how many runs there were of each kind, and
'N passed, M failed' over all. The exit status is 0 if nothing failed.
"""

import os
import subprocess
import tempfile
from collections.abc import Callable, Sequence
from functools import partial
from pathlib import Path
from typing import IO, Any, NamedTuple

from geanmarbles.checks.database.files import check_equal, history
from geanmarbles.checks.judging import Cases, Counts, Skipped
from geanmarbles.checks.programs import compiled, parser_of
from geanmarbles.client.replies import Wrong
from geanmarbles.paths import TESTS

HERE = TESTS / "ends"
SECONDS = 60

INPUT = b"""{"cmd":"get","path":"/"}
{}

{"cmd":"put","title":"T","date":"2024-05-01 10:00:00"}
{"cmd":"get","path":"/"}"""
FIRST = b"page 200 21\n<p>Nothing found.</p>\n"
OUTPUT = FIRST + b"refused 1 BadCommand\nrefused 1 BadCommand\nok 1\npage 200 10\n<h2>T</h2>\n"
WHOLE_LINES = OUTPUT[: OUTPUT.index(b"page 200 10")]
ROOMS = len(OUTPUT)
FIRST_LINE = INPUT.index(b"\n")
READ_FAILED = (1, b"site: read failed\n")
WRITE_FAILED = (1, b"site: write failed\n")


def page_of(size: int) -> bytes:
    """An input whose last reply is a page with a content of that many bytes."""
    put = b'{"cmd":"put","title":"T","content":"%s","date":"2024-05-01 10:00:00"}\n' % (b"x" * size)
    return put + b'{"cmd":"get","path":"/"}\n'


# What a run shows, its input, and in how many writes its replies are written. A page that doesn't fit into the room in
# which pieces are gathered is written from where it is, between the line before it and the newline after it.
WRITES = [
    ("short replies", INPUT, 5),
    ("a page of 2,000 bytes", page_of(2_000), 2),
    ("a page of 16,000 bytes", page_of(16_000), 2),
    ("a page of 20,000 bytes", page_of(20_000), 4),
]

# What a run shows, what limits its ends, what it must write, and its status and line on standard error.
RUNS: list[tuple[str, dict[str, int], bytes, tuple[int, bytes]]] = [
    *[(f"reads of {size} bytes", {"PIECE": size}, OUTPUT, (0, b"")) for size in (1, 2, 3, 7, 25)],
    *[(f"writes of {size} bytes", {"TAKES": size}, OUTPUT, (0, b"")) for size in range(1, 9)],
    ("no limit", {}, OUTPUT, (0, b"")),
    ("a read that fails at once", {"GOOD": 0}, b"", READ_FAILED),
    ("one before the first line ends", {"PIECE": 7, "GOOD": FIRST_LINE}, b"", READ_FAILED),
    ("one at its end", {"PIECE": 7, "GOOD": FIRST_LINE + 1}, FIRST, READ_FAILED),
    ("one after it", {"PIECE": 7, "GOOD": FIRST_LINE + 2}, FIRST, READ_FAILED),
    ("one after a last line without a newline", {"GOOD": len(INPUT)}, WHOLE_LINES, READ_FAILED),
    ("a read that fails, before others that don't", {"GOOD": FIRST_LINE + 2, "TIMES": 1}, FIRST, READ_FAILED),
    *[(f"a write that fails after {room} bytes", {"ROOM": room}, OUTPUT[:room], WRITE_FAILED) for room in range(ROOMS)],
    ("a write that fails, before others that don't", {"ROOM": 5, "TIMES": 1}, OUTPUT[:5], WRITE_FAILED),
    ("one that takes no byte, before others that do", {"ROOM": 5, "TIMES": 1, "SILENTLY": 1}, OUTPUT[:5], WRITE_FAILED),
]


def unread_pipe() -> IO[bytes]:
    """The end for writing of a pipe that nobody reads."""
    reader, writer = os.pipe()
    os.close(reader)
    return open(writer, "wb")


def full_device() -> IO[bytes]:
    """A device that takes no byte."""
    return open("/dev/full", "wb")


# Outputs that the system itself fails, without fail.c.
FAILING_OUTPUTS = [("a pipe that nobody reads", unread_pipe), ("a device that is full", full_device)]

# A site whose page runs callbacks, of which the log of --trace tells.
TRACED_INPUT = b"""{"cmd":"activate","plugin":"marks"}
{"cmd":"put","title":"T","date":"2024-05-01 10:00:00"}
{"cmd":"get","path":"/"}
{"cmd":"get","path":"/?p=1"}
"""
# How many lines that log has: three invocations and the end of each of two pages.
TRACED_LINES = 8
# A site with a post, an option, a template and a plugin, each of which is a line of its export; a page has two lines.
STORED_INPUT = (
    TRACED_INPUT
    + b"""{"cmd":"option","name":"blogname","value":"S"}
{"cmd":"template","name":"404","body":["none"]}
"""
)
STORED_LINES, EXPORTED_LINES = 8, 4
# Limits under which the writes to a descriptor are short and nothing fails; and what else limits one that fails, before
# others that don't, with how many bytes further on it fails from one run to the next.
SHORT: list[dict[str, int]] = [{"TAKES": size} for size in (*range(1, 9), 100)]
FAILING: list[tuple[dict[str, int], int]] = [
    ({"TIMES": 1}, 1),
    ({"TIMES": 1, "TAKES": 3}, 7),
    ({"TIMES": 1, "SILENTLY": 1}, 7),
]


# What opens an output that fails.
Opened = Callable[[], IO[bytes]]


class Ended(NamedTuple):
    """What a run has written, and how it ended."""

    output: bytes
    said: bytes
    status: int

    def shown(self) -> str:
        return f"wrote {self.output!r}, said {self.said!r} and ended with status {self.status}"


def served(program: str, variables: dict[str, str], stdout: Any, output: bytes, end: tuple[int, bytes]) -> None:
    """A run over the input, which must write this, and end so."""
    run = subprocess.run([program], input=INPUT, stdout=stdout, stderr=subprocess.PIPE, env=variables, timeout=SECONDS)
    if (run.stdout or b"") != output:
        raise Wrong(f"it wrote {run.stdout!r}, wanted {output!r}")
    if (run.returncode, run.stderr) != end:
        raise Wrong(f"it ended with status {run.returncode} and {run.stderr!r}, wanted {end[0]} and {end[1]!r}")


def served_into(program: str, opened: Opened) -> None:
    with opened() as stdout:
        served(program, {}, stdout, b"", WRITE_FAILED)


def counted(program: str, variables: dict[str, str], lines: bytes, count: int, file: Path) -> None:
    """A run that must write so often."""
    variables = {**variables, "FAIL_COUNT": str(file)}
    run = subprocess.run([program], input=lines, capture_output=True, env=variables, timeout=SECONDS)
    if (run.returncode, run.stderr) != (0, b""):
        raise Wrong(f"it ended with status {run.returncode} and {run.stderr!r}")
    written = int(file.read_text(encoding="ascii"))
    if written != count:
        raise Wrong(f"it wrote {written} times, wanted {count}")


def line_cases(program: str, library: str, folder: Path) -> Cases:
    """Serving lines whose reads are short or fail, and whose writes do."""
    for name, lines, count in WRITES:
        check = partial(counted, program, {"LD_PRELOAD": library}, lines, count, folder / "count")
        yield f"{name} in {count} writes", check
    for name, limits, output, end in RUNS:
        variables = {f"FAIL_{limit}": str(value) for limit, value in limits.items()}
        yield name, partial(served, program, {"LD_PRELOAD": library, **variables}, subprocess.PIPE, output, end)
    for name, opened in FAILING_OUTPUTS:
        yield name, partial(served_into, program, opened)


class Writer:
    """What else writes, run with fail.c on its descriptor."""

    def __init__(self, program: str, library: str, words: Sequence[str], given: bytes, descriptor: int = 1) -> None:
        self.program, self.words, self.given = program, words, given
        self.variables = {"LD_PRELOAD": library, "FAIL_FILE": str(descriptor)}

    def ran(self, limits: dict[str, int], stdout: Any = subprocess.PIPE) -> Ended:
        variables = {**self.variables, **{f"FAIL_{limit}": str(value) for limit, value in limits.items()}}
        how: dict[str, Any] = {"env": variables, "stdout": stdout, "stderr": subprocess.PIPE, "timeout": SECONDS}
        run = subprocess.run([self.program, *self.words], input=self.given, **how)
        return Ended(run.stdout or b"", run.stderr, run.returncode)

    def check(self, limits: dict[str, int], wanted: Ended, stdout: Any = subprocess.PIPE) -> None:
        came = self.ran(limits, stdout)
        if came != wanted:
            raise Wrong(f"it {came.shown()}, wanted that it {wanted.shown()}")

    def check_into(self, opened: Opened, wanted: Ended) -> None:
        """A run whose standard output the system itself fails."""
        with opened() as stdout:
            self.check({}, wanted, stdout)


def whole(writer: Writer, count: int, is_log: bool = False) -> Ended:
    """What comes without a limit, which must have so many lines."""
    ended = writer.ran({})
    written = ended.said if is_log else ended.output
    if ended.status or written.count(b"\n") != count or not written.endswith(b"\n"):
        raise Wrong(f"without a limit it {ended.shown()}")
    return ended


def log_cases(program: str, library: str) -> Cases:
    """The log of --trace, up to the byte at which a write fails and no further."""
    traced = Writer(program, library, ["--trace"], TRACED_INPUT, 2)
    log = whole(traced, TRACED_LINES, is_log=True)
    for limits in SHORT:
        yield f"a log in writes of {limits['TAKES']} bytes", partial(traced.check, limits, log)
    for more, step in FAILING:
        for room in range(0, len(log.said), step):
            wanted = log._replace(said=log.said[:room])
            yield f"a log that fails after {room} bytes, {more}", partial(traced.check, {"ROOM": room, **more}, wanted)


def printing_cases(what: str, writer: Writer, printed: Ended) -> Cases:
    """A run that prints this, up to the byte at which a write fails."""
    for limits in SHORT:
        yield f"{what} in writes of {limits['TAKES']} bytes", partial(writer.check, limits, printed)
    failed = Ended(printed.output, WRITE_FAILED[1], WRITE_FAILED[0])
    for room in range(len(printed.output)):
        wanted = failed._replace(output=printed.output[:room])
        yield f"{what} that fails after {room} bytes", partial(writer.check, {"ROOM": room}, wanted)
    for more, _ in FAILING:
        wanted = failed._replace(output=printed.output[:5])
        yield f"{what} that fails after 5 bytes, {more}", partial(writer.check, {"ROOM": 5, **more}, wanted)
    for name, opened in FAILING_OUTPUTS:
        yield f"{what} into {name}", partial(writer.check_into, opened, failed._replace(output=b""))


def export_cases(program: str, library: str, file: Path) -> Cases:
    """The lines of --export and of --check, up to the byte at which a write fails; and --compact, which writes none."""
    words = ["--database", str(file)]
    whole(Writer(program, library, words, STORED_INPUT), STORED_LINES)
    before = history(file)
    export = Writer(program, library, [*words, "--export"], b"")
    printed = whole(export, EXPORTED_LINES)
    yield from printing_cases("an export", export, printed)
    check = Writer(program, library, [*words, "--check"], b"")
    yield from printing_cases("a check", check, whole(check, 1))
    yield "the history after what failed", lambda: check_equal(history(file), before)
    compact = Writer(program, library, [*words, "--compact"], b"")
    yield "--compact with a full output", partial(compact.check_into, full_device, Ended(b"", b"", 0))
    short = [before[0], *printed.output.splitlines()]
    yield "the history after --compact", lambda: check_equal(history(file), short)


def help_cases(program: str, library: str) -> Cases:
    """The text of --help, as far as it can be written, and status 0."""
    helped = Writer(program, library, ["--help"], b"{}\n")
    text = helped.ran({})
    if text.status or b"--database <FILE>" not in text.output or text.said:
        raise Wrong(f"--help {text.shown()}")
    for limits in SHORT:
        yield f"--help in writes of {limits['TAKES']} bytes", partial(helped.check, limits, text)
    for room in range(0, len(text.output), 100):
        wanted = text._replace(output=text.output[:room])
        yield f"--help that fails after {room} bytes", partial(helped.check, {"ROOM": room}, wanted)
    for name, opened in FAILING_OUTPUTS:
        yield f"--help into {name}", partial(helped.check_into, opened, text._replace(output=b""))


def main() -> int:
    program = parser_of(__doc__).parse_args().program
    counts = Counts()
    with tempfile.TemporaryDirectory() as name:
        folder = Path(name)
        try:
            library = str(compiled(HERE / "fail.c", folder))
        except Skipped as why:
            counts.skip("all runs", why)
            return counts.end()
        except (OSError, subprocess.SubprocessError) as fault:
            counts.fail("fail.c", fault)
            return counts.end()
        for what, cases in {
            "lines": line_cases(program, library, folder),
            "--trace": log_cases(program, library),
            "--export, --check and --compact": export_cases(program, library, folder / "site.db"),
            "--help": help_cases(program, library),
        }.items():
            print(f"{what}: {counts.judge_all(cases)} runs", flush=True)
    readers = sum(end == READ_FAILED for *_, end in RUNS)
    writers = sum(end == WRITE_FAILED for *_, end in RUNS) + len(FAILING_OUTPUTS)
    print(f"of those over lines {readers} have readers that fail, and {writers} writers")
    return counts.end()
