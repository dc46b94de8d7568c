"""Runs the program with `--trace`, and the scripts that read its log.

    tests/trace/run [--lists N] [PROGRAM]

PROGRAM is the one that is here, built or shipped, if it is left out. What each line of a log is, tests/rows/trace.json
says. Here are

- the examples, and N lists of random lines, 200 if N is left out, made as those of tests/fuzz: what is written on
  standard output is the same with the option and without. The log tells of each page that is printed or refused, in
  order, with its status and length or its refusal, and of each of its invocations, counted from 1. A page has exactly
  as many of them as it takes turns before its last one;
- logs that can't be written: standard error that is closed, full, only for reading, or whose reader goes away at once
  or after some lines. The pages come as without the option;
- the script of tests/memory with each of its allocations refused in turn: what is written is as tests/memory says, so
  no page is refused for the log. In some runs the log alone has lost lines, and it never has others. A page that is
  refused since memory ran out is told as such;
- pages of as many invocations as `--calls` can allow, each of which is told, and the end;
- `geanmarbles explain` and `geanmarbles step`: what they print for the logs of tests/rows/trace.json, and for a
  session;
- `geanmarbles explain` --notes: what it prints for the log of notes.jsonl, and over random contents that it names no
  shortcode of an active plugin, each other one that stays, and no text as unchanged that isn't.

The last line is 'N passed, M failed'. The exit status is 0 if nothing failed.
"""

import argparse
import html
import json
import os
import re
import subprocess
import tempfile
from collections.abc import Callable, Iterable, Iterator, Sequence
from concurrent.futures import ThreadPoolExecutor
from functools import partial
from pathlib import Path
from random import Random
from typing import Any

from geanmarbles.repository import shipped
from geanmarbles.arguments import Parser
from geanmarbles.checks import memory
from geanmarbles.checks.fuzz.lines import BY_TURNS, Lines
from geanmarbles.checks.fuzz.shorter import Shorter
from geanmarbles.checks.fuzz.values import command_of
from geanmarbles.checks.judging import Counts, Skipped
from geanmarbles.checks.programs import compiled, lanes, missing
from geanmarbles.client.log import Told
from geanmarbles.client.replies import REFUSALS, Wrong, refusal_of, shown, whole_replies
from geanmarbles.paths import EXAMPLES, GEANMARBLES, TESTS

Cases = Iterator[tuple[str, Callable[[], object]]]

HERE = TESTS / "trace"
SECONDS = 120
LISTS = 200
CALLS = 1_000
# The most invocations that a page may be allowed, and how one is asked for that makes them: at once, or by turns.
MOST_CALLS = 100_000
ASKS = {
    "at once": [b'{"cmd":"get","path":"/"}'],
    "by turns": [b'{"cmd":"begin","path":"/"}', b'{"cmd":"turns","page":1,"count":1000000}'],
}
SHORTER = Shorter()
OK = b"ok\n"
# A log that isn't written: what a shell makes of standard error.
UNWRITTEN = {"closed": "2>&-", "full": "2>/dev/full", "only for reading": "2</dev/null"}


class Program:
    """Runs of a program."""

    def __init__(self, path: str) -> None:
        self.path = str(path)

    def run(self, given: bytes, *words: str, **how: Any) -> subprocess.CompletedProcess[bytes]:
        whole: dict[str, Any] = {"capture_output": True, "timeout": SECONDS, **how}
        return subprocess.run([self.path, *words], input=given, **whole)

    def replies(self, lines: Sequence[bytes], *words: str) -> tuple[list[bytes], bytes]:
        """The replies to some lines, one for each, and what is on standard error."""
        run = self.run(b"".join(line + b"\n" for line in lines), "--calls", str(CALLS), *words)
        replies = whole_replies(run.stdout)
        if run.returncode or len(replies) != len(lines):
            raise Wrong(f"it ended with status {run.returncode}, after {len(replies)} replies to {len(lines)} lines")
        return replies, run.stderr


def line_of(**keys: object) -> bytes:
    return json.dumps(keys).encode()


def told(log: bytes) -> list[Told]:
    """The lines of a log as objects."""
    if not log.endswith(b"\n") and log:
        raise Wrong(f"the log ends in mid-line: {shown(log[-100:])}")
    try:
        lines = [json.loads(line) for line in log.split(b"\n")[:-1]]
    except ValueError as fault:
        raise Wrong(f"a line of the log is no JSON: {fault}") from None
    for line, text in zip(lines, log.split(b"\n")):
        if json.dumps(line, ensure_ascii=False, separators=(",", ":")).encode() != text:
            raise Wrong(f"a line of the log has spaces or a repeated key: {shown(text)}")
    return lines


def ends_in(log: Iterable[Told]) -> list[Told]:
    """The lines of the pages' ends, once the invocations of each page are seen to be counted from 1 up to its last."""
    counted: dict[int | None, int] = {}
    ends: list[Told] = []
    for line in log:
        number = line.get("open")
        if "count" in line:
            counted[number] = counted.get(number, 0) + 1
            if line["count"] != counted[number]:
                raise Wrong(f"invocation {counted[number]} of a page is told as {line['count']}: {line}")
        elif line["invocations"] != counted.pop(number, 0):
            raise Wrong(f"a page ends after other invocations than were told: {line}")
        else:
            ends.append(line)
    return ends


def end_of(reply: bytes) -> Told:
    """What the line of a page's end must say beside its name and invocations, by the reply that has the page."""
    head = reply.split(b"\n", 1)[0].split()
    if head[0] == b"page":
        return {"status": int(head[1]), "bytes": int(head[2])}
    return {"refused": int(head[1]), "name": REFUSALS[int(head[1])]}


def ends_a_page(line: bytes, reply: bytes) -> bool:
    is_request = command_of(line).get("cmd") in ("get", "turns")
    return is_request and (reply.startswith(b"page ") or refusal_of(reply) in (9, 10))


def traced(program: Program, lines: Sequence[bytes]) -> tuple[list[bytes], list[Told]]:
    """The lines of the pages' ends in a log, once they are seen to be those of the replies, which are as without it."""
    plain, nothing = program.replies(lines)
    replies, log = program.replies(lines, "--trace")
    if nothing:
        raise Wrong(f"without the option there is a log: {shown(nothing)}")
    if replies != plain:
        at = next(at for at, pair in enumerate(zip(replies, plain)) if pair[0] != pair[1])
        what = f"is {shown(replies[at])}, and without the option {shown(plain[at])}"
        raise Wrong(f"the reply to {shown(lines[at])} {what}")
    ends = ends_in(told(log))
    wanted = [end_of(reply) for line, reply in zip(lines, replies) if ends_a_page(line, reply)]
    for end, want in zip(ends, wanted):
        if {key: end.get(key) for key in want} != want:
            raise Wrong(f"a page's end is told as {end}, but the reply says {want}")
    if len(ends) != len(wanted):
        raise Wrong(f"{len(wanted)} pages ended, and {len(ends)} were told")
    return replies, ends


def check_turns(program: Program, lines: Sequence[bytes], replies: list[bytes], ends: list[Told]) -> None:
    """Each page of a `get` takes as many turns as invocations were told, and then one more."""
    left = iter(ends)
    given: list[bytes] = []
    wanted: list[Any] = []
    for line, reply in zip(lines, replies):
        if ends_a_page(line, reply):
            count = next(left)["invocations"]
            given.append(line_of(cmd="begin", path=command_of(line)["path"]))
            given += [line_of(cmd="turns", page=1, count=count)] if count else []
            given.append(line_of(cmd="turns", page=1, count=1))
            wanted += [b"ok 1\n", *([OK] if count else []), reply]
        given.append(line)
        wanted.append(reply)
    came, _ = program.replies(given)
    for line, reply, want in zip(given, came, wanted):
        if reply != want:
            what = f"{shown(line)} has {shown(reply)}, wanted {shown(want)}"
            raise Wrong(f"a page takes other turns than were told: {what}")


def check_list(program: Program, number: int) -> None:
    """A list of random lines, and the same without its pages by turns, whose turns are then counted. One that fails is
    made shorter."""
    SHORTER.judge(f"trace {number}", partial(check_lines, program), Lines(Random(f"trace {number}")).list())


def check_lines(program: Program, lines: list[bytes]) -> None:
    traced(program, lines)
    once = [line for line in lines if command_of(line).get("cmd") not in BY_TURNS]
    replies, ends = traced(program, once)
    check_turns(program, once, replies, ends)


def check_many_calls(program: Program, asks: Sequence[bytes]) -> None:
    """A page that is refused after as many invocations as there may be is told whole: each of them, and its end."""
    site = [line_of(cmd="activate", plugin="bold")]
    site.append(line_of(cmd="put", title="", content="[b/]" * MOST_CALLS, date="2024-05-01 10:00:00"))
    run = program.run(b"".join(line + b"\n" for line in (*site, *asks)), "--calls", str(MOST_CALLS), "--trace")
    if run.returncode or not run.stdout.endswith(b"refused 9 TooManyCalls\n"):
        raise Wrong(f"it ended with status {run.returncode} and wrote {shown(run.stdout)}")
    [end] = ends_in(told(run.stderr))
    if (end["refused"], end["invocations"]) != (9, MOST_CALLS):
        raise Wrong(f"the end of the page is told as {end}")


def check_example(program: Program, file: Path) -> None:
    given = file.read_bytes()
    plain, with_log = program.run(given), program.run(given, "--trace")
    if (plain.stdout, plain.returncode) != (with_log.stdout, with_log.returncode):
        raise Wrong("with the option other replies come")
    ends_in(told(with_log.stderr))


def busy_site() -> list[bytes]:
    """Lines of a site whose pages make many invocations, and its replies' number."""
    lines = [line_of(cmd="activate", plugin=plugin) for plugin in ("marks", "bold")]
    lines.append(line_of(cmd="put", title="T", content="[b]x[/b]" * 200, date="2024-05-01 10:00:00"))
    lines += [line_of(cmd="get", path="/")] * 20 + [line_of(cmd="begin", path="/")]
    return lines + [line_of(cmd="turns", page=1, count=2)] * 3 + [line_of(cmd="turns", page=1, count=1_000_000)]


def check_unwritten(program: Program, redirection: str) -> None:
    """The pages come as without the option, where the log can't be written."""
    given = b"".join(line + b"\n" for line in busy_site())
    words = ["sh", "-c", f'exec "$0" --trace {redirection}', program.path]
    run = subprocess.run(words, input=given, stdout=subprocess.PIPE, timeout=SECONDS)
    if (run.returncode, run.stdout) != (0, program.run(given).stdout):
        raise Wrong(f"it ended with status {run.returncode}, or with other replies")


def check_reader(program: Program, wanted: int) -> None:
    """The pages come as without the option, if whoever reads the log goes away after some lines."""
    given = b"".join(line + b"\n" for line in busy_site())
    reader, writer = os.pipe()
    how: dict[str, Any] = {"stdin": subprocess.PIPE, "stdout": subprocess.PIPE, "stderr": writer}
    with subprocess.Popen([program.path, "--trace"], **how) as child:
        os.close(writer)
        with ThreadPoolExecutor(1) as pool:
            talk = pool.submit(child.communicate, given, SECONDS)
            with open(reader, "rb") as log:
                for _ in range(wanted):
                    log.readline()
            output = talk.result()[0]
    if (child.returncode, output) != (0, program.run(given).stdout):
        raise Wrong(f"it ended with status {child.returncode}, or with other replies")


def check_memory(program: Program) -> None:
    """Each allocation of the script of tests/memory is refused in turn, with the option."""

    class Runs(memory.Runs):
        # The logs of the runs whose replies were whole, runs that are still to be judged, and the log of each run.
        logs: list[set[bytes]] = []
        made: dict[str, subprocess.CompletedProcess[bytes]] = {}
        log_of: dict[int, set[bytes]] = {}
        # What logs say of pages that were refused: in the script that comes of memory alone.
        refused: list[Told] = []

        def run(self, lines: Iterable[bytes], **variables: str) -> subprocess.CompletedProcess[bytes]:
            if variables.get("REFUSE_AT") in self.made:
                return self.made.pop(variables["REFUSE_AT"])
            given = {"LD_PRELOAD": str(self.refuser), **variables}
            how: dict[str, Any] = {"capture_output": True, "env": given, "timeout": SECONDS}
            done = subprocess.run(self.words, input=b"".join(lines), **how)
            log, _, last = done.stderr.rpartition(b"site: out of memory\n")
            log = log if done.returncode == 1 else done.stderr
            if done.returncode == 1 and not last:
                done.stderr = b"site: out of memory\n"
            self.log_of[id(done)] = set(log.splitlines())
            return done

        def judge(self, number: int) -> str | tuple[int, str]:
            done = self.run(self.lines, REFUSE_AT=str(number))
            log = self.log_of[id(done)]
            if whole_replies(done.stdout) == self.replies:
                self.logs.append(log)
            self.refused += [it for it in map(json.loads, log) if "refused" in it]
            self.made[str(number)] = done
            return super().judge(number)

    with tempfile.TemporaryDirectory() as name:
        words, refuser = [program.path, "--trace"], compiled(memory.HERE / "refuse.c", Path(name))
        runs = Runs(words, refuser, Path(name, "count"), memory.HERE / "script.jsonl")
        alone = runs.run(runs.lines)
        whole, count = runs.log_of[id(alone)], runs.count()
        with ThreadPoolExecutor(lanes()) as pool:
            list(pool.map(runs.judge, range(1, count + 1)))
    if not any(log < whole for log in runs.logs):
        raise Wrong("in no run the log alone has lost a line")
    strange = [line for log in runs.logs for line in log - whole if not is_shorter(line, whole)]
    if strange:
        raise Wrong(f"a log has a line that the whole one doesn't have: {shown(strange[0])}")
    others = [it for it in runs.refused if (it["refused"], it["name"]) != (11, REFUSALS[11])]
    if others or not runs.refused:
        raise Wrong(f"pages are refused since memory ran out, and the logs tell of {others[:1] or 'none of them'}")


def is_shorter(line: bytes, whole: Iterable[bytes]) -> bool:
    """Whether a line is one of the whole log without its path, its item or its post."""
    told_of = json.loads(line)
    return any(told_of.items() <= json.loads(other).items() for other in whole)


def check_script(words: Sequence[str], given: bytes, wanted: bytes) -> None:
    """A script prints what a file says."""
    run = subprocess.run([GEANMARBLES, *words], input=given, capture_output=True, timeout=SECONDS)
    if run.returncode or run.stdout != wanted:
        ended = f"it ended with status {run.returncode} and {shown(run.stderr)}"
        raise Wrong(f"{ended}, and wrote {shown(run.stdout, 2_000)}")


def row_logs() -> bytes:
    """The logs of tests/rows/trace.json, one after another."""
    rows = json.loads((HERE.parent / "rows" / "trace.json").read_text(encoding="utf-8"))
    lines = [line for row in rows for line in row["stderr"]["lines"]]
    return b"".join(json.dumps(line, ensure_ascii=False).encode() + b"\n" for line in lines)


def check_html(log: bytes) -> None:
    """The page for a browser has each line of the trees once, escaped, and as many elements closed as opened."""
    plain = subprocess.run([GEANMARBLES, "explain", "--whole"], input=log, capture_output=True, timeout=SECONDS)
    with tempfile.TemporaryDirectory() as name:
        check_script(["explain", "--whole", "--html", f"{name}/page.html"], log, b"")
        page = Path(name, "page.html").read_text(encoding="utf-8")
    told_lines = re.findall(r"<code>(.*?)</code>", page, re.S)
    wanted = [html.escape(line.strip()) for line in plain.stdout.decode().split("\n")[:-1]]
    if told_lines != wanted or page.count("<details") != page.count("</details>") or "<script" in page:
        raise Wrong("the page for a browser has other lines, or elements that aren't closed, or a script")


# The shortcodes of two plugins, what contents are made of, and those that make no difference to what is live.
TAGS_OF = {"bold": {"b", "i", "off", "alloff", "hush", "raw"}, "atts": {"show", "ask"}}
PIECES = (
    *("[b]", "[/b]", "[b/]", "[i]", "[/i]", "[show a=1]", "[/show]", "[raw]", "[off]", "[b,x]", "[show /]"),
    *("[[foo]", "[/foo]]", "[b]]", "[[i]"),
    *("[foo]", "[/foo]", "[foo,x]", "[bar a='1']", "[/bar]", "[1]", "[x-y /]", "[", "]", "[[", "]]", "/", "x", " "),
)
SMALL = ("[foo]", "[bar a='1']", "[b]", "x ", "[/foo]", "[i]")


def log_of(program: Program, lines: list[bytes]) -> bytes:
    """The log of some lines, which the program must carry out."""
    replies, log = program.replies(lines, "--trace")
    if refused := [it for it in replies if refusal_of(it)]:
        raise Wrong(f"the program refused a line with {shown(refused[0])}")
    return log


def explained(words: list[str], log: bytes) -> list[str]:
    """The pages' trees in what `geanmarbles explain` prints of a log, each as a text."""
    run = subprocess.run([GEANMARBLES, "explain", *words], input=log, capture_output=True, timeout=SECONDS)
    if run.returncode:
        raise Wrong(f"it ended with status {run.returncode} and {shown(run.stderr)}")
    return re.split(r"\n(?=/)", run.stdout.decode())


def check_notes(program: Program, number: int, pieces: tuple[str, ...]) -> None:
    """What is noted of random contents is so: of those that no handler changed, and of names that no plugin has."""
    random = Random(f"notes {number}")
    active = (["bold"], ["atts"], ["atts", "bold"])[number % 3]
    known = set().union(*(TAGS_OF[it] for it in active))
    contents = ["".join(random.choices(pieces, k=random.randint(1, 12))) for _ in range(100)]
    lines = [line_of(cmd="activate", plugin=it) for it in active]
    lines += [line_of(cmd="put", title="", content=it, date="2024-05-01 10:00:00") for it in contents]
    gets = [line_of(cmd="get", path=f"/?p={it}") for it in range(1, len(contents) + 1)]
    pages = [it.partition(b"\n")[2][:-1].decode() for it in program.replies(lines + gets)[0][len(lines) :]]
    trees = explained(["--notes", "--whole"], log_of(program, lines + gets))
    for content, page, tree in zip(contents, pages, trees, strict=True):
        is_left = page == "<h2></h2>" + content
        noted = set(re.findall(r"\[(.*?)\]", " ".join(re.findall(r"no active plugin has .*", tree))))
        if noted & known or not noted <= set(re.findall(r"\[([\w-]+)", content)):
            raise Wrong(f"of {content!r} with {active} it names {noted}")
        if re.search("the_content of post .*, unchanged", tree) and not is_left:
            raise Wrong(f"it takes {content!r} as unchanged, and {page!r} is printed")
        named = set(re.findall(r"\[(\w+)", content))
        if pieces is SMALL and is_left and "unchanged" not in tree and not known & named:
            raise Wrong(f"it doesn't say that {content!r} is unchanged")
        if pieces is SMALL and active == ["atts"] and noted != named:
            raise Wrong(f"of {content!r} it names {noted} alone")


def note_cases(program: Program) -> Iterator[tuple[str, Callable[[], None]]]:
    """What explain --notes prints, and that it is so."""
    lines = (HERE / "notes.jsonl").read_bytes().splitlines()
    ways: dict[str, list[str]] = {"notes": [], "input": ["--input", str(HERE / "notes.jsonl")]}
    for name, more in ways.items():
        words, wanted = ["explain", "--notes", *more], (HERE / f"explain-{name}.out").read_bytes()
        yield " ".join(words[:3]), partial(check_script, words, log_of(program, lines), wanted)
    for number in range(8):
        pieces = SMALL if number % 2 else PIECES
        yield f"notes of contents {number}", partial(check_notes, program, number, pieces)


def script_cases(program: Program) -> Cases:
    """What each script prints: for the logs of the rows, and for a session of steps."""
    log = row_logs()
    ways: dict[str, list[str]] = {"all": [], "hook": ["--hook", "the_content"], "post": ["--post", "2", "--whole"]}
    for name, more in ways.items():
        wanted = (HERE / f"explain-{name}.out").read_bytes()
        words = ["explain", *more]
        yield " ".join(words), partial(check_script, words, log, wanted)
    yield "explain --html", lambda: check_html(log)
    session, wanted = (HERE / "step.in").read_bytes(), (HERE / "step.out").read_bytes()
    words = ["step", "--program", program.path, str(HERE / "step.jsonl"), "/?p=1"]
    yield "step", lambda: check_script(words, session, wanted)


def cases(program: Program, lists: int) -> Cases:
    """The checks, each by its name."""
    for file in sorted(EXAMPLES.glob("*.jsonl")):
        yield f"example {file.stem}", partial(check_example, program, file)
    for number in range(1, lists + 1):
        yield f"list {number}", partial(check_list, program, number)
    for name, redirection in UNWRITTEN.items():
        yield f"a log that is {name}", partial(check_unwritten, program, redirection)
    for wanted in (0, 1, 100, 5_000):
        yield f"a reader that goes away after {wanted} lines", partial(check_reader, program, wanted)
    for name, asks in ASKS.items():
        yield f"a page of {MOST_CALLS} invocations, {name}", partial(check_many_calls, program, asks)
    yield "memory", lambda: check_memory(program)
    yield from script_cases(program)
    yield from note_cases(program)


def ended(check: Callable[[], object]) -> Exception | None:
    """What a check says against the program, or why it isn't made, or None."""
    try:
        check()
    except (Skipped, Wrong, OSError, subprocess.SubprocessError) as fault:
        return fault
    return None


def read_arguments() -> argparse.Namespace:
    parser = Parser(description="Runs the program with --trace, and the scripts that read its log.")
    parser.add_argument("--lists", metavar="N", type=int, default=LISTS, help="how many random lists, 200 by default")
    parser.add_argument("program", metavar="PROGRAM", nargs="?", type=Path, default=shipped.program())
    return parser.parse_args()


def main() -> int:
    arguments = read_arguments()
    if missing(arguments.program):
        print(f"FAILED: {missing(arguments.program)}\n0 passed, 1 failed")
        return 1
    named = list(cases(Program(arguments.program.resolve()), arguments.lists))
    with ThreadPoolExecutor(lanes()) as pool:
        faults = list(pool.map(ended, [check for _, check in named]))
    counts = Counts()
    for (name, _), fault in zip(named, faults):
        if isinstance(fault, Skipped):
            counts.skip(name, fault)
        elif fault is not None:
            counts.fail(name, fault)
        else:
            counts.passed += 1
    return counts.end()
