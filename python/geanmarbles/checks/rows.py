"""Runs the worked rows of this folder, and the examples, against a built program.

    tests/rows/run [--only TEXT] [--cache N] [PROGRAM | --unproved]

PROGRAM is the one that is here, built or shipped, if it is left out. With --only, the rows whose name contains TEXT are
run. With --cache, the rows that give no arguments but --snippets are run with a cache of N texts: no reply depends on
it. With --unproved the program is run from its sources, before any proof, by up to three `rt try`, each for its share
of the rows, which takes some minutes; a row is skipped if its output is longer than `rt try` hands on, or if an
argument isn't a line of UTF-8. It is the first look after a change, and no verdict.

Each FILE.json beside this script is a list of rows, and a row is an object:

    name           what the row shows; no two rows share one
    args           the program's arguments, a list of texts without zero bytes
    input          what the program reads from standard input
    status         the exit status that it must end with
    output         what it must write to standard output, or
    output_begins  how that must begin, or
    output_any     true: anything will do
    stderr         what it must write to standard error; anything will do if this is left out

input, output, output_begins, stderr and each argument are texts. A text is written as a JSON string, or as

    {"lines": [ITEM, ..]}          a line for each item: a command as it is, printed without spaces, or a string
    {"replies": [ITEM, ..]}        a reply for each item: a page as {"page": STATUS, "body": STRING}, or a string
    {"repeat": STRING, "times": N}
    {"proper_prefixes": STRING}    each proper prefix of STRING, shortest first, each followed by a newline
    {"hex": DIGITS}                bytes that need be no UTF-8, of two hexadecimal digits each, as in {"hex": "ff"}

or as a list of these, joined.

Each examples/NAME.jsonl of the repository is a row too, named 'example: NAME': its output is in examples/NAME.out. So
is each table of lines and replies in docs/BEHAVIOUR.md under a heading of what is served, named 'behaviour: HEADING':
its lines are given to an empty site. In a table there whose first columns are Content and Printed each content is a
row, named 'behaviour: HEADING: CONTENT': a post has it, and the plugins `atts` and `bold` are active, and also
`tagmark` if the section speaks of it.

The last line is 'N passed, M failed', with ', K skipped' after it if a row was skipped. The exit status is 0 if no row
failed, 1 if one did, and 2 if the arguments or the files are at fault.
"""

import argparse
import json
import os
import re
import shutil
import subprocess
import sys
import tempfile
from collections.abc import Iterator, Sequence
from concurrent.futures import ThreadPoolExecutor
from pathlib import Path
from typing import Any

from geanmarbles.repository import shipped
from geanmarbles.arguments import Parser
from geanmarbles.checks.judging import Counted
from geanmarbles.checks.programs import lanes, missing
from geanmarbles.paths import CRATES, EXAMPLES, ROOT, TESTS

# A row, and a row with the name of its file.
Row = dict[str, Any]
Named = tuple[str, Row]

HERE = TESTS / "rows"
BEHAVIOUR = ROOT / "docs" / "BEHAVIOUR.md"
SECONDS = 120
# As compiled by `rt try`, with checks, a program takes some hundred times as long.
TRY_SECONDS = 900
# The longest output that `rt try` hands on.
TRIED_BYTES = 1_048_576
# The most `rt try` that run side by side. Each compiles the program for itself, which takes as long as running some
# hundred rows there: with fewer rows than that, one more `rt try` gains nothing.
LANES = 3
ROWS_A_LANE = 60
# What `rt try` says of a case, as `case=17 run=ended status=0 runners=1 output=expected proved=no`.
CASE = re.compile(r"case=(\d+) run=(\S+)(?: status=(\d+))?")
DIFFERS = re.compile(r"^the output differs from .*: at byte (\d+), (.*)$", re.M)
# Tables of the document of rules, by their rows; and what is between backticks.
REPLY_TABLE = re.compile(r"^\| Line \| Reply \|\n\|---\|---\|\n((?:\|.*\n)+)", re.M)
CONTENT_TABLE = re.compile(r"^\| Content \| Printed \|.*\n\|[-|]+\|\n((?:\|.*\n)+)", re.M)
CODE = re.compile(r"`([^`]*)`")
REQUIRED_KEYS = {"name", "args", "input", "status"}
OUTPUT_KEYS = {"output", "output_begins", "output_any"}
KNOWN_KEYS = REQUIRED_KEYS | OUTPUT_KEYS | {"stderr"}


class BadRows(Exception):
    """A file of rows that doesn't have the form that the head of this script states."""


def line_of(item: Any) -> bytes:
    """The line that a command or a string stands for."""
    text = item if isinstance(item, str) else json.dumps(item, ensure_ascii=False, separators=(",", ":"))
    return text.encode() + b"\n"


def reply_of(item: Any) -> bytes:
    """The reply that a page or a string stands for."""
    if isinstance(item, str):
        return line_of(item)
    if not (isinstance(item, dict) and set(item) == {"page", "body"}):
        raise BadRows(f"this is no reply: {item!r}")
    body: bytes = item["body"].encode()
    return f"page {item['page']} {len(body)}\n".encode() + body + b"\n"


def text_of(form: Any) -> bytes:
    """The bytes that a text of a row stands for."""
    if isinstance(form, str):
        return form.encode()
    if isinstance(form, list):
        return b"".join(text_of(part) for part in form)
    if isinstance(form, dict) and set(form) == {"lines"}:
        return b"".join(line_of(item) for item in form["lines"])
    if isinstance(form, dict) and set(form) == {"replies"}:
        return b"".join(reply_of(item) for item in form["replies"])
    if isinstance(form, dict) and set(form) == {"repeat", "times"}:
        unit: str = form["repeat"]
        return unit.encode() * int(form["times"])
    if isinstance(form, dict) and set(form) == {"proper_prefixes"}:
        whole = form["proper_prefixes"]
        return "".join(whole[:end] + "\n" for end in range(len(whole))).encode()
    if isinstance(form, dict) and set(form) == {"hex"}:
        try:
            return bytes.fromhex(form["hex"])
        except ValueError as fault:
            raise BadRows(f"these are no hexadecimal digits: {form['hex']!r}") from fault
    raise BadRows(f"this is no text: {form!r}")


def arguments_of(row: Row) -> list[bytes]:
    """The program's arguments that a row gives, as bytes."""
    return [text_of(form) for form in row["args"]]


def check_row(row: Any, place: str) -> None:
    """Refuses a row that lacks a key, has an unknown one, or would accept every output without saying so."""
    if not isinstance(row, dict):
        raise BadRows(f"{place}: a row is an object")
    if not REQUIRED_KEYS <= set(row):
        raise BadRows(f"{place}: keys missing: {', '.join(sorted(REQUIRED_KEYS - set(row)))}")
    if not set(row) <= KNOWN_KEYS:
        raise BadRows(f"{place}: unknown keys: {', '.join(sorted(set(row) - KNOWN_KEYS))}")
    if len(OUTPUT_KEYS & set(row)) != 1:
        raise BadRows(f"{place}: exactly one of {', '.join(sorted(OUTPUT_KEYS))} is wanted")
    if row.get("output_any", True) is not True:
        raise BadRows(f"{place}: output_any can only be true")


def read_rows() -> list[Named]:
    """All rows of this folder, as pairs of file name and row, in the order of the files' names."""
    rows: list[Named] = []
    seen: dict[str, str] = {}
    for path in sorted(HERE.glob("*.json")):
        try:
            listed = json.loads(path.read_text(encoding="utf-8"))
        except ValueError as fault:
            raise BadRows(f"{path.name}: {fault}") from fault
        if not isinstance(listed, list):
            raise BadRows(f"{path.name}: a list of rows is wanted")
        for number, row in enumerate(listed):
            check_row(row, f"{path.name}, entry {number}")
            if row["name"] in seen:
                raise BadRows(f"{path.name} and {seen[row['name']]}: two rows are named {row['name']!r}")
            seen[row["name"]] = path.name
            rows.append((path.name, row))
    return rows


def read_examples() -> list[Named]:
    """A row for each example, as pairs of file name and row."""
    rows = []
    for commands in sorted(EXAMPLES.glob("*.jsonl")):
        output = commands.with_suffix(".out")
        if not output.is_file():
            raise BadRows(f"examples/{commands.name} has no {output.name} beside it")
        row = {"name": f"example: {commands.stem}", "args": [], "status": 0}
        row["input"] = commands.read_text(encoding="utf-8")
        row["output"] = output.read_text(encoding="utf-8")
        rows.append((f"examples/{commands.name}", row))
    return rows


def printed_row(heading: str, content: str, printed: str, plugins: Sequence[str]) -> Row:
    """A row for a content and what is printed of it while these plugins are active."""
    put = {"cmd": "put", "title": "", "content": content, "date": "2024-05-01 10:00:00"}
    activations = [{"cmd": "activate", "plugin": plugin} for plugin in plugins]
    page = {"page": 200, "body": f"<h2></h2>{printed}"}
    row = {"name": f"behaviour: {heading}: {content}", "args": [], "status": 0}
    row["input"] = {"lines": [*activations, put, {"cmd": "get", "path": "/"}]}
    row["output"] = {"replies": [*["ok"] * len(plugins), "ok 1", page]}
    return row


def first_code(cell: str) -> str:
    """A cell's first words in backticks."""
    found = CODE.search(cell)
    assert found is not None
    return found[1]


def read_printed(heading: str, text: str) -> Iterator[Row]:
    """A row for each content in a section's tables of contents and what is printed of them."""
    plugins = ["atts", "bold", *["tagmark"] * ("`tagmark`" in text)]
    for table in CONTENT_TABLE.findall(text):
        for line in table.splitlines():
            contents, printed = line.replace("`, U+00A0, `", "\u00a0").split(" | ")[:2]
            # A cell's first words in backticks are the content; ` , ` separates contents that are printed alike.
            for content in (first_code(it) for it in contents.split(" , ")):
                shown = content if printed.startswith("unchanged") else first_code(printed)
                yield printed_row(heading, content, shown, plugins)


def read_behaviour() -> list[Named]:
    """A row for each example in a table of the document of rules, as pairs of file name and row."""
    served = BEHAVIOUR.read_text(encoding="utf-8")
    rows = []
    for section in re.split(r"^#+ +", served, flags=re.M)[1:]:
        heading, _, text = section.partition("\n")
        for table in REPLY_TABLE.findall(text):
            quoted = [CODE.findall(line) for line in table.splitlines()]
            row = {"name": f"behaviour: {heading}", "args": [], "status": 0}
            row["input"] = {"lines": [line for line, *_ in quoted]}
            row["output"] = {"lines": [part for _, *reply in quoted for part in reply]}
            rows.append(row)
        rows += read_printed(heading, text)
    return [(f"docs/{BEHAVIOUR.name}", row) for row in rows]


def around(data: bytes, at: int) -> str:
    """The bytes near a place, for a message."""
    first, end = max(0, at - 20), at + 60
    dots_before, dots_after = "... " if first > 0 else "", " ..." if end < len(data) else ""
    return f"{dots_before}{data[first:end]!r}{dots_after}"


def difference(what: str, wanted: bytes, came: bytes) -> list[str]:
    """Says at which byte two texts begin to differ, or nothing if they are equal."""
    if wanted == came:
        return []
    at = len(os.path.commonprefix([wanted, came]))
    return [
        f"{what} differs at byte {at} (wanted {len(wanted)} bytes, {len(came)} came)",
        f"  wanted: {around(wanted, at)}",
        f"  came:   {around(came, at)}",
    ]


def is_cached(row: Row) -> bool:
    """Whether a row's arguments leave the size of the cache open."""
    return row["args"] in ([], ["--snippets"])


def ended_as(status: int) -> str:
    return f"was ended by signal {-status}" if status < 0 else f"ended with status {status}"


def faults_of(row: Row, program: Path) -> list[str]:
    """Runs one row, and says in lines what was wrong; no line if nothing was."""
    try:
        run = subprocess.run(
            [str(program), *arguments_of(row)],
            input=text_of(row["input"]),
            capture_output=True,
            timeout=SECONDS,
        )
    except subprocess.TimeoutExpired:
        return [f"the program had not ended after {SECONDS} seconds"]
    except OSError as fault:
        return [f"the program could not be run: {fault}"]
    faults = []
    if run.returncode != row["status"]:
        faults.append(f"the program {ended_as(run.returncode)}, wanted {row['status']}")
        if run.stderr and "stderr" not in row:
            faults.append(f"  its standard error: {around(run.stderr, 0)}")
    if "output" in row:
        faults += difference("standard output", text_of(row["output"]), run.stdout)
    if "output_begins" in row:
        wanted = text_of(row["output_begins"])
        faults += difference("the beginning of standard output", wanted, run.stdout[: len(wanted)])
    if "stderr" in row:
        faults += difference("standard error", text_of(row["stderr"]), run.stderr)
    return faults


def is_line(word: bytes) -> bool:
    """Whether an argument is UTF-8 without a newline."""
    try:
        return "\n" not in word.decode()
    except UnicodeDecodeError:
        return False


def is_tried(row: Row) -> bool:
    """Whether `rt try` can judge a row: it hands on no longer output, and reads an argument a line, in UTF-8."""
    return len(text_of(row.get("output", ""))) <= TRIED_BYTES and all(map(is_line, arguments_of(row)))


def tried_faults(row: Row, said: str, run: str, status: str, written: bytes) -> list[str]:
    """What was wrong with a row that `rt try` ran, from its messages about the row and what it printed for it."""
    if run != "ended":
        return [f"the program didn't end as it must: {run}", *said.strip().split("\n")[-3:]]
    faults = []
    if int(status) != row["status"]:
        faults.append(f"the program ended with status {status}, wanted {row['status']}")
    differs = DIFFERS.search(said)
    if differs and int(differs[1]) < len(text_of(row.get("output_begins", ""))) or differs and "output" in row:
        faults.append(f"standard output differs at byte {differs[1]}: {differs[2]}")
    if "stderr" in row:
        faults += difference("standard output", text_of(row["output"]), written)
        faults += difference("standard error", text_of(row["stderr"]), said.encode())
    return faults


def try_rows(rows: Sequence[Named]) -> list[list[str]]:
    """The faults of each row, by one `rt try` of them all, or what it said if it couldn't run them."""
    with tempfile.TemporaryDirectory(prefix="rows-") as room:
        for number, (_, row) in enumerate(rows):
            Path(room, str(number)).write_bytes(text_of(row["input"]))
            Path(room, f"{number}.args").write_bytes(b"".join(word + b"\n" for word in arguments_of(row)))
            # Of a row without this file `rt try` prints what the program wrote, its standard error too.
            if "output_any" not in row and "stderr" not in row:
                wanted = text_of(row["output"] if "output" in row else row["output_begins"])
                Path(room, f"{number}.stdout").write_bytes(wanted)
        how: dict[str, Any] = {"cwd": CRATES / "site", "stdin": subprocess.DEVNULL}
        words = ["rt", "try", "--cases", room, "--seconds", str(TRY_SECONDS)]
        ran = subprocess.run(words, capture_output=True, **how)
    heads = [(int(head[1]), head.start(), head.end()) for head in re.finditer(rb"^== (\d+)\n", ran.stdout, re.M)]
    ends = [start for _, start, _ in heads[1:]] + [len(ran.stdout)]
    written = {number: ran.stdout[begin:end] for (number, _, begin), end in zip(heads, ends)}
    found, said = {}, ""
    for line in ran.stderr.decode(errors="replace").splitlines(keepends=True):
        case = CASE.match(line)
        if case:
            number = int(case[1])
            found[number] = tried_faults(rows[number][1], said, case[2], case[3], written.get(number, b""))
            said = ""
        else:
            said += line
    why = ["`rt try` said nothing of it", *ran.stderr.decode(errors="replace").strip().split("\n")[-3:]]
    return [found.get(number, why) for number in range(len(rows))]


def try_side_by_side(rows: Sequence[Named]) -> list[list[str]]:
    """The faults of each row, by as many `rt try` as pay, each with its share of the rows."""
    most = min(LANES, lanes())
    count = max(1, min(most, len(rows) // ROWS_A_LANE))
    found: list[list[str]] = [[]] * len(rows)
    with ThreadPoolExecutor(max_workers=most) as pool:
        for lane, faults in enumerate(pool.map(try_rows, (rows[lane::count] for lane in range(count)))):
            found[lane::count] = faults
    return found


def run_unproved(rows: Sequence[Named]) -> tuple[list[Named], list[list[str]]]:
    """The faults of the rows that can be tried, and those rows."""
    if not shutil.which("rt"):
        raise BadRows("the command 'rt' of the Rattle toolchain isn't on the PATH")
    print("tests/rows/run: not proved: the program is run from its sources, which takes some minutes", file=sys.stderr)
    tried = [(file, row) for file, row in rows if is_tried(row)]
    return tried, try_side_by_side(tried)


def run_built(rows: Sequence[Named], program: Path) -> list[list[str]]:
    """The faults of the rows, run against a built program."""
    with ThreadPoolExecutor(max_workers=lanes()) as pool:
        return list(pool.map(lambda pair: faults_of(pair[1], program), rows))


def report(rows: Sequence[Named], results: Sequence[list[str]]) -> int:
    """Prints the rows that failed, and returns how many they are."""
    failed = 0
    for (file, row), faults in zip(rows, results):
        if faults:
            failed += 1
            print(f"FAILED: {row['name']} ({file})", *faults, sep="\n    ")
    return failed


def read_arguments() -> argparse.Namespace:
    parser = Parser(description="Runs the worked rows against a built program, or from its sources.")
    parser.add_argument("--only", metavar="TEXT", default="", help="run the rows whose name contains TEXT")
    parser.add_argument("--cache", metavar="N", help="run the rows that leave it open with a cache of N texts")
    parser.add_argument("--unproved", action="store_true", help="run the program from its sources, before any proof")
    parser.add_argument("program", metavar="PROGRAM", nargs="?", type=Path, default=shipped.program())
    return parser.parse_args()


def main() -> int:
    arguments = read_arguments()
    program = arguments.program.resolve()
    try:
        rows = read_rows() + read_examples() + read_behaviour()
        rows = [(file, row) for file, row in rows if arguments.only in row["name"]]
        if arguments.cache:
            more = ["--cache", arguments.cache]
            rows = [(file, {**row, "args": row["args"] + more}) for file, row in rows if is_cached(row)]
        if not rows:
            raise BadRows(f"no row's name contains {arguments.only!r}")
        if not arguments.unproved and missing(program):
            print(f"FAILED: every row: {missing(program)}")
            print(Counted(failed=len(rows)))
            return 1
        tried, results = run_unproved(rows) if arguments.unproved else (rows, run_built(rows, program))
    except BadRows as fault:
        print(f"tests/rows/run: {fault}", file=sys.stderr)
        return 2
    failed = report(tried, results)
    print(Counted(len(tried) - failed, failed, len(rows) - len(tried)))
    return 1 if failed else 0
