"""A site that lasts, from one start to the next: its pages, and what its file holds."""

import json
import os
import shutil
import subprocess
import tempfile
from collections.abc import Callable, Sequence
from functools import partial
from pathlib import Path

from geanmarbles.checks.database.clients import (
    Cases,
    Client,
    check_end,
    done,
    get,
    is_edit,
    joined,
    line_of,
    over,
    put,
    replies,
    run,
    same_pages,
)
from geanmarbles.checks.database.files import check_equal, history
from geanmarbles.checks.database.lists import LISTS, SHORTER, random_lines
from geanmarbles.client.replies import Wrong, shown
from geanmarbles.paths import EXAMPLES, TESTS

HERE = TESTS / "database"
# After how many lines of a random list the program is ended and started again.
LINES = 10
# How much more memory many waiting pages may take than one: a megabyte waits, in memory that grows by doubling.
HELD_BACK = 8 << 20
PATHS = ("/", "/?p=1", "/?p=2", "/?page_id=2", "/?m=202405", "/?paged=2", "/?p=9", "/x")
# An edit of each kind, some of them written in odd ways, beside lines that are no edits or are refused.
MIXED = (
    b'{"cmd":"put","title":"T","content":"[b]x[/b]","date":"2024-05-01 10:00:00"}',
    b' {"cmd" : "put", "title":"\\u00e9\\u0000\\n\xc3\xa9", "kind":"page", "date":"2024-05-01 10:00:00"}\t\r',
    b'{"cmd":"get","path":"/"}',
    b'{"cmd":"put","title":"refused","date":"2024-02-30 10:00:00"}',
    b'{"cmd":"edit","id":1,"title":"U"}',
    b'{"cmd":"edit","id":9,"title":"V"}',
    b'{"cmd":"edit","id":1}',
    b'{"date":"2024-05-02 10:00:00","cmd":"get","cmd":"put"}',
    b"",
    b"nothing",
    b'{"cmd":"delete","id":3}',
    b'{"cmd":"delete","id":3}',
    b'{"cmd":"option","name":"blogname","value":"A & B"}',
    b'{"cmd":"option","name":"","value":"A & B"}',
    b'{"cmd":"activate","plugin":"bold"}',
    b'{"cmd":"activate","plugin":"bold"}',
    b'{"cmd":"activate","plugin":"marks"}',
    b'{"cmd":"deactivate","plugin":"marks"}',
    b'{"cmd":"activate","plugin":"nope"}',
    b'{"cmd":"template","name":"single","body":[{"tag":"site_name"},{"loop":[{"tag":"the_title"}]}]}',
    b'{"cmd":"template","name":"404","body":null}',
    b'{"cmd":"template","name":"404","body":5}',
    b'{"cmd":"import","site":{"version":1,"posts":[{"id":7,"kind":"post","status":"draft","title":"","content":"",'
    b'"date":"2024-05-01 10:00:00"}],"active":["atts"],"more":1}}',
    b'{"cmd":"import","site":{"version":3}}',
    b'{"cmd":"begin","path":"/"}',
    b'{"cmd":"turns","page":1,"count":1}',
    b'{"cmd":"turns","page":1,"count":1000000}',
    b'{"cmd":"begin","path":"/?p=1"}',
)

# A site with a page of some twenty calls, and limits by which it is refused and printed in turn.
LIMITED = (
    line_of(cmd="activate", plugin="bold"),
    put(title="T", content="[b]x[/b]" * 20),
    put(title="U"),
)
CALLS = ("19", "10000", "1", "100000", "20")


def check_identity(program: str, file: Path) -> bytes:
    """A new file has one line: a JSON object that is no command, with the plugins' names in order and their numbers."""
    replies(program, [], *over(file))
    [line] = history(file)
    found = json.loads(line)
    plugins = found["plugins"]
    names = [name for name, _ in plugins]
    numbers = [it for _, of in plugins for it in of]
    is_sorted = names == sorted(names) and "bold" in names
    if found["site"] != 1 or not is_sorted or not all(type(it) is int for it in numbers):
        raise Wrong(f"the first line of a new file is {shown(line)}")
    if replies(program, [line]) != [b"refused 1 BadCommand\n"]:
        raise Wrong(f"the first line of a new file is a command: {shown(line)}")
    replies(program, [], *over(file))
    check_equal(history(file), [line])
    return line


def keeps(program: str, file: Path) -> None:
    """Edits of every kind are there after the end: the same pages, and exactly the lines of those that were done."""
    identity = check_identity(program, file)
    got = replies(program, MIXED, *over(file))
    if got != replies(program, MIXED):
        raise Wrong("the replies are others than in memory")
    wanted = [identity, *done(MIXED, got)]
    check_equal(history(file), wanted)
    for _ in range(2):
        same_pages(program, file, wanted, PATHS)
    check_equal(history(file), wanted)
    more = [put(title="more"), get("/?p=8")]
    if replies(program, more, *over(file)) != replies(program, [*wanted[1:], *more])[-2:]:
        raise Wrong("an edit after a new start has another reply than in memory")
    check_equal(history(file), [*wanted, more[0]])


def draws_its_seed(program: str, file: Path) -> None:
    """Each start draws the seed from which a database's tables of hashes and its log's salts are made: so nobody can
    choose keys that collide, and new files have other salts."""
    salts = set()
    for number in range(3):
        new = file.with_name(f"seed-{number}.db")
        replies(program, [put(title="T")], *over(new))
        salts.add(new.with_name(f"{new.name}-wal").read_bytes()[20:24])
    if len(salts) == 1:
        raise Wrong(f"the logs of three new files have the same salt, {salts}")


def acknowledges(program: str, file: Path) -> None:
    """A reply to an edit is written once the edit is in the files, and the files are locked meanwhile."""
    lines = check_identity(program, file).splitlines()
    with Client(program, *over(file)) as client:
        for number in range(1, 31):
            line = put(title=str(number))
            reply = client.ask(line)
            lines.append(line)
            if reply != b"ok %d\n" % number:
                raise Wrong(f"the reply to edit {number} is {reply!r}")
            check_equal(history(file), lines)
        check_end(client.end(), 0, b"")
    check_equal(history(file), lines)


def takes_chunks(program: str, file: Path) -> None:
    """A pipe of many lines, in many chunks, is served as in memory, also if its last line has no newline."""
    identity = check_identity(program, file)
    lines = [put(title=str(at), content="c" * (at % 700)) if at % 3 else get("/") for at in range(4_000)]
    ran = run(program, joined(lines)[:-1], *over(file))
    if (ran.returncode, ran.stderr) != (0, b"") or ran.stdout != run(program, joined(lines)).stdout:
        raise Wrong(f"it ended with status {ran.returncode} and {shown(ran.stderr)}, or wrote other replies")
    check_equal(history(file), [identity, *filter(is_edit, lines)])


def waits_in_bounds(program: str, file: Path) -> None:
    """Many pages after an edit in one chunk, more than are held back at a time, are all written, and in order."""
    large = put(content="x" * 300_000)
    replies(program, [large], *over(file))
    lines = [line_of(cmd="option", name="x", value="y"), *[get("/")] * 20, put(title="T"), *[get("/")] * 20]
    if replies(program, lines, *over(file)) != replies(program, [large, *lines])[1:]:
        raise Wrong("the replies are others than in memory")


def holds_little_back(program: str, file: Path) -> None:
    """Many large pages after an edit in one chunk take little more memory than one of them: what waits has a bound."""
    replies(program, [put(content="x" * 300_000)], *over(file))
    edit = line_of(cmd="option", name="x", value="y")
    few, many = (memory_of(program, [edit, *[get("/")] * count], *over(file)) for count in (1, 200))
    if many > few + HELD_BACK:
        raise Wrong(f"200 pages of 300,000 bytes take {many:,} bytes of memory, and one {few:,}")


def memory_of(program: str, lines: Sequence[bytes], *words: str) -> int:
    """The most memory that a run over some lines has at once, in bytes."""
    with tempfile.TemporaryFile() as given:
        given.write(joined(lines))
        given.seek(0)
        ran = subprocess.Popen([program, *words], stdin=given, stdout=subprocess.DEVNULL)
        _, status, used = os.wait4(ran.pid, 0)
        ran.returncode = os.waitstatus_to_exitcode(status)
    if ran.returncode:
        raise Wrong(f"it ended with status {ran.returncode}")
    return int(used.ru_maxrss) * 1024


def keeps_all_in_the_file(program: str, file: Path) -> None:
    """After an input that was served to its end FILE has the whole history by itself, also if its log had some."""
    for number in range(3):
        replies(program, [put(title=f"T{number}"), get("/")], *over(file))
        with tempfile.TemporaryDirectory() as folder:
            check_equal(history(Path(shutil.copy(file, folder))), history(file))
    if len(history(file)) != 4:
        raise Wrong(f"the history has {len(history(file))} lines")


def loses_open_pages(program: str, file: Path) -> None:
    """Open pages end with the program: `turns` after a new start finds none."""
    lines = [put(title="T"), line_of(cmd="begin", path="/")]
    replies(program, lines, *over(file))
    more = [line_of(cmd="turns", page=1, count=1), line_of(cmd="begin", path="/?p=1")]
    if replies(program, more, *over(file)) != [b"refused 14 NoSuchPage\n", b"ok 1\n"]:
        raise Wrong("a page is open after a new start")


def takes_options(program: str, file: Path) -> None:
    """The other options go with it, and the log of --trace tells nothing of the lines that a start goes through."""
    lines = (EXAMPLES / "bakery.jsonl").read_bytes().splitlines()
    edits, gets = [it for it in lines if is_edit(it)], [it for it in lines if not is_edit(it)]
    replies(program, edits, *over(file))
    ran = run(program, joined(gets), *over(file), "--trace", "--cache", "1", "--calls=9999")
    told = run(program, joined(lines), "--trace", "--cache", "1", "--calls=9999")
    if (ran.returncode, ran.stderr) != (0, told.stderr) or not told.stdout.endswith(ran.stdout):
        raise Wrong(f"with --trace it ended with status {ran.returncode}, or told something else: {shown(ran.stderr)}")


def takes_another_limit(program: str, file: Path) -> None:
    """Another --calls at a new start: the same edits, the same export, and pages by the new limit."""
    lines = [*check_identity(program, file).splitlines(), *LIMITED]
    replies(program, LIMITED, *over(file))
    gets = [get("/?p=1"), get("/?p=2")]
    seen: set[bytes] = set()
    export = run(program, b"", *over(file, "--export")).stdout
    for number, calls in enumerate(CALLS, 3):
        words = ("--calls", calls)
        came = replies(program, gets, *over(file, *words))
        if came != replies(program, [*lines[1:], *gets], *words)[-2:]:
            raise Wrong(f"with --calls {calls} the pages are {came}, others than in memory")
        seen.add(came[0])
        check_equal(history(file), lines)
        if run(program, b"", *over(file, "--export", *words)).stdout != export:
            raise Wrong(f"with --calls {calls} the export is another")
        # An edit is done under any limit, and the next start finds it; its draft changes no export's other lines.
        line = put(title=f"with {calls}", status="draft")
        if replies(program, [line], *over(file, *words)) != [b"ok %d\n" % number]:
            raise Wrong(f"with --calls {calls} an edit has another reply")
        lines.append(line)
        export = run(program, b"", *over(file, "--export")).stdout
    if b"refused 9 TooManyCalls\n" not in seen or len(seen) != 2:
        raise Wrong(f"the page of many calls was {sorted(map(shown, seen))}")


def takes_paths(program: str, file: Path) -> None:
    """The path may be relative, have any letters, be a link or an empty file; only the log is beside it."""
    folder = file.parent
    name = folder / "a site's \u00e9t\u00e9.db"
    replies(program, [put(title="T")], *over(name))
    link = folder / "link.db"
    link.symlink_to(name)
    for path in (link, name):
        same_pages(program, path, history(name), ("/?p=1",))
    (folder / "empty.db").touch()
    for relative in ("new.db", "empty.db"):
        ran = run(program, b"", *over(Path(relative)), cwd=folder)
        if ran.returncode or len(history(folder / relative)) != 1:
            raise Wrong(f"{relative}: status {ran.returncode} and {shown(ran.stderr)}")
    made = {"new.db", "empty.db", link.name, name.name}
    more = {it.name for it in folder.iterdir()} - made - {f"{it}-wal" for it in made}
    if more:
        raise Wrong(f"there are other files: {more}")


def loses_no_edit_to_a_reader(program: str, file: Path) -> None:
    """If the reader goes away, each edit that was acknowledged is there, and a front of those that were sent."""
    before = check_identity(program, file).splitlines()
    lines = [put(title=str(number)) for number in range(3_000)]
    with Client(program, *over(file)) as client:
        client.send(lines[0] + b"\n")
        first = client.next_reply()
        client.told.close()
        client.send(joined(lines[1:]))
        check_end(client.end(), 1, b"site: write failed\n")
    found = history(file)
    check_equal(found[: len(before) + 1], [*before, lines[0]])
    check_equal(found, [*before, *lines[: len(found) - 1]])
    if first != b"ok 1\n":
        raise Wrong(f"the first reply is {first!r}")


def keeps_at_other_ends(program: str, file: Path) -> None:
    """Before a line that is too long, and before a read that fails, all edits are replied to and are there."""
    identity = check_identity(program, file)
    lines = [put(title=str(number)) for number in range(1, 4)]
    ran = run(program, joined(lines) + b" " * 1_048_577, *over(file))
    check_end((ran.returncode, ran.stderr), 1, b"site: too much input\n")
    check_equal(history(file), [identity, *lines])
    reader, writer = os.pipe()
    os.set_blocking(reader, False)
    os.write(writer, lines[0] + b"\n")
    ran = run(program, None, *over(file), stdin=reader)
    os.close(reader)
    os.close(writer)
    check_end((ran.returncode, ran.stderr), 1, b"site: read failed\n")
    check_equal(history(file), [identity, *lines, lines[0]])
    if ran.stdout != b"ok 4\n":
        raise Wrong(f"it wrote {shown(ran.stdout)}")


def bad_arguments(program: str, file: Path) -> None:
    """Arguments that don't go together end with status 2, and no file is made."""
    name = str(file)
    for words in (
        ["--export"],
        ["--compact"],
        [*over(file), "--export", "--compact"],
        ["--database"],
        [*over(file), *over(file)],
        [*over(file), "--export", "--export"],
        [*over(file), "--export=1"],
        [*over(file), name],
        [*over(file), "--calls"],
    ):
        ran = run(program, b"", *words)
        if (ran.returncode, ran.stdout) != (2, b"") or not ran.stderr:
            raise Wrong(f"{words}: status {ran.returncode} and {shown(ran.stdout)}")
    if file.exists():
        raise Wrong("a file was made")


def restarted(program: str, file: Path, lines: Sequence[bytes]) -> None:
    """A list of tests/fuzz with a new start after each tenth line has the replies that it has without."""
    came: list[bytes] = []
    for at in range(0, max(1, len(lines)), LINES):
        came += replies(program, lines[at : at + LINES], *over(file))
    for line, reply, other in zip(lines, came, replies(program, lines), strict=True):
        if reply != other:
            raise Wrong(f"the reply to {shown(line)} is {shown(reply)}, without new starts {shown(other)}")
    found = history(file)
    check_equal(found[1:], done(lines, came))


def cases(program: str) -> Cases:
    """Each check by its name, with what judges it."""
    checks = (
        keeps,
        draws_its_seed,
        acknowledges,
        takes_chunks,
        waits_in_bounds,
        holds_little_back,
        keeps_all_in_the_file,
        loses_open_pages,
        takes_options,
        takes_another_limit,
        takes_paths,
        loses_no_edit_to_a_reader,
        keeps_at_other_ends,
        bad_arguments,
    )
    for check in checks:
        yield check.__doc__, partial(in_a_folder, check, program)
    for number in range(1, LISTS + 1):
        lines = random_lines(f"database/{number}")
        check_list = partial(in_a_folder, restarted, program)
        yield f"list {number} with new starts", partial(SHORTER.judge, f"database {number}", check_list, lines)


def in_a_folder(check: Callable[..., None], program: str, *more: Sequence[bytes]) -> None:
    """Makes a check over a file that isn't there yet, in a folder of its own."""
    with tempfile.TemporaryDirectory() as folder:
        check(program, Path(folder, "site.db"), *more)
