"""--export and --compact: the short lists of lines that rebuild a site, and what they leave of it."""

import json
import subprocess
import tempfile
from collections.abc import Iterable, Iterator, Sequence
from functools import partial
from pathlib import Path
from typing import Any

from geanmarbles.checks.database.clients import Cases, get, is_edit, line_of, over, put, replies, run
from geanmarbles.checks.database.files import check_equal, check_told, copied, history
from geanmarbles.checks.database.lists import LISTS, SHORTER, random_lines
from geanmarbles.checks.fuzz.checks import same
from geanmarbles.checks.fuzz.sites import Stored, bared
from geanmarbles.client.replies import Wrong, shown
from geanmarbles.paths import EXAMPLES, TESTS

HERE = TESTS / "database"
# The longest line that the program reads, and how much of it a content can take besides the shortest command for it.
LINE = 1_048_576
CONTENT = 524_288
# Characters that JSON writes in one, two or six bytes, and in several bytes of UTF-8.
CHARACTERS = ("x", "\n", '"', "\\", "\t", "\x01", "\x7f", "\u00e9", "\U0001f35e", "/", "\x08")


def room_for(character: str, keys: dict[str, Any]) -> int:
    """How often a content, in the shortest line with these keys, can have a character."""
    size = len(character.encode())
    written = len(json.dumps(character, ensure_ascii=False).encode()) - 2
    return min(CONTENT // size, (LINE - len(line_of(**keys, content=""))) // written)


def large_texts() -> Iterator[bytes]:
    """Posts, options and templates with texts as long as a line lets them be."""
    for number, character in enumerate(CHARACTERS, 1):
        yield put()
        keys: dict[str, Any] = {"cmd": "edit", "id": number}
        yield line_of(**keys, content=character * room_for(character, keys))
        yield line_of(**keys, title=character * (65_536 // len(character.encode())))
        yield line_of(cmd="option", name=f"{number}", value=character * (65_536 // len(character.encode())))
    yield line_of(cmd="template", name="index", body=["\x01" * 170_000])
    yield line_of(cmd="template", name="home", body=[{"loop": [{"tag": "site_name"}] * 4_000}])


def many_edits() -> Iterator[bytes]:
    """A thousand edits of one post."""
    yield put(title="T")
    for number in range(1_000):
        yield line_of(cmd="edit", id=1, **{("title", "content")[number % 2]: f"edit {number}"})


def left_over() -> Iterator[bytes]:
    """A site in which most of what was is gone: the largest ID of all, plugins, a template."""
    yield line_of(cmd="option", name="blogname", value="")
    yield line_of(cmd="activate", plugin="bold")
    yield line_of(cmd="activate", plugin="marks")
    yield line_of(cmd="deactivate", plugin="bold")
    yield line_of(cmd="template", name="single", body=[])
    yield line_of(cmd="template", name="page", body=["x"])
    yield line_of(cmd="template", name="page", body=None)
    yield from (put(title=str(number), kind=("post", "page")[number % 2]) for number in range(1, 9))
    yield from (line_of(cmd="delete", id=number) for number in (8, 3, 7))


def all_ids_used() -> Iterator[bytes]:
    """The largest ID that there is was imported, and is gone."""
    every: dict[str, Any] = {
        "kind": "page",
        "status": "draft",
        "title": "",
        "content": "",
        "date": "9999-12-31 23:59:59",
    }
    yield line_of(cmd="import", site={"version": 1, "posts": [{"id": 2**31 - 1, **every}]})
    yield line_of(cmd="delete", id=2**31 - 1)
    yield put(title="refused")


def asked(ids: Iterable[int]) -> list[bytes]:
    """Requests for every page that a site with posts of these IDs may have."""
    paths = ["/", "/?paged=2", "/x", "/?m=202405", "/?m=202404"]
    return [get(path) for path in paths] + [get(f"/?{key}={it}") for it in ids for key in ("p", "page_id")]


def probe(lines: Sequence[bytes], got: Sequence[bytes]) -> list[bytes]:
    """Lines whose replies tell all that a site holds: its pages, then drafts published, then without plugins and
    templates, then with one post a part, and the next ID."""
    stored = Stored().after(lines, got)
    ids = sorted({*stored.posts, *range(1, min(stored.largest, 30) + 2)})
    published = [line_of(cmd="edit", id=it, status="publish") for it in ids]
    options = {"posts_per_page": "1", "show_on_front": "posts"}
    changed = [line_of(cmd="option", name=name, value=value) for name, value in options.items()]
    return [*asked(ids), *published, *asked(ids), put(title="next"), *bared(ids), *asked(ids), *changed, *asked(ids)]


def exported(program: str, file: Path, identity: bytes) -> list[bytes]:
    """The lines of an export, each of which can be given to the program; the files are as they were."""
    before = history(file)
    ran = run(program, b'{"cmd":"delete","id":1}\n', *over(file, "--export"))
    if ran.returncode or ran.stdout and not ran.stdout.endswith(b"\n"):
        raise Wrong(f"--export ended with status {ran.returncode} and says {shown(ran.stderr)}")
    check_told(ran, file)
    check_equal(history(file), before)
    lines = ran.stdout.split(b"\n")[:-1]
    for line in lines:
        if len(line) > LINE:
            raise Wrong(f"a line of an export has {len(line)} bytes: {shown(line)}")
        if line == identity or not is_edit(line):
            raise Wrong(f"a line of an export is no edit: {shown(line)}")
    return lines


def short(program: str, lines: list[bytes], most: int | None = None) -> None:
    """An export of what some lines make, the same given to a site in memory, and a history that is shortened so."""
    with tempfile.TemporaryDirectory() as folder:
        file = Path(folder, "site.db")
        got = replies(program, lines, *over(file))
        identity = history(file)[0]
        kept = exported(program, file, identity)
        probes = probe(lines, got)
        wanted = replies(program, [*lines, *probes])[len(lines) :]
        again = replies(program, [*kept, *probes])
        check_done(kept, again)
        same(probes, again[len(kept) :], wanted, "before the export it was")
        other = Path(folder, "other.db")
        replies(program, kept, *over(other))
        check_equal(exported(program, other, identity), kept)
        for _ in range(2):
            ran = run(program, b'{"cmd":"delete","id":1}\n', *over(file, "--compact"))
            check_silent(ran)
            check_equal(history(file), [identity, *kept])
        same(probes, replies(program, probes, *over(copied(file, folder))), wanted, "before --compact it was")
        check_equal(exported(program, file, identity), kept)
        if most is not None and len(kept) > most:
            raise Wrong(f"{len(lines)} lines are {len(kept)} after an export, wanted at most {most}")


def check_silent(ran: subprocess.CompletedProcess[bytes]) -> None:
    """A run that went well and wrote nothing."""
    if (ran.returncode, ran.stdout, ran.stderr) != (0, b"", b""):
        raise Wrong(f"it ended with status {ran.returncode}, {shown(ran.stdout)} and {shown(ran.stderr)}")


def check_done(lines: Iterable[bytes], got: Iterable[bytes]) -> None:
    for line, reply in zip(lines, got):
        if not reply.startswith(b"ok"):
            raise Wrong(f"the line {shown(line)} of an export has the reply {shown(reply)}")


def nothing(program: str) -> None:
    """A new file: an export is empty, and makes the file. The history of a site that has nothing can be shortened."""
    with tempfile.TemporaryDirectory() as folder:
        file = Path(folder, "site.db")
        ran = run(program, b"", *over(file, "--export"))
        check_told(ran, file)
        if ran.stdout:
            raise Wrong(f"the export of a new file is {shown(ran.stdout)}")
        identity = history(file)
        replies(
            program, [line_of(cmd="activate", plugin="bold"), line_of(cmd="deactivate", plugin="bold")], *over(file)
        )
        for _ in range(2):
            check_silent(run(program, b"", *over(file, "--compact")))
            check_equal(history(file), identity)
        replies(program, [], *over(file))


def cases(program: str) -> Cases:
    """Each check by its name, with what judges it."""
    bakery = (EXAMPLES / "bakery.jsonl").read_bytes().splitlines()
    yield "an export of nothing", lambda: nothing(program)
    yield "an export of the bakery", lambda: short(program, bakery)
    yield "an export of what is left over", lambda: short(program, list(left_over()))
    yield "an export if all IDs are used", lambda: short(program, list(all_ids_used()))
    yield "an export of a thousand edits of one post", lambda: short(program, list(many_edits()), most=3)
    yield "an export of large texts", lambda: short(program, list(large_texts()))
    for number in range(1, LISTS + 1):
        check, lines = partial(short, program), random_lines(f"export/{number}")
        yield f"an export of list {number}", partial(SHORTER.judge, f"export {number}", check, lines)
