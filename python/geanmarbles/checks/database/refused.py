"""Starts that are refused by name, with the database file as it was; and histories, commits and exports that have many
lines, none of which is refused for their number."""

import json
import os
import shutil
import subprocess
import tempfile
from collections.abc import Callable, Sequence
from functools import partial
from itertools import islice
from pathlib import Path
from sqlite3 import Connection

from geanmarbles.checks.database.clients import (
    SECONDS,
    Client,
    check_end,
    joined,
    line_of,
    over,
    put,
    replies,
    run,
)
from geanmarbles.checks.database.disks import MOUNTED, may_mount
from geanmarbles.checks.database.files import (
    Statement,
    check_equal,
    check_told,
    copied,
    digests_of,
    doctored,
    history,
    log_of,
    opened,
    summary,
)
from geanmarbles.checks.judging import Cases, Skipped
from geanmarbles.client.replies import Wrong, shown

# Somebody who isn't root, for whom the system looks at a file's permissions.
NOBODY = 65_534
FIRST = "UPDATE command SET line = ? WHERE number = 1"
LAST = "INSERT INTO command (line, digest) VALUES (?, x'')"
LAST_SEALED = "INSERT INTO command (line, digest) VALUES (?, ?)"
STRANGE = ("CREATE TABLE post (id INTEGER PRIMARY KEY)", "INSERT INTO post VALUES (1)")
COMMAND = "CREATE TABLE command (number INTEGER PRIMARY KEY, line {}, digest BLOB NOT NULL) STRICT"
ROW = "INSERT INTO command (line, digest) VALUES ('x', x'00')"
# Databases of another form, by the statements that make them.
OTHER_FORMS = {
    "a database of something else": STRANGE,
    "a table with a column of another type": (COMMAND.format("BLOB NOT NULL"), ROW.replace("'x'", "x'20'")),
    "a table with a column that may be empty": (COMMAND.format("TEXT"), ROW),
    "a table with another column": (COMMAND.format("TEXT NOT NULL, more TEXT"), ROW),
    "a table with a digest of another type": (COMMAND.format("TEXT NOT NULL").replace("BLOB", "TEXT"),),
    "a table with a digest that may be empty": (COMMAND.format("TEXT NOT NULL").replace("BLOB NOT NULL", "BLOB"),),
    "the table of an older program": (COMMAND.format("TEXT NOT NULL").replace(", digest BLOB NOT NULL", ""),),
    "a table that isn't strict": (COMMAND.format("TEXT NOT NULL").replace(" STRICT", ""), ROW),
    "a second table": (COMMAND.format("TEXT NOT NULL"), *STRANGE),
    "an index": (COMMAND.format("TEXT NOT NULL"), "CREATE INDEX i ON command (line)"),
    "a trigger": (
        COMMAND.format("TEXT NOT NULL"),
        "CREATE TRIGGER t AFTER INSERT ON command BEGIN DELETE FROM command WHERE number = 1; END",
    ),
    "a view": (COMMAND.format("TEXT NOT NULL"), "CREATE VIEW v AS SELECT line FROM command"),
}
MOVE = "UPDATE command SET number = ? WHERE number = ?"
# What is done to a history of 2,501 lines, and which of them is the first that doesn't fit.
CHANGED: tuple[tuple[list[Statement], int], ...] = (
    ([("UPDATE command SET line = line || ' ' WHERE number = 7", ())], 7),
    ([("UPDATE command SET line = replace(line, 'post', 'Post') WHERE number = 2501", ())], 2_501),
    ([("UPDATE command SET line = replace(line, 'bold', 'bald') WHERE number = 1", ())], 1),
    ([("UPDATE command SET digest = zeroblob(32) WHERE number = 1001", ())], 1_001),
    ([("UPDATE command SET digest = x'' WHERE number = 1000", ())], 1_000),
    ([("DELETE FROM command WHERE number = 1500", ())], 1_500),
    ([("DELETE FROM command WHERE number = 1", ())], 1),
    ([(MOVE, (9_999, 9)), (MOVE, (9, 8)), (MOVE, (8, 9_999))], 8),
    ([("INSERT INTO command (line, digest) SELECT line, digest FROM command WHERE number = 2501", ())], 2_502),
    ([("UPDATE command SET digest = (SELECT digest FROM command WHERE number = 3) WHERE number = 2", ())], 2),
)
# A start alone, and with each option that is only for a file; the last one makes none.
WAYS: tuple[tuple[str, ...], ...] = ((), ("--export",), ("--compact",), ("--check",))
NOT_A_LOG = "the database is not a log of commands"
OTHER_PROGRAM = "the file was written by a program with other plugins or of another version.."
CANNOT_OPEN = "the file cannot be opened"
UNSOUND = "the file is no sound database"
LONE = "{}-wal is not there: put it back, or give --without-wal if the file is whole without it"
# Lines that can't be in a history, with the reply that is named.
WRONG_LINES = {
    b'{"cmd":"edit","id":99,"title":"x"}': "3 NoSuchPost",
    b'{"cmd":"activate","plugin":"nope"}': "6 UnknownPlugin",
    b'{"cmd":"put","date":"2024-02-30 00:00:00"}': "5 BadDate",
    b'{"cmd":"template","name":"x","body":[]}': "7 BadTemplate",
    b'{"cmd":"import","site":{}}': "2 BadImport",
    b"no command": "1 BadCommand",
    b"": "1 BadCommand",
    b'{"site":1,"plugins":[]}': "1 BadCommand",
}
# Which lines of a history of 2,500 are wrong in turn: a start reads the first, and then 1,000 at a time.
FAR_ON = (2, 1_000, 1_001, 1_002, 1_502, 2_001, 2_002, 2_500)
# The shortest edit that is done, and how many bytes the program reads at a time.
SHORTEST, READ = b'{"cmd":"edit","id":1}', 65_536
# How many options a large site has; how many lines its history; and how many a run may read from its input.
OPTIONS, MANY, MOST = 70_000, 1_000_100, 1_000_000
# Fills a disk, and then runs a program over a new file on it.
FILLED = 'head -c 1000000 /dev/zero > "$1/filler" 2>/dev/null; exec "$0" --database "$1/site.db"'
# Lines that are done, but are no edits.
NO_EDITS = (b'{"cmd":"get","path":"/"}', b'{"cmd":"begin","path":"/"}')


def refuses(
    program: str,
    file: Path,
    why: str,
    *words: str,
    user: int | None = None,
    given: bytes = b'{"cmd":"get","path":"/"}\n',
) -> str:
    """A start over a file is refused with this line, or with one that begins so, and the file is as it was."""
    before = file.read_bytes() if file.is_file() else None
    ran = run(program, given, *over(file, *words), user=user)
    said = ran.stderr.decode(errors="replace")
    wanted = f"site: {file}: {why}"
    is_said = said == f"{wanted}\n" or why.endswith("..") and said.startswith(wanted[:-2]) and said.count("\n") == 1
    if (ran.returncode, ran.stdout) != (1, b"") or not is_said:
        came = f"it ended with status {ran.returncode}, wrote {shown(ran.stdout)} and said {said!r}"
        raise Wrong(f"{came}, wanted {wanted!r}")
    if before is not None and file.read_bytes() != before:
        raise Wrong("the database file is another after it")
    return said


def refuses_in_every_way(program: str, file: Path, why: str) -> None:
    """The same with each option that is only for a file."""
    for words in WAYS:
        refuses(program, file, why, *words)


def made(program: str, folder: str) -> Path:
    """A small site in a file."""
    file = Path(folder, "site.db")
    replies(program, [put(title="T"), put(title="U")], *over(file))
    return file


# What is said of a file that another program has.
IN_USE = "the file is in use: end the program that has it, or edit the site through that one"


def refuses_a_second_program(program: str, folder: str) -> None:
    """A second program on the same file is refused, before the first has made an edit and after, and the first goes
    on."""
    file = made(program, folder)
    with Client(program, *over(file)) as client:
        client.ask(b"{}")
        refuses_in_every_way(program, file, IN_USE)
        first = client.ask(put(title="V"))
        refuses_in_every_way(program, file, IN_USE)
        if (first, client.ask(put(title="W"))) != (b"ok 3\n", b"ok 4\n"):
            raise Wrong("the first program doesn't go on")
        check_end(client.end(), 0, b"")
    if len(history(file)) != 5:
        raise Wrong(f"the history has {len(history(file))} lines")


def refuses_what_it_cannot_open(program: str, folder: str) -> None:
    """Folders, pipes, files in folders that aren't there, SQLite's names for other things, and files with a second
    name."""
    refuses_in_every_way(program, Path(folder), CANNOT_OPEN)
    pipe = Path(folder, "pipe")
    os.mkfifo(pipe)
    for words in WAYS[:-1]:
        refuses(program, pipe, CANNOT_OPEN, *words)
    refuses(program, pipe, "the file is empty", *WAYS[-1])
    pipe.unlink()
    for file in (Path(folder, "none", "site.db"), Path(":memory:"), Path("file:site.db")):
        for words in WAYS[:-1]:
            refuses(program, file, CANNOT_OPEN, *words)
        refuses(program, file, "there is no such file", *WAYS[-1])
    if os.listdir(folder):
        raise Wrong(f"it left {os.listdir(folder)}")
    file, link = made(program, folder), Path(folder, "link.db")
    os.link(file, link)
    log_of(link).touch()
    for name in (file, link):
        refuses_in_every_way(program, name, CANNOT_OPEN)
    link.unlink()
    replies(program, [put(title="W")], *over(file))


def refuses_without_permission(program: str, folder: str) -> None:
    """A file, or a folder, that may not be written, to somebody who isn't root."""
    if os.geteuid():
        user = None
    else:
        user = NOBODY
        os.chmod(folder, 0o755)
    copy = shutil.copy(program, Path(folder, "program"))
    os.chmod(copy, 0o755)
    file = made(program, folder)
    os.chmod(file, 0o444)
    refuses(copy, file, CANNOT_OPEN, user=user)
    os.chmod(folder, 0o555)
    refuses(copy, Path(folder, "new.db"), CANNOT_OPEN, user=user)
    os.chmod(folder, 0o755)


def refuses_what_must_exist(program: str, folder: str) -> None:
    """With --must-exist a file that isn't there, or is empty, is refused, and none is made; others are taken."""
    none, empty, file = Path(folder, "none.db"), Path(folder, "empty.db"), made(program, folder)
    empty.touch()
    before = sorted(os.listdir(folder))
    for words in WAYS:
        refuses(program, none, "there is no such file", *words, "--must-exist")
        refuses(program, Path(folder, "none", "site.db"), "there is no such file", *words, "--must-exist")
        refuses(program, empty, "the file is empty", *words, "--must-exist")
    if sorted(os.listdir(folder)) != before:
        raise Wrong(f"{before} became {sorted(os.listdir(folder))}")
    replies(program, [put(title="V")], *over(file, "--must-exist"))
    if len(history(file)) != 4:
        raise Wrong(f"the history has {len(history(file))} lines")


def refuses_a_lone_file(program: str, folder: str) -> None:
    """FILE without its FILE-wal is refused, and nothing is made, unless --without-wal says that it is whole. A start
    then leaves a FILE-wal. A file of another kind is refused as that, and an empty one is a new site."""
    wanted = history(made(program, folder))
    alone, text, new = (Path(folder, name) for name in ("alone.db", "text", "new.db"))
    shutil.copyfile(Path(folder, "site.db"), alone)
    text.write_bytes(b"no database\n" * 400)
    new.touch()
    before = sorted(os.listdir(folder))
    for words in (*WAYS, ("--must-exist",), ("--http",), ("--http", "--framed")):
        refuses(program, alone, LONE.format(alone.resolve()), *words)
    link = Path(folder, "link.db")
    link.symlink_to(alone.name)
    refuses(program, link, LONE.format(alone.resolve()))
    link.unlink()
    if sorted(os.listdir(folder)) != before:
        raise Wrong(f"{before} became {sorted(os.listdir(folder))}")
    refuses(program, text, UNSOUND)
    ran = run(program, b"", *over(alone, "--check", "--without-wal"))
    check_end((ran.returncode, ran.stdout), 0, f"{summary(wanted)}\n".encode())
    replies(program, [put(title="V")], *over(alone))
    check_equal(history(alone), [*wanted, put(title="V")])
    replies(program, [put(title="V")], *over(new, "--without-wal"))
    for words in ((), ("--without-wal",)):
        replies(program, [put(title="W")], *over(new, *words))
    if len(history(new)) != 4:
        raise Wrong(f"the history has {len(history(new))} lines")


def refuses_what_is_no_database(program: str, folder: str) -> None:
    """Files of other kinds, and a database of which pages were overwritten."""
    for name, text in (("text", b"no database\n" * 400), ("image", b"\x89PNG\r\n\x1a\n" + bytes(range(256)) * 64)):
        file = Path(folder, name)
        file.write_bytes(text)
        refuses_in_every_way(program, file, UNSOUND)
    file = doctored(made(program, folder), [("PRAGMA user_version", ())], folder)
    whole = file.read_bytes()
    file.write_bytes(whole[:4_096] + b"\xff" * (len(whole) - 4_096))
    refuses_in_every_way(program, file, UNSOUND)


def refuses_other_forms(program: str, folder: str) -> None:
    """Databases with another schema."""
    for number, (name, statements) in enumerate(OTHER_FORMS.items()):
        file = Path(folder, f"{number}.db")
        with opened(file) as connection:
            for statement in statements:
                connection.execute(statement)
        try:
            refuses_in_every_way(program, file, NOT_A_LOG)
        except Wrong as wrong:
            raise Wrong(f"{name}: {wrong}") from None


def refuses_other_programs(program: str, folder: str) -> None:
    """A history whose first line isn't this program's."""
    file = made(program, folder)
    identity = json.loads(history(file)[0])
    later = {**identity, "site": identity["site"] + 1}
    fewer = {**identity, "plugins": identity["plugins"][1:]}
    other = {**identity, "plugins": [[name, [*numbers, 999]] for name, numbers in identity["plugins"]]}
    whys = []
    others = [json.dumps(it, separators=(",", ":")) for it in (later, fewer, other)]
    for line in (*others, "{}", put(title="T").decode(), ""):
        copy = doctored(file, [(FIRST, (line,))], folder)
        for words in WAYS:
            whys.append(refuses(program, copy, OTHER_PROGRAM, *words))
        copy.unlink()
    copy = doctored(file, [("DELETE FROM command WHERE number = 1", ())], folder)
    whys.append(refuses(program, copy, OTHER_PROGRAM))
    for why in whys:
        if "--export" not in why:
            raise Wrong(f"it doesn't say what can be done: {why!r}")


def refuses_wrong_lines(program: str, folder: str) -> None:
    """A history with a line that is refused, or that is no edit: its number is named, and its refusal."""
    file = made(program, folder)
    for line, reply in WRONG_LINES.items():
        copy = doctored(file, [(LAST, (line.decode(),)), (LAST, (put(title="after").decode(),))], folder)
        refuses_in_every_way(program, copy, f"line 4 of the history is refused: {reply}")
        copy.unlink()
    for line in NO_EDITS:
        copy = doctored(file, [(LAST, (line.decode(),))], folder)
        refuses_in_every_way(program, copy, "line 4 of the history..")
        copy.unlink()


def refuses_wrong_lines_far_on(program: str, folder: str) -> None:
    """A line of a long history is refused, or is no edit: its number counts all lines before it."""
    file = Path(folder, "site.db")
    replies(program, [put(title="T")], *over(file))
    extended(file, [SHORTEST] * (max(FAR_ON) - 2))
    wrong, reply = next(iter(WRONG_LINES.items()))
    for number in FAR_ON:
        change = "UPDATE command SET line = ? WHERE number = ?"
        copy = doctored(file, [(change, (wrong.decode(), number))], folder)
        refuses_in_every_way(program, copy, f"line {number} of the history is refused: {reply}")
        copy.unlink()
        copy = doctored(file, [(change, (NO_EDITS[0].decode(), number))], folder)
        refuses(program, copy, f"line {number} of the history is not an edit")
        copy.unlink()


def refuses_what_its_log_has(program: str, folder: str) -> None:
    """A line that is refused is in FILE-wal alone: nothing of it is copied into FILE."""
    file = doctored(made(program, folder), [], folder)
    before = history(file)
    wrong, reply = next(iter(WRONG_LINES.items()))
    with opened(file) as connection:
        append_to(connection, before, [wrong])
        copy = copied(file, folder)
    refuses_in_every_way(program, copy, f"line {len(before) + 1} of the history is refused: {reply}")


def append_to(connection: Connection, before: Sequence[bytes], lines: Sequence[bytes]) -> None:
    """Appends lines to a history by one commit, each with its digest."""
    sealed = zip(lines, islice(digests_of([*before, *lines]), len(before), None))
    connection.execute("BEGIN")
    connection.executemany(LAST_SEALED, ((line.decode(), digest) for line, digest in sealed))
    connection.execute("COMMIT")


def extended(file: Path, lines: Sequence[bytes]) -> None:
    """Appends lines to the history in a file."""
    before = history(file)
    with opened(file) as connection:
        append_to(connection, before, lines)
        connection.execute("PRAGMA wal_checkpoint(TRUNCATE)")


def takes_a_long_log(program: str, folder: str) -> None:
    """A log of more pages than those at which it is copied is read whole: a fault right after a large commit leaves
    one."""
    file = made(program, folder)
    before = history(file)
    options = [line_of(cmd="option", name=f"o{it}", value="v" * 65_000) for it in range(100)]
    with opened(file) as connection:
        connection.execute("PRAGMA wal_autocheckpoint = 0")
        append_to(connection, before, options)
        copy = copied(file, folder)
    if log_of(copy).stat().st_size < 1_500 * 4_096:
        raise Wrong(f"the log has {log_of(copy).stat().st_size} bytes alone")
    replies(program, [], *over(copy))
    check_equal(history(copy), [*before, *options])


def takes_many_lines(program: str, folder: str) -> None:
    """A history of more lines than a run may read is carried out, and a wrong line at its end is named; the export of
    many options has a line for each of them."""
    file = Path(folder, "site.db")
    replies(program, [put(title="T")], *over(file))
    options = [line_of(cmd="option", name=f"o{it:05}", value="v") for it in range(OPTIONS)]
    extended(file, [*options, *[SHORTEST] * (MANY - OPTIONS - 3), next(iter(WRONG_LINES))])
    reply = next(iter(WRONG_LINES.values()))
    refuses(program, file, f"line {MANY} of the history is refused: {reply}")
    with opened(file) as connection:
        connection.execute("DELETE FROM command WHERE number = ?", (MANY,))
        connection.execute("PRAGMA wal_checkpoint(TRUNCATE)")
    ran = run(program, b"", *over(file, "--export"))
    check_told(ran, file)
    lines = ran.stdout.splitlines()
    check_equal(sorted(it for it in lines if b'"option"' in it), options)
    ran = run(program, b"", *over(file, "--compact"))
    check_end((ran.returncode, ran.stderr), 0, b"")
    check_equal(history(file)[1:], lines)


def takes_the_shortest_edits(program: str, folder: str) -> None:
    """As many edits as can come in one read, which are one commit, all have their replies and are there."""
    file = made(program, folder)
    before = history(file)
    edits = [SHORTEST] * (READ // (len(SHORTEST) + 1))
    with tempfile.TemporaryFile() as given:
        given.write(joined(edits))
        given.seek(0)
        ran = run(program, None, *over(file), stdin=given)
    check_end((ran.returncode, ran.stderr), 0, b"")
    if ran.stdout != b"ok\n" * len(edits):
        raise Wrong(f"the replies are {shown(ran.stdout)}")
    check_equal(history(file), [*before, *edits])


def takes_a_million_lines(program: str, folder: str) -> None:
    """One line too many ends a run, and the edits right before it, which came in the same read, have their replies and
    are there, in FILE-wal alone."""
    file = made(program, folder)
    before, alone = history(file), file.read_bytes()
    edits = [put(title=f"late {it}") for it in range(5)]
    with tempfile.TemporaryFile() as given:
        given.write(b"{}\n" * (MOST - len(edits)) + joined([*edits, put(title="one too many")]))
        given.seek(0)
        ran = run(program, None, *over(file), stdin=given)
    check_end((ran.returncode, ran.stderr), 1, b"site: too much input\n")
    replied = ran.stdout.splitlines()[MOST - len(edits) :]
    if replied != [b"ok %d" % it for it in range(3, 3 + len(edits))]:
        raise Wrong(f"the last replies are {shown(b' '.join(replied))}")
    check_equal(history(file), [*before, *edits])
    if file.read_bytes() != alone:
        raise Wrong("what a run that fails has committed is copied into FILE")


def refuses_on_a_full_disk(program: str, folder: str) -> None:
    """A new file on a disk without room."""
    space = may_mount()
    if space is None:
        raise Skipped("no disk of one's own can be mounted: that takes root, or user namespaces")
    words = [*space, "sh", "-c", MOUNTED, "sh", "64k", folder, "sh", "-c", FILLED, program, folder]
    ran = subprocess.run(words, input=b"", capture_output=True, timeout=SECONDS)
    check_end((ran.returncode, ran.stderr), 1, f"site: {folder}/site.db: the disk is full\n".encode())


def refuses_changed_lines(program: str, folder: str) -> None:
    """A history of which a line was changed, lost, moved or put in, or a digest: the first line that doesn't fit is
    named. One that was lost from the end isn't seen."""
    file = Path(folder, "site.db")
    replies(program, [put(title=f"post {number}") for number in range(1, 2_501)], *over(file))
    for statements, number in CHANGED:
        copy = doctored(file, statements, folder, sealed=False)
        refuses_in_every_way(program, copy, f"line {number} of the log has changed since it was written")
        copy.unlink()
    copy = doctored(file, [("DELETE FROM command WHERE number > 2000", ())], folder, sealed=False)
    replies(program, [], *over(copy))
    if len(history(copy)) != 2_000:
        raise Wrong(f"the history has {len(history(copy))} lines")


def cases(program: str) -> Cases:
    """Each check by its name, with what judges it."""
    checks = (
        refuses_a_second_program,
        refuses_what_it_cannot_open,
        refuses_without_permission,
        refuses_what_must_exist,
        refuses_a_lone_file,
        refuses_what_is_no_database,
        refuses_other_forms,
        refuses_other_programs,
        refuses_wrong_lines,
        refuses_wrong_lines_far_on,
        refuses_changed_lines,
        refuses_what_its_log_has,
        refuses_on_a_full_disk,
        takes_a_long_log,
        takes_the_shortest_edits,
        takes_a_million_lines,
        takes_many_lines,
    )
    for check in checks:
        yield check.__doc__, partial(in_a_folder, check, program)


def in_a_folder(check: Callable[[str, str], None], program: str) -> None:
    with tempfile.TemporaryDirectory() as folder:
        check(program, folder)
