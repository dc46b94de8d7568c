"""What `publish` keeps beside an archive for its next run: what it has read of the export, and what it made of what.

All of it is looked at before it is believed: the export, the scripts and the program by their sums, and each file by
its size and its time. What doesn't fit is read or made anew. Nothing in it is a program, whoever has written it.
"""

import json
import sqlite3
from array import array
from collections.abc import Callable, Iterable, Iterator
from dataclasses import dataclass, field, fields, replace
from hashlib import blake2b, file_digest
from html import unescape
from operator import attrgetter
from pathlib import Path
from stat import S_ISREG
from typing import Any, TypeVar

from geanmarbles.archive.files import Files
from geanmarbles.disk_tables import AT_HAND, DiskDict, DiskSet
from geanmarbles.paths import ROOT
from geanmarbles.wordpress.items import Comment, Item, Term, WholeSite, read_site

KEPT = "kept.db"
# What the database says of its form: another one is made anew.
FORM = 1
TABLES = """
said (name TEXT PRIMARY KEY, value)
item (place INTEGER PRIMARY KEY, key INTEGER UNIQUE NOT NULL, value TEXT NOT NULL)
comment (place INTEGER PRIMARY KEY, key INTEGER UNIQUE NOT NULL, value TEXT NOT NULL)
unit (place INTEGER PRIMARY KEY, name TEXT UNIQUE NOT NULL, digest BLOB, made TEXT)
link (given TEXT PRIMARY KEY, shown TEXT)
fact (number INTEGER PRIMARY KEY, digest BLOB)
"""
# How many plain permalinks are known from unit to unit.
NOTED = 2_000
# The scripts on which the pages depend.
SCRIPTS = ("archive", "wordpress", "client", "commands/publish.py", "disk_tables.py")
Value = TypeVar("Value")


def digest_of(*inputs: object, key: bytes = b"") -> bytes:
    return blake2b(repr(inputs).encode(errors="backslashreplace"), digest_size=16, key=key).digest()


def digest_of_each(items: Iterable[object]) -> bytes:
    """What stands for some inputs of which not all have to be in memory."""
    made = blake2b(digest_size=16)
    for it in items:
        made.update(digest_of(it))
    return made.digest()


def sum_of(file: Path) -> bytes:
    with file.open("rb") as data:
        return file_digest(data, "sha256").digest()


def sums_of_scripts() -> list[bytes]:
    """The sums of the scripts and of what they read beside them."""
    given = (ROOT / "python" / "geanmarbles" / it for it in SCRIPTS)
    return [sum_of(it) for at in given for it in sorted([at, *at.rglob("*")]) if it.suffix in (".py", ".json")]


class KeptDict(DiskDict[int, Value]):
    """A dictionary in a table that stays, whose values are texts made by `dump` and read by `load`."""

    def __init__(self, rows: sqlite3.Connection, name: str, dump: Callable[[Value], Any], load: Callable[..., Value]):
        self.rows, self.name, self.most = rows, name, AT_HAND
        self.at_hand: dict[int, Value] = {}
        self.dump, self.load = dump, load

    def items(self) -> Iterator[tuple[int, Value]]:
        found = self.rows.execute(f"SELECT key, value FROM {self.name} ORDER BY place")
        return ((key, self.load(json.loads(value))) for key, value in found)

    def get(self, key: int, default: Any = None) -> Any:
        if key in self.at_hand:
            return self.at_hand[key]
        found = self.rows.execute(f"SELECT value FROM {self.name} WHERE key = ?", (key,)).fetchone()
        return self.hold(key, self.load(json.loads(found[0]))) if found else default

    def __setitem__(self, key: int, value: Value) -> None:
        self.rows.execute(
            f"INSERT INTO {self.name} (key, value) VALUES (?, ?)"
            " ON CONFLICT (key) DO UPDATE SET value = excluded.value",
            (key, json.dumps(self.dump(value))),
        )
        if key in self.at_hand:
            del self.at_hand[key]


def fields_of(kind: type) -> Callable[[Any], tuple[Any, ...]]:
    return attrgetter(*(it.name for it in fields(kind)))


OF_TERM, OF_COMMENT, OF_ITEM = map(fields_of, (Term, Comment, Item))


def item_as_list(item: Item) -> list[Any]:
    """An item as it is kept: without its title, which the site has, and without what nobody may see of a post."""
    if item.kind in ("post", "page") and not item.is_carried():
        item = replace(item, link="", slug="", guid="", excerpt="", password="x", fields={})
    item = replace(item, title="")
    *plain, terms, found = OF_ITEM(item)
    return [*plain, [*map(OF_TERM, terms)], found]


def item_from(given: list[Any]) -> Item:
    *plain, terms, found = given
    made = Item(*plain)
    made.terms, made.fields = [Term(*it) for it in terms], found
    return made


@dataclass(slots=True)
class Made:
    """What was made of some inputs."""

    # The files, each with its size and its time, and those of them that other units have too.
    own: dict[str, list[int]] = field(default_factory=dict)
    shared: dict[str, list[int]] = field(default_factory=dict)
    # The plain permalinks in them, as pages have them, and the uploads that they need.
    asked: list[str] = field(default_factory=list)
    uploads: list[str] = field(default_factory=list)
    # The paths for the sitemap, with the date of a post.
    listed: dict[str, str] = field(default_factory=dict)


OF_MADE = fields_of(Made)


def state_of(root: Path, name: str) -> list[int]:
    """The size and the time of a file, or nothing if there is none."""
    try:
        found = (root / name).lstat()
    except OSError:
        return []
    return [found.st_size, found.st_mtime_ns] if S_ISREG(found.st_mode) else []


class Kept:
    """The database beside an archive. What a run changes in it counts once the run has ended."""

    def __init__(self, folder: Path) -> None:
        folder.mkdir(parents=True, exist_ok=True)
        file = folder / KEPT
        try:
            self.rows = self.opened(file)
        except sqlite3.DatabaseError as fault:
            if isinstance(fault, sqlite3.OperationalError) and "locked" in str(fault):
                raise
            file.unlink()
            self.rows = self.opened(file)

    @staticmethod
    def opened(file: Path) -> sqlite3.Connection:
        rows = sqlite3.connect(file, isolation_level=None)
        rows.execute("BEGIN IMMEDIATE")
        [(form,)], [(state,)] = rows.execute("PRAGMA user_version"), rows.execute("PRAGMA quick_check(1)")
        tables = [name for (name,) in rows.execute("SELECT name FROM sqlite_master WHERE type = 'table'")]
        if form != FORM or state != "ok" or len(tables) != len(TABLES.strip().splitlines()):
            for name in tables:
                rows.execute(f'DROP TABLE "{name}"')
            for it in TABLES.strip().splitlines():
                rows.execute(f"CREATE TABLE {it}")
            rows.execute(f"PRAGMA user_version = {FORM}")
        return rows

    def said(self, name: str) -> Any:
        found = self.rows.execute("SELECT value FROM said WHERE name = ?", (name,)).fetchone()
        return found[0] if found else None

    def say(self, name: str, value: str | bytes) -> None:
        self.rows.execute("INSERT OR REPLACE INTO said VALUES (?, ?)", (name, value))

    def site(self, export: Path) -> tuple[WholeSite, bytes]:
        """What an export has of a site, and its sum: it is read only if another one was read before."""
        items: KeptDict[Item] = KeptDict(self.rows, "item", item_as_list, item_from)
        comments: KeptDict[list[Comment]] = KeptDict(
            self.rows,
            "comment",
            lambda given: [*map(OF_COMMENT, given)],
            lambda given: [Comment(*it) for it in given],
        )
        given = digest_of(sum_of(export), sums_of_scripts())
        names = [it.name for it in fields(WholeSite) if it.name not in ("items", "comments", "terms")]
        if self.said("read") == given:
            *texts, terms = json.loads(self.said("site"))
            found = [Term(*it) for it in terms]
            by_name = {(it.domain, it.slug): it for it in found}
            return WholeSite(**dict(zip(names, texts)), items=items, comments=comments, terms=by_name), given
        for it in ("said", "item", "comment"):
            self.rows.execute(f"DELETE FROM {it}")
        site = read_site(export, items, comments)
        self.say("site", json.dumps([*attrgetter(*names)(site), [*map(OF_TERM, site.terms.values())]]))
        self.say("read", given)
        return site, given

    def end(self) -> None:
        self.rows.execute("COMMIT")
        self.rows.close()


class Units:
    """The units of which an archive is made: each is some files, and is made anew if its inputs are others than in the
    last run, or if its files aren't there as they were."""

    def __init__(self, kept: Kept, files: Files, seed: bytes, target: Callable[[str], str]) -> None:
        self.rows, self.files, self.seed, self.target = kept.rows, files, seed, target
        self.now = Made()
        # The uploads that all units need.
        self.uploads: DiskSet[str] = DiskSet(files.disk)
        # The files that several units have, and the places of the units that are there.
        self.shared: set[str] = set()
        self.held = array("q")
        # Plain permalinks of which it is noted where they lead.
        self.noted: set[str] = set()
        self.rows.execute("CREATE TEMP TABLE held (place INTEGER PRIMARY KEY)")
        if kept.said("seed") != seed:
            for it in ("unit", "link", "fact"):
                self.rows.execute(f"DELETE FROM {it}")
            kept.say("seed", seed)
        self.drop_moved()

    def drop_moved(self) -> None:
        """Forgets the units with a plain permalink that leads elsewhere than in the last run."""
        found = self.rows.execute("SELECT given, shown FROM link").fetchall()
        moved = {given for given, shown in found if self.target(unescape(given[1:-1])) != shown}
        if not moved:
            return
        self.rows.executemany("DELETE FROM link WHERE given = ?", [(it,) for it in moved])
        units = self.rows.execute("SELECT place, made FROM unit")
        gone = [(place,) for place, made in units if not moved.isdisjoint(Made(*json.loads(made)).asked)]
        self.rows.executemany("DELETE FROM unit WHERE place = ?", gone)

    def before(self, name: str) -> tuple[int, bytes, Made] | None:
        """A unit as the last run has left it, if its files are still so."""
        found = self.rows.execute("SELECT place, digest, made FROM unit WHERE name = ?", (name,)).fetchone()
        if found is None:
            return None
        made = Made(*json.loads(found[2]))
        root, current = self.files.root, self.files.current
        is_there = all(state_of(root, it) == state and it not in current for it, state in made.own.items())
        is_there = is_there and all(it in self.shared or state_of(root, it) == at for it, at in made.shared.items())
        return (found[0], found[1], made) if is_there else None

    def make(self, name: str, inputs: object, write: Callable[[], object]) -> Made:
        """Has a unit written, unless it is there as these inputs make it."""
        digest, before = digest_of(inputs, key=self.seed), self.before(name)
        if before is not None and before[1] == digest:
            place, made = before[0], before[2]
            new = made.shared.keys() - self.shared
            self.shared |= new
            self.files.hold([*made.own, *new])
        else:
            self.now = made = Made()
            self.files.names, refused = [], self.files.refusals
            write()
            names = [it for it in dict.fromkeys(self.files.names) if it not in made.shared]
            made.own = {it: state_of(self.files.root, it) for it in names}
            # (what was refused is said in each run)
            place = self.keep(name, digest, made) if refused == self.files.refusals else 0
        self.held.append(place)
        self.uploads.update(made.uploads)
        return made

    def keep(self, name: str, digest: bytes, made: Made) -> int:
        self.rows.execute("DELETE FROM unit WHERE name = ?", (name,))
        new = {it for it in made.asked if it not in self.noted}
        found = ((it, self.target(unescape(it[1:-1]))) for it in new)
        self.rows.executemany("INSERT OR REPLACE INTO link VALUES (?, ?)", found)
        self.noted = new if len(self.noted) > NOTED else self.noted | new
        words = "INSERT INTO unit (name, digest, made) VALUES (?, ?, ?)"
        return self.rows.execute(words, (name, digest, json.dumps(OF_MADE(made)))).lastrowid or 0

    def share(self, path: str, text: str) -> None:
        """Writes a file that several units have."""
        name = self.files.name_of(path, "", False)
        if name not in self.shared:
            self.shared.add(name)
            self.files.write(path, text)
        self.now.shared[name] = state_of(self.files.root, name)

    def changed(self, facts: dict[int, bytes]) -> list[int]:
        """The numbers of which there are other facts than the last time that this was asked."""
        found = dict[int, bytes](self.rows.execute("SELECT number, digest FROM fact"))
        changed = [it for it in {*found, *facts} if found.get(it) != facts.get(it)]
        self.rows.executemany("DELETE FROM fact WHERE number = ?", [(it,) for it in changed])
        new: Iterable[tuple[int, bytes]] = ((it, facts[it]) for it in changed if it in facts)
        self.rows.executemany("INSERT INTO fact VALUES (?, ?)", new)
        return changed

    def end(self) -> None:
        """Forgets the units that weren't made in this run."""
        self.rows.executemany("INSERT OR IGNORE INTO held VALUES (?)", ((it,) for it in self.held))
        self.rows.execute("DELETE FROM unit WHERE place NOT IN (SELECT place FROM held)")
