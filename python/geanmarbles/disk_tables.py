"""Dictionaries and sets in a temporary database on the disk, for scripts whose memory mustn't grow with a site.

Keys are numbers, texts or bytes. The values that were asked for last are at hand.
"""

import pickle
import sqlite3
from collections.abc import Iterable, Iterator
from typing import Generic, TypeVar, overload

Key = TypeVar("Key", int, str, bytes)
Value = TypeVar("Value")

# How much of a database SQLite has in memory, in KiB.
CACHE = 1_000
# How many values of a dictionary are at hand, if nothing else is said.
AT_HAND = 100


class Disk:
    """A temporary database without a name, which SQLite keeps on the disk, and which is gone when the script ends."""

    def __init__(self) -> None:
        self.rows = sqlite3.connect("", isolation_level=None)
        self.count = 0
        self.rows.execute(f"PRAGMA cache_size = -{CACHE}")
        # Nobody reads it after a fault, so nothing has to be undone or committed.
        self.rows.execute("PRAGMA journal_mode = OFF")
        self.rows.execute("BEGIN")

    def table(self, columns: str, more: str = "") -> str:
        """Makes a table with some columns, and returns its name."""
        self.count += 1
        name = f"table_{self.count}"
        self.rows.execute(f"CREATE TABLE {name} ({columns}) {more}")
        return name


class DiskDict(Generic[Key, Value]):
    """As much of a dictionary as the scripts need, in the order in which its keys came.

    A value that is changed has to be set again."""

    def __init__(self, disk: Disk, at_hand: int = AT_HAND) -> None:
        self.rows, self.most = disk.rows, at_hand
        self.name = disk.table("place INTEGER PRIMARY KEY, key UNIQUE NOT NULL, value BLOB NOT NULL")
        self.at_hand: dict[Key, Value] = {}

    def __len__(self) -> int:
        count: int
        [(count,)] = self.rows.execute(f"SELECT count(*) FROM {self.name}")
        return count

    def __contains__(self, key: object) -> bool:
        if key in self.at_hand:
            return True
        return self.rows.execute(f"SELECT 1 FROM {self.name} WHERE key = ?", (key,)).fetchone() is not None

    def __iter__(self) -> Iterator[Key]:
        return (key for (key,) in self.rows.execute(f"SELECT key FROM {self.name} ORDER BY place"))

    def items(self) -> Iterator[tuple[Key, Value]]:
        found = self.rows.execute(f"SELECT key, value FROM {self.name} ORDER BY place")
        return ((key, pickle.loads(value)) for key, value in found)

    def values(self) -> Iterator[Value]:
        return (value for _, value in self.items())

    @overload
    def get(self, key: Key) -> Value | None:
        ...

    @overload
    def get(self, key: Key, default: Value) -> Value:
        ...

    def get(self, key: Key, default: Value | None = None) -> Value | None:
        if key in self.at_hand:
            return self.at_hand[key]
        found = self.rows.execute(f"SELECT value FROM {self.name} WHERE key = ?", (key,)).fetchone()
        if found is None:
            return default
        return self.hold(key, pickle.loads(found[0]))

    def __getitem__(self, key: Key) -> Value:
        found = self.get(key)
        if found is None:
            raise KeyError(key)
        return found

    def __setitem__(self, key: Key, value: Value) -> None:
        self.rows.execute(
            f"INSERT INTO {self.name} (key, value) VALUES (?, ?)"
            " ON CONFLICT (key) DO UPDATE SET value = excluded.value",
            (key, pickle.dumps(value, pickle.HIGHEST_PROTOCOL)),
        )
        self.hold(key, value)

    def setdefault(self, key: Key, value: Value) -> None:
        """Gives a key a value if it has none."""
        if key not in self:
            self[key] = value

    def discard(self, key: Key) -> None:
        """Removes a key, if it is there."""
        if key in self.at_hand:
            del self.at_hand[key]
        self.rows.execute(f"DELETE FROM {self.name} WHERE key = ?", (key,))

    def hold(self, key: Key, value: Value) -> Value:
        if len(self.at_hand) >= self.most and key not in self.at_hand:
            # The one that came first goes.
            del self.at_hand[next(iter(self.at_hand))]
        self.at_hand[key] = value
        return value


class DiskSet(Generic[Key]):
    """As much of a set as the scripts need, in the order of its members."""

    def __init__(self, disk: Disk, members: Iterable[Key] = ()) -> None:
        self.rows = disk.rows
        self.name = disk.table("key PRIMARY KEY NOT NULL", "WITHOUT ROWID")
        self.update(members)

    def __contains__(self, key: object) -> bool:
        return self.rows.execute(f"SELECT 1 FROM {self.name} WHERE key = ?", (key,)).fetchone() is not None

    def __iter__(self) -> Iterator[Key]:
        return (key for (key,) in self.rows.execute(f"SELECT key FROM {self.name} ORDER BY key"))

    def without(self, other: "DiskSet[Key]") -> Iterator[Key]:
        """The members that another set of the same database hasn't."""
        is_there = f"SELECT 1 FROM {other.name} WHERE {other.name}.key = {self.name}.key"
        words = f"SELECT key FROM {self.name} WHERE NOT EXISTS ({is_there}) ORDER BY key"
        return (key for (key,) in self.rows.execute(words))

    def add(self, key: Key) -> None:
        self.rows.execute(f"INSERT OR IGNORE INTO {self.name} VALUES (?)", (key,))

    def update(self, keys: Iterable[Key]) -> None:
        for key in keys:
            self.add(key)
