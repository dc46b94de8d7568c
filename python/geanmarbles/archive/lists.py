"""The posts of an archive in their orders, by date and in each list, which lie in a database on the disk."""

from collections.abc import Iterable, Iterator
from dataclasses import dataclass

from geanmarbles.archive.store import Post
from geanmarbles.disk_tables import Disk, DiskDict, DiskSet


@dataclass(frozen=True)
class Listing:
    """A list of posts: its path, what it is of, its heading and how many posts it has."""

    path: str
    # `home`, `category`, `post_tag`, `author`, `year`, `month` or `day`.
    kind: str
    heading: str
    count: int
    # Which of the lists it is; that of all posts is none of them.
    number: int = 0

    @property
    def has_feed(self) -> bool:
        return self.kind in ("category", "post_tag", "author")


class Order:
    """Posts by their dates, those of one date by their IDs."""

    def __init__(self, disk: Disk, posts: Iterable[Post]) -> None:
        self.rows = disk.rows
        dated = disk.table("date TEXT, number INTEGER, PRIMARY KEY (date, number)", "WITHOUT ROWID")
        # Places begin with 1.
        self.name = disk.table("place INTEGER PRIMARY KEY, number INTEGER UNIQUE")
        self.rows.executemany(f"INSERT INTO {dated} VALUES (?, ?)", ((it.date, it.number) for it in posts))
        self.rows.execute(f"INSERT INTO {self.name} (number) SELECT number FROM {dated} ORDER BY date, number")
        self.length: int
        [(self.length,)] = self.rows.execute(f"SELECT count(*) FROM {self.name}")

    def __len__(self) -> int:
        return self.length

    def __contains__(self, number: int) -> bool:
        return self.place(number) > 0

    def place(self, number: int) -> int:
        """The place of a post, or 0 if it isn't among them."""
        found = self.rows.execute(f"SELECT place FROM {self.name} WHERE number = ?", (number,)).fetchone()
        return int(found[0]) if found else 0

    def at(self, place: int) -> int:
        """The post at a place, or 0 if there is none."""
        found = self.rows.execute(f"SELECT number FROM {self.name} WHERE place = ?", (place,)).fetchone()
        return int(found[0]) if found else 0

    def beside(self, number: int) -> tuple[int, int]:
        """The posts before and after one, each 0 if there is none."""
        place = self.place(number)
        return (self.at(place - 1), self.at(place + 1)) if place else (0, 0)

    def near(self, numbers: DiskDict[int, str]) -> Iterator[tuple[int, int, int]]:
        """Some posts and pages in their order, each with the posts before and after it, or 0 where there is none."""
        words = f"SELECT key, coalesce(one.number, 0), coalesce(two.number, 0) FROM {numbers.name}"
        for name, on in (
            ("here", "number = key"),
            ("one", "place = here.place - 1"),
            ("two", "place = here.place + 1"),
        ):
            words += f" LEFT JOIN {self.name} {name} ON {name}.{on}"
        return iter(self.rows.execute(f"{words} ORDER BY {numbers.name}.place"))

    def newest(self, begin: int = 0, count: int = -1) -> Iterator[int]:
        """The newest posts, or some of them from one onwards, the newest first."""
        words = f"SELECT number FROM {self.name} WHERE place <= ? ORDER BY place DESC LIMIT ?"
        return (number for (number,) in self.rows.execute(words, (self.length - begin, count)))


class Lists:
    """Lists of posts by their paths, each in the order in which posts come: of each post the path, the kind and the
    heading of each list that it is in. The first post of a list gives it its kind and heading."""

    def __init__(self, disk: Disk, posts: Iterable[tuple[int, str, str, str]]) -> None:
        self.rows = disk.rows
        self.lists = disk.table("number INTEGER PRIMARY KEY, path TEXT UNIQUE, kind TEXT, heading TEXT, count INTEGER")
        self.posts = disk.table("list INTEGER, place INTEGER, post INTEGER, PRIMARY KEY (list, place)", "WITHOUT ROWID")
        found = disk.table("at INTEGER PRIMARY KEY, post INTEGER, path TEXT, kind TEXT, heading TEXT")
        self.rows.executemany(f"INSERT INTO {found} (post, path, kind, heading) VALUES (?, ?, ?, ?)", posts)
        first = (
            f"SELECT min(at) AS at, path, kind, heading, count(*) AS count FROM {found} GROUP BY path ORDER BY min(at)"
        )
        into = f"INSERT INTO {self.lists} (path, kind, heading, count)"
        self.rows.execute(f"{into} SELECT path, kind, heading, count FROM ({first})")
        place = "row_number() OVER (PARTITION BY number ORDER BY at) - 1"
        self.rows.execute(
            f"INSERT INTO {self.posts} SELECT number, {place}, post FROM {found} JOIN {self.lists} USING (path)"
        )
        self.rows.execute(f"DROP TABLE {found}")

    def __contains__(self, path: str) -> bool:
        return self.rows.execute(f"SELECT 1 FROM {self.lists} WHERE path = ?", (path,)).fetchone() is not None

    def leave_out(self, paths: DiskSet[str]) -> None:
        """Leaves out the lists at some paths, which are in the same database."""
        is_there = f"SELECT 1 FROM {paths.name} WHERE key = {self.lists}.path"
        self.rows.execute(f"DELETE FROM {self.lists} WHERE EXISTS ({is_there})")

    def __iter__(self) -> Iterator[Listing]:
        words = f"SELECT path, kind, heading, count, number FROM {self.lists} ORDER BY number"
        return (Listing(*row) for row in self.rows.execute(words))

    def posts_of(self, listing: Listing, begin: int, count: int) -> Iterator[int]:
        """Some posts of a list, from one onwards."""
        words = f"SELECT post FROM {self.posts} WHERE list = ? AND place BETWEEN ? AND ? ORDER BY place"
        found = self.rows.execute(words, (listing.number, begin, begin + count - 1))
        return (post for (post,) in found)
