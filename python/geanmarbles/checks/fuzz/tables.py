"""A site's rows as SQLite itself keeps them: the lines of a history, carried out one after the other in the program's
own tables, and the rows of each table as SQLite then finds them."""

import json
import sqlite3
from collections.abc import Iterable
from typing import Any, Self

from geanmarbles.checks.fuzz.values import Keys, command_of

# The rows of each table, by its name.
Rows = dict[str, list[tuple[Any, ...]]]
# The tables of crates/post_tables. SQLite adds one for the largest ID.
SCHEMA = (
    "CREATE TABLE post (id INTEGER PRIMARY KEY AUTOINCREMENT CHECK (id BETWEEN 1 AND 2147483647),"
    " kind TEXT NOT NULL CHECK (kind IN ('post', 'page')),"
    " status TEXT NOT NULL CHECK (status IN ('publish', 'draft')), title TEXT NOT NULL, content TEXT NOT NULL,"
    " date TEXT NOT NULL CHECK (length(date) = 19)) STRICT",
    "CREATE TABLE option (name TEXT PRIMARY KEY NOT NULL, value TEXT NOT NULL) STRICT",
    "CREATE TABLE template (name TEXT PRIMARY KEY NOT NULL, body TEXT NOT NULL) STRICT",
    "CREATE TABLE active (name TEXT PRIMARY KEY NOT NULL) STRICT",
)
TABLES = ("active", "option", "post", "sqlite_sequence", "template")
DEFAULTS: dict[str, Any] = {"kind": "post", "status": "publish", "title": "", "content": ""}
INSERT = (
    "INSERT INTO post (id, kind, status, title, content, date) VALUES (:id, :kind, :status, :title, :content, :date)"
)
OPTION = "INSERT INTO option VALUES (?, ?) ON CONFLICT (name) DO UPDATE SET value = excluded.value"
TEMPLATE = "INSERT INTO template VALUES (?, ?) ON CONFLICT (name) DO UPDATE SET body = excluded.body"


class Tables:
    """The tables of a site, which is empty at first."""

    def __init__(self) -> None:
        self.connection = sqlite3.connect(":memory:", isolation_level=None)
        for statement in SCHEMA:
            self.connection.execute(statement)

    def __enter__(self) -> Self:
        return self

    def __exit__(self, *_: object) -> None:
        self.connection.close()

    def carry_out(self, line: bytes) -> None:
        """Carries out an edit that was done."""
        command = command_of(line)
        match command["cmd"]:
            case "put":
                self.connection.execute(INSERT, {**DEFAULTS, **command, "id": None})
            case "edit":
                for key in ("status", "title", "content", "date"):
                    if key in command:
                        statement = f"UPDATE post SET {key} = ? WHERE id = ?"
                        self.connection.execute(statement, (command[key], command["id"]))
            case "delete":
                self.connection.execute("DELETE FROM post WHERE id = ?", (command["id"],))
            case "option":
                self.connection.execute(OPTION, (command["name"], command["value"]))
            case "activate":
                self.connection.execute("INSERT OR IGNORE INTO active VALUES (?)", (command["plugin"],))
            case "deactivate":
                self.connection.execute("DELETE FROM active WHERE name = ?", (command["plugin"],))
            case "template":
                self.set_template(command["name"], command["body"])
            case "import":
                self.carry_in(command["site"])

    def set_template(self, name: str, body: Any) -> None:
        """Stores a tree as one writing of it, so that two writings of one tree are one row."""
        if body is None:
            self.connection.execute("DELETE FROM template WHERE name = ?", (name,))
        else:
            text = json.dumps(body, ensure_ascii=False, sort_keys=True, separators=(",", ":"))
            self.connection.execute(TEMPLATE, (name, text))

    def carry_in(self, site: Keys) -> None:
        for post in site.get("posts", []):
            self.connection.execute(INSERT, post)
        for name, value in site.get("options", {}).items():
            self.connection.execute(OPTION, (name, value))
        if site["version"] == 2 and "front" in site:
            self.connection.execute(OPTION, ("show_on_front", site["front"]["show"]))
            if site["front"]["show"] == "page":
                self.connection.execute(OPTION, ("page_on_front", str(site["front"]["page"])))
        for name, body in site.get("templates", {}).items():
            self.set_template(name, body)
        for name in site.get("active", []):
            self.connection.execute("INSERT OR IGNORE INTO active VALUES (?)", (name,))

    def rows(self) -> Rows:
        """Each table by its name, with its rows in order."""
        names = [name for (name,) in self.connection.execute("SELECT name FROM sqlite_master WHERE type = 'table'")]
        assert sorted(names) == list(TABLES), names
        return {name: self.connection.execute(f"SELECT * FROM {name} ORDER BY 1").fetchall() for name in TABLES}


def rows_of(lines: Iterable[bytes]) -> Rows:
    """The rows of the site that some edits make, all of which were done."""
    with Tables() as tables:
        for line in lines:
            tables.carry_out(line)
        return tables.rows()
