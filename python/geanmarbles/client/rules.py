"""Which refusal docs/BEHAVIOUR.md has for a line, and why. tests/refusals tries it against the program.

A script uses it so:

    from geanmarbles.client.rules import Refused, Site

    site = Site()
    try:
        site.command(b'{"cmd":"delete","id":9}')
    except Refused as refused:
        print(refused)      # refused 3 NoSuchPost: id: no post or page has the ID 9
"""

import json
import re
from collections.abc import Callable, Iterable, Sequence
from datetime import datetime
from typing import Any, NoReturn

from geanmarbles.client.replies import MAX_ID, REFUSALS

# The keys of a command, or of an entry of it; and a reader of a value: of what it is called, and of the number that
# refuses another form.
Keys = dict[str, Any]
Read = Callable[[Any, str, int], Any]
# The plugins of the program `site`.
PLUGINS = ("args", "atts", "bold", "deep", "grow", "marks", "nest", "note", "once", "tagmark")
TEMPLATES = ("index", "home", "front-page", "single", "page", "singular", "date", "archive", "404")
PARTS = ("header", "footer", "content")
TAGS = (
    *("the_title", "the_content", "title_escaped", "the_ID", "the_permalink", "post_date"),
    *("site_name", "wp_head", "wp_footer"),
)
KINDS, STATUSES = ("post", "page"), ("publish", "draft")
SECTIONS = ("posts", "options", "front", "templates", "active")
# Limits, and what a text is called that has one.
NAME_BYTES = 64
SIZES = {"title": 65_536, "content": 524_288, "value": 65_536, "path": 8_192}
POSTS, NODES, TEXT_BYTES = 10_000, 4_096, 262_144
DEPTH, OPEN_PAGES, TURNS, CALLS = 127, 8, 1_000_000, 100_000
LINE_BYTES, LINES = 1_048_576, 1_000_000


class Refused(Exception):
    """A refusal's number, and why it comes."""

    def __init__(self, number: int, why: str) -> None:
        self.number = number
        self.why = why
        super().__init__(f"refused {number} {REFUSALS[number]}: {why}")


def size_of(text: str) -> int:
    return len(text.encode())


def shown(value: object) -> str:
    """A value for a message, cut if it is long."""
    text = json.dumps(value, ensure_ascii=False)
    return text if len(text) <= 60 else f"{text[:60]} .."


# Reading a line's JSON.


class Members:
    """An object as it is read: all its members, also those that a later one of the same name hides."""

    def __init__(self, pairs: list[tuple[str, Any]]) -> None:
        self.pairs = pairs


def whole_or_not(digits: str) -> int | float:
    """A number that is written without fraction and exponent; -0 is no whole number, nor is what is past any range."""
    return -0.0 if digits == "-0" else float_of(digits) if len(digits) > 20 else int(digits)


def float_of(digits: str) -> float:
    number = float(digits)
    if number in (float("inf"), float("-inf")):
        raise ValueError(f"the number {shown(digits)} is out of range")
    return number


def no_number(word: str) -> NoReturn:
    raise ValueError(f"{word} is no JSON")


def read_text(text: str) -> str:
    if any("\ud800" <= character <= "\udfff" for character in text):
        raise ValueError("a text has half of a surrogate pair")
    return text


def plain(value: Any, depth: int = 0) -> Any:
    """A value as dictionaries, lists and texts, once all that is in it can be read."""
    if isinstance(value, str):
        return read_text(value)
    if not isinstance(value, (list, Members)):
        return value
    if depth == DEPTH:
        raise ValueError(f"it is nested more than {DEPTH} deep")
    if isinstance(value, list):
        return [plain(it, depth + 1) for it in value]
    return {read_text(key): it for key, it in [(key, plain(it, depth + 1)) for key, it in value.pairs]}


def read_json(line: bytes) -> Any:
    """The value of a line, or 1."""
    try:
        how: dict[str, Any] = {"parse_int": whole_or_not, "parse_float": float_of, "parse_constant": no_number}
        return plain(json.loads(line.decode(), object_pairs_hook=Members, **how))
    except UnicodeDecodeError as fault:
        raise Refused(1, f"the line isn't UTF-8, at its byte {fault.start + 1}") from None
    except RecursionError:
        raise Refused(1, f"the line isn't JSON: it is nested more than {DEPTH} deep") from None
    except ValueError as fault:
        raise Refused(1, f"the line isn't JSON: {fault}") from None


# Reading values: each reader takes a value, what it is called, and the number that refuses another form.


def a_text(value: Any, where: str, number: int) -> str:
    if not isinstance(value, str):
        raise Refused(number, f"{where}: a text belongs there, not {shown(value)}")
    return value


def a_word_of(words: Sequence[str]) -> Read:
    def read(value: Any, where: str, number: int) -> Any:
        if a_text(value, where, number) not in words:
            raise Refused(number, f"{where}: one of {', '.join(words)} belongs there, not {shown(value)}")
        return value

    return read


def a_number_to(most: int) -> Read:
    def read(value: Any, where: str, number: int) -> Any:
        # (a bool is an int in Python)
        if type(value) is not int or not 1 <= value <= most:
            raise Refused(number, f"{where}: a whole number from 1 to {most:,} belongs there, not {shown(value)}")
        return value

    return read


def an_option_name(value: Any, where: str, number: int) -> Any:
    size = size_of(a_text(value, where, number))
    if not 1 <= size <= NAME_BYTES:
        raise Refused(number, f"{where}: a name of an option has 1 to {NAME_BYTES} bytes, and this one {size:,}")
    return value


an_id = a_number_to(MAX_ID)
POST: dict[str, Read] = {
    "kind": a_word_of(KINDS),
    "status": a_word_of(STATUSES),
    "title": a_text,
    "content": a_text,
    "date": a_text,
}


def taken(members: Keys, key: str, where: str, number: int, read: Read) -> Any:
    """The value of a key that must be there."""
    if key not in members:
        raise Refused(number, f"{where}{key}: the key is missing")
    return read(members[key], f"{where}{key}", number)


def check_sizes(members: Keys, keys: Iterable[str], where: str = "") -> None:
    for key in keys:
        size = size_of(members.get(key, ""))
        if size > SIZES[key]:
            raise Refused(8, f"{where}{key}: {size:,} bytes, and at most {SIZES[key]:,} are taken")


def check_date(text: str, where: str) -> None:
    """5 for what is no date: `strptime` alone would also take other digits and fewer of them."""
    try:
        if not re.fullmatch(r"[0-9]{4}(-[0-9]{2}){2} [0-9]{2}(:[0-9]{2}){2}", text):
            raise ValueError("it isn't of the form YYYY-MM-DD HH:MM:SS")
        year, month, day, hour, minute, second = map(int, re.split("[- :]", text))
        datetime(year, month, day, hour, minute, second)
    except ValueError as fault:
        raise Refused(5, f"{where}: {shown(text)} is no date: {fault}") from None


# Templates.


class Tree:
    """A template's tree, as it is looked through: its form, and then how large it is."""

    def __init__(self, name: str, tree: Any, where: str) -> None:
        self.is_part = name in PARTS
        self.where = where
        self.nodes = 0
        self.bytes = 0
        self.read_list(tree, where, in_loop=False)
        if self.nodes > NODES:
            raise Refused(8, f"{where}: {self.nodes:,} nodes, and a template has at most {NODES:,}")
        if self.bytes > TEXT_BYTES:
            raise Refused(
                8, f"{where}: its texts have {self.bytes:,} bytes in all, and at most {TEXT_BYTES:,} are taken"
            )

    def read_list(self, nodes: Any, where: str, in_loop: bool) -> None:
        if not isinstance(nodes, list):
            raise Refused(7, f"{where}: a list of nodes belongs there, not {shown(nodes)}")
        for place, node in enumerate(nodes):
            self.read_node(node, f"{where}[{place}]", in_loop)

    def read_node(self, node: Any, where: str, in_loop: bool) -> None:
        self.nodes += 1
        if isinstance(node, str):
            self.bytes += size_of(node)
            return
        if not isinstance(node, dict):
            raise Refused(7, f"{where}: a node is a text or an object, not {shown(node)}")
        keys = set(node)
        if keys == {"tag"}:
            self.one_of(node, "tag", TAGS, where)
        elif keys == {"action"}:
            self.action(node["action"], f"{where}.action")
        elif keys == {"part"}:
            self.outside(where, "a part", self.is_part and "header, footer and content")
            self.one_of(node, "part", PARTS, where)
        elif keys in ({"loop"}, {"loop", "else"}):
            self.outside(where, "a loop", self.is_part and "header, footer and content" or in_loop and "a loop")
            for key in ("loop", "else")[: len(keys)]:
                self.read_list(node[key], f"{where}.{key}", in_loop=True)
        else:
            said = f"the keys {', '.join(sorted(map(shown, keys)))}" if keys else "no key"
            raise Refused(
                7, f"{where}: a node has `tag`, `action`, `part`, `loop` or `loop` and `else` alone, not {said}"
            )

    @staticmethod
    def one_of(node: Keys, key: str, words: Sequence[str], where: str) -> None:
        if not isinstance(node[key], str) or node[key] not in words:
            raise Refused(7, f"{where}.{key}: there is no {key} {shown(node[key])}")

    @staticmethod
    def action(name: Any, where: str) -> None:
        if not isinstance(name, str) or not 1 <= size_of(name) <= NAME_BYTES:
            raise Refused(7, f"{where}: the name of a hook is a text of 1 to {NAME_BYTES} bytes, not {shown(name)}")

    @staticmethod
    def outside(where: str, what: str, within: str | bool) -> None:
        if within:
            raise Refused(7, f"{where}: {what} can't be in {within}")


def check_template(name: str, tree: Any, where: str, where_name: str) -> None:
    if name not in (*TEMPLATES, *PARTS):
        raise Refused(7, f"{where_name}: there is no template {shown(name)}")
    Tree(name, tree, where)


# Imports.


def check_version(site: Keys) -> None:
    version = site.get("version")
    if type(version) is not int or version not in (1, 2):
        raise Refused(
            2,
            f"site.version: 1 or 2 belongs there, not {shown(version)}"
            if "version" in site
            else "site.version: the key is missing",
        )


def check_posts(posts: Any) -> None:
    if not isinstance(posts, list):
        raise Refused(2, f"site.posts: a list belongs there, not {shown(posts)}")
    if len(posts) > POSTS:
        raise Refused(8, f"site.posts: {len(posts):,} entries, and an import has at most {POSTS:,}")
    for place, post in enumerate(posts):
        where = f"site.posts[{place}]"
        if not isinstance(post, dict):
            raise Refused(2, f"{where}: an object belongs there, not {shown(post)}")
        for key, read in {"id": an_id, **POST}.items():
            taken(post, key, f"{where}.", 2, read)
        check_sizes(post, ("title", "content"), f"{where}.")
        check_date(post["date"], f"{where}.date")


def entries(section: Any, where: str) -> list[tuple[str, Any]]:
    """The entries of a section by name, in the order of bytes in which they are looked at."""
    if not isinstance(section, dict):
        raise Refused(2, f"{where}: an object belongs there, not {shown(section)}")
    return sorted(section.items(), key=lambda entry: entry[0].encode())


def check_options(options: Any) -> None:
    for name, value in entries(options, "site.options"):
        where = f"site.options[{shown(name)}]"
        an_option_name(name, where, 2)
        check_sizes({"value": a_text(value, where, 2)}, ("value",), f"{where}, ")


def check_front(front: Any, version: int) -> None:
    if version == 1:
        return
    if not isinstance(front, dict):
        raise Refused(2, f"site.front: an object belongs there, not {shown(front)}")
    if taken(front, "show", "site.front.", 2, a_word_of(("posts", "page"))) == "page":
        taken(front, "page", "site.front.", 2, an_id)


def check_templates(templates: Any) -> None:
    for name, tree in entries(templates, "site.templates"):
        where = f"site.templates[{shown(name)}]"
        check_template(name, tree, where, where)


def check_active(active: Any) -> None:
    if not isinstance(active, list):
        raise Refused(2, f"site.active: a list belongs there, not {shown(active)}")
    for place, name in enumerate(active):
        a_text(name, f"site.active[{place}]", 2)


def check_import(site: Any) -> None:
    """The walk over an import, section by section."""
    if not isinstance(site, dict):
        raise Refused(2, f"site: an object belongs there, not {shown(site)}")
    check_version(site)
    checks: dict[str, Callable[[Any], None]] = {
        **{"posts": check_posts, "options": check_options, "templates": check_templates, "active": check_active},
        "front": lambda front: check_front(front, site["version"]),
    }
    for section in SECTIONS:
        if section in site:
            checks[section](site[section])


# Commands.


def read_command(line: bytes) -> Keys:
    """The object that a line is, with the name of a command, or 1."""
    keys = read_json(line)
    if not isinstance(keys, dict):
        raise Refused(1, f"a command is an object, not {shown(keys)}")
    name = taken(keys, "cmd", "", 1, a_text)
    if name not in COMMANDS:
        raise Refused(1, f"cmd: there is no command {shown(name)}")
    return keys


class Site:
    """What of a site decides which lines are refused: its IDs, and its open pages."""

    def __init__(self, plugins: Sequence[str] = PLUGINS) -> None:
        self.plugins = plugins
        self.ids: set[int] = set()
        self.largest = 0
        # The open pages, or None once only the program's replies tell which are open.
        self.open: set[int] | None = set()

    def command(self, line: bytes) -> Keys:
        """Carries out a line, or raises its refusal. The result is the command, as an object.

        A page that needs too many calls or goes too deep isn't refused here, and what `turns` does to its page isn't
        known, unless the line has enough of them for any page: it's up to the caller to take the page out of `open`."""
        keys = read_command(line)
        COMMANDS[keys["cmd"]](self, keys)
        return keys

    def put(self, keys: Keys) -> None:
        # (what is missing has its default, but for the date)
        for key, read in POST.items():
            if key in keys or key == "date":
                taken(keys, key, "", 1, read)
        check_sizes(keys, ("title", "content"))
        check_date(keys["date"], "date")
        if self.largest == MAX_ID:
            raise Refused(13, f"the ID {MAX_ID:,} was used, so none is left to give")
        self.largest += 1
        self.ids.add(self.largest)

    def edit(self, keys: Keys) -> None:
        number = taken(keys, "id", "", 1, an_id)
        for key in ("status", "title", "content", "date"):
            if key in keys:
                taken(keys, key, "", 1, POST[key])
        check_sizes(keys, ("title", "content"))
        if "date" in keys:
            check_date(keys["date"], "date")
        self.has(number)

    def delete(self, keys: Keys) -> None:
        number = taken(keys, "id", "", 1, an_id)
        self.has(number)
        self.ids.discard(number)

    def has(self, number: int) -> None:
        if number not in self.ids:
            raise Refused(3, f"id: no post or page has the ID {number:,}")

    def option(self, keys: Keys) -> None:
        taken(keys, "name", "", 1, an_option_name)
        taken(keys, "value", "", 1, a_text)
        check_sizes(keys, ("value",))

    def activate(self, keys: Keys) -> None:
        self.knows(taken(keys, "plugin", "", 1, a_text), "plugin")

    def knows(self, plugin: str, where: str) -> None:
        if plugin not in self.plugins:
            raise Refused(6, f"{where}: the bundle has no plugin {shown(plugin)}")

    def template(self, keys: Keys) -> None:
        name = taken(keys, "name", "", 1, a_text)
        body = taken(keys, "body", "", 1, lambda value, where, number: value)
        # (`null` takes the template away; its name must be one all the same)
        check_template(name, [] if body is None else body, "body", "name")

    def import_site(self, keys: Keys) -> None:
        site = taken(keys, "site", "", 1, lambda value, where, number: value)
        check_import(site)
        for place, plugin in enumerate(site.get("active", [])):
            self.knows(plugin, f"site.active[{place}]")
        added: set[int] = set()
        for place, post in enumerate(site.get("posts", [])):
            number = post["id"]
            if number in self.ids or number in added:
                has = "the import has it twice" if number in added else "the site has it already"
                raise Refused(4, f"site.posts[{place}].id: {number:,}: {has}")
            added.add(number)
        self.ids |= added
        self.largest = max(self.largest, 0, *added)

    def get(self, keys: Keys) -> None:
        taken(keys, "path", "", 1, a_text)
        check_sizes(keys, ("path",))

    def begin(self, keys: Keys) -> None:
        self.get(keys)
        if self.open is None:
            return
        free = [it for it in range(1, OPEN_PAGES + 1) if it not in self.open]
        if not free:
            raise Refused(15, f"{OPEN_PAGES} pages are open")
        self.open.add(free[0])

    def turns(self, keys: Keys) -> None:
        page = taken(keys, "page", "", 1, a_number_to(OPEN_PAGES))
        count = taken(keys, "count", "", 1, a_number_to(TURNS))
        if self.open is not None and page not in self.open:
            raise Refused(14, f"page: no open page has the number {page}")
        if count > CALLS and self.open is not None:
            self.open.discard(page)


COMMANDS: dict[str, Callable[[Site, Keys], None]] = {
    **{"put": Site.put, "edit": Site.edit, "delete": Site.delete, "option": Site.option, "get": Site.get},
    **{"activate": Site.activate, "deactivate": Site.activate, "template": Site.template},
    **{"import": Site.import_site, "begin": Site.begin, "turns": Site.turns},
}
