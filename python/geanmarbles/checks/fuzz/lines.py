"""Random lines for the program: commands from a grammar, and lines that are nearly commands."""

import json
from collections.abc import Callable
from random import Random
from typing import Any, TypeVar

T = TypeVar("T")
# The keys of a command, or of a part of one.
Keys = dict[str, Any]
PLUGINS = ("args", "atts", "bold", "deep", "grow", "marks", "nest", "note", "once", "tagmark")
TAGS = ("b", "i", "raw", "off", "alloff", "hush", "show", "link", "ask", "note", "ping", "say")
TEMPLATES = (
    *("index", "home", "front-page", "single", "page", "singular", "date", "archive", "404"),
    *("header", "footer", "content"),
)
POST_TAGS = ("the_title", "the_content", "title_escaped", "the_ID", "the_permalink", "post_date")
SITE_TAGS = ("site_name", "wp_head", "wp_footer")
HOOKS = ("init", "wp_head", "wp_footer", "ping", "the_title", "the_content", "do_shortcode_tag", "é", "h" * 64)
DATES = (
    *("2024-05-01 10:00:00", "2024-05-02 10:00:00", "2024-04-30 23:59:59"),
    *("0001-01-01 00:00:00", "9999-12-31 23:59:59"),
)
BAD_DATES = (
    *("", "2024-05-01", "2024-05-01T10:00:00", "2024-02-30 00:00:00", "0000-01-01 00:00:00", "２024-05-01 10:00:00"),
)
MARKS = (
    *("[", "]", "[[", "]]", "[/", "/]", "]]>", "<", ">", "&", '"', "'", "=", "/", "\\", "\\n", "\\\\", "-"),
    *(" ", "\t", "\n", "\r", "\x00", "\x0b", "\u00a0", "\u200b", "é", "😀", "x", "1", "<!--", "&amp;", "spin", "d"),
)
# Bodies that are no trees, but for the first, which removes a template.
NO_TREES: tuple[Any, ...] = (None, 5, [[]], [{"tag": "nope"}], [{"loop": [{"loop": []}]}], [{"tag": "the_ID", "x": 1}])
# How often each command is made.
KINDS = {
    **{"put": 18, "edit": 12, "delete": 4, "option": 8, "activate": 10, "deactivate": 5},
    **{"template": 12, "get": 25, "import": 5, "begin": 14, "turns": 24},
}
# Page requests by turns.
BY_TURNS = ("begin", "turns")
# Values of another kind, or of another range, than a key has.
ODD_VALUES: tuple[Any, ...] = (
    *(
        None,
        True,
        0,
        1,
        -1,
        1.5,
        2**31 - 1,
        2**31,
        10**30,
        "",
        "1",
        "x",
        "publish",
        "page",
        [],
        {},
        ["x"],
        {"x": 1},
    ),
)
# What is put into a line to break it.
ODD_BYTES = (
    *(b"", b" ", b"\t", b"\r", b"\x00", b"\x1f", b"\x7f", b"\xff", b"\xc3", b"\xed\xa0\x80", b"\xef\xbb\xbf"),
    *(b"\xe2\x80\x8b", b"\\ud800", b"\\udc00", b"\\u0000", b"\\x", b'"', b"\\", b"{", b"}", b"[", b"]", b",", b":"),
    *(b"null", b"1e400", b"-0", b"NaN", b"//", b"[" * 126, b"[" * 128, b'{"a":' * 128, b'"cmd":"get",', b',"id":2'),
)


class Lines:
    """Lines made by a random generator. They speak of the IDs that the puts before them would be given, and of numbers
    that open pages may have."""

    def __init__(self, random: Random) -> None:
        self.random = random
        self.ids = 0
        self.open: set[int] = set()

    def chance(self, one_in: int) -> bool:
        return self.random.randrange(one_in) == 0

    def many(self, most: int, make: Callable[[], T]) -> list[T]:
        return [make() for _ in range(self.random.randint(0, most))]

    def date(self) -> str:
        return self.random.choice(BAD_DATES if self.chance(15) else DATES)

    def id(self) -> int:
        return (
            self.random.choice((0, 2**31 - 1, 2**31)) if self.chance(40) else self.random.randint(1, self.ids + 2)
        )

    def plugin(self) -> str:
        return self.random.choice(("", "nope", "Bold")) if self.chance(25) else self.random.choice(PLUGINS)

    def attribute(self, most: int) -> str:
        name, value = self.random.choice(("a", "A", "href", "label", "1", "x-y_z", "")), self.text(most)
        return self.random.choice((f'{name}="{value}"', f"{name} = '{value}'", f"{name}={value}", f'"{value}"', value))

    def shortcode(self, most: int) -> str:
        """A shortcode, perhaps escaped or left open, with texts of at most `most` parts in it."""
        tag = self.random.choice(TAGS)
        opened = f"[{tag}{''.join(f' {it}' for it in self.many(most, lambda: self.attribute(most // 2)))}"
        enclosing = f"]{self.text(most)}[/{tag}]"
        closed = self.random.choice(("]", "/]", enclosing, enclosing, " ", ""))
        return f"[{opened}{closed}]" if self.chance(6) else opened + closed

    def text(self, most: int) -> str:
        """At most `most` marks and shortcodes; now and then one of them very often."""
        parts = self.many(most, lambda: self.shortcode(most // 3) if self.chance(2) else self.random.choice(MARKS))
        if most > 4 and self.chance(40):
            unit = self.random.choice((*MARKS, "[b]", "[b", "[b]x[/b]", "[show a=1]"))
            parts.append(unit * self.random.randint(1, 3000))
        return "".join(parts)

    def title(self) -> str:
        choices = ("", "T", "spin", "d" * self.random.randint(0, 34), self.text(4))
        return "t" * self.random.choice((65_536, 65_537)) if self.chance(200) else self.random.choice(choices)

    def content(self) -> str:
        return "c" * self.random.choice((524_288, 524_289)) if self.chance(400) else self.text(10)

    def post(self) -> Keys:
        """Keys of a put, each of which may be missing but the date."""
        keys = {
            "kind": self.random.choice(("post", "post", "page")),
            "status": self.random.choice(("publish", "publish", "publish", "draft")),
            "title": self.title(),
            "content": self.content(),
        }
        return {key: value for key, value in keys.items() if not self.chance(4)} | {"date": self.date()}

    def put(self) -> Keys:
        self.ids += 1
        return {"cmd": "put", **self.post()}

    def edit(self) -> Keys:
        kept = {key: value for key, value in self.post().items() if not self.chance(2)}
        return {"cmd": "edit", "id": self.id(), **kept}

    def option(self) -> tuple[str, str]:
        """The name of an option, and a value that suits it or not."""
        names = ("blogname", "posts_per_page", "show_on_front", "page_on_front", "x", "", "n" * 65, "é")
        name = self.random.choice(names)
        suited = {
            "posts_per_page": ("1", "2", "100", "101", "0", "-1", "", "1x", "0000000003"),
            "show_on_front": ("posts", "page", "x"),
            "page_on_front": (*(str(number) for number in range(5)), "x", "00000000001"),
        }.get(name, ())
        return name, self.random.choice((*suited, *suited, self.text(3)))

    def leaf(self) -> Any:
        tag = self.random.choice((*POST_TAGS, *POST_TAGS, *SITE_TAGS))
        texts: tuple[Any, ...] = (self.text(2), "<p>", {"action": self.random.choice(HOOKS)})
        return {"tag": tag} if self.chance(2) else self.random.choice(texts)

    def node(self) -> Any:
        if self.chance(4):
            return {"part": self.random.choice(("header", "footer", "content"))}
        if self.chance(3):
            other = {"else": self.many(2, self.leaf)} if self.chance(2) else {}
            return {"loop": self.many(4, self.leaf), **other}
        return self.leaf()

    def tree(self, name: str) -> Any:
        """A tree that suits a template of this name, or now and then isn't one."""
        if self.chance(15):
            return self.random.choice(NO_TREES)
        return self.many(5, self.leaf if name in ("header", "footer", "content") else self.node)

    def template(self) -> tuple[str, Any]:
        name = self.random.choice(("", "nope")) if self.chance(25) else self.random.choice(TEMPLATES)
        return name, self.tree(name)

    def path(self) -> str:
        number = self.random.choice((str(self.id()), str(self.id()), "0000000001", "x", "", "99999999999"))
        month = self.random.choice(("202405", "202404", "000101", "999912", "202413", "2024"))
        part = f"paged={self.random.randint(0, 3)}"
        pairs = ("p=" + number, "page_id=" + number, "m=" + month, part, "paged=x", "%70=1", "p", "x=y")
        query = "&".join(self.random.choice(pairs) for _ in range(self.random.randint(1, 3)))
        if self.chance(25):
            return self.random.choice(("", "/x", "/?", "?p=1", "/" + "?" * 8_191, "/" * 8_193, "/\x00", "/?p=%"))
        return "/" if self.chance(4) else self.random.choice(("/?", "/?", "/?", "/index.php?")) + query

    def imported(self) -> Keys:
        """A site file, of a few sections."""
        first = self.ids + self.random.randint(0, 3)
        posts: list[Keys] = []
        for _ in range(self.random.randint(0, 3)):
            first += self.random.choice((1, 1, 1, 2, 0))
            every = {"kind": "post", "status": "publish", "title": "", "content": ""}
            posts.append({"id": max(first, 1), **every, **self.post()})
        self.ids = max(self.ids, first)
        sections = {
            "posts": posts,
            "options": dict(self.many(2, self.option)),
            "front": self.random.choice(({"show": "posts"}, {"show": "page", "page": self.id()}, {"show": "x"}, 5)),
            "templates": dict(self.many(2, self.template)),
            "active": self.many(2, self.plugin),
        }
        kept = {key: value for key, value in sections.items() if not self.chance(3)}
        return {"version": self.random.choice((1, 1, 1, 1, 2, 3)), **kept}

    def begin(self) -> Keys:
        self.open.add(next((it for it in range(1, 9) if it not in self.open), 1))
        return {"cmd": "begin", "path": "/" if self.chance(2) else self.path()}

    def turns(self) -> Keys:
        """Most often a few turns of a page that may be open. About every second time they end it."""
        page = self.random.choice(sorted(self.open) if self.open and not self.chance(15) else (0, 1, 2, 3, 5, 8, 9))
        count = self.random.choice((0, 1_000_001) if self.chance(60) else (1, 1, 1, 1, 2, 2, 3, 5, 20, 1_000_000))
        if self.chance(2):
            self.open.discard(page)
        return {"cmd": "turns", "page": page, "count": count}

    def command(self) -> Keys:
        """A command, most often one that is done."""
        kind = self.random.choices(tuple(KINDS), tuple(KINDS.values()))[0]
        whole: dict[str, Callable[[], Keys]] = {
            "put": self.put,
            "edit": self.edit,
            "begin": self.begin,
            "turns": self.turns,
        }
        if kind in whole:
            return whole[kind]()
        make: dict[str, Callable[[], Keys]] = {
            "delete": lambda: {"id": self.id()},
            "option": lambda: dict(zip(("name", "value"), self.option())),
            "activate": lambda: {"plugin": self.plugin()},
            "deactivate": lambda: {"plugin": self.plugin()},
            "template": lambda: dict(zip(("name", "body"), self.template())),
            "get": lambda: {"path": self.path()},
            "import": lambda: {"site": self.imported()},
        }
        return {"cmd": kind, **make[kind]()}

    def altered(self, command: Keys) -> Keys:
        """A command with a key too many or too few, or with a value of another kind."""
        keys = list(command.items())
        at = self.random.randrange(len(keys))
        value = self.random.choice(ODD_VALUES)
        match self.random.randrange(4):
            case 0:
                keys[at] = (keys[at][0], value)
            case 1:
                del keys[at]
            case 2:
                keys.insert(at, (self.random.choice(("more", "id", "site", "é")), value))
            case _:
                keys.append(("cmd", self.random.choice(("put", "get", "Get", "import", "", "begin_", "nope"))))
        return dict(keys)

    def bent(self, line: bytes) -> bytes:
        """A line of which some bytes are left out, put in, changed or said twice."""
        at = self.random.randint(0, len(line))
        end = min(len(line), at + self.random.choice((1, 1, 2, 5, 50)))
        match self.random.randrange(5):
            case 0:
                return line[:at]
            case 1:
                return line[:at] + line[end:]
            case 2:
                return line[:at] + line[at:end] * 2 + line[end:]
            case 3:
                return line[:at] + self.random.choice(ODD_BYTES) + line[end:]
            case _:
                return line[:at] + self.random.choice(ODD_BYTES) + line[at:]

    def written(self, command: Keys) -> bytes:
        spaced = self.random.choice(((",", ":"), (",", ":"), (", ", ": "), (" ,\t", "\r: ")))
        return json.dumps(command, ensure_ascii=self.chance(2), separators=spaced).encode()

    def line(self) -> bytes:
        """A command's line, or now and then one that is nearly a command's."""
        command = self.command()
        line = self.written(self.altered(command) if self.chance(12) else command)
        return (self.bent(line) if self.chance(12) else line).replace(b"\n", b" ")

    def list(self) -> list[bytes]:
        """A list of lines, over a site that has some plugins and posts from its beginning; in some many pages begin."""
        active = self.random.sample(PLUGINS, self.random.randint(0, 6))
        begun = [{"cmd": "activate", "plugin": plugin} for plugin in active] + self.many(3, self.put)
        lines = [self.line() for _ in range(self.random.randint(10, 120))]
        at = self.random.randint(0, len(lines))
        pages = self.many(9, self.begin) if self.chance(2) else []
        return [self.written(it) for it in begun] + lines[:at] + [self.written(it) for it in pages] + lines[at:]
