"""Reads the export file that WordPress's Tools > Export writes (WXR 1.2): a site and its items."""

import re
from bisect import bisect_left
from collections import Counter
from collections.abc import Callable, Container, Iterable, Iterator, Mapping
from dataclasses import dataclass, field
from pathlib import Path
from typing import NoReturn
from xml.parsers import expat

# The largest export, and how much of it is read at once. What comes before its first element is parsed in small pieces.
EXPORT_BYTES = 256 * 1024 * 1024
PIECE_BYTES = 1 << 16
PROLOG_BYTES = 16_384

NAMESPACES = {
    "http://wordpress.org/export/1.2/": "wp:",
    "http://wordpress.org/export/1.2/excerpt/": "excerpt:",
    "http://purl.org/rss/1.0/modules/content/": "content:",
    "http://purl.org/dc/elements/1.1/": "dc:",
}
SITE_OPTIONS = {"title": "blogname", "description": "blogdescription"}
CARRIED = ("wp:post_type", "wp:status", "wp:post_id", "wp:post_date", "title", "content:encoded")
# The elements that hold others; another's text has those of all elements in it.
PARENTS = set("item wp:author wp:category wp:tag wp:term wp:termmeta wp:comment wp:commentmeta wp:postmeta".split())
# Elements whose text tells whether something is lost: an empty one and a 0 say that there is nothing.
NOTED = {"excerpt:encoded": "excerpt", "wp:is_sticky": "sticky mark"}
# Elements that every export has and that aren't counted: what the pages of a site show, and what
# docs/FROM-WORDPRESS.md lists as left out.
EVERYWHERE = set(
    "link pubDate generator guid description language dc:creator wp:base_site_url wp:base_blog_url wp:post_date_gmt"
    " wp:post_modified wp:post_modified_gmt wp:comment_status wp:ping_status wp:post_name wp:attachment_url"
    " wp:post_parent wp:menu_order".split()
)
COUNTED = {
    "wp:author": "author",
    "wp:category": "category",
    "wp:tag": "tag",
    "wp:term": "term",
    "wp:comment": "comment",
    "wp:postmeta": "custom field",
}
CATEGORY_DOMAINS = {"category": "category", "post_tag": "tag"}
# The custom fields in which WordPress keeps notes of its own, and the featured image, which is shown.
NOTES = set(
    "_thumbnail_id _wp_page_template _pingme _encloseme _edit_lock _edit_last _wp_old_slug _wp_old_date".split()
)
# Characters that XML 1.0 forbids and WordPress writes as they are; a space takes their place.
CONTROLS = bytes(it for it in range(32) if it not in b"\t\n\r")
SPACES = bytes.maketrans(CONTROLS, b" " * len(CONTROLS))
# An & in an element of WordPress's own; the begin and the end of what needs no escaping, and such elements with their
# text; an & that isn't escaped; how many of them are mended, and how many bytes each gets more.
OWN = re.compile(rb"<wp:[A-Za-z_]+>[^<\]\n&]*&")
OWN_TEXT = re.compile(rb"<!\[CDATA\[|\]\]>|<wp:[A-Za-z_]+>[^<\]\n]*")
AMPERSAND = re.compile(rb"&(?!(?:amp|lt|gt|quot|apos|#[0-9]+|#x[0-9A-Fa-f]+);)")
MENDED = 100_000
ADDED = len("amp;")
# The parser's fault of which more can be said.
INVALID_TOKEN = expat.errors.codes[expat.errors.XML_ERROR_INVALID_TOKEN]


class Refused(Exception):
    """A file that can't be used at all, with the place of the fault."""


def short(name: str) -> str:
    """An element's name with the prefix that WordPress gives its namespace."""
    space, _, local = name.rpartition(" ")
    return NAMESPACES.get(space, f"{{{space}}}") + local if space else local


def shown(text: str) -> str:
    """A text for a message: on one line, without control characters, and cut if it is long."""
    return repr(text if len(text) <= 60 else text[:60] + "...")


@dataclass(slots=True)
class Element:
    """A child of the channel, or an element in one: its text, and its children. One without a name is a text that is
    outside all elements."""

    name: str
    attributes: Mapping[str, str]
    line: int = 0
    # Where it lies among the bytes that the parser gets.
    begin: int = 0
    end: int = 0
    text: str = ""
    pieces: list[str] = field(default_factory=list)
    children: list["Element"] = field(default_factory=list)

    def first(self, name: str) -> str:
        """The text of the first child with a name, or an empty one."""
        return next((it.text for it in self.children if it.name == name), "")


class Holder:
    """What an item of the export, or its site, has: the texts that are looked at, and a count of what else."""

    def __init__(self, line: int, wanted: Iterable[str]) -> None:
        self.line = line
        self.wanted = {*wanted, *NOTED}
        self.texts: dict[str, str] = {}
        self.counts: Counter[str] = Counter()
        self.fault: str | None = None

    def take(self, child: Element) -> None:
        """Notes a child element."""
        name = child.name
        if not name:
            self.counts["text outside its elements"] = 1
        elif name in self.wanted:
            if name in self.texts:
                self.fault = f"it has the element {name} twice"
            if child.children:
                self.fault = f"its element {name} holds an element {shown(child.children[-1].name)}"
            self.texts[name] = child.text
        elif name == "category":
            self.counts[CATEGORY_DOMAINS.get(child.attributes.get("domain", ""), "term")] += 1
        elif name not in EVERYWHERE and child.first("wp:meta_key").strip() not in NOTES:
            self.counts[COUNTED.get(name, "other element")] += 1

    def lost(self) -> Counter[str]:
        """What is left out of what is carried over, with how often it is there."""
        noted = [what for name, what in NOTED.items() if self.texts.get(name, "").strip() not in ("", "0")]
        return +self.counts + Counter(noted)

    def called(self) -> str:
        """An item in a message: its type, ID and title, as far as it has them."""
        kind, number, title = (self.texts.get(name, "").strip() for name in ("wp:post_type", "wp:post_id", "title"))
        kind = kind if re.fullmatch("[a-z0-9_-]{1,20}", kind) else "item"
        number = number if re.fullmatch("[0-9]{1,20}", number) else "without an ID"
        return f"{kind} {number} {shown(title)}"


class Export:
    """The site and the items of an export."""

    def __init__(self) -> None:
        self.site = Holder(1, [*SITE_OPTIONS, "wp:wxr_version"])
        self.items: list[Holder] = []
        # How often an & was mended.
        self.mended = 0


def holder_of(item: Element) -> Holder:
    holder = Holder(item.line, [*CARRIED, "wp:post_password"])
    for it in item.children:
        holder.take(it)
    return holder


class Mended:
    """What the parser gets of a file: `&amp;` for an & that begins no entity, in texts of WordPress's own elements.
    Some of them it doesn't escape, such as the address of a comment's author."""

    def __init__(self) -> None:
        # How many bytes the parser got, and at which places of them it got `&amp;`.
        self.size = 0
        self.places: list[int] = []
        self.is_literal = False

    def of(self, piece: bytes) -> bytes:
        """A piece of the file, which ends where a line does."""
        before = len(self.places)

        def mend(found: re.Match[bytes]) -> bytes:
            if not found[0].startswith(b"<wp:"):
                self.is_literal = found[0] == b"<![CDATA["
            elif not self.is_literal and len(self.places) < MENDED:
                for it in AMPERSAND.finditer(found[0]):
                    self.places.append(self.size + found.start() + it.start() + ADDED * (len(self.places) - before))
                return AMPERSAND.sub(b"&amp;", found[0])
            return found[0]

        if OWN.search(piece):
            piece = OWN_TEXT.sub(mend, piece)
        elif (begun := piece.rfind(b"<![CDATA[")) != (ended := piece.rfind(b"]]>")):
            self.is_literal = begun > ended
        self.size += len(piece)
        return piece

    def added(self, at: int) -> int:
        """How many bytes were added before a place."""
        return ADDED * bisect_left(self.places, at)


class Reader:
    """Hands each child of an export's channel on as soon as it has been read."""

    def __init__(self, path: Path, take: Callable[[Element], None], dropped: Container[str] = ()) -> None:
        self.path, self.take, self.dropped = path, take, dropped
        # How many elements are open, and those of them from the third to the fifth.
        self.depth = 0
        self.open: list[Element] = []
        # The line in which the channel begins, or 0.
        self.line = 0
        self.mended, self.controls = Mended(), 0
        self.parser = expat.ParserCreate(namespace_separator=" ")
        self.parser.buffer_text = True
        # Newer versions may put off parsing what they were given; `feed` relies on each piece being parsed at once.
        if hasattr(self.parser, "SetReparseDeferralEnabled"):
            self.parser.SetReparseDeferralEnabled(False)
        no_type = "a document type, which no export has, is refused"
        self.parser.StartDoctypeDeclHandler = lambda *_: self.refuse(no_type)
        self.parser.StartElementHandler = self.begin
        self.parser.EndElementHandler = self.end
        self.parser.CharacterDataHandler = self.text

    def refuse(self, reason: str) -> NoReturn:
        raise Refused(f"{self.path}:{self.parser.CurrentLineNumber}:{self.parser.CurrentColumnNumber + 1}: {reason}")

    def begin(self, name: str, attributes: Mapping[str, str]) -> None:
        name, above = short(name), self.depth
        if above < 2 and (name != ("rss", "channel")[above] or self.line):
            self.refuse(f"this is no WordPress export: the element {shown(name)} can't be here")
        self.depth += 1
        if above == 1:
            self.line = self.parser.CurrentLineNumber
        elif above == 2:
            self.open = [Element(name, attributes, self.parser.CurrentLineNumber, self.parser.CurrentByteIndex)]
        elif 2 < above < 5:
            self.open.append(Element(name, attributes))

    def text(self, text: str) -> None:
        if self.depth > 3 or self.open and self.open[0].name != "item":
            if self.open[-1].name not in self.dropped:
                self.open[-1].pieces.append(text)
        elif text.strip():
            (self.open[0].children.append if self.open else self.take)(Element("", {}))

    def end(self, _: str) -> None:
        if 3 <= self.depth <= 5:
            ended = self.open.pop()
            ended.text = "".join(ended.pieces)
            if not self.open:
                ended.end = self.parser.CurrentByteIndex
                self.take(ended)
            else:
                self.open[-1].children.append(ended)
                if self.open[-1].name not in PARENTS:
                    self.open[-1].pieces.append(ended.text)
        self.depth -= 1

    def pieces(self) -> Iterator[bytes]:
        """What the parser gets of the file, in pieces each of which ends with a line."""
        size, is_bytewise = 0, True
        with self.path.open("rb") as file:
            while piece := file.read(PIECE_BYTES) + file.readline(EXPORT_BYTES):
                if not size:
                    must_be_unpacked(self.path, piece)
                    # In UTF-16 every other byte of plain text is a zero.
                    is_bytewise = b"\0" not in piece[:4]
                size += len(piece)
                if size > EXPORT_BYTES:
                    raise Refused(f"{self.path}: it has more than {EXPORT_BYTES:,} bytes")
                self.controls += controls_in(piece) if is_bytewise else 0
                yield self.mended.of(piece).translate(SPACES) if is_bytewise else piece
        if not size:
            raise Refused(f"{self.path}: the file is empty")

    def read(self) -> None:
        """Reads the file, or refuses it with the line and the column of the fault."""
        try:
            for piece in self.pieces():
                self.feed(piece)
            self.parser.Parse(b"", True)
        except OSError as error:
            raise Refused(f"{self.path}: {error.strerror}") from error
        except expat.ExpatError as error:
            raise self.xml_fault(error) from error
        except (LookupError, ValueError) as error:
            if self.depth:
                raise
            raise Refused(f"{self.path}:1:1: the XML is at fault: its encoding can't be read: {error}") from error

    def feed(self, piece: bytes) -> None:
        """Parses a piece of the file.

        If a method above refuses what was read, the parser still goes on to the end of the piece that it was given. So
        a piece ends with each > until the first element has begun: a document type is refused before the entities that
        it defines can be used."""
        at = 0
        while not self.depth and at < min(len(piece), PROLOG_BYTES):
            end = piece.find(b">", at, PROLOG_BYTES) + 1 or PROLOG_BYTES
            self.parser.Parse(piece[at:end], False)
            at = end
        if not self.depth and len(piece) > PROLOG_BYTES:
            self.refuse(f"this is no WordPress export: no element begins in the first {PROLOG_BYTES:,} bytes")
        self.parser.Parse(memoryview(piece)[at:], False)

    def xml_fault(self, error: expat.ExpatError) -> Refused:
        """What to say of a fault in the XML: its place, what is wrong there, and the item in which it is."""
        given = max(self.parser.ErrorByteIndex, 0)
        added = self.mended.added(given)
        at, column = given - added, error.offset + 1 - added + self.mended.added(given - error.offset)
        why = expat.ErrorString(error.code)
        if error.code == INVALID_TOKEN:
            why += what_is_wrong(self.path, at)
        place = f"{self.path}:{error.lineno}:{column}: the XML is at fault: {why} (byte {at:,} of the file)"
        if self.open and self.open[0].name == "item":
            item = holder_of(self.open[0])
            place += f", in the item that begins in line {item.line}{f': {item.called()}' if item.texts else ''}"
        return Refused(place)


def controls_in(data: bytes) -> int:
    """How many control characters that XML forbids some bytes have."""
    return len(data) - len(data.translate(None, CONTROLS))


def must_be_unpacked(path: Path, head: bytes) -> None:
    for magic, kind, command in ((b"\x1f\x8b", "gzip", "gunzip"), (b"PK\x03\x04", "zip", "unzip")):
        if head.startswith(magic):
            raise Refused(f"{path}: this is a {kind} file: unpack it first, by {command} for instance")


def what_is_wrong(path: Path, at: int) -> str:
    """Says of a byte that the parser refuses what it is, as far as that can be told."""
    with path.open("rb") as file:
        file.seek(at)
        data = file.read(4).translate(SPACES)
    try:
        data.decode()
    except UnicodeDecodeError as error:
        if error.start == 0 and error.reason != "unexpected end of data":
            return f": the byte {data[0]:02X} isn't of the file's encoding, UTF-8 if its first line names no other"
    character = data[:1]
    return f": the character {character.decode()!r} can't be here" if character and character.isascii() else ""


def read_export(path: Path, also: Callable[[Element], None] | None = None) -> tuple[Export, list[tuple[Holder, int]]]:
    """Reads an export file, or refuses it; `also` gets each child of its channel.

    The result is the export and, for each holder that has some, how many control characters became spaces."""
    export = Export()
    places: list[tuple[int, int]] = []

    def take(element: Element) -> None:
        if element.name == "item":
            export.items.append(holder_of(element))
            places.append((element.begin, element.end))
        else:
            export.site.take(element)
        if also is not None:
            also(element)

    reader = Reader(path, take, {"wp:comment_content"})
    reader.read()
    export.site.line, export.mended = reader.line, len(reader.mended.places)
    if export.site.texts.get("wp:wxr_version", "").strip() != "1.2":
        raise Refused(f"{path}: this is no WordPress export of version 1.2: its channel has no wp:wxr_version of 1.2")
    if export.site.fault:
        raise Refused(f"{path}: the channel: {export.site.fault}")
    if not reader.controls:
        return export, []
    data = Mended().of(path.read_bytes())
    controls = [(it, controls_in(data[begin:end])) for it, (begin, end) in zip(export.items, places)]
    controls.append((export.site, reader.controls - sum(number for _, number in controls)))
    return export, [(it, number) for it, number in controls if number]
