"""What may be printed of texts that anyone may have written: addresses that run nothing, and a few elements."""

import re
from collections.abc import Iterator
from html import escape, unescape
from urllib.parse import SplitResult, urlsplit

from geanmarbles.wordpress.texts import TAGS

# What browsers leave out of an address: C0 controls and spaces at its ends, and tabs and line ends anywhere.
AT_ENDS, ANYWHERE = "".join(map(chr, range(0x21))), str.maketrans("", "", "\t\n\r")
SCHEME = re.compile(r"([a-z][a-z0-9+.-]*):", re.I)
SCHEMES = ("http", "https", "mailto", "tel")
# How often the entities of an address may be decoded before none is left.
TIMES = 10

ATTRIBUTE = re.compile(r"(?<![\w-])([\w-]+)\s*=\s*(?:\"([^\"]*)\"|'([^']*)'|([^\s'\"<>]+))")
VOID = set("area base br col embed hr img input link meta source track wbr".split())
# The elements that stay, with their attributes.
ALLOWED = {
    "a": ("href", "title"),
    "blockquote": (),
    "q": (),
    "cite": (),
    "code": (),
    "pre": (),
    "em": (),
    "i": (),
    "strong": (),
    "b": (),
    "s": (),
    "strike": (),
    "del": (),
    "abbr": ("title",),
    "acronym": ("title",),
    "br": (),
    "p": (),
    "ul": (),
    "ol": (),
    "li": (),
}


def split(address: str) -> SplitResult:
    """The parts of an address. One that has none, such as `http://[`, is all path."""
    try:
        return urlsplit(address)
    except ValueError:
        return SplitResult("", "", address, "", "")


def as_read(address: str) -> str | None:
    """An address as browsers read it, however often its entities are decoded and its ends stripped on the way there,
    or None if that never ends."""
    for _ in range(TIMES):
        read = unescape(address).translate(ANYWHERE).strip(AT_ENDS).strip()
        if read == address:
            return read
        address = read
    return None


def is_harmless(address: str) -> bool:
    """Whether an address may be printed as a link or a source: one of the site, of the web, or one to write or call
    to."""
    read = as_read(address)
    scheme = SCHEME.match(read) if read is not None else None
    return read is not None and (scheme is None or scheme[1].lower() in SCHEMES)


def harmless(text: str, rel: str = "") -> str:
    """The HTML of a text that anyone may have written, of which a few elements are kept and the rest is text. Its links
    get `rel`."""
    made: list[str] = []
    opened: list[str] = []
    for number, part in enumerate(TAGS.split(text)):
        name = tag_name(part) if number % 2 else ""
        if not name or name not in ALLOWED:
            made.append(escape(unescape(part), quote=False))
        elif not part.startswith("</"):
            made.append(harmless_tag(name, part, rel))
            if name not in VOID:
                opened.append(name)
        elif name in opened:
            while (it := opened.pop()) != name:
                made.append(f"</{it}>")
            made.append(f"</{name}>")
    return "".join(made) + "".join(f"</{it}>" for it in reversed(opened))


def harmless_tag(name: str, tag: str, rel: str) -> str:
    """An allowed tag with the attributes that it may have."""
    kept = []
    for attribute, value in attributes_of_tag(tag):
        is_bad_link = attribute == "href" and not is_harmless(value)
        if attribute in ALLOWED[name] and value and not is_bad_link:
            kept.append(f' {attribute}="{escape(value)}"')
    given = f' rel="{rel}"' if name == "a" and rel else ""
    return f"<{name}{''.join(kept)}{given}>"


def tag_name(tag: str) -> str:
    """The name of a tag in small letters, or an empty text of a comment."""
    found = re.match(r"</?([A-Za-z][A-Za-z0-9-]*)", tag)
    return found[1].lower() if found else ""


def attributes_of_tag(tag: str) -> Iterator[tuple[str, str]]:
    """The attributes of a tag, their entities read."""
    for found in ATTRIBUTE.finditer(tag):
        value = next((it for it in found.groups()[1:] if it is not None), "")
        yield found[1].lower(), unescape(value)
