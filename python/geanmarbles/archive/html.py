"""Pieces of HTML for an archive: places in a printed page, and shortened contents.

A page is what the program printed; what is added to it is put where the templates have marks for it, or else at the
usual elements.
"""

import re
from collections.abc import Callable
from html import escape, unescape

from geanmarbles.wordpress.addresses import as_link
from geanmarbles.wordpress.harmless import VOID, tag_name
from geanmarbles.wordpress.texts import TAGS

MORE = re.compile(r"<span id=\"more-\d+\"(?: data-more=\"([^\"]*)\")?></span>")
# The links to the parts of the front, as `from_wordpress` writes them into templates.
FRONT_PARTS = re.compile(r"(?:<li><a href=\"/(?:\?paged=\d+)?\">\d+</a></li>\n)+")
THUMBNAIL = re.compile(r"\s*<figure class=\"post-thumbnail\">.*?</figure>\s*", re.S)
TARGETS = re.compile(
    r"(<(?:a|area|form|img|audio|video|source)\b[^<>]*?\s(?:href|action|src)=)(\"[^\"]*\"|'[^']*')", re.I
)
# What follows the mark of a post whose own page begins there.
NO_TEASER = "<!--noteaser-->"


def region(page: str, name: str, html: str, is_last: bool = False) -> str | None:
    """A page with this between the marks of a region, or None if it has no such region."""
    begin, end = f"<!--archive:{name}-->", f"<!--/archive:{name}-->"
    at = page.rfind(begin) if is_last else page.find(begin)
    until = page.find(end, at)
    if at < 0 or until < 0:
        return None
    return page[:at] + html + page[until + len(end) :]


def with_heading(page: str, heading: str, more: str = "") -> str:
    """A list's page with its heading, and something after it."""
    if not heading:
        return page
    made = region(page, "heading", f"<h1>{heading}</h1>{more}")
    if made is not None:
        return made
    name = "main" if re.search(r"<main\b", page) else "body"
    return re.sub(rf"<{name}\b[^<>]*>", lambda it: f"{it[0]}\n<h1>{heading}</h1>{more}", page, count=1)


def with_parts(page: str, items: list[str]) -> str:
    """A list's page with the links to its parts."""
    html = "".join(f"<li>{it}</li>\n" for it in items)
    made = region(page, "parts", html, is_last=True)
    if made is None and FRONT_PARTS.search(page):
        made = FRONT_PARTS.sub(lambda _: html, page)
    if made is not None or not items:
        return made if made is not None else page
    return before_last(page, "</main>", f'<nav><ul class="links">{html}</ul></nav>\n')


def with_search(page: str, form: str) -> str:
    """A page with the form that leads to the search: at its mark, or at the end of its header if it has one."""
    mark = "<!--archive:search-->"
    return page.replace(mark, form, 1) if mark in page else page.replace("</header>", f"{form}</header>", 1)


def after_post(page: str, html: str) -> str:
    """A post's page with something after the post."""
    at = page.rfind("<!--archive:after-->")
    if at >= 0:
        return page[:at] + html + page[at + len("<!--archive:after-->") :]
    return before_last(page, "</main>", html)


def before_last(page: str, mark: str, html: str) -> str:
    """A page with something before the last of a mark, or before its end."""
    for it in (mark, "</body>"):
        at = page.rfind(it)
        if at >= 0:
            return page[:at] + html + page[at:]
    return page + html


def with_title(page: str, title: str) -> str:
    return re.sub(r"<title>[^<]*</title>", lambda _: f"<title>{title}</title>", page, count=1)


def with_plain_title(page: str, title: str, plain: str) -> str:
    """A post's page whose title has no tags, and no entities that were escaped once more."""
    escaped = escape(title).replace("&#x27;", "&#039;")
    shown = escape(plain, quote=False)
    return re.sub(r"(?<=<title>)[^<]*", lambda it: it[0].replace(escaped, shown, 1), page, count=1)


def with_current(page: str, path: str) -> str:
    """A page whose menu, which is its first `<nav>`, marks the link to a path."""
    before, begin, rest = page.partition("<nav")
    menu, end, after = rest.partition("</nav>")
    link = f'href="{escape(as_link(path))}"'
    return before + begin + menu.replace(link, f'{link} aria-current="page"', 1) + end + after


def with_head(page: str, html: str) -> str:
    """A page with something at the end of its head."""
    at = page.find("</head>")
    return page[:at] + html + page[at:] if at >= 0 else page


def with_times(page: str, shown: list[tuple[str, str]]) -> str:
    """A page whose dates, in order, are those of some posts, and are written otherwise: each as its text and HTML."""
    made, at = [], 0
    for date, html in shown:
        mark = f"<time>{date}</time>"
        found = page.find(mark, at)
        if found >= 0:
            made += [page[at:found], html]
            at = found + len(mark)
    return "".join(made) + page[at:]


def with_links(page: str, target: Callable[[str], str], known: dict[str, str], asked: set[str]) -> str:
    """A page whose links of the site lead where `target` says. `known` has what it said of links, as pages have them;
    those to parts of a list depend on the list, and aren't kept. `asked` gets those that may be plain permalinks."""

    def change(found: re.Match[str]) -> str:
        given = found[2]
        if "?" in given:
            asked.add(given)
        if given in known:
            return found[1] + known[given]
        mark, value = given[0], unescape(given[1:-1])
        to = target(value)
        shown = given if to == value else f"{mark}{escape(to)}{mark}"
        if "paged=" not in given:
            known[given] = shown
        return found[1] + shown

    return TARGETS.sub(change, page)


def left_open(text: str) -> list[tuple[str, str]]:
    """The elements that a text begins and doesn't end, the outermost first: the name and the tag of each."""
    opened: list[tuple[str, str]] = []
    for tag in TAGS.split(text)[1::2]:
        name = tag_name(tag)
        if not tag.startswith("</"):
            opened += [(name, tag)] if name and name not in VOID else []
        elif name in (it for it, _ in opened):
            while opened.pop()[0] != name:
                pass
    return opened


def balanced(text: str) -> str:
    """A text that was cut, with the ends of its elements."""
    at = text.rfind("<")
    text = text[:at] if at > text.rfind(">") else text
    return text + "".join(f"</{name}>" for name, _ in reversed(left_open(text)))


def without_teaser(content: str) -> str:
    """A post as its own page shows it: without what comes before its mark, if its author wants that."""
    mark = MORE.search(content)
    if mark is None or not content.startswith(NO_TEASER, mark.end()):
        return content
    thumbnail = THUMBNAIL.match(content)
    before = "".join(tag for _, tag in left_open(content[: mark.start()]))
    return (thumbnail[0] if thumbnail else "") + before + mark[0] + content[mark.end() + len(NO_TEASER) :]


def shortened(content: str, excerpt: str, link: Callable[[str], str]) -> str:
    """A post as a list shows it: its excerpt, or what comes before its mark or its first page break, with a link."""
    thumbnail = THUMBNAIL.match(content)
    before = thumbnail[0] if thumbnail else ""
    more = MORE.search(content)
    at_page = content.find("<!--nextpage-->")
    if excerpt:
        return before + excerpt + link("")
    if more and not 0 <= at_page < more.start():
        # The mark may be in a paragraph of its own.
        cut = re.sub(r"(?:<p>|<br />|\s)*\Z", "", content[: more.start()])
        return balanced(cut) + link(unescape(more[1] or ""))
    return balanced(content[:at_page]) + link("") if at_page >= 0 else content


def text_of(content: str, most: int) -> str:
    """The first words of a content as plain text."""
    plain = re.sub(r"<(script|style|figure|pre|audio|video)\b.*?</\1>", " ", content[: 40 * most], flags=re.S | re.I)
    plain = unescape(re.sub(r"<!--.*?-->|<[^<>]*>?", " ", plain, flags=re.S))
    plain = re.sub(r"\s+", " ", plain).replace(" .", ".").replace(" ,", ",").strip()
    return plain if len(plain) <= most else plain[:most].rsplit(" ", 1)[0] + "…"
