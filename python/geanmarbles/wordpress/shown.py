"""Contents as WordPress shows them: captions, galleries, sound, film, builders' tags, blocks, links within the site.

The order is that in which WordPress works: marks for lists and parts, blocks, typography and paragraphs, and
shortcodes, whose output is held aside meanwhile so that no paragraph breaks it.
"""

import json
import re
from bisect import bisect_left
from collections import Counter
from collections.abc import Callable
from html import escape, unescape
from typing import NamedTuple
from urllib.parse import unquote

from geanmarbles.wordpress.addresses import Places
from geanmarbles.wordpress.harmless import SCHEME, harmless, is_harmless, split
from geanmarbles.wordpress.items import Item, WholeSite, pictures_of
from geanmarbles.wordpress.texts import TAGS, paragraphs, quotes_of, texturize, with_characters

# The shortcodes of WordPress itself; the others are those of plugins.
CORE = set("audio caption embed gallery playlist video wp_caption".split())
TOKEN = re.compile(r"(?<!\[)\[(/?)([A-Za-z][\w-]*)([^\[\]]*?)(/?)\](?!\])")
# A shortcode of WordPress in two brackets, which shows itself.
ESCAPED = re.compile(r"\[(\[/?(?:" + "|".join(sorted(CORE)) + r")\b[^\[\]]*\])\]")
ATTRIBUTE = re.compile(r"(?<![\w-])([\w-]+)\s*=\s*(?:\"([^\"]*)\"|'([^']*)'|([^\s'\"]+))")
PART = "<!--nextpage-->"
MORE = re.compile(r"<!--more([^<>]*)-->")
# What WordPress leaves out, on a post's own page, with all that comes before the mark above.
NO_TEASER = "<!--noteaser-->"
MARK_BLOCKS = re.compile(r"<!-- /?wp:(?:more|nextpage)\b[^<>]*-->\n?")
# How deep shortcodes are looked for within shortcodes, and reusable blocks within such blocks.
DEPTH = 6
HELD = "\x01{}\x01"
IS_HELD = re.compile("\x01(\\d+)\x01")
# What no text has, and what was written as `%XX` or in JSON may be.
CONTROLS = re.compile("[\x00-\x1f\ud800-\udfff]")
# An address alone in a line.
ADDRESS_LINE = re.compile(r"^[ \t]*(https?://[^\s<>\"']+)[ \t]*$", re.M)
EMBED = re.compile(r"(<div class=\"wp-block-embed__wrapper\">)\s*(https?://[^\s<>\"']+)\s*(</div>)")
COMMENT = re.compile(r"<!--(.*?)(?:-->|\Z)", re.S)
# What a comment says in which the block editor keeps a block's settings.
BLOCK = re.compile(r"\s*(/?)wp:([a-z][a-z0-9_/-]*)\s*(.*?)\s*(/?)", re.S)
# Blocks that other blocks' comments belong to, without a text of their own: nothing is lost with them.
EMPTY_BLOCKS = {"spacer", "separator", "more", "nextpage", "block", "paragraph"}
LINKED = re.compile(r"\b(href|src|poster|action|srcset|data-src|data-full-url|data-link)(\s*=\s*)(\"[^\"]*\"|'[^']*')")
# Entities, but for those of the signs that make tags.
ENTITIES = re.compile(r"&(?!(?:lt|gt|#0*60|#0*62|#x0*3[ce]);)#?\w{1,30};", re.I)
MAIL = re.compile(r"[^\s@:/?]+@[^\s@:/?]+\.[^\s@:/?]+")
# How many posts the block of the newest posts shows if it doesn't say.
LATEST = 5
# What shows a picture or a file of the site.
UPLOADS = "/wp-content/uploads/"
# Forms, of which only WordPress can take what somebody writes.
FORMS = set(
    "contact-form-7 contact-form gravityform gravityforms wpforms ninja_form ninja_forms formidable caldera_form"
    " mc4wp_form forminator_form everest_form si-contact-form mailpoet_form newsletter_form fluentform weforms"
    " et_pb_contact_form et_pb_signup".split()
)
# What the tags of page builders begin with, and those of them that one has to know by name.
BUILDERS = tuple("et_pb_ vc_ fusion_ av_ cs_ mk_ ux_ tatsu_ fl_builder_ cmsms_ rev_slider thb_".split())
BUTTONS = set("button btn vc_btn vc_button fusion_button et_pb_button av_button su_button ux_button".split())
# Shortcodes of plugins that show what an address of another host leads to.
FILMS = set("youtube vimeo dailymotion soundcloud ted spotify instagram twitter facebook googlemaps slideshare".split())
WEB_ADDRESS = re.compile(r"https?://[^\s\"'<>\[\]]+")
# Attributes that name a picture, where a link leads, and a text to be shown.
SOURCES = ("src", "image_url", "image", "img")
TARGETS = ("button_url", "url", "link", "href")
LABELS = ("button_text", "text", "label", "title")
SMILIES = dict(zip(":) :-) :( :-( ;) ;-) :D :-D :P :-P :o :-o 8-) :| :-| :? :-?".split(), "🙂🙂🙁🙁😉😉😀😀😛😛😮😮😎😐😐😕😕"))
SMILEY = re.compile(
    r"(?:(?<=\s)|^)(" + "|".join(sorted((re.escape(it) for it in SMILIES), key=len, reverse=True)) + r")(?=\s|$)"
)
# Elements in whose texts smilies and names stay as they are.
LITERAL = {"pre", "code", "kbd", "style", "script", "textarea"}


class Code(NamedTuple):
    """A shortcode in a content: its name, its attributes as they are and by name, and what it encloses."""

    name: str
    rest: str
    given: dict[str, str]
    inner: str
    # Whether it is a closing tag, whether what it shows is a block of its own, and how deep it is in others.
    is_end: bool
    is_block: bool
    depth: int


class Notes(NamedTuple):
    """What a text of the site has in place of what only WordPress can do."""

    form: str
    # An address to write to, in place of forms, or an empty text.
    contact: str
    # The shortcodes that a plugin of the program has, in small letters: these stay as they are.
    tags: frozenset[str] = frozenset()


def attributes_of(text: str) -> dict[str, str]:
    """The named attributes of a shortcode."""
    return {name.lower(): one or two or three for name, one, two, three in ATTRIBUTE.findall(text)}


def one_of(given: dict[str, str], names: tuple[str, ...]) -> str:
    return next((given[it].strip() for it in names if given.get(it, "").strip()), "")


def quoted(text: str) -> str:
    """A text as an attribute's value, its entities spared."""
    return escape(unescape(text))


class Addresses:
    """Where the addresses of the old site lead to in the program."""

    def __init__(self, site: WholeSite, carried: set[int], places: Places) -> None:
        self.home = split(site.address).path.rstrip("/") + "/"
        self.paths: dict[str, str] = {}
        self.files = {it.number: it.file for it in site.of_kind("attachment") if it.file}
        self.kinds = {it: site.items[it].kind for it in carried}
        for item in site.items.values():
            path = split(item.link).path
            if item.number in carried and path.strip("/") != self.home.strip("/"):
                self.paths[trimmed(path)] = f"/?{'p' if item.kind == 'post' else 'page_id'}={item.number}"
            elif item.kind == "attachment" and item.file:
                self.paths.setdefault(trimmed(path), places.local(item.file))
        self.carried, self.numbers = carried, {it.number: it for it in site.terms.values()}
        self.places, self.slugs = places, site.terms
        self.lists = {trimmed(places.term(it)) for it in site.terms.values()}
        self.lists |= {trimmed(places.author(it)) for it in site.authors}

    def is_known(self, path: str) -> bool:
        """Whether something is at a path of the site: in the program, or in the archive that is made of it."""
        bare, _, query = path.partition("#")[0].partition("?")
        if query and bare == "/":
            return re.fullmatch(r"(?:p|page_id)=\d+|m=\d{6}", query) is not None
        name = trimmed(bare)
        name = re.sub(r"/?(?:page/\d+|feed(?:/\w+)?)\Z", "", name)
        if name in self.lists or not name or f"{bare}/" == self.home or UPLOADS in bare:
            return True
        dates = re.escape(self.places.dates.strip("/"))
        return re.fullmatch(rf"{dates}/?\d{{4}}(?:/\d\d){{0,2}}", name) is not None or name in (
            "comments",
            "sitemap.xml",
        )

    def link(self, address: str) -> str:
        """Where a link of a content leads: a post or page of the site by its ID, all else as `Places.local` says."""
        path = self.places.local(address)
        if not path.startswith("/") or path.startswith("//"):
            return path
        bare, hash_mark, fragment = path.partition("#")
        bare, _, query = bare.partition("?")
        to = self.queried(query) if query and bare in ("", self.home, "/index.php") else self.paths.get(trimmed(bare))
        if not to and (month := re.fullmatch(r"/(\d{4})/(\d\d)/?", bare)) and not query:
            to = f"/?m={month[1]}{month[2]}"
        return (to or (bare + (f"?{query}" if query else ""))) + hash_mark + fragment

    def queried(self, query: str) -> str:
        """What a plain permalink of the old site leads to."""
        name, _, value = query.partition("=")
        number = int(value) if re.fullmatch(r"\d{1,10}", value) else 0
        if name == "attachment_id":
            return self.places.local(self.files.get(number, ""))
        if name == "cat" and number in self.numbers:
            return self.places.term(self.numbers[number])
        if name == "tag" and ("post_tag", value) in self.slugs:
            return self.places.term(self.slugs["post_tag", value])
        is_post = name in ("p", "page_id") and number in self.carried
        return f"/?{'p' if self.kinds[number] == 'post' else 'page_id'}={number}" if is_post else ""


def trimmed(path: str) -> str:
    return unquote(path).strip("/").lower()


def named(attachment: Item) -> str:
    """What a picture is called: its caption, its title or its file's name."""
    text = re.sub(r"<[^<>]*>", "", attachment.excerpt).strip() or attachment.title.strip()
    return unescape(text) or attachment.file.rpartition("/")[2]


class Shown:
    """Shows the texts of one site's posts as WordPress does, and notes what it can't."""

    def __init__(self, site: WholeSite, carried: set[int], places: Places, notes: Notes) -> None:
        self.site, self.notes = site, notes
        self.quotes = quotes_of(site.language)
        self.addresses, self.places = Addresses(site, carried, places), places
        # The files of the site that its texts show or lead to.
        self.files: set[str] = set()
        self.held: list[str] = []
        # What of the post at hand isn't as in WordPress, by kinds.
        self.left: dict[str, Counter[str]] = {}
        self.number = 0

    def title(self, text: str) -> str:
        """A title as WordPress shows it, with characters for entities: templates escape it where that is needed."""
        shown = with_characters(with_names(texturize(text.strip(), self.quotes)))
        # Templates escape a title where a page's own title is, so what can be a character is one.
        plain = ENTITIES.sub(lambda it: unescape(it[0]), shown)
        return plain if unescape(plain) == unescape(shown) else shown

    def content(self, number: int, text: str) -> str:
        """The content of a post or page, with its featured image before it."""
        self.number, self.held, self.left = number, [], {}
        text = text.replace("\r\n", "\n").replace("\x01", "")
        no_teaser = NO_TEASER if NO_TEASER in text else ""
        text = text.replace(NO_TEASER, "")
        text = MORE.sub(lambda it: more_mark(number, it[1].strip()) + no_teaser, text, count=1)
        text = MARK_BLOCKS.sub("", text)
        parts = [self.part(it) for it in text.split(PART)]
        shown = self.featured() + f"\n{PART}\n".join(parts)
        return self.released(shown)

    def featured(self) -> str:
        number = self.site.items[self.number].one("_thumbnail_id")
        picture = self.picture(int(number), "full") if re.fullmatch(r"[0-9]{1,10}", number) else ""
        return f'<figure class="post-thumbnail">{picture}</figure>\n' if picture else ""

    def part(self, text: str) -> str:
        has_blocks = "<!-- wp:" in text
        text = self.without_blocks(text, 0) if has_blocks else text
        text = EMBED.sub(lambda it: it[1] + self.hold(self.anchor(it[2])) + it[3], text)
        text = ADDRESS_LINE.sub(lambda it: self.hold(f"<p>{self.anchor(it[1])}</p>", not has_blocks), text)
        text = ESCAPED.sub(lambda it: self.hold(it[1]), text)
        text = self.with_codes(text, not has_blocks, 0)
        text = texturize(text, self.quotes)
        text = text if has_blocks else paragraphs_around(text)
        return with_characters(self.with_links(with_names(with_smilies(text))))

    def hold(self, html: str, is_block: bool = False) -> str:
        """Puts HTML aside, and returns what stands for it meanwhile."""
        if not html:
            return ""
        self.held.append(html)
        mark = HELD.format(len(self.held) - 1)
        return f"\n\n{mark}\n\n" if is_block else mark

    def released(self, text: str) -> str:
        for _ in range(DEPTH):
            if "\x01" not in text:
                return text
            text = IS_HELD.sub(lambda it: self.held[int(it[1])], text)
        return text

    def note(self, kind: str, name: str = "") -> None:
        self.left.setdefault(kind, Counter())[name] += 1

    def without_blocks(self, text: str, depth: int) -> str:
        """A content without the comments in which the block editor keeps its blocks' settings."""

        def replace(comment: re.Match[str]) -> str:
            found = BLOCK.fullmatch(comment[1])
            if found is None:
                return comment[0]
            name, given = found[2].removeprefix("core/"), found[3]
            if found[1]:
                return ""
            if name == "block":
                return self.reusable(given, depth)
            if name == "social-link":
                return social_link(given)
            if name == "latest-posts" and "categories" not in given:
                return self.latest(given)
            if found[4] and name not in EMPTY_BLOCKS or name == "query":
                self.note("dynamic block", name)
            return ""

        return COMMENT.sub(replace, text)

    def latest(self, given: str) -> str:
        """The list of the newest posts, as it was when the site was exported."""
        wanted = re.search(r"\"postsToShow\":(\d{1,3})", given)
        posts = [it for it in self.site.of_kind("post") if it.is_public() and it.number in self.addresses.carried]
        posts.sort(key=lambda it: (it.date, it.number), reverse=True)
        items = "".join(
            f'<li><a href="/?p={it.number}">{self.title(it.title) or it.number}</a></li>\n'
            for it in posts[: int(wanted[1]) if wanted else LATEST]
        )
        return self.hold(f'<ul class="wp-block-latest-posts">\n{items}</ul>') if items else ""

    def reusable(self, given: str, depth: int) -> str:
        number = re.search(r"\"ref\":(\d{1,10})", given)
        item = self.site.items.get(int(number[1])) if number else None
        if item is None or item.kind != "wp_block" or item.status != "publish" or depth >= DEPTH:
            self.note("reusable block")
            return ""
        return self.without_blocks(item.content, depth + 1)

    def with_codes(self, text: str, is_classic: bool, depth: int) -> str:
        """A text whose shortcodes are shown, those of which it is known how."""
        tokens = list(TOKEN.finditer(text))
        ends: dict[str, list[int]] = {}
        for place, token in enumerate(tokens):
            if token[1]:
                ends.setdefault(token[2], []).append(place)
        made, at = [], 0
        for place, token in enumerate(tokens):
            if token.start() < at:
                continue
            name, given = token[2].lower(), attributes_of(token[3])
            closing = None
            is_begun = not token[1] and not token[4]
            if is_begun and encloses(name) and (name not in BUTTONS or one_of(given, TARGETS)):
                later = bisect_left(ends.get(token[2], []), place)
                closing = tokens[ends[token[2]][later]] if later < len(ends.get(token[2], [])) else None
            inner = text[token.end() : closing.start()] if closing else ""
            shown = self.code(Code(name, token[3], given, inner, bool(token[1]), is_classic, depth))
            if shown is None:
                if name not in self.notes.tags:
                    if name not in CORE and looks_like_code(token, ends):
                        self.note("shortcode", token[2])
                    continue
                # (its quotes stay straight, since no plugin reads others)
                shown, closing = self.hold(token[0]), None
            made += [text[at : token.start()], shown]
            at = closing.end() if closing else token.end()
        return "".join(made) + text[at:]

    def code(self, code: Code) -> str | None:
        """What is shown for one shortcode, or None if its text stays."""
        if code.name in CORE:
            # (each is the name of a method)
            make: Callable[[dict[str, str], str], str] = getattr(self, code.name.removeprefix("wp_"))
            # A closing tag of its own closes nothing, and shows nothing.
            return "" if code.is_end else self.hold(make(code.given, code.inner), code.is_block)
        if code.name in FORMS:
            if not code.is_end:
                self.note("form", code.name)
            return "" if code.is_end else self.hold(self.form(), code.is_block)
        if code.name in FILMS and (address := WEB_ADDRESS.search(f"{code.rest} {code.inner}")):
            return self.hold(f"<p>{self.anchor(address[0])}</p>", code.is_block)
        if code.name in BUTTONS and not code.is_end and (to := one_of(code.given, TARGETS)):
            return self.button(code, to)
        if code.name.startswith(BUILDERS):
            shown = "" if code.is_end else self.built(code.name, code.given)
            return (self.hold(shown, code.is_block) if shown else "\n\n") if code.is_block else shown
        return None

    def button(self, code: Code, to: str) -> str:
        """A link in the look of a button; a builder's is a paragraph of its own."""
        label = code.inner.strip() or escape(unescape(one_of(code.given, LABELS)), quote=False)
        shown = self.with_codes(label, False, code.depth + 1)
        html = f'<a class="button" href="{quoted(self.link(target_of(to)))}">{shown}</a>'
        if not code.name.startswith(BUILDERS):
            return html
        return self.hold(f"<p>{texturize(html, self.quotes)}</p>", code.is_block)

    def caption(self, given: dict[str, str], inner: str) -> str:
        """A picture with its caption: the text after it, or in old contents an attribute."""
        found = re.match(r"\s*((?:<a\b[^>]*>\s*)?<img\b[^>]*>(?:\s*</a>)?)(.*)", inner, re.S)
        picture, text = (found[1], found[2].strip()) if found else (inner, "")
        stored = given.get("caption", "").strip()
        width = re.match(r"\d{1,5}", given.get("width", ""))
        if not (stored or text) or not width or int(width[0]) < 1:
            return self.with_links(picture)
        kind = " ".join(re.findall(r"[\w-]+", f"wp-caption {given.get('align', 'alignnone')} {given.get('class', '')}"))
        # A caption in an attribute, as WordPress wrote them before 2012, keeps its quotes. WordPress cleans its markup.
        stored = harmless(stored) if "<" in stored else stored
        shown = self.with_links(stored or texturize(self.with_codes(text, False, 1), self.quotes))
        caption = f'<figcaption class="wp-caption-text">{shown}</figcaption>'
        return f'<figure class="{kind}" style="width: {int(width[0])}px">{self.with_links(picture)}{caption}</figure>'

    def attachments(self, given: dict[str, str]) -> list[Item]:
        """The attachments that a gallery or a playlist shows, in its order."""
        listed = given.get("ids") or given.get("include") or ""
        numbers = [int(it) for it in re.findall(r"\d{1,10}", listed)]
        if numbers:
            found = [self.site.items[it] for it in numbers if it in self.site.items]
            return [it for it in found if it.kind == "attachment" and it.file]
        left_out = set(map(int, re.findall(r"\d{1,10}", given.get("exclude", ""))))
        above = int(given["id"]) if re.fullmatch(r"\d{1,10}", given.get("id", "")) else self.number
        own = [
            it for it in self.site.of_kind("attachment") if it.parent == above and it.file and it.number not in left_out
        ]
        return sorted(own, key=lambda it: (it.order, it.number))

    def gallery(self, given: dict[str, str], _: str) -> str:
        size, figures = given.get("size", "thumbnail"), []
        columns = int(given["columns"]) if re.fullmatch(r"[1-9]", given.get("columns", "")) else 3
        found = [it for it in self.attachments(given) if is_picture(it.file)]
        for item in found if given.get("orderby") != "rand" else sorted(found, key=lambda it: it.number):
            picture = self.picture(item.number, size)
            if given.get("link") != "none":
                # A picture without a text of its own gives its link no name, which those who hear the page need.
                name = f' aria-label="{escape(named(item))}"' if 'alt=""' in picture else ""
                picture = f'<a href="{quoted(self.address(item.file))}"{name}>{picture}</a>'
            text = self.with_links(texturize(item.excerpt.strip(), self.quotes))
            caption = f'<figcaption class="wp-caption-text gallery-caption">{text}</figcaption>' if text else ""
            figures.append(f'<figure class="gallery-item"><div class="gallery-icon">{picture}</div>{caption}</figure>')
        if not figures:
            self.note("shortcode", "gallery")
        return f'<div class="gallery gallery-columns-{columns}">{"".join(figures)}</div>' if figures else ""

    def picture(self, number: int, size: str) -> str:
        """An attachment as an image at one of its sizes."""
        item = self.site.items.get(number)
        if item is None or item.kind != "attachment" or not item.file:
            return ""
        sizes = pictures_of(item)
        found = sizes.get(size) or sizes["full"]
        alt = unescape(item.one("_wp_attachment_image_alt")).strip()
        sides = f' width="{found.width}" height="{found.height}"' if found.width and found.height else ""
        return f'<img src="{quoted(self.address(found.address))}" alt="{escape(alt)}"{sides} loading="lazy" />'

    def address(self, address: str) -> str:
        """The address of a file of the site, which is noted as needed."""
        return self.needed(self.places.local(address))

    def needed(self, address: str) -> str:
        """An address, which is noted if it is that of a file of the site: then its spaces are written as `%20`."""
        path = address.partition("?")[0].partition("#")[0].replace(" ", "%20")
        if UPLOADS not in path or not path.startswith("/") or path.startswith("//"):
            return address
        self.files.add(path)
        return address.replace(" ", "%20")

    def link(self, address: str) -> str:
        """Where a link leads to; it is noted if nothing is there."""
        to = self.needed(self.addresses.link(address))
        if to.startswith("/") and not to.startswith("//") and not self.addresses.is_known(to):
            self.note("link that leads nowhere", to)
        return to

    def anchor(self, address: str) -> str:
        """A link to an address that stands for what it leads to: of a post of the site that is its title."""
        to = self.link(unescape(address))
        number = re.fullmatch(r"/\?(?:p|page_id)=(\d+)", to)
        post = self.site.items[int(number[1])] if number else None
        title = self.title(post.title) if post and post.is_public() else ""
        return f'<a href="{quoted(to)}">{title or escape(unescape(address), quote=False)}</a>'

    def audio(self, given: dict[str, str], _: str) -> str:
        return self.player("audio", given, ("src", "mp3", "m4a", "ogg", "oga", "wav", "flac", "wma"))

    def video(self, given: dict[str, str], _: str) -> str:
        return self.player("video", given, ("src", "mp4", "m4v", "webm", "ogv", "flv", "mov", "wmv"))

    def player(self, kind: str, given: dict[str, str], names: tuple[str, ...]) -> str:
        source = one_of(given, names)
        if not source or not is_harmless(source):
            self.note("shortcode", kind)
            return ""
        source = unescape(source)
        if kind == "video" and re.match(r"https?://(?:www\.)?(?:youtube\.com|youtu\.be|vimeo\.com)/", source):
            return f"<p>{self.anchor(source)}</p>"
        shown = given.get("poster", "")
        poster = f' poster="{quoted(self.address(shown))}"' if shown and is_harmless(shown) else ""
        return f'<{kind} controls preload="none"{poster} src="{quoted(self.address(source))}"></{kind}>'

    def playlist(self, given: dict[str, str], _: str) -> str:
        kind = "video" if given.get("type") == "video" else "audio"
        items = [
            f"<li>{escape(unescape(it.title), quote=False)}<br />"
            f'<{kind} controls preload="none" src="{quoted(self.address(it.file))}"></{kind}></li>'
            for it in self.attachments(given)
        ]
        return f'<ol class="playlist">{"".join(items)}</ol>' if items else ""

    def embed(self, given: dict[str, str], inner: str) -> str:
        source = unescape(inner.strip() or given.get("src", ""))
        return f"<p>{self.anchor(source)}</p>" if re.match(r"https?://[^\s<>\"']+\Z", source) else escape(source)

    def form(self) -> str:
        contact = self.notes.contact
        link = f' <a href="mailto:{quoted(contact)}">{escape(contact)}</a>' if contact else ""
        return f'<p class="form-gone">{escape(self.notes.form, quote=False)}{link}</p>'

    def built(self, name: str, given: dict[str, str]) -> str:
        """What a builder's tag shows by its attributes alone: a picture, a heading."""
        made = []
        source = unescape(one_of(given, SOURCES))
        if re.fullmatch(r"\d{1,10}", source):
            made.append(self.picture(int(source), given.get("img_size", "full")))
        elif re.search(r"\.(?:jpe?g|png|gif|webp|svg|avif)\Z", source, re.I) and is_harmless(source):
            alt = escape(unescape(given.get("alt", "")))
            made.append(f'<p><img src="{quoted(self.address(source))}" alt="{alt}" loading="lazy" /></p>')
        heading = given.get("title") or given.get("heading") or (given.get("text") if "heading" in name else "")
        if heading and heading.strip() and heading.lower() not in ("on", "off"):
            made.append(f"<h4>{texturize(escape(unescape(heading.strip()), quote=False), self.quotes)}</h4>")
        return "\n".join(made)

    def with_links(self, text: str) -> str:
        """A text whose links and files of the old host are those of the site itself."""
        return "".join(LINKED.sub(self.linked, it) if number % 2 else it for number, it in enumerate(TAGS.split(text)))

    def linked(self, found: re.Match[str]) -> str:
        """An attribute of a tag that is an address, or several."""
        name, mark, value = found[1], found[3][0], found[3][1:-1]
        if name == "srcset":
            listed = [it.strip().partition(" ") for it in value.split(",")]
            shown = ", ".join(f"{self.address(unescape(it[0]))} {it[2]}".strip() for it in listed if it[0])
        elif name in ("href", "action"):
            shown = self.link(unescape(value))
        else:
            shown = self.address(unescape(value))
            if name == "src" and re.match(r"(?:https?:)?//", shown):
                self.note("image of another host" if is_picture(shown) else "file of another host", split(shown).netloc)
        return f"{name}{found[2]}{mark}{escape(shown)}{mark}"


def paragraphs_around(text: str) -> str:
    """Paragraphs of a text in which HTML is held aside: what is held as a block is none."""
    chunks = re.split("(\n\n\x01\\d+\x01\n\n)", text)
    return "".join(it.strip() + "\n" if number % 2 else paragraphs(it) for number, it in enumerate(chunks))


def encloses(name: str) -> bool:
    return name in CORE or name in FORMS or name in BUTTONS or name in FILMS


def looks_like_code(token: re.Match[str], ends: dict[str, list[int]]) -> bool:
    return not token[1] and ("=" in token[3] or bool(token[4]) or token[2] in ends)


def more_mark(number: int, text: str) -> str:
    """The place at which a list ends a post, with the text of its link if the author gave one."""
    given = f' data-more="{quoted(text)}"' if text else ""
    return f'<span id="more-{number}"{given}></span>'


def target_of(given: str) -> str:
    """Where a button leads; a builder keeps several settings in one attribute."""
    found = re.search(r"(?:^|\|)url:([^|]*)", given)
    address = CONTROLS.sub("", unescape(unquote(found[1]) if found else given))
    return address if is_harmless(address) else "#"


def social_link(given: str) -> str:
    to, service, label = (setting(given, name) for name in ("url", "service", "label"))
    if not to or not is_harmless(to):
        return ""
    name = label or service.capitalize() or split(to).netloc or to
    if MAIL.fullmatch(to):
        to = f"mailto:{to}"
    elif not SCHEME.match(to) and not to.startswith(("/", "#")):
        to = f"https://{to}"
    return f'<li class="wp-social-link"><a href="{quoted(to)}">{escape(name)}</a></li>'


def setting(given: str, name: str) -> str:
    """A text among a block's settings, or an empty one."""
    found = re.search(rf'"{name}":("(?:[^"\\]|\\.)*")', given)
    try:
        return CONTROLS.sub("", json.loads(found[1], strict=False)) if found else ""
    except ValueError:
        return ""


def is_picture(address: str) -> bool:
    return re.search(r"\.(?:jpe?g|png|gif|webp|svg|avif|bmp|ico)\Z", split(address).path, re.I) is not None


def outside_of_literals(text: str, change: Callable[[str], str]) -> str:
    """A text with a change made of what lies between its tags, but for code and the like."""
    made, literal = [], ""
    for number, part in enumerate(TAGS.split(text)):
        if number % 2:
            name = re.match(r"<(/?)([A-Za-z]+)", part)
            if name and name[2].lower() in LITERAL:
                literal = "" if name[1] else name[2].lower()
            made.append(part)
        else:
            made.append(part if literal else change(part))
    return "".join(made)


def with_smilies(text: str) -> str:
    if not any(it in text for it in SMILIES):
        return text
    return outside_of_literals(text, lambda it: SMILEY.sub(lambda found: SMILIES[found[1]], it))


def with_names(text: str) -> str:
    """The name of WordPress with its capital P, as WordPress shows it."""
    if "Wordpress" not in text:
        return text
    return re.sub(r"(?<![\w/.])Wordpress(?![\w/.-])", "WordPress", text)
