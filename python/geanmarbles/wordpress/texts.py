"""Texts as WordPress shows them: typographic quotes and dashes in titles and contents, paragraphs in classic contents.

What WordPress does is described in its Code Reference, under `wptexturize` and `wpautop`; tests/from_wordpress compares
what these functions give with what those give. Each walks once over the tags and the texts between them, so its time
grows with the length of a text.
"""

import re
from typing import NamedTuple

# A comment, a tag, or a shortcode that WordPress itself has: typography leaves them as they are. A tag ends at the
# first `>`, also within quotes, as it does for WordPress.
TAG = r"<!--.*?(?:-->|\Z)|</?[A-Za-z][^<>]*>"
SHORTCODE = r"\[\[?/?(?:audio|caption|embed|gallery|playlist|video|wp_caption)\b(?:\s[^\[\]<>]*)?/?\]\]?"
OPAQUE = re.compile(rf"({TAG}|{SHORTCODE})", re.S)
TAGS = re.compile(rf"({TAG})", re.S)
NAME = re.compile(r"<(/?)([A-Za-z][A-Za-z0-9-]*)|\[\[?(/?)([A-Za-z][\w-]*)")
# Elements and shortcodes whose texts keep their quotes.
KEPT = {"pre", "code", "kbd", "style", "script", "tt"}


class Quotes(NamedTuple):
    """The quotation marks of a language, each as it is written into HTML."""

    double_open: str = "&#8220;"
    double_close: str = "&#8221;"
    single_open: str = "&#8216;"
    single_close: str = "&#8217;"
    apostrophe: str = "&#8217;"


ENGLISH = Quotes()
# By the first part of a language's tag.
QUOTES = {
    "de": Quotes("&#8222;", "&#8220;", "&#8218;", "&#8216;"),
    "fr": Quotes("&laquo;&nbsp;", "&nbsp;&raquo;", "&#8216;", "&#8217;"),
    "es": ENGLISH,
    "it": ENGLISH,
    "nl": ENGLISH,
}
PRIME, DOUBLE_PRIME = "&#8242;", "&#8243;"
EN_DASH, EM_DASH, ELLIPSIS, TIMES, TRADE_MARK = "&#8211;", "&#8212;", "&#8230;", "&#215;", "&#8482;"
# English words that begin with an apostrophe, as WordPress knows them: in small letters.
CLIPPED = re.compile("'(tain't|twere|twas|tis|twill|til|bout|nuff|round|cause|em)")
SPACE = r"(?:[\r\n\t ]|\xa0|&nbsp;)"
# What an opening quote follows, and what follows a closing one.
BEFORE_SINGLE = re.compile(rf"(?:\A|[(\[{{\"\-]|&lt;|{SPACE})\Z")
BEFORE_DOUBLE = re.compile(rf"(?:\A|[(\[{{\-]|&lt;|{SPACE})\Z")
AFTER_SPACE = re.compile(rf"(?:\A|{SPACE})\Z")
BEGINS_WITH_SPACE = re.compile(SPACE)
AFTER_WORD = re.compile(rf"\Z|[.,:;!?\"'(){{}}\[\]\-]|&[lg]t;|{SPACE}")
ENDS_SPEECH = re.compile(rf"\Z|[.,:;!?)}}\-\]]|&gt;|{SPACE}")
YEAR = re.compile(r"\d\d(?:\Z|(?![%\d]|[.,]\d))")
QUOTED_YEAR = re.compile(rf"(\d\d)(['\"])(?=\Z|[.,:;!?)}}\-\]]|&gt;|{SPACE})")
ENTITY = re.compile(r"&(?!#\d{1,5};|#x[0-9a-f]{1,4};|[a-z][a-z0-9]{1,15};)", re.I)


def quotes_of(language: str) -> Quotes:
    """The quotation marks of a language's tag, such as `de-DE`; of a language that isn't known, the English ones."""
    return QUOTES.get(language.lower().replace("_", "-").split("-")[0], ENGLISH)


def with_dashes(text: str) -> str:
    """A text with dashes for hyphens between spaces and for several hyphens. Names such as xn--p1ai keep theirs."""
    if "-" not in text:
        return text
    text = text.replace("---", EM_DASH)
    text = re.sub(rf"(?:(?<=[\r\n\t \xa0])|(?<=&nbsp;)|^)--(?={SPACE}|$)", EM_DASH, text)
    text = re.sub(r"(?<!xn)--", EN_DASH, text)
    return re.sub(rf"(?:(?<=[\r\n\t \xa0])|(?<=&nbsp;)|^)-(?={SPACE}|$)", EN_DASH, text)


class Quoted:
    """A text whose straight quotes of one kind, `mark`, become curly one by one."""

    def __init__(self, text: str, mark: str, opening: str, closing: str, prime: str) -> None:
        self.text, self.mark = text, mark
        self.opening, self.closing, self.prime = opening, closing, prime
        # What is made so far, and what follows the newest opening quote: where its quotes to be decided on are.
        self.made: list[str] = []
        self.speech: list[tuple[int, bool, bool, bool]] = []
        self.is_opened = self.is_closed = False

    def shown(self, quotes: Quotes) -> str:
        at = 0
        while (found := self.text.find(self.mark, at)) >= 0:
            self.made.append(self.text[at:found])
            # A closing mark that is there already has closed what was opened.
            self.is_closed = self.is_closed or self.closing in self.text[at:found]
            at = found + 1 + self.take(found, self.text[max(found - 6, 0) : found], quotes)
        self.made.append(self.text[at:])
        self.is_closed = self.is_closed or self.closing in self.text[at:]
        self.end_speech()
        return "".join(self.made)

    def take(self, at: int, before: str, quotes: Quotes) -> int:
        """Makes the quote at a place, and what belongs to it; returns how many characters that is."""
        after = at + 1
        is_single = self.mark == "'"
        if is_single and (year := QUOTED_YEAR.match(self.text, after)):
            closing = quotes.single_close if year[2] == "'" else quotes.double_close
            self.made.append(quotes.apostrophe + year[1] + closing)
            self.is_closed = self.is_closed or year[2] == "'"
            return year.end() - after
        if is_single and YEAR.match(self.text, after):
            self.made.append(quotes.apostrophe)
        elif AFTER_SPACE.search(before) and (number := re.compile(rf"\d[.,\d]*{self.mark}").match(self.text, after)):
            self.made.append(self.opening + number[0][:-1] + self.closing)
            self.is_closed = True
            return number.end() - after
        elif self.opens(before, after):
            self.end_speech()
            self.made.append(self.opening)
            self.is_opened = True
        elif is_single and not AFTER_SPACE.search(before) and not AFTER_WORD.match(self.text, after):
            self.made.append(quotes.apostrophe)
        else:
            ends = ENDS_SPEECH.match(self.text, after) is not None
            is_counted = before[-1:].isdigit()
            self.speech.append((len(self.made), ends, is_counted, self.text.startswith(".", after)))
            self.made.append("")
        return 0

    def opens(self, before: str, after: int) -> bool:
        if self.mark == "'":
            return BEFORE_SINGLE.search(before) is not None
        return BEFORE_DOUBLE.search(before) is not None and not BEGINS_WITH_SPACE.match(self.text, after)

    def end_speech(self) -> None:
        """Decides on the quotes since the newest opening one. One after a digit is a sign for feet or inches, unless
        it is the one that must close what was opened."""
        closing = self.that_closes() if self.is_opened and not self.is_closed else set()
        for place, _, is_counted, _ in self.speech:
            self.made[place] = self.prime if is_counted and place not in closing else self.closing
        self.speech, self.is_opened, self.is_closed = [], False, False

    def that_closes(self) -> set[int]:
        able = [it for it in self.speech if it[1]]
        plain = {place for place, _, is_counted, _ in able if not is_counted}
        if plain or not able:
            return plain
        before_period = [place for place, _, _, has_period in able if has_period]
        return {before_period[-1] if before_period else able[-1][0]}


def curled(text: str, quotes: Quotes) -> str:
    """A text with curly quotes for straight ones."""
    text = CLIPPED.sub(lambda it: quotes.apostrophe + it[1].replace("'", quotes.apostrophe), text)
    if "'" in text:
        text = Quoted(text, "'", quotes.single_open, quotes.single_close, PRIME).shown(quotes)
    if '"' in text:
        text = Quoted(text, '"', quotes.double_open, quotes.double_close, DOUBLE_PRIME).shown(quotes)
    return text


def typeset(text: str, quotes: Quotes) -> str:
    """A text between two tags, with typographic characters."""
    text = text.replace("...", ELLIPSIS).replace("``", quotes.double_open).replace("''", quotes.double_close)
    text = text.replace(" (tm)", f" {TRADE_MARK}")
    if "'" in text or '"' in text:
        text = curled(text, quotes)
    text = with_dashes(text)
    return re.sub(r"\b(\d(?:[\d.,]*\d)?)x(\d[\d.,]*)\b", rf"\1{TIMES}\2", text, flags=re.A)


def texturize(text: str, quotes: Quotes = ENGLISH) -> str:
    """A text with curly quotes, dashes and ellipses outside its tags, as WordPress shows it."""
    made: list[str] = []
    kept: list[str] = []
    for number, part in enumerate(OPAQUE.split(text)):
        if number % 2 == 0:
            part = part if kept else typeset(part, quotes)
            made.append(ENTITY.sub("&#038;", part) if not kept else part)
            continue
        made.append(part)
        name = NAME.match(part)
        if name and (name[2] or name[4]).lower() in KEPT and not part.endswith("/>"):
            which = (name[2] or name[4]).lower()
            if not (name[1] or name[3]):
                kept.append(which)
            elif kept and kept[-1] == which:
                kept.pop()
    return "".join(made)


# Elements that are no part of a line of text.
BLOCKS = set(
    "table thead tfoot caption col colgroup tbody tr td th div dl dd dt ul ol li pre form map area blockquote address"
    " style p h1 h2 h3 h4 h5 h6 hr fieldset legend section article aside hgroup header footer nav figure figcaption"
    " details menu summary".split()
)
# Blocks that have no end tag, and elements whose newlines are no line breaks.
WITHOUT_END = {"hr", "col", "area"}
KEPT_WHOLE = re.compile(r"<(pre|script|style|svg|textarea)\b.*?(?:</\1\s*>|\Z)", re.S | re.I)
# Blocks in which text gets paragraphs although it follows the tag at once.
PARAGRAPHED = {"blockquote"}
BLANK = re.compile(r"\n[ \t]*\n\s*")
TWO_BREAKS = re.compile(r"<br\s*/?>\s*<br\s*/?>", re.I)
HELD = "\x00{}\x00"
IS_HELD = re.compile(r"\x00(\d+)\x00")
# Comments, which make no paragraph.
ONLY_COMMENTS = re.compile(r"(?:\s|<!--.*?-->)*", re.S)


class Paragraphs:
    """Makes the paragraphs of a text whose paragraphs are told apart by blank lines alone."""

    def __init__(self) -> None:
        self.made: list[str] = []
        # The texts and inline tags since the last tag of a block, and that tag's name and whether it began a block.
        self.line: list[str] = []
        self.name, self.has_begun = "", False
        self.is_in_paragraph = False

    def of(self, text: str) -> str:
        """A text with its paragraphs."""
        held: list[str] = []

        def hold(found: re.Match[str]) -> str:
            held.append(found[0])
            is_block = found[1].lower() in BLOCKS
            return ("\n\n" if is_block else "") + HELD.format(len(held) - 1) + ("\n\n" if is_block else "")

        text = text.replace("\r\n", "\n").replace("\r", "\n").replace("\x00", "")
        text = TWO_BREAKS.sub("\n\n", KEPT_WHOLE.sub(hold, text))
        for number, part in enumerate(TAGS.split(text)):
            name = NAME.match(part) if number % 2 else None
            if name and name[2] and name[2].lower() in BLOCKS:
                self.take_block(part, name[2].lower(), bool(name[1]))
            else:
                # A newline within a tag is none of the text.
                self.line.append(part.replace("\n", " ") if number % 2 and not part.startswith("<!--") else part)
        self.end_line("", False)
        made = "".join(self.made)
        return IS_HELD.sub(lambda it: held[int(it[1])], made)

    def take_block(self, tag: str, name: str, is_end: bool) -> None:
        self.end_line(name, is_end)
        if name == "p":
            self.is_in_paragraph = not is_end
        self.made.append(tag.replace("\n", " ") + ("\n" if is_end or name in WITHOUT_END else ""))
        self.name, self.has_begun = name, not is_end and name not in WITHOUT_END

    def end_line(self, name: str, is_end: bool) -> None:
        """Writes what was read since the last tag of a block; the next one is `name`."""
        text, self.line = "".join(self.line), []
        if not text.strip():
            return
        chunks = [it for it in BLANK.split(text) if it.strip()]
        # Text that follows a beginning block at once is the block's own, and so is a whole text between two tags.
        is_own = self.has_begun and not BLANK.match(text) and self.name not in PARAGRAPHED
        for number, chunk in enumerate(chunks):
            self.write(chunk, is_own and number == 0)
        if self.is_in_paragraph and not (is_end and name == "p"):
            self.made.append("</p>\n")
            self.is_in_paragraph = False

    def write(self, chunk: str, is_own: bool) -> None:
        shown = with_breaks(chunk.strip())
        if is_own or IS_HELD.fullmatch(shown) or ONLY_COMMENTS.fullmatch(shown):
            self.made.append(shown + ("" if is_own else "\n"))
        else:
            self.made.append(f"<p>{shown}</p>\n")


def with_breaks(text: str) -> str:
    """A paragraph's text with a line break for each newline."""
    lines = [it.strip(" \t") for it in text.split("\n")]
    made = []
    for line in lines[:-1]:
        made.append(line if re.search(r"<br\s*/?>\Z", line, re.I) else line + "<br />")
    return "\n".join([*made, lines[-1]])


def paragraphs(text: str) -> str:
    """A text with paragraphs where it has blank lines, and line breaks where it has newlines, as WordPress shows
    contents of its classic editor."""
    return Paragraphs().of(text) if text.strip() else ""


# Entities that typography makes.
NUMBERED = re.compile(r"&#(8\d{3}|215);")


def with_characters(text: str) -> str:
    """A text with characters in place of the entities that typography makes, so that one can edit it."""
    return NUMBERED.sub(
        lambda it: chr(int(it[1])), text.replace("&#038;", "&amp;").replace("&laquo;", "«").replace("&raquo;", "»")
    )
