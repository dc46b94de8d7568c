"""A piece of HTML as the lines of text that a reader sees.

It is a module, and runs nothing by itself.
"""

import re
from html.parser import HTMLParser

# Elements that begin and end a line, and elements whose text isn't shown.
BREAKS = set(
    "p div h1 h2 h3 h4 h5 h6 ul ol li table tr td th tbody thead blockquote pre figure figcaption hr br form section"
    " article aside header footer nav dl dt dd address details summary fieldset label main audio video cite".split()
)
UNSEEN = {"audio", "video", "script", "style"}


class Lines(HTMLParser):
    def __init__(self) -> None:
        super().__init__(convert_charrefs=True)
        self.lines: list[str] = []
        self.line, self.unseen = "", 0

    def end_line(self) -> None:
        text = re.sub(r"[ \t\r\n]+", " ", self.line).strip(" ")
        if text:
            self.lines.append(text)
        self.line = ""

    def handle_starttag(self, tag: str, _: list[tuple[str, str | None]]) -> None:
        self.unseen += tag in UNSEEN
        if tag in BREAKS:
            self.end_line()

    def handle_endtag(self, tag: str) -> None:
        self.unseen = max(0, self.unseen - (tag in UNSEEN))
        if tag in BREAKS:
            self.end_line()

    def handle_data(self, data: str) -> None:
        if not self.unseen:
            self.line += data


def lines_of(html: str) -> list[str]:
    """The lines of text of a piece of HTML, without its tags."""
    reader = Lines()
    reader.feed(html)
    reader.close()
    reader.end_line()
    return reader.lines


class Outline(HTMLParser):
    """Which elements begin where, and the text between: ends are left out, as a browser knows them."""

    def __init__(self) -> None:
        super().__init__(convert_charrefs=True)
        self.parts: list[str] = []

    def handle_starttag(self, tag: str, _: list[tuple[str, str | None]]) -> None:
        if self.parts[-1:] == ["<p>"] and tag in BREAKS:
            # A paragraph without anything in it shows nothing.
            self.parts.pop()
        self.parts.append(f"<{tag}>")

    def handle_data(self, data: str) -> None:
        text = re.sub(r"[ \t\r\n]+", " ", data).strip(" ")
        if text:
            self.parts.append(text)


def outline_of(html: str) -> list[str]:
    """Which elements begin where in a piece of HTML, with the text between them."""
    reader = Outline()
    reader.feed(html)
    reader.close()
    return [it for at, it in enumerate(reader.parts) if it != "<p>" or at + 1 < len(reader.parts)]
