"""What a check reads of a source, a spec or a proof: its tokens without comments, and of the layout of specs and proofs
which lines begin at the margin, since these begin a declaration.

A source is Rattle's code, but for its clauses and ghost items, whose bodies are in the prover's language, as specs and
proofs are. There `--` begins a comment unless it is within a name, and `//` is a name. A doc comment is read if a macro
may see it: in the arguments of one, and on a type that derives what isn't std's.

`rattle fmt --tokens` prints the tokens that a check reads; the self-test compares them with these over all crates."""

import functools
import re
from collections.abc import Iterator, Sequence
from typing import NamedTuple

# A run of an operator's signs stays together, since `&&` isn't `& &`.
CODE = re.compile(
    r"""
    (?P<blank> \s+)
  | (?P<comment> //[^\n]*)
  | (?P<opens> /\*)
  | (?P<text> b?r(?P<marks>\#*)".*?"(?P=marks) | b?"(?:\\.|[^"\\])*" | b?'(?:\\[^']*.|[^'\\])')
  | (?P<word> \w+ | '[^\W\d]\w*)
  | (?P<sign> [-+*%^!&|=<>:.?]+ | .)
    """,
    re.S | re.X,
)
# Between the brackets ⟦ ⟧ is Rattle's code, which is taken as it is, and between « » a name.
TERMS = re.compile(
    r"""
    (?P<blank> \s+)
  | (?P<comment> --[^\n]*)
  | (?P<opens> \{-)
  | (?P<text> "(?:\\.|[^"\\\n])*" | ⟦[^⟦⟧]*⟧)
  | (?P<word> [^\s(){}.;,@"«»⟦⟧]+ | «[^\s«»]*»)
  | (?P<sign> .)
    """,
    re.X,
)
# The words that begin a clause or a ghost item, and those that may lie between two bodies of one.
HEADS = {"ghost", "requires", "ensures"}
GOES_ON = {"=", "by"}
DOC = re.compile(r"///(?!/)|//!|/\*\*(?![*/])|/\*!")
CLOSED_BY = {"{": "}", "(": ")", "[": "]"}
# What std derives, without reading doc comments.
OF_STD = {"Clone", "Copy", "Debug", "Default", "Drop", "Eq", "Hash", "Ord", "PartialEq", "PartialOrd"}
DERIVES = {"derive", "derive_where"}


class Token(NamedTuple):
    """A word, a sign, a text or a comment, and its place."""

    kind: str
    text: str
    at: int


class Language:
    """Whether the next token of a source is of Rattle's code, or of a body of a clause or a ghost item."""

    def __init__(self) -> None:
        self.in_head = False
        # Whether a body has just ended, of which another may follow, as a member's default follows its type.
        self.after_body = False
        self.depth = 0

    def grammar(self) -> re.Pattern[str]:
        return TERMS if self.depth else CODE

    def goes_past(self, text: str) -> None:
        if self.depth:
            self.depth += (text == "{") - (text == "}")
            self.after_body = not self.depth
        elif text == "{" and self.in_head:
            self.in_head, self.depth = False, 1
        else:
            stays = self.in_head and text != ";"
            self.in_head = text in HEADS or stays or self.after_body and text in GOES_ON
            self.after_body = False


def tokens_of(text: str, suffix: str) -> Iterator[Token]:
    """The tokens of a source, or of a spec or proof, with its comments. What follows a comment between `{-` and `-}`,
    which nothing here has, is one token."""
    at, language = 0, Language()
    while at < len(text):
        grammar = TERMS if suffix == ".antt" else language.grammar()
        found = grammar.match(text, at)
        assert found is not None and found.lastgroup is not None, "any character is a sign"
        kind, end = found.lastgroup, found.end()
        if kind == "opens":
            kind, end = ("comment", end_of_comment(text, at)) if grammar is CODE else ("text", len(text))
        if kind in ("word", "sign"):
            language.goes_past(found[0])
        if kind != "blank":
            yield Token(kind, text[at:end], at)
        at = end


def end_of_comment(text: str, at: int) -> int:
    """The end of a comment between `/*` and `*/`, in which others may lie."""
    depth = 0
    for mark in re.compile(r"/\*|\*/").finditer(text, at):
        depth += 1 if mark[0] == "/*" else -1
        if depth == 0:
            return mark.end()
    return len(text)


def closed(tokens: Sequence[Token], at: int) -> int:
    """Past the bracket that closes the one at a place."""
    opens, depth = tokens[at].text, 0
    while at < len(tokens):
        if tokens[at].kind == "sign":
            depth += (tokens[at].text == opens) - (tokens[at].text == CLOSED_BY[opens])
        at += 1
        if depth == 0:
            break
    return at


def text_at(tokens: Sequence[Token], at: int) -> str:
    """The word or the sign at a place, if one is there."""
    return tokens[at].text if 0 <= at < len(tokens) and tokens[at].kind != "text" else ""


class Attributes(NamedTuple):
    """The attributes of an item: the place past them, and whether one derives what isn't std's."""

    ends: int
    derives: bool


def attributes_at(tokens: Sequence[Token], at: int) -> Attributes:
    derives = False
    while text_at(tokens, at) == "#":
        opens = at + 1 + (text_at(tokens, at + 1) == "!")
        if text_at(tokens, opens) != "[":
            break
        ends = closed(tokens, opens)
        words = {it.text for it in tokens[opens:ends] if it.kind == "word"}
        derives = derives or not DERIVES.isdisjoint(words) and not words <= DERIVES | OF_STD
        at = ends
    return Attributes(at, derives)


def past_type(tokens: Sequence[Token], at: int) -> int:
    """Past the type that is declared at a place, after its attributes."""
    while at < len(tokens) and text_at(tokens, at) not in ("{", ";"):
        at = closed(tokens, at) if text_at(tokens, at) in CLOSED_BY else at + 1
    return closed(tokens, at) if at < len(tokens) and text_at(tokens, at) == "{" else at + 1


def read_by_macros(tokens: Sequence[Token]) -> Iterator[range]:
    """The places of a source's text at which a macro may read a doc comment, from its tokens without comments."""

    def end_of(at: int) -> int:
        return tokens[at - 1].at + len(tokens[at - 1].text) if at else 0

    at = 0
    while at < len(tokens):
        item = attributes_at(tokens, at)
        if item.derives:
            ends = min(past_type(tokens, item.ends), len(tokens))
            yield range(end_of(at), end_of(ends))
        elif text_at(tokens, at) == "!":
            opens = at + 1 + (text_at(tokens, at - 1) == "macro_rules")
            if text_at(tokens, opens) in CLOSED_BY:
                yield range(end_of(at), end_of(closed(tokens, opens)))
        at = max(item.ends, at + 1)


def read_of(text: str, suffix: str) -> list[Token]:
    """The tokens that a check reads."""
    tokens = list(tokens_of(text, suffix))
    code = [it for it in tokens if it.kind != "comment"]
    docs = [it for it in tokens if it.kind == "comment" and suffix == ".rt" and DOC.match(it.text)]
    kept = {it.at for places in read_by_macros(code) for it in docs if it.at in places} if docs else set()
    return [it for it in tokens if it.kind != "comment" or it.at in kept]


@functools.cache
def code_of(text: str, suffix: str) -> str:
    """What a check reads of a source or a proof, without what `rt fmt` may change: white space between tokens, the last
    comma of arguments, and in specs and proofs the last semicolon of a record. Each crate above asks for it, so it's
    kept. A file of another kind is taken as it is."""
    if suffix not in (".rt", ".antt"):
        return text
    tokens = read_of(text, suffix)
    kept: list[str] = []
    for token, after in zip(tokens, [*(it.text for it in tokens[1:]), ""]):
        last = (token.text, after) == (",", ")") or suffix == ".antt" and (token.text, after) == (";", "}")
        if not last:
            begins = suffix == ".antt" and (token.at == 0 or text[token.at - 1] == "\n")
            kept += "\n" if begins else " ", token.text
    return "".join(kept)
