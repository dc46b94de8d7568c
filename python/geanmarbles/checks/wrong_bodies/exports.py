"""What a library gives to the crates that stand on it: what a check of those reads of its sources.

A check proves each function from the contracts of what it calls, and never from their bodies, so a body can change
without a crate above being proved again: the toolchain too, over kept work, then proves nothing of it anew. Three
kinds of body could be seen from above, and stay: of a `const fn`, which may be computed in a type or a constant; in a
`trait`, since a crate above takes it over in an `impl` of its own; and in a macro, which becomes the caller's text. A
proof above may cite a library's definitions and its lemmas, but neither the answers nor the invariants of its
functions."""

import functools
import re

from geanmarbles.repository.reading import CLOSED_BY, closed, text_at, tokens_of
from geanmarbles.repository.sources import library_files, sum_of_texts

# The files that a function's own proof is written in.
OF_FUNCTIONS = ("Answers.antt", "Invariants.antt", "Proof.antt")
# The words that begin a clause between a function's signature and its body.
CLAUSES = {"ghost", "requires", "ensures"}


class Outline:
    """A source without the bodies that no crate above can see."""

    def __init__(self, text: str) -> None:
        self.text = text
        self.tokens = [it for it in tokens_of(text, ".rt") if it.kind in ("word", "sign")]
        # The places of what is cut, from the first sign within a body's braces to the brace that closes it.
        self.cuts: list[tuple[int, int]] = []
        at = 0
        while at < len(self.tokens):
            at = self.past_item(at)

    def word(self, at: int) -> str:
        return text_at(self.tokens, at)

    def opening(self, at: int) -> int:
        """The next `{` or `;` that lies in no other bracket and in no clause: a body begins there, or what has none
        ends."""
        in_clause = False
        while at < len(self.tokens):
            word = self.word(at)
            if word == ";" or word == "{" and not in_clause:
                break
            in_clause = (in_clause or word in CLAUSES) and word != "{"
            at = closed(self.tokens, at) if word in CLOSED_BY else at + 1
        return at

    def past_item(self, at: int) -> int:
        """Past a function or what else keeps its bodies, or one word."""
        word = self.word(at)
        is_function = word == "fn" and re.match(r"\w", self.word(at + 1)) is not None
        if not is_function and word not in ("trait", "macro_rules"):
            return at + 1
        opens = self.opening(at + 1)
        if self.word(opens) != "{":
            return opens + 1
        ends = closed(self.tokens, opens)
        if is_function and self.word(at - 1) != "const":
            self.cuts.append((self.tokens[opens].at + 1, self.tokens[ends - 1].at))
        return ends

    def __str__(self) -> str:
        at = 0
        kept: list[str] = []
        for begins, ends in self.cuts:
            kept.append(self.text[at:begins])
            at = ends
        return "".join(kept) + self.text[at:]


@functools.cache
def outline_of(text: str) -> str:
    """A source's outline. Each crate above asks for it, so it's kept."""
    return str(Outline(text))


def sum_of_exports(folder: str) -> str:
    """A sum of what a library in a folder gives to the crates that stand on it, layout and comments aside."""
    given = ((path, text) for path, text in library_files(folder) if path.name not in OF_FUNCTIONS)
    return sum_of_texts(folder, ((path, outline_of(text) if path.suffix == ".rt" else text) for path, text in given))
