"""Who may edit: tokens, each with a name, in a file that can be read anew while the node serves.

A file has one token and nothing else, which is then nobody's by name; or a line `NAME TOKEN` for each of those who may
edit. Empty lines and such as begin with `#` are passed over.
"""

import hmac
import re
from collections.abc import Callable
from pathlib import Path

from geanmarbles.web.edit_bodies import Bad

# The name of the one token of a file that has no names.
NAMELESS = "token"
NAME = re.compile(r"[A-Za-z0-9._-]{1,64}")


class BadTokens(Exception):
    """Why a file has no tokens."""


def is_visible(text: bytes) -> bool:
    return bool(text) and text.isascii() and text.decode().isprintable()


def one_token(path: Path) -> dict[str, bytes]:
    """The token of a file that has one, without the white space around it."""
    text = path.read_bytes().strip()
    if not is_visible(text):
        raise BadTokens(f"{path} has to hold visible ASCII characters in one line")
    return {NAMELESS: text}


def named_tokens(path: Path) -> dict[str, bytes]:
    """The tokens of a file by their names."""
    found: dict[str, bytes] = {}
    for number, line in enumerate(path.read_bytes().splitlines(), 1):
        words = line.split()
        if not words or words[0].startswith(b"#"):
            continue
        name = words[0].decode("ascii", "replace")
        if len(words) != 2 or not NAME.fullmatch(name) or not is_visible(words[1]):
            raise BadTokens(f"{path}, line {number}: it isn't NAME TOKEN")
        if name in found or words[1] in found.values():
            raise BadTokens(f"{path}, line {number}: its name or its token came before")
        found[name] = words[1]
    if not found:
        raise BadTokens(f"{path} has no token")
    return found


class Tokens:
    """The tokens of a node."""

    def __init__(self, read: Callable[[Path], dict[str, bytes]], path: Path) -> None:
        """Raises BadTokens or OSError if the file has none."""
        self.read, self.path = read, path
        self.by_name = read(path)

    def read_again(self) -> str:
        """Reads the file anew, and returns what there is to say of it. If it has no tokens, the former ones stay."""
        try:
            self.by_name = self.read(self.path)
        except (BadTokens, OSError) as fault:
            return f"the tokens stay as they were: {fault}"
        return f"tokens were read anew: {', '.join(self.by_name)}"

    def name_of(self, given: str | None) -> str:
        """The name of the token that a request has. The time that this takes doesn't tell how much of one is right."""
        sent, name = (given or "").encode("utf-8", "replace"), ""
        for known, token in self.by_name.items():
            if hmac.compare_digest(sent, b"Bearer " + token):
                name = known
        if not name:
            raise Bad(401, "the token is missing or wrong", WWW_Authenticate="Bearer")
        return name
