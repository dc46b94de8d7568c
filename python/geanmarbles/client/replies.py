"""What the scripts here know of the program's replies: their forms, and how an output is cut into them."""

import io
import re
from typing import IO, NamedTuple

REFUSALS = {
    1: "BadCommand",
    2: "BadImport",
    3: "NoSuchPost",
    4: "DuplicateId",
    5: "BadDate",
    6: "UnknownPlugin",
    7: "BadTemplate",
    8: "TooLarge",
    9: "TooManyCalls",
    10: "TooDeep",
    11: "OutOfMemory",
    12: "Store",
    13: "IdsUsedUp",
    14: "NoSuchPage",
    15: "TooManyPages",
}
HEAD = re.compile(rb"ok(?: ([1-9][0-9]{0,9}))?|refused ([1-9][0-9]?) ([A-Za-z]+)|page (?:200|404) (0|[1-9][0-9]*)")
MAX_ID = 2_147_483_647


class Wrong(Exception):
    """What a run did that it must not do."""


class Ended(Exception):
    """The program ended before it had replied."""


class NoReply(Exception):
    """What came isn't a reply, so what runs isn't the program."""


class Reply(NamedTuple):
    """The words of a reply's first line, and the page that follows it if it is one."""

    words: list[str]
    page: bytes

    def is_page(self) -> bool:
        return self.words[0] == "page"

    def is_refused(self) -> bool:
        return self.words[0] == "refused"

    def text(self) -> str:
        return " ".join(self.words)


def shown(text: bytes | str, most: int = 120) -> str:
    """Bytes for a message, cut if they are long."""
    return f"{text[:most]!r}{f' .. ({len(text)} bytes)' if len(text) > most else ''}"


def refusal_of(reply: bytes) -> int:
    """The number of a refusal, or 0 of any other reply."""
    return int(reply.split()[1]) if reply.startswith(b"refused ") else 0


def read_reply(stream: IO[bytes]) -> Reply:
    """Reads a reply: one line, and if it is `page STATUS LENGTH`, LENGTH bytes and a newline after it."""
    line = stream.readline()
    if not line.endswith(b"\n"):
        raise Ended
    head = HEAD.fullmatch(line[:-1])
    if head is None:
        raise NoReply(line[:60])
    number, refusal, name, size = head.groups()
    if number and int(number) > MAX_ID or refusal and REFUSALS.get(int(refusal)) != name.decode():
        raise NoReply(line[:60])
    words = line[:-1].decode().split(" ")
    if size is None:
        return Reply(words, b"")
    page = stream.read(int(size) + 1)
    if len(page) <= int(size):
        raise Ended
    if not page.endswith(b"\n"):
        raise NoReply(line[:60])
    return Reply(words, page[:-1])


def read_replies(output: bytes) -> tuple[list[bytes], bytes]:
    """The whole replies of an output, each with its newlines, and what follows them."""
    stream, replies, at = io.BytesIO(output), [], 0
    try:
        while at < len(output):
            read_reply(stream)
            replies.append(output[at : stream.tell()])
            at = stream.tell()
    except Ended:
        pass
    except NoReply:
        raise Wrong(f"this is no reply: {shown(output[at:])}") from None
    return replies, output[at:]


def whole_replies(output: bytes) -> list[bytes]:
    """The replies of an output that ends with a whole one."""
    replies, rest = read_replies(output)
    if rest:
        raise Wrong(f"this is no whole reply: {shown(rest)}")
    return replies
