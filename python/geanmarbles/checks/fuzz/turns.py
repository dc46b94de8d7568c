"""What must hold of pages by turns: of those that `begin` opens and `turns` prints, among any other lines."""

from collections.abc import Iterable, Sequence

from geanmarbles.checks.fuzz.checks import CALLS, OK, Check, Program, at_once, is_by_turns, left_out, same
from geanmarbles.checks.fuzz.sites import line_of
from geanmarbles.checks.fuzz.values import Keys, command_of
from geanmarbles.client.replies import Wrong, refusal_of, shown

# How many pages are open at most, and how many turns a line gives at most.
PAGES, MOST_TURNS = 8, 1_000_000
BAD_COMMAND = b"refused 1 BadCommand\n"
TOO_MANY_CALLS = b"refused 9 TooManyCalls\n"
NO_SUCH_PAGE = b"refused 14 NoSuchPage\n"
TOO_MANY_PAGES = b"refused 15 TooManyPages\n"


def is_number(value: object, most: int) -> bool:
    return type(value) is int and 1 <= value <= most


class Opened:
    """The pages that are open by the replies so far: how each must end, and how many turns it was given."""

    def __init__(self, calls: int) -> None:
        self.calls = calls
        self.ends: dict[int, bytes] = {}
        self.given: dict[int, int] = {}

    def begun(self, got: bytes) -> bytes:
        """The reply that a `begin` must have after this reply to a `get` of its path."""
        if refusal_of(got) in (1, 8):
            return got
        if len(self.ends) == PAGES:
            return TOO_MANY_PAGES
        number = min(set(range(1, PAGES + 1)) - set(self.ends))
        self.ends[number], self.given[number] = got, 0
        return b"ok %d\n" % number

    def turned(self, command: Keys, reply: bytes) -> bytes:
        """The reply that a `turns` must have: `ok` if it has that, and its page may need more turns."""
        number, count = command.get("page", 0), command.get("count", 0)
        if not (is_number(number, PAGES) and is_number(count, MOST_TURNS)):
            return BAD_COMMAND
        if number not in self.ends:
            return NO_SUCH_PAGE
        self.given[number] += count
        return OK if reply == OK and self.given[number] <= self.calls else self.ends.pop(number)

    def follow(self, lines: Iterable[bytes], replies: Iterable[bytes]) -> None:
        """Follows the replies to lines that have a `get` right before each `begin`."""
        before = b""
        for line, reply in zip(lines, replies, strict=True):
            command, wanted = command_of(line), reply
            if command.get("cmd") == "begin":
                wanted = self.begun(before)
            elif command.get("cmd") == "turns":
                wanted = self.turned(command, reply)
            if reply != wanted:
                raise Wrong(f"the reply to {shown(line)} is {shown(reply)}, wanted {shown(wanted)}")
            before = reply


def with_gets(lines: Iterable[bytes]) -> list[bytes]:
    """The lines with a `get` of the same path right before each `begin`, and then turns enough for every page."""
    listed: list[bytes] = []
    for line in lines:
        command = command_of(line)
        if command.get("cmd") == "begin":
            listed.append(line_of(cmd="get", **{key: it for key, it in command.items() if key == "path"}))
        listed.append(line)
    return listed + [line_of(cmd="turns", page=number, count=MOST_TURNS) for number in range(1, PAGES + 1)]


def opened(program: Program, lines: Sequence[bytes], replies: Sequence[bytes]) -> None:
    """A page has the first free number, and ends as the `get` right before its `begin` does, whatever comes between."""
    lines = with_gets(lines)
    for calls, cache in ((CALLS, None), (CALLS, 1), (CALLS // 50, None)):
        Opened(calls).follow(lines, program.replies(lines, calls=calls, cache=cache))


def apart(program: Program, lines: Sequence[bytes], replies: Sequence[bytes]) -> None:
    """Pages by turns change nothing else: without them the other replies are the same."""
    left_out(program, lines, replies, lambda line, _: is_by_turns(line), "without pages by turns")


def counts(program: Program, lines: Sequence[bytes], replies: Sequence[bytes]) -> None:
    """The last page that is begun takes a turn more than the calls that it needs: with a call fewer it is refused."""
    begins = [command_of(line).get("cmd") == "begin" for line in lines]
    places = [at for at, reply in enumerate(replies) if begins[at] and reply.startswith(b"ok ")]
    if not places:
        return
    begin, turns = lines[places[-1]], [line_of(cmd="turns", page=1, count=1)] * (CALLS + 1)
    get = line_of(cmd="get", path=command_of(begin)["path"])
    before, _ = at_once(lines[: places[-1]], replies[: places[-1]])
    page, _, *got = program.replies([*before, get, begin, *turns])[len(before) :]
    made = next((at for at, reply in enumerate(got) if reply != OK), CALLS)
    same(turns, got, [OK] * made + [page] + [NO_SUCH_PAGE] * (CALLS - made), "after as many turns it must be")
    if refusal_of(page) == 9 and made != CALLS:
        raise Wrong(f"the page of {shown(get)} has {CALLS} calls and is refused for them after {made} turns")
    for calls, wanted in ((made, page), (made - 1, TOO_MANY_CALLS)):
        reply = program.replies([*before, get], calls=calls)[-1] if calls > 0 else wanted
        if reply != wanted:
            raise Wrong(f"the page of {shown(get)} takes {made + 1} turns, and with {calls} calls it is {shown(reply)}")


CHECKS: tuple[Check, ...] = (opened, apart, counts)
