"""Outputs of the program, cut into replies."""

from random import Random

from geanmarbles.checks.units.drawn import each, text_of
from geanmarbles.checks.units.test_etcd import raised
from geanmarbles.client.replies import REFUSALS, Wrong, read_replies, refusal_of, whole_replies


def reply_of(random: Random) -> bytes:
    """Some reply that there can be."""
    body = text_of(random, "ok 1\né<", 30).encode()
    number = random.choice(sorted(REFUSALS))
    return random.choice(
        [
            b"ok\n",
            b"ok %d\n" % random.randint(1, 2**31 - 1),
            b"refused %d %s\n" % (number, REFUSALS[number].encode()),
            b"page %d %d\n%s\n" % (random.choice([200, 404]), len(body), body),
        ]
    )


def test_an_output_is_its_replies_wherever_it_is_cut() -> None:
    def check(random: Random) -> None:
        replies = [reply_of(random) for _ in range(random.randint(0, 6))]
        output = b"".join(replies)
        assert whole_replies(output) == replies
        cut = random.randint(0, len(output))
        read, rest = read_replies(output[:cut])
        assert read == replies[: len(read)] and b"".join(read) + rest == output[:cut]
        assert len(read) == len(replies) or len(rest) < len(replies[len(read)])

    each(check)


def test_what_is_no_reply_is_wrong() -> None:
    for output in (
        b"OK\n",
        b"ok 0\n",
        b"ok 01\n",
        b"ok 2147483648\n",
        b"refused 1 BadImport\n",
        b"refused 16 Other\n",
        b"page 500 0\n\n",
        b"page 200 1\nab\n",
        b"page 200 1\nabok\n",
        b"page 200 01\na\n",
        b"\n",
    ):
        raised(Wrong, lambda: read_replies(output))
    raised(Wrong, lambda: whole_replies(b"ok\nok"))


def test_a_page_may_look_like_replies() -> None:
    assert read_replies(b"page 200 3\nok\n\nok 2\n") == ([b"page 200 3\nok\n\n", b"ok 2\n"], b"")
    assert (refusal_of(b"refused 12 Store\n"), refusal_of(b"ok 12\n"), refusal_of(b"page 404 0\n\n")) == (12, 0, 0)
