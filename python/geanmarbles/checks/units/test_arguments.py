"""Arguments of commands, read or refused."""

import argparse
import contextlib
import io
import sys
from collections.abc import Callable

from geanmarbles.arguments import Parser, count_in
from geanmarbles.checks.units.test_etcd import raised
from geanmarbles.cluster.node import address, endpoints, read_arguments as node_arguments, site_name


def is_refused(read: Callable[[str], object], text: str) -> bool:
    with contextlib.suppress(argparse.ArgumentTypeError):
        return read(text) is None
    return True


def test_the_options_of_a_node_are_read_exactly() -> None:
    number = count_in(2, 100)
    assert number("2") == 2 and number("100") == 100 and number("07") == 7
    assert all(is_refused(number, it) for it in ("", "1", "101", "-3", "+3", "3.0", "٣", "1e1", " 3"))
    assert endpoints("http://a:1,https://[::1]:2/") == ["http://a:1", "https://[::1]:2/"]
    bad = (
        "",
        "a:1",
        "http://a",
        "http://a:1/x",
        "http://u@a:1",
        "http://a:1?x",
        "ftp://a:1",
        "http://a:1,",
        "http://a:x",
    )
    assert all(is_refused(endpoints, it) for it in bad)
    assert address("127.0.0.1:0") == ("127.0.0.1", 0) and address("[::1]:80") == ("::1", 80)
    assert all(is_refused(address, it) for it in ("", ":80", "a", "a:", "a:65536", "a:-1", "a:٣"))
    assert site_name("a.b-c_D") == "a.b-c_D"
    assert all(is_refused(site_name, it) for it in ("", "a/b", "a b", "é", "x" * 65))


def read_of_a_node(*words: str) -> argparse.Namespace | str:
    """The arguments of a node, or the last line that refuses them."""
    before, sys.argv = sys.argv, ["geanmarbles node", "--etcd", "http://a:1", *words]
    said = io.StringIO()
    try:
        with contextlib.redirect_stderr(said):
            return node_arguments()
    except SystemExit as end:
        assert end.code == 2
        return said.getvalue().splitlines()[-1]
    finally:
        sys.argv = before


def test_a_node_takes_no_options_that_would_lose_edits() -> None:
    read = read_of_a_node()
    assert isinstance(read, argparse.Namespace) and (read.remember, read.listen) == (86_400, ("127.0.0.1", 8080))
    for words, says in (
        (("--remember", "2"), "a number from 300 to"),
        (("--remember", "299"), "a number from 300 to"),
        (("--max-age", "86401"), "from 0 to 86400"),
        (("--etcd-user", "a"), "--etcd-user and --etcd-password-file go together"),
        (("--etcd-cert", "a"), "--etcd-cert and --etcd-key go together"),
        (("--token-file", "a", "--tokens", "b"), "don't go together"),
        (("--etcd", ""), "isn't http://HOST:PORT"),
    ):
        said = read_of_a_node(*words)
        assert isinstance(said, str) and says in said, (words, said)
    assert isinstance(read_of_a_node("--remember", "300"), argparse.Namespace)


def test_a_fault_of_arguments_names_the_command_as_it_was_typed() -> None:
    before, sys.argv[0] = sys.argv[0], "./some/where/it"
    said = io.StringIO()
    try:
        with contextlib.redirect_stderr(said):
            status = raised(SystemExit, lambda: Parser().parse_args(["--nope"])).code
    finally:
        sys.argv[0] = before
    assert status == 2 and said.getvalue() == "it: unrecognized arguments: --nope; --help says more\n"
