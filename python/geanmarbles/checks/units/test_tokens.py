"""Tokens of those who may edit, in files that are read again."""

import tempfile
from pathlib import Path

from geanmarbles.checks.units.test_etcd import raised
from geanmarbles.cluster.tokens import BadTokens, Tokens, named_tokens, one_token
from geanmarbles.web.edit_bodies import Bad


def tokens_in(text: bytes) -> dict[str, bytes]:
    with tempfile.TemporaryDirectory() as folder:
        path = Path(folder, "tokens")
        path.write_bytes(text)
        return named_tokens(path)


def test_a_file_of_tokens_has_one_for_each_name() -> None:
    assert tokens_in(b"# who may edit\n\nann  a1\r\n bob b2 \n") == {"ann": b"a1", "bob": b"b2"}
    for text, says in (
        (b"", "has no token"),
        (b"# a b\n", "has no token"),
        (b"ann\n", "line 1: it isn't NAME TOKEN"),
        (b"ann a b\n", "line 1"),
        (b"ann a1\nann b2\n", "line 2: its name or its token came before"),
        (b"ann a1\nbob a1\n", "line 2"),
        ("añn a1\n".encode(), "line 1"),
        ("ann é\n".encode(), "line 1"),
        (b"ann \x01\n", "line 1"),
    ):
        assert says in str(raised(BadTokens, lambda: tokens_in(text))), text


def test_tokens_that_are_read_again_stay_if_the_file_is_bad() -> None:
    with tempfile.TemporaryDirectory() as folder:
        path = Path(folder, "tokens")
        path.write_bytes(b"ann a1\n")
        tokens = Tokens(named_tokens, path)
        assert tokens.name_of("Bearer a1") == "ann"
        path.write_bytes(b"ann\n")
        assert "stay as they were" in tokens.read_again() and tokens.name_of("Bearer a1") == "ann"
        path.unlink()
        assert "stay as they were" in tokens.read_again()
        path.write_bytes(b"bob b2\n")
        assert tokens.read_again().endswith(": bob") and tokens.name_of("Bearer b2") == "bob"
        for given in ("Bearer a1", "b2", "bearer b2", "Bearer b2 ", "", None, "Bearer é"):
            assert raised(Bad, lambda: tokens.name_of(given)).status == 401, given


def test_a_single_token_is_its_file() -> None:
    with tempfile.TemporaryDirectory() as folder:
        path = Path(folder, "token")
        path.write_bytes(b" a b\n")
        assert Tokens(one_token, path).name_of("Bearer a b") == "token"
        for text in (b"", b" \n", b"a\nb", "é".encode()):
            path.write_bytes(text)
            raised(BadTokens, lambda: one_token(path))
