"""What the sums of the record of wrong bodies have of a source or a proof: all that a check reads, and no comment."""

import tempfile
from pathlib import Path

from geanmarbles.checks.units.test_wrong_bodies import ANSWERS, SOURCE, made
from geanmarbles.checks.wrong_bodies.edits import Edit, read_edits
from geanmarbles.checks.wrong_bodies.exports import outline_of, sum_of_exports
from geanmarbles.checks.wrong_bodies.record import Record
from geanmarbles.repository.reading import code_of, read_of
from geanmarbles.repository.sources import sum_of_sources

CLAUSES = """\
ghost said: { ℕ -- a number }
} = { a--b };
pub fn joined<'a>(a: &'a str) -> &'a str // before "a clause
    requires room { a // b -- "antt's {
        ≡ codes "c -- d // e" }
{
    let quote = '"'; // after "a text
    let other = b'\\''; /* one /* two */ still */ let slashes = "// no comment";
    a
}
"""
DERIVED = """\
/// Why it fails.
#[derive(Debug, Drop, Error)]
pub enum Fault {
    /// Nothing is there.
    Absent,
}
"""


def words(text: str, suffix: str = ".rt") -> list[str]:
    return [it.text for it in read_of(text, suffix)]


def same(one: str, other: str, suffix: str = ".rt") -> bool:
    return code_of(one, suffix) == code_of(other, suffix)


def test_comments_of_a_source_are_not_read() -> None:
    plain = "fn f() {\n    g(1);\n}\n"
    for comment in ("// a\n", "/// a\n", "//! a\n", "//// a\n", "/* a */", "/** a */", '/* a /* b */ " c */', "/**/"):
        assert same(plain, plain.replace("g(", f"{comment}g(")), comment
        assert same(plain, f"{comment}\n{plain}"), comment
    assert not same(plain, plain.replace("g(1)", "/* a */ */ g(1)"))
    assert not same(plain, plain.replace("1", "2")) and not same(plain, plain.replace("g(", "// g("))


def test_texts_have_no_comments() -> None:
    for text in ('"// a"', '"\\" // a"', 'r#"a" // "#', "'\"'", "b'\"'", "'\\''", "b'\\\\'", "'/'"):
        source = f"fn f() {{ g({text}, 1); }} // after\n"
        assert text in words(source) and "1" in words(source), text
        assert same(source, source.replace("after", 'it"s')) and not same(source, source.replace("1", "2")), text
    assert not same('f("a // b")', 'f("a // c")') and not same('f("a  b")', 'f("a b")')


def test_lifetimes_begin_no_text() -> None:
    source = "fn f<'a, 'b>(a: &'a str, b: &'b str) -> &'a str { a } // 'c\n"
    assert words(source)[3:8] == ["'a", ",", "'b", ">", "("]
    assert same(source, source.replace("'c", "c")) and not same(source, source.replace("'b str", "'a str"))


def test_clauses_are_read_as_the_prover_reads_them() -> None:
    """There `--` begins a comment, and `//` is a name."""
    read = words(CLAUSES)
    assert read[read.index("ℕ") : read.index("pub")] == ["ℕ", "}", "=", "{", "a--b", "}", ";"]
    clause = ["room", "{", "a", "//", "b", "≡", "codes", '"c -- d // e"', "}", "{"]
    assert read[read.index("room") : read.index("let")] == clause
    assert ["'\"'", "b'\\''", '"// no comment"'] == [it for it in read if it[0] in "'b\"" and it[-1] in "'\""][1:]
    for old, new in (("before", "above"), ("antt's {", "his"), ("a number }", "{ one"), ("still", "other")):
        assert same(CLAUSES, CLAUSES.replace(old, new)), old
    for old, new in (("// b", "// c"), ("-- d", "-- e"), ("a--b", "a--c"), ("no comment", "comment")):
        assert not same(CLAUSES, CLAUSES.replace(old, new)), old
    assert "slashes" not in outline_of(CLAUSES) and "-- d" in outline_of(CLAUSES)


def test_comments_of_a_proof_are_not_read() -> None:
    proof = '-- head\nuse A.{b}\n\nf : ℕ -- why "so\nf = g a--b "c -- d"\n    -- {within\n  («--e» h)\n'
    assert words(proof, ".antt")[6:] == ["f", ":", "ℕ", "f", "=", "g", "a--b", '"c -- d"', "(", "«--e»", "h", ")"]
    for old, new in (("head", "foot"), ('why "so', ""), ("{within", "}"), ("-- head\n", "")):
        assert same(proof, proof.replace(old, new), ".antt"), old
    for old, new in (("a--b", "a--c"), ("c -- d", "c -- e"), ("--e", "--d"), ("f =", "-- f ="), ("-- why", "why")):
        assert not same(proof, proof.replace(old, new), ".antt"), old
    # A comment of the other form may end in a line that begins with `--`.
    assert not same("a {- b\n-- c -} d\n", "a {- b\n-- c -} e\n", ".antt")
    assert not same("f = ⟦<A as B>⟧.c\n", "f = ⟦<A as D>⟧.c\n", ".antt")


def test_doc_comments_that_a_macro_may_read_are_read() -> None:
    for old, new in (("it fails", "it does"), ("is there", "was there")):
        assert not same(DERIVED, DERIVED.replace(old, new))
        plain = DERIVED.replace(", Error", ", Clone")
        assert same(plain, plain.replace(old, new))
    after = f"{DERIVED}\n/// A function.\nfn f() {{}}\n"
    assert same(after, after.replace("A function", "Another"))
    assert not same(after, after.replace("/// A function.", '#[doc = "A function."]'))
    macro = "m! {\n    /// a\n    f\n}\n/// b\nfn g() {}\n"
    assert not same(macro, macro.replace("/// a", "/// c")) and same(macro, macro.replace("/// b", "/// c"))


def test_layout_is_not_read_but_for_the_margin() -> None:
    assert same("f(a, b)", "f(\n    a,\n    b,\n)")
    assert not same("a && b", "a & &b") and not same("a b", "ab") and not same("1 0", "10")
    record = "r = record { a = b; c = d }\n"
    assert same(record, "r = record {\n  a = b;\n  c = d;\n  }\n", ".antt")
    # A line at the margin begins a declaration.
    assert not same("f = a\n  b = c\n", "f = a\nb = c\n", ".antt")


def test_a_changed_comment_keeps_the_sums_and_a_changed_token_does_not() -> None:
    edit = Edit("sample", "an_edit", "after", [("src/lib.rt", '+ u32::from(n) // "}"', "+ u32::from(n) + 1")])
    sums = []
    for source, answers in (
        (SOURCE, ANSWERS),
        (SOURCE.replace("The number", "A number").replace('// "}"', "// }"), f"-- Answers.\n{ANSWERS}"),
        (SOURCE.replace("≡ n", "≡ 0 + n"), ANSWERS),
        (SOURCE, ANSWERS.replace("start c", "--start c")),
    ):
        with tempfile.TemporaryDirectory() as folder:
            made(folder, src__lib=source, proofs__after__Answers=answers)
            sums.append((sum_of_sources(folder), sum_of_exports(folder)))
    assert sums[0] == sums[1] and len({own for own, _ in sums}) == 3
    assert sums[0][1] == sums[3][1] != sums[2][1]
    # An edit is found by its whole text, and is in the sum with it.
    other = Edit("sample", "an_edit", "after", [("src/lib.rt", '+ u32::from(n) // "}', "+ u32::from(n) + 1")])
    assert Record.sum_of("basis", edit) != Record.sum_of("basis", other)


def test_an_edit_may_name_a_comment() -> None:
    with tempfile.TemporaryDirectory() as folder:
        made(folder, src__lib=SOURCE)
        path = Path(folder, "it.edit")
        head = "function: after\nfile: src/lib.rt\n"
        path.write_text(f'{head}old: 1 + u32::from(n) // "}}"\nnew: 2 + u32::from(n)\n', encoding="utf-8")
        assert read_edits("sample", folder, path).in_bodies
