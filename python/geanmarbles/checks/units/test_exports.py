"""Exports of WordPress, read or refused by name."""

import tempfile
from pathlib import Path
from random import Random

from geanmarbles.checks.units.drawn import each
from geanmarbles.checks.units.test_etcd import raised
from geanmarbles.wordpress import export
from geanmarbles.wordpress.export import Export, Holder, Refused, read_export, short, shown

HEAD = (
    '<?xml version="1.0" encoding="UTF-8" ?>\n<rss version="2.0" xmlns:wp="http://wordpress.org/export/1.2/"'
    ' xmlns:content="http://purl.org/rss/1.0/modules/content/"'
    ' xmlns:excerpt="http://wordpress.org/export/1.2/excerpt/">\n<channel><title>T</title>'
    "<wp:wxr_version>1.2</wp:wxr_version>\n"
)
ITEM = (
    "<item><title>A &amp; b</title><content:encoded><![CDATA[<p>x</p>]]></content:encoded><wp:post_id>7</wp:post_id>"
    "<wp:post_type>post</wp:post_type><wp:status>publish</wp:status></item>\n"
)
END = "</channel></rss>\n"


def read(text: str | bytes) -> tuple[Export, list[tuple[Holder, int]]]:
    with tempfile.TemporaryDirectory() as folder:
        path = Path(folder, "a.xml")
        path.write_bytes(text.encode() if isinstance(text, str) else text)
        return read_export(path)


def refusal_of(text: str | bytes) -> str:
    """Why a file is refused, without the path that begins each reason."""
    said = str(raised(Refused, lambda: read(text)))
    assert "/a.xml:" in said
    return said.partition("/a.xml:")[2].strip()


def test_items_have_what_is_carried_over() -> None:
    found, controls = read(HEAD + ITEM + ITEM.replace("7", "8") + END)
    assert controls == [] and found.site.texts == {"title": "T", "wp:wxr_version": "1.2"}
    assert [it.texts["wp:post_id"] for it in found.items] == ["7", "8"]
    assert (found.items[0].texts["title"], found.items[0].texts["content:encoded"]) == ("A & b", "<p>x</p>")
    assert [it.line for it in found.items] == [4, 5] and not found.items[0].lost()


def test_what_else_an_item_has_is_counted() -> None:
    more = (
        '<category domain="post_tag">a</category><category domain="category">b</category>'
        '<category domain="x">c</category>'
        "<wp:comment/><wp:comment/><excerpt:encoded>e</excerpt:encoded><wp:is_sticky>0</wp:is_sticky><other/>"
        "<wp:postmeta><wp:meta_key>_thumbnail_id</wp:meta_key></wp:postmeta>"
        "<wp:postmeta><wp:meta_key>_edit_lock</wp:meta_key></wp:postmeta>"
        "<wp:postmeta><wp:meta_key>mine</wp:meta_key></wp:postmeta>stray"
    )
    found, _ = read(HEAD + ITEM.replace("</item>", more + "</item>") + END)
    assert found.items[0].lost() == {
        **{"tag": 1, "category": 1, "term": 1, "comment": 2, "excerpt": 1, "other element": 1},
        **{"custom field": 1, "text outside its elements": 1},
    }


def test_files_that_are_no_exports_are_refused_by_name() -> None:
    assert refusal_of("") == "the file is empty"
    assert "gunzip" in refusal_of(b"\x1f\x8b123") and "unzip" in refusal_of(b"PK\x03\x04")
    assert refusal_of("<html></html>").startswith("1:1: this is no WordPress export")
    assert refusal_of("<rss><channel></channel></rss>").startswith("this is no WordPress export of version 1.2")
    assert refusal_of("<rss>\n<item/></rss>").startswith("2:1: this is no WordPress export: the element 'item'")
    assert "document type" in refusal_of('<!DOCTYPE a [<!ENTITY b "c">]><rss></rss>')
    assert "no element begins" in refusal_of(" " * (export.PROLOG_BYTES + 1))
    assert "its encoding can't be read" in refusal_of('<?xml version="1.0" encoding="nope"?><rss/>')
    twice = HEAD.replace("<title>T</title>", "<title>T</title><title>U</title>") + END
    assert "has the element title twice" in refusal_of(twice)


def test_a_fault_in_the_xml_has_its_place_and_item() -> None:
    said = refusal_of(HEAD + ITEM + ITEM.replace("A &amp; b", "A & b") + END)
    assert said.startswith("5:17: the XML is at fault") and "in the item that begins in line 5" in said
    latin = (HEAD + ITEM + END).encode().replace(b"<p>x</p>", b"<p>\xe9</p>")
    assert "the byte E9 isn't of the file's encoding" in refusal_of(latin)
    with_id = ITEM.replace("<title>", "<wp:post_id>7</wp:post_id><title>").replace("&amp;", "<b>", 1)
    assert "item 7 ''" in refusal_of(HEAD + with_id + END)


def test_controls_become_spaces_and_are_counted_where_they_were() -> None:
    items = ITEM.replace("<p>x", "<p>\x02x\x03") + ITEM.replace("A &amp;", "\x04 &amp;")
    found, controls = read(HEAD.replace("<title>T", "<title>T\x01") + items + END)
    assert found.items[0].texts["content:encoded"] == "<p> x </p>" and found.site.texts["title"] == "T "
    assert controls == [(found.items[0], 2), (found.items[1], 1), (found.site, 1)]


def test_a_file_that_is_damaged_is_read_or_refused() -> None:
    whole = (HEAD + ITEM + ITEM + END).encode()

    def check(random: Random) -> None:
        at = random.randrange(len(whole))
        how = random.randrange(3)
        put = bytes([random.randrange(256)]) if how == 0 else b"" if how == 1 else random.choice([b"<", b"]]>", b"&"])
        damaged = whole[:at] + put if random.random() < 0.3 else whole[:at] + put + whole[at + 1 :]
        try:
            found, _ = read(damaged)
            assert len(found.items) <= 2
        except Refused as fault:
            assert str(fault)

    each(check, 300)


def test_names_and_texts_for_messages() -> None:
    assert short("http://wordpress.org/export/1.2/ post_id") == "wp:post_id" and short("title") == "title"
    assert short("urn:x y") == "{urn:x}y"
    assert shown("a\nb") == "'a\\nb'" and len(shown("x" * 100)) == 65
    holder = Holder(1, ())
    assert holder.called() == "item without an ID ''"
    holder.texts = {"wp:post_type": "page", "wp:post_id": "3", "title": "T"}
    assert holder.called() == "page 3 'T'"
