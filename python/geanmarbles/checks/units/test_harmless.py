"""What an export says that anyone may have written: its addresses run nothing, and its texts stay texts."""

import re
from html import unescape
from random import Random

from geanmarbles.archive.feeds import as_html
from geanmarbles.archive.html import text_of
from geanmarbles.checks.units.drawn import each
from geanmarbles.wordpress.addresses import Places
from geanmarbles.wordpress.archive import Archive, Wishes
from geanmarbles.wordpress.harmless import as_read, harmless, is_harmless
from geanmarbles.wordpress.items import Item, WholeSite
from geanmarbles.wordpress.shown import Notes, Shown

LINK = re.compile(r"\b(?:href|src|poster)=(?:\"([^\"]*)\"|'([^']*)')")
# Ways to write the scheme `java script` that a browser reads as one word.
HIDDEN = {
    "a tab as a number": "java&#9;script",
    "a line end as a number": "java&#10;script",
    "a tab by name": "java&Tab;script",
    "a tab": "java\tscript",
    "a line end": "java\nscript",
    "a letter as a number": "&#106;avascript",
    "an entity in an entity": "&amp;#106;avascript",
    "a number without its end": "java&#x9script",
    "a control before it": "&#x1;javascript",
    "a space that isn't ASCII before it": "\u00a0javascript",
    "capitals": " JavaScript",
}
# What shows an address without being HTML: the place of an address in each.
PLACES = {
    "[button]": '[button url="{}"]x[/button]',
    "[su_button]": '[su_button url="{}"]x[/su_button]',
    "[et_pb_button]": '[et_pb_button button_url="{}" button_text="x"][/et_pb_button]',
    "[vc_btn]": '[vc_btn title="x" link="{}"]',
    "[vc_btn] with settings": '[vc_btn title="x" link="url:{}|title:x"]',
    "[et_pb_image]": '[et_pb_image src="{}//a.jpg"]',
    "[audio]": '[audio src="{}"]',
    "[video] and its poster": '[video src="{0}" poster="{0}"]',
    "social links": '<!-- wp:social-link {{"url":"{}","service":"x"}} /-->',
}


def site_with(content: str, *others: Item) -> WholeSite:
    site = WholeSite(address="http://old.example", language="en")
    for item in (post(1, "post", content), *others):
        site.items[item.number] = item
    return site


def post(number: int, kind: str, content: str = "") -> Item:
    texts = ("", "T", f"t{number}", "2024-01-02 03:04:05", "", 0, 0, "", "")
    return Item(number, kind, "publish", *texts, file="", is_sticky=False, content=content)


def shown(content: str, *others: Item) -> str:
    """A content as `from_wordpress` has it."""
    site = site_with(content, *others)
    return Shown(site, {1}, Places(site), Notes("form", "")).content(1, content)


def browsed(address: str) -> str:
    """What a browser makes of the value of an attribute, as https://url.spec.whatwg.org has it."""
    return re.sub("[\t\n\r]", "", unescape(address).strip("".join(map(chr, range(33)))))


def runs(html: str) -> list[str]:
    """The addresses in some HTML that run something."""
    found = (browsed(one or other) for one, other in LINK.findall(html))
    return [it for it in found if re.match(r"(?:javascript|vbscript|data):", it, re.I)]


def test_addresses_are_read_as_browsers_read_them() -> None:
    for how, scheme in HIDDEN.items():
        assert as_read(f"{scheme}:alert(1)") in ("javascript:alert(1)", "JavaScript:alert(1)"), how
        assert not is_harmless(f"{scheme}:alert(1)"), how
    for bad in ("data:text/html,x", "vbscript:x", "&#100;ata:x", "file:///x", "&" + "amp;" * 99 + "#106;avascript:x"):
        assert not is_harmless(bad), bad
    for good in ("/a:b", "?a=javascript:x", "#data:x", "a/b:c", "HTTPS://x", " mailto:a@b", "tel:1", "", "//x", "1:2"):
        assert is_harmless(good), good


def test_no_place_prints_an_address_that_runs() -> None:
    for place, text in PLACES.items():
        for how, scheme in HIDDEN.items():
            found = runs(shown(text.format(f"{scheme}:alert(1)")))
            assert found == [], f"{place}, {how}: {found}"
        assert 'href="https://x.example' in (found_text := shown(text.format("https://x.example/a"))) or (
            'src="https://x.example' in found_text
        ), f"{place}: {found_text}"


def test_addresses_that_are_percent_encoded_or_json_are_decoded_first() -> None:
    assert runs(shown('[vc_btn title="x" link="url:java%09script%3Aalert(1)|title:x"]')) == []
    assert runs(shown('[vc_btn title="x" link="url:%26%23106%3Bavascript%3Aalert(1)"]')) == []
    for letter in ("\\u006a", "\\u0026#106;", "j\\t", "j\\u0002"):
        text = f'<!-- wp:social-link {{"url":"{letter}avascript:alert(1)","service":"x"}} /-->'
        assert runs(shown(text)) == [], text
    # A control that stands for what is held aside is none of the content's.
    assert "href" in shown('[vc_btn title="x" link="url:%0199%01"]')


def test_menus_and_files_run_nothing() -> None:
    for how, scheme in HIDDEN.items():
        address = f"{scheme}:alert(1)"
        archive = Archive.__new__(Archive)
        site = site_with("")
        archive.site, archive.wishes, archive.carried = site, Wishes(), {1}
        archive.shown = Shown(site, {1}, Places(site), Notes("form", ""))
        entry = post(2, "nav_menu_item")
        entry.fields = {"_menu_item_type": ["custom"], "_menu_item_url": [address]}
        assert archive.menu_entry(entry) is None, how


def test_a_caption_in_an_attribute_is_text_and_a_few_elements() -> None:
    text = '[caption width="300" caption=\'{}\']<img src="/a.jpg" />[/caption]'
    for bad in ("<script>x</script>", "<img src=x onerror=y>", '<a href="java&#9;script:x" onclick=y>z</a>', "<svg/x"):
        made = shown(text.format(bad))
        caption = made[made.index("<figcaption") :]
        assert not re.search(r"<(?:script|img|svg)|<a[^>]* on|script:x\"", caption), caption
    kept = shown(text.format('by <em>A</em> &amp; <a href="/b">B</a>'))
    assert 'by <em>A</em> &amp; <a href="/b">B</a></figcaption>' in kept, kept
    quote = shown('[caption width="300" caption="\'><script>x</script>"]<img src="/a.jpg" />[/caption]')
    assert "<script" not in quote, quote


def test_texts_of_comments_have_few_elements() -> None:
    for how, scheme in HIDDEN.items():
        assert runs(harmless(f'<a href="{scheme}:x">y</a>', "ugc")) == [], how
    assert harmless('<a href="http://x" title="t">y', "ugc") == '<a href="http://x" title="t" rel="ugc">y</a>'
    assert harmless('<a href="http://x">y</a>') == '<a href="http://x">y</a>'


def test_a_description_in_a_feed_is_text_once_it_is_read_as_html() -> None:
    content = "Write &lt;script&gt;pw(1)&lt;/script&gt;; 1 &lt; 2 &amp;&amp; <em>so</em>"
    plain = text_of(content, 200)
    assert plain == "Write <script>pw(1)</script>; 1 < 2 && so"
    html = unescape(as_html(plain))
    assert "<" not in html and unescape(html) == plain


def test_what_is_drawn_runs_nothing() -> None:
    pieces = (
        "java",
        "script",
        "&#9;",
        "&Tab;",
        "\t",
        "\n",
        "&amp;",
        "#106;",
        "&#106;",
        "avascript",
        ":",
        "%09",
        " ",
        "x",
    )

    def check(random: Random) -> None:
        address = "".join(random.choice(pieces) for _ in range(random.randint(1, 6))) + "script:alert(1)"
        for place in ('[button url="{}"]x[/button]', '[vc_btn title="x" link="url:{}"]', '[audio src="{}"]'):
            found = runs(shown(place.format(address)))
            assert found == [], (address, found)

    each(check, 300)
