"""What is wrong with the snippets of a site, by the rules of docs/SNIPPETS.md.

A template is read as the program reads it. Which of its sections are printed depends on what a shortcode is given, so a
place is looked at after each way to it.
"""

import json
import re
from collections.abc import Iterable, Iterator
from typing import NamedTuple

NAME = re.compile(r"[A-Za-z0-9_-]{1,64}\Z")
SHORTCODE = re.compile(r"\[([A-Za-z0-9_-]{1,64})\]\Z")
BEGUN = re.compile(r"\[([A-Za-z0-9_-]{1,64})(\]|\Z)")
CALLBACK = re.compile(r"([^:]{1,64}):([0-9]|[1-9][0-9])\Z")
FILTERS = ("the_title", "the_content", "do_shortcode_tag")
# An option's name has at most this many bytes.
NAME_BYTES = 64
# Elements whose text is no markup, what makes the end of a script unsure, and attributes whose values are programs,
# styles or pages of their own.
RAW = ("script", "style")
ESCAPE = "<!--"
PROGRAMS = re.compile(r"on|style\Z|srcdoc\Z")
# Attributes whose value is an address.
ADDRESSES = ("href", "src", "action", "formaction", "data", "poster", "background", "cite")
BLANKS = " \t\n\f\r"
KINDS = {"#": "opening", "^": "inverted", "/": "closing"}


class Part(NamedTuple):
    """A part of a template: its kind, its name, and the default of a value or the template's own text."""

    kind: str
    name: str = ""
    text: str = ""


class Place(NamedTuple):
    """Where in markup a text ends: a kind of place, and what is known there.

    The kinds are those of crates/snippets/specs/Places: between, opened, end opened, declared, ending, comment, name,
    inside, attribute, equals, bare, quoted, raw, nowhere. `word` is the name of the tag, or the element whose text is
    no markup; `attribute` the name of the attribute; `seen` the quote, the dashes after `<!` or in a comment, or so far
    the end of a script or a `<!--` in it; `begins` whether all that a quoted value has is what values printed, and
    `filled` whether there is one."""

    kind: str = "between"
    word: str = ""
    attribute: str = ""
    seen: str = ""
    begins: bool = False
    filled: bool = False


class Way(NamedTuple):
    """One way through a template so far: the place, and the name that is left out if one is."""

    place: Place
    left_out: str | None = None


def parts(template: str) -> Iterator[Part]:
    """The parts of a template; of kind `braces` are those that aren't a part's."""
    rest = template
    while "{{" in rest:
        own, after = rest.split("{{", 1)
        yield Part("own", text=own)
        inside, ends, more = after.partition("}}")
        part = written(inside) if ends else None
        if part:
            yield part
            rest = more
        else:
            yield Part("braces", inside if ends else "")
            rest = after
    yield Part("own", text=rest)


def written(inside: str) -> Part | None:
    """The part that is written so between its braces, or None."""
    kind = KINDS.get(inside[:1])
    name, _, default = (inside[1:], "", "") if kind else inside.partition("|")
    return Part(kind or "value", name, default) if NAME.match(name) else None


def after_tag(word: str) -> Place:
    """The place after the `>` of a tag."""
    return Place("raw", word) if word in RAW else Place()


def after_letter(place: Place, letter: str) -> Place:
    """The place after one more character."""
    kind, word = place.kind, place.word
    if kind == "between":
        return Place("opened") if letter == "<" else place
    if kind in ("opened", "end opened"):
        return after_opening(kind, letter)
    if kind in ("declared", "ending"):
        return after_declared(place, letter)
    if kind == "comment":
        seen = (place.seen + "-")[:2] if letter == "-" else ""
        return Place() if letter == ">" and place.seen == "--" else Place("comment", seen=seen)
    if kind in ("raw", "nowhere"):
        return after_raw(place, letter) if kind == "raw" else place
    if kind == "quoted":
        return Place("inside", word) if letter == place.seen else place._replace(begins=False)
    if letter == ">":
        return after_tag(word)
    if kind == "name":
        return Place("inside", word) if letter in BLANKS + "/" else Place("name", word + letter.lower())
    return after_in_tag(place, letter)


def after_opening(kind: str, letter: str) -> Place:
    """The place after a `<` or a `</` and one more character."""
    if letter.isascii() and letter.isalpha():
        return Place("name", ("" if kind == "opened" else "/") + letter.lower())
    if kind == "end opened":
        return Place() if letter == ">" else Place("ending")
    return {"/": Place("end opened"), "!": Place("declared"), "?": Place("ending"), "<": Place("opened")}.get(
        letter, Place()
    )


def after_declared(place: Place, letter: str) -> Place:
    """The place after one more character after a `<!`, in a doctype or in a bogus comment."""
    if letter == "-" and place.kind == "declared":
        return Place("comment", seen="--") if place.seen else Place("declared", seen="-")
    return Place() if letter == ">" else Place("ending")


def after_raw(place: Place, letter: str) -> Place:
    """The place after one more character of a script or a style."""
    end = "</" + place.word
    if place.seen == end and letter in BLANKS + "/>":
        return Place() if letter == ">" else Place("inside", "/" + place.word)
    seen = place.seen + letter.lower()
    is_script = place.word == "script"
    if is_script and seen == ESCAPE:
        return Place("nowhere")
    is_begun = end.startswith(seen) or is_script and ESCAPE.startswith(seen)
    return place._replace(seen=seen if is_begun else "<" if letter == "<" else "")


def after_in_tag(place: Place, letter: str) -> Place:
    """The place after one more character of a tag, after its name and outside quotes, that doesn't end it."""
    kind, word = place.kind, place.word
    if kind == "inside":
        return place if letter in BLANKS + "/" else Place("attribute", word, letter.lower())
    if kind == "attribute":
        if letter in "=/":
            return Place("equals", word, place.attribute.strip(BLANKS)) if letter == "=" else Place("inside", word)
        begun = place.attribute[-1] in BLANKS and letter not in BLANKS
        return Place("attribute", word, ("" if begun else place.attribute) + letter.lower())
    if kind == "equals":
        if letter in BLANKS:
            return place
        quoted = letter in "\"'"
        return Place("quoted", word, place.attribute, letter, True) if quoted else Place("bare", word, place.attribute)
    return Place("inside", word) if letter in BLANKS else place


def place_after(place: Place, text: str) -> Place:
    """The place after a text."""
    for letter in text:
        place = after_letter(place, letter)
    return place


def names_place(place: Place) -> str:
    """A place in words."""
    if place.kind == "raw":
        return f"in a {place.word}"
    if place.kind == "nowhere":
        return f"after a `{ESCAPE}` in a script"
    if place.kind in ("declared", "ending"):
        return "in a doctype or a bogus comment"
    if place.kind == "comment":
        return "in a comment"
    return f"in `{place.attribute}`" if place.kind == "quoted" else "in a tag, outside quotes"


def fault_of_value(part: Part, place: Place) -> str | None:
    """What is wrong with a value at a place, or None."""
    if place.kind == "between":
        return None
    if place.kind != "quoted":
        return f"the value of `{part.name}` is {names_place(place)}, where values are printed as nothing"
    if PROGRAMS.match(place.attribute):
        return f"the value of `{part.name}` is in `{place.attribute}`, where quotes don't make it safe"
    if place.attribute in ADDRESSES and place.begins and place.filled:
        return f"the value of `{part.name}` follows another in `{place.attribute}`, and both may spell `javascript:`"
    return None


def fault_of_content(place: Place, name: str) -> str | None:
    """What is wrong with a shortcode's content at a place, or None."""
    if place.kind == "between" or not name.startswith("["):
        return None
    return f"the content is {names_place(place)}, and it is printed as it is"


def ways_past(way: Way, part: Part) -> set[Way]:
    """The ways on after a part: one if something is given under its name, and one if nothing is."""
    place, left_out = way
    if left_out is not None:
        return {Way(place) if part.kind == "closing" and part.name == left_out else way}
    if part.kind in ("opening", "inverted"):
        return {way, Way(place, part.name)}
    if part.kind == "braces":
        return {Way(place_after(place, "{{"))}
    if part.kind == "value":
        return {Way(place._replace(filled=place.begins)), Way(place_after(place, part.text))}
    return {Way(place_after(place, part.text))}


def faults_of(name: str, template: str) -> Iterator[str]:
    """What is wrong with a template."""
    ways = {Way(Place())}
    opened: list[str] = []
    for part in parts(template):
        for place in sorted({way.place for way in ways if way.left_out is None}):
            if part.kind == "value":
                fault = fault_of_content(place, name) if part.name == "content" else fault_of_value(part, place)
                if fault:
                    yield fault
        yield from fault_of_braces(name, part, opened)
        ways = set().union(*(ways_past(way, part) for way in ways))
    for section in opened:
        yield f"`{{{{#{section}}}}}` or `{{{{^{section}}}}}` has no `{{{{/{section}}}}}`, so the rest may be left out"


def fault_of_braces(name: str, part: Part, opened: list[str]) -> Iterator[str]:
    """What is wrong with a part, wherever it is; notes the sections that are open."""
    if part.kind == "braces" and not part.name:
        yield "`{{` without `}}` is printed as it is"
    elif part.kind == "braces":
        yield f"`{{{{{part.name}}}}}` is printed as it is: a name is 1 to 64 letters, digits, `_` and `-`"
    elif part.kind in ("opening", "inverted"):
        opened.append(part.name)
    elif part.kind == "closing" and part.name in opened:
        opened.remove(part.name)
    elif part.kind == "closing":
        yield f"`{{{{/{part.name}}}}}` ends nothing"
    elif part.kind == "value" and part.name != part.name.lower():
        yield f"`{part.name}` is never given, since names of attributes are in lower case"
    if part.kind in ("value", "opening", "inverted") and not name.startswith("[") and part.name not in ("content", "2"):
        yield f"`{part.name}` is never given: a callback on a hook has `content` and `2`"


def faults_of_word(word: str, options: dict[str, str]) -> Iterator[str]:
    """What is wrong with a word of the list."""
    shortcode, callback, begun = SHORTCODE.match(word), CALLBACK.match(word), BEGUN.match(word)
    if begun and not shortcode:
        yield f"snippets: `{word}` registers the shortcode `{begun[1]}`, whose template is the option `[{begun[1]}]`"
    elif not (shortcode or callback):
        yield f"snippets: `{word}` registers nothing: a word is `[tag]` or `hook:priority`, priority 0 to 99"
    elif len(word.encode()) > NAME_BYTES:
        yield f"{word}: no option has a name of more than {NAME_BYTES} bytes, so it has no template"
    elif word not in options:
        yield f"{word}: is listed and has no template"
    elif callback and callback[1] in FILTERS and "{{content" not in options[word]:
        yield f"{word}: has no `{{{{content}}}}`, so what it filters is lost"


def faults(options: dict[str, str]) -> Iterator[str]:
    """What is wrong with the snippets of a site, by its options."""
    words = [word for word in options.get("snippets", "").split(" ") if word]
    for word in words:
        yield from faults_of_word(word, options)
    for name, template in sorted(options.items()):
        if SHORTCODE.match(name) or CALLBACK.match(name):
            if name not in words:
                yield f"{name}: is in no word of `snippets`"
            for fault in dict.fromkeys(faults_of(name, template)):
                yield f"{name}: {fault}"


def options_in(lines: Iterable[str]) -> dict[str, str]:
    """The options of a command file, the last of a name."""
    options: dict[object, object] = {}
    for line in lines:
        try:
            command = json.loads(line)
        except ValueError:
            continue
        if not isinstance(command, dict):
            continue
        if command.get("cmd") == "option":
            options[command.get("name")] = command.get("value")
        elif command.get("cmd") == "import" and isinstance(command.get("site"), dict):
            given = command["site"].get("options")
            options.update(given if isinstance(given, dict) else {})
    return {name: value for name, value in options.items() if isinstance(name, str) and isinstance(value, str)}
