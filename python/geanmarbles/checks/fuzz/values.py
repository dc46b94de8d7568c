"""Lines as JSON values: what any reader of JSON makes of a line, and the same value written in other ways."""

import json
import math
import re
from random import Random
from typing import Any, NoReturn

# The object that a line is, in Python's own types.
Keys = dict[str, Any]
MAX_DEPTH = 127
MAX_LINE = 1_048_576
ESCAPES = {'"': '\\"', "\\": "\\\\", "\b": "\\b", "\f": "\\f", "\n": "\\n", "\r": "\\r", "\t": "\\t"}


class Unreadable(Exception):
    """A line is no JSON text that the program reads."""


class Number(str):
    """A number as it is written."""


class Pairs(list[tuple[str, Any]]):
    """The keys and values of an object as they are written, those of a repeated key too."""


def refuse(name: str) -> NoReturn:
    raise Unreadable(f"{name} is no number")


def check(value: Any, depth: int = 1) -> None:
    """Refuses what can't be read after all: half a surrogate pair, a number without end, too deep a nesting."""
    if isinstance(value, Number):
        if not math.isfinite(float(value)):
            raise Unreadable("a number without end")
    elif isinstance(value, str):
        value.encode()
    elif isinstance(value, list):
        if depth > MAX_DEPTH:
            raise Unreadable("it nests too deep")
        for it in value:
            if isinstance(value, Pairs):
                check(it[0])
            check(it[1] if isinstance(value, Pairs) else it, depth + 1)


def read(line: bytes) -> Any:
    """The value of a line."""
    hooks: dict[str, Any] = {"parse_int": Number, "parse_float": Number, "parse_constant": refuse}
    try:
        value = json.loads(line.decode(), object_pairs_hook=Pairs, **hooks)
        check(value)
    except (ValueError, RecursionError) as fault:
        raise Unreadable(fault) from fault
    return value


def plain(value: Any) -> Any:
    """A value in Python's own types: of a repeated key the last value counts."""
    if isinstance(value, Number):
        return int(value) if re.fullmatch(r"0|-?[1-9][0-9]*", value) else float(value)
    if isinstance(value, Pairs):
        return {key: plain(it) for key, it in value}
    return [plain(it) for it in value] if isinstance(value, list) else value


def command_of(line: bytes) -> Keys:
    """The object that a line is, in Python's own types, or an empty one if the line isn't one."""
    try:
        value = read(line)
    except Unreadable:
        return {}
    found: Keys = plain(value) if isinstance(value, Pairs) else {}
    return found


def character(it: str, random: Random) -> str:
    """A character of a text, as it is or as an escape."""
    if it in ESCAPES and random.randrange(3):
        return ESCAPES[it]
    if it < " " or it in '"\\' or random.randrange(6) == 0:
        units = it.encode("utf-16-be").hex()
        return "".join(f"\\u{units[at : at + 4]}" for at in range(0, len(units), 4))
    return it


def written(value: Any, random: Random) -> str:
    """A value as JSON, with random white space, escapes and order of keys."""
    space = random.choice(("", "", "", " ", "\t\r"))
    if isinstance(value, Number):
        return space + value
    if isinstance(value, str):
        return f'{space}"{"".join(character(it, random) for it in value)}"'
    if isinstance(value, Pairs):
        keys = list(dict(value).items())
        random.shuffle(keys)
        return f"{{{','.join(f'{written(key, random)}{space}:{written(it, random)}' for key, it in keys)}{space}}}"
    if isinstance(value, list):
        return f"{space}[{','.join(written(it, random) for it in value)}{space}]"
    return space + json.dumps(value)


def rewritten(line: bytes) -> bytes:
    """Another line of the same value. A line that isn't read, or that would grow too long, stays."""
    try:
        other = written(read(line), Random(line)).encode()
    except Unreadable:
        return line
    return other if len(other) <= MAX_LINE else line
