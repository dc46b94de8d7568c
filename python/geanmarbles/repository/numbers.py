"""How large the repository is: lines of source, definitions and proofs, functions, and wrong bodies."""

import re
from pathlib import Path

from geanmarbles.paths import CRATES

FUNCTION = re.compile(r"^ *(?:pub(?:\(\w+\))? )?(?:const )?fn \w+", re.M)


def text_in(pattern: str) -> str:
    """What some files of the crates have, one after another."""
    paths: list[Path] = sorted(CRATES.glob(pattern))
    return "".join(it.read_text(encoding="utf-8") for it in paths)


def numbers() -> dict[str, int]:
    """The numbers, by what they count."""
    return {
        "source": text_in("*/src/**/*.rt").count("\n"),
        "definitions": text_in("*/specs/**/*.antt").count("\n"),
        "proofs": text_in("*/proofs/**/*.antt").count("\n"),
        "functions": len(FUNCTION.findall(text_in("*/src/**/*.rt"))),
        "wrong bodies": len(list(CRATES.glob("*/wrong-bodies/*.edit"))),
    }
