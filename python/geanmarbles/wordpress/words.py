"""The words that an archive has in its pages, in the languages that are known here, and how dates are written.

A language that isn't known has the English words.
"""

import json
import re
from datetime import datetime
from pathlib import Path

TEXTS = json.loads(Path(__file__).with_name("words.json").read_text(encoding="utf-8"))
# What each word is for is said by the English ones.
WORDS: dict[str, dict[str, str]] = TEXTS["words"]
MONTHS: dict[str, str] = TEXTS["months"]
DAYS: dict[str, str] = TEXTS["days"]
# How a date is written if the site's option `date_format` doesn't say it.
FORMATS: dict[str, str] = TEXTS["formats"]
ORDINALS = {1: "st", 2: "nd", 3: "rd", 21: "st", 22: "nd", 23: "rd", 31: "st"}


def known(language: str) -> str:
    """The language whose words are used, by its first part."""
    first = re.split("[-_]", language.lower())[0]
    return first if first in WORDS else "en"


def words_of(language: str) -> dict[str, str]:
    return WORDS[known(language)]


def month_and_year(date: datetime, language: str) -> str:
    return formatted(date, "F Y", language)


def date_format(language: str) -> str:
    """The format of dates of a language; of one that isn't known, the one that every reader understands."""
    first = re.split("[-_]", language.lower())[0]
    return FORMATS.get(first, "Y-m-d")


def formatted(date: datetime, form: str, language: str) -> str:
    """A date in a format of PHP's `date`, as the settings of a WordPress site have it."""
    month, day = (
        table[known(language)].split()[at] for table, at in ((MONTHS, date.month - 1), (DAYS, date.weekday()))
    )
    values = {
        "d": f"{date.day:02}",
        "j": str(date.day),
        "S": ORDINALS.get(date.day, "th"),
        "D": day[:3],
        "l": day,
        "m": f"{date.month:02}",
        "n": str(date.month),
        "M": month[:3],
        "F": month,
        "Y": f"{date.year:04}",
        "y": f"{date.year % 100:02}",
        "H": f"{date.hour:02}",
        "G": str(date.hour),
        "h": f"{(date.hour + 11) % 12 + 1:02}",
        "g": str((date.hour + 11) % 12 + 1),
        "i": f"{date.minute:02}",
        "s": f"{date.second:02}",
        "a": "am" if date.hour < 12 else "pm",
        "A": "AM" if date.hour < 12 else "PM",
    }
    return re.sub(r"\\(.)|(.)", lambda it: it[1] or values.get(it[2], it[2]), form, flags=re.S)
