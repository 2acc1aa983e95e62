"""What comes from outside, as of a trace, a report or a node, read by its kind and its range: a value that is none of
its kind or out of its range is None. Texts are read as what a terminal, a picture and a page only show."""

from __future__ import annotations

import json
import re
from typing import Any

# docs/formats.md has the range of a moment, and a database holds no greater number
LAST_MOMENT = 2 ** 40 - 1
GREATEST = 2 ** 63 - 1
# of an attempt and, with one less than its negative, of an exit's code
MOST_OF_CODE = 2 ** 31 - 1
MOST_DIGITS = 19
# longer words are cut: a column of a table is as wide as its widest cell
LONGEST_TEXT = 4096
# docs/formats.md: of a node or a pod, and of a container or a namespace
NAME = re.compile(r"[a-z0-9]([-.a-z0-9]{0,251}[a-z0-9])?")
LABEL = re.compile(r"[a-z0-9]([-a-z0-9]{0,61}[a-z0-9])?")
# as Python keeps a byte of a file's name that is not UTF-8
FIRST_BYTE, LAST_BYTE = 0xDC80, 0xDCFF
SECONDS = re.compile(r"([0-9]{1,13})(?:[.][0-9]{1,20})?")


def whole(value: Any, least: int = 0, most: int = GREATEST) -> int | None:
    """A whole number in a range."""
    is_whole = isinstance(value, int) and not isinstance(value, bool)
    return value if is_whole and least <= value <= most else None


def moment(value: Any) -> int | None:
    """A moment, as seconds."""
    return whole(value, 0, LAST_MOMENT)


def number_of(digits: str, least: int = 0, most: int = GREATEST) -> int | None:
    """A whole number that is written as digits, with a minus before them where it may be less than 0."""
    plain = digits.removeprefix("-") if least < 0 else digits
    if not (plain.isascii() and plain.isdigit() and len(plain) <= MOST_DIGITS):
        return None
    return whole(int(digits), least, most)


def moment_of(text: str) -> int | None:
    """A moment that is written as seconds, with a fraction or without."""
    found = SECONDS.fullmatch(text)
    return None if found is None else moment(int(found[1]))


def json_of(text: bytes | str) -> Any:
    """A JSON value; None of a text that is none, that nests deeper or has longer numbers than can be read."""
    try:
        return json.loads(text)
    except (ValueError, RecursionError):
        return None


def text_of(value: Any) -> str | None:
    """A text as it can be shown, not longer than words are; None where there is none."""
    if not isinstance(value, str) or not value:
        return None
    cut = value if len(value) <= LONGEST_TEXT else f"{value[:LONGEST_TEXT]}.."
    return visible(cut)


def visible(text: str) -> str:
    """A text as one line that a terminal only shows, whatever names are in it: what can't be printed, as an escape byte
    or the end of a line, is written as Python writes it, and a byte of a name that is not UTF-8 as \\xff."""
    if text.isprintable():
        return text
    return "".join(each if each.isprintable() else escaped(each) for each in text)


def escaped(character: str) -> str:
    """A character that can't be printed, as it is written in place of it."""
    if FIRST_BYTE <= ord(character) <= LAST_BYTE:
        return f"\\x{ord(character) - FIRST_BYTE + 0x80:02x}"
    return character.encode("unicode_escape").decode("ascii")


def is_utf8(word: str) -> bool:
    """Whether a word that was given, as a file's name, is UTF-8; the program takes no other."""
    try:
        word.encode()
    except UnicodeEncodeError:
        return False
    return True


def is_name(text: str) -> bool:
    """Whether a text is a name of a node or a pod of the formats."""
    return NAME.fullmatch(text) is not None


def is_label(text: str) -> bool:
    """Whether a text is a name of a container or a namespace of the formats."""
    return LABEL.fullmatch(text) is not None


def is_key(text: str) -> bool:
    """Whether a text is NAMESPACE/NAME, as a pod has it in the formats."""
    namespace, slash, name = text.partition("/")
    return bool(slash) and is_label(namespace) and is_name(name)
