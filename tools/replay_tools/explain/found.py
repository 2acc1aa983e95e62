"""A field that is at fault, and how places and values are written."""

from __future__ import annotations

import difflib
import json
import re
from collections.abc import Iterable
from dataclasses import dataclass
from typing import Any

LONGEST_VALUE = 60


@dataclass
class Found:
    """What is wrong with a line."""

    path: tuple
    """the keys and indexes that lead to the value"""
    says: str
    """what is wrong, with the field's name"""
    advice: str | None = None
    """what to do; None where the table has nothing better"""


def at(path: tuple[Any, ...], says: str, advice: str | None = None) -> Found:
    """The fault of the value at a path, named by it."""
    return Found(path, f"{place(path)} {says}", advice)


def is_(path: tuple[Any, ...], value: Any, says: str, advice: str | None = None) -> Found:
    """The fault of a value that is there: what it is, and what is wrong with it."""
    return at(path, f"is {shown(value)}: {says}", advice)


def place(path: tuple[Any, ...]) -> str:
    """A path as an operator writes it, within its manifest where it leads into one."""
    if len(path) > 1 and path[0] == "pod":
        path = path[1:]
    said = ""
    for step in path:
        if isinstance(step, int):
            said += f"[{step}]"
        elif re.fullmatch(r"\w+", step):
            said += f".{step}" if said else step
        else:
            said += f"[{json.dumps(step)}]"
    return said


def shown(value: Any) -> str:
    """A value as JSON, cut where it is long."""
    text = json.dumps(value, ensure_ascii=False, separators=(",", ":"))
    return text if len(text) <= LONGEST_VALUE else text[: LONGEST_VALUE - 2] + ".."


def kind_words(value: Any) -> str:
    """What kind of value it is."""
    names = {dict: "an object", list: "an array", str: "a text", bool: "true or false", type(None): "null"}
    return names.get(type(value), "a number")


def nearest(name: str, names: Iterable[str]) -> str:
    """What to write in place of a name that is not among some."""
    near = difflib.get_close_matches(str(name), [str(known) for known in names], 3)
    return f"perhaps {' or '.join(near)} is meant" if near else ""
