"""What to write in place of a name that is not there."""

from __future__ import annotations

import difflib
from collections.abc import Sequence

MOST = 10


def words(name: str, names: list[str]) -> str:
    """The names that are most like a name, of those that there are, or these."""
    near = difflib.get_close_matches(name, names, 3)
    if near:
        return f"the nearest: {', '.join(near)}"
    listed = ", ".join(names[:MOST]) + (" .." if len(names) > MOST else "")
    return f"there are {listed}" if names else "there is none"


def of(given: str, known: Sequence[str]) -> str | None:
    """The known name that an unknown one is most like, if one is."""
    return next(iter(difflib.get_close_matches(given, known, 1)), None)


def option_words(given: str, options: list[str]) -> str:
    """The option that an unknown one is most like, in words; an empty text if none is, or if it is no option."""
    name = given.partition("=")[0]
    near = of(name, options) if name.startswith("-") else None
    return f"; the nearest is {near}" if near else ""
