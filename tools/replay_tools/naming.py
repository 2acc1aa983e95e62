"""Pods by the names that an operator gives them: NAMESPACE/NAME, either cut at its end, or without the namespace."""

from __future__ import annotations

from replay_tools import entry

MOST_LISTED = 10


def only_key(name: str, keys: list[str]) -> str | None:
    """The one key that a name fits; None where it fits none. Raises Fault where it fits several."""
    found = fitting(name, keys)
    if len(found) > 1:
        more = f" and {len(found) - MOST_LISTED} more" if len(found) > MOST_LISTED else ""
        raise entry.Fault(f"{name} fits {len(found)} pods: {', '.join(found[:MOST_LISTED])}{more}")
    return found[0] if found else None


def fitting(name: str, keys: list[str]) -> list[str]:
    """The keys that a name fits: it is one of them, else it is the name of some, else some begin with it."""
    whole = [key for key in keys if key == name] or [key for key in keys if key.partition("/")[2] == name]
    if whole or not name:
        return whole
    return [key for key in keys if (key if "/" in name else key.partition("/")[2]).startswith(name)]
