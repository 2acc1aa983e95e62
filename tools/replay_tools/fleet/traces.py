"""Which traces the arguments mean: files, folders and patterns."""

from __future__ import annotations

import glob
import os
from typing import Any

from replay_tools import entry, outside, packed, traces
from replay_tools.joined import files

ENDINGS = (".trace", ".trace.gz")


def paths_of(words: list[str]) -> list[str]:
    """The absolute paths of the traces that the arguments name, each once, in the order of their bytes."""
    found: set[str] = set()
    for word in words:
        named = paths_named(word)
        if not named:
            raise entry.Fault(f"no trace found: {word} is no file, has no *.trace or *.trace.gz below it and "
                              "matches nothing")
        found.update(os.path.abspath(path) for path in named)
    return sorted(found, key=os.fsencode)


def paths_named(word: str) -> list[str]:
    if os.path.isdir(word):
        return paths_below(word)
    if os.path.exists(word):
        return [word]
    matched = glob.glob(word, recursive=True)
    return [path for path in matched if not os.path.isdir(path)]


def paths_below(folder: str) -> list[str]:
    """Every *.trace and *.trace.gz in a folder and in those below it."""
    return [os.path.join(where, name) for where, _, names in os.walk(folder) for name in names
            if name.endswith(ENDINGS)]


def known_ends(paths: list[str]) -> dict[str, int]:
    """By the path of a trace up to when it shows all that happened, where one that follows it shows it. Its own last
    tick may be some seconds before that."""
    by_name: dict[str, Any] = {}
    for path in paths:
        by_name.setdefault(plain_name(path), []).append(path)
    ends = {}
    for path in paths:
        follows = own_follows(path)
        if follows is None:
            continue
        named = by_name.get(plain_name(follows["trace"]), [])
        beside = [other for other in named if os.path.dirname(other) == os.path.dirname(path)]
        for other in beside or named:
            if other != path:
                ends[other] = follows["until"]
    return ends


def plain_name(path: str) -> str:
    return os.path.basename(path).removesuffix(".gz")


def own_follows(path: str) -> dict[str, Any] | None:
    """What the node line of a trace shows of the one before it, of its own node; None where it shows nothing, or can't
    be read."""
    try:
        with packed.regular(path) as file:
            node_line = outside.json_of(packed.first_line(file, traces.LONGEST_LINE))
    except (OSError, packed.Damaged):
        return None
    follows = traces.follows_of(node_line)
    if follows is None:
        return None
    return follows if files.parts_of(follows["trace"])[0] in (None, node_line.get("name")) else None


def shown(path: str) -> str:
    """A path as text that a table can hold, where its bytes are no UTF-8 too."""
    return os.fsencode(path).decode("utf-8", "replace")
