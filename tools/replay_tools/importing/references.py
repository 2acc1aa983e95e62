"""Pods as lines name them."""

from __future__ import annotations

import functools
import re
from collections.abc import Iterator
from typing import Any

from replay_tools import outside

from .facts import Reference

# texts of which it is kept which pods they name: how many, and how long they are
MOST_KEPT, LONGEST_KEPT = 1000, 400
# n_ns(uid), as printf messages name a pod; a name has no underscore
LONGEST_NAME = 253
NAMED = "-.abcdefghijklmnopqrstuvwxyz0123456789"
BEHIND_NAME = re.compile(r"_([a-z0-9][-a-z0-9]{0,62})\(([-0-9A-Za-z]{1,64})\)")
LONGEST_UID = 64
UID = re.compile(r"[-0-9A-Za-z]{1,64}")
KEYED = re.compile(r"[a-z0-9][-a-z0-9]{0,62}/[a-z0-9][-.a-z0-9]{0,252}")
ID = re.compile(r"[0-9a-f]{12,64}")
OF_CONTAINER = re.compile(r"spec\.(?:initContainers|containers)\{([a-z0-9](?:[-a-z0-9]{0,61}[a-z0-9])?)\}")


def key_of(namespace: Any, name: Any) -> str | None:
    """NAMESPACE/NAME, where both are what the formats take."""
    if not (isinstance(name, str) and isinstance(namespace, str)):
        return None
    return f"{namespace}/{name}" if outside.is_name(name) and outside.is_label(namespace) else None


def placed(text: str) -> Iterator[Reference]:
    """The pods of a text that names them as n_ns(uid)."""
    return (found for found in all_placed(text) if found is not None)


def placed_in(text: str) -> Reference | None:
    """The first pod of a text."""
    return placed_in_short(text) if len(text) <= LONGEST_KEPT else next(all_placed(text), None)


@functools.lru_cache(MOST_KEPT)
def placed_in_short(text: str) -> Reference | None:
    """The same of a text that has little else than the pod: most messages name one of a few so."""
    return next(all_placed(text), None)


def all_placed(text: str) -> Iterator[Reference | None]:
    """The pods of a text, None where the names of one are none. It looks for the end of a name, and from there back: a
    name may begin at nearly each letter of a text."""
    for found in BEHIND_NAME.finditer(text):
        before = text[max(found.start() - LONGEST_NAME, 0):found.start()]
        name = before[len(before.rstrip(NAMED)):].lstrip("-.")
        if name:
            yield named(name, found[1], found[2])


@functools.lru_cache(MOST_KEPT)
def named(name: str, namespace: str, uid: str) -> Reference | None:
    """A pod of its names and its uid; None where the names are none."""
    key = key_of(namespace, name)
    return None if key is None else Reference(key, uid)


def reference_of(value: Any, uid: Any = None) -> Reference | None:
    """A pod of a message with keys: ns/n, n_ns(uid), or an object with both names."""
    uid = uid if isinstance(uid, str) and len(uid) <= LONGEST_UID else None
    if isinstance(value, dict):
        return reference_with(key_of(value.get("namespace"), value.get("name")), uid)
    text = str(value or "")
    return reference_in_short(text, uid) if len(text) <= LONGEST_KEPT else None


@functools.lru_cache(MOST_KEPT)
def reference_in_short(text: str, uid: str | None) -> Reference | None:
    found = next(all_placed(text), None)
    if found is not None:
        return found
    namespace, slash, name = text.partition("/")
    return reference_with(key_of(namespace, name) if slash else None, uid)


def reference_with(key: str | None, uid: str | None) -> Reference | None:
    """A pod of its key and its uid, where that is one."""
    uid = uid if uid is not None and UID.fullmatch(uid) else None
    return None if key is None and uid is None else Reference(key, uid)


def references_of(value: Any) -> list[Reference]:
    """The pods of a list, as a text or as JSON has one."""
    if isinstance(value, list):
        return [found for each in value if (found := reference_of(each)) is not None]
    text = str(value or "")
    return list(placed(text)) or [Reference(key) for key in KEYED.findall(text) if key_of(*key.split("/")) is not None]


def container_at(path: Any) -> str | None:
    """The container of a path as an Event has it, spec.containers{app}."""
    found = OF_CONTAINER.fullmatch(path) if isinstance(path, str) else None
    return None if found is None else found[1]


def id_of(text: Any) -> str | None:
    """An id of the runtime's, as containerd://ID or as it is."""
    found = str(text or "").rpartition("//")[2]
    return found if ID.fullmatch(found) else None
