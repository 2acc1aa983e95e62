"""Fields of lines of a trace by their kinds. null counts as absent, and another kind raises Wrong."""

from __future__ import annotations

from dataclasses import dataclass
from typing import Any

from replay_tools import amounts, outside
from replay_tools.amounts import Wrong


@dataclass(frozen=True)
class Bounds:
    """What resources set for a container: thousandths of a byte and of a core, None where they set nothing."""

    memory_request: int | None = None
    memory_limit: int | None = None
    cpu_request: int | None = None
    cpu_limit: int | None = None


def object_of(text: bytes) -> dict[str, Any]:
    """The object that a text is as JSON."""
    found = outside.json_of(text)
    if not isinstance(found, dict):
        raise Wrong("object")
    return found


def value_at(found: dict[str, Any], name: str, otherwise: Any = None) -> Any:
    """A field's value, where null counts as absent."""
    value = found.get(name)
    return otherwise if value is None else value


def list_at(found: dict[str, Any], name: str) -> list[dict[str, Any]]:
    value = found.get(name)
    if value is None:
        return []
    if not isinstance(value, list):
        raise Wrong(name)
    for item in value:
        if not isinstance(item, dict):
            raise Wrong(name)
    return value


def dict_at(found: dict[str, Any], name: str) -> dict[str, Any]:
    value = value_at(found, name, {})
    if not isinstance(value, dict):
        raise Wrong(name)
    return value


def object_at(found: dict[str, Any], name: str) -> dict[str, Any]:
    """An object that has to be there."""
    value = found.get(name)
    if not isinstance(value, dict):
        raise Wrong(name)
    return value


def number_at(found: dict[str, Any], name: str, otherwise: int | None = None) -> int:
    value = value_at(found, name, otherwise)
    if not isinstance(value, int) or isinstance(value, bool):
        raise Wrong(name)
    return value


def text_at(found: dict[str, Any], name: str, otherwise: str | None = None) -> str:
    value = value_at(found, name, otherwise)
    if not isinstance(value, str):
        raise Wrong(name)
    return value


def bounds_of(resources: Any) -> Bounds:
    """The bounds of an object of resources, in which a limit counts as a request that is not there. The formats do not
    read each of these objects, so what has another shape sets nothing."""
    return Bounds(*(next(filter(None, (amount_in(resources, kind, name) for kind in kinds)), None)
                    for name in ("memory", "cpu") for kinds in (("requests", "limits"), ("limits",))))


def own_bounds_of(resources: Any) -> Bounds:
    """The bounds of the resources of a pod, in which a limit is no request."""
    return Bounds(*(amount_in(resources, kind, name) for name in ("memory", "cpu") for kind in ("requests", "limits")))


def amount_in(resources: Any, kind: str, name: str) -> int | None:
    of_kind = resources.get(kind) if isinstance(resources, dict) else None
    value = of_kind.get(name) if isinstance(of_kind, dict) else None
    try:
        return None if value is None else amounts.quantity(value)
    except Wrong:
        return None
