"""The readiness gates of a pod, the statuses of their conditions, and the resources of the pod as a whole, as version 3
of the formats reads them."""

from __future__ import annotations

from dataclasses import dataclass
from typing import Any, Optional

from .runtime import moment_of
from .statuses import SIDES, TRUE, TYPE, is_above_limit, resources_of, with_quantities

MOST_GATES = 16
# the resources of a pod as a whole that the formats read
OF_PODS = ("cpu", "memory")


@dataclass(frozen=True)
class Status:
    """Whether a condition is True, and since when, if its object has that moment."""
    is_true: bool
    at: Optional[float] = None


# of a condition that the pod's object lacks
MISSING = Status(False)


def is_type(value: Any) -> bool:
    return isinstance(value, str) and TYPE.fullmatch(value) is not None


def dicts_in(value: Any) -> list[dict[str, Any]]:
    return [each for each in value if isinstance(each, dict)] if isinstance(value, list) else []


def gates_of(spec: dict[str, Any]) -> list[dict[str, str]] | None:
    """The member of a manifest: a gate for each different type that the formats take, the first 16; None without."""
    types: list[Any] = [each.get("conditionType") for each in dicts_in(spec.get("readinessGates"))]
    return [{"conditionType": name} for name in dict.fromkeys(filter(is_type, types))][:MOST_GATES] or None


def types_in(manifest: dict[str, Any]) -> list[str]:
    """The condition types of a manifest's gates."""
    return [each["conditionType"] for each in manifest["spec"].get("readinessGates") or []]


def statuses_in(item: dict[str, Any]) -> dict[str, Status]:
    """The statuses of the conditions that the object of a pod with gates has, by their types. Unknown is not True."""
    if not (item.get("spec") or {}).get("readinessGates"):
        return {}
    return {each["type"]: Status(each.get("status") == TRUE, moment_of(each.get("lastTransitionTime")))
            for each in dicts_in((item.get("status") or {}).get("conditions")) if is_type(each.get("type"))}


def turned(types: list[str], given: dict[str, bool], now: dict[str, Status]) -> dict[str, Status]:
    """The conditions that are otherwise than the trace has given them. One that neither the trace has given nor the
    object has is False by itself."""
    return {name: now.get(name, MISSING) for name in types
            if now.get(name, MISSING).is_true != given.get(name, False) or (name in now and name not in given)}


def pod_resources(spec: dict[str, Any]) -> dict[str, Any] | None:
    """The requests and limits of all containers together; None where the formats do not take them."""
    of_pod = spec.get("resources")
    if not isinstance(of_pod, dict) or not all(isinstance(of_pod.get(side), (dict, type(None))) for side in SIDES):
        return None
    found = with_quantities(resources_of(of_pod, OF_PODS) or {})
    return None if is_above_limit(found) else found
