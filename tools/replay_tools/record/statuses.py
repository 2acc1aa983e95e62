"""What an object of a pod has next to what the formats read: its readiness gates, its condition Ready, and by whom it
is deleted. Also the amounts of requests and limits."""

from __future__ import annotations

import re
from dataclasses import dataclass, field
from typing import Any, Optional

from replay_tools import amounts

from .formats import quantity_fault, without_nones, whole_fault
from .runtime import moment_of

MOST_GRACE = 2 ** 40 - 1
READY, TRUE, FALSE = "Ready", "True", "False"
STATUSES = (TRUE, FALSE, "Unknown")
# the condition of a pod that is to end for the sake of others, and its reasons
DISRUPTED = "DisruptionTarget"
SIDES = ("requests", "limits")
WORD = re.compile(r"[A-Za-z][A-Za-z0-9]{0,63}")
# a condition's type, as the API takes it: a qualified name, whose prefix is a DNS subdomain
SUBDOMAIN = r"(?=.{1,253}/)[a-z0-9]([-a-z0-9]*[a-z0-9])?([.][a-z0-9]([-a-z0-9]*[a-z0-9])?)*"
TYPE = re.compile(rf"({SUBDOMAIN}/)?[A-Za-z0-9]([-A-Za-z0-9_.]{{0,61}}[A-Za-z0-9])?")


@dataclass(frozen=True)
class Beside:
    """Whether each readiness gate of a pod is true, by its condition's type."""
    gates: dict = field(default_factory=dict)
    left_out: int = 0
    """how many texts Kubernetes' grammar does not allow there, which are left out since they may be anything"""


@dataclass(frozen=True)
class ReadyTurn:
    """Since when the condition Ready of a pod's status has its value; `is_guessed` is that the moment is not known."""
    status: str
    at: float
    is_guessed: bool = False

    def told(self) -> dict[str, Any]:
        return without_nones({"status": self.status, "at": int(self.at),
                              "guessed": ["moment"] if self.is_guessed else None})


def ready_turn_in(status: dict[str, Any]) -> ReadyTurn | None:
    """The condition Ready of a status, where it has the moment at which that turned."""
    for each in status.get("conditions") or []:
        at = moment_of(each.get("lastTransitionTime"))
        if each.get("type") == READY and each.get("status") in STATUSES and at is not None:
            return ReadyTurn(each["status"], at)
    return None


def turns_between(before: ReadyTurn | None, now: ReadyTurn, unseen_at: float) -> list[ReadyTurn]:
    """The turns of a condition from what a list showed to what the next one shows. Where that has the same value since
    a later moment it was another one between, from a moment that is not known."""
    if before is None or before.status != now.status:
        return [now]
    other = FALSE if now.status == TRUE else TRUE
    return [ReadyTurn(other, max(before.at, min(unseen_at, now.at)), True), now]


def beside_in(item: Any, resources: tuple[str, ...]) -> Beside:
    """What an object reports so, of these resources; a gate of which no condition is there yet is not true."""
    status, gates = item.get("status") or {}, (item.get("spec") or {}).get("readinessGates") or []
    values = {each.get("type"): each.get("status") for each in status.get("conditions") or []}
    types = [each.get("conditionType") for each in gates]
    known = [name for name in types if isinstance(name, str) and TYPE.fullmatch(name)]
    of_pod = resources_of((item.get("spec") or {}).get("resources"), resources) or {}
    return Beside({name: values.get(name) == "True" for name in known},
                  len(types) - len(known) + faulty_amounts(of_pod))


def deletion_in(item: Any) -> dict[str, Any]:
    """By whom a pod is deleted, if a condition has it, and its grace in seconds."""
    grace = (item.get("metadata") or {}).get("deletionGracePeriodSeconds")
    conditions = (item.get("status") or {}).get("conditions") or []
    reasons = [each.get("reason") for each in conditions
               if each.get("type") == DISRUPTED and each.get("status") == "True"]
    by: Optional[str] = next((each for each in reasons if isinstance(each, str) and WORD.fullmatch(each)), None)
    return without_nones({"by": by, "grace": None if whole_fault(grace, 0, MOST_GRACE) else grace})


def picked(fields: dict[str, Any] | None, names: tuple[str, ...]) -> dict[str, float | str] | None:
    return None if fields is None else without_nones({name: fields.get(name) for name in names})


def resources_of(amounts_of: dict[str, Any] | None, resources: tuple[str, ...]) -> dict[str, Any] | None:
    """The requests and limits of these resources."""
    if amounts_of is None:
        return None
    return without_nones({side: picked(amounts_of.get(side), resources) for side in SIDES})


def with_quantities(found: dict[str, Any]) -> dict[str, Any]:
    """Requests and limits without those that are no quantities."""
    return {side: {name: amount for name, amount in amounts_of.items() if quantity_fault(amount) is None}
            for side, amounts_of in found.items()}


def faulty_amounts(found: dict[str, Any]) -> int:
    """How many requests and limits are no quantities."""
    return sum(quantity_fault(amount) is not None for amounts_of in found.values() for amount in amounts_of.values())


def is_above_limit(found: dict[str, Any]) -> bool:
    """Whether a request is above its limit, which version 3 rejects. A limit of 0 is none."""
    requests, limits = ({name: amount_of(value) or 0 for name, value in found.get(side, {}).items()} for side in SIDES)
    return any(0 < limits.get(name, 0) < amount for name, amount in requests.items())


def amount_of(value: Any) -> int | None:
    try:
        return None if value is None else amounts.quantity(value)
    except amounts.Wrong:
        return None
