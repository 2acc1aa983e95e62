"""The requests and limits that the containers of a pod have by its spec, also after a resize, as version 3 of the
formats reads them."""

from __future__ import annotations

from typing import Any

from .statuses import SIDES, amount_of, faulty_amounts, is_above_limit, with_quantities

Amounts = dict[tuple[str, str], "int | None"]


def resources_in(manifest: dict[str, Any]) -> dict[str, dict[str, Any]]:
    """The requests and limits of each container of a manifest, by name. None of a pod whose manifest can't be read."""
    spec = manifest.get("spec") or {}
    containers = [*(spec.get("initContainers") or []), *(spec.get("containers") or [])]
    return {each["name"]: each.get("resources") or {} for each in containers}


def kept_of(found: dict[str, Any]) -> tuple[dict[str, Any] | None, int]:
    """What version 3 takes of a container's requests and limits, and how many amounts are left out as no quantities.
    None if a request is above its limit: which of the two is wrong is not known."""
    kept = {side: amounts for side, amounts in with_quantities(found).items() if amounts}
    return None if is_above_limit(kept) else kept, faulty_amounts(found)


def amounts_in(resources: dict[str, Any]) -> Amounts:
    """The amounts of requests and limits in thousandths, by side and resource, however they are written."""
    return {(side, name): amount_of(value) for side in SIDES for name, value in (resources.get(side) or {}).items()}
