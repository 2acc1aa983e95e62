"""The restart policies and rules of the containers of a manifest, as far as the extended format takes them. The
standard format takes the policy of a sidecar alone."""

from __future__ import annotations

from collections.abc import Iterator
from typing import Any

from replay_tools.restarting import (ALWAYS, NEVER, OPERATORS, POLICIES, POLICY, RESTART, RULES, Restarting,
                                     restarting_of)

from .formats import whole_fault, without_nones

MOST_RULES, MOST_VALUES = 20, 255
LEAST_CODE, MOST_CODE = -2 ** 31, 2 ** 31 - 1
INITS, APPS = ROLES = "initContainers", "containers"


def is_sidecar(container: dict[str, Any], is_init: bool) -> bool:
    return is_init and container.get(POLICY) == ALWAYS


def own_restarts(container: dict[str, Any], is_init: bool) -> dict[str, Any]:
    """The members of a container of a manifest: its own policy, and its rules, which neither a sidecar nor a container
    without a policy has."""
    policy = container.get(POLICY)
    if policy not in POLICIES:
        return {}
    found = [] if is_sidecar(container, is_init) else list(filter(None, map(rule_of, rules_in(container))))
    return without_nones({POLICY: policy, RULES: found[:MOST_RULES] or None})


def rules_in(container: dict[str, Any]) -> list[Any]:
    rules = container.get(RULES)
    return rules if isinstance(rules, list) else []


def rule_of(rule: Any) -> dict[str, Any] | None:
    """A rule with the members that the format reads; None of one that it rejects, as of another action."""
    codes = rule.get("exitCodes") if isinstance(rule, dict) else None
    if not isinstance(codes, dict) or rule.get("action") != RESTART or codes.get("operator") not in OPERATORS:
        return None
    values = codes.get("values")
    is_good = isinstance(values, list) and 0 < len(values) <= MOST_VALUES \
        and all(whole_fault(value, LEAST_CODE, MOST_CODE) is None for value in values)
    return {"action": RESTART, "exitCodes": {"operator": codes["operator"], "values": values}} if is_good else None


def with_lost_rules(item: dict[str, Any]) -> list[str]:
    """The containers of whose policies and rules the extended format takes less than there is."""
    return [each["name"] for each, is_init in containers_in(item["spec"])
            if has_lost(each, own_restarts(each, is_init))]


def has_lost(container: dict[str, Any], kept: dict[str, Any]) -> bool:
    return (container.get(POLICY) is not None and POLICY not in kept) \
        or len(rules_in(container)) > len(kept.get(RULES, []))


def containers_in(spec: dict[str, Any]) -> Iterator[tuple[dict[str, Any], bool]]:
    """The containers of a spec, each with whether it is an init container."""
    for member in ROLES:
        yield from ((each, member == INITS) for each in spec.get(member) or [])


def with_own(manifest: dict[str, Any]) -> list[str]:
    """The containers of a manifest whose own policy or rules the standard format does not take."""
    return [each["name"] for each, is_init in containers_in(manifest["spec"])
            if POLICY in each and not is_sidecar(each, is_init)]


def without_own(container: dict[str, Any], is_init: bool) -> dict[str, Any]:
    """A container as the standard format takes it."""
    if is_sidecar(container, is_init):
        return container
    return {name: value for name, value in container.items() if name not in (POLICY, RULES)}


def can_fail(spec: Any) -> bool:
    """Whether a pod may fail by itself, by its containers' policies: if one that all others wait for is not restarted
    after a failure, or none of those that run goes on for ever."""
    found: list[Restarting] = [restarting_of(each, spec.get(POLICY), is_init)
                               for each, is_init in containers_in(spec or {}) if isinstance(each, dict)]
    of_apps = {each.policy for each in found if not each.is_init} or {(spec or {}).get(POLICY) or ALWAYS}
    return ALWAYS not in of_apps or any(each.is_init and each.policy == NEVER for each in found)
