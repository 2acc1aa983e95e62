"""What is at fault in an entry's member `resized`, which version 3 reads."""

from __future__ import annotations

from collections.abc import Iterator
from typing import Any

from replay_tools.pods import SIDES
from replay_tools.record.pods import RESOURCES
from replay_tools.resizes import MEMBER

from .found import Found, at, is_, nearest
from .manifest import above_faults, amount_faults

AS_SPEC = "take both from the container in the pod's spec, as kubectl get pod -o json prints it"
WANTED = "it is an object with requests and limits"


def faults_of(entry: dict[str, Any], path: tuple[Any, ...]) -> Iterator[Found]:
    """The values that no resize has: 46 Usage."""
    found, place = entry.get(MEMBER), (*path, MEMBER)
    if found is not None and not isinstance(found, dict):
        yield is_(place, found, "it is an object of containers' names, each with requests and limits",
                  'write it as {"app":{"requests":{"memory":"256Mi"}}}')
    for name, resources in found.items() if isinstance(found, dict) else ():
        if isinstance(resources, dict):
            yield from resource_faults(resources, (*place, name))
        elif resources is not None:
            yield is_((*place, name), resources, WANTED, "write {} if the container has none any more")


def resource_faults(resources: dict[str, Any], path: tuple[Any, ...]) -> Iterator[Found]:
    faults = [fault for side in SIDES for _, fault in amount_faults(resources.get(side), (*path, side), RESOURCES)]
    yield from faults
    if faults:
        return
    for resource in RESOURCES:
        for _, fault in above_faults(resources, path, resource):
            yield Found(fault.path, fault.says, AS_SPEC)


def strangers(entry: dict[str, Any], path: tuple[Any, ...], key: str, known: list[str]) -> Iterator[Found]:
    """The names that are no container's of the pod: 40 StrangerContainer."""
    found = entry.get(MEMBER)
    for name, resources in found.items() if isinstance(found, dict) else ():
        if resources is not None and name not in known:
            yield at((*path, MEMBER, name), f"is of no container of {key}: it has {', '.join(known)}",
                     nearest(name, known) or "leave it out; the formats have no ephemeral containers")
