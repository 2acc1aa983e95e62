"""The pods of a trace, as their manifests have them."""

from __future__ import annotations

from dataclasses import dataclass, field, replace
from typing import Any

from replay_tools import amounts
from replay_tools.fields import Bounds, dict_at, list_at, number_at, object_at, text_at, value_at
from replay_tools.limits import memory_in
from replay_tools.restarting import Restarting, restartings_in

PROBES = ("startup", "liveness", "readiness")
SIDES = ("requests", "limits")
RESOURCES = ("memory", "cpu", "ephemeral-storage")


@dataclass
class Probe:
    initial_delay: int
    period: int
    timeout: int
    success_threshold: int
    failure_threshold: int


@dataclass
class Container:
    name: str
    role: str
    """app, sidecar or init"""
    probes: dict[str, Probe]
    requests: dict[str, int]
    """thousandths by resource; a limit is the request that is not set"""
    memory_limit: int | None = None
    """thousandths of a byte"""
    bounds: Bounds = Bounds()
    """as its manifest sets them"""
    restarting: Restarting = Restarting()
    """what decides about its restarts"""
    resources: dict[str, dict[str, int | str]] = field(default_factory=dict)
    """the requests and limits that its manifest sets, as they are written"""
    amounts: dict[tuple[str, str], int] = field(default_factory=dict)
    """the same in thousandths, by the resource and `requests` or `limits`"""

    def resized(self, resources: dict[str, Any]) -> Container:
        """The container with other requests and limits. Raises Wrong."""
        return replace(self, **resource_fields(resources))


@dataclass
class Pod:
    number: int
    key: str
    policy: str
    priority: int
    grace: int
    """terminationGracePeriodSeconds"""
    containers: list[Container]
    first: int
    """the place of its first tick"""
    gone: int | None = None
    """the place of the first tick at which it is not present any more"""
    uid: str | None = None
    """as a recording has it; None if it has none"""
    is_spared: bool = False
    """it is no candidate for eviction"""
    memory_limit: int | None = None
    """of all its containers together, in thousandths of a byte"""
    is_guessed: bool = False
    """its manifest was made up by who wrote the trace, and has neither a probe nor resources: these are unknown"""
    gates: tuple[str, ...] = ()
    """the condition types of its readiness gates, which version 3 alone reads"""
    own: Bounds = Bounds()
    """of all its containers together, as version 3 alone ranks by them"""

    def is_present(self, place: int) -> bool:
        return self.first <= place and (self.gone is None or place < self.gone)

    def request(self, resource: str) -> int:
        """The request that ranks it, in thousandths: the pod's own, else the effective request of its containers, else
        the pod's own limit. A request of 0 is none."""
        own, limit = (self.own.memory_request, self.own.memory_limit) if resource == "memory" else (None, None)
        return own or self.effective_request(resource) or limit or 0

    def effective_request(self, resource: str) -> int:
        """In thousandths: what runs at one time, or the greatest init container."""
        together = sum(container.requests.get(resource, 0) for container in self.containers if container.role != "init")
        alone = (container.requests.get(resource, 0) for container in self.containers if container.role == "init")
        return max(together, *alone, 0)


def pod_of(number: int, manifest: dict[str, Any], first: int, reads_own: bool = False) -> Pod:
    """A pod of a pod line. In version 3 it has the policies and rules of its containers too."""
    metadata, spec = object_at(manifest, "metadata"), object_at(manifest, "spec")
    key = f"{text_at(metadata, 'namespace', 'default')}/{text_at(metadata, 'name')}"
    containers = [container_of(found, "sidecar" if value_at(found, "restartPolicy") == "Always" else "init")
                  for found in list_at(spec, "initContainers")]
    containers += [container_of(found, "app") for found in list_at(spec, "containers")]
    decides = restartings_in(spec, reads_own)
    for container in containers:
        container.restarting = decides[container.name]
    return Pod(number, key, text_at(spec, "restartPolicy", "Always"), number_at(spec, "priority", 0),
               number_at(spec, "terminationGracePeriodSeconds", 30), containers, first,
               memory_limit=memory_in(spec.get("resources")))


def has_bare_manifest(pod: Pod) -> bool:
    """Whether no container has a probe, a request or a limit. A manifest made of an owner's template has what the owner
    sets."""
    return not pod.memory_limit and not any(one.probes or one.requests or one.memory_limit for one in pod.containers)


def container_of(found: dict[str, Any], role: str) -> Container:
    probes = {kind: probe_of(dict_at(found, f"{kind}Probe")) for kind in PROBES
              if value_at(found, f"{kind}Probe") is not None}
    return Container(text_at(found, "name"), role, probes, **resource_fields(dict_at(found, "resources")))


def resource_fields(resources: dict[str, Any]) -> dict[str, Any]:
    """The fields of a container that its requests and limits decide. Raises Wrong."""
    written = {side: {resource: value for resource, value in dict_at(resources, side).items()
                      if resource in RESOURCES and value is not None} for side in SIDES}
    found = {(resource, side): amounts.quantity(value) for side, of_side in written.items()
             for resource, value in of_side.items()}
    # an amount of 0 sets none, and a limit is the request that is not set
    requests = {resource: found.get((resource, "requests")) or found.get((resource, "limits"))
                for resource in RESOURCES}
    limits = {resource: found.get((resource, "limits")) or None for resource in RESOURCES}
    return {"requests": {resource: amount for resource, amount in requests.items() if amount and resource != "cpu"},
            "memory_limit": found.get(("memory", "limits")), "resources": written, "amounts": found,
            "bounds": Bounds(requests["memory"] or None, limits["memory"], requests["cpu"] or None, limits["cpu"])}


def probe_of(found: dict[str, Any]) -> Probe:
    return Probe(number_at(found, "initialDelaySeconds", 0), number_at(found, "periodSeconds", 10),
                 number_at(found, "timeoutSeconds", 1), number_at(found, "successThreshold", 1),
                 number_at(found, "failureThreshold", 3))
