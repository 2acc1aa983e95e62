"""Pods, of `kubectl get pods -o json` or the kubelet's /pods. A manifest is written with the fields that the formats
read and no others, so neither its status nor a container's environment."""

from __future__ import annotations

import functools
import re
from collections.abc import Iterator
from dataclasses import dataclass, field
from typing import Any, Optional, TYPE_CHECKING

from replay_tools.restarting import Restarting, restartings_in

from .answers import read_parts
from .decisions import ENDED, Decision, end_of
from .formats import (at_place, first_fault, is_whole, label_fault, name_fault, quantity_fault, whole_fault,
                      without_nones)
from .gates import gates_of, pod_resources, statuses_in
from .reasons import reason_of, waits_in
from .restarts import can_fail, is_sidecar, own_restarts, with_lost_rules
from .runtime import End, code_fault, moment_of
from .sources import Failed, reads
from .statuses import Beside, ReadyTurn, beside_in, deletion_in, picked, ready_turn_in, resources_of

if TYPE_CHECKING:
    from .answers import Answer

PROBES = {"startup": "startupProbe", "liveness": "livenessProbe", "readiness": "readinessProbe"}
PROBE_FIELDS = ("initialDelaySeconds", "periodSeconds", "timeoutSeconds", "successThreshold", "failureThreshold")
RESOURCES = ("cpu", "memory", "ephemeral-storage")
MOST_CONTAINERS = 16
MOST_SECONDS = 2 ** 31 - 1
# a pod of the API server, among the pods of a kubelet, and the least priority of the system's
FROM_API = "api"
LEAST_CRITICAL = 2_000_000_000
UID = re.compile(r"[0-9A-Za-z-]{1,64}")


@dataclass(frozen=True)
class Pod:
    """A pod as a source lists it; `fault` is why the formats do not take its manifest, or None. `decision` is what the
    kubelet did to it, `is_deleted` that it was deleted, and `deleted_at` when, if that is known; `ends` has the
    instances that have ended by its status, by their ids, and is None if its status has no container; `waits` why its
    containers wait, by their names; `probed` has of each container that runs its restarts, whether it has started, and
    whether it is ready. `ended` is the decision by which the node has ended it, of whatever kind, and `is_spared`
    whether a kubelet evicts it for no lack of the node's. `ruled` names its containers of whose policies and rules of
    restarts the extended format takes less, and `deletion` has by whom it is deleted, and its grace. `is_static` is
    whether the kubelet has it of a file, `is_guessed` that its manifest is made up, `ready` its condition Ready with
    the moment at which that turned, and `conditions` the statuses of its conditions by their types, if it has readiness
    gates."""
    key: str
    uid: str
    manifest: dict
    fault: Optional[str]
    local_volumes: frozenset
    decision: Optional[Decision] = None
    is_deleted: bool = False
    deleted_at: Optional[float] = None
    ends: Optional[dict] = field(default=None, compare=False)
    waits: dict = field(default_factory=dict, compare=False)
    probed: dict = field(default_factory=dict, compare=False)
    ended: Optional[Decision] = None
    is_spared: bool = False
    ruled: tuple = ()
    beside: Beside = field(default_factory=Beside, compare=False)
    deletion: dict = field(default_factory=dict, compare=False)
    is_static: bool = False
    is_guessed: bool = False
    ready: Optional[ReadyTurn] = field(default=None, compare=False)
    conditions: dict = field(default_factory=dict, compare=False)

    def known_uid(self) -> str | None:
        """Its uid as a trace has it; None if its source has none, or one that no cluster gives."""
        return self.uid if UID.fullmatch(self.uid) and self.uid != str(None) else None

    def containers(self) -> list[str]:
        """The names of its containers, init containers first."""
        return list(self.names_in_order)

    @functools.cached_property
    def names_in_order(self) -> tuple[str, ...]:
        return tuple(container["name"] for container in all_containers(self.manifest))

    def probe(self, container_name: str, probe: str) -> dict[str, int]:
        """The fields of a container's probe; none where it has none."""
        containers = {container["name"]: container for container in all_containers(self.manifest)}
        return containers.get(container_name, {}).get(PROBES[probe], {})

    def has_probe(self, container_name: str, probe: str) -> bool:
        """Whether a container has a probe, be it one of defaults alone."""
        return any(container["name"] == container_name and container.get(PROBES[probe]) is not None
                   for container in all_containers(self.manifest))

    def period(self, container_name: str, probe: str) -> int:
        """Seconds from one result of a probe to the next."""
        return self.probe(container_name, probe).get("periodSeconds", 10)

    def initial_delay(self, container_name: str, probe: str) -> int:
        return self.probe(container_name, probe).get("initialDelaySeconds", 0)

    @functools.cached_property
    def restarting(self) -> dict[str, Restarting]:
        """What decides about the restarts of its containers, by their names."""
        return restartings_in(self.manifest["spec"])

    def is_restarted(self, container_name: str, exit_code: int) -> bool:
        """Whether a container is started again that has exited with a code: by the pod's policy, its own or its rules.
        """
        found = self.restarting.get(container_name)
        return found is not None and found.wants(exit_code)

    def successes_wanted(self, container_name: str, probe: str) -> int:
        return self.probe(container_name, probe).get("successThreshold", 1)

    def failures_wanted(self, container_name: str, probe: str) -> int:
        return self.probe(container_name, probe).get("failureThreshold", 3)


@reads("pods")
def pods_of(text: Answer, what: str) -> list[Pod]:
    """The pods of an answer, by their keys."""
    answer = read_parts(text, what, "items", pod_of)
    items = answer.get("items") if isinstance(answer, dict) else None
    if items is None and isinstance(answer, dict) and str(answer.get("kind", "")).endswith("List"):
        items = []
    if not isinstance(items, list):
        raise Failed(f"{what}: no list of pods in the answer")
    return sorted(items, key=lambda pod: pod.key)


def pod_of(item: Any) -> Pod:
    """A pod as its source lists it, with why the formats reject its manifest, if they do."""
    metadata = item.get("metadata") or {}
    status = item.get("status") or {}
    try:
        manifest, volumes, ruled = manifest_of(item), local_volumes(item), with_lost_rules(item)
        fault = manifest_fault(manifest)
    except (KeyError, TypeError, AttributeError):
        manifest, volumes, ruled, fault = {}, frozenset(), [], "no manifest"
    ended = end_of(status, is_restarted(item), seen_at(metadata))
    return Pod(f"{metadata.get('namespace') or 'default'}/{metadata.get('name')}", str(uid_of(metadata)), manifest,
               fault, volumes, None if ended is None or ended.kind == ENDED else ended,
               metadata.get("deletionTimestamp") is not None, deleted_at(metadata), ends_in(status), waits_in(item),
               probed_in(status), ended, is_spared(metadata, item.get("spec") or {}), tuple(ruled),
               beside_in(item, RESOURCES), deletion_in(item), is_static(metadata), item.get("guessed") == ["manifest"],
               ready_turn_in(status), statuses_in(item))


def is_spared(metadata: dict[str, Any], spec: dict[str, Any]) -> bool:
    """Whether a kubelet takes a pod for a critical one: a static pod, the API server's copy of one, or one of a
    priority of the system's. It evicts none of these for what the node lacks."""
    annotations, priority = metadata.get("annotations") or {}, spec.get("priority")
    source = annotations.get("kubernetes.io/config.source")
    return (source not in (None, FROM_API) or "kubernetes.io/config.mirror" in annotations
            or (is_whole(priority) and priority >= LEAST_CRITICAL))


def is_restarted(item: Any) -> bool:
    """Whether a pod does not fail by itself, whatever the codes of its containers: by their policies, while it is not
    being deleted."""
    return not can_fail(item.get("spec")) and (item.get("metadata") or {}).get("deletionTimestamp") is None


def seen_at(metadata: dict[str, Any]) -> float | None:
    """When the kubelet took a pod, which it does again once it is started."""
    return moment_of((metadata.get("annotations") or {}).get("kubernetes.io/config.seen"))


def is_static(metadata: dict[str, Any]) -> bool:
    """Whether the kubelet has a pod of a file or a URL, and not of the API server."""
    return (metadata.get("annotations") or {}).get("kubernetes.io/config.source") not in (None, FROM_API)


def deleted_at(metadata: dict[str, Any]) -> float | None:
    """When a pod was deleted: its object has the moment at which its grace is over, and the grace; None where it has no
    such moment."""
    end, grace = moment_of(metadata.get("deletionTimestamp")), metadata.get("deletionGracePeriodSeconds")
    if end is None or not is_whole(grace) or whole_fault(grace, 0, MOST_SECONDS):
        return end
    return end - grace


def ends_in(status: dict[str, Any]) -> dict[str, End] | None:
    """The ends that a status has of its containers' instances: the newest and the one before. A message of theirs may
    be the container's own words, and is not read."""
    listed = [*(status.get("initContainerStatuses") or []), *(status.get("containerStatuses") or [])]
    ended = [(container.get(state) or {}).get("terminated") for container in listed for state in ("lastState", "state")]
    found = {end["containerID"].rpartition("//")[2]: End(moment_of(end.get("startedAt")),
                                                         moment_of(end.get("finishedAt")), end["exitCode"],
                                                         reason_of({"reason": end.get("reason")}))
             for end in ended if end and end.get("containerID") and not code_fault(end.get("exitCode"))}
    return found if listed else None


def probed_in(status: dict[str, Any]) -> dict[str, tuple[int | None, bool, bool]]:
    """What the probes of its containers have come to by a status: {name: (restarts, started, ready)}."""
    listed = [*(status.get("initContainerStatuses") or []), *(status.get("containerStatuses") or [])]
    return {each.get("name"): (each.get("restartCount"), each.get("started") is True, each.get("ready") is True)
            for each in listed if (each.get("state") or {}).get("running") is not None}


def uid_of(metadata: dict[str, Any]) -> str | None:
    """The runtime knows a static pod by the hash of its file; the API server's copy has another uid."""
    return (metadata.get("annotations") or {}).get("kubernetes.io/config.mirror") or metadata.get("uid")


def local_volumes(item: Any) -> frozenset[str]:
    """The names of the volumes that the kubelet counts as the node's own storage."""
    return frozenset(volume.get("name") for volume in (item.get("spec") or {}).get("volumes") or []
                     if volume.get("gitRepo") or volume.get("configMap")
                     or (volume.get("emptyDir") is not None and not volume["emptyDir"].get("medium")))


def all_containers(manifest: Any) -> list[dict[str, Any]]:
    return (manifest["spec"].get("initContainers") or []) + manifest["spec"]["containers"]


def container_of(container: dict[str, Any], is_init: bool) -> dict[str, Any]:
    return without_nones({
        "name": container["name"], **own_restarts(container, is_init),
        "resources": resources_of(container.get("resources"), RESOURCES),
        **{field: picked(container.get(field), PROBE_FIELDS) for field in PROBES.values()}})


def manifest_of(item: Any) -> dict[str, dict[str, Any]]:
    spec, inits = item["spec"], item["spec"].get("initContainers")
    return {"metadata": {"name": item["metadata"]["name"], "namespace": item["metadata"].get("namespace") or "default"},
            "spec": without_nones({
                "restartPolicy": spec.get("restartPolicy"), "priority": spec.get("priority"),
                "terminationGracePeriodSeconds": spec.get("terminationGracePeriodSeconds"),
                "resources": pod_resources(spec), "readinessGates": gates_of(spec),
                "initContainers": None if inits is None else [container_of(each, True) for each in inits],
                "containers": [container_of(each, False) for each in spec["containers"]]})}


# --- what the formats do not take ---


def whole_field_fault(fields: dict[str, Any], name: str, least: int, most: int) -> str | None:
    return at_place(name, whole_fault(fields[name], least, most)) if name in fields else None


def probe_fault(container: dict[str, Any], probe: str) -> str | None:
    """What the formats reject of a container's probe, if it has one."""
    fields = container.get(PROBES[probe])
    if fields is None:
        return None
    most_successes = MOST_SECONDS if probe == "readiness" else 1
    return at_place(PROBES[probe], first_fault([
        whole_field_fault(fields, "initialDelaySeconds", 0, MOST_SECONDS),
        whole_field_fault(fields, "periodSeconds", 1, MOST_SECONDS),
        whole_field_fault(fields, "timeoutSeconds", 1, MOST_SECONDS),
        whole_field_fault(fields, "successThreshold", 1, most_successes),
        whole_field_fault(fields, "failureThreshold", 1, MOST_SECONDS)]))


def resource_faults(container: dict[str, Any]) -> Iterator[str | None]:
    for side, amounts in (container.get("resources") or {}).items():
        for resource, amount in amounts.items():
            yield at_place(f"resources.{side}.{resource}", quantity_fault(amount))


def init_probe_fault(container: dict[str, Any], is_init: bool) -> str | None:
    """An init container has no probes, but where its own policy makes it a sidecar."""
    has_probe = any(field in container for field in PROBES.values())
    return "a probe of an init container" if is_init and not is_sidecar(container, True) and has_probe else None


def container_fault(container: dict[str, Any], is_init: bool) -> str | None:
    return at_place(f"container {container['name']}", first_fault([
        label_fault(container["name"]), *resource_faults(container),
        init_probe_fault(container, is_init), *(probe_fault(container, probe) for probe in PROBES)]))


def manifest_fault(manifest: Any) -> str | None:
    """Why the formats do not take a manifest, or None."""
    spec, policy = manifest["spec"], manifest["spec"].get("restartPolicy")
    return first_fault([
        name_fault(manifest["metadata"]["name"]),
        label_fault(manifest["metadata"]["namespace"]),
        None if policy in (None, "Always", "OnFailure", "Never") else f"restartPolicy {policy}",
        whole_field_fault(spec, "priority", -2 ** 31, 2 ** 31 - 1),
        whole_field_fault(spec, "terminationGracePeriodSeconds", 0, 2 ** 40 - 1),
        None if spec["containers"] else "no container",
        "more than 16 containers" if len(all_containers(manifest)) > MOST_CONTAINERS else None,
        *(container_fault(container, True) for container in spec.get("initContainers") or []),
        *(container_fault(container, False) for container in spec["containers"])])
