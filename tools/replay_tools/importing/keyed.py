"""Messages of kubelets from 1.21 on, which are a few words and keys, as text or as JSON: each form with the fact that
it reports. The forms are written from knowledge of the kubelet's sources."""

from __future__ import annotations

import base64
import binascii
import re
from collections.abc import Callable, Iterator
from typing import Any

from replay_tools import outside
from replay_tools.record.decisions import EVICTION

from . import configured, endings, facts, nodes
from .messages import Message
from .printed import MOUNT_EVENT, TYPES, UNRECLAIMED, amount, below, patched, waits_in
from .references import container_at, id_of, reference_of, references_of
from .statuses import code_of, of_printed, of_status

EVENT = re.compile(r"ID:\"?([-\w]+)\"?,? Type:\"?(\w+)\"?,? Data:\"?(\w+)\"?")
# {containerd ID}, and what JSON has of it
STATUS_ID = re.compile(r"\b[0-9a-f]{12,64}\b")
GRACE = 2 ** 31 - 1
PROBES = ("readiness", "liveness", "startup")
MADE = re.compile(r"(?:Created|Started) container:? ([a-z0-9][-a-z0-9]{0,62})")


def pod_of(message: Message) -> facts.Reference:
    keys = message.keys
    return reference_of(keys.get("pod"), keys.get("podUID") or keys.get("podUid")) or facts.Reference()


def container_of(message: Message) -> str | None:
    name = message.keys.get("containerName")
    return name if isinstance(name, str) and outside.is_label(name) else None


def whole_of(value: Any) -> int | None:
    return outside.number_of(value, -GRACE, GRACE) if isinstance(value, str) else outside.whole(value, -GRACE, GRACE)


def of_added(message: Message) -> Iterator[facts.Fact]:
    for pod in references_of(message.keys.get("pods")):
        yield facts.Added(message.at, pod, str(message.keys.get("source") or ""))


def of_updated(message: Message) -> Iterator[facts.Fact]:
    yield from (facts.Updated(message.at, pod) for pod in references_of(message.keys.get("pods")))


def of_deleted(message: Message) -> Iterator[facts.Fact]:
    source = str(message.keys.get("source") or "")
    yield from (facts.Deleted(message.at, pod, source) for pod in references_of(message.keys.get("pods")))


def of_removed(message: Message) -> Iterator[facts.Fact]:
    source = str(message.keys.get("source") or "")
    yield from (facts.Removed(message.at, pod, source) for pod in references_of(message.keys.get("pods")))


def of_event(message: Message) -> Iterator[facts.Fact]:
    """A container that has started or died, by the kubelet's look."""
    event = message.keys.get("event")
    event = outside.json_of(event) if isinstance(event, str) and event.startswith("{\"") else event
    if isinstance(event, dict):
        uid, what, identity = (str(event.get(name) or "") for name in ("ID", "Type", "Data"))
    else:
        found = EVENT.search(str(event or ""))
        uid, what, identity = found.groups() if found is not None else ("", "", "")
    if what in TYPES and id_of(identity) is not None:
        named = reference_of(message.keys.get("pod"), uid) or facts.Reference(None, uid)
        yield facts.Turned(message.at, named, identity, TYPES[what])


def of_finished(message: Message) -> Iterator[facts.Fact]:
    identity, code = id_of(message.keys.get("containerID")), code_of(whole_of(message.keys.get("exitCode")))
    pod = reference_of(None, message.keys.get("podID")) or facts.Reference()
    if identity is not None and code is not None:
        yield facts.Known(message.at, identity, pod, code=code)


def of_probe(message: Message) -> Iterator[facts.Fact]:
    probe, container = str(message.keys.get("probeType") or "").lower(), container_of(message)
    result = "success" if message.text.startswith("Probe succeeded") else message.keys.get("probeResult")
    if probe in PROBES and container is not None and result in ("success", "failure", "warning"):
        yield facts.Probed(message.at, pod_of(message), container, probe,
                           "failure" if result == "failure" else "success", str(message.keys.get("output") or ""))


def of_turnover(message: Message) -> Iterator[facts.Fact]:
    probe, status = message.keys.get("probe"), message.keys.get("status")
    if probe in PROBES:
        yield facts.Turnover(message.at, pod_of(message), probe, str(status or "unready"))


def of_killing(message: Message) -> Iterator[facts.Fact]:
    identity = id_of(message.keys.get("containerID"))
    if identity is not None:
        pod, container = pod_of(message), container_of(message)
        yield facts.Known(message.at, identity, pod, container)
        yield facts.Killing(message.at, identity, pod, container, whole_of(message.keys.get("gracePeriod")))


def of_stopped(message: Message) -> Iterator[facts.Fact]:
    """A container that was to end has ended, of a pod too that is gone by then."""
    identity = id_of(message.keys.get("containerID"))
    if identity is not None:
        pod = pod_of(message)
        yield facts.Known(message.at, identity, pod, container_of(message))
        yield facts.Turned(message.at, pod, identity, facts.DIED)


def of_reason(message: Message) -> Iterator[facts.Fact]:
    found = STATUS_ID.search(str(message.keys.get("containerStatusID") or ""))
    if found is not None:
        identity, pod, container = found[0], pod_of(message), container_of(message)
        yield facts.Known(message.at, identity, pod, container)
        yield facts.Killing(message.at, identity, pod, container, why=str(message.keys.get("containerMessage") or ""))


def of_error(message: Message) -> Iterator[facts.Fact]:
    yield from waits_in(message.at, pod_of(message), str(message.keys.get("err") or ""))


def of_patch(message: Message) -> Iterator[facts.Fact]:
    pod, patch = pod_of(message), message.keys.get("patch")
    if pod.key or pod.uid:
        status = patched(bytes_of(message.keys.get("patchBytes")) or patch)
        yield from of_status(message.at, pod, status)
        yield from endings.of_conditions(message.at, pod, status)


def bytes_of(value: Any) -> str | None:
    """The text of a patch that is given as bytes: as Go prints these, or as JSON has them."""
    text = value if isinstance(value, str) else ""
    try:
        found = bytes(map(int, text[1:-1].split())) if text.startswith("[") else base64.b64decode(text, validate=True)
    except (binascii.Error, ValueError):
        return text or None
    return found.decode("utf-8", "replace") or None


def of_happened(message: Message) -> Iterator[facts.Fact]:
    """An Event; its message is the kubelet's."""
    keys = message.keys
    pod = reference_of(keys.get("object"))
    if keys.get("kind") not in (None, "Pod") or pod is None or pod.key is None:
        return
    reason, said = str(keys.get("reason") or ""), str(keys.get("message") or keys.get("note") or "")
    yield facts.Happened(message.at, pod, reason, said, container=container_at(keys.get("fieldPath")))
    found = MADE.match(said)
    if found is not None and reason == "Started":
        yield facts.Created(message.at, pod, found[1])


def of_observed(message: Message) -> Iterator[facts.Fact]:
    keys = message.keys
    available, capacity = (amount(str(keys.get(name))) for name in ("available", "capacity"))
    signal = keys.get("signal")
    yield facts.Observed(message.at, signal if isinstance(signal, str) else None, available, capacity)


def of_list(message: Message) -> Iterator[facts.Fact]:
    """What a round reports, by the name of a list."""
    if "observations" in str(message.keys.get("log")):
        yield from of_observed(message)


def of_below(message: Message) -> Iterator[facts.Fact]:
    keys = message.keys
    signal, limit, observed = str(keys.get("signal")), str(keys.get("quantity")), str(keys.get("resource"))
    yield from below(message.at, signal, limit, observed, UNRECLAIMED in str(keys.get("log")))


def of_pressure(message: Message) -> Iterator[facts.Fact]:
    conditions = configured.conditions_of(message.keys.get("nodeCondition") or message.keys.get("nodeConditions"))
    yield facts.Pressure(message.at, conditions, message.text.endswith("observed"))


def of_soft(message: Message) -> Iterator[facts.Fact]:
    yield from configured.soft_of(message.at, str(message.keys.get("threshold")))


def of_configuration(message: Message) -> Iterator[facts.Fact]:
    yield from configured.hard_of(message.at, message.keys.get("nodeConfig"))


def of_round(message: Message) -> Iterator[facts.Fact]:
    yield facts.Observed(message.at)


def of_reclaim(message: Message) -> Iterator[facts.Fact]:
    resource = message.keys.get("resourceName")
    yield facts.Reclaims(message.at, resource if isinstance(resource, str) and outside.is_label(resource) else "")


def of_ranked(message: Message) -> Iterator[facts.Fact]:
    yield facts.Ranked(message.at, tuple(references_of(message.keys.get("pods"))))


def of_evicted(message: Message) -> Iterator[facts.Fact]:
    """One pod, or the pods of a round."""
    pods = references_of(message.keys["pods"]) if "pods" in message.keys else [pod_of(message)]
    yield from (facts.Evicted(message.at, pod) for pod in pods)


def of_cleaned(message: Message) -> Iterator[facts.Fact]:
    yield from (facts.Evicted(message.at, pod, True) for pod in references_of(message.keys.get("pods")))


def of_refusal(message: Message) -> Iterator[facts.Fact]:
    conditions = message.keys.get("nodeCondition") or message.keys.get("nodeConditions")
    yield facts.Refused(message.at, pod_of(message), " ".join(configured.CONDITIONS.findall(str(conditions))))


def of_evicting(message: Message) -> Iterator[facts.Fact]:
    """An eviction begins, as its Event reports too."""
    yield facts.Happened(message.at, pod_of(message), EVICTION, str(message.keys.get("message") or ""))


def of_mount(message: Message) -> Iterator[facts.Fact]:
    """A container is made, with the pod's file of hosts."""
    container = container_of(message)
    if container is not None:
        yield facts.Created(message.at, pod_of(message), container)


def of_sandbox(message: Message) -> Iterator[facts.Fact]:
    identity = id_of(message.keys.get("podSandboxID"))
    if identity is not None:
        yield facts.Known(message.at, identity, pod_of(message), is_sandbox=True)


def of_unchanged(message: Message) -> Iterator[facts.Fact]:
    """Which pod an instance is of."""
    identity = id_of(message.keys.get("containerID"))
    if identity is not None:
        yield facts.Known(message.at, identity, pod_of(message))


def of_left(message: Message) -> Iterator[facts.Fact]:
    pod = pod_of(message)
    for value in message.keys.values():
        if isinstance(value, str):
            yield from of_printed(message.at, pod, value)


def of_node(message: Message) -> Iterator[facts.Fact]:
    name = message.keys.get("node")
    if isinstance(name, str) and outside.is_name(name):
        yield facts.NodeName(message.at, name)


def of_started(message: Message) -> Iterator[facts.Fact]:
    yield facts.Begun(message.at)


def of_volumes(message: Message) -> Iterator[facts.Fact]:
    """A pod's volumes can't be mounted in time."""
    said = str(message.keys.get("err") or "")
    yield facts.Happened(message.at, pod_of(message), MOUNT_EVENT, f"Unable to attach or mount volumes: {said}",
                         is_line=True)


def of_status_line(message: Message) -> Iterator[facts.Fact]:
    """A status that was sent or is as before, as an object or as Go prints it."""
    pod, status = pod_of(message), message.keys.get("status") or message.keys.get("apiStatus")
    status = outside.json_of(status) if isinstance(status, str) and status.startswith('{"') else status
    if isinstance(status, dict):
        yield from of_status(message.at, pod, status.get("status", status))
    elif isinstance(status, str):
        yield from of_printed(message.at, pod, status)


# by the words of a message, or how it begins
FORMS: dict[str, Callable[[Message], Iterator[facts.Fact]]] = {
    "SyncLoop ADD": of_added, "SyncLoop UPDATE": of_updated, "SyncLoop DELETE": of_deleted,
    "SyncLoop REMOVE": of_removed,
    "SyncLoop (PLEG): event for pod": of_event,
    "SyncLoop (PLEG): pod does not exist, ignore irrelevant event": of_event,
    "SyncLoop (probe)": of_turnover, "Generic (PLEG): container finished": of_finished,
    "Probe failed": of_probe, "Probe succeeded": of_probe, "Probe succeeded with a warning": of_probe,
    "Killing container with a grace period": of_killing, "Message for Container of pod": of_reason,
    "Container exited normally": of_stopped,
    "Error syncing pod, skipping": of_error, "Patch status for pod": of_patch, "Event occurred": of_happened,
    "Eviction manager: observations": of_observed, "Eviction manager: synchronize housekeeping": of_round,
    "Eviction manager:": of_list, "Eviction manager: threshold observed resource": of_below,
    "Eviction manager: node conditions - observed": of_pressure,
    "Eviction manager: node conditions - transition period not met": of_pressure,
    "Eviction manager: eviction criteria not yet met": of_soft,
    "Creating Container Manager object based on Node Config": of_configuration,
    "Eviction manager: attempting to reclaim": of_reclaim, "Eviction manager: pods ranked for eviction": of_ranked,
    "Evicting pod": of_evicting, "Creating hosts mount for container": of_mount,
    "Created PodSandbox for pod": of_sandbox, "Container readiness unchanged": of_unchanged,
    "Container startup unchanged": of_unchanged,
    "Eviction manager: pod is evicted successfully": of_evicted, "Eviction manager: pod failed to evict": of_evicted,
    "Eviction manager: pods evicted, waiting for pod to be cleaned up": of_evicted,
    "Eviction manager: evicted pods, waiting for pod to be cleaned up": of_evicted,
    "Eviction manager: pods successfully cleaned up": of_cleaned, "Failed to admit pod to node": of_refusal,
    "Pod is terminated, but some containers have not been cleaned up": of_left,
    "Pod attempted illegal phase transition": of_status_line, "Status for pod updated successfully": of_status_line,
    "Ignoring same status for pod": of_status_line, "Attempting to register node": of_node,
    "Successfully registered node": of_node, "Started kubelet": of_started,
    "Unable to attach or mount volumes for pod; skipping pod": of_volumes, "Got sys oom event": nodes.of_kill,
    "Node became not ready": nodes.of_condition, "Skipping pod synchronization": nodes.of_skipped,
    "Recording event message for node": nodes.of_recorded,
    "Shutdown manager detected new shutdown event, isNodeShuttingDownNow": nodes.of_shutdown,
    **endings.KEYED}
# the first words of these, by which a line is needed
FIRST_WORDS = {words.split(" ")[0] for words in FORMS} | {"Pod", "FLAG:", "Operation"}
