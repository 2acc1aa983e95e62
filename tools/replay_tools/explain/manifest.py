"""What is at fault in the manifest of a pod line: each check with the number of its fault, in the order in which the
program makes them."""

from __future__ import annotations

from collections.abc import Callable, Iterator
from typing import Any

from replay_tools import amounts
from replay_tools.record import formats
from replay_tools.record.gates import OF_PODS
from replay_tools.record.pods import MOST_CONTAINERS, PROBE_FIELDS, RESOURCES
from replay_tools.record.restarts import is_sidecar
from replay_tools.restarting import POLICIES

from . import gates, restarts
from .found import Found, at, is_, kind_words
from .node import quantity_advice

MISSING, WRONG_KIND, QUANTITY, PROBE_RANGE, INIT_PROBE, REQUEST_ABOVE_LIMIT = 11, 12, 13, 14, 15, 16
DUPLICATE_CONTAINER, TOO_MANY = 17, 19
PROBES = ("startupProbe", "livenessProbe", "readinessProbe")
MOST_SECONDS = 2**31 - 1
AS_KUBECTL = "take the manifest as kubectl get pod -o json prints it"


def faults_of(line: dict[str, Any], version: int) -> Iterator[tuple[int, Found]]:
    """Each fault of a pod line with its number, in a text of a version; the first is the program's answer."""
    for path, wanted in ((("pod",), "the whole manifest, as kubectl get pod -o json prints it"),
                         (("pod", "metadata"), "an object with the pod's name"),
                         (("pod", "spec"), "an object with the pod's containers")):
        if path[-1] == "spec":
            yield from metadata_faults(line["pod"]["metadata"])
        around = line if len(path) == 1 else line["pod"]
        fault = object_fault(around, path, wanted)
        if fault:
            yield fault
            return
    yield from spec_faults(line["pod"]["spec"], version)
    if version == 3:
        yield from resource_faults(line["pod"]["spec"], ("pod", "spec"), OF_PODS)
        yield from gates.faults_of(line["pod"]["spec"])
    if version == 3 and not isinstance(line.get("spared"), (bool, type(None))):
        yield WRONG_KIND, is_(("spared",), line["spared"], "it is true or false, without quotes")


def object_fault(around: Any, path: tuple[Any, ...], wanted: str) -> tuple[int, Found] | None:
    value = around.get(path[-1])
    if value is None:
        return MISSING, at(path, f"is missing: {wanted}", manifest_advice(around, path))
    if not isinstance(value, dict):
        return WRONG_KIND, is_(path, value, f"it is {wanted}", AS_KUBECTL)
    return None


def manifest_advice(around: Any, path: tuple[Any, ...]) -> Any:
    """What to do where a field of the manifest is missing: often the whole manifest is one level too high."""
    if path == ("pod",) and ("spec" in around or "metadata" in around):
        return 'put metadata and spec under the field pod: jq -c \'{kind:"pod",pod:.}\''
    return "put the whole object of kubectl get pod -o json under the field pod"


def metadata_faults(metadata: Any) -> Iterator[tuple[int, Found]]:
    path = ("pod", "metadata")
    yield from text_faults(metadata, (*path, "name"), formats.name_fault, True)
    yield from text_faults(metadata, (*path, "namespace"), formats.label_fault, False)


def text_faults(around: Any, path: tuple[Any, ...], fault_of: Callable[..., Any],
                is_required: bool) -> Iterator[tuple[int, Found]]:
    """The faults of a name."""
    value = around.get(path[-1])
    if value is None:
        if is_required:
            yield MISSING, at(path, "is missing")
    elif fault_of(value):
        most = "253 of a to z, 0 to 9, - and ." if fault_of is formats.name_fault else "63 of a to z, 0 to 9 and -"
        yield WRONG_KIND, is_(path, value, "it is no such name", f"write 1 to {most}, with a letter or digit at both "
                              "ends")


def spec_faults(spec: Any, version: int) -> Iterator[tuple[int, Found]]:
    path = ("pod", "spec")
    if spec.get("restartPolicy") not in (None, *POLICIES):
        yield WRONG_KIND, is_((*path, "restartPolicy"), spec["restartPolicy"], f"there are {', '.join(POLICIES)}")
    yield from whole_faults(spec, (*path, "priority"), -2**31, MOST_SECONDS)
    yield from whole_faults(spec, (*path, "terminationGracePeriodSeconds"), 0, 2**40 - 1)
    for field in ("initContainers", "containers"):
        value = spec.get(field)
        if value is not None and not isinstance(value, list):
            yield WRONG_KIND, is_((*path, field), value, "it is an array of containers", AS_KUBECTL)
            return
    if not spec.get("containers"):
        yield MISSING, at((*path, "containers"), "has no container: a pod has at least one", AS_KUBECTL)
    yield from containers_faults(spec, version)


def whole_faults(around: Any, path: tuple[Any, ...], least: int, most: int) -> Iterator[tuple[int, Found]]:
    value = around.get(path[-1])
    if value is not None and formats.whole_fault(value, least, most):
        yield WRONG_KIND, is_(path, value, f"it is a whole number from {least} to {most}",
                              "write it without quotes and point")


def containers_faults(spec: Any, version: int) -> Iterator[tuple[int, Found]]:
    found = [(("pod", "spec", field, index), container) for field in ("initContainers", "containers")
             for index, container in enumerate(spec.get(field) or [])]
    if len(found) > MOST_CONTAINERS:
        yield TOO_MANY, at(("pod", "spec", "containers"), f"and initContainers have {len(found)} containers: a pod has "
                           f"at most {MOST_CONTAINERS}")
    names = {}
    for path, container in found:
        yield from container_faults(container, path, version)
        if not isinstance(container, dict):
            return
    for path, container in found:
        name = container.get("name")
        if name in names:
            yield DUPLICATE_CONTAINER, is_((*path, "name"), name, "an earlier container has this name")
        names[name] = path


def container_faults(container: Any, path: tuple[Any, ...], version: int) -> Iterator[tuple[int, Found]]:
    if not isinstance(container, dict):
        yield WRONG_KIND, is_(path, container, "it is an object, a container", AS_KUBECTL)
        return
    yield from text_faults(container, (*path, "name"), formats.label_fault, True)
    restart_faults = restarts.faults_of if version == 3 else restarts.of_sidecars
    yield from restart_faults(container, path, is_init(path))
    yield from resource_faults(container, path)
    for field in PROBES:
        yield from probe_faults(container, (*path, field))


def is_init(path: tuple[Any, ...]) -> bool:
    return path[2] == "initContainers"


def resource_faults(owner: Any, path: tuple[Any, ...],
                    named: tuple[str, ...] = RESOURCES) -> Iterator[tuple[int, Found]]:
    """The faults of the resources of a container, or of the pod as a whole, of which fewer are read."""
    resources, path = owner.get("resources"), (*path, "resources")
    if resources is None:
        return
    if not isinstance(resources, dict):
        yield WRONG_KIND, is_(path, resources, "it is an object with requests and limits")
        return
    for side in ("requests", "limits"):
        yield from amount_faults(resources.get(side), (*path, side), named)
    for resource in named:
        yield from above_faults(resources, path, resource)


def amount_faults(found: Any, path: tuple[Any, ...], named: tuple[str, ...]) -> Iterator[tuple[int, Found]]:
    if found is None:
        return
    if not isinstance(found, dict):
        yield WRONG_KIND, is_(path, found, f"it is an object with {', '.join(named)}")
        return
    for resource in named:
        value = found.get(resource)
        if value is None or not formats.quantity_fault(value):
            continue
        is_text = isinstance(value, str) or (formats.is_whole(value) and value < 0)
        yield (QUANTITY if is_text else WRONG_KIND), is_((*path, resource), value, "it is no quantity",
                                                         quantity_advice(value))


def above_faults(resources: Any, path: tuple[Any, ...], resource: str) -> Iterator[tuple[int, Found]]:
    """A request above its limit, where both are quantities and set."""
    request, limit = ((resources.get(side) or {}).get(resource) for side in ("requests", "limits"))
    least, most = quantity_or_none(request), quantity_or_none(limit)
    if least is not None and most and least > most:
        yield REQUEST_ABOVE_LIMIT, is_((*path, "requests", resource), request, f"it is above its limit, {limit}")


def quantity_or_none(value: Any) -> int | None:
    """The thousandths of what may be no quantity."""
    try:
        return amounts.quantity(value)
    except amounts.Wrong:
        return None


def probe_faults(container: Any, path: tuple[Any, ...]) -> Iterator[tuple[int, Found]]:
    probe = container.get(path[-1])
    if probe is None:
        return
    if is_init(path) and not is_sidecar(container, True):
        yield INIT_PROBE, at(path, "is a probe of an init container that is no sidecar", "leave it out, or make it a "
                             'sidecar: "restartPolicy":"Always"')
        return
    if not isinstance(probe, dict):
        yield WRONG_KIND, is_(path, probe, f"it is an object, a probe, and not {kind_words(probe)}")
        return
    for field in PROBE_FIELDS:
        yield from probe_number_faults(probe, (*path, field))


def probe_number_faults(probe: Any, path: tuple[Any, ...]) -> Iterator[tuple[int, Found]]:
    value, field = probe.get(path[-1]), path[-1]
    least = 0 if field == "initialDelaySeconds" else 1
    most = 1 if field == "successThreshold" and path[-2] != "readinessProbe" else MOST_SECONDS
    wanted = f"it is {least}" if least == most else f"it is a whole number from {least} to {most}"
    if value is None:
        return
    if not formats.is_whole(value):
        yield WRONG_KIND, is_(path, value, wanted, "write it without quotes, point and unit")
    elif not least <= value <= most:
        yield PROBE_RANGE, is_(path, value, wanted)
