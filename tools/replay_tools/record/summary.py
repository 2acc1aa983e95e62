"""What the kubelet's /stats/summary reports, by the names of a trace. A value that is not there is None or left out."""

from __future__ import annotations

from dataclasses import dataclass
from typing import Any, Optional, TYPE_CHECKING

from .answers import read_parts
from .formats import is_whole, without_nones
from .runtime import moment_of
from .sources import Failed, reads

if TYPE_CHECKING:
    from .answers import Answer
    from .pods import Pod


# what is read of the stats of a container
CONTAINER_PARTS = ("name", "memory", "cpu", "rootfs", "logs")
# of a core
NANO_OF_MILLI = 10 ** 6


@dataclass(frozen=True)
class Sample:
    """A value as the kubelet sampled it, at a moment in seconds since 1970, or when it was asked."""
    value: int
    moment: Optional[float]


@dataclass(frozen=True)
class Used:
    """What one container used at a moment in seconds since 1970: its working set and its whole memory in bytes, its
    processor time in thousandths of a core, and for how many thousandths of a second it was throttled since it began.
    What is not known is None."""
    moment: float
    working_set: Optional[int]
    usage: Optional[int]
    cpu: Optional[int]
    throttled: Optional[int] = None

    def told(self, second: int) -> dict[str, int]:
        """What a tick has of it, with how many seconds before it that was."""
        return without_nones({"workingSet": self.working_set, "usage": self.usage, "cpu": self.cpu,
                              "age": max(second - int(self.moment), 0) or None, "throttled": self.throttled})


@dataclass(frozen=True)
class Summary:
    """One answer: the capacities, the samples of the signals, and since when the node's system runs."""
    capacity: dict
    has_dedicated_image_fs: bool
    signals: dict
    pods: dict
    booted_at: Optional[float] = None

    def usage(self, pod: Pod, has_running: bool) -> dict[str, Sample]:
        """The samples of what a recorded pod uses, by resource. A kubelet 1.20 counts no process of any container, so 0
        of them next to a container that runs is no count."""
        samples = usage_of(self.pods.get(pod.uid, {}), pod.local_volumes)
        if has_running and "pids" in samples and samples["pids"].value == 0:
            del samples["pids"]
        return samples


    def used(self, pod: Pod) -> dict[str, Used]:
        """What each container of a pod used, by name, where the summary has its moment."""
        return used_in(self.pods.get(pod.uid, {}))


def used_in(stats: dict[str, Any]) -> dict[str, Used]:
    found = {str(each.get("name")): used_of(fields_of(each.get("memory")), fields_of(each.get("cpu")))
             for each in stats.get("containers") or []}
    return {name: used for name, used in found.items() if used is not None}


def used_of(memory: dict[str, Any], cpu: dict[str, Any]) -> Used | None:
    moment, nano = moment_of(memory.get("time")), units(cpu.get("usageNanoCores"))
    working_set, usage = units(memory.get("workingSetBytes")), units(memory.get("usageBytes"))
    # what runs uses some memory: 0 is of a cgroup that is no more, or not yet
    if moment is None or working_set == 0 or usage == 0:
        return None
    return Used(moment, working_set, usage,
                None if nano is None else round(nano / NANO_OF_MILLI))


def units(value: Any) -> int | None:
    """A whole number of units, at least 0, or None."""
    if isinstance(value, float):
        value = int(value // 1)
    return max(value, 0) if is_whole(value) else None


def fields_of(value: Any) -> dict[str, Any]:
    return value if isinstance(value, dict) else {}


def whole_values(fields: dict[str, int | None]) -> dict[str, int]:
    return without_nones({name: units(value) for name, value in fields.items()})


def difference(whole: int | None, part: int | None) -> int | None:
    return None if whole is None or part is None else whole - part


@reads("/stats/summary")
def summary_of(text: Answer) -> Summary:
    """The capacities and samples of the summary, by the names that the formats have for signals."""
    answer = read_parts(text, "/stats/summary", "pods", stats_of)
    node = answer.get("node") if isinstance(answer, dict) else None
    if not isinstance(node, dict):
        raise Failed("/stats/summary: no node in the answer")
    memory, file_system, limits = (fields_of(node.get(name)) for name in ("memory", "fs", "rlimit"))
    images = fields_of(fields_of(node.get("runtime")).get("imageFs"))
    used = memory.get("workingSetBytes")
    capacity = {
        # as the kubelet has it: what is available and what is in use
        "memory.available": None if used is None else difference(memory.get("availableBytes"), -used),
        "nodefs.available": file_system.get("capacityBytes"), "imagefs.available": images.get("capacityBytes"),
        "nodefs.inodesFree": file_system.get("inodes"), "imagefs.inodesFree": images.get("inodes"),
        "pid.available": limits.get("maxpid")}
    signals = {
        "memory.available": memory.get("availableBytes"),
        "nodefs.available": file_system.get("availableBytes"), "imagefs.available": images.get("availableBytes"),
        "nodefs.inodesFree": file_system.get("inodesFree"), "imagefs.inodesFree": images.get("inodesFree"),
        "pid.available": difference(limits.get("maxpid"), limits.get("curproc"))}
    # what a kubelet counts of processes is as it was when it was asked
    sampled: dict[str, dict[str, Any]] = {"memory": memory, "nodefs": file_system, "imagefs": images, "pid": {}}
    moments = {signal: moment_of(sampled[signal.split(".")[0]].get("time")) for signal in signals}
    samples = {signal: Sample(value, moments[signal]) for signal, value in whole_values(signals).items()}
    pods = answer.get("pods") or []
    if not isinstance(pods, list):
        raise Failed("/stats/summary: no list of pods in the answer")
    return Summary(whole_values(capacity), is_dedicated(images, file_system), samples, dict(pods),
                   moment_of(node.get("startTime")))


def stats_of(stats: Any) -> tuple[str, dict[str, Any]]:
    """The uid of a pod, and what is read of its stats, such as can be read."""
    kept = {name: stats[name] for name in ("memory", "volume", "process_stats") if name in stats}
    kept["containers"] = [{part: container.get(part) for part in CONTAINER_PARTS}
                          for container in stats.get("containers") or []]
    usage_of(kept, {volume.get("name") for volume in stats.get("volume") or []})
    used_in(kept)
    return str(fields_of(stats.get("podRef")).get("uid")), kept


def is_dedicated(images: dict[str, int | str], file_system: dict[str, int | str]) -> bool:
    """The kubelet compares devices, which the summary does not name; two file systems differ in size."""
    return bool(images) and any(images.get(name) != file_system.get(name) for name in ("capacityBytes", "inodes"))


def parts_of(stats: dict[str, Any], part: str) -> list[dict[str, int | str]]:
    return [fields_of(container.get(part)) for container in stats.get("containers") or []]


def total(parts: list[dict[str, Any]], field: str) -> int | None:
    """The sum of a field over what has it, or None where nothing has."""
    amounts = [part[field] for part in parts if part.get(field) is not None]
    return sum(amounts) if amounts else None


def usage_of(stats: dict[str, Any], local_volumes: set[str] | frozenset[str]) -> dict[str, Sample]:
    """The samples of one pod's usage, by resource. Volumes are those that live on the node's own disk, as the kubelet
    counts them."""
    volumes = [volume for volume in stats.get("volume") or [] if volume.get("name") in local_volumes]
    whole = fields_of(stats.get("memory"))
    memories = parts_of(stats, "memory") if whole.get("workingSetBytes") is None else [whole]
    file_systems, logs = parts_of(stats, "rootfs"), parts_of(stats, "logs")
    everywhere = file_systems + logs + volumes
    amounts = whole_values({
        "memory": total(memories, "workingSetBytes"), "volumes": total(volumes, "usedBytes"),
        "logs": total(logs, "usedBytes"), "writable": total(file_systems, "usedBytes"),
        "inodes": total(everywhere, "inodesUsed"),
        "pids": fields_of(stats.get("process_stats")).get("process_count")})
    parts = {"memory": memories, "volumes": volumes, "logs": logs, "writable": file_systems, "inodes": everywhere}
    return {resource: Sample(amount, newest(parts.get(resource, []))) for resource, amount in amounts.items()}


def newest(parts: list[dict[str, Any]]) -> float | None:
    """The moment of the newest of some samples, or None if none has one."""
    return max(filter(None, (moment_of(part.get("time")) for part in parts)), default=None)
