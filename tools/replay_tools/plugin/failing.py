"""Run with --fail-on: a status of its own where something happened to a pod, for scripts."""

from __future__ import annotations

import os
import sys
from collections.abc import Iterable
from typing import IO, TYPE_CHECKING

from replay_tools import asking, entry, program as programs, report as reports, traces
from replay_tools.cli.definition import KINDS
from replay_tools.cli.statuses import Status
from replay_tools.plugin import files

if TYPE_CHECKING:
    from replay_tools import kubelet as kubelets

MOST_NAMED = 3


def run(words: list[str], path: str, given: IO[bytes] | None, caller: str, kinds: list[str]) -> int:
    """Runs the program on a trace, writes its report, and shows what of these kinds is in it; the status."""
    report = files.temporary()
    status = files.run_beside(programs.path(), words, path, given, caller, output=report)
    if status == Status.FAILED and os.fstatvfs(report.fileno()).f_bavail == 0:
        raise files.no_room("it takes no more")
    if status != Status.DONE:
        return status
    report.seek(0)
    text = report.read()
    sys.stdout.buffer.write(text)
    sys.stdout.flush()
    found = reports.read_report(text.decode("utf-8", "replace"))
    kubelet = kubelet_of(found, path) if "evicted" in kinds else None
    said = [(kind, FOUND[kind](found, kubelet)) for kind in kinds]
    for kind, pods in said:
        if pods:
            print(f"{caller}--fail-on {kind}: {named(pods)}", file=sys.stderr)
    return Status.HAPPENED if any(pods for _, pods in said) else Status.DONE


def kubelet_of(report: reports.Report, path: str) -> kubelets.Kubelet | None:
    """What the kubelet did, where the trace shows it and can be read as the tools read one."""
    try:
        return asking.kubelet_beside(asking.trace_of(report, path), report)
    except (entry.Fault, traces.TraceFault):
        return None


def named(pods: list[str]) -> str:
    more = f" and {entry.counted(len(pods) - MOST_NAMED, 'more pod')}" if len(pods) > MOST_NAMED else ""
    return entry.visible(", ".join(pods[:MOST_NAMED]) + more)


def evicted(report: reports.Report, kubelet: kubelets.Kubelet | None) -> list[str]:
    """Pods that the kubelet evicted, where the trace shows what it did, else those that the rules evict."""
    if kubelet is None:
        return list(dict.fromkeys(eviction.pod for eviction in report.evictions))
    return list(dict.fromkeys(fact.decision.pod for fact in kubelet.evicted))


def restarted(report: reports.Report, _: object) -> list[str]:
    """Pods of which a container was started again; the instance with which the trace begins is no restart."""
    return keys(pod for pod in report.pods if any(starts_of(pod, container.name) > 1 or is_ordered(pod, container.name)
                                                  for container in pod.containers))


def starts_of(pod: reports.Pod, name: str) -> int:
    return sum(event.word == "started" and event.container == name for event in pod.events)


def is_ordered(pod: reports.Pod, name: str) -> bool:
    return any(event.word == "restart" and event.container == name for event in pod.events)


def unready(report: reports.Report, _: object) -> list[str]:
    """Pods that are not ready at the end and have not succeeded; one that has gone by then is none."""
    return keys(pod for pod in report.pods if pod.condition("Ready").value == "False" and pod.phase != "Succeeded"
                and pod.left is None and reports.has_ticks(report, pod))


def keys(pods: Iterable[reports.Pod]) -> list[str]:
    return list(dict.fromkeys(pod.key for pod in pods))


FOUND = dict(zip(KINDS, (evicted, restarted, unready)))
