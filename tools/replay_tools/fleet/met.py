"""Pods that come into a trace later than it begins, though they are older: an earlier trace of their node has their
uid. What the first tick with such a pod shows of it was so before, and is counted there."""

from __future__ import annotations

from collections.abc import Iterator
from dataclasses import replace
from typing import Any, TYPE_CHECKING

from replay_tools import records, report as reports, summary

if TYPE_CHECKING:
    from replay_tools import kubelet as kubelets, traces
    from replay_tools.fleet import kept

# of these records a pod has some
OF_PODS = {"pod": "number", "container": "pod_number", "cause": "pod_number"}
# a row that represents another one has these, by whether an earlier trace has the pod
UID, WAS_MET = "uid", "was_met"


def about(report: reports.Report, trace: traces.Trace | None, first: int | None) -> dict[str, Any]:
    """What the record of a trace has for the traces after it."""
    uids = [] if trace is None or first is None else sorted({pod.uid for pod in trace.pods if pod.uid is not None})
    return {"node": report.node, "first": first, "uids": uids}


def rows_of(rows: list[dict[str, Any]], report: reports.Report, kubelet: kubelets.Kubelet | None, trace: traces.Trace,
            last: int, begun: int) -> Iterator[dict[str, Any]]:
    """The rows of a trace, and for each pod that came later both rows: as it is new, and as an earlier trace has it."""
    uids = [pod.uid for pod in trace.pods]
    late = {pod.number: pod for pod in report.pods
            if uids[pod.number] is not None and reports.first_tick(pod) > begun}
    for row in rows:
        number = row.get(OF_PODS.get(row["record"], ""))
        if number not in late:
            yield row
            continue
        # one that came again in the trace itself is old in any case
        is_old, uid = uids[number] in uids[:number], uids[number]
        if not is_old:
            yield {**row, UID: uid, WAS_MET: False}
        if row["record"] == "pod":
            for made in rows_behind(report, kubelet, trace, last, late[number], row["rank"]):
                yield made if is_old else {**made, UID: uid, WAS_MET: True}


def rows_behind(report: reports.Report, kubelet: kubelets.Kubelet | None, trace: traces.Trace, last: int,
                pod: reports.Pod, rank: int) -> Iterator[dict[str, Any]]:
    """The rows of a pod of which all that its first tick shows was so before."""
    known = reports.first_tick(pod)
    told = summary.summary_of(report, pod, trace, kubelet, last, known)
    yield (records.pod_record(report, pod, rank, told, known) | records.deletion_fields(pod, trace)
           | records.manifest_fields(pod, trace))
    for container in pod.containers:
        yield records.container_record(report, pod, container, known, trace)
    yield from records.cause_records(replace(report, pods=[pod]), trace, last, known)


class Met:
    """In which trace of its node each uid comes first."""

    def __init__(self, paths: list[str], found: kept.Kept) -> None:
        self.first: dict[tuple[str, str], int] = {}
        for path in paths:
            trace: dict[str, Any] = next(found.rows(path), {})
            for uid in trace.get("uids", ()):
                place = trace["node"], uid
                self.first[place] = min(trace["first"], self.first.get(place, trace["first"]))

    def rows(self, trace: dict[str, Any], rows: Iterator[dict[str, Any]]) -> Iterator[dict[str, Any]]:
        """Of the rows of a trace those that count."""
        for row in rows:
            if UID not in row or row[WAS_MET] == (self.first[trace["node"], row[UID]] < trace["first"]):
                yield row
