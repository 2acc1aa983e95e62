"""Whom the rules evict or name by a report, and which pods had ended when."""

from __future__ import annotations

from typing import TYPE_CHECKING

from replay_tools import report as reports

if TYPE_CHECKING:
    from replay_tools import traces


def by_rules(report: reports.Report) -> list[reports.Eviction]:
    """The pods that the rules evict or, in the report of a recording that shows whom the kubelet evicted, name."""
    named = [reports.Eviction(event.at, event.pod, event.rest[1], event.rest[2], 0, event.number, is_named=True)
             for event in report.events if event.word == "names" and event.pod is not None]
    return [*report.evictions, *named]


def heeds_rounds(trace: traces.Trace, report: reports.Report) -> bool:
    """Whether the report's program reads which ticks are sync ticks and which pods are exempt: then the rules name or
    evict no pod in a tick that is no sync tick, and none that is exempt."""
    if report.heeds_rounds is None:
        spared = {pod.number for pod in trace.pods if pod.is_spared}
        report.heeds_rounds = all(
            event.number not in spared and trace.ticks[trace.places[event.at]].is_judged
            for event in report.events if event.word in ("names", "evicted"))
    return report.heeds_rounds


def ended_by_kubelet(report: reports.Report, pod: reports.Pod) -> tuple[int, str] | None:
    """When the kubelet ended a pod, and why, as the report shows it: with a reason, and not by the rules."""
    end = reports.end_of(pod)
    is_by_rules = any(eviction.number == pod.number for eviction in report.evictions)
    return None if pod.reason == "-" or is_by_rules or end is None else (end[0], pod.reason)


def had_ended(pod: reports.Pod, at: int) -> bool:
    """Whether a pod had ended before the node decided at a moment. What it does to a pod ends it after that."""
    end = reports.end_of(pod)
    return end is not None and (end[0] < at or end[0] == at and pod.reason == "-")


def tell_left(trace: traces.Trace, report: reports.Report) -> None:
    """From now on each pod has left when the trace lets it go, whether another one of its name came or not."""
    for ours, pod in zip(trace.pods, report.pods):
        pod.left = trace.ticks[ours.gone].at if ours.gone is not None and ours.gone < len(trace.ticks) else None
