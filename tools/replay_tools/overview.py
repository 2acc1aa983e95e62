"""The pods of a report in one table, the worst first, each with the worst that happened to it."""

from __future__ import annotations

from collections.abc import Callable
from typing import TYPE_CHECKING

from replay_tools import entry, provenance, report as reports, summary as summing, telling

if TYPE_CHECKING:
    from replay_tools import kubelet as kubelets, traces


def text(report: reports.Report, namespace: str | None, show: Callable[[int], str],
         trace: traces.Trace | None = None, kubelet: kubelets.Kubelet | None = None,
         since: int = summing.NEVER) -> str:
    """The table of the pods of a namespace, or of all without one; of what came after a moment, where one is given,
    with all restarts of a pod next to those; above it what happened to the node meanwhile."""
    ranked = [summary for summary in summing.summaries(report, trace, kubelet, since=since)
              if namespace is None or report.pods[summary.number].key.startswith(f"{namespace}/")]
    pods = [report.pods[summary.number] for summary in ranked]
    if namespace is not None and not ranked:
        raise entry.Fault(f"the report has no pod in the namespace {namespace}")
    is_part = since != summing.NEVER
    heads = ["pod", "phase", "restarts", *["in all"] * is_part, "unready s", "moment", "worst event"]
    rows = [row_of(report, summary, show, is_part, trace) for summary in ranked]
    where, of_time = "" if namespace is None else f" in {namespace}", f" since {show(since)}" if is_part else ""
    title = f"{report.node}: {entry.counted(len(rows), 'pod')}{where}, the worst{of_time} first"
    of_node = telling.node_lines(trace, report, pods, show, since) if trace is not None else []
    of_node = [*provenance.head_lines(trace, show), *of_node]
    return "\n".join([*of_node, *telling.table(title, heads, rows)[:-1]]) + "\n"


def row_of(report: reports.Report, summary: summing.Summary, show: Callable[[int], str], is_part: bool,
           trace: traces.Trace | None) -> list[str]:
    pod, found = report.pods[summary.number], summary.found
    return [pod.key + reports.number_words(report, pod), provenance.phase_words(trace, pod), str(summary.restarts),
            *[str(summary.all_restarts)] * is_part, str(summary.unready_seconds),
            "-" if found.at is None else show(found.at), found.words or "-"]


def line_of(report: reports.Report, pod: reports.Pod, show: Callable[[int], str], trace: traces.Trace | None,
            kubelet: kubelets.Kubelet | None, since: int = summing.NEVER) -> str:
    """A pod's place among all, and the worst of it, in one line."""
    ranked = summing.summaries(report, trace, kubelet, since=since)
    rank, summary = next((rank, each) for rank, each in enumerate(ranked, 1) if each.number == pod.number)
    found = summary.found
    worst = f"{show(found.at)} {found.words}" if found.at is not None else "nothing bad"
    in_all = "" if since == summing.NEVER else f", {summary.all_restarts} in all"
    of_time = "" if since == summing.NEVER else f" since {show(since)}"
    return (f"the worst{of_time}: {worst}; {entry.counted(summary.restarts, 'restart')}{in_all}, not ready for "
            f"{summary.unready_seconds} s; place {rank} of {len(ranked)}")
