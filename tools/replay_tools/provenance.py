"""What a reader has to know of a trace before its stories: that it was imported and what the log lacked, that a
recorder marked pods wrongly, and which manifests are unknown."""

from __future__ import annotations

from collections.abc import Callable
from typing import TYPE_CHECKING

from replay_tools import entry, report as reports

if TYPE_CHECKING:
    from replay_tools import traces

UNKNOWN_MANIFEST = "its manifest is unknown"
UNKNOWN_CLASS = "class unknown"
UNKNOWN_PHASE = "Succeeded or Failed"
# what a trace was imported from where no journal was left, by the words of its member importedFrom
SOURCES = {"events": "the Events of its pods", "audit": "the audit log of the API server"}
# a container that runs so long after its pod was marked as being deleted is of a pod that was not deleted: longer than
# the graces of nearly all pods
STILL_RUNS = 120


def class_words(pod: traces.Pod | None, qos: str) -> str:
    """A pod's class as its report has it, which shows nothing if its manifest is unknown."""
    return UNKNOWN_CLASS if pod is not None and pod.is_guessed else qos


def phase_words(trace: traces.Trace | None, pod: reports.Pod) -> str:
    """A pod's phase as its report has it, unless the code that decides it was guessed."""
    is_unknown = trace is not None and pod.number in trace.reasons.unknown_phases
    return UNKNOWN_PHASE if is_unknown and pod.phase in ("Succeeded", "Failed") and pod.reason == "-" else pod.phase


def end_of(trace: traces.Trace | None, pod: reports.Pod) -> tuple[int, str] | None:
    """The moment at which a pod ended, and as what, which may be unknown; None where it did not."""
    end = reports.end_of(pod)
    return None if end is None else (end[0], phase_words(trace, pod) if end[1] == pod.phase else end[1])


def manifest_lines(pod: traces.Pod | None) -> list[str]:
    if pod is None or not pod.is_guessed:
        return []
    return [f"{UNKNOWN_MANIFEST}: limits, probes, class and restart policy are unknown too"]


def doubt_lines(trace: traces.Trace | None, pod: reports.Pod, show: Callable[[int], str]) -> list[str]:
    """That after a gap nothing shows what a pod's containers do."""
    at = None if trace is None else trace.reasons.doubted.get(pod.number)
    if at is None:
        return []
    return [f"what it did at {show(at)} is guessed, as before a gap: no line after it has the pod"]


def head_lines(trace: traces.Trace | None, show: Callable[[int], str]) -> list[str]:
    """Lines above all stories of a trace."""
    if trace is None:
        return []
    return [*imported_lines(trace), *wrongly_deleted_lines(trace, show)]


def imported_lines(trace: traces.Trace) -> list[str]:
    """That a trace was imported, from what, and what of it nobody knows."""
    if not trace.is_imported():
        return []
    said = trace.settings.get("importedFrom")
    sources = [text for text in SOURCES if text in said] if isinstance(said, list) else []
    of_what = " and ".join(SOURCES[source] for source in sources)
    lacks = lacking(trace)
    return [f"imported from {of_what}: no journal was left" if sources else "imported from a kubelet's journal",
            *([f"the import lacks {', '.join(lacks)}"] if lacks else [])]


def lacking(trace: traces.Trace) -> list[str]:
    """What a recording would have, and this trace has not."""
    has_probes = any(container.probes for pod in trace.pods for container in pod.containers)
    codes = sum(end.is_guessed for end in trace.reasons.ends.values())
    unknown = sum(pod.is_guessed for pod in trace.pods)
    lacks = []
    for is_lacking, what in (
        (not any(tick.signals for tick in trace.ticks), "the node's signals"),
        (not any(tick.may_have(b'"usage"') for tick in trace.ticks), "what pods use"),
        (has_probes and not any(tick.may_have(b'"probes"') for tick in trace.ticks), "results of probes"),
        (codes, f"the exit codes of {entry.counted(codes, 'instance')}"),
        (unknown, f"the manifests of {entry.counted(unknown, 'pod')}"),
    ):
        if is_lacking:
            lacks.append(what)
    return lacks


def wrongly_deleted(trace: traces.Trace) -> set[int]:
    """The numbers of the pods that a recorder marked as being deleted though nobody had deleted them: a kubelet that
    had just started answered with an empty list, so all pods were marked in one tick. It is seen if several pods, all
    that were there, were marked in one tick, nothing shows by whom, and a container of them runs long afterwards."""
    marked: dict[int, list[int]] = {}
    for number, deletion in trace.deletions.items():
        if deletion.by is None and deletion.grace is None:
            marked.setdefault(deletion.at, []).append(number)
    found: set[int] = set()
    for at, numbers in marked.items():
        place = trace.places.get(at)
        if place is None or len(numbers) < 2:
            continue
        there = {pod.number for pod in trace.pods if pod.is_present(place)}
        before = {number for number, deletion in trace.deletions.items() if deletion.at < at}
        ended = {number for number, decision in trace.failed.items() if decision.at <= at}
        if there - before - ended <= set(numbers) and any(runs_after(trace, number, at) for number in numbers):
            found.update(numbers)
    return found


def runs_after(trace: traces.Trace, number: int, at: int) -> bool:
    """Whether a container of a pod runs long after a moment."""
    pod = trace.pods[number]
    for place in range(len(trace.ticks) - 1, -1, -1):
        if trace.ticks[place].at <= at + STILL_RUNS:
            return False
        if pod.is_present(place):
            listed = (trace.listing(pod, container.name, place) for container in pod.containers)
            return any(one is not None and one.state == "CONTAINER_RUNNING" for one in listed)
    return False


def wrongly_deleted_lines(trace: traces.Trace, show: Callable[[int], str]) -> list[str]:
    if not trace.marked_wrongly:
        return []
    moments = sorted({trace.marked_wrongly[number] for number in trace.marked_wrongly})
    return [f"{len(trace.marked_wrongly)} pods are marked as being deleted at {', '.join(map(show, moments))} that "
            "nobody deleted: an older recorder took the empty list of a kubelet that had just started for it. "
            "Restarts, kills and back-offs of these pods after that moment are missing"]
