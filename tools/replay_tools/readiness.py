"""How a pod's condition Ready turned: by the rules, with the readiness gates of version 3, which make no event, and in
the kubelet's status, where a kubelet that was restarted asks its probes again."""

from __future__ import annotations

from collections.abc import Callable
from dataclasses import dataclass
from typing import TYPE_CHECKING

from replay_tools import report as reports, telling

if TYPE_CHECKING:
    from replay_tools import reasons, traces

# a turn that is so near to an event of the report is that event, in seconds
NEAR = 5


@dataclass(frozen=True)
class NotReady:
    """A span in which the kubelet's status showed a pod as not ready, and why, as far as that is known."""

    since: int
    until: int | None
    because: str
    is_first: bool
    """it was so when the pod was first seen"""

    def words(self) -> str:
        return f"not ready in the kubelet's status{f': {self.because}' if self.because else ''}"


def spans_of(trace: traces.Trace | None, pod: reports.Pod) -> list[reports.Span] | None:
    """The spans of Ready by the kubelet's status, up to the pod's end; None where the trace does not have them."""
    turns = trace.reasons.turns.get(pod.number) if trace is not None else None
    if not turns:
        return None
    first, end = reports.first_tick(pod), reports.end_of_spans(pod)
    found: list[reports.Span] = []
    for at, status in sorted(turns.items()):
        value, since = "True" if status == "True" else "False", max(at, first)
        if end is not None and since >= end:
            break
        if found and found[-1].value == value:
            continue
        if found:
            found[-1].until = since
        if found and found[-1].since == since:
            found.pop()
        found.append(reports.Span(value, since, None))
    if found and end is not None:
        found[-1].until = end
    return found or None


# --- by the rules, with readiness gates ---


def closed_gates(trace: traces.Trace | None, pod: reports.Pod) -> list[tuple[str, reasons.Wait]]:
    """The times in which the condition of a readiness gate was not True, of gates that the rules read."""
    has_gates = trace is not None and bool(trace.pods[pod.number].gates)
    return trace.reasons.gates_of(pod) if trace is not None and has_gates else []


def by_rules(trace: traces.Trace | None, pod: reports.Pod) -> list[reports.Span]:
    """The spans of Ready by the rules: as ContainersReady, but False while a gate's condition is not True."""
    closed = closed_gates(trace, pod)
    if not closed:
        return reports.ready_spans(pod)
    found: list[reports.Span] = []
    for span in reports.ready_spans(pod, "ContainersReady"):
        for part in [span] if span.value == "False" else parted(span, [wait for _, wait in closed]):
            if found and (found[-1].value, found[-1].until) == (part.value, part.since):
                found[-1] = reports.Span(part.value, found[-1].since, part.until)
            else:
                found.append(part)
    return found


def parted(span: reports.Span, closed: list[reasons.Wait]) -> list[reports.Span]:
    """A span of True as the spans of Ready in it."""
    end = span.until
    turns = {span.since or 0, *(at for wait in closed for at in (wait.since, wait.until) if at is not None)}
    begins = sorted(at for at in turns if (span.since or 0) <= at and (end is None or at < end))
    found: list[reports.Span] = []
    for begin, until in zip(begins, [*begins[1:], end]):
        is_closed = any(wait.since <= begin and (wait.until is None or begin < wait.until) for wait in closed)
        found.append(reports.Span("False" if is_closed else "True", begin, until))
    return found


def gate_words(trace: traces.Trace | None, pod: reports.Pod, show: Callable[[int], str]) -> str | None:
    """Which readiness gates keep a pod from being Ready at the end, and since when; None where none does."""
    if pod.condition("ContainersReady").value == "False" or pod.condition("Ready").value == "True":
        return None
    found = [f"{gate} is not True since {show(wait.since)}" for gate, wait in closed_gates(trace, pod)
             if wait.until is None]
    if not found:
        return None
    return f"its containers are ready, but it is not Ready: readiness gate {', and readiness gate '.join(found)}"


# --- in the kubelet's status ---


def not_ready(trace: traces.Trace | None, pod: reports.Pod) -> list[NotReady]:
    """The spans in which the status showed a pod as not ready."""
    if trace is None:
        return []
    spans = spans_of(trace, pod) or []
    return [NotReady(span.since or 0, span.until, because_of(trace, pod, span.since or 0, span.until), span is spans[0])
            for span in spans if span.value == "False"]


def because_of(trace: traces.Trace, pod: reports.Pod, at: int, until: int | None) -> str:
    """Why a pod was not ready in the kubelet's status for a time, where no event of the report shows it."""
    if is_told(pod, "unready", at):
        return ""
    # a tick shows a gate some seconds after it turned
    gate = next((gate for gate, wait in trace.reasons.gates_of(pod) if (until is None or wait.since < until)
                 and (wait.until is None or wait.until > at)), None)
    if gate is not None:
        return f"its readiness gate {gate} is not true"
    is_after_start = any(start <= at <= start + telling.AFTER_START for start in trace.kubelet_starts())
    return telling.RESTARTED if is_after_start else ""


def is_told(pod: reports.Pod, word: str, at: int) -> bool:
    """Whether the report has an event of a pod near a moment."""
    return any(event.word == word and abs(event.at - at) <= NEAR for event in pod.events)


def rows(trace: traces.Trace | None, pod: reports.Pod) -> list[tuple[int, str]]:
    """The turns that no event of the report shows, each with its moment."""
    found = []
    for span in not_ready(trace, pod):
        if not span.is_first and not is_told(pod, "unready", span.since):
            found.append((span.since, span.words()))
        if span.until is not None and not is_told(pod, "ready", span.until) and span.until != reports.end_of_spans(pod):
            found.append((span.until, "ready again in the kubelet's status"))
    return found
