"""What a pod came to: the worst that happened to it, its restarts and its seconds without readiness, and its rank among
others. All tools have these from here, so that a pod is at the same place in each."""

from __future__ import annotations

from dataclasses import dataclass
from enum import Enum
from typing import TYPE_CHECKING

from replay_tools import endings, kubelet as kubelets, readiness, reasons, report as reports, telling

if TYPE_CHECKING:
    from replay_tools import decided, traces

# a moment before all others
NEVER = -1
# for which a container waits as it starts
STARTING = ("ContainerCreating", "PodInitializing")
BACK_OFF = "CrashLoopBackOff"
# what was reported of a pod whose containers could not start
HOLDS_UP = ("FailedMount", "FailedAttachVolume", "FailedCreatePodSandBox", "FailedScheduling", "NetworkNotReady")


class Worst(Enum):
    """The kinds of what happens to pods, the worst first."""

    ENDED = "ended"
    KILLED = "killed"
    CRASHED_AND_NOT_READY = "crashed_and_not_ready"
    CRASHED = "crashed"
    FAILED = "failed"
    WAITS = "waits"
    BACKED_OFF = "backed_off"
    RESTARTED = "restarted"
    NOT_READY = "not_ready"
    BY_RULES_ALONE = "by_rules_alone"
    DELETED = "deleted"
    EXITED = "exited"
    NOTHING = None

    @property
    def place(self) -> int:
        return list(Worst).index(self)


@dataclass(frozen=True)
class Found:
    """The worst that happened to a pod: the moment of the first of its kind, that in words, and how often it was."""

    worst: Worst
    at: int | None = None
    what: str = ""
    times: int = 1

    @property
    def words(self) -> str:
        return self.what if self.times == 1 else f"{self.what} (first of {self.times})"


@dataclass(frozen=True)
class Summary:
    """What a pod came to since a moment, or since its first tick."""

    number: int
    found: Found
    restarts: int
    unready_seconds: int
    all_restarts: int
    """since the pod was made"""

    @property
    def rank(self) -> tuple[int, int, int, int]:
        """What is less is worse."""
        return self.found.worst.place, -self.restarts, -self.unready_seconds, self.number


def summaries(report: reports.Report, trace: traces.Trace | None = None, kubelet: kubelets.Kubelet | None = None,
              last: int | None = None, since: int = NEVER) -> list[Summary]:
    """The summary of each pod, the worst first; `last` is where that is not the last moment that is known."""
    last = last_moment(report, trace) if last is None else last
    return sorted((summary_of(report, pod, trace, kubelet, last or 0, since) for pod in report.pods),
                  key=lambda summary: summary.rank)


def summary_of(report: reports.Report, pod: reports.Pod, trace: traces.Trace | None,
               kubelet: kubelets.Kubelet | None, last: int, since: int = NEVER) -> Summary:
    whole = sum(int(container.restarts) for container in pod.containers)
    restarts = whole if since == NEVER else sum(came_again(pod, one.name, since) for one in pod.containers)
    unready = unready_seconds(pod, last, since, trace) if has_ticks(report, pod, trace) else 0
    return Summary(pod.number, worst_of(report, pod, trace, kubelet, since), restarts, unready, whole)


# --- the worst ---


def worst_of(report: reports.Report, pod: reports.Pod, trace: traces.Trace | None,
             kubelet: kubelets.Kubelet | None, since: int = NEVER) -> Found:
    """The worst that happened to a pod after a moment."""
    ended = ended_by_node(report, pod, kubelet)
    if ended is not None and ended.at is not None and ended.at > since:
        return ended
    deletion = trace.deletions.get(pod.number) if trace else None
    until = deletion.at if deletion else None
    end = reports.end_of(pod)
    events = [event for event in pod.events if event.at > since and (until is None or event.at < until)
              and not (event.word == "unready" and end is not None and end == (event.at, "Succeeded"))]
    is_ended = until is not None or any(eviction.number == pod.number for eviction in report.evictions)
    is_unready_now = not is_ended and is_unready(report, pod, trace)
    exits = [event for event in pod.events if event.at > since and event.word == "died"]
    return (of_events(pod, events, trace, is_unready_now) or by_rules_alone(pod, kubelet, since)
            or of_deletion(deletion, since) or first_of(Worst.EXITED, exits, trace) or Found(Worst.NOTHING))


def ended_by_node(report: reports.Report, pod: reports.Pod, kubelet: kubelets.Kubelet | None) -> Found | None:
    """That the kubelet evicted or ended a pod; or that the rules evict it, where no trace shows what the kubelet
    did."""
    fact = kubelet.fact(pod.number) if kubelet else None
    if fact is not None:
        return Found(Worst.ENDED, fact.decision.at, kubelets.event_words(fact.decision))
    if kubelet is not None:
        return None
    evicted = first_of(Worst.ENDED, [event for event in pod.events if event.word == "evicted"], None)
    by_kubelet = endings.ended_by_kubelet(report, pod)
    if evicted is None and by_kubelet is not None:
        at, reason = by_kubelet
        return Found(Worst.ENDED, at, kubelets.ended_words(reason))
    return evicted


def of_events(pod: reports.Pod, events: list[reports.Event], trace: traces.Trace | None,
              is_unready_now: bool) -> Found | None:
    """The worst of what was recorded of its containers; None where nothing of it is bad."""
    crashed = [event for event in events if event.word == "died" and event.rest[1] != "0"]
    kind = Worst.CRASHED_AND_NOT_READY if is_unready_now else Worst.CRASHED
    is_unknown = trace is not None and pod.number in trace.reasons.unknown_phases
    failed = [event for event in events if event.word == "phase" and event.rest[0] == "Failed" and not is_unknown]

    def of_word(worst: Worst, word: str) -> Found | None:
        return first_of(worst, [event for event in events if event.word == word], trace)

    return (killed(pod, events, trace) or first_of(kind, crashed, trace) or first_of(Worst.FAILED, failed, trace)
            or last_wait(pod, trace) or past_wait(pod, trace) or of_word(Worst.BACKED_OFF, "backoff")
            or of_word(Worst.RESTARTED, "restart")
            or of_word(Worst.NOT_READY, "unready") or (never_ready(pod, trace) if is_unready_now else None)
            or closed_gate(pod, trace))


def killed(pod: reports.Pod, events: list[reports.Event], trace: traces.Trace | None) -> Found | None:
    """The first kill that a probe ordered, with the exit that followed it."""
    found = first_of(Worst.KILLED, [event for event in events if event.word == "kill"], trace)
    if found is None:
        return None
    kill = next(event for event in events if event.word == "kill")
    died = telling.death_of(pod, kill)
    output, probe = telling.more_words(kill, trace), kill.rest[1]
    if died is None or telling.is_of_reboot(died, trace):
        return found
    code = reasons.code_words(died.rest[1], trace.reasons.end_of(died) if trace else None)
    what = (f"{kill.container} killed by its {probe} probe{output}, exited {code} "
            f"{telling.grace_words(kill, died, trace)}")
    return Found(Worst.KILLED, kill.at, what, found.times)


def first_of(worst: Worst, events: list[reports.Event], trace: traces.Trace | None) -> Found | None:
    if not events:
        return None
    event = events[0]
    said = " ".join(filter(None, [event.container, telling.event_words(event, True, trace, False)[1]]))
    return Found(worst, event.at, said, len(events))


def last_wait(pod: reports.Pod, trace: traces.Trace | None) -> Found | None:
    """Why a container still waits at the end."""
    waits = trace.reasons.waits_of(pod) if trace else []
    return next((Found(Worst.WAITS, wait.since, f"{name} waits: {wait.reason}") for name, wait in waits
                 if wait.until is None and wait.reason not in STARTING), None)


def past_wait(pod: reports.Pod, trace: traces.Trace | None) -> Found | None:
    """The longest wait that was over before the end, of those for something that was wrong."""
    waits = [(name, wait, wait.until - wait.since) for name, wait in (trace.reasons.waits_of(pod) if trace else ())
             if wait.until is not None and wait.reason not in (*STARTING, BACK_OFF)]
    if not waits:
        return None
    name, wait, seconds = max(waits, key=lambda each: each[2])
    return Found(Worst.WAITS, wait.since, f"{name} waited for {seconds} s: {wait.reason}", len(waits))


def never_ready(pod: reports.Pod, trace: traces.Trace | None) -> Found:
    closed = closed_gate(pod, trace) if pod.condition("ContainersReady").value == "True" else None
    if closed is not None:
        return closed
    said = [one for one in (trace.said.of(pod.number) if trace else ()) if one.reason in HOLDS_UP]
    because = f", {said[-1].reason}: {said[-1].message}" if said and said[-1].message else ""
    return Found(Worst.NOT_READY, pod.condition("Ready").at, f"not ready{because}")


def closed_gate(pod: reports.Pod, trace: traces.Trace | None) -> Found | None:
    """That a readiness gate is not true at the end. In versions 1 and 2 the rules know nothing of it."""
    gates = trace.reasons.gates_of(pod) if trace and pod.left is None else []
    return next((Found(Worst.NOT_READY, wait.since, f"not ready, since its readiness gate {gate} is false")
                 for gate, wait in gates if wait.until is None), None)


def is_unready(report: reports.Report, pod: reports.Pod, trace: traces.Trace | None) -> bool:
    """Whether a pod is there at the end, and is not ready."""
    is_there = pod.left is None and has_ticks(report, pod, trace)
    return is_there and pod.condition("Ready").value == "False" and pod.phase != "Succeeded"


def by_rules_alone(pod: reports.Pod, kubelet: kubelets.Kubelet | None, since: int) -> Found | None:
    if kubelet is None:
        named = [event for event in pod.events if event.word == "names" and event.at > since]
        return first_of(Worst.BY_RULES_ALONE, named, None)
    alone = kubelet.by_rules_alone(pod.number)
    if alone is None or alone.eviction.at <= since:
        return None
    does = f"the rules {kubelets.verb(alone.eviction)} it: {alone.eviction.signal} {alone.eviction.kind}"
    return Found(Worst.BY_RULES_ALONE, alone.eviction.at, f"{does}, the kubelet was not seen to evict it", alone.times)


def of_deletion(deletion: decided.Deletion | None, since: int) -> Found | None:
    if deletion is None or deletion.at <= since:
        return None
    return Found(Worst.DELETED, deletion.at, f"deleted{deletion.words()}")


# --- counts ---


def last_moment(report: reports.Report, trace: traces.Trace | None = None) -> int | None:
    """The moment of the trace's last tick; without a trace the last moment that the report names, which is no later.
    None without a tick."""
    if trace is not None and trace.ticks:
        return trace.ticks[-1].at
    return max(reports.moments(report)) if report.tick_count else None


def has_ticks(report: reports.Report, pod: reports.Pod, trace: traces.Trace | None) -> bool:
    """Whether some tick came after a pod's line, as the trace shows it or, without one, as far as the report shows."""
    if trace is None:
        return reports.has_ticks(report, pod)
    ours = trace.pods[pod.number]
    return ours.first < (len(trace.ticks) if ours.gone is None else ours.gone)


def unready_seconds(pod: reports.Pod, last: int, since: int = NEVER, trace: traces.Trace | None = None) -> int:
    """For how long the pod was not Ready after a moment, in the kubelet's status where the trace has it; else by the
    rules, or while one of its readiness gates was not true. It counts from its first tick until its end, or until it
    was gone, or else until the last moment."""
    end = reports.end_of_spans(pod)
    shown, gates = readiness.spans_of(trace, pod), closed_spans(pod, trace)
    spans = [span for span in (readiness.by_rules(trace, pod) if shown is None else shown) if span.value == "False"]
    whole = together([*spans, *gates]) if gates and shown is None else spans
    return seconds_of(whole, last if end is None else end, since)


def closed_spans(pod: reports.Pod, trace: traces.Trace | None) -> list[reports.Span]:
    """The spans in which a readiness gate of a pod was not true, of which a report has no event."""
    return [reports.Span("False", wait.since, wait.until) for _, wait in trace.reasons.gates_of(pod)] if trace else []


def together(spans: list[reports.Span]) -> list[reports.Span]:
    """Spans that overlap as one, by their begins."""
    found: list[reports.Span] = []
    for span in sorted(spans, key=lambda span: NEVER if span.since is None else span.since):
        before = found[-1] if found else None
        begin = NEVER if span.since is None else span.since
        if before is not None and (before.until is None or before.until >= begin):
            until = None if None in (before.until, span.until) else max(before.until or 0, span.until or 0)
            found[-1] = reports.Span(before.value, before.since, until)
        else:
            found.append(span)
    return found


def seconds_of(spans: list[reports.Span], last: int, since: int) -> int:
    """The seconds of spans after a moment, of those that are open to the last one."""
    lengths = [(last if span.until is None else min(span.until, last))
               - (since if span.since is None else max(span.since, since)) for span in spans]
    return sum(max(length, 0) for length in lengths)


def came_again(pod: reports.Pod, name: str, since: int = NEVER) -> int:
    """How many instances of a container came after another one, as far as they were recorded, after a moment."""
    first: dict[str, int] = {}
    for event in pod.events:
        if event.container == name and event.word in ("started", "died"):
            first.setdefault(event.rest[0], event.at)
    return sum(at > since for at in list(first.values())[1:])
