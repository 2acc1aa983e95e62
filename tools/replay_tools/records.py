"""A report as records: dicts of plain values by name, as docs/report.schema.json shows. Moments and lengths are in
seconds of the trace. What a record does not have is left out of it; what is there and unknown is None."""

from __future__ import annotations

from collections.abc import Iterator
from typing import Any, TYPE_CHECKING

from replay_tools import (events, kubelet as kubelets, own_restarts, provenance, readiness, reasons, report as reports,
                          summary as summing)
from replay_tools.summary import NEVER, came_again, last_moment, seconds_of

if TYPE_CHECKING:
    from replay_tools import traces


def records_of(report: reports.Report, kubelet: kubelets.Kubelet | None = None, trace: traces.Trace | None = None,
               span: tuple[int, int] | None = None, known: int = NEVER) -> Iterator[dict[str, Any]]:
    """Each record of a report: the node, its events, its pods with their containers, conditions and resizes, its own
    conditions, and the evictions; then what the kubelet did, and why instances died and containers waited, where a
    trace shown it. The span are the moments of the trace's first and last tick, where they are known. What is by the
    moment `known` was so in the trace that this one follows, and is counted there."""
    if span is None and trace is not None and trace.ticks:
        span = trace.ticks[0].at, trace.ticks[-1].at
    last = span[1] if span else last_moment(report)
    yield node_record(report, span[0] if span else first_moment(report), last, known) | (
        {} if kubelet is None else {"tells_kubelet": True}) | of_trace(trace)
    for number, event in enumerate(report.events):
        yield (event_record(report, number, event) | moment_fields(event, trace) | reason_fields(event, trace)
               | restart_fields(report, event, trace))
    for number, border in enumerate(report.borders):
        yield border_record(report, number, border)
    ranked = summing.summaries(report, trace, kubelet, last, known)
    ranks = {summary.number: (rank, summary) for rank, summary in enumerate(ranked, 1)}
    for pod in report.pods:
        yield (pod_record(report, pod, *ranks[pod.number], known, trace) | deletion_fields(pod, trace)
               | manifest_fields(pod, trace))
        for container in pod.containers:
            yield container_record(report, pod, container, known, trace)
        for condition in pod.conditions:
            yield condition_record(report, condition, pod)
        yield from resize_records(report, pod, trace)
    for condition in report.conditions:
        yield condition_record(report, condition, None)
    for number, eviction in enumerate(report.evictions):
        yield eviction_record(report, number, eviction, kubelet)
    decisions = kubelet.decisions() if kubelet is not None else ()
    for number, (decision, fact) in enumerate(each for each in decisions if each[0].at > known):
        yield decision_record(report, number, decision, fact)
    if trace is not None:
        yield from cause_records(report, trace, last or 0, known)


def of_trace(trace: traces.Trace | None) -> dict[str, Any]:
    """When the kubelet was started again, and whether the trace was imported, where a trace shows one of these."""
    if trace is None:
        return {}
    starts = trace.kubelet_starts()
    return ({"kubelet_started_at": starts} if starts else {}) | ({"imported": True} if trace.is_imported() else {})


def first_moment(report: reports.Report) -> int | None:
    """The first moment that the report names, which is the first tick's; None without a tick."""
    named = [event.at for event in report.events] + reports.node_moments(report)
    named += [reports.first_tick(pod) for pod in report.pods if reports.has_ticks(report, pod)]
    return min(named) if report.tick_count else None


def node_record(report: reports.Report, first: int | None, last: int | None, known: int = NEVER) -> dict[str, Any]:
    updates, events, orders = report.totals
    return {
        "record": "node", "node": report.node, "pods": report.pod_count, "ticks": report.tick_count,
        "first_moment": first, "last_moment": last, "updates": updates, "pod_events": events, "orders": orders,
        "restarts": sum(int(container.restarts) for pod in report.pods for container in pod.containers),
        "evictions": len(report.evictions),
        **{PRESSURES[kind]: pressure_seconds(report, kind, last, known) for kind in reports.CONDITIONS},
    }


PRESSURES = {"MemoryPressure": "memory_pressure_seconds", "DiskPressure": "disk_pressure_seconds",
             "PIDPressure": "pid_pressure_seconds"}


def pressure_seconds(report: reports.Report, kind: str, last: int | None, known: int = NEVER) -> int:
    """For how long a condition of the node was True, until the last moment; without a tick it never was."""
    return 0 if last is None else seconds_of(reports.pressure_spans(report, kind), last, known)


def border_record(report: reports.Report, number: int, border: reports.Border) -> dict[str, Any]:
    """Where the next of several traces begins."""
    return {"record": "border", "node": report.node, "number": number, "since": border.since, "at": border.at,
            "is_gap": border.is_gap, "trace": border.name, "missing": border.missing}


def event_record(report: reports.Report, number: int, event: reports.Event) -> dict[str, Any]:
    record = {"record": "event", "node": report.node, "number": number, "at": event.at, "event": event.word}
    if event.pod is not None:
        record.update(pod=event.pod, pod_number=event.number)
    if event.container is not None:
        record["container"] = event.container
    if event.was_so:
        record["so_before"] = True
    kind = events.kinds()[event.word]
    if event.anew is not None and kind.is_counted:
        record["counted_anew_since"] = event.anew
    return record | kind.values(event.rest)


def moment_fields(event: reports.Event, trace: traces.Trace | None) -> dict[str, Any]:
    """That the moment of a start or a death is guessed, as a trace marks it."""
    return {"moment_is_known": False} if trace is not None and trace.reasons.within_words(event) else {}


def reason_fields(event: reports.Event, trace: traces.Trace | None) -> dict[str, Any]:
    """Of a death why, as a trace shows it: whether the code is the instance's own, the reason, the message; and of the
    end of a pod that its phase is unknown."""
    if reasons.is_phase_unknown(event, trace):
        return {"phase_is_unknown": True}
    if event.word != "died" or trace is None:
        return {}
    end = trace.reasons.end_of(event)
    guessed = {"code": None} if reasons.is_guessed(event, trace) else {}
    return {**guessed, "code_is_known": reasons.is_known(event, trace), "reason": end.reason if end else None,
            "message": end.message if end else None}


def restart_fields(report: reports.Report, event: reports.Event, trace: traces.Trace | None) -> dict[str, Any]:
    """Of a death, which of the container's own policy and rules decided about a restart, if one of these did."""
    found = None if event.number is None else own_restarts.sentence(report.pods[event.number], event, trace)
    return {} if found is None else {"restart_words": found}


def pod_record(report: reports.Report, pod: reports.Pod, rank: int, summary: summing.Summary,
               known: int = NEVER, trace: traces.Trace | None = None) -> dict[str, Any]:
    """A pod, with what its events come to, and its summary and rank as all tools show them."""
    namespace, _, name = pod.key.partition("/")
    ended, ready, seen = reports.end_of(pod), pod.condition("Ready"), reports.has_ticks(report, pod)
    evicted = next((eviction for eviction in report.evictions if eviction.number == pod.number), None)
    return {
        "record": "pod", "node": report.node, "number": pod.number, "pod": pod.key, "namespace": namespace,
        "name": name, "phase": pod.phase, "reason": none_of(pod.reason), "qos": pod.qos,
        "ready": ready.value == "True", "ready_since": ready.at if seen else None,
        "first_tick": reports.first_tick(pod) if seen else None,
        "ended_at": ended[0] if ended else None, "ended_as": ended[1] if ended else None,
        "restarts": summary.all_restarts, "restarts_since": summary.restarts,
        "deaths": count(pod, "died", known=known), "kills": count(pod, "kill", known=known),
        "backoffs": count(pod, "backoff", known=known), "named": count(pod, "names", known=known),
        "became_unready": became_unready(pod, known, trace), "unready_seconds": summary.unready_seconds,
        "evicted_at": evicted.at if evicted else None, "evicted_signal": evicted.signal if evicted else None,
        "evicted_kind": evicted.kind if evicted else None, "worst": summary.found.worst.value,
        "worst_at": summary.found.at, "worst_words": summary.found.words or None, "rank": rank,
    }


def manifest_fields(pod: reports.Pod, trace: traces.Trace | None) -> dict[str, Any]:
    """Where its manifest is unknown, that it is, and with it the class; the same of its phase, and of what it does."""
    is_guessed = trace is not None and trace.pods[pod.number].is_guessed
    found: dict[str, Any] = {"qos": None, "manifest_is_unknown": True} if is_guessed else {}
    is_unknown = provenance.phase_words(trace, pod) == provenance.UNKNOWN_PHASE
    found |= {"phase": None, "ended_as": None, "phase_is_unknown": True} if is_unknown else {}
    doubted = trace.reasons.doubted.get(pod.number) if trace is not None else None
    return found | ({"state_is_guessed_at": doubted} if doubted is not None else {})


def deletion_fields(pod: reports.Pod, trace: traces.Trace | None) -> dict[str, Any]:
    deletion = trace.deletions.get(pod.number) if trace else None
    return {"deleted_at": deletion.at if deletion else None, "deleted_by": deletion.by if deletion else None,
            "deletion_grace_seconds": deletion.grace if deletion else None}


def became_unready(pod: reports.Pod, known: int = NEVER, trace: traces.Trace | None = None) -> int:
    """How often Ready went from True to False, the pod's end included."""
    spans = readiness.by_rules(trace, pod)
    return sum(before.value == "True" and after.value == "False" and after.since is not None and after.since > known
               for before, after in zip(spans, spans[1:]))


def count(pod: reports.Pod, word: str, name: str | None = None, known: int = NEVER) -> int:
    return sum(event.word == word and name in (None, event.container) and event.at > known for event in pod.events)


def none_of(text: str) -> str | None:
    return None if text == "-" else text


def container_record(report: reports.Report, pod: reports.Pod, container: reports.Container,
                     known: int = NEVER, trace: traces.Trace | None = None) -> dict[str, Any]:
    """A container, with how often each event was of it."""
    end = reasons.last_end(pod, container, trace)
    has_code = container.code != "-" and not (end is not None and end.is_guessed)
    return {
        "record": "container", "node": report.node, "pod": pod.key, "pod_number": pod.number, "name": container.name,
        "state": container.state, "code": int(container.code) if has_code else None,
        "restarts": int(container.restarts), "ready": container.ready == "true",
        "started": container.started == "true", "starts": count(pod, "started", container.name, known),
        "deaths": count(pod, "died", container.name, known), "kills": count(pod, "kill", container.name, known),
        "backoffs": count(pod, "backoff", container.name, known), "came_again": came_again(pod, container.name),
    }


def condition_record(report: reports.Report, condition: reports.Condition, pod: reports.Pod | None) -> dict[str, Any]:
    return {
        "record": "condition", "node": report.node, "pod": pod.key if pod else None,
        "pod_number": pod.number if pod else None, "condition": condition.kind, "value": condition.value == "True",
        "since": condition.at, "reason": condition.reason,
    }


def resize_records(report: reports.Report, pod: reports.Pod, trace: traces.Trace | None) -> Iterator[dict[str, Any]]:
    """The resizes of a pod's containers, with the requests and limits before and after them, as the trace has them."""
    for resize in trace.resizes.of_pod(pod.number) if trace is not None else ():
        yield {"record": "resize", "node": report.node, "pod": pod.key, "pod_number": pod.number,
               "container": resize.container.name, "at": resize.at, "words": resize.sentence(),
               "before": resize.before.resources, "after": resize.container.resources,
               **({"so_before": True} if resize.was_so else {})}


def cause_records(report: reports.Report, trace: traces.Trace, last: int,
                  known: int = NEVER) -> Iterator[dict[str, Any]]:
    """Of each container why its instances died and why it waited: a record for each reason and code, and for each
    reason of waiting."""
    for pod in report.pods:
        found: dict[tuple[Any, ...], dict[str, Any]] = {}
        for event in pod.events:
            if event.word == "died" and event.at > known:
                end = trace.reasons.end_of(event)
                code = int(event.rest[1]) if reasons.is_known(event, trace) else None
                add_cause(found, (event.container, "died", end.reason if end else None, code), event.at, None,
                          end.message if end else None)
        for name, wait in trace.reasons.waits_of(pod):
            if wait.until is None or wait.until > known:
                seconds = (last if wait.until is None else wait.until) - max(wait.since, known)
                add_cause(found, (name, "waited", wait.reason, None), max(wait.since, known), seconds, wait.message,
                          wait.since > known)
        for (name, cause, reason, code), rest in found.items():
            yield {"record": "cause", "node": report.node, "pod": pod.key, "pod_number": pod.number, "container": name,
                   "cause": cause, "reason": reason, "code": code} | rest


def add_cause(found: dict[Any, Any], key: tuple[Any, ...], at: int, seconds: int | None, message: str | None,
              begins: bool = True) -> None:
    """Counts one more death or wait of a cause, or the seconds alone of a wait that did not begin there; of the
    messages the last one is kept."""
    rest = found.setdefault(key, {"times": 0, "seconds": None, "first_at": at, "last_at": at, "message": None})
    rest["times"] += begins
    rest["last_at"] = at
    rest["seconds"] = None if seconds is None else (rest["seconds"] or 0) + seconds
    rest["message"] = message or rest["message"]


def eviction_record(report: reports.Report, number: int, eviction: reports.Eviction,
                    kubelet: kubelets.Kubelet | None) -> dict[str, Any]:
    record = {
        "record": "eviction", "node": report.node, "number": number, "at": eviction.at, "pod": eviction.pod,
        "pod_number": eviction.number, "signal": eviction.signal, "kind": eviction.kind,
        "grace_seconds": eviction.grace,
    }
    if kubelet is None:
        return record
    fact = kubelet.fact(eviction.number)
    return record | {"kubelet_at": fact.decision.at if fact else None}


def decision_record(report: reports.Report, number: int, decision: traces.Decision,
                    fact: kubelets.Fact | None) -> dict[str, Any]:
    """What the kubelet did to a pod, and whether the rules agree; a rejected pod is none that they evict."""
    record = {"record": "decision", "node": report.node, "number": number, "at": decision.at, "pod": decision.pod,
              "pod_number": decision.number, "decision": decision.kind, "reason": decision.reason,
              "message": decision.message, "rules_at": None, "agrees": None, "causes": None}
    if fact is not None:
        causes = kubelets.causes_text(fact.causes, str).removeprefix("; ")
        record |= {"rules_at": fact.eviction.at if fact.eviction else None,
                   "agrees": None if fact.is_imported else fact.agrees, "causes": causes or None}
    return record
