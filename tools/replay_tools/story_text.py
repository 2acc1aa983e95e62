"""The story of one pod, of a report and what its trace has next to it."""

from __future__ import annotations

from collections.abc import Callable
from typing import TYPE_CHECKING

from replay_tools import (asking, endings, kubelet as kubelets, own_restarts, provenance, readiness, reasons,
                          report as reports, why_text)
from replay_tools.joined import told as told_of_several
from replay_tools.telling import (DECIDED, OF_NODE, SAID_LATER, beside_words, containers_title, event_words,
                                  last_lines, node_lines, node_rows, rank_of, rank_of_said, resize_rows, table)

if TYPE_CHECKING:
    from replay_tools import traces

Show = Callable[[int], str]
# with its moment
Row = tuple[int, list[str]]


def restarts(report: reports.Report, pod: reports.Pod, show: Show, trace: traces.Trace | None) -> list[Row]:
    """Rows with their moments: each restart by the rules, and each later instance that came without one. What led to
    it: the kill order of the instance before, its death, the delay, and the thresholds that were active then."""
    rows: list[Row] = []
    causes: dict[tuple[str | None, str], list[str]] = {}
    newest: dict[str | None, str] = {}
    ordered: set[tuple[str | None, str]] = set()
    last_death: dict[str | None, list[str]] = {}
    thresholds = reports.Thresholds(report)

    def add(event: reports.Event, attempt: str, by: str) -> None:
        led = "; ".join(causes.get((event.container, attempt), ["not in the report"]))
        led += beside_words(pod, event, show, trace)
        rows.append((event.at, [show(event.at), event.container or "-", attempt, by, led]))

    for event in pod.events:
        name, rest = event.container, event.rest
        if event.word == "kill":
            causes.setdefault((name, rest[0]), []).append(f"kill order at {show(event.at)} ({rest[1]})")
        elif event.word == "died":
            said = causes.setdefault((name, rest[0]), [])
            how = event_words(event, trace=trace, is_whole=False)[1].removeprefix("died")
            said.append(f"died at {show(event.at)}{how}{own_restarts.clause(pod, event, trace)}")
            for (signal, kind), since in thresholds.at(event.at).items():
                said.append(f"threshold {signal} {kind} active since {show(since)}")
            last_death[name] = said
        elif event.word == "backoff":
            last_death.get(name, []).append(f"backed off by {rest[0]} s")
        elif event.word == "restart":
            ordered.add((name, rest[0]))
            add(event, rest[0], "ordered")
        if event.word in ("started", "died"):
            # an instance that never ran is seen by its death alone
            before = newest.get(name, rest[0])
            if before != rest[0] and (name, before) not in ordered:
                add(event, before, "recorded")
            newest[name] = rest[0]
    return rows


def candidates(report: reports.Report, at: int) -> int:
    """How many pods had not ended when the eviction of a moment was decided."""
    count = 0
    early = any(event.at == 0 for event in report.events)
    for pod in report.pods:
        first = reports.first_tick(pod)
        without_ticks = first == 0 and not pod.events and not early
        here = first <= at and not without_ticks and (pod.left is None or at < pod.left)
        if here and not endings.had_ended(pod, at):
            count += 1
    return count


def evictions(report: reports.Report, pod: reports.Pod, show: Show) -> list[list[str]]:
    """A row for each eviction of the pod."""
    rows = []
    thresholds = reports.Thresholds(report)
    for place, eviction in enumerate(report.evictions, 1):
        if eviction.number != pod.number:
            continue
        since = thresholds.at(eviction.at).get((eviction.signal, eviction.kind))
        rows.append([show(eviction.at), eviction.signal, eviction.kind, show(since) if since is not None else "-",
                     f"{eviction.grace} s", f"first of {candidates(report, eviction.at)}",
                     f"{place} of {len(report.evictions)}"])
    return rows


def events(report: reports.Report, pod: reports.Pod, show: Show, kubelet: kubelets.Kubelet | None,
           trace: traces.Trace | None, is_near: Callable[[int], bool]) -> list[str]:
    """A table of the pod's events near the moment, of what was reported of it, of what the kubelet did to it, of its
    resizes and its deletion, and of what happened to the node."""
    rows = [(at, OF_NODE, ["-", "-", what]) for at, what, _ in
            (node_rows(trace, report, pod, show) if trace else ())]
    for event in pod.events:
        attempt, what = event_words(event, kubelet is not None, trace)
        cells, rank = [event.container or "-", attempt or "-"], rank_of(event)
        rows.append((event.at, rank, [*cells, what + beside_words(pod, event, show, trace)]))
        rows += [(event.at, rank, [*cells, wrote]) for wrote in last_lines(event, trace)]
    rows += [(at, DECIDED, [name, "-", what]) for at, name, what in resize_rows(trace, pod, show)]
    rows += [(at, SAID_LATER, ["-", "-", what]) for at, what in readiness.rows(trace, pod)]
    rows += [(said.at, rank_of_said(said), [said.container or "-", "-", said.words()])
             for said in (trace.said.of(pod.number) if trace else ())]
    fact = kubelet and kubelet.fact(pod.number)
    if fact:
        rows.append((fact.decision.at, DECIDED, ["-", "-", kubelets.event_words(fact.decision)]))
    if trace and pod.number in trace.deletions:
        deletion = trace.deletions[pod.number]
        rows.append((deletion.at, DECIDED, ["-", "-", why_text.DELETED.format(by=deletion.words())]))
    kept = [[show(at), *row] for at, _, row in sorted(rows, key=lambda row: row[:2]) if is_near(at)]
    return table(without("Events", len(rows) - len(kept)), ["moment", "container", "attempt", "event"], kept)


def without(title: str, count: int) -> str:
    """The title of a table that leaves out what is further from the moment that was asked for."""
    return f"{title}, without {count} further from that moment" if count else title


def conditions(pod: reports.Pod, show: Show, given: asking.Given) -> list[list[str]]:
    """A row for each span of a condition that is near; the last ends with the pod."""
    rows, last = [], "end" if pod.left is None else show(pod.left)
    for condition in pod.conditions:
        spans = readiness.by_rules(given.trace, pod) if condition.kind == "Ready" \
            else reports.condition_spans(pod, condition)
        for span in filter(given.is_span_near, spans):
            rows.append([condition.kind, span.value, "-" if span.since is None else show(span.since),
                         last if span.until is None else show(span.until), condition.reason or "-"])
    return rows


def waits(pod: reports.Pod, show: Show, trace: traces.Trace | None) -> list[str]:
    """The lines of a table of why its containers waited, where the trace shows it."""
    rows = [[show(wait.since), name, "end" if wait.until is None else show(wait.until), wait.words()]
            for name, wait in (trace.reasons.waits_of(pod) if trace else ())]
    return table("Waits", ["from", "container", "until", "why"], rows) if rows else []


def gates(pod: reports.Pod, show: Show, trace: traces.Trace | None) -> list[str]:
    """The lines of a table of its readiness gates that were false, where the trace shows it. In versions 1 and 2 the
    rules know none."""
    rows = [[show(wait.since), gate, "end" if wait.until is None else show(wait.until)]
            for gate, wait in (trace.reasons.gates_of(pod) if trace else ())]
    title = "Not ready by a readiness gate"
    title += "" if readiness.closed_gates(trace, pod) else ", whatever the conditions are"
    return table(title, ["from", "gate", "until"], rows) if rows else []


def story(given: asking.Given, pod: reports.Pod, show: Show, kubelet: kubelets.Kubelet | None = None) -> str:
    """All that the report has of a pod: what it came to, and the tables below it; first what the kubelet did."""
    report, trace, rows = given.report, given.trace, restarts(given.report, pod, show, given.trace)
    ours = trace.pods[pod.number] if trace else None
    containers = [[found.name, found.state, reasons.code_words(found.code, reasons.last_end(pod, found, trace)),
                   found.restarts, found.ready, found.started] for found in pod.containers]
    ended = provenance.end_of(trace, pod)
    reason = "" if pod.reason == "-" else f" ({pod.reason})"
    is_evicted = kubelet is not None and (pod.reason == "Evicted" or kubelet.fact(pod.number) is not None)
    names = kubelet is not None and kubelet.names
    is_by_rules = is_evicted and not names and endings.ended_by_kubelet(report, pod) is None
    by_rules = "by the rules " if is_by_rules else ""
    lines = [f"{pod.key} on {report.node}{reports.number_words(report, pod)}: {by_rules}"
             f"{provenance.phase_words(trace, pod)}{reason}, "
             f"{provenance.class_words(ours, pod.qos)}", *provenance.head_lines(trace, show),
             *provenance.manifest_lines(ours), *provenance.doubt_lines(trace, pod, show),
             *kubelets.lines_of(kubelet, pod.number, show),
             *(node_lines(trace, report, [pod], show, given.since) if trace else []),
             asking.worst_line(given, pod, show, kubelet),
             f"first tick {show(reports.first_tick(pod))}"
             + (f", ended {by_rules}{show(ended[0])} as {ended[1]}" if ended else "")
             + (f", gone before {show(pod.left)}" if pod.left is not None else ""),
             *filter(None, [readiness.gate_words(trace, pod, show)]), ""]
    if given.several:
        fact = kubelet.fact(pod.number) if kubelet is not None else None
        lines[1:1] = [*told_of_several.nearest_lines(given.several, pod, rows, fact, show),
                      *told_of_several.head_lines(given.several, show)]
    lines += table(containers_title(pod, ended), ["container", "state", "code", "restarts", "ready", "started"],
                   containers)
    lines += events(report, pod, show, kubelet, trace, given.is_near)
    lines += waits(pod, show, trace) + gates(pod, show, trace)
    kept = [row for at, row in rows if given.is_near(at)]
    lines += table(without("Restarts", len(rows) - len(kept)), ["moment", "container", "of attempt", "by", "led to by"],
                   kept)
    lines += table("Conditions", ["condition", "value", "from", "until", "reason"],
                   conditions(pod, show, given))
    lines += table("Eviction by the rules", ["moment", "signal", "kind", "active since", "grace", "rank", "eviction"],
                   evictions(report, pod, show))
    return "\n".join(lines[:-1]) + "\n"
