"""Prints what a trace has around the events of a pod, as lines of text."""

from __future__ import annotations

from collections.abc import Callable
from typing import Any, TYPE_CHECKING

from replay_tools import entry, events, kubelet as kubelets, provenance, readiness, reasons, traces, why
from replay_tools.amounts import amount_text
from replay_tools.signals import BYTE_SIGNALS
from replay_tools.telling import (DECIDED, OF_NODE, SAID_LATER, beside_words, event_words, moments_text, node_rows,
                                  rank_of, rank_of_said, resize_rows, table)

if TYPE_CHECKING:
    from replay_tools import report as reports
    from replay_tools.record.explained_events import Explained

MOST_ROWS = 12
DELETED = "being deleted{by} from here on: nothing of it is restarted"
ORDERS = {True: "usage above the request first, then lower priority, then more usage above it, then lower number",
          False: "lower priority first, then greater usage, then lower number"}


def always(_: int) -> bool:
    return True


def whole_text(trace: traces.Trace, report: reports.Report, pod: reports.Pod, show: Callable[[int], str],
               kubelet: kubelets.Kubelet | None = None, is_near: Callable[..., Any] = always,
               explained: dict[str, Explained] | None = None) -> str:
    """The lines for each event of a pod of the report, and for what the kubelet did to it, of moments that are near;
    show writes a moment. The causes of an event are those that the program has given, by its line, if it has."""
    parts = [(around.event.at, rank_of(around.event),
              [heading(around.event, show, kubelet, trace) + beside_words(pod, around.event, show, trace),
               *beside(pod, around, show, kubelet), *told(trace, pod, around, show, explained or {}),
               *throttled_lines(around, show)])
             for around in why.around_events(trace, report, pod)]
    parts += [(at, DECIDED, lines) for at, lines in kubelet_parts(trace, report, pod, show, kubelet)]
    parts += [(at, SAID_LATER, lines) for at, lines in wait_parts(trace, pod, show) + gate_parts(trace, pod, show)]
    parts += [(said.at, rank_of_said(said),
               [" ".join(filter(None, [f"{show(said.at)} ", said.container, said.words()]))])
              for said in trace.said.of(pod.number)]
    parts += [(at, DECIDED, [f"{show(at)}  {name} {what}"]) for at, name, what in resize_rows(trace, pod, show)]
    parts += [(at, SAID_LATER, [f"{show(at)}  {what}"]) for at, what in readiness.rows(trace, pod)]
    parts += [(at, OF_NODE, [f"{show(at)}  {what}", *lines])
              for at, what, lines in node_rows(trace, report, pod, show)]
    lines, kept = [], [part for part in parts if is_near(part[0])]
    for _, _, (head, *rest) in sorted(kept, key=lambda part: part[:2]):
        lines += [head, *(f"  {line}".rstrip() for line in rest), ""]
    if len(kept) < len(parts):
        count = len(parts) - len(kept)
        lines += [f"{entry.counted(count, 'event')} further from the moment that was asked for "
                  f"{'is' if count == 1 else 'are'} left out", ""]
    lines = lines or ["no event", ""]
    gone = trace.pods[pod.number].gone
    if gone is not None:
        last = show(trace.ticks[gone].at) if gone < len(trace.ticks) else "the end of the trace"
        lines += [f"The trace lets the pod go before {last}.", ""]
    return "\n".join(lines[:-1]) + "\n"


def beside(pod: reports.Pod, around: why.Around, show: Callable[[int], str],
           kubelet: kubelets.Kubelet | None) -> list[str]:
    """What the kubelet did, below an eviction by the rules."""
    return kubelets.lines_of(kubelet, pod.number, show) if around.event.word in why.OF_RULES else []


def kubelet_parts(trace: traces.Trace, report: reports.Report, pod: reports.Pod, show: Callable[[int], str],
                  kubelet: kubelets.Kubelet | None) -> list[tuple[int, list[str]]]:
    """What the kubelet did to a pod, next to what the rules do, by moment."""
    fact = None if kubelet is None else kubelet.fact(pod.number)
    if kubelet is None or fact is None:
        return []
    head = f"{show(fact.decision.at)}  {kubelets.event_words(fact.decision)}"
    if fact.decision.kind != "evicted":
        return [(fact.decision.at, [head])]
    lines = [kubelets.rules_words(fact, show, kubelet.names)]
    is_over = fact.eviction is not None and fact.eviction.at <= fact.decision.at + kubelets.NEAR
    around = None if is_over else kubelets.around(trace, report, fact.decision)
    if around is not None:
        lines += evicted_lines(around, show, True)
    return [(fact.decision.at, [head, *lines])]


def wait_parts(trace: traces.Trace, pod: reports.Pod, show: Callable[[int], str]) -> list[tuple[int, list[str]]]:
    """Why the containers of a pod waited, by moment."""
    return [(wait.since, [f"{show(wait.since)}  {name} waits: {wait.words()}",
                          f"until {'the end of the trace' if wait.until is None else show(wait.until)}"])
            for name, wait in trace.reasons.waits_of(pod)]


def gate_parts(trace: traces.Trace, pod: reports.Pod, show: Callable[[int], str]) -> list[tuple[int, list[str]]]:
    """Which readiness gates kept a pod from being Ready, by moment."""
    return [(wait.since, [f"{show(wait.since)}  readiness gate {gate} is not True, so the pod is not Ready",
                          f"until {'the end of the trace' if wait.until is None else show(wait.until)}"])
            for gate, wait in readiness.closed_gates(trace, pod)]


def heading(event: reports.Event, show: Callable[[int], str], kubelet: kubelets.Kubelet | None = None,
            trace: traces.Trace | None = None) -> str:
    attempt, what = event_words(event, kubelet is not None, trace)
    said = " ".join(filter(None, [event.container, what]))
    return f"{show(event.at)}  {said}{events.attempt_words(attempt)}"


def told(trace: traces.Trace, pod: reports.Pod, around: why.Around, show: Callable[[int], str],
         explained: dict[str, Explained]) -> list[str]:
    """The lines below the heading of an event."""
    word = around.event.word
    because = reasons.because_lines(around.event, trace) if word == "died" else []
    if explained:
        from replay_tools import causes_text, program_causes
        causes = explained.get(program_causes.line_of(around.event))
        if causes is not None:
            return because + causes_text.lines_of(causes, show, trace) + use_lines(trace, around, show)
    if word in ("started", "died"):
        return because + listed_lines(around.listed[0][1], show) + use_lines(trace, around, show)
    if word == "phase":
        return table("the tick lists:", ["container", "attempt", "state", "code"],
                     [[name, *listing_cells(listed.now)] for name, listed in around.listed])[:-1]
    if word in ("backoff", "restart"):
        return exit_lines(trace, pod, around, show)
    if word in why.OF_RULES:
        return ["once more, as above"] if around.evicted is None else evicted_lines(around.evicted, show)
    if around.died:
        return ["it died at this tick"]
    if not around.results:
        if trace.pods[pod.number].is_guessed:
            return [f"{provenance.UNKNOWN_MANIFEST}: whether it has probes is too"]
        return ["it has no startup and no readiness probe"]
    return [line for results in around.results for line in result_lines(results, show)]


def use_lines(trace: traces.Trace, around: why.Around, show: Callable[[int], str]) -> list[str]:
    """What an instance that ran out of memory had used: the first sample and the last ones."""
    end = trace.reasons.end_of(around.event) if around.uses else None
    if end is None or end.reason != reasons.OUT_OF_MEMORY:
        return []
    uses = around.uses
    kept = uses if len(uses) <= MOST_ROWS else [uses[0], *uses[1 - MOST_ROWS :]]
    rows = [[show(use.at), amount_text(None if use.memory is None else 1000 * use.memory, True),
             "-" if use.cpu is None else f"{use.cpu / 1000:g}"] for use in kept]
    lines = table("what it used:", ["moment", "memory", "cores"], rows)[:-1]
    return lines + left_out(len(uses) - len(kept), "samples after the first")


def throttled_lines(around: why.Around, show: Callable[[int], str]) -> list[str]:
    """For how long the processor of the instance was throttled up to an event, if the trace has it."""
    found = around.throttled
    if found is None or around.died:
        return []
    lately = f" for {seconds_text(found.lately)} s of the {found.until - found.since} s to {show(found.until)}, and" \
        if found.since < found.until else ""
    return [f"its processor was throttled{lately} for {seconds_text(found.whole)} s since it began"]


def seconds_text(thousandths: int) -> str:
    return f"{thousandths / 1000:.1f}".removesuffix(".0")


def listing_cells(listing: traces.Listing | None) -> list[str]:
    if listing is None:
        return ["-", "not listed", "-"]
    return [str(listing.attempt), listing.state, "-" if listing.code is None else str(listing.code)]


def listing_words(listing: traces.Listing | None) -> str:
    if listing is None:
        return "did not list it"
    code = "" if listing.code is None else f" with code {listing.code}"
    return f"listed attempt {listing.attempt} as {listing.state}{code}"


def listed_lines(listed: why.Listed, show: Callable[[int], str]) -> list[str]:
    lines = [f"this tick {listing_words(listed.now)}"]
    if listed.before_at is None:
        return [*lines, "no tick before it listed anything else"]
    return [*lines, f"until {show(listed.before_at)} the ticks {listing_words(listed.before)}"]


def result_lines(results: why.Results, show: Callable[[int], str]) -> list[str]:
    """A probe with its thresholds, and the results that count towards them."""
    probe = results.probe
    since = "the first tick" if results.since is None else show(results.since)
    head = f"{results.kind} results since the instance started at {since}:"
    kept = results.runs[-MOST_ROWS:]
    rows = [[result or "-", str(len(moments)), moments_text(moments, show)] for result, moments in kept]
    lines = [f"{results.kind}Probe: failureThreshold {probe.failure_threshold}, "
             f"successThreshold {probe.success_threshold}, initialDelaySeconds {probe.initial_delay}, "
             f"periodSeconds {probe.period}"]
    lines += table(head, ["result", "in a row", "moments"], rows)[:-1]
    return lines + left_out(len(results.runs) - len(kept), "earlier runs of results")


def left_out(count: int, what: str) -> list[str]:
    return [f"{count} {what} are left out"] if count > 0 else []


def exit_lines(trace: traces.Trace, pod: reports.Pod, around: why.Around, show: Callable[[int], str]) -> list[str]:
    kept = around.exits[-MOST_ROWS:]
    name, most = around.event.name, trace.greatest_delay()
    policy = next(one.restarting for one in trace.pods[pod.number].containers if one.name == name).policy_words()
    rows = [[str(found.number), str(found.attempt), "-" if found.started is None else show(found.started),
             show(found.died), f"{found.run} s",
             reasons.code_words(found.code, trace.reasons.ends.get((pod.number, name, found.attempt))),
             reason_of(trace, pod, name, found)] for found in kept]
    # a trace without reasons has no such column
    kept_columns = 7 if any(row[6] != "-" for row in rows) else 6
    lines = table(f"exits that count (policy {policy}, greatest delay {most} s):",
                  ["number", "attempt", "started", "died", "run", "code", "reason"][:kept_columns],
                  [row[:kept_columns] for row in rows])[:-1]
    return lines + left_out(len(around.exits) - len(kept), "earlier exits")


def reason_of(trace: traces.Trace, pod: reports.Pod, name: str, found: why.Exit) -> str:
    end = trace.reasons.ends.get((pod.number, name, found.attempt))
    return end.reason if end is not None and end.reason else "-"


def evicted_lines(evicted: why.Evicted, show: Callable[[int], str], is_kubelets: bool = False) -> list[str]:
    """The threshold of an eviction, its samples, and the pods in the order in which the rules rank them."""
    of_bytes = evicted.signal in BYTE_SIGNALS
    lines = threshold_lines(evicted, of_bytes, show) + pause_lines(evicted, show, is_kubelets)
    lines += sample_lines(evicted, of_bytes, show, is_kubelets) if evicted.samples else ["no sample is near it"]
    if not evicted.candidates:
        return [*lines, "each pod that was present is exempt, so none is ranked"]
    with_requests = any(candidate.request is not None for candidate in evicted.candidates)
    rows = [candidate_row(place, candidate, of_bytes, show, victim_word(evicted))
            for place, candidate in enumerate(evicted.candidates, 1)]
    lines += table("pods that were present and had not ended:",
                   ["place", "pod", "usage", "request", "above", "priority", "class", ""], rows)[:-1]
    lines += [f"their order: {order_words(evicted, with_requests)}"]
    if evicted.spared:
        lines += [f"exempt, and no candidates: {', '.join(evicted.spared[:MOST_ROWS])}"]
        lines += left_out(len(evicted.spared) - MOST_ROWS, "more of these")
    if not evicted.is_victim_first:
        lines += [f"the {victim_word(evicted)} pod does not come first in it"]
    return lines


def victim_word(evicted: why.Evicted) -> str:
    return "named" if evicted.is_named else "evicted"


def threshold_lines(evicted: why.Evicted, of_bytes: bool, show: Callable[[int], str]) -> list[str]:
    since = "" if evicted.since is None or evicted.threshold is None else f"; active since {show(evicted.since)}"
    return [threshold_words(evicted, of_bytes) + since]


def pause_lines(evicted: why.Evicted, show: Callable[[int], str], is_kubelets: bool) -> list[str]:
    if not evicted.pause:
        return []
    whose = "the rules' eviction" if is_kubelets else "the eviction"
    before = "no eviction before" if evicted.before is None else f"{whose} before was at {show(evicted.before)}"
    return [f"{pause_words(evicted)}; {before}"]


def pause_words(evicted: why.Evicted) -> str:
    return f"evictionPauseSeconds {evicted.pause}{', or until the evicted pod has ended' if evicted.until_gone else ''}"


def order_words(evicted: why.Evicted, with_requests: bool) -> str:
    """How the rules rank the pods; of processes the priority goes before that there is no sample."""
    has_one = any(candidate.unsampled_at is not None for candidate in evicted.candidates)
    first = "without a sample first, then " if has_one and evicted.signal != "pid.available" else ""
    return first + ORDERS[with_requests]


def threshold_words(evicted: why.Evicted, of_bytes: bool) -> str:
    """The threshold as the node line sets it, with what that comes to in bytes or numbers."""
    threshold = evicted.threshold
    if threshold is None:
        return f"the trace sets no such threshold for {evicted.signal}"
    amount = amount_text(threshold.limit, of_bytes)
    written = "" if threshold.text == amount else f" ({threshold.text})"
    cleared = amount_text(threshold.limit + threshold.reclaim, of_bytes)
    return (f"{threshold.signal} {threshold.kind}: below {amount}{written}, cleared at {cleared}, "
            f"grace {threshold.grace} s")


def sample_lines(evicted: why.Evicted, of_bytes: bool, show: Callable[[int], str], is_kubelets: bool) -> list[str]:
    """The first sample and the last ones."""
    samples = evicted.samples
    kept = samples if len(samples) <= MOST_ROWS else [samples[0], *samples[1 - MOST_ROWS :]]
    with_reclaim = any(after is not None for _, _, after in kept)
    rows = [[show(at), amount_text(value, of_bytes), *([amount_text(after, of_bytes)] if with_reclaim else [])]
            for at, value, after in kept]
    heads = ["moment", evicted.signal, *(["after reclaim"] if with_reclaim else [])]
    title = f"samples of the {kubelets.SAMPLE_SECONDS} s before:" if is_kubelets else "samples since it became active:"
    lines = table(title, heads, rows)[:-1]
    least = min((value for _, value, _ in samples if value is not None), default=None)
    if len(samples) > len(kept):
        lines.append(f"{len(samples) - len(kept)} samples after the first are left out; the least of all is "
                     f"{amount_text(least, of_bytes)}")
    return lines


def candidate_row(place: int, candidate: why.Candidate, of_bytes: bool,
                  show: Callable[[int], str] | None = None, victim: str = "evicted") -> list[str]:
    """A pod's row; `show` makes the moment from which on it has no sample a text."""
    request = "-" if candidate.request is None else amount_text(candidate.request, of_bytes)
    above = "-" if candidate.request is None else amount_text(candidate.above, of_bytes)
    usage = "no sample" if candidate.usage is None else amount_text(candidate.usage, of_bytes)
    if candidate.unsampled_at is not None:
        usage = "none any more" if show is None else f"none since {show(candidate.unsampled_at)}"
    return [str(place), candidate.pod.key, usage, request, above,
            str(candidate.pod.priority), candidate.qos, victim if candidate.victim else ""]
