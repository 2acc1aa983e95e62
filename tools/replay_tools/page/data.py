"""What a page shows, as plain values that become JSON: moments are counted from the first one, and lists of moments
are differences, so that a page of many events stays small. `decode.js` reads it."""

from __future__ import annotations

from typing import Any, overload

from replay_tools import (amounts, events, kubelet as kubelets, lanes as made, provenance, reasons, records,
                          report as reports, summary as summing, telling, traces, why, why_text)
from replay_tools.clock import Clock
from replay_tools.page import used
from replay_tools.signals import BYTE_SIGNALS, SIGNALS

RESULTS = ("success", "failure", "unknown")
# what was reported, and a resize, as events of their own
SAID = {word: [["words"], "{words}"] for word in ("said", "resized")}
# what a page leaves out above these, and lists
MOST_RUNS = 400000
MOST_SAID = 20000
MOST_ROWS = 40
WITHOUT_TRACE = ("the samples of signals, the results of probes and what the ticks list, since no trace was given: "
                 "kubelet-replay page TRACE has them", "the moment of the last tick, which a report lacks")


class Span:
    """The first and the last moment that a page shows, and moments counted from the first."""

    def __init__(self, report: reports.Report, trace: traces.Trace | None) -> None:
        if trace and trace.ticks:
            self.first, self.last = trace.ticks[0].at, trace.ticks[-1].at
        else:
            named = [event.at for event in report.events] + reports.node_moments(report)
            for pod in report.pods:
                if reports.has_ticks(report, pod):
                    named += [condition.at for condition in pod.conditions]
            self.first, self.last = (min(named), max(named)) if report.tick_count else (0, 0)

    @overload
    def of(self, at: int) -> int: ...

    @overload
    def of(self, at: int | None) -> int | None: ...

    def of(self, at: int | None) -> int | None:
        return None if at is None else at - self.first


def differences(moments: list[int]) -> list[int]:
    """Each moment less the one before."""
    return [at - before for before, at in zip([0, *moments], moments)]


def data_of(report: reports.Report, trace: traces.Trace | None, ticks: why.Ticks, clock: Clock,
            since: int = summing.NEVER) -> dict[str, Any]:
    """All that the page shows; without a trace it lacks what only a trace has."""
    span, kubelet = Span(report, trace), kubelets.beside(trace, report) if trace else None
    ranked = summing.summaries(report, trace, kubelet, since=since)
    ranks = {summary.number: (rank, summary) for rank, summary in enumerate(ranked, 1)}
    left = [] if trace else list(WITHOUT_TRACE)
    budget, samples, words = Budget(MOST_RUNS), Budget(used.MOST_SAMPLES), Words(trace)
    sayings = Budget(MOST_SAID)
    data: dict[str, Any] = {
        "node": report.node, "clock": clock.value, "first": span.first, "last": span.of(span.last),
        "hasTrace": bool(trace),
        **table_of_words(trace), "states": made.STATES, "results": RESULTS,
        "pods": report.pod_count, "ticks": report.tick_count,
        "tickSteps": repeated(differences([span.of(tick.at) for tick in trace.ticks])) if trace else [],
        "signals": signals_of(trace), "active": active_of(report, span), "pressure": pressure_of(report, span),
        "gaps": [[span.of(since), span.of(at)] for since, at in report.gaps],
        "reclaims": [[span.of(event.at), *event.rest] for event in report.events if event.word == "reclaim"],
        "evictions": evictions_of(report, trace, ticks, span, left), "kubelet": kubelet_of(kubelet, span),
        "podList": [pod_of(report, trace, span, pod, lanes, ticks, budget, words) | notes_of(pod, clock, trace)
                    | summary_of(*ranks[pod.number], span) | deletion_of(trace, pod, span)
                    | used_of(trace, pod, span, ticks, samples) | said_of(trace, span, pod, lanes, words, sayings)
                    | resized_of(trace, span, pod, clock, words)
                    for pod in report.pods for lanes in (made.lanes_of(pod, trace),)],
        "causes": words.causes, "waits": words.waits, "saids": words.said,
        "facts": provenance.head_lines(trace, clock.text), "kubeletStarts": [
            span.of(at) for at in (trace.kubelet_starts() if trace else ()) if at >= span.first],
    }
    refused = sorted({one["key"] for one in data["kubelet"]["refused"]} if data["kubelet"] else ())
    if refused:
        left.append(f"the pods that the kubelet rejected under pressure, which never ran: {', '.join(refused)}")
    left += not_known(report, clock)
    if budget.refused:
        left.append(f"the results of the probes of {budget.refused} containers, after the first {MOST_RUNS} runs")
    if sayings.refused:
        left.append(f"what was reported of {sayings.refused} pods, after the first {MOST_SAID} things")
    if samples.refused:
        left.append(f"what {samples.refused} containers used, after the first {used.MOST_SAMPLES} samples")
    if trace:
        left.append("the pods' usage but at evictions")
    return data | {"left": left}


def not_known(report: reports.Report, clock: Clock) -> list[str]:
    """What is not known between the traces that a report is joined of."""
    show = clock.text
    gaps = [f"the time from {show(since)} to {show(at)}, of which nothing was recorded" for since, at in report.gaps]
    anew = [show(border.at) for border in report.borders if not border.is_gap]
    return gaps + ([f"the exits, grace periods and pauses before {', '.join(anew)}, where traces begin: they "
                    "count from zero from there"] if anew else [])


def table_of_words(trace: traces.Trace | None) -> dict[str, Any]:
    """The words of events, and of each the fields that it has and its sentence."""
    is_beside = trace is not None and trace.tells()
    told = {kind.word: [[field.name for field in kind.fields], kind.sentence_beside if is_beside else kind.sentence]
            for kind in events.kinds().values() if kind.is_of_pod}
    told_of_it = {"kubelet": [["decision", "why"], events.decision_sentence()],
                  "ended": [["decision", "why"], events.decision_sentence("ended")],
                  "deleted": [["by"], why_text.DELETED]}
    return {"words": list(told), "told": told | told_of_it | SAID, "toldAttempt": events.attempt_sentence(),
            "toldGuessed": events.kinds()["died"].sentence_guessed}


class Budget:
    """How many runs of results, or samples, still go into the page, and how often there was no room."""

    def __init__(self, most: int) -> None:
        self.room, self.refused = most, 0

    def takes(self, count: int) -> bool:
        if count > self.room:
            self.refused += 1
            return False
        self.room -= count
        return True


class Words:
    """Why instances died and containers waited: each text once, by its place."""

    def __init__(self, trace: traces.Trace | None) -> None:
        self.trace = trace
        self.causes: list[list[str]] = []
        self.waits: list[str] = []
        self.said: list[str] = []
        self.places: dict[tuple[int, str], int] = {}
        self.kinds = [kind.word for kind in events.kinds().values() if kind.is_of_pod]

    def cause(self, event: reports.Event) -> list[int]:
        """A list of the place of what is known of why an instance died, with what it means; empty if its code shows as
        much."""
        said = reasons.cause_words(event, int(event.rest[1]), self.trace, True)
        because = reasons.because_lines(event, self.trace) if self.trace else []
        return [self.place(self.causes, [said, *because])] if said or because else []

    def wait(self, wait: reasons.Wait) -> int:
        return self.place(self.waits, wait.words())

    def place(self, texts: list[Any], said: list[str] | str) -> int:
        key = id(texts), str(said)
        if key not in self.places:
            self.places[key] = len(texts)
            texts.append(said)
        return self.places[key]


def repeated(values: list[Any]) -> list[Any]:
    """Values with how often each comes in a row, one after the other in one list."""
    found: list[Any] = []
    for value in values:
        if found and found[-2] == value:
            found[-1] += 1
        else:
            found += [value, 1]
    return found


def units(thousandths: int | None) -> float | None:
    """A whole number where it is one."""
    if thousandths is None:
        return None
    return thousandths // 1000 if thousandths % 1000 == 0 else thousandths / 1000


def signals_of(trace: traces.Trace | None) -> list[dict[str, Any]]:
    """Each signal that has a sample or a threshold: its samples, tick by tick, and its thresholds."""
    if trace is None:
        return []
    found = []
    for name in SIGNALS:
        samples = [units(tick.signals.get(name)) for tick in trace.ticks]
        limits = [{"kind": limit.kind, "limit": units(limit.limit), "clear": units(limit.limit + limit.reclaim),
                   "text": limit.text, "grace": limit.grace} for limit in trace.thresholds if limit.signal == name]
        if limits or any(sample is not None for sample in samples):
            found.append({"name": name, "bytes": name in BYTE_SIGNALS, "thresholds": limits,
                          "samples": repeated(samples)})
    return found


def active_of(report: reports.Report, span: Span) -> list[list[Any]]:
    """The spans in which thresholds were active: signal, kind, since, until."""
    open_spans, found = {}, []
    for event in report.events:
        if event.word != "threshold":
            continue
        signal, kind, value = event.rest
        if value == "active":
            open_spans[signal, kind] = event.at
        elif (signal, kind) in open_spans:
            found.append([signal, kind, span.of(open_spans.pop((signal, kind))), span.of(event.at)])
    return found + [[*named, span.of(since), None] for named, since in open_spans.items()]


def pressure_of(report: reports.Report, span: Span) -> list[list[Any]]:
    return [[kind, span.of(pressed.since), span.of(pressed.until)] for kind in reports.CONDITIONS
            for pressed in reports.pressure_spans(report, kind)]


def evictions_of(report: reports.Report, trace: traces.Trace | None, ticks: why.Ticks, span: Span,
                 left: list[str]) -> list[dict[str, Any]]:
    """The evictions, with a trace each with the table of its pods, of which a long one is cut."""
    moments = {one.at for one in report.evictions}
    gathered = why.gather_evictions(trace, report, moments, ticks.usages_at) if trace else {}
    found, cut = [], 0
    for eviction in report.evictions:
        one: dict[str, Any] = {"at": span.of(eviction.at), "pod": eviction.number, "signal": eviction.signal,
                               "kind": eviction.kind, "grace": eviction.grace}
        if trace:
            around = around_of(gathered[eviction.at], span)
            cut += around["more"]
            one["around"] = around
        found.append(one)
    if cut:
        left.append(f"the rows after the first {MOST_ROWS} of the evictions' tables, {cut} in all; kubelet-replay why "
                    "has them")
    return found


def kubelet_of(found: kubelets.Kubelet | None, span: Span) -> dict[str, Any] | None:
    """What the kubelet did, next to what the rules do; None if no trace shows it."""
    if found is None:
        return None
    return {
        "evicted": [fact_of(fact, span) for fact in found.evicted],
        "ended": [fact_of(fact, span) for fact in found.ended],
        "refused": [decision_of(decision, span) for decision in found.refused], "names": found.names,
        "alone": [[each.eviction.number, causes_of(each.causes, span)] for each in found.alone],
        "named": {each.eviction.number: [span.of(each.eviction.at), each.times] for each in found.alone
                  if each.eviction.is_named},
    }


def fact_of(fact: kubelets.Fact, span: Span) -> dict[str, Any]:
    eviction = fact.eviction
    return decision_of(fact.decision, span) | {
        "rules": span.of(eviction.at) if eviction else None, "agrees": fact.agrees, "judged": fact.is_judged,
        "named": [eviction.signal, eviction.kind] if eviction and eviction.is_named else None,
        "causes": causes_of(fact.causes, span)}


def summary_of(rank: int, summary: summing.Summary, span: Span) -> dict[str, Any]:
    """A pod's place among all, and the worst that happened to it."""
    found = summary.found
    return {"rank": rank, "worst": None if found.at is None else [span.of(found.at), found.words]}


def deletion_of(trace: traces.Trace | None, pod: reports.Pod, span: Span) -> dict[str, Any]:
    """Since when a pod is being deleted, and by whom; nothing of one that is not."""
    deletion = trace.deletions.get(pod.number) if trace else None
    return {"deleted": [span.of(deletion.at), deletion.words()]} if deletion else {}


def used_of(trace: traces.Trace | None, pod: reports.Pod, span: Span, ticks: why.Ticks,
            budget: Budget) -> dict[str, Any]:
    """What its containers used, if the trace has it."""
    if trace is None:
        return {}
    ours = trace.pods[pod.number]
    return used.used_of(span, ours, ticks.of(trace, ours), budget)


def decision_of(decision: traces.Decision, span: Span) -> dict[str, int | str | None]:
    return {"at": span.of(decision.at), "pod": decision.number, "key": decision.pod, "kind": decision.kind,
            "why": kubelets.why_words(decision)}


def causes_of(causes: list[list[str | int]], span: Span) -> list[list[Any]]:
    """Causes as their parts, with moments from the first one on."""
    return [[span.of(part) if isinstance(part, int) else part for part in cause] for cause in causes]


def around_of(evicted: why.Evicted, span: Span) -> dict[str, Any]:
    """What the trace holds around an eviction, in the words of why."""
    of_bytes = evicted.signal in BYTE_SIGNALS
    rows = [why_text.candidate_row(place, candidate, of_bytes)
            for place, candidate in enumerate(evicted.candidates[:MOST_ROWS], 1)]
    with_requests = any(candidate.request is not None for candidate in evicted.candidates)
    return {
        "threshold": why_text.threshold_words(evicted, of_bytes),
        "pause": why_text.pause_words(evicted) if evicted.pause else None, "before": span.of(evicted.before),
        "since": span.of(evicted.since), "rows": rows,
        "more": len(evicted.candidates) - len(rows),
        "after": [[span.of(at), units(after)] for at, _, after in evicted.samples if after is not None][-MOST_ROWS:],
        "order": why_text.order_words(evicted, with_requests), "first": evicted.is_victim_first,
    }


def pod_of(report: reports.Report, trace: traces.Trace | None, span: Span, pod: reports.Pod, lanes: made.Lanes,
           ticks: why.Ticks, budget: Budget, words: Words) -> dict[str, Any]:
    """What the page shows of a pod: the report's part, and with a trace its listings and results."""
    ended, seen = provenance.end_of(trace, pod), summing.has_ticks(report, pod, trace)
    found: dict[str, Any] = {
        "key": pod.key, "phase": provenance.phase_words(trace, pod), "reason": records.none_of(pod.reason),
        "qos": provenance.class_words(trace.pods[pod.number] if trace else None, pod.qos),
        "first": span.of(reports.first_tick(pod)) if seen else None,
        "end": [span.of(ended[0]), ended[1]] if ended else None, "gone": span.of(pod.left),
        "unready": summing.unready_seconds(pod, span.last, trace=trace) if seen else 0,
        "ready": [[span.of(ready.since), int(ready.value == "True")]
                  for ready in (lanes.ready if seen else [])],
        "conditions": [[one.kind, one.value, span.of(one.at) if seen else None, one.reason] for one in pod.conditions],
        "containers": [container_of(span, pod, container, lane.states if seen else [], trace)
                       for container, lane in zip(pod.containers, lanes.containers)],
        "events": events_of(span, pod, words),
    }
    if trace:
        ours = trace.pods[pod.number]
        of_pod = ticks.of(trace, ours)
        if ours.is_guessed:
            found["guessed"] = True
        if pod.number in trace.reasons.doubted:
            found["doubted"] = span.of(trace.reasons.doubted[pod.number])
        if any(one.restarting.is_own for one in ours.containers):
            found["policies"] = [one.restarting.policy_words() for one in ours.containers]
        found |= {"policy": ours.policy, "priority": ours.priority,
                  "listings": [listings_of(span, of_pod, container.name) for container in pod.containers],
                  "probes": probes_of(span, ours, of_pod, budget), "waits": waits_of(span, lanes, words)}
    return found


def notes_of(pod: reports.Pod, clock: Clock, trace: traces.Trace | None) -> dict[str, Any]:
    """What is not known of events of several traces, by the places of the events; nothing where all is."""
    told = {str(place): telling.beside_words(pod, event, clock.text, trace)
            for place, event in enumerate(pod.events)}
    told = {place: words for place, words in told.items() if words}
    return {"notes": told} if told else {}


def waits_of(span: Span, lanes: made.Lanes, words: Words) -> list[list[int | None]]:
    """Why its containers waited: the container's place, since when, until when, and the place of the words."""
    return [[place, span.of(wait.since), span.of(wait.until), words.wait(wait)] for place, wait in lanes.waits()]


def said_of(trace: traces.Trace | None, span: Span, pod: reports.Pod, lanes: made.Lanes, words: Words,
            budget: Budget) -> dict[str, Any]:
    """What was reported of it, as why has it: the moment, the container's place (-1 without), and the place of
    the words; and what follows the words of an event, by its place."""
    if trace is None:
        return {}
    is_kept = budget.takes(sum(map(len, lanes.said.values())))
    told = [[span.of(each.at), place, words.place(words.said, each.words())]
            for place, said in (lanes.said.items() if is_kept else ()) for each in said]
    more = {str(place): telling.more_words(event, trace) for place, event in enumerate(pod.events)}
    more = {place: text for place, text in more.items() if text}
    return ({"said": told} if told else {}) | ({"more": more} if more else {})


def resized_of(trace: traces.Trace | None, span: Span, pod: reports.Pod, clock: Clock, words: Words) -> dict[str, Any]:
    """The resizes of its containers: the moment, the container's place, and the place of the words; nothing without
    any."""
    names = [container.name for container in pod.containers]
    rows = [[span.of(at), names.index(name), words.place(words.said, what)]
            for at, name, what in telling.resize_rows(trace, pod, clock.text)]
    return {"resized": rows} if rows else {}


def container_of(span: Span, pod: reports.Pod, container: reports.Container, states: list[made.State],
                 trace: traces.Trace | None) -> dict[str, Any]:
    """A container's status, and its states as differences of moments, states, attempts and codes in one list. A code is
    0 where there is none, and None where it was guessed."""
    flat: list[int | None] = []
    before = 0
    for state in states:
        begun = before if state.since is None else span.of(state.since)
        flat += [begun - before, made.STATES.index(state.value), state.attempt or 0,
                 None if state.is_guessed else state.code or 0]
        before = begun
    code = reasons.code_words(container.code, reasons.last_end(pod, container, trace))
    return {"name": container.name, "state": container.state, "code": records.none_of(code),
            "restarts": int(container.restarts), "ready": container.ready == "true",
            "started": container.started == "true", "states": flat}


def events_of(span: Span, pod: reports.Pod, words: Words) -> list[list[Any]]:
    """Events, each with the difference of its moment, the place of its container (-1 without), the place of its word,
    and its words. After its own words a death has the number of its exit and its run, and the place of why, if that is
    known."""
    names = [container.name for container in pod.containers]
    starts: dict[str, tuple[str, int]] = {}
    exits: dict[str, list[why.Exit]] = {}
    found, before = [], 0
    for event in pod.events:
        rest = [int(word) if word.lstrip("-").isdigit() else word for word in event.rest]
        if event.word == "started":
            starts[event.name] = (event.rest[0], event.at)
        elif event.word == "died":
            of_it = exits.setdefault(event.name, [])
            why.add_exit(of_it, event, starts.get(event.name))
            if reasons.is_guessed(event, words.trace):
                rest[1] = None
            rest += [of_it[-1].number, of_it[-1].run, *words.cause(event)]
        elif reasons.is_phase_unknown(event, words.trace):
            rest[0] = f"{provenance.UNKNOWN_PHASE}: no known code shows which"
        place = names.index(event.container) if event.container in names else -1
        found.append([span.of(event.at) - before, place, words.kinds.index(event.word), *rest])
        before = span.of(event.at)
    return found


def listings_of(span: Span, ticks: why.PodTicks, name: str) -> list[int | None]:
    """What the ticks list of a container, where it changes: differences of moments, and attempt, state and code."""
    flat: list[int | None] = []
    before = 0
    for at, listing in zip(*ticks.listings[name]):
        told = (-1, 0, 0) if listing is None else (
            listing.attempt, traces.STATES.index(listing.state),
            0 if listing.code is None and listing.state != traces.STATES[2] else listing.code)
        flat += [span.of(at) - before, *told]
        before = span.of(at)
    return flat


def probes_of(span: Span, pod: traces.Pod, ticks: why.PodTicks, budget: Budget) -> list[list[Any]]:
    """Of each probe its container's place, its kind, its thresholds, and its results, as the page has room for them."""
    found = []
    for place, container in enumerate(pod.containers):
        for kind, probe in container.probes.items():
            runs = result_runs(span, *ticks.results.get((container.name, kind), ([], [])))
            kept = runs if budget.takes(len(runs) // 4) else None
            found.append([place, kind, probe.failure_threshold, probe.success_threshold, probe.initial_delay,
                          probe.period, kept])
    return found


def result_runs(span: Span, moments: list[int], results: list[str | None]) -> list[int]:
    """Runs of one result at one distance: the difference of the first moment from the last one before, that distance,
    how many, and the result, in one list."""
    flat: list[int] = []
    last = 0
    for at, result in zip(moments, results):
        if result not in RESULTS:
            raise amounts.Wrong("result")
        at, said = span.of(at), RESULTS.index(result)
        if flat and flat[-1] == said and (flat[-2] == 1 or at - last == flat[-3]):
            flat[-3], flat[-2] = at - last, flat[-2] + 1
        else:
            flat += [at - last, 0, 1, said]
        last = at
    return flat
