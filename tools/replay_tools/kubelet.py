"""What the kubelet did next to what the rules do: whom it evicted or rejected is in a trace of the recorder, and whom
the rules evict over the samples that were recorded in its report."""

from __future__ import annotations

import re
from collections.abc import Callable
from dataclasses import dataclass, field

from replay_tools import amounts, decided, endings, events, report as reports, signals, traces, why

# what is no further apart is one eviction, in seconds
NEAR = 2
# how far back the samples go that are shown next to what the kubelet did
SAMPLE_SECONDS = 30
RESOURCE = re.compile(r"The node was low on resource: ([a-z-]+)")
# what a pod may use by its own limits (Kubernetes, "Local ephemeral storage"); no threshold of the node leads to it
OWN_LIMIT = re.compile(r"exceeds the (?:total )?limit|exceeded its local ephemeral storage limit")
# what the reason means with which a kubelet ends a pod (Kubernetes, "Node Shutdowns", "Jobs", and the kubelet's own)
MEANINGS = {"DeadlineExceeded": "it ran for longer than its activeDeadlineSeconds",
            "Preempting": "a critical pod had no room next to it", "Terminated": "the node was shut down",
            "Shutdown": "the node was shut down", "NodeShutdown": "the node was shut down"}
# what a recorder writes for a reason that no source gave
OTHER = "Other"
USING = re.compile(r"Container (\S+) was using ([^\s,]+), "
                   r"(?:which exceeds its request of|request is) ([^\s,]+?)[.,]?(?:\s|$)")
CONDITION = re.compile(r"The node had condition: \[([^\]]*)\]")
SIGNALS = {"memory": signals.SIGNALS[:1], "ephemeral-storage": signals.SIGNALS[1:3], "inodes": signals.SIGNALS[3:5],
           "pids": signals.SIGNALS[5:]}


@dataclass
class Fact:
    """One decision of the kubelet's, and what the rules do to the same pod."""

    decision: traces.Decision
    eviction: reports.Eviction | None
    causes: list = field(default_factory=list)
    """why they differ, as far as the trace shows: each as its parts, texts and moments as numbers"""
    is_imported: bool = False
    """the trace was made of a journal, which has not what pods use of the node"""

    @property
    def agrees(self) -> bool:
        return self.eviction is not None and abs(self.eviction.at - self.decision.at) <= NEAR

    @property
    def is_judged(self) -> bool:
        """Whether the rules can judge it: they judge an eviction under pressure of the node."""
        return self.decision.kind == "evicted" and not self.is_imported and not is_own_limit(self.decision)


@dataclass
class Alone:
    """A pod that the rules evict, or name, and the kubelet did not evict."""

    eviction: reports.Eviction
    """the first"""
    causes: list
    times: int = 1


@dataclass
class Kubelet:
    """All that the kubelet did in a trace, and whom the rules alone evict or name over it."""

    evicted: list[Fact] = field(default_factory=list)
    ended: list[Fact] = field(default_factory=list)
    """pods that it ended for other reasons"""
    refused: list[traces.Decision] = field(default_factory=list)
    alone: list[Alone] = field(default_factory=list)
    names: bool = False
    """the rules name pods, and evict none"""

    @property
    def facts(self) -> list[Fact]:
        return [*self.evicted, *self.ended]

    def decisions(self) -> list[tuple[traces.Decision, Fact | None]]:
        """Each decision with its fact, or None where it is none that the rules could make, in order."""
        all_of = [(fact.decision, fact if fact.decision.kind == "evicted" else None) for fact in self.facts]
        return sorted([*all_of, *((each, None) for each in self.refused)], key=lambda pair: pair[0].at)

    def fact(self, number: int | None) -> Fact | None:
        """That the kubelet evicted a pod, or ended it otherwise, or None."""
        found = (fact for fact in self.facts if number is not None and fact.decision.number == number)
        return next(found, None)

    def by_rules_alone(self, number: int | None) -> Alone | None:
        return next((each for each in self.alone if each.eviction.number == number), None)

    def of_no_line(self, key: str) -> list[traces.Decision]:
        """What the kubelet did to pods of a key that have no line in the trace."""
        return [each for each in [*(fact.decision for fact in self.facts), *self.refused]
                if each.number is None and each.pod == key]


def beside(trace: traces.Trace, report: reports.Report) -> Kubelet | None:
    """What the kubelet did, to compare with the report; None if the trace does not show what it did."""
    if not trace.tells():
        return None
    rules = endings.by_rules(report)
    # over an imported trace the rules evict nobody, and have nobody to name
    found = Kubelet(names=report.names_pods or trace.is_imported())
    for decision in decided.decisions_with_endings(trace):
        if decision.kind == "refused":
            decision.had_run = decision.number is not None and any(
                event.word == "started" for event in report.pods[decision.number].events)
            found.refused.append(decision)
        else:
            fact = Fact(decision, of_rules(rules, decision), is_imported=trace.is_imported())
            (found.evicted if decision.kind == "evicted" else found.ended).append(fact)
    add_causes(trace, report, found.evicted)
    found.alone = alone_of(rules, found)
    return found


def of_rules(rules: list[reports.Eviction], decision: traces.Decision) -> reports.Eviction | None:
    """What the rules do to the pod of a decision. They may name it often, and then what is nearest counts; over several
    traces they may evict it twice, of which the first is what they do."""
    own = [each for each in rules if each.number is not None and each.number == decision.number]
    return min(own, key=lambda each: (abs(each.at - decision.at) if each.is_named else 0, each.at)) if own else None


def alone_of(rules: list[reports.Eviction], found: Kubelet) -> list[Alone]:
    numbers = {fact.decision.number for fact in found.facts}
    alone: dict[int | None, Alone] = {}
    for eviction in rules:
        if eviction.number in alone:
            alone[eviction.number].times += 1
        elif eviction.number not in numbers:
            alone[eviction.number] = Alone(eviction, [[then(found.evicted, eviction)]])
    return list(alone.values())


def then(facts: list[Fact], eviction: reports.Eviction) -> str:
    """Whom the kubelet evicted when the rules did."""
    near = [fact.decision for fact in facts if abs(fact.decision.at - eviction.at) <= NEAR]
    return f"the kubelet evicted {near[0].pod} then" if near else \
        "the kubelet was not seen to evict a pod then"


# --- why they differ ---


def add_causes(trace: traces.Trace, report: reports.Report, facts: list[Fact]) -> None:
    for fact in facts:
        if is_own_limit(fact.decision):
            fact.causes = [["it came to a limit of its own, which is no pressure of the node"]]
        elif fact.is_imported:
            fact.causes = [["no journal has what pods use of the node"]]
    others = [fact for fact in facts if fact.is_judged and not fact.agrees and trace.ticks]
    usages = why.usages_at(trace, {place_of(trace, fact) for fact in others})
    for fact in others:
        number = fact.decision.number
        if number is None:
            fact.causes = [["the pod has no line in the trace"]]
        elif any(since < fact.decision.at < until for since, until in trace.gaps):
            fact.causes = [["nothing was recorded then"]]
        elif fact.eviction is not None and fact.eviction.at < fact.decision.at:
            fact.causes = [[then(facts, fact.eviction)]]
        else:
            fact.causes = causes_of(trace, report, trace.pods[number], fact.decision, usages[place_of(trace, fact)])


def place_of(trace: traces.Trace, fact: Fact) -> int:
    """The place of the last tick that is near a decision; the first one where all are later."""
    latest = fact.decision.at + NEAR
    return max((place for place, tick in enumerate(trace.ticks) if tick.at <= latest), default=0)


def causes_of(trace: traces.Trace, report: reports.Report, pod: traces.Pod, decision: traces.Decision,
              usages: dict[int, dict[str, int]]) -> list[list[str | int]]:
    """Why the rules do not evict a pod when the kubelet did: each cause as its parts, of which numbers are moments."""
    gone = pod.gone
    if gone is not None and gone < len(trace.ticks) and trace.ticks[gone].at <= decision.at:
        return [["the pod had gone from the trace before", trace.ticks[gone].at]]
    resource = resource_of(decision)
    named = SIGNALS.get(resource or "", signals.SIGNALS)
    limits = [limit for limit in trace.thresholds if limit.signal in named]
    if not limits:
        return [[f"the trace has no threshold of {resource or 'any signal'}"]]
    near = ticks_near(trace, report, decision.at)
    thresholds = reports.Thresholds(report)
    active: dict[tuple[str, str], int] = {}
    for tick in near:
        active |= thresholds.at(tick.at)
    due = [limit for limit in limits if (limit.signal, limit.kind) in active]
    if not due:
        return [no_sample_below(limits, near)]
    waits = [limit for limit in due if near[-1].at < active[limit.signal, limit.kind] + limit.grace]
    if len(waits) == len(due):
        since = active[due[0].signal, due[0].kind]
        return [[f"{due[0].signal} was below the soft threshold since", since,
                 f"in the samples, and its grace period of {due[0].grace} s was not over"]]
    served = next(limit for limit in due if limit not in waits)
    return other_causes(trace, report, decision, served, usages)


def ticks_near(trace: traces.Trace, report: reports.Report, at: int) -> list[traces.Tick]:
    """The ticks near a moment at which the node decides, or the last one before it, or the first."""
    judged = why.judged(trace, report, trace.ticks)
    near = [tick for tick in judged if abs(tick.at - at) <= NEAR]
    return near or [tick for tick in judged if tick.at < at][-1:] or judged[:1] or trace.ticks[:1]


def other_causes(trace: traces.Trace, report: reports.Report, decision: traces.Decision, limit: traces.Threshold,
                 usages: dict[int, dict[str, int]]) -> list[list[str | int]]:
    """The causes where a threshold was due."""
    # a trace may begin with an eviction of the trace before it
    place = max((place for place, tick in enumerate(trace.ticks) if tick.at <= decision.at + NEAR), default=0)
    before = [eviction for eviction in endings.by_rules(report) if eviction.at <= trace.ticks[place].at]
    candidates = why.candidates_of(trace, report, place, limit.signal, decision.number, usages)
    ours = next((each for each in candidates if each.victim), None)
    counts = ours is not None and ours.usage is None and ours.unsampled_at is None
    found: list[list[str | int]] = [["the pod had no sample, which counts as 0"]] if counts else []
    if before and before[-1].at >= decision.at - NEAR:
        does = "name" if before[-1].is_named else "evict"
        return [*found, [f"they {does} {before[-1].pod} in its place, at", before[-1].at]]
    if trace.pause() and before and not before[-1].is_named and trace.pause_end(before[-1]) > decision.at - NEAR:
        over = " or until it has ended" if trace.pauses_until_gone() else ""
        return [*found, [f"they had evicted {before[-1].pod} at", before[-1].at,
                         f"and then evict no pod for {trace.pause()} s{over}"]]
    if candidates and ours is not candidates[0]:
        found.append([f"{candidates[0].pod.key} ranks first in the samples"])
    return found


def no_sample_below(limits: list[traces.Threshold], near: list[traces.Tick]) -> list[str | int]:
    """That no sample of some ticks was below its threshold, with the least of them."""
    found = []
    for limit in limits:
        values = [tick.signals[limit.signal] for tick in near if limit.signal in tick.signals]
        of_bytes = limit.signal in signals.BYTE_SIGNALS
        least = f"was {amounts.amount_text(min(values), of_bytes)}" if values else "had no sample"
        found.append(f"{limit.signal} {least}, {limit.kind} threshold {amounts.amount_text(limit.limit, of_bytes)}")
    return [f"no sample below the threshold was recorded ({'; '.join(found)})"]


def around(trace: traces.Trace, report: reports.Report, decision: traces.Decision) -> why.Evicted | None:
    """What the trace holds around the kubelet's eviction of a pod, as that around one by the rules, with the samples of
    some seconds; None where no threshold is known that it was for."""
    limits = [limit for limit in trace.thresholds if limit.signal in SIGNALS.get(resource_of(decision) or "", ())]
    place = max((place for place, tick in enumerate(trace.ticks) if tick.at <= decision.at + NEAR), default=None)
    if not limits or place is None or decision.number is None:
        return None
    at = trace.ticks[place].at
    active = reports.Thresholds(report).at(at)
    limit = next((limit for limit in limits if (limit.signal, limit.kind) in active), limits[0])
    since = active.get((limit.signal, limit.kind))
    before = [eviction.at for eviction in report.evictions if eviction.at <= at]
    first = next(tick.at for tick in trace.ticks if tick.at >= min(at, decision.at - SAMPLE_SECONDS))
    candidates = why.candidates_of(trace, report, place, limit.signal, decision.number,
                                   why.usages_at(trace, {place})[place])
    samples = why.samples_of(trace, report, at, limit.signal, first)
    return why.Evicted(limit.signal, limit, since, samples, candidates, trace.pause(), trace.pauses_until_gone(),
                       before[-1] if before else None)


# --- in words ---


def resource_of(decision: traces.Decision) -> str | None:
    found = RESOURCE.search(decision.message)
    return None if found is None else found[1]


def is_own_limit(decision: traces.Decision) -> bool:
    """Whether the kubelet evicted a pod for a limit of the pod's own."""
    return OWN_LIMIT.search(decision.message) is not None


def why_words(decision: traces.Decision) -> str:
    """Why the kubelet did it, in its own words, shortened where their form is known."""
    if decision.kind == "refused":
        found = CONDITION.search(decision.message)
        return f"the node had {found[1]}" if found else decision.message or decision.reason
    if decision.kind == "ended" and (decision.is_guessed or decision.reason == OTHER and not decision.message):
        return "for a reason that was not seen"
    if decision.kind == "ended":
        return reason_words(decision.reason, decision.message)
    resource = resource_of(decision)
    if resource is None:
        return decision.message.strip() or decision.reason
    using = [f"{name} was using {amount_of(used)}, request {amount_of(request)}"
             for name, used, request in USING.findall(decision.message)]
    return ", ".join([f"low on {resource}", *using])


def reason_words(reason: str, message: str = "") -> str:
    """The reason with which the kubelet ended a pod, with its message or its meaning."""
    says = message or MEANINGS.get(reason)
    return f"{reason} ({says})" if says else reason


def ended_words(reason: str) -> str:
    """That the kubelet ended a pod, as a report alone shows it."""
    kind = "evicted" if reason == decided.EVICTED else "ended"
    return event_words(traces.Decision(kind, 0, "", None, reason, ""))


def amount_of(text: str) -> str:
    try:
        return amounts.amount_text(amounts.quantity(text), True)
    except amounts.Wrong:
        return text


def event_words(decision: traces.Decision) -> str:
    """What the kubelet did, in the words of an event."""
    sentence = events.decision_sentence(decision.kind)
    return events.filled(sentence, {"decision": decision.kind, "why": why_words(decision)})


def did_words(decision: traces.Decision, show: Callable[[int], str]) -> str:
    """What the kubelet did, as a fact."""
    never = "; it never ran" if decision.kind == "refused" and not decision.had_run else ""
    return f"the kubelet {decision.kind} it at {show(decision.at)}: {why_words(decision)}{never}"


def causes_text(causes: list[list[int | str]], show: Callable[[int], str]) -> str:
    """The causes, each after a semicolon."""
    told = (" ".join(show(part) if isinstance(part, int) else part for part in cause) for cause in causes)
    return "".join(f"; {cause}" for cause in told)


def rules_words(fact: Fact, show: Callable[[int], str], names: bool = False) -> str:
    """What the rules do to the pod, compared with what the kubelet did."""
    if not fact.is_judged and fact.eviction is None:
        return f"the rules can't judge it{causes_text(fact.causes, show)}"
    if fact.eviction is None:
        does = "name" if names else "evict"
        return f"the rules, over the recorded samples, differ: they do not {does} it" + causes_text(fact.causes, show)
    apart = fact.eviction.at - fact.decision.at
    when = f", {abs(apart)} s {'after' if apart > 0 else 'before'}" if apart else ""
    if fact.eviction.is_named and fact.agrees:
        named = f"{fact.eviction.signal} {fact.eviction.kind}"
        return f"the rules name it too: {named}, at {show(fact.eviction.at)}{when}"
    does = "agree" if fact.agrees else "differ"
    return (f"the rules, over the recorded samples, {does}: they {verb(fact.eviction)} it at "
            f"{show(fact.eviction.at)}{when}" + causes_text(fact.causes, show))


def verb(eviction: reports.Eviction) -> str:
    return "name" if eviction.is_named else "evict"


def alone_words(alone: Alone, show: Callable[[int], str]) -> str:
    """That the rules alone evict a pod."""
    times = f", the first of {alone.times} times" if alone.times > 1 else ""
    return (f"the kubelet was not seen to evict it; the rules, over the recorded samples, {verb(alone.eviction)} it at "
            f"{show(alone.eviction.at)}{times}" + causes_text(alone.causes, show))


def lines_of(kubelet: Kubelet | None, number: int, show: Callable[[int], str]) -> list[str]:
    """What the kubelet did to a pod of the trace, and what the rules do; none where neither did anything."""
    if kubelet is None:
        return []
    fact, alone = kubelet.fact(number), kubelet.by_rules_alone(number)
    if fact is not None:
        says_more = fact.decision.kind == "evicted" or fact.eviction is not None
        return [did_words(fact.decision, show), *([rules_words(fact, show, kubelet.names)] if says_more else [])]
    refused = [did_words(each, show) for each in kubelet.refused if each.number == number]
    return [*refused, *([alone_words(alone, show)] if alone is not None else [])]


def no_line_text(key: str, decisions: list[traces.Decision], show: Callable[[int], str]) -> str:
    """What is printed of pods that have no line in the trace."""
    return "".join(f"{key}: {did_words(each, show)}. It has no line in the trace: it is no candidate, and no eviction "
                   "of the rules.\n" for each in decisions)
