"""Gathers what a trace holds around the events of a pod. It applies no rule: that something happened comes from the
report, and what is around it from the trace. Only the order of an eviction's table is made here, by the order of the
rules. It shows the place of the evicted pod."""

from __future__ import annotations

import sys
from bisect import bisect_left, bisect_right
from collections.abc import Iterable
from dataclasses import dataclass, field
from typing import Any

from replay_tools import endings, outside, report as reports, traces
from replay_tools.fields import Bounds, bounds_of, text_at
from replay_tools.pods import Container, Probe

# an exit after a run this long, in seconds, begins the count of exits again
LONG_RUN = 600
# words of events that show whom the rules evict, or would evict
OF_RULES = ("evicted", "names")
# a pod that is named within so many seconds is named once more
NAMED_AGAIN = 60
# the member by which an entry shows that its pod has no sample
UNSAMPLED = "unsampled"
# for how many seconds before an event it is printed that a processor was throttled, and how old a sample may be for
# that
THROTTLED_SECONDS = 60
# a tick line without one of them has nothing of what containers use
SIGNS_OF_USE = (b"used", b"resources")


@dataclass
class Results:
    """The results of a probe from the start of an instance to an event, as runs of equal ones."""

    kind: str
    probe: Probe
    since: int | None
    runs: list[tuple[str | None, list[int]]]


@dataclass
class Listed:
    """What the tick of an event lists of a container, and the last tick before that listed anything else of it."""

    now: traces.Listing | None
    before: traces.Listing | None
    before_at: int | None
    """the last moment at which it was as before"""


@dataclass
class Exit:
    attempt: int
    started: int | None
    died: int
    code: int
    number: int
    """the delay of its restart goes by it"""

    @property
    def run(self) -> int:
        return 0 if self.started is None else self.died - self.started


@dataclass
class Candidate:
    pod: traces.Pod
    usage: int | None
    """None where no sample of it was recorded, which counts as 0"""
    request: int | None
    qos: str
    victim: bool
    unsampled_at: int | None = None
    """the tick from which on it has no sample, if none came since"""

    @property
    def above(self) -> int:
        return (self.usage or 0) - (self.request or 0)


@dataclass
class Evicted:
    signal: str
    threshold: traces.Threshold | None
    since: int | None
    samples: list[tuple[int, int | None, int | None]]
    """moment, value, value after reclaim"""
    candidates: list[Candidate]
    pause: int
    """evictionPauseSeconds of the extended format"""
    until_gone: bool
    """evictionPauseUntilGone of the extended format"""
    before: int | None
    """the moment of the eviction before"""
    is_named: bool = False
    """the rules would evict the pod, and evict none"""
    spared: list[str] = field(default_factory=list)
    """the pods that were present and are no candidates"""

    @property
    def is_victim_first(self) -> bool:
        return bool(self.candidates) and self.candidates[0].victim


@dataclass(frozen=True)
class Use:
    """What an instance used at a moment, as far as it was recorded."""

    at: int
    attempt: int
    memory: int | None
    """its working set, in bytes"""
    cpu: int | None
    """thousandths of a core"""
    throttled: int | None
    """for how long its processor was throttled since the instance began, in thousandths of a second"""


@dataclass(frozen=True)
class Throttled:
    """For how long the processor of an instance was throttled, in thousandths of a second."""

    lately: int
    since: int
    until: int
    whole: int
    """since the instance began"""


@dataclass
class UseOverTime:
    """What a container used. Also when its bounds were changed in place, in recordings of older recorders: None means
    the manifest's bounds again."""

    uses: list[Use] = field(default_factory=list)
    changes: list[tuple[int, Bounds | None]] = field(default_factory=list)

    def take(self, at: int, listed: dict[str, Any]) -> None:
        """What a tick lists of it. The sample of the instance before comes first, if the tick has its exit too."""
        for said in (listed.get("ended"), listed):
            use = use_in(at, said) if isinstance(said, dict) else None
            # an exit has the last sample once more
            if use is not None and (not self.uses or (self.uses[-1].at, self.uses[-1].attempt) < (use.at, use.attempt)):
                self.uses.append(use)
        bounds = None if listed.get("resources") is None else bounds_of(listed["resources"])
        if bounds != (self.changes[-1][1] if self.changes else None):
            self.changes.append((at, bounds))

    def of(self, attempt: int, at: int) -> list[Use]:
        """What an instance used up to a moment."""
        return [use for use in self.uses if use.attempt == attempt and use.at <= at]

    def throttled(self, attempt: int, at: int) -> Throttled | None:
        """For how long an instance was throttled up to a moment; None if it was not, or nothing shows it."""
        told = [(use.at, use.throttled) for use in self.of(attempt, at) if use.throttled is not None]
        until, whole = told[-1] if told else (0, 0)
        if not whole or until < at - THROTTLED_SECONDS:
            return None
        since, before = next(each for each in told if each[0] >= until - THROTTLED_SECONDS)
        return Throttled(max(whole - before, 0), since, until, whole)


def use_in(at: int, listed: dict[str, Any]) -> Use | None:
    """What a listing has of what its instance used. The formats do not read that, so values of another shape count as
    absent."""
    used, attempt = listed.get("used"), outside.whole(listed.get("attempt", 0), 0, outside.MOST_OF_CODE)
    if attempt is None or not isinstance(used, dict):
        return None
    age = outside.whole(used.get("age", 0), 0, at)
    if age is None:
        return None
    found = [outside.whole(used.get(name)) for name in ("workingSet", "cpu", "throttled")]
    return None if found == [None] * 3 else Use(at - age, attempt, *found)


@dataclass
class Around:
    """What the trace holds around one event."""

    event: reports.Event
    results: list[Results] = field(default_factory=list)
    listed: list[tuple[str, Listed]] = field(default_factory=list)
    exits: list[Exit] = field(default_factory=list)
    evicted: Evicted | None = None
    died: bool = False
    """the container died in the same tick"""
    throttled: Throttled | None = None
    uses: list[Use] = field(default_factory=list)
    """what the instance that died had used"""


class PodTicks:
    """The results and the listings of one pod's containers over its ticks."""

    def __init__(self, trace: traces.Trace, pod: traces.Pod) -> None:
        self.trace, self.pod = trace, pod
        self.results: dict[tuple[str, str], tuple[list[int], list[str | None]]] = {}
        """moments and results, by container and probe; None where a tick has a probe without one"""
        self.listings: dict[str, tuple[list[int], list[traces.Listing | None]]] = {
            container.name: ([], []) for container in pod.containers}
        """the moments at which what is listed changed, and what it was from then on, by container"""
        self.written = None
        """what was listed last, as it is written"""
        self.used = {container.name: UseOverTime() for container in pod.containers}

    def take_used(self, at: int, entry: dict[str, Any]) -> None:
        """What a tick has of what its containers use."""
        for found in traces.list_at(entry, "containers"):
            if found.get("name") in self.used:
                self.used[found["name"]].take(at, found)

    def take(self, at: int, entry: dict[str, Any]) -> None:
        """One more tick, with what it has of the pod."""
        # most ticks list what the one before did, and to read that takes long
        if entry.get("containers") != self.written:
            self.written = entry.get("containers")
            listed = {text_at(found, "name"): found for found in traces.list_at(entry, "containers")}
            for name, (moments, kept) in self.listings.items():
                listing = traces.listing_of(listed[name]) if name in listed else None
                if listing != (kept[-1] if kept else None):
                    moments.append(at)
                    kept.append(listing)
        for found in traces.list_at(entry, "probes") if "probes" in entry else ():
            probe = text_at(found, "container"), text_at(found, "probe")
            moments, results = self.results.setdefault(probe, ([], []))
            moments.append(at)
            results.append(sys.intern(text_at(found, "result")) if "result" in found else None)

    def listed(self, name: str, at: int) -> Listed:
        moments, kept = self.listings[name]
        place = bisect_right(moments, at) - 1
        if place < 0:
            return Listed(None, None, None)
        before = self.trace.places[moments[place]] - 1
        return Listed(kept[place], kept[place - 1] if place > 0 else None,
                      self.trace.ticks[before].at if place > 0 else None)

    def runs(self, name: str, kind: str, since: int, until: int) -> list[tuple[str | None, list[int]]]:
        """The results of a probe in a span of moments, both ends included, as runs of equal ones."""
        moments, kept = self.results.get((name, kind), ([], []))
        first = bisect_left(moments, since)
        runs: list[tuple[str | None, list[int]]] = []
        for at, result in zip(moments[first:], kept[first:]):
            if at > until:
                break
            if not runs or runs[-1][0] != result or self.is_over_gap(runs[-1][1][-1], at):
                runs.append((result, []))
            runs[-1][1].append(at)
        return runs

    def is_over_gap(self, before: int, at: int) -> bool:
        return any(before <= since and until <= at for since, until in self.trace.gaps)


class Ticks:
    """The ticks of pods, one after the other; of some numbers alone if these are given. A tick that does not list a pod
    matters where the tick before did. Of some moments it keeps what each pod used by then."""

    def __init__(self, wanted: set[int] | None = None, moments: Iterable[int] = ()) -> None:
        self.found: dict[int, PodTicks] = {}
        self.listed: dict[int, traces.Pod] = {}
        self.usages: dict[int, dict[str, int]] = {}
        self.wanted = wanted
        self.usages_at: dict[int, dict[int, dict[str, int]]] = {moment: {} for moment in moments}

    def of(self, trace: traces.Trace, pod: traces.Pod) -> PodTicks:
        if pod.number not in self.found:
            self.found[pod.number] = PodTicks(trace, pod)
        return self.found[pod.number]

    def take(self, trace: traces.Trace, tick: traces.Tick, present: dict[str, traces.Pod]) -> None:
        now, tells_use = {}, any(map(tick.may_have, SIGNS_OF_USE))
        for pod, entry in traces.entries_by_pods(trace, tick, present, self.wanted):
            self.of(trace, pod).take(tick.at, entry)
            now[pod.number] = pod
            if tells_use:
                self.of(trace, pod).take_used(tick.at, entry)
        for number, pod in self.listed.items():
            if number not in now and present.get(pod.key) is pod:
                self.found[number].take(tick.at, {})
        self.listed = now

    def take_last(self, trace: traces.Trace, present: dict[str, traces.Pod]) -> None:
        """Takes a trace's last tick, as it is read."""
        self.take_whole(trace, trace.ticks[-1], present)

    def take_all(self, trace: traces.Trace) -> None:
        """Takes the ticks of a trace that is read already."""
        for tick, present in zip(trace.ticks, traces.present_at_each(trace)):
            self.take_whole(trace, tick, present)

    def take_whole(self, trace: traces.Trace, tick: traces.Tick, present: dict[str, traces.Pod]) -> None:
        """Takes a tick with what the pods use by then."""
        self.take(trace, tick, present)
        if may_sample(tick):
            for key, entry in tick.entries.items():
                take_usage(self.usages.setdefault(present[key].number, {}), entry, tick.at, trace.heeds_words())
        if tick.at in self.usages_at:
            self.usages_at[tick.at] = {number: dict(usage) for number, usage in self.usages.items()}


def ticks_of(trace: traces.Trace, pods: list[traces.Pod]) -> dict[int, PodTicks]:
    """The ticks of some pods, by their numbers, in one reading of the trace."""
    ticks = Ticks({pod.number for pod in pods})
    for tick, present in zip(trace.ticks, traces.present_at_each(trace)):
        ticks.take(trace, tick, present)
    return {pod.number: ticks.of(trace, pod) for pod in pods}


def around_events(trace: traces.Trace, report: reports.Report, pod: reports.Pod) -> list[Around]:
    """What the trace holds around each event of a pod of the report, in order."""
    ours = trace.pods[pod.number]
    ticks = ticks_of(trace, [ours])[pod.number]
    specs = {container.name: container for container in ours.containers}
    deaths = {(event.name, event.at) for event in pod.events if event.word == "died"}
    starts: dict[str, tuple[str, int]] = {}
    exits: dict[str, list[Exit]] = {}
    found = []
    for event in pod.events:
        name = event.name
        if event.word == "started":
            starts[name] = (event.rest[0], event.at)
        elif event.word == "died":
            add_exit(exits.setdefault(name, []), event, starts.get(name))
        around = Around(event, died=event.word == "unready" and (name, event.at) in deaths)
        if event.word in ("started", "died"):
            around.listed = [(name, ticks.listed(name, event.at))]
        elif event.word == "phase":
            around.listed = [(other, ticks.listed(other, event.at)) for other in specs]
        elif event.word in ("backoff", "restart"):
            around.exits = counted(exits.get(name, []))
        elif event.word not in OF_RULES:
            around.results = results_of(ticks, specs[name], event, starts.get(name), around.died)
        if event.word in ("kill", "unready", "died"):
            attempt = next(iter(event.rest), starts.get(name, ("0",))[0])
            around.throttled = ticks.used[name].throttled(int(attempt), event.at)
            around.uses = ticks.used[name].of(int(attempt), event.at) if event.word == "died" else []
        found.append(around)
    add_evictions(trace, report, found)
    return found


def add_exit(exits: list[Exit], event: reports.Event, start: tuple[str, int] | None) -> None:
    started = start[1] if start and start[0] == event.rest[0] else None
    exits.append(Exit(int(event.rest[0]), started, event.at, int(event.rest[1]), 1))
    if len(exits) > 1 and exits[-1].run < LONG_RUN:
        exits[-1].number = exits[-2].number + 1


def counted(exits: list[Exit]) -> list[Exit]:
    """The exits that count for the newest one, which is the last."""
    return exits[-exits[-1].number :] if exits else []


def results_of(ticks: PodTicks, container: Container, event: reports.Event, start: tuple[str, int] | None,
               died: bool) -> list[Results]:
    """The results of the probes that an event is of, from the start of the instance on."""
    kinds = {"startup-passed": ("startup",), "kill": tuple(event.rest[1:]), "ready": ("startup", "readiness"),
             "unready": () if died else ("readiness",)}
    since = start[1] if start else None
    return [Results(kind, container.probes[kind], since,
                    ticks.runs(container.name, kind, 0 if since is None else since, event.at))
            for kind in kinds[event.word] if kind in container.probes]


def add_evictions(trace: traces.Trace, report: reports.Report, found: list[Around]) -> None:
    evictions, named_at = [], None
    for around in (around for around in found if around.event.word in OF_RULES):
        # under pressure a pod is named again and again
        if around.event.word == "evicted" or named_at is None or around.event.at > named_at + NAMED_AGAIN:
            evictions.append(around)
        named_at = around.event.at if around.event.word == "names" else named_at
    gathered = gather_evictions(trace, report, {around.event.at for around in evictions})
    for around in evictions:
        around.evicted = gathered[around.event.at]


def gather_evictions(trace: traces.Trace, report: reports.Report, moments: set[int],
                     usages: dict[int, dict[int, dict[str, int]]] | None = None) -> dict[int, Evicted]:
    """What the trace holds around the evictions of some moments, by moment; a tick evicts one pod at most. The usages
    are what each pod used by then, by moment, where that is known already."""
    if usages is None:
        by_place = usages_at(trace, {trace.places[at] for at in moments})
        usages = {trace.ticks[place].at: usage for place, usage in by_place.items()}
    active, found = reports.Thresholds(report), {}
    evictions = sorted(endings.by_rules(report), key=lambda eviction: eviction.at)
    for before, eviction in zip([None, *evictions], evictions):
        since = active.at(eviction.at).get((eviction.signal, eviction.kind))
        if eviction.at not in moments:
            continue
        threshold = next((limit for limit in trace.thresholds
                          if (limit.signal, limit.kind) == (eviction.signal, eviction.kind)), None)
        place = trace.places[eviction.at]
        found[eviction.at] = Evicted(eviction.signal, threshold, since,
                                     samples_of(trace, report, eviction.at, eviction.signal, since),
                                     candidates_of(trace, report, place, eviction.signal, eviction.number,
                                                   usages[eviction.at]), trace.pause(),
                                     trace.pauses_until_gone(), None if before is None else before.at,
                                     eviction.is_named, spared_at(trace, report, place))
    return found


def spared_at(trace: traces.Trace, report: reports.Report, place: int) -> list[str]:
    spared = [pod for pod in trace.pods if pod.is_spared and pod.is_present(place)]
    return [pod.key for pod in spared if endings.heeds_rounds(trace, report)]


def judged(trace: traces.Trace, report: reports.Report, ticks: list[traces.Tick]) -> list[traces.Tick]:
    """The ticks at which the node decides, of some ticks."""
    return [tick for tick in ticks if tick.is_judged or not endings.heeds_rounds(trace, report)]


def samples_of(trace: traces.Trace, report: reports.Report, at: int, signal: str,
               since: int | None) -> list[tuple[int, int | None, int | None]]:
    """The samples of a signal from one tick to another, of those at which the node decides; a value that a tick repeats
    is no sample of its own."""
    last = trace.places[at]
    first = last if since is None else trace.places.get(since, last)
    found: list[tuple[int, int | None, int | None]] = []
    for tick in judged(trace, report, trace.ticks[first : last + 1]):
        sample = tick.signals.get(signal), tick.after_reclaim.get(signal)
        if not found or found[-1][1:] != sample:
            found.append((tick.at, *sample))
    return found


def usages_at(trace: traces.Trace, places: set[int]) -> dict[int, dict[int, dict[str, int]]]:
    """The newest samples of each pod's usage up to the ticks of some places: thousandths by resource, by the pod's
    number, by place."""
    usages: dict[int, dict[str, int]] = {pod.number: {} for pod in trace.pods}
    found = {}
    for place, (tick, present) in enumerate(zip(trace.ticks, traces.present_at_each(trace))):
        # most ticks have no sample, and to read them takes long
        for key, entry in tick.entries.items() if may_sample(tick) else ():
            take_usage(usages[present[key].number], entry, tick.at, trace.heeds_words())
        if place in places:
            found[place] = {number: dict(usage) for number, usage in usages.items()}
        if len(found) == len(places):
            break
    return found


def may_sample(tick: traces.Tick) -> bool:
    """Whether a tick may have something of a pod's samples."""
    return tick.may_have(b"usage") or tick.may_have(UNSAMPLED.encode())


def take_usage(usage: dict[str, int], entry: dict[str, Any], at: int, heeds_unsampled: bool) -> None:
    """Takes what a tick has of a pod's samples: some, or that it has none from there on."""
    if entry.get("usage") is not None:
        usage.pop(UNSAMPLED, None)
    elif heeds_unsampled and entry.get(UNSAMPLED) is True:
        since = usage.get(UNSAMPLED, at)
        usage.clear()
        usage[UNSAMPLED] = since
    for resource, value in traces.dict_at(entry, "usage").items():
        if resource in traces.USAGES and value is not None:
            usage[resource] = traces.amounts.quantity(value)


def candidates_of(trace: traces.Trace, report: reports.Report, place: int, signal: str, number: int | None,
                  usages: dict[int, dict[str, int]]) -> list[Candidate]:
    """The pods that were present at a tick, had not ended before it and are not exempt, in the order of the rules for a
    signal; one of a number was evicted."""
    found, at = [], trace.ticks[place].at
    for pod, status in zip(trace.pods, report.pods):
        is_spared = endings.heeds_rounds(trace, report) and pod.is_spared
        if not pod.is_present(place) or is_spared or endings.had_ended(status, at):
            continue
        usage = usages.get(pod.number, {})
        by_then = trace.resizes.pod_at(pod, at)
        found.append(Candidate(pod, used(usage, signal, trace.dedicated()), requested(by_then, signal), status.qos,
                               pod.number == number, usage.get(UNSAMPLED)))
    return sorted(found, key=lambda candidate: order(candidate, signal))


def order(candidate: Candidate, signal: str) -> tuple[bool, bool, int, bool, int, int]:
    """Without a sample first; above the request first, then lower priority, more usage above the request, lower number;
    without requests by priority and usage alone. Of processes the priority goes before that there is no sample."""
    exceeds = candidate.request is not None and candidate.above > 0
    is_sampled = candidate.unsampled_at is None
    return (is_sampled or signal == "pid.available", not exceeds, candidate.pod.priority, is_sampled, -candidate.above,
            candidate.pod.number)


def used(usage: dict[str, int], signal: str, dedicated: bool) -> int | None:
    kinds = {
        "memory.available": ("memory",), "pid.available": ("pids",),
        "nodefs.available": ("volumes", "logs") if dedicated else ("volumes", "logs", "writable"),
        "imagefs.available": ("writable",) if dedicated else ("volumes", "logs", "writable"),
    }
    found = [usage[kind] for kind in kinds.get(signal, ("inodes",)) if kind in usage]
    return sum(found) if found else None


def requested(pod: traces.Pod, signal: str) -> int | None:
    resource = {"memory.available": "memory", "nodefs.available": "ephemeral-storage",
                "imagefs.available": "ephemeral-storage"}.get(signal)
    return None if resource is None else pod.request(resource)
