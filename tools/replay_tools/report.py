"""Reads a report of the program, as docs/report.md shows, and what it shows over time."""

from __future__ import annotations

import functools
import re
from collections.abc import Iterable
from dataclasses import dataclass, field
from datetime import datetime, timezone
from typing import Any

from replay_tools import events, outside
from replay_tools.spans import Span, spans_of, without_gaps

# what is greater counts from 1970, as the moments of a recording do
LEAST_DATED = 10 ** 8
CONDITIONS = ("MemoryPressure", "DiskPressure", "PIDPressure")
POD_CONDITIONS = ("PodScheduled", "Initialized", "ContainersReady", "Ready")
# the last moment that has a date of four digits
LAST_DATE = 253402300799


class ReportFault(Exception):
    """The text is no report; the message shows where."""


class NoLine(ValueError):
    """It is no line of a report, or none that is there."""


@dataclass
class Event:
    at: int
    pod: str | None
    container: str | None
    word: str
    rest: list[str]
    number: int | None = None
    """its pod's number, if it has one"""
    anew: int | None = None
    """the moment of a rotation after which what it counts began again"""
    was_so: bool = False
    """it was so in the trace before, which is not there"""

    @property
    def name(self) -> str:
        """The name of its container, which each event of an instance has; else an empty text."""
        return self.container or ""


@dataclass
class Condition:
    kind: str
    value: str
    at: int
    reason: str | None

    def copied(self) -> Condition:
        return Condition(self.kind, self.value, self.at, self.reason)


@dataclass
class Container:
    name: str
    state: str
    code: str
    restarts: str
    ready: str
    started: str

    def copied(self) -> Container:
        return Container(self.name, self.state, self.code, self.restarts, self.ready, self.started)


@dataclass
class Pod:
    number: int
    key: str
    phase: str
    reason: str
    qos: str
    conditions: list[Condition] = field(default_factory=list)
    containers: list[Container] = field(default_factory=list)
    events: list[Event] = field(default_factory=list)
    left: int | None = None
    """the moment by which it was gone: the first tick of the next pod of its key, or with the trace the first tick
    without it; None where there is none"""
    gaps: list[tuple[int, int]] = field(default_factory=list)
    """spans of moments of which nothing is known"""
    anew: int = 0
    """the place of the event from which on it is printed again, since only the rules had ended it before"""

    def condition(self, kind: str) -> Condition:
        """The condition of a kind of which it has one."""
        return next(found for found in self.conditions if found.kind == kind)

    def own_gaps(self) -> list[tuple[int, int]]:
        """The gaps that begin before it was gone."""
        return [(since, until) for since, until in self.gaps if self.left is None or since < self.left]


@dataclass
class Eviction:
    at: int
    pod: str
    signal: str
    kind: str
    grace: int
    number: int | None = None
    """the pod's number"""
    anew: int | None = None
    """the moment of a rotation after which its grace period or the pause began again"""
    is_named: bool = False
    """the rules would evict the pod, and the recording shows whom the kubelet evicted"""


@dataclass
class Border:
    """Where the report of one trace ends and the next trace's report begins, if there are several traces."""

    since: int
    """up to when the one shows all that happened"""
    at: int
    """from when on the other does; what it shows up to then was so before"""
    name: str
    """the trace that begins"""
    missing: str | None = None
    """the trace that lies between, where it is not there"""

    @property
    def is_gap(self) -> bool:
        return self.since < self.at


@dataclass
class Report:
    node: str
    pod_count: int
    tick_count: int
    events: list[Event] = field(default_factory=list)
    pods: list[Pod] = field(default_factory=list)
    conditions: list[Condition] = field(default_factory=list)
    evictions: list[Eviction] = field(default_factory=list)
    totals: tuple[int, ...] = ()
    """updates, events, orders"""
    borders: list[Border] = field(default_factory=list)
    """of one that is joined of several"""
    heeds_rounds: bool | None = None
    """what endings.heeds_rounds shows of it, once it was asked"""

    @property
    def gaps(self) -> list[tuple[int, int]]:
        """The spans of moments in which nothing was recorded."""
        return [(border.since, border.at) for border in self.borders if border.is_gap]

    @functools.cached_property
    def names_pods(self) -> bool:
        """Whether the rules name pods in it and evict none: its trace shows whom the node evicted."""
        return any(event.word == "names" for event in self.events)


# of events the words that they may have are in their table
FORMS = {
    "node": r"node (\S+) pods=(\d+) ticks=(\d+)",
    "node event": r"event (\d+) node ({node}) (\S.*)",
    "event": r"event (\d+) (\S+/\S+) (\S+) ({pod})((?: \S+)*)",
    "pod": r"pod (\d+) (\S+/\S+) phase=(Pending|Running|Succeeded|Failed) reason=(\S+) "
           r"qos=(Guaranteed|Burstable|BestEffort)",
    "condition": r"condition (\d+) (\S+) (True|False) (\d+)(?: (\S+))?",
    "container": r"container (\d+) (\S+) state=(Waiting|Running|Terminated) code=(-|-?\d+) restarts=(\d+) "
                 r"ready=(true|false) started=(true|false)",
    "node condition": r"nodecondition (\S+) (True|False) (\d+)",
    "eviction": r"eviction (\d+) (\S+/\S+) (\S+) (hard|soft) (\d+)",
    "totals": r"totals updates=(\d+) events=(\d+) orders=(\d+)",
}


@functools.cache
def forms() -> dict[str, list[tuple[str, re.Pattern[str]]]]:
    """The kinds of lines with their forms, by the first word of a line."""
    kinds = events.kinds().values()
    words = {"node": [kind.word for kind in kinds if kind.subject == "node"],
             "pod": [kind.word for kind in kinds if kind.subject != "node"]}
    found: dict[str, list[tuple[str, re.Pattern[str]]]] = {}
    for name, form in FORMS.items():
        whole = form.replace("{node}", "|".join(words["node"])).replace("{pod}", "|".join(words["pod"]))
        found.setdefault(form.partition(" ")[0], []).append((name, re.compile(whole, re.ASCII)))
    return found


def parts_of(line: str) -> tuple[str | None, tuple[Any, ...]]:
    """What kind of line it is, with its parts, which are names and words that can be shown."""
    for kind, form in forms().get(line.partition(" ")[0], ()):
        found = form.fullmatch(line)
        if found and line.isprintable():
            return kind, found.groups()
    return None, ()


def counted(digits: str, least: int = 0, most: int = outside.GREATEST) -> int:
    """A number of a line. Raises NoLine where it is out of its range."""
    found = outside.number_of(digits, least, most)
    if found is None:
        raise NoLine
    return found


def moment(digits: str) -> int:
    return counted(digits, 0, outside.LAST_MOMENT)


def read_report(text: str) -> Report:
    """The report of a text. Raises ReportFault."""
    lines = text.split("\n")
    if lines.pop() != "" or not lines:
        raise ReportFault("standard input has no whole report: its last line is cut or missing")
    if lines[0].startswith("pod "):
        raise ReportFault("standard input has the pod lines of a report alone, without its events")
    report: Report | None = None
    for number, line in enumerate(lines, 1):
        try:
            report = report_with(report, line)
        except NoLine:
            raise ReportFault(f"line {number} of standard input is no line of a report there") from None
    if report is None or not report.totals:
        raise ReportFault("standard input has no whole report: the line of totals is missing")
    check_whole(report)
    named = pods_by_key(report)
    tell_left(named)
    tell_pods(report, named)
    return report


def report_with(report: Report | None, line: str) -> Report:
    """The report with one more line. The first line is the node's, the last one has the totals. Raises NoLine where it
    is none of this report."""
    kind, parts = parts_of(line)
    if report is None:
        if kind != "node":
            raise NoLine
        return Report(parts[0], counted(parts[1]), counted(parts[2]))
    if kind is None or kind == "node" or report.totals:
        raise NoLine
    if kind == "totals":
        report.totals = tuple(map(counted, parts))
    else:
        add_line(report, kind, parts)
    return report


def tell_pods(report: Report, named: dict[str, list[Pod]]) -> None:
    """Gives each event and each eviction the pod that it is of, and each pod its events."""
    both: list[Event | Eviction] = [*report.events, *report.evictions]
    for said in both:
        pod = None if said.pod is None else pod_at(named.get(said.pod, ()), said.at)
        said.number = pod.number if pod else None
        if pod and isinstance(said, Event):
            pod.events.append(said)


def pods_by_key(report: Report) -> dict[str, list[Pod]]:
    """The pods of each key, one after the other."""
    named: dict[str, list[Pod]] = {}
    for pod in report.pods:
        named.setdefault(pod.key, []).append(pod)
    return named


def tell_left(named: dict[str, list[Pod]]) -> None:
    """Of pods of one key, one after the other, each has left by the first tick of the next one."""
    for pods in named.values():
        following = None
        for pod in reversed(pods):
            pod.left = following
            following = first_tick(pod) or following


def pod_at(pods: Iterable[Pod], at: int) -> Pod | None:
    """Of pods of one key, one after the other, that which was there at the moment of an event: the last whose first
    tick was by then. A pod without ticks has the moment 0 as its first, and its lines show that nothing happened."""
    begun = [pod for pod in pods if first_tick(pod) <= at]
    return max(begun, key=lambda pod: (first_tick(pod), was_seen(pod), -pod.number)) if begun else None


def was_seen(pod: Pod) -> bool:
    """Whether a pod's own lines show that something happened in it."""
    ran = any(container.state != "Waiting" or container.restarts != "0" for container in pod.containers)
    return ran or (pod.phase, pod.reason) != ("Pending", "-")


def number_words(report: Report, pod: Pod) -> str:
    """What distinguishes a pod from the others of its key, where there are others."""
    return f", number {pod.number}" if sum(other.key == pod.key for other in report.pods) > 1 else ""


def check_whole(report: Report) -> None:
    """Raises ReportFault where something is missing that each report has."""
    if [condition.kind for condition in report.conditions] != list(CONDITIONS):
        raise ReportFault("standard input has no whole report: a condition of the node is missing")
    if len(report.pods) != report.pod_count:
        raise ReportFault(f"standard input has no whole report: it has {len(report.pods)} pods and counts "
                          f"{report.pod_count}")
    for pod in report.pods:
        if [condition.kind for condition in pod.conditions[:4]] != list(POD_CONDITIONS):
            raise ReportFault(f"standard input has no whole report: a condition of {pod.key} is missing")


def add_line(report: Report, kind: str, parts: tuple[Any, ...]) -> None:
    """Adds what a line shows. Raises NoLine where it is none of this report."""
    if kind == "event":
        at, pod, container, word, rest = parts
        container = None if container == "-" else container
        report.events.append(checked(Event(moment(at), pod, container, word, rest.split())))
    elif kind == "node event":
        at, word, rest = parts
        rest = rest.split()
        pod = rest[0] if events.kinds()[word].is_of_pod else None
        report.events.append(checked(Event(moment(at), pod, None, word, rest)))
    elif kind == "pod":
        if counted(parts[0]) != len(report.pods):
            raise NoLine
        report.pods.append(Pod(len(report.pods), *parts[1:]))
    elif kind == "condition":
        pod_of(report, parts[0]).conditions.append(Condition(parts[1], parts[2], moment(parts[3]), parts[4]))
    elif kind == "container":
        made = Container(*parts[1:])
        counted(made.restarts, 0, outside.MOST_OF_CODE)
        if made.code != "-":
            counted(made.code, -outside.MOST_OF_CODE - 1, outside.MOST_OF_CODE)
        pod_of(report, parts[0]).containers.append(made)
    elif kind == "node condition":
        report.conditions.append(Condition(parts[0], parts[1], moment(parts[2]), None))
    else:
        at, pod, signal, kind, grace = parts
        report.evictions.append(Eviction(moment(at), pod, signal, kind, counted(grace)))


def pod_of(report: Report, digits: str) -> Pod:
    """The pod of a number, whose line came before."""
    number = counted(digits)
    if number >= len(report.pods):
        raise NoLine
    return report.pods[number]


def checked(event: Event) -> Event:
    kind = events.kinds()[event.word]
    if not kind.form.fullmatch(" ".join(event.rest)):
        raise NoLine
    for field_of, text in zip(kind.fields, event.rest):
        if field_of.is_number:
            counted(text, -outside.GREATEST)
    return event


def moment_text(at: int, utc: bool) -> str:
    """A moment as its seconds, or as a UTC time, which shows it, where that was asked for and there is one."""
    if not utc or at > LAST_DATE:
        return str(at)
    return datetime.fromtimestamp(at, timezone.utc).strftime("%Y-%m-%d %H:%M:%SZ")


def first_tick(pod: Pod) -> int:
    """The moment of a pod's first tick, since which it is scheduled."""
    return pod.condition("PodScheduled").at


def has_ticks(report: Report, pod: Pod) -> bool:
    """Whether some tick came after the pod's line, as far as the report shows: a pod without one has the moment 0. Pods
    come in the order of their lines, so one with 0 after one with more has none, and so has one next to whose key
    another began at 0."""
    if first_tick(pod) > 0 or pod.events:
        return True
    if any(other.key == pod.key and other.events and first_tick(other) == 0 for other in report.pods):
        return False
    changed = {event.rest[0] for event in report.events if event.word == "pressure"}
    begun = max((condition.at for condition in report.conditions if condition.kind not in changed), default=0)
    return report.tick_count > 0 and begun == 0 and all(first_tick(other) == 0 for other in report.pods[: pod.number])


def end_of(pod: Pod) -> tuple[int, str] | None:
    """The moment at which a pod ended, and as what; None where it did not."""
    for event in pod.events[pod.anew :]:
        if event.word == "evicted":
            return event.at, "Evicted"
        if event.word == "phase" and event.rest[0] in ("Succeeded", "Failed"):
            later = [other for other in pod.events if other.word == "evicted" and other.at == event.at]
            is_evicted = later or (event.rest[0], pod.reason) == ("Failed", "Evicted")
            return event.at, "Evicted" if is_evicted else event.rest[0]
    return None


def end_of_spans(pod: Pod) -> int | None:
    """Until when a pod's last states lasted: it ended, or it was gone by then; None where neither is known."""
    end = end_of(pod)
    return end[0] if end else pod.left


def ready_spans(pod: Pod, kind: str = "Ready") -> list[Span]:
    """The spans of Ready or ContainersReady by the events. Readiness gates make no event, so of a pod that has some
    these are the spans of ContainersReady."""
    final, spans = pod.condition(kind), changes_of_ready(pod)
    if (spans[-1].value, spans[-1].since) != (final.value, final.at):
        spans = [Span(final.value, final.at, None)]
    return without_gaps(spans, pod.own_gaps())


def changes_of_ready(pod: Pod) -> list[Span]:
    """The spans of Ready by the pod's events. Containers that are never ready are init containers, or the pod was never
    ready; which of both the condition's own line shows."""
    first, end = first_tick(pod), end_of(pod)
    ever = {event.container for event in pod.events if event.word == "ready"}
    now, changes = set(), []
    for index, event in enumerate(pod.events):
        if event.word == "ready":
            now.add(event.container)
        elif event.word == "unready":
            now.discard(event.container)
        following = pod.events[index + 1 : index + 2]
        if not following or following[0].at != event.at:
            ended = end is not None and end[0] <= event.at
            changes.append((event.at, "True" if ever and now == ever and not ended else "False"))
    return spans_of(changes, first, "False")


def condition_spans(pod: Pod, condition: Condition) -> list[Span]:
    """The spans of a condition as far as the report shows them."""
    if condition.kind in ("Ready", "ContainersReady"):
        return ready_spans(pod, condition.kind)
    last = Span(condition.value, condition.at, None)
    if condition.kind == "Initialized" and condition.at > first_tick(pod):
        before = Span("False" if condition.value == "True" else "True", None, condition.at)
        return without_gaps([before, last], pod.own_gaps())
    return without_gaps([last], pod.own_gaps())


def state_spans(pod: Pod, name: str) -> list[Span]:
    """The spans of a container's state. An instance that is only created makes no event, so it is seen as a state
    only where it is the first one."""
    changes = []
    for event in pod.events:
        if event.container == name and event.word == "started":
            changes.append((event.at, f"Running {event.rest[0]}"))
        elif event.container == name and event.word == "died":
            changes.append((event.at, f"Terminated {event.rest[0]} {event.rest[1]}"))
    spans = spans_of(changes, first_tick(pod), "Waiting")
    spans[-1].until = end_of_spans(pod)
    for span in spans:
        span.value, _, span.note = span.value.partition(" ")
    return without_gaps(spans, pod.own_gaps())


def pressure_spans(report: Report, kind: str) -> list[Span]:
    """The spans in which a condition of the node was True."""
    changes = [(event.at, event.rest[1]) for event in report.events
               if event.word == "pressure" and event.rest[0] == kind]
    return without_gaps([span for span in spans_of(changes, 0, "False") if span.value == "True"], report.gaps)


class Thresholds:
    """The thresholds that are active after the tick of a moment, of moments that rise."""

    def __init__(self, report: Report) -> None:
        self.later = [event for event in reversed(report.events) if event.word == "threshold"]
        self.active: dict[tuple[str, str], int] = {}

    def at(self, moment: int) -> dict[tuple[str, str], int]:
        """Each with the moment since which it is active, by signal and kind."""
        while self.later and self.later[-1].at <= moment:
            event = self.later.pop()
            signal, kind, value = event.rest
            if value == "active":
                self.active[signal, kind] = event.at
            else:
                self.active.pop((signal, kind), None)
        return self.active


def moments(report: Report) -> list[int]:
    """Every moment that a report names."""
    named = [event.at for event in report.events] + node_moments(report)
    return named + [condition.at for pod in report.pods for condition in pod.conditions]


def node_moments(report: Report) -> list[int]:
    """The moments of the node's conditions. Without a tick that the node judged they have 0, which is none of a
    recording, whose moments count from 1970."""
    shown = [event.at for event in report.events] + [first_tick(pod) for pod in report.pods if has_ticks(report, pod)]
    is_dated = min(shown, default=0) > LEAST_DATED
    return [condition.at for condition in report.conditions if condition.at or not is_dated]
