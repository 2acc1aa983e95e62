"""Reads a trace's lines into records. It takes what the program takes, and does not look for every fault that the
program rejects."""

from __future__ import annotations

import json
from collections.abc import Callable, Iterator
from dataclasses import dataclass, field
from typing import Any, TYPE_CHECKING

from replay_tools import amounts, first_bytes, outside, packed, pods, signals
from replay_tools.amounts import Wrong
from replay_tools.decided import Decision, Deletion, decisions_of, take_words
from replay_tools.fields import dict_at, list_at, number_at, object_at, own_bounds_of, text_at, value_at
from replay_tools.pods import Pod, has_bare_manifest, pod_of
from replay_tools.reasons import Reasons, gates_in, guesses_code, is_guessed_in
from replay_tools.resizes import Resizes
from replay_tools.said import SaidOfPods
from replay_tools.signals import Threshold, thresholds_of

if TYPE_CHECKING:
    from replay_tools import report as reports

# who reads a trace finds these here too
SIGNALS, BYTE_SIGNALS = signals.SIGNALS, signals.BYTE_SIGNALS
Container = pods.Container
Probe = pods.Probe
STATES = ("CONTAINER_CREATED", "CONTAINER_RUNNING", "CONTAINER_EXITED", "CONTAINER_UNKNOWN")
# what the program takes
LONGEST_TRACE, LONGEST_LINE = 64 << 20, 1 << 20
USAGES = ("memory", "volumes", "logs", "writable", "inodes", "pids")
# members of an entry that show nothing of the pod itself
LISTED = frozenset(("pod", "containers", "probes", "usage"))
DECODER = json.JSONDecoder()
# the entries of so many pods are looked for one by one
FEW = 3


class TraceFault(Exception):
    """The text is no trace, or not the one that was asked for; the message shows where."""


@dataclass
class Listing:
    attempt: int
    state: str
    code: int | None


class Lines:
    """The bytes of a trace. Its ticks together take many times that as they are read, so the entries of one are read
    where they are looked at, and those that were looked at last are kept."""

    def __init__(self, text: bytes) -> None:
        self.text = text
        self.newest: tuple[int | None, dict[str, dict[str, Any]]] = None, {}
        self.booted_at: int | None = None
        """the second at which the node's system was started, if the node line has it"""

    def __iter__(self) -> Iterator[tuple[int, int, int]]:
        """Where each line begins and ends, with its number."""
        begin, number = 0, 1
        while begin <= len(self.text):
            end = self.text.find(b"\n", begin)
            end = len(self.text) if end < 0 else end
            yield number, begin, end
            begin, number = end + 1, number + 1

    def read(self, begin: int, end: int) -> dict[str, Any]:
        """The JSON value of a line; its entries are kept, where it is a tick's."""
        try:
            found = json.loads(self.text[begin:end].decode())
        except (ValueError, RecursionError):
            raise Wrong("line") from None
        if not isinstance(found, dict):
            raise Wrong("line")
        if found.get("kind") == "tick":
            self.newest = begin, entries_of(found)
        return found

    def entries(self, begin: int, end: int) -> dict[str, dict[str, Any]]:
        if self.newest[0] != begin:
            self.read(begin, end)
        return self.newest[1]

    def entry(self, key: str, begin: int, end: int) -> dict[str, Any] | None:
        """The entry of one pod. In a line as recorders write it that is found by how it begins, and read alone."""
        sign = b'{"pod":"%b","containers":[' % key.encode()
        place = self.text.find(sign, begin, end) if self.newest[0] != begin else -1
        if place < 0:
            return self.entries(begin, end).get(key)
        try:
            return DECODER.raw_decode(self.text[place:end].decode())[0]
        except (ValueError, RecursionError):
            raise Wrong("line") from None


@dataclass
class Tick:
    at: int
    lines: Lines
    begin: int
    end: int
    """where its line is"""
    signals: dict[str, int]
    """thousandths by signal"""
    after_reclaim: dict[str, int]
    is_judged: bool = True
    """whether the node decides at it"""
    not_ready: dict[str, Any] | None = None
    """what it has of a node that is not Ready, as it is written"""
    kubelet_started_at: int | None = None
    """the second at which the kubelet was started, if it has one"""

    @property
    def entries(self) -> dict[str, dict[str, Any]]:
        """By the pod's key, as they are written."""
        return self.lines.entries(self.begin, self.end)

    def entry(self, key: str) -> dict[str, Any] | None:
        """The entry of one pod."""
        return self.lines.entry(key, self.begin, self.end)

    def may_have(self, name: bytes) -> bool:
        """Whether a member of this name may be in its line, where it may be written with escapes."""
        return any(self.lines.text.find(sign, self.begin, self.end) >= 0 for sign in (name, b"\\u"))


@dataclass
class Trace:
    node: str
    settings: dict
    thresholds: list[Threshold]
    """in the order in which they are served"""
    pods: list[Pod] = field(default_factory=list)
    ticks: list[Tick] = field(default_factory=list)
    places: dict[int, int] = field(default_factory=dict)
    """the place of a tick by its moment"""
    decisions: list[Decision] = field(default_factory=list)
    """what the kubelet did, in the order of the ticks"""
    reasons: Reasons = field(default_factory=Reasons)
    """why instances ended and containers wait"""
    said: SaidOfPods = field(default_factory=SaidOfPods)
    """what the kubelet and Events reported"""
    resizes: Resizes = field(default_factory=Resizes)
    """which containers have other requests and limits than their manifests"""
    deletions: dict[int, Deletion] = field(default_factory=dict)
    """by the number of the pod"""
    failed: dict[int, Decision] = field(default_factory=dict)
    """that the node has ended a pod, by its number"""
    marked_wrongly: dict[int, int] = field(default_factory=dict)
    """when a recorder marked a pod as being deleted that was not, by its number; these are no deletions"""
    gaps: list[tuple[int, int]] = field(default_factory=list)
    """of one that is joined of several, the spans in which nothing was recorded"""

    def entry(self, pod: Pod, place: int) -> dict[str, Any] | None:
        """What a tick has of a pod, as it is written; None where the pod is not in it."""
        return self.ticks[place].entry(pod.key) if pod.is_present(place) else None

    def listing(self, pod: Pod, name: str, place: int) -> Listing | None:
        """The instance of a container that a tick lists, or None."""
        found = self.listed_as(pod, name, place)
        return listing_of(found) if found else None

    def listed_as(self, pod: Pod, name: str, place: int) -> dict[str, Any]:
        """What a tick lists of a container, as it is written; nothing where it does not."""
        listed = list_at(self.entry(pod, place) or {}, "containers")
        return next((found for found in listed if found.get("name") == name), {})

    def pause(self) -> int:
        """evictionPauseSeconds, which version 3 alone has."""
        return number_at(self.settings, "evictionPauseSeconds", 0) if self.settings.get("version") == 3 else 0

    def greatest_delay(self) -> int:
        """The greatest delay of a restart, in seconds; version 3 has the kubelet's own field for it too."""
        own = self.settings.get("crashLoopBackOff") if self.settings.get("version") == 3 else None
        period = own.get("maxContainerRestartPeriod") if isinstance(own, dict) else None
        return value_at(self.settings, "maxRestartDelay", 300) if period is None else amounts.duration(period)

    def pauses_until_gone(self) -> bool:
        """Whether the pause is over once the evicted pod has ended or gone."""
        return self.pause() > 0 and self.settings.get("evictionPauseUntilGone") is True

    def pause_end(self, eviction: reports.Eviction) -> int:
        """The moment from which on the rules may evict again after an eviction."""
        end = eviction.at + self.pause()
        for place in range(self.places[eviction.at] + 1, len(self.ticks)) if self.pauses_until_gone() else ():
            if self.ticks[place].at >= end:
                break
            if eviction.number is not None and self.is_over(self.pods[eviction.number], place):
                return self.ticks[place].at
        return end

    def is_over(self, pod: Pod, place: int) -> bool:
        """Whether a pod is gone at a tick, or all its containers are listed as exited there or not at all."""
        listed = (self.listing(pod, container.name, place) for container in pod.containers)
        return not pod.is_present(place) or all(one is None or one.state == STATES[2] for one in listed)

    @property
    def deleted(self) -> dict[int, int]:
        """Since when a pod is being deleted, by its number."""
        return {number: deletion.at for number, deletion in self.deletions.items()}

    def heeds_words(self) -> bool:
        """Whether the members of the extended format count: that a pod has no sample, is being deleted, was ended or is
        exempt, and that a tick is no sync tick."""
        return self.settings.get("version") == 3

    def records_evictions(self) -> bool:
        """Whether it has each pod that the kubelet evicted, by its node line."""
        return self.heeds_words() and self.settings.get("evictionsRecorded") is True

    def is_imported(self) -> bool:
        """Whether the trace was made of a kubelet's journal."""
        return self.settings.get("imported") is True

    def tells(self) -> bool:
        """Whether the trace shows what the kubelet did: if it then shows nothing, the kubelet did nothing."""
        return (self.settings.get("recordsKubelet") is True or bool(self.decisions or self.failed)
                or self.records_evictions())

    def kubelet_starts(self) -> list[int]:
        """The moments at which the kubelet was started again, as the ticks have them."""
        found = (tick.kubelet_started_at for tick in self.ticks)
        return sorted({at for at in found if at is not None})

    def follows(self) -> dict[str, Any] | None:
        return follows_of(self.settings)

    def dedicated(self) -> bool:
        return value_at(self.settings, "dedicatedImagefs", False)


def follows_of(node_line: Any) -> dict[str, Any] | None:
    """What a node line has of the trace before it: its name; `until`, the moment up to which that trace has all; and
    `at`, the moment up to which this trace shows what was so before. None if it has nothing of this form."""
    said = node_line.get("follows") if isinstance(node_line, dict) else None
    if not isinstance(said, dict):
        return None
    found = {"trace": outside.text_of(said.get("trace")), "until": outside.moment(said.get("until")),
             "at": outside.moment(said.get("at"))}
    return None if None in found.values() else found


def present_at_each(trace: Trace) -> Iterator[dict[str, Pod]]:
    """The pods that are present, by key, at each tick in turn; the same dict each time."""
    present: dict[str, Pod] = {}
    arriving = sorted(trace.pods, key=lambda pod: pod.first, reverse=True)
    leaving = sorted(((pod.gone, pod) for pod in trace.pods if pod.gone is not None), key=lambda pair: pair[0],
                     reverse=True)
    for place in range(len(trace.ticks)):
        while leaving and leaving[-1][0] <= place:
            present.pop(leaving.pop()[1].key, None)
        while arriving and arriving[-1].first <= place:
            pod = arriving.pop()
            if pod.is_present(place):
                present[pod.key] = pod
        yield present


def entries_by_pods(trace: Trace, tick: Tick, present: dict[str, Pod],
                    wanted: set[int] | None) -> list[tuple[Pod, dict[str, Any]]]:
    """The pods of some numbers that are present, or all of them, each with what a tick has of it."""
    if wanted is None or len(wanted) > FEW:
        every = [(present[key], entry) for key, entry in tick.entries.items()]
        return every if wanted is None else [(pod, entry) for pod, entry in every if pod.number in wanted]
    pods = [pod for pod in map(trace.pods.__getitem__, sorted(wanted)) if present.get(pod.key) is pod]
    return [(pod, entry) for pod in pods if (entry := tick.entry(pod.key)) is not None]


def listing_of(found: dict[str, Any]) -> Listing:
    state = value_at(found, "state")
    if isinstance(state, int) and 0 <= state < len(STATES):
        state = STATES[state]
    if state not in STATES:
        raise Wrong("state")
    code = number_at(found, "exitCode", 0) if state == "CONTAINER_EXITED" and not guesses_code(found) else None
    return Listing(number_at(found, "attempt", 0), state, code)


def read_trace(path: str, watch: Callable[..., Any] | None = None) -> Trace:
    """The trace of a file, which may be packed. Raises TraceFault."""
    return trace_of(text_of(path), path, watch)


def text_of(path: str) -> bytes:
    """The bytes of a trace of a file, unpacked. Raises TraceFault."""
    try:
        text = packed.read(path, LONGEST_TRACE)
    except OSError as fault:
        raise TraceFault(f"{path} can't be read: {fault.strerror}") from None
    except packed.Damaged as fault:
        raise TraceFault(f"{path}: {fault}") from None
    if len(text) > LONGEST_TRACE:
        raise TraceFault(f"{path} is no trace: it has more than 64 MiB")
    return text


def trace_of(text: bytes, path: str, watch: Callable[..., Any] | None = None) -> Trace:
    """The trace of a text, which a path names where it is none. `watch` is called with the trace and the pods that are
    present after each tick, whose entries need not be read once more then. Raises TraceFault."""
    other = first_bytes.instead_of_trace(text, path)
    if other:
        raise TraceFault(other)
    trace: Trace | None = None
    present: dict[str, Pod] = {}
    lines = Lines(text)
    for number, begin, end in lines:
        if not text[begin:end].strip(b" \t\r"):
            continue
        try:
            before = 0 if trace is None else len(trace.ticks)
            trace = trace_with(trace, present, lines, begin, end)
            if watch is not None and len(trace.ticks) > before:
                watch(trace, present)
        except Wrong:
            raise TraceFault(f"{path}: line {number} is no line of a trace there "
                             "(kubelet-replay explain shows what it lacks)") from None
    if trace is None:
        raise TraceFault(f"{path} is no trace: it has no line")
    drop_wrong_deletions(trace)
    return trace


def drop_wrong_deletions(trace: Trace) -> None:
    """Takes away the deletions that a recorder marked wrongly, and keeps when it did."""
    from replay_tools import provenance
    try:
        wrong = provenance.wrongly_deleted(trace) if len(trace.deletions) > 1 else set()
    except Wrong:
        # a tick that can't be read is reported when it is read
        return
    for number in wrong:
        trace.marked_wrongly[number] = trace.deletions.pop(number).at


def trace_with(trace: Trace | None, present: dict[str, Pod], lines: Lines, begin: int, end: int) -> Trace:
    """The trace with one more line; present has its pods by key."""
    found = lines.read(begin, end)
    kind = found.get("kind")
    if trace is None:
        if kind != "node":
            raise Wrong("kind")
        lines.booted_at = outside.moment(found.get("bootedAt"))
        return Trace(text_at(found, "name"), found, thresholds_of(found))
    if kind == "pod":
        pod = pod_of(len(trace.pods), object_at(found, "pod"), len(trace.ticks), trace.heeds_words())
        if pod.key in present:
            raise Wrong("pod")
        pod.uid = outside.text_of(found.get("uid"))
        pod.is_spared = trace.heeds_words() and found.get("spared") is True
        pod.is_guessed = is_guessed_in(found, "manifest") and has_bare_manifest(pod)
        if trace.heeds_words():
            pod.gates, pod.own = gates_in(found), own_bounds_of(found["pod"]["spec"].get("resources"))
        trace.reasons.has_gates |= bool(pod.gates)
        present[pod.key] = pod
        trace.pods.append(pod)
    elif kind == "gone":
        pod_that_goes(found, present).gone = len(trace.ticks)
    elif kind == "tick":
        add_tick(trace, present, tick_of(found, lines, begin, end))
        trace.ticks[-1].is_judged = not (trace.heeds_words() and found.get("judged") is False)
        entries = trace.ticks[-1].entries
        # most entries list containers and samples alone
        others = {key: entry for key, entry in entries.items() if not LISTED.issuperset(entry)}
        take_words(trace, others, present)
        if trace.heeds_words():
            follows = trace.follows()
            trace.resizes.take(trace.ticks[-1].at, others, present, -1 if follows is None else follows["at"])
        trace.decisions += decisions_of(trace, found)
        trace.reasons.take(trace.ticks[-1].at, entries, others, present)
        trace.said.take(others, present)
    else:
        raise Wrong("kind")
    return trace


def pod_that_goes(found: dict[str, Any], present: dict[str, Pod]) -> Pod:
    """The pod of a `gone` line, which is present no more."""
    key = text_at(found, "pod")
    if key not in present:
        raise Wrong("pod")
    return present.pop(key)


def add_tick(trace: Trace, present: dict[str, Pod], tick: Tick) -> None:
    if (trace.ticks and tick.at <= trace.ticks[-1].at) or not tick.entries.keys() <= present.keys():
        raise Wrong("tick")
    trace.places[tick.at] = len(trace.ticks)
    trace.ticks.append(tick)


def tick_of(found: dict[str, Any], lines: Lines, begin: int, end: int) -> Tick:
    at = found.get("at")
    if isinstance(at, float) and at.is_integer():
        at = int(at)
    if not isinstance(at, int) or isinstance(at, bool):
        raise Wrong("at")
    return Tick(at, lines, begin, end, samples(found, "signals"), samples(found, "afterReclaim"),
                not_ready=not_ready_of(found), kubelet_started_at=outside.whole(found.get("kubeletStartedAt"), 0, at))


def not_ready_of(found: dict[str, Any]) -> dict[str, Any] | None:
    said = found.get("nodeReady")
    return said if isinstance(said, dict) and said.get("status") in ("False", "Unknown") else None


def entries_of(found: dict[str, Any]) -> dict[str, dict[str, Any]]:
    entries = list_at(found, "pods")
    keys: list[Any] = [entry.get("pod") for entry in entries]
    if not {str}.issuperset(map(type, keys)):
        raise Wrong("pod")
    return dict(zip(keys, entries))


def samples(found: dict[str, Any], name: str) -> dict[str, int]:
    return {signal: amounts.quantity(value) for signal, value in dict_at(found, name).items() if value is not None}


def check_belongs(trace: Trace, report: reports.Report, path: str) -> None:
    """Raises TraceFault unless the report can be one of the trace."""
    for what, here, there in (
        ("node", trace.node, report.node),
        ("number of pods", len(trace.pods), report.pod_count),
        ("number of ticks", len(trace.ticks), report.tick_count),
    ):
        if here != there:
            raise TraceFault(f"{path} does not belong to the report: its {what} is {here}, the report's {there}")
    check_pods(trace, report, path)
    check_events(trace, report, path)


def check_pods(trace: Trace, report: reports.Report, path: str) -> None:
    """Raises TraceFault unless each pod is the report's, with its containers."""
    for ours, theirs in zip(trace.pods, report.pods):
        named = [container.name for container in theirs.containers]
        if ours.key != theirs.key or [container.name for container in ours.containers] != named:
            others = " with other containers than" if ours.key == theirs.key else ","
            raise TraceFault(f"{path} does not belong to the report: pod {ours.number} is {ours.key}{others} the "
                             f"report's {theirs.key}")


def check_events(trace: Trace, report: reports.Report, path: str) -> None:
    """Raises TraceFault unless each event is at a tick, and each start is of what that lists."""
    for event in report.events:
        if event.at not in trace.places:
            raise TraceFault(f"{path} does not belong to the report: it has no tick at {event.at}")
        if event.word == "started" and not is_listed(trace, event):
            raise TraceFault(f"{path} does not belong to the report: at {event.at} it does not list attempt "
                             f"{event.rest[0]} of {event.container} of {event.pod} as running")


def is_listed(trace: Trace, event: reports.Event) -> bool:
    if event.number is None:
        return False
    found = trace.listing(trace.pods[event.number], event.name, trace.places[event.at])
    return found is not None and (found.attempt, found.state) == (int(event.rest[0]), "CONTAINER_RUNNING")
