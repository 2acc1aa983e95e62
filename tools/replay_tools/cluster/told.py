"""One story of a workload over the nodes that its pods are and were on: by time what happened to them, the pods that no
trace has, and the recorded ones, the worst last on the screen to be read first."""

from __future__ import annotations

import json
import re
from collections.abc import Callable
from dataclasses import dataclass, field, replace
from typing import Any

from replay_tools import (asking, entry, events, kubelet as kubelets, report as reports, summary as summing, telling,
                          why_text)
from replay_tools.cluster.layout import Layout
from replay_tools.cluster.unrecorded import Pod
from replay_tools.cluster.workloads import Members
from replay_tools.joined import join

# what follows from something else, or is no trouble, is left to --all
MINOR = ("started", "ready", "restart", "phase", "startup-passed")
MOST_EVENTS = 20
# of two events that differ in these alone one is printed
OWN = re.compile(r" \(attempt \d+\)|\(\d+ times, last then\)|, \d+ s before|\d+ s before| by \d+ s|; killed by .*")


@dataclass
class OnNode:
    """What was recorded of a node, with the pods of the workload in it."""

    node: str
    given: asking.Given
    several: join.Joined
    kubelet: kubelets.Kubelet | None
    pods: list[reports.Pod]


@dataclass(frozen=True)
class Row:
    """Something that happened: the moment of its first time, and how often it came again up to a last one."""

    at: int
    node: str
    pod: str
    container: str
    what: str
    is_minor: bool = False
    rank: int = telling.OF_REPORT
    """of what has one moment causes come before effects"""
    times: int = 1
    last: int | None = None

    def words(self, show: Callable[[int], str]) -> str:
        if self.times == 1:
            return self.what
        return f"{self.what} ({self.times} times, last at {show(self.last or self.at)})"

    def record(self) -> dict[str, Any]:
        return {"at": self.at, "node": self.node, "pod": self.pod, "container": blank(self.container),
                "what": self.what}


@dataclass
class Story:
    """All that is printed of a workload."""

    members: Members
    found: list[OnNode]
    unrecorded: list[Pod]
    missing: dict[str, str] = field(default_factory=dict)
    """what was asked for and did not come, and why"""

    @property
    def recorded(self) -> int:
        return sum(len(one.pods) for one in self.found)

    def head(self, show: Callable[[int], str]) -> str:
        spans = [one.several for one in self.found]
        first, last = min((one.first for one in spans), default=0), max((one.last for one in spans), default=0)
        of_time = f", {show(first)} to {show(last)}" if spans else ""
        nodes = {one.node for one in self.found if one.pods} | {pod.node for pod in self.unrecorded if pod.node}
        all_of_them = self.recorded + len(self.unrecorded)
        recorded = "" if not self.unrecorded else f", {self.recorded or 'none'} recorded,"
        return (f"{self.members.target.words()}{of_time}: {entry.counted(all_of_them, 'pod')}{recorded} on "
                f"{entry.counted(len(nodes), 'node')}")


def blank(cell: str) -> str | None:
    return None if cell == "-" else cell


def on_node(node: str, several: join.Joined, members: Members) -> OnNode:
    """Of the pods of one name all are printed."""
    given = asking.Given(several.report, several.trace, several)
    pods = [pod for pod in given.report.pods if members.has(pod.key)]
    return OnNode(node, given, several, asking.kubelet_beside(given.trace, given.report), pods)


def text(story: Story, show: Callable[[int], str], layout: Layout, is_all: bool) -> str:
    """The whole story; of a namespace the list of its pods alone. The pods' table is what stays on a screen."""
    lines = [*layout.title(story.head(show)), ""]
    if not story.members.target.is_list or is_all:
        lines += events_table(story, show, layout, is_all)
    heads = ["pod", "node", "phase", "ready", "restarts", "why"]
    if story.unrecorded:
        lines += layout.table("Pods that no trace has, as the API server has them now", heads,
                              [[name_of(story, pod.key), *pod.cells()] for pod in story.unrecorded])
    if story.recorded or not story.unrecorded:
        lines += pods_table(story, show, layout)
    if story.missing:
        lines += [*layout.title("Missing"), *(line for name, why in story.missing.items()
                                              for line in layout.line(entry.visible(f"{name}: {why}"))), ""]
    return "".join(f"{line}\n" for line in lines[:-1])


def ranked(story: Story) -> list[tuple[OnNode, reports.Pod, summing.Summary]]:
    """The recorded pods, the worst first."""
    rows = []
    for one in story.found:
        own = {pod.number: pod for pod in one.pods}
        rows += [((*each.rank[:3], own[each.number].key, one.node), (one, own[each.number], each))
                 for each in summing.summaries(one.given.report, one.given.trace, one.kubelet, since=one.given.since)
                 if each.number in own]
    return [row for _, row in sorted(rows, key=lambda row: row[0])]


def name_of(story: Story, key: str) -> str:
    return key if story.members.target.namespace is None else key.partition("/")[2]


def pods_table(story: Story, show: Callable[[int], str], layout: Layout) -> list[str]:
    rows = [[name_of(story, pod.key) + reports.number_words(one.given.report, pod), one.node, pod.phase,
             str(each.restarts), str(each.all_restarts), str(each.unready_seconds),
             "-" if each.found.at is None else show(each.found.at), each.found.words or "-"]
            for one, pod, each in ranked(story)]
    heads = ["pod", "node", "phase", "restarts", "in all", "unready s", "moment", "worst event"]
    if not layout.fits(heads, rows):
        # the moment goes below with what happened then
        heads = [*heads[:-2], heads[-1]]
        rows = [[*row[:-2], row[-1] if row[-2] == "-" else f"{row[-2]} {row[-1]}"] for row in rows]
    return layout.table("Pods, the worst first", heads, rows)


def events_table(story: Story, show: Callable[[int], str], layout: Layout, is_all: bool) -> list[str]:
    """By time what the reports, the kubelet and the API server's events have; what comes again is in one row."""
    rows = rows_of(story, show)
    shown = rows if is_all else grouped([row for row in rows if not row.is_minor])
    left = 0 if is_all else sum(row.is_minor for row in rows)
    if not is_all and len(shown) > MOST_EVENTS:
        left += sum(row.times for row in shown[:-MOST_EVENTS])
        shown = shown[-MOST_EVENTS:]
    lines = layout.table("What happened", ["moment", "node", "pod", "container", "event"],
                         [[show(row.at), row.node, name_of(story, row.pod), row.container, row.words(show)]
                          for row in shown])
    if left:
        lines[-1:] = [*layout.line(f"{entry.counted(left, 'more event')}, which --all prints too"), ""]
    return lines


def grouped(rows: list[Row]) -> list[Row]:
    """Rows in which what happened again to a container is counted at its first time."""
    found: dict[tuple[str, ...], Row] = {}
    for row in rows:
        of = (row.node, row.pod, row.container, OWN.sub("", row.what))
        first = found.get(of)
        found[of] = row if first is None else replace(first, times=first.times + 1, last=row.at)
    return sorted(found.values(), key=order)


def order(row: Row) -> tuple[int, int]:
    return row.at, row.rank


def rows_of(story: Story, show: Callable[[int], str]) -> list[Row]:
    """All that happened, by time; of one moment causes before effects."""
    rows = [row for one in story.found for pod in one.pods for row in of_pod(one, pod, show)]
    rows += [row for one in story.found for row in of_node(one, show)]
    nodes = {pod.key: one for one in story.found for pod in one.pods}
    unrecorded = {pod.key: pod.node or "-" for pod in story.unrecorded}
    for said in story.members.said:
        one = nodes.get(said.pod)
        if said.pod in unrecorded or one is not None and is_of_time(one, said.at):
            node = one.node if one is not None else unrecorded[said.pod]
            rows.append(Row(said.at, node, said.pod, said.container or "-", said.words(), rank=rank_of(said.reason)))
    return sorted(rows, key=order)


def rank_of(reason: str) -> int:
    """Where an event of the API server's is among what has its moment."""
    if reason in telling.OUTPUTS:
        return telling.OUTPUT
    return telling.ENDING if reason in telling.ENDINGS else telling.SAID_LATER


def of_node(one: OnNode, show: Callable[[int], str]) -> list[Row]:
    """What happened to a node while one of the pods was there, once."""
    trace = one.given.trace
    found = {(at, what) for pod in one.pods for at, what, _ in (
        telling.node_rows(trace, one.given.report, pod, show) if trace is not None else [])}
    return [Row(at, one.node, "-", "-", what, rank=telling.OF_NODE) for at, what in sorted(found)
            if is_of_time(one, at)]


def record(story: Story) -> str:
    """The whole story as one JSON object."""
    pods = [{"pod": pod.key, "node": one.node, "phase": pod.phase, "restarts": each.restarts,
             "allRestarts": each.all_restarts, "unreadySeconds": each.unready_seconds,
             "worst": each.found.worst.value, "worstAt": each.found.at, "worstWords": each.found.words or None}
            for one, pod, each in ranked(story)]
    target, spans = story.members.target, [one.several for one in story.found]
    found = {"namespace": target.namespace, "kind": target.kind, "name": target.name, "selector": target.selector,
             "from": min((one.first for one in spans), default=None),
             "until": max((one.last for one in spans), default=None), "pods": pods,
             "unrecorded": [pod.record() for pod in story.unrecorded],
             "events": [row.record() for row in rows_of(story, lambda at: reports.moment_text(at, True))],
             "missing": [{"source": name, "why": why} for name, why in story.missing.items()]}
    return f"{json.dumps(found, ensure_ascii=True)}\n"


def is_of_time(one: OnNode, at: int) -> bool:
    return one.several.first <= at and one.several.is_near(at) and at > one.given.since


def of_pod(one: OnNode, pod: reports.Pod, show: Callable[[int], str]) -> list[Row]:
    """The rows of a pod's events, of what the kubelet did to it, of its deletion, and of why its containers waited."""
    trace = one.given.trace
    rows: list[Row] = []

    def add(at: int, container: str | None, what: str, rank: int, is_minor: bool = False) -> None:
        if is_of_time(one, at):
            rows.append(Row(at, one.node, pod.key, container or "-", what, is_minor, rank))

    for event in pod.events:
        attempt, what = telling.event_words(event, one.kubelet is not None, trace)
        led = events.attempt_words(attempt) + telling.beside_words(pod, event, show, trace)
        add(event.at, event.container, what + led, telling.rank_of(event), event.word in MINOR)
        for wrote in telling.last_lines(event, trace):
            add(event.at, event.container, wrote, telling.rank_of(event))
    fact = one.kubelet and one.kubelet.fact(pod.number)
    if fact:
        add(fact.decision.at, None, kubelets.event_words(fact.decision), telling.DECIDED)
    if trace and pod.number in trace.deletions:
        deletion = trace.deletions[pod.number]
        add(deletion.at, None, why_text.DELETED.format(by=deletion.words()), telling.DECIDED)
    for container, wait in trace.reasons.waits_of(pod) if trace else ():
        add(wait.since, container, f"waits: {wait.words()}", telling.SAID_LATER)
    return rows
