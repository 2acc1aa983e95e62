"""The story of a workload of a cluster: its pods and nodes are found, the nodes' traces fetched and replayed, and it is
reported over all of them, with what the API server has of pods that no trace has."""

from __future__ import annotations

import contextlib
import sys
import tempfile
from argparse import Namespace
from collections.abc import Iterator
from dataclasses import dataclass
from typing import TYPE_CHECKING

from replay_tools import entry, naming
from replay_tools.clock import Clock
from replay_tools.cli.statuses import Status
from replay_tools.cluster import kubectl, recorders, workloads
from replay_tools.cluster.waiting import Waiting
from replay_tools.joined import asked
from replay_tools.plugin import files, target as targets

if TYPE_CHECKING:
    from concurrent.futures import Executor
    from replay_tools.cluster import fetching, told

# where neither --since nor --at is given
SINCE = "2h"
SECONDS_OF_COMPLETION = 5
AT_ONCE = 32
MOST_NODES, MOST_ASKED = 200, 1000
OF_RECORDERS = "the recorders"


@dataclass
class Time:
    """The values of --since and --at, and the moment from which they count."""

    since: str | None
    at: str | None
    now: float

    @property
    def span(self) -> tuple[int | None, int | None]:
        return asked.span_of(self.since, self.at, self.now)


@dataclass
class Found:
    """What is known of a workload before its traces are there: its pods, and the recorders of the nodes that have or
    had some."""

    members: workloads.Members
    chosen: list[recorders.Recorder]


def run(found: Namespace, is_of_kubectl: bool) -> int:
    """Prints the story of what the arguments name; the status."""
    from replay_tools.cluster import layout, told
    with gathering(found, is_of_kubectl) as (story, _, __):
        if found.output == "json":
            sys.stdout.write(told.record(story))
        else:
            sys.stdout.write(told.text(story, clock_of(found).text, layout.of_output(), found.all))
    return Status.DONE


@contextlib.contextmanager
def gathering(found: Namespace, is_of_kubectl: bool) -> Iterator[tuple[told.Story, str, Time]]:
    """What is known of what the arguments name, with the folder of its traces, which goes again, and the time."""
    if not is_of_kubectl and found.namespace is None and not found.asks_all and not targets.plain_of(found) \
            and found.selector is None:
        raise entry.Fault("it needs -f FILE or FOLDER for traces that are here, or for a cluster --node NODE or -n "
                          "NAMESPACE")
    cluster, target, time = cluster_of(found), targets.target_of(found), time_of(found)
    with Waiting(cluster.seconds) as waiting, folder_for_traces() as folder:
        of_target = gathered(cluster, target, found.node, time, waiting)
        story = story_of(cluster, of_target, folder, time, waiting)
        if not story.recorded and not story.unrecorded:
            raise nothing(story)
        yield story, folder, time


def cluster_of(found: Namespace) -> recorders.Cluster:
    """The cluster that the arguments name, and for how long a source may be silent."""
    return recorders.Cluster(found.kubectl, found.recorders or recorders.NAMESPACE, found.timeout or recorders.SECONDS)


def time_of(found: Namespace) -> Time:
    from replay_tools.cluster import fetching
    time = Time(found.since or (SINCE if found.at is None else None), found.at, fetching.now())
    # what is no time is rejected before anything is asked
    asked.span_of(time.since, time.at, time.now)
    return time


def folder_for_traces() -> tempfile.TemporaryDirectory[str]:
    try:
        return tempfile.TemporaryDirectory(prefix="kubelet-replay-")
    except OSError as fault:
        raise files.no_room(fault.strerror) from None


# --- which pods, on which nodes ---


def gathered(cluster: recorders.Cluster, target: workloads.Target, node: str | None, time: Time,
             waiting: Waiting) -> Found:
    """The pods of a workload as the API server has them, and the recorders of the nodes of these and of those that are
    gone."""
    from concurrent.futures import ThreadPoolExecutor
    with ThreadPoolExecutor(AT_ONCE) as threads:
        of_members = threads.submit(workloads.members_of, cluster, target, waiting, threads)
        there = recorders_of(cluster, waiting)
        if node is not None:
            there = {node: there[node]} if node in there else {}
        # of a label without a pod no name is known
        has_names = target.selector is None or of_members.result().forms
        held = names_held(cluster, target, there, time, waiting, threads) if has_names else {}
        members = with_whole_name(of_members.result(), held)
    if node is not None:
        members.keep_node(node)
    workloads.take_events(members)
    silent = {name for name, keys in held.items() if keys is None}
    chosen = [one for name, one in there.items() if name not in silent and (
        name in members.nodes or any(map(members.has, held.get(name) or ())))]
    if len(chosen) > MOST_NODES:
        waiting.miss(f"{len(chosen) - MOST_NODES} nodes", f"at most {MOST_NODES} are asked for their traces")
    return Found(members, chosen[:MOST_NODES])


def recorders_of(cluster: recorders.Cluster, waiting: Waiting) -> dict[str, recorders.Recorder]:
    """The recorders by their nodes; none if there are none, or if they may not be listed."""
    try:
        with waiting.for_answer(OF_RECORDERS):
            return cluster.recorders()
    except entry.Fault as fault:
        if fault.status == Status.MISSING:
            raise
        waiting.miss(OF_RECORDERS, str(fault))
        return {}


def names_held(cluster: recorders.Cluster, target: workloads.Target, there: dict[str, recorders.Recorder], time: Time,
               waiting: Waiting, threads: Executor) -> dict[str, set[str] | None]:
    """The pods that each recorder's traces have of a time, of names that may fit, so that those are found which are
    gone; None of a recorder that does not answer at all."""
    def of_one(recorder: recorders.Recorder) -> set[str] | None:
        try:
            with waiting.for_answer(recorder.node):
                return cluster.names(recorder, workloads.name_pattern(target), time.span[0])
        except recorders.NoAnswer as fault:
            waiting.miss(recorder.node, str(fault))
            return None if isinstance(fault, kubectl.Silent) else set()

    if len(there) > MOST_ASKED:
        waiting.miss(f"{len(there) - MOST_ASKED} recorders", f"at most {MOST_ASKED} are asked for pods that are gone")
    asked_for = dict(list(there.items())[:MOST_ASKED])
    return dict(zip(asked_for, threads.map(of_one, asked_for.values())))


def with_whole_name(members: workloads.Members, held: dict[str, set[str] | None]) -> workloads.Members:
    """The members of a pod whose name may be cut: it has to fit one pod, of the API server's or of the traces'."""
    target = members.target
    if target.kind != "pod":
        return members
    namespace = f"{target.namespace}/"
    keys = {key for keys in held.values() for key in keys or () if key.startswith(namespace)}
    keys |= {f"{namespace}{name}" for name in members.others} | set(members.pods)
    key = naming.only_key(f"{namespace}{target.name}", sorted(keys))
    if key is None or key == f"{namespace}{target.name}":
        return members
    return members.renamed(key)


# --- the story ---


def story_of(cluster: recorders.Cluster, found: Found, folder: str, time: Time, waiting: Waiting) -> told.Story:
    """What the traces and the API server have. Each node's traces are replayed as they come."""
    from replay_tools.cluster import fetching, told, unrecorded
    members, parts = found.members, []
    if found.chosen:
        for came in fetching.coming(cluster, found.chosen, folder, fetching.Wanted(*time.span), waiting):
            part = part_of(came, folder, time, members, waiting)
            parts += [] if part is None else [part]
    parts.sort(key=lambda part: part.node)
    recorded = {pod.key for part in parts for pod in part.pods}
    others = unrecorded.worst_first(unrecorded.pod_of(key, pod) for key, pod in members.pods.items()
                                    if key not in recorded)
    without = sorted({pod.node for pod in others if pod.node} - {one.node for one in found.chosen})
    if without and OF_RECORDERS not in waiting.missing:
        waiting.miss(", ".join(without[:MOST_NODES]), "no recorder")
    return told.Story(members, parts, others, waiting.missing)


def part_of(came: fetching.Fetched, folder: str, time: Time, members: workloads.Members,
            waiting: Waiting) -> told.OnNode | None:
    """What was recorded of a node; None where that is nothing, which is missing."""
    from replay_tools import endings
    from replay_tools.cluster import told
    from replay_tools.joined import join
    for fault in came.faults:
        waiting.miss(came.node, fault)
    if not came.copied:
        return None
    try:
        several = join.joined(asked.asked_at([folder], came.node, time.since, time.at, time.now))
    except entry.Fault as fault:
        if fault.status == Status.MISSING:
            raise
        waiting.miss(came.node, str(fault))
        return None
    if several.trace is not None:
        endings.tell_left(several.trace, several.report)
    return told.on_node(came.node, several, members)


def nothing(story: told.Story) -> entry.Fault:
    """That nothing is known of a workload, with the first thing that did not come."""
    target = story.members.target
    why = story.missing.get(target.words())
    said = f"{target.words()} {why}" if why else \
        f"{target.words()}: no pod of it is known, in the cluster or in a trace of that time"
    return entry.Fault(said, Status.FAILED, missing_words(story))


def missing_words(story: told.Story) -> str | None:
    """What was asked for and did not come, in one line."""
    own = story.members.target.words()
    return "; ".join(f"{name}: {why}" for name, why in story.missing.items() if name != own) or None


def clock_of(found: Namespace) -> Clock:
    """The clock that the arguments ask for, else UTC."""
    return next((clock for clock in Clock if getattr(found, clock.value)), Clock.UTC)
