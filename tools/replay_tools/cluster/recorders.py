"""The pods of the recorder's DaemonSet, asked by kubectl. Their image has find and cat, and no more is needed of it.
Whoever has a node may answer anything in their place."""

from __future__ import annotations

import difflib
from argparse import Namespace
from collections.abc import Callable, Iterable
from dataclasses import dataclass, field
from typing import Any

from replay_tools import entry, fields, outside
from replay_tools.cli import options
from replay_tools.cli.statuses import Status
from replay_tools.cluster import kubectl
from replay_tools.cluster.kubectl import NoAnswer
from replay_tools.joined import files

# as deploy/reader.yaml has them: its namespace is named after the recorders', and its pods read their folder as nobody
READER, READER_LABEL = "reader", "app=kubelet-replay-reader"
# as deploy/daemonset.yaml has them
NAMESPACE, LABEL, CONTAINER = options.RECORDERS_NAMESPACE, "app=kubelet-replay-recorder", "recorder"
FOLDER = "/var/lib/kubelet-replay"
# each source has so many seconds for its answer, a copy more of them: one for so many bytes
SECONDS, BYTES_A_SECOND = options.SECONDS, 256 << 10
# a pod of the list takes some thousand bytes, a file of a listing a hundred
MOST_OF_PODS, MOST_OF_LISTING = 512 << 20, 8 << 20
# two days of traces, each of ten seconds
MOST_HELD = 20_000


# of a pod's line, as a recorder writes it; find would put a file's name in place of {} in it
METADATA = r'"metadata":\{{[^}}{{]*"name":"{name}"[^}}{{]*\}}'


@dataclass
class File:
    """A trace that a recorder holds."""

    name: str
    size: int
    changed: int

    @property
    def is_part(self) -> bool:
        return self.name.endswith(files.PART)

    @property
    def begun(self) -> int:
        return files.parts_of(self.name)[1] or 0


@dataclass
class Held:
    """The traces that a recorder holds, in their order, and why others are left out that its folder lists."""

    files: list[File] = field(default_factory=list)
    left_out: list[str] = field(default_factory=list)

    def left_words(self) -> str | None:
        """What is left out, in words; None where nothing is."""
        if not self.left_out:
            return None
        first, more = self.left_out[0], len(self.left_out) - 1
        return f"{first}; it and {more} more are left out" if more else f"{first}, and is left out"


@dataclass
class Recorder:
    """A recorder's pod, and the node that it is on."""

    node: str
    pod: str
    phase: str
    is_ready: bool
    namespace: str | None = None
    """where its pod is, unless that is the cluster's"""
    container: str = CONTAINER


@dataclass
class Cluster:
    """What kubectl reaches with its own options, and the namespace of the recorders."""

    options: list[str] = field(default_factory=list)
    namespace: str = NAMESPACE
    seconds: float = SECONDS

    def ask(self, *words: str, most: int, take: Callable[[bytes], object], seconds: float | None = None) -> None:
        """Passes on what kubectl answers, so many bytes at most; the cluster's seconds are the longest silence, and
        without others those for all of it. Raises NoAnswer."""
        seconds = seconds or self.seconds
        kubectl.answer([*self.options, *words], most, seconds, take, silent=min(self.seconds, seconds))

    def recorders(self) -> dict[str, Recorder]:
        """The pods that have the traces, by their nodes; of several of one node, as while they are replaced, the one
        that is ready. A reader is asked in place of a recorder."""
        from concurrent.futures import ThreadPoolExecutor
        with ThreadPoolExecutor(2) as threads:
            of_readers = threads.submit(self.pods_of, f"{self.namespace}-{READER}", READER_LABEL)
            of_recorders = threads.submit(self.pods_of, self.namespace, LABEL)
        readers, fault = by_node(of_readers.result()[0], f"{self.namespace}-{READER}", READER), of_recorders.result()[1]
        if fault is not None and not readers:
            raise entry.Fault(f"the recorders can't be listed: {fault}", Status.FAILED)
        found = {**by_node(of_recorders.result()[0], None, CONTAINER),
                 **{node: one for node, one in readers.items() if one.is_ready}}
        if not found:
            raise entry.Fault(f"no recorder in the namespace {self.namespace}: deploy/daemonset.yaml starts one on "
                              "each node, and --recorders names another namespace")
        return dict(sorted(found.items()))

    def pods_of(self, namespace: str, label: str) -> tuple[list[dict[str, Any]], str | None]:
        """The pods of a label, or why they are not known."""
        answer = bytearray()
        try:
            self.ask("get", "pods", "-n", namespace, "-l", label, "-o", "json", most=MOST_OF_PODS, take=answer.extend)
            return pods_in(bytes(answer)), None
        except NoAnswer as fault:
            return [], str(fault)
        except fields.Wrong:
            return [], "kubectl's answer is no list of pods"

    def run(self, recorder: Recorder, *words: str, most: int, take: Callable[[bytes], object],
            seconds: float | None = None) -> None:
        """Passes on what a command answers in a recorder's pod."""
        self.ask("exec", "-n", recorder.namespace or self.namespace, recorder.pod, "-c", recorder.container, "--",
                 *words, most=most, take=take, seconds=seconds)

    def held(self, recorder: Recorder) -> Held:
        """The traces that a recorder holds. Raises NoAnswer."""
        if recorder.phase != "Running":
            raise NoAnswer(f"its recorder {recorder.pod} is {recorder.phase}")
        answer = bytearray()
        self.run(recorder, "find", FOLDER, "-maxdepth", "1", "-type", "f", "-name", "*.trace.*", "-printf",
                 "%f %s %T@\\n", most=MOST_OF_LISTING, take=answer.extend)
        found = Held()
        for line in answer.decode("utf-8", "replace").split("\n"):
            file, fault = file_of(line, recorder.node)
            if file is not None:
                found.files.append(file)
            elif fault is not None:
                found.left_out.append(fault)
        if len(found.files) > MOST_HELD:
            raise NoAnswer(f"its folder lists more than {MOST_HELD} traces")
        found.files.sort(key=lambda file: (file.begun, files.parts_of(file.name)[2], file.is_part))
        return found

    def content(self, recorder: Recorder, file: File, most: int, take: Callable[[bytes], object]) -> None:
        """Passes on the bytes of a trace that a recorder holds, so many at most. Raises NoAnswer."""
        self.run(recorder, "cat", f"{FOLDER}/{file.name}", most=most, take=take,
                 seconds=self.seconds + file.size / BYTES_A_SECOND)

    def names(self, recorder: Recorder, name: str, since: int | None) -> set[str]:
        """The keys of the pods in a recorder's traces whose names a regular expression of grep fits. Raises
        NoAnswer."""
        if recorder.phase != "Running":
            raise NoAnswer(f"its recorder {recorder.pod} is {recorder.phase}")
        answer = bytearray()
        newer = [] if since is None else ["-newermt", f"@{since}"]
        self.run(recorder, "find", FOLDER, "-maxdepth", "1", "-type", "f", "-name", "*.trace.*", *newer, "-exec",
                 "zgrep", "-a", "-o", "-E", "-e", METADATA.format(name=name), "{}", ";", most=MOST_OF_LISTING,
                 take=answer.extend)
        return {key for key in map(key_of, bytes(answer).split(b"\n")) if key is not None}


def file_of(line: str, node: str) -> tuple[File | None, str | None]:
    """The trace of a line of a folder's listing, which has to be of this node, or why it is left out. What is no
    trace's name is passed over, as of a trace that is packed right now."""
    name, size, changed_at, *_ = [*line.rsplit(" ", 2), "", ""]
    if not name.endswith(files.ENDINGS):
        return None, None
    owner, begun, _ = files.parts_of(name)
    shown, bytes_of, changed = outside.text_of(name), outside.number_of(size), outside.moment_of(changed_at)
    if begun is None or "/" in name:
        return None, f"{shown} is no name of a trace"
    if owner != node:
        return None, f"{shown} is of another node"
    if bytes_of is None or changed is None:
        return None, f"{shown} has an impossible size or time"
    return File(name, bytes_of, changed), None


def key_of(metadata: bytes) -> str | None:
    """NAMESPACE/NAME of the metadata of a pod's line."""
    found = outside.json_of(b"{" + metadata + b"}") if metadata else None
    metadata_of = found.get("metadata") if isinstance(found, dict) else None
    if not isinstance(metadata_of, dict):
        return None
    key = f"{metadata_of.get('namespace') or 'default'}/{metadata_of.get('name')}"
    return key if outside.is_key(key) else None


def pods_in(answer: bytes) -> list[dict[str, Any]]:
    """The pods of a list. Raises Wrong where it is none."""
    found = fields.object_of(answer)
    if found.get("items") is None:
        raise fields.Wrong("items")
    return fields.list_at(found, "items")


def by_node(items: list[dict[str, Any]], namespace: str | None, container: str) -> dict[str, Recorder]:
    """The pods of a list by their nodes; one that is ready in place of another."""
    found = {}
    recorders = [recorder_of(item, namespace, container) for item in items]
    for one in sorted(recorders, key=lambda one: (one.is_ready, one.pod)):
        if one.node:
            found[one.node] = one
    return found


def recorder_of(item: dict[str, Any], namespace: str | None = None, container: str = CONTAINER) -> Recorder:
    """The recorder that is a pod. Raises Fault where it has another shape."""
    try:
        status = fields.dict_at(item, "status")
        ready = [one.get("ready") for one in fields.list_at(status, "containerStatuses")]
        node = fields.text_at(fields.object_at(item, "spec"), "nodeName", "")
        pod = fields.text_at(fields.object_at(item, "metadata"), "name")
    except fields.Wrong:
        raise entry.Fault("the recorders can't be listed: kubectl's answer is no list of pods",
                          Status.FAILED) from None
    return Recorder(node, pod, fields.text_at(status, "phase", "Unknown"), bool(ready) and all(ready), namespace,
                    container)


def cluster_of(found: Namespace) -> Cluster:
    """The cluster that the arguments of a tool name."""
    return Cluster(found.kubectl, found.recorders, found.timeout)


def on_nodes(recorders: dict[str, Recorder], nodes: Iterable[str]) -> list[Recorder]:
    """The recorders of some nodes. Raises Fault where one has none."""
    for node in nodes:
        if node not in recorders:
            near = difflib.get_close_matches(node, list(recorders), 3)
            known = f"the nearest: {', '.join(near)}" if near else \
                f"there are recorders on {files.listed(list(recorders))}"
            raise entry.Fault(f"no recorder on {node}; {known}", means=on_the_node(node))
    return [recorders[node] for node in dict.fromkeys(nodes)]


def on_the_node(node: str) -> str:
    """How to get the traces of a node whose recorder is gone."""
    return (f"if its pod is gone its traces may still lie on {node}, in {FOLDER}: root reads them there, or a pod of "
            f"kubectl debug node/{node} --image=IMAGE in /host{FOLDER} (docs/recorder.md)")
