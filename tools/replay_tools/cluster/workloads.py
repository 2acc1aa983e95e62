"""A workload of a cluster, as a Deployment, a label or a namespace: which pods it has and had, on which nodes these are
and were, and what the API server's events show of them. kubectl is asked, as one who may view the namespace."""

from __future__ import annotations

import re
from collections.abc import Iterable, Iterator
from dataclasses import dataclass, field, replace
from typing import Any, TYPE_CHECKING

from replay_tools import dates, outside
from replay_tools.cluster.kinds import KINDS
from replay_tools.cluster.kubectl import NoAnswer
from replay_tools.cluster.recorders import Cluster
from replay_tools.cluster.waiting import Waiting

if TYPE_CHECKING:
    from concurrent.futures import Executor

SUFFIX = r"[a-z0-9]{5}"
NOT_FOUND = "(NotFound)"
MOST_OF_ANSWER = 256 << 20
ASSIGNED = re.compile(r"Successfully assigned \S+ to (\S+)")
STAMP = re.compile(r"(\d{4}-\d\d-\d\dT\d\d:\d\d:\d\d)(?:\.\d+)?Z", re.ASCII)
CONTAINER = re.compile(r"spec\.(?:initContainers|containers)\{([^}]*)\}")
# what a trace shows itself, or shows nothing of what went wrong
TOLD_BY_TRACE = ("Scheduled", "Pulling", "Pulled", "Created", "Started", "SuccessfulCreate", "SuccessfulDelete")


@dataclass(frozen=True)
class Target:
    """What is asked for: a workload by its kind and name, the pods of a label, or without both the pods of a namespace,
    or of all."""

    namespace: str | None
    kind: str | None = None
    name: str | None = None
    selector: str | None = None

    def words(self) -> str:
        if self.namespace is None:
            return "all namespaces"
        if self.selector is not None:
            return f"-l {self.selector} in {self.namespace}"
        return f"{self.kind}/{self.name} in {self.namespace}" if self.kind else f"namespace {self.namespace}"

    @property
    def is_list(self) -> bool:
        """Whether it is all pods of a namespace, or of all."""
        return self.kind is None and self.selector is None

    @property
    def of_namespace(self) -> list[str]:
        return ["--all-namespaces"] if self.namespace is None else ["-n", self.namespace]


@dataclass
class Said:
    """An event of the API server's, of a pod."""

    at: int
    pod: str
    """NAMESPACE/NAME"""
    container: str | None
    reason: str
    message: str
    times: int

    def words(self) -> str:
        times = f" ({self.times} times, last then)" if self.times > 1 else ""
        return f"the API's event {self.reason}: {self.message}{times}"


@dataclass
class Members:
    """The pods of a workload, by their keys or the forms of their names, and the nodes that they are and were on."""

    target: Target
    pods: dict[str, dict[str, Any]] = field(default_factory=dict)
    """those that the API server has, by their keys"""
    others: set[str] = field(default_factory=set)
    """the names of pods and the beginnings of names that are of another workload"""
    forms: list[str] = field(default_factory=list)
    nodes: dict[str, None] = field(default_factory=dict)
    said: list[Said] = field(default_factory=list)
    listed: dict[str, dict[str, Any]] = field(default_factory=dict)
    """all pods of the namespace, and its events, as the API server has them"""
    events: list[dict[str, Any]] = field(default_factory=list)

    def has(self, key: str) -> bool:
        """Whether a pod of a trace is one of them."""
        namespace, _, name = key.partition("/")
        if self.target.namespace not in (None, namespace):
            return False
        return self.target.is_list or key in self.pods or self.has_form(name)

    def renamed(self, key: str) -> Members:
        """The same of a pod by its whole name."""
        namespace, _, name = key.partition("/")
        target = replace(self.target, namespace=namespace, name=name)
        pods = {key: self.listed[key]} if key in self.listed else {}
        found = replace(self, target=target, pods={}, forms=[re.escape(name)], others=self.others - {name}, nodes={})
        for pod in pods.values():
            found.add(pod)
        return found

    def keep_node(self, node: str) -> None:
        """Leaves out the pods that the API server has on other nodes."""
        self.pods = {key: pod for key, pod in self.pods.items() if text_at(pod, "spec", "nodeName") == node}
        self.nodes = {node: None} if self.pods else {}

    def add(self, pod: dict[str, Any]) -> None:
        """Adds a pod that the API server has, and its node."""
        self.pods[key_of(pod)] = pod
        node = text_at(pod, "spec", "nodeName")
        if node is not None:
            self.nodes[node] = None

    def has_form(self, name: str) -> bool:
        if name in self.others or name.rpartition("-")[0] in self.others:
            return False
        return any(re.fullmatch(form, name) for form in self.forms)


def members_of(cluster: Cluster, target: Target, waiting: Waiting, threads: Executor) -> Members:
    """The pods of a workload, as the API server knows them now and its events of the last hour. What it does not answer
    is missing, and ends nothing."""
    found = Members(target)
    asked = {kind: threads.submit(listed, cluster, target, kind, waiting) for kind in wanted_of(target)}
    owner = threads.submit(object_of, cluster, target, waiting) if target.kind and target.kind != "pod" else None
    lists = {kind: answer.result() for kind, answer in asked.items()}
    uid = owner.result() if owner else None
    pods = lists["pods"] if target.kind != "pod" or lists["pods"] else one_pod(cluster, target, waiting)
    chosen = pods_of(found, pods, lists, uid)
    for pod in chosen:
        found.add(pod)
    found.listed, found.events = {key_of(pod): pod for pod in pods}, lists["events"]
    if not target.is_list and target.selector is None:
        found.others |= {text_at(pod, "metadata", "name") or "" for pod in pods} - {
            key.partition("/")[2] for key in found.pods}
    return found


# --- the pods ---


def wanted_of(target: Target) -> list[str]:
    """The kinds that are listed for a workload."""
    return ["pods", "events", *{"deployment": ["replicasets"], "cronjob": ["jobs"]}.get(target.kind or "", [])]


def key_of(pod: dict[str, Any]) -> str:
    return f"{text_at(pod, 'metadata', 'namespace') or 'default'}/{text_at(pod, 'metadata', 'name') or ''}"


def pods_of(found: Members, pods: list[dict[str, Any]], lists: dict[str, list[dict[str, Any]]],
            uid: str | None) -> list[dict[str, Any]]:
    """The pods that are there; the forms of the names of those that were come with them."""
    target = found.target
    if target.selector is not None:
        found.forms += [form for pod in pods for form in forms_of_owners(pod)]
        return pods
    if target.kind is None or target.name is None:
        return pods
    if target.kind == "pod":
        found.forms.append(re.escape(target.name))
        return [pod for pod in pods if text_at(pod, "metadata", "name") == target.name]
    found.forms.append(f"{re.escape(target.name)}-{KINDS[target.kind][1]}")
    between = lists.get("replicasets") or lists.get("jobs") or []
    owned = owned_by(between, {uid}) if uid is not None else owned_by_name(between, target)
    found.others |= {text_at(each, "metadata", "name") or "" for each in between if each not in owned}
    found.forms += [f"{re.escape(text_at(each, 'metadata', 'name') or '')}-{SUFFIX}" for each in owned]
    if target.kind in ("deployment", "cronjob"):
        if between:
            return owned_by(pods, {text_at(each, "metadata", "uid") for each in owned})
        # what owns them may not be listed: their names are all that is known
        return [pod for pod in pods if found.has_form(text_at(pod, "metadata", "name") or "")]
    return owned_by(pods, {uid}) if uid is not None else owned_by_name(pods, target)


def owned_by_name(items: Iterable[dict[str, Any]], target: Target) -> list[dict[str, Any]]:
    """The pods of a workload that is gone, or that may not be read."""
    return [item for item in items if any(str(owner.get("kind")).lower() == target.kind
                                          and owner.get("name") == target.name for owner in owners_of(item))]


def owned_by(items: Iterable[dict[str, Any]], uids: set[str | None]) -> list[dict[str, Any]]:
    return [item for item in items if any(owner.get("uid") in uids - {None} for owner in owners_of(item))]


def owners_of(item: dict[str, Any]) -> list[dict[str, Any]]:
    metadata = item.get("metadata")
    owners = metadata.get("ownerReferences") if isinstance(metadata, dict) else None
    return [owner for owner in owners if isinstance(owner, dict)] if isinstance(owners, list) else []


def forms_of_owners(pod: dict[str, Any]) -> Iterator[str]:
    """The forms of the names that the other pods of a pod's owner have or had."""
    for owner in owners_of(pod):
        kind, name = str(owner.get("kind")).lower(), owner.get("name")
        if kind in KINDS and isinstance(name, str) and KINDS[kind][1]:
            yield f"{re.escape(name)}-{KINDS[kind][1]}"


def name_pattern(target: Target) -> str:
    """A regular expression of grep that fits all names that pods of a workload may have."""
    if target.kind is None or target.name is None:
        return '[^"]*'
    return target.name.replace(".", "[.]") + '[^"]*'


# --- events ---


def take_events(found: Members) -> None:
    """Takes what the events show of the pods, by time."""
    for event in found.events:
        take_event(found, event)
    found.said.sort(key=lambda said: said.at)


def take_event(found: Members, event: dict[str, Any]) -> None:
    """What an event shows of one of the pods: on which node it was, and what went wrong."""
    about = event.get("involvedObject")
    if not isinstance(about, dict) or about.get("kind") != "Pod":
        return
    key = f"{text_at(about, 'namespace') or found.target.namespace}/{text_at(about, 'name') or ''}"
    if not found.has(key) and not found.target.is_list:
        return
    message, reason = text_at(event, "message") or "", text_at(event, "reason") or ""
    assigned = ASSIGNED.match(message)
    node = assigned[1] if assigned else text_at(event, "source", "host")
    if node is not None:
        found.nodes[node] = None
    at = moment_of(event)
    if at is not None and reason and reason not in TOLD_BY_TRACE:
        container = CONTAINER.fullmatch(text_at(about, "fieldPath") or "")
        times = [outside.whole(of.get("count")) for of in (event, event.get("series")) if isinstance(of, dict)]
        found.said.append(Said(at, key, container[1] if container else None, reason, message.strip(),
                               max(filter(None, times), default=1)))


def moment_of(event: dict[str, Any]) -> int | None:
    """When it was last."""
    series = event.get("series")
    last = series.get("lastObservedTime") if isinstance(series, dict) else None
    stamps = (last, event.get("lastTimestamp"), event.get("eventTime"), event.get("firstTimestamp"))
    stamp = next((STAMP.fullmatch(text) for text in stamps if isinstance(text, str)), None)
    return outside.moment(dates.stamped(stamp[1])) if stamp else None


# --- kubectl ---


def listed(cluster: Cluster, target: Target, kind: str, waiting: Waiting) -> list[dict[str, Any]]:
    """The objects of a kind in the namespace; none if they may not be listed, or do not come, which is missing."""
    where = "all namespaces" if target.namespace is None else target.namespace
    name = f"the {kind} of {where}"
    label = [f"--selector={target.selector}"] if kind == "pods" and target.selector is not None else []
    try:
        with waiting.for_answer(name):
            found = answered(cluster, "get", kind, *target.of_namespace, *label)
    except NoAnswer as said:
        waiting.miss(name, f"can't be listed: {said}")
        return []
    items = found.get("items") if isinstance(found, dict) else None
    if not isinstance(items, list):
        waiting.miss(name, "can't be listed: kubectl's answer is no list")
        return []
    return [item for item in items if isinstance(item, dict)]


def object_of(cluster: Cluster, target: Target, waiting: Waiting) -> str | None:
    """The uid of the workload; None if the API server has none of that name, or does not show."""
    try:
        with waiting.for_answer(target.words()):
            found = answered(cluster, "get", target.kind or "", target.name or "", *target.of_namespace)
    except NoAnswer as said:
        what = "is not found" if NOT_FOUND in str(said) else "can't be read"
        waiting.miss(target.words(), f"{what}: {said}")
        return None
    return text_at(found, "metadata", "uid")


def one_pod(cluster: Cluster, target: Target, waiting: Waiting) -> list[dict[str, Any]]:
    """A pod by its name, which may be read where its namespace may not be listed."""
    try:
        found = answered(cluster, "get", "pod", target.name or "", *target.of_namespace)
    except NoAnswer:
        return []
    return [found] if isinstance(found, dict) else []


def answered(cluster: Cluster, *words: str) -> Any:
    answer = bytearray()
    cluster.ask(*words, "-o", "json", most=MOST_OF_ANSWER, take=answer.extend)
    return outside.json_of(bytes(answer))


def text_at(found: Any, *path: str) -> str | None:
    for name in path:
        found = found.get(name) if isinstance(found, dict) else None
    return outside.text_of(found)
