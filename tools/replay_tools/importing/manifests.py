"""Manifests of pods: of lists and files of them, of what owns them, and of audit events and watches; with what their
statuses report of instances."""

from __future__ import annotations

import gzip
import io
import itertools
import json
import re
from collections.abc import Iterator
from dataclasses import dataclass, field
from typing import Any

from replay_tools import entry, outside, packed
from replay_tools.cli.statuses import Status
from replay_tools.record import pods as recorded
from replay_tools.record.answers import NotJson, Text
from replay_tools.record.sources import Failed

from . import facts
from .references import key_of
from .statuses import of_status

# so many bytes of a file of manifests are read, and of YAML, which is held as a whole
LONGEST_FILE, LONGEST_YAML = 1 << 30, 64 << 20
# how many values YAML may have once each alias is replaced by its value, and how deep they nest
MOST_VALUES, DEEPEST = 5_000_000, 100
# without aliases a document has fewer values than bytes; so many more may come from aliases
MOST_ALIASED = 100_000
# a number of so many digits, in YAML's own notations, is none of a manifest
LONG_NUMBER = re.compile(rb"[0-9_:]{1000}")
# lists of lists and of owners nest no deeper in what is read
DEEPEST_LIST = 16
LONGEST_LINE = 64 << 20
# a first line that is longer is a whole list, which is read in pieces of so many bytes
SHORT_LINE = 4 << 20
SUFFIX = r"[a-z0-9]{5}"
# how the names of an owner's pods end
OWNED = {"ReplicaSet": rf"-{SUFFIX}", "Deployment": rf"-[a-z0-9]{{5,10}}-{SUFFIX}", "StatefulSet": r"-\d+",
         "DaemonSet": rf"-{SUFFIX}", "Job": rf"-(?:\d+-)?{SUFFIX}", "CronJob": rf"-\d{{8,10}}(?:-\d+)?-{SUFFIX}",
         "ReplicationController": rf"-{SUFFIX}"}
LISTS = "items", "pods"
MIRROR, HASH = "kubernetes.io/config.mirror", "kubernetes.io/config.hash"


@dataclass
class Manifests:
    """The pods that are known, by uid and by key, and the templates of owners."""
    by_uid: dict[str, recorded.Pod] = field(default_factory=dict)
    by_key: dict[str, recorded.Pod] = field(default_factory=dict)
    owners: list[tuple[str, re.Pattern[str], dict[str, Any]]] = field(default_factory=list)
    known: list[facts.Known] = field(default_factory=list)
    ended: dict[str, tuple[str, str]] = field(default_factory=dict)
    # for how many seconds a pod may be active, and of mirrors of static pods the hash of the file by their uids
    deadlines: dict[str, int] = field(default_factory=dict)
    mirrors: dict[str, str] = field(default_factory=dict)
    nodes: set[str] = field(default_factory=set)
    node_of: dict[str, str] = field(default_factory=dict)
    taken: int = 0

    def of(self, reference: facts.Reference) -> tuple[recorded.Pod | None, bool]:
        """The manifest of a pod, and whether it is its owner's template."""
        uid, key = reference.uid, reference.key
        if uid is not None and uid in self.by_uid:
            return self.by_uid[uid], False
        if key is None:
            return None, False
        if key in self.by_key:
            return self.by_key[key], False
        namespace, _, name = key.partition("/")
        for of_owner, form, template in self.owners:
            if of_owner == namespace and form.fullmatch(name):
                made = recorded.pod_of({"metadata": {"namespace": namespace, "name": name}, "spec": template["spec"]})
                return (None, False) if made.fault else (made, True)
        return None, False

    def is_on(self, reference: facts.Reference, node: str | None) -> bool:
        """Whether a pod is reported to be on a node."""
        return node is not None and self.node_of.get(str(reference.uid)) == node

    def take(self, value: Any, depth: int = 0) -> None:
        """What a document has: a pod, a list, an owner, an audit event, or an event of a watch."""
        if depth > DEEPEST_LIST:
            return
        if not isinstance(value, dict):
            for each in value if isinstance(value, list) else ():
                self.take(each, depth + 1)
            return
        kind = value.get("kind")
        if isinstance(value.get("object"), dict) and "type" in value:
            self.take(value["object"], depth + 1)
        elif kind == "Event" and "auditID" in value:
            self.take(value.get("requestObject"), depth + 1)
            self.take(value.get("responseObject"), depth + 1)
        elif any(isinstance(value.get(name), list) for name in LISTS) and kind in (None, "List", "PodList") \
                or str(kind or "").endswith("List"):
            for each in next((value[name] for name in LISTS if isinstance(value.get(name), list)), ()):
                self.take({"kind": str(kind or "PodList").removesuffix("List") or None, **each}
                          if isinstance(each, dict) else each, depth + 1)
        elif kind in OWNED:
            self.take_owner(kind, value)
        elif kind in (None, "Pod"):
            self.take_pod(value)

    def take_owner(self, kind: str, value: dict[str, Any]) -> None:
        try:
            spec = value["spec"]["jobTemplate"]["spec"] if kind == "CronJob" else value["spec"]
            template, metadata = spec["template"], value["metadata"]
            namespace, name = metadata.get("namespace") or "default", metadata["name"]
            policy = {"restartPolicy": "Always"} if kind not in ("Job", "CronJob") else {}
            template = {**template, "spec": {**policy, **template["spec"]}}
        except (KeyError, TypeError, AttributeError):
            return
        if key_of(namespace, name) is not None:
            self.taken += 1
            self.owners.append((namespace, re.compile(re.escape(name) + OWNED[kind]), template))

    def take_pod(self, value: dict[str, Any]) -> None:
        """A pod; the newest of a uid counts."""
        metadata, spec = value.get("metadata"), value.get("spec")
        if not isinstance(metadata, dict):
            return
        where = spec.get("nodeName") if isinstance(spec, dict) else None
        if isinstance(where, str):
            self.nodes.add(where)
            self.node_of[str(metadata.get("uid"))] = where
        self.take_status(metadata, value.get("status"))
        if not isinstance(spec, dict) or not spec.get("containers"):
            return
        try:
            pod = recorded.pod_of(value)
        except (KeyError, TypeError, AttributeError, ValueError):
            return
        if key_of(*pod.key.split("/", 1)) is None:
            return
        given = metadata.get("annotations")
        annotations: dict[str, Any] = given if isinstance(given, dict) else {}
        deadline = outside.whole(spec.get("activeDeadlineSeconds"), 1)
        if deadline is not None:
            self.deadlines[str(metadata.get("uid"))] = deadline
        mirrored = annotations.get(HASH) or annotations.get(MIRROR)
        if MIRROR in annotations and isinstance(mirrored, str):
            self.mirrors[str(metadata.get("uid"))] = mirrored
        uids = {pod.uid, str(annotations.get(HASH) or annotations.get(MIRROR) or pod.uid)}
        self.taken += 1
        self.by_uid.update(dict.fromkeys(uids - {"None"}, pod))
        self.by_key[pod.key] = pod

    def take_status(self, metadata: dict[str, Any], status: Any) -> None:
        """What a pod's status reports of its instances, and that the node has ended it."""
        if not isinstance(status, dict):
            return
        key, uid = key_of(metadata.get("namespace"), metadata.get("name")), metadata.get("uid")
        pod = facts.Reference(key, uid if isinstance(uid, str) else None)
        self.known += of_status(0.0, pod, status)
        if status.get("phase") == "Failed" and isinstance(status.get("reason"), str) and pod.uid is not None:
            self.ended[pod.uid] = status["reason"], str(status.get("message") or "")


# --- files ---


def read(path: str, what: str) -> Iterator[Any]:
    """The documents of a file: JSON, one or several after each other or a line each, or YAML. Raises a fault where it
    is neither."""
    try:
        with open(path, "rb") as file:
            is_packed = file.read(2) == packed.GZIP
            file.seek(0)
            source: Any = gzip.GzipFile(fileobj=file) if is_packed else file
            yield from documents_of(io.BufferedReader(source), path, what)
    except packed.DAMAGES as fault:
        raise entry.Fault(f"{what}: '{path}' can't be read: {getattr(fault, 'strerror', None) or fault}") from None


def documents_of(file: Any, path: str, what: str) -> Iterator[Any]:
    head = bytearray(file.read(SHORT_LINE))
    if head.lstrip()[:1] not in (b"{", b"["):
        data = bytes(head) + file.read(LONGEST_YAML)
        if len(data) > LONGEST_YAML:
            raise entry.Fault(f"{what}: '{path}' has more than {LONGEST_YAML >> 20} MiB of YAML: give it as JSON")
        yield from yaml_of(data, path, what)
        return
    first, end, rest = bytes(head).partition(b"\n")
    found = outside.json_of(first) if end else None
    if found is not None:
        yield found
        yield from lines_of(rest, file)
        return
    while len(head) < LONGEST_FILE and (piece := file.read(SHORT_LINE)):
        head += piece
    try:
        yield from parts_of(Text(head, what))
    except (NotJson, Failed):
        raise entry.Fault(f"{what}: '{path}' is no JSON") from None


def lines_of(rest: bytes, file: Any) -> Iterator[Any]:
    """The values of lines, of which some bytes are read already; what is none is left out."""
    *lines, last = rest.split(b"\n")
    lines.append(last + file.readline(LONGEST_LINE))
    for line in itertools.chain(lines, iter(lambda: file.readline(LONGEST_LINE), b"")):
        found = outside.json_of(line)
        if found is not None:
            yield found


def parts_of(text: Text) -> Iterator[Any]:
    """The values of a long list one by one, so that one at a time is held; or the one value that there is."""
    if text.mark() != "{":
        yield from text.values() if text.mark() == "[" else [text.value()]
        return
    text.take("{")
    whole: dict[str, Any] = {}
    while text.mark() != "}":
        member = text.value()
        text.take(":")
        if member in LISTS and text.mark() == "[":
            kind = str(whole.get("kind") or "PodList").removesuffix("List")
            for value in text.values():
                yield {"kind": kind or None, **value} if isinstance(value, dict) else value
        else:
            whole[str(member)] = text.value()
        if text.take(",}") == "}":
            break
    yield whole


def yaml_of(data: bytes, path: str, what: str) -> Iterator[Any]:
    try:
        import yaml  # Debian's python3-yaml, which no other tool needs
    except ImportError:
        raise entry.Fault(f"{what}: '{path}' is no JSON, and python3-yaml, which reads YAML, is missing",
                          Status.MISSING) from None
    if LONG_NUMBER.search(data) is not None:
        raise entry.Fault(f"{what}: '{path}' has a number that is too long")
    loader = getattr(yaml, "CSafeLoader", yaml.SafeLoader)
    depth = 0
    try:
        # what nests too deep would overflow the stack of libyaml's binding
        for event in yaml.parse(data, Loader=loader):
            depth += isinstance(event, yaml.CollectionStartEvent) - isinstance(event, yaml.CollectionEndEvent)
            if depth > DEEPEST:
                raise entry.Fault(f"{what}: '{path}' nests too deep")
        found = list(yaml.load_all(data, Loader=loader))
    except (yaml.YAMLError, ValueError, RecursionError, OverflowError):
        raise entry.Fault(f"{what}: '{path}' is neither JSON nor YAML") from None
    if not any(isinstance(each, (dict, list)) for each in found):
        raise entry.Fault(f"{what}: '{path}' has no manifest")
    plain = Plain(len(data))
    try:
        yield from (plain.of(each) for each in found)
    except Multiplied:
        raise entry.Fault(f"{what}: '{path}' has more values than are read: its aliases multiply, or are a circle"
                          ) from None


class Multiplied(Exception):
    """Aliases make more of a document than is read."""


class Plain:
    """Values of YAML as JSON has them: each alias replaced by its value, names and moments as texts."""

    def __init__(self, size: int) -> None:
        self.left = min(MOST_VALUES, size + MOST_ALIASED)

    def of(self, value: Any, depth: int = 0) -> Any:
        self.left -= 1
        if self.left < 0 or depth > DEEPEST:
            raise Multiplied
        if isinstance(value, dict):
            return {key_text(name): self.of(inner, depth + 1) for name, inner in value.items()}
        if isinstance(value, (list, tuple, set)):
            return [self.of(inner, depth + 1) for inner in value]
        is_plain = value is None or isinstance(value, (bool, int, str)) or (isinstance(value, float) and value == value)
        return value if is_plain else moment_text(value)


def key_text(name: Any) -> str:
    """The name of a member, which YAML may take for a number or a truth."""
    if isinstance(name, bool) or name is None:
        return json.dumps(name)
    return name if isinstance(name, str) else moment_text(name)


def moment_text(value: Any) -> str:
    return value.strftime("%Y-%m-%dT%H:%M:%SZ") if hasattr(value, "strftime") else str(value)
