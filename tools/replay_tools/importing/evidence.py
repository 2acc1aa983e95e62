"""Facts of a node of which no journal is left. The Events of its pods have what the kubelet did. The audit log of the
API server has each status that the kubelet sent. Neither has all; what it lacks is printed."""

from __future__ import annotations

import re
from collections.abc import Iterator
from typing import Any, Optional

from replay_tools.record.runtime import moment_of

from . import events, facts, manifests
from .keyed import MADE
from .references import key_of
from .statuses import of_status

EVENTS, AUDIT = "events", "audit"
# the member next to "imported": what a trace is made of if there is no journal
MEMBER = "importedFrom"
LACKS = {
    EVENTS: "of Events alone: starts are known, of several alike the first and the last one; exits without their "
            "codes, and their moments to within the next start; no successes of probes, no signals, and nothing "
            "that is older than the cluster keeps Events (1 h by default)",
    AUDIT: "of an audit log alone: starts and exits with their codes, as far as a status has them; no results of "
           "probes, no kills, no waits, no signals, and of what began and ended between two statuses the last "
           "instance alone"}
PROBED = re.compile(r"(Readiness|Liveness|Startup) probe failed: ?(.*)", re.S)
ASSIGNED = re.compile(r"Successfully assigned \S+ to (\S+)")
USER = "system:node:"
# an Event's moment is in whole seconds, as a status's is
SAME_SECOND = 2.0


def read_all(of_events: list[str], of_audit: list[str], known: manifests.Manifests,
             node: Optional[str]) -> Iterator[facts.Fact]:
    """The facts of Events and of an audit log, by their moments."""
    told = Events(known, node)
    found = [fact for path in of_events for value in manifests.read(path, "--events") for fact in told.of_value(value)]
    found += told.exits()
    found += [fact for path in of_audit for value in manifests.read(path, "--audit")
              for fact in of_audited(value, node)]
    return iter(sorted(found, key=lambda fact: fact.at))


class Events:
    """What Events show of instances, which have no ids there."""

    def __init__(self, known: manifests.Manifests, node: Optional[str]) -> None:
        self.node = node
        # instances of which a status has the start, by their containers
        self.started: dict[tuple[Optional[str], Optional[str]], list[facts.Known]] = {}
        for each in known.known:
            self.started.setdefault((each.pod.key, each.container), []).append(each)
        # the starts of each container, and when it was reported not to run
        self.starts: dict[tuple[facts.Reference, str], dict[float, str]] = {}
        self.downs: dict[tuple[facts.Reference, str], list[float]] = {}

    def of_value(self, value: Any, depth: int = 0) -> Iterator[facts.Fact]:
        """The facts of a list, a watch's line or an Event."""
        if depth > manifests.DEEPEST_LIST:
            return
        if isinstance(value, list):
            for each in value:
                yield from self.of_value(each, depth + 1)
        elif isinstance(value, dict) and isinstance(value.get("items"), list):
            yield from self.of_value(value["items"], depth + 1)
        elif isinstance(value, dict) and isinstance(value.get("object"), dict):
            yield from self.of_value(value["object"], depth + 1)
        elif isinstance(value, dict):
            for happened in events.of_value(value):
                if self.is_ours(value, happened):
                    yield from self.of_event(value, happened)

    def is_ours(self, value: dict[str, Any], happened: facts.Happened) -> bool:
        """Whether an Event is of the node that was given, as far as it names one."""
        source = value.get("source")
        host = source.get("host") if isinstance(source, dict) else None
        assigned = ASSIGNED.match(happened.message) if happened.reason == "Scheduled" else None
        host = host or value.get("reportingInstance") if assigned is None else assigned[1]
        return self.node is None or not isinstance(host, str) or not host or host == self.node

    def of_event(self, value: dict[str, Any], happened: facts.Happened) -> Iterator[facts.Fact]:
        pod, at, reason, message = happened.pod, happened.at, happened.reason, happened.message
        stamp = value.get("firstTimestamp")
        first = (moment_of(stamp) if isinstance(stamp, str) else None) or at
        made = MADE.match(message) if reason == "Started" else None
        container = happened.container or (made[1] if made is not None else None)
        if reason == "Scheduled":
            yield facts.Added(at, pod, "api")
        elif reason == "Started" and container is not None:
            yield from self.start(pod, container, first, 0 if happened.count > 1 else None)
            if happened.count > 1:
                yield from self.start(pod, container, at, happened.count - 1)
        elif reason == "Unhealthy" and container is not None and (probed := PROBED.match(message)) is not None:
            yield facts.Probed(at, pod, container, probed[1].lower(), "failure", probed[2])
        elif reason == "BackOff" and container is not None and "restarting failed" in message:
            self.downs.setdefault((pod, container), []).extend((first, at))
            yield facts.Waits(at, pod, container, "CrashLoopBackOff", message)
        yield happened

    def start(self, pod: facts.Reference, container: str, at: float, attempt: Optional[int]) -> Iterator[facts.Fact]:
        """A start, whose instance a status may know by its id."""
        near = next((each.id for each in self.started.get((pod.key, container), ())
                     if each.started is not None and abs(each.started - at) <= SAME_SECOND), None)
        import hashlib
        text = f"{pod.uid or pod.key}/{container}/{at}"
        identity = near or hashlib.sha256(text.encode("utf-8", "replace")).hexdigest()
        self.starts.setdefault((pod, container), {})[at] = identity
        yield facts.Known(at, identity, pod, container, attempt)
        yield facts.Turned(at, pod, identity, facts.STARTED, True)

    def exits(self) -> Iterator[facts.Fact]:
        """The exits that follow from starts and from reports of a container that did not run: each is before the next
        start, and at the latest when the container waited."""
        for (pod, container), starts in self.starts.items():
            moments = sorted(starts)
            for at, after in zip(moments, [*moments[1:], float("inf")]):
                down = min((each for each in self.downs.get((pod, container), ()) if at < each < after), default=None)
                end = down if down is not None else after if after != float("inf") else None
                if end is not None:
                    yield facts.Turned(end, pod, starts[at], facts.DIED)


# --- an audit log ---

def of_audited(value: Any, node: Optional[str]) -> Iterator[facts.Fact]:
    """What an event of an audit log shows of a pod: that it was bound to the node, deleted, or has a status."""
    if not isinstance(value, dict) or value.get("kind") != "Event" or "auditID" not in value:
        for each in value if isinstance(value, list) else value.get("items") or () if isinstance(value, dict) else ():
            yield from of_audited(each, node) if isinstance(each, dict) else ()
        return
    named, user = value.get("objectRef"), value.get("user")
    stamp = value.get("requestReceivedTimestamp") or value.get("stageTimestamp")
    at = moment_of(stamp) if isinstance(stamp, str) else None
    if at is None or not isinstance(named, dict) or named.get("resource") != "pods" or is_failed(value):
        return
    pod = pod_of(value, named)
    if pod is None:
        return
    name = user.get("username") if isinstance(user, dict) else None
    by_node = name.removeprefix(USER) if isinstance(name, str) and name.startswith(USER) else None
    if by_node is not None and node is not None and by_node != node:
        return
    verb, part = value.get("verb"), named.get("subresource")
    if by_node is not None and part == "status":
        yield facts.NodeName(at, by_node)
        yield from of_sent(at, pod, value)
    elif verb == "delete" and part is None and by_node is None:
        yield facts.Deleted(at, pod)


def is_failed(value: dict[str, Any]) -> bool:
    """Whether the API server rejected a request."""
    status = value.get("responseStatus")
    code = status.get("code") if isinstance(status, dict) else None
    return isinstance(code, int) and code >= 400


def pod_of(value: dict[str, Any], named: dict[str, Any]) -> Optional[facts.Reference]:
    """The pod of an event, whose uid is next to its object."""
    key = key_of(named.get("namespace"), named.get("name"))
    if key is None:
        return None
    uids = [named.get("uid")]
    for part in ("responseObject", "requestObject"):
        body = value.get(part)
        metadata = body.get("metadata") if isinstance(body, dict) else None
        uids.append(metadata.get("uid") if isinstance(metadata, dict) else None)
    return facts.Reference(key, next((uid for uid in uids if isinstance(uid, str) and 0 < len(uid) <= 64), None))


def of_sent(at: float, pod: facts.Reference, value: dict[str, Any]) -> Iterator[facts.Fact]:
    """Reads a status that the kubelet sent: the whole one, as the server has it then, or the part that was sent."""
    for part in ("responseObject", "requestObject"):
        body = value.get(part)
        status = body.get("status") if isinstance(body, dict) else None
        if isinstance(status, dict):
            for known in of_status(at, pod, status):
                yield known
                yield from turned(known)
            if status.get("phase") == "Failed" and status.get("reason") == "Evicted":
                yield facts.Evicted(at, pod)
            return


def turned(known: facts.Known) -> Iterator[facts.Fact]:
    """The start and the exit of an instance, with the status's own moments."""
    for moment, what in ((known.started, facts.STARTED), (known.finished, facts.DIED)):
        if moment is not None:
            yield facts.Turned(moment, known.pod, known.id, what, True)


def of_what(of_events: list[str], of_audit: list[str]) -> list[str]:
    """What a trace is made of."""
    return [what for what, paths in ((EVENTS, of_events), (AUDIT, of_audit)) if paths]


def lacks(sources: list[str]) -> list[str]:
    """What can't be known of a trace that is made so, a line each."""
    return [LACKS[source] for source in sources]

