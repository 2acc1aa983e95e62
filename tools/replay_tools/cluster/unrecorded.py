"""What the API server has of a pod that no trace has: its phase, its conditions, why its containers wait, and how they
ended last."""

from __future__ import annotations

from collections.abc import Iterable, Iterator
from dataclasses import dataclass, field
from typing import Any

from replay_tools import outside
from replay_tools.cluster.workloads import text_at

LISTS = ("initContainerStatuses", "containerStatuses", "ephemeralContainerStatuses")
# of a condition that is True nothing has to be done, and these are False of a pod that is not ready for another reason
FOLLOWING = ("Ready", "ContainersReady")


@dataclass
class Pod:
    """A pod as the API server has it now."""

    key: str
    node: str | None
    phase: str
    ready: int = 0
    containers: int = 0
    restarts: int = 0
    why: list[str] = field(default_factory=list)
    """what is wrong with it, the most telling first"""

    def cells(self) -> list[str]:
        """The cells of its row, but for its name."""
        return [self.node or "-", self.phase, f"{self.ready}/{self.containers}", str(self.restarts),
                "; ".join(self.why) or "-"]

    def record(self) -> dict[str, Any]:
        return {"pod": self.key, "node": self.node, "phase": self.phase, "ready": self.ready,
                "containers": self.containers, "restarts": self.restarts, "why": self.why}


def pod_of(key: str, item: dict[str, Any]) -> Pod:
    """What the API server has of a pod."""
    found = Pod(key, text_at(item, "spec", "nodeName"), text_at(item, "status", "phase") or "Unknown")
    status, spec, metadata = (item.get(name) if isinstance(item.get(name), dict) else {}
                              for name in ("status", "spec", "metadata"))
    statuses = [one for name in LISTS for one in dicts_of(status, name)]
    found.ready = sum(one.get("ready") is True for one in dicts_of(status, "containerStatuses"))
    found.containers = len(dicts_of(spec, "containers"))
    found.restarts = sum(outside.whole(one.get("restartCount")) or 0 for one in statuses)
    found.why = list(dict.fromkeys([*of_pod(status), *of_deletion(metadata), *(
        words for one in statuses for words in of_container(one)), *of_conditions(status)]))
    return found


def worst_first(pods: Iterable[Pod]) -> list[Pod]:
    """Pods with something wrong come first, and of these the pods that were restarted most."""
    return sorted(pods, key=lambda pod: (not pod.why, -pod.restarts, pod.key))


def dicts_of(found: Any, name: str) -> list[dict[str, Any]]:
    values = found.get(name) if isinstance(found, dict) else None
    return [value for value in values if isinstance(value, dict)] if isinstance(values, list) else []


def of_pod(status: Any) -> Iterator[str]:
    words = reason_words(status)
    if words:
        yield words


def of_deletion(metadata: Any) -> Iterator[str]:
    since = text_at(metadata, "deletionTimestamp")
    if since is not None:
        yield f"deleted, to end by {since}"


def of_container(status: dict[str, Any]) -> Iterator[str]:
    """Why a container waits, and how it ended last."""
    name, state = text_at(status, "name") or "a container", status.get("state")
    waiting = state.get("waiting") if isinstance(state, dict) else None
    if isinstance(waiting, dict):
        yield f"{name} waits: {reason_words(waiting) or 'no reason is given'}"
    ended = (state.get("terminated") if isinstance(state, dict) else None, "exited")
    last = status.get("lastState")
    before = (last.get("terminated") if isinstance(last, dict) else None, "exited last")
    for found, how in (ended, before):
        code = found.get("exitCode") if isinstance(found, dict) else None
        if isinstance(found, dict) and (code != 0 or how != "exited"):
            at, reason = text_at(found, "finishedAt"), reason_words(found)
            yield (f"{name} {how} with code {outside.whole(code, -2 ** 31) if code is not None else 'unknown'}"
                   + (f" at {at}" if at else "") + (f": {reason}" if reason else ""))


def of_conditions(status: Any) -> Iterator[str]:
    """The conditions that are not True, with their reasons; those that follow from a container come last."""
    found = [one for one in dicts_of(status, "conditions") if text_at(one, "status") in ("False", "Unknown")]
    for one in sorted(found, key=lambda each: text_at(each, "type") in FOLLOWING):
        words = reason_words(one)
        yield f"{text_at(one, 'type') or 'a condition'} is {text_at(one, 'status')}" + (f": {words}" if words else "")


def reason_words(found: Any) -> str | None:
    """A reason with its message, which may have several lines."""
    reason, message = text_at(found, "reason"), found.get("message") if isinstance(found, dict) else None
    said = outside.text_of(" ".join(message.split())) if isinstance(message, str) else None
    return ": ".join(filter(None, [reason, said])) or None
