"""What the API server shows next to a kubelet, if it is asked: what Events show of a pod, of which something happened
some seconds ago; and whether the node is Ready."""

from __future__ import annotations

import re
from dataclasses import dataclass
from typing import Any, Optional, TYPE_CHECKING

from .answers import read_json, read_parts
from .formats import is_whole, without_nones
from .messages import message_kept
from .reasons import OTHER, WORD
from .runtime import moment_of
from .sources import Failed, reads

if TYPE_CHECKING:
    from collections.abc import Iterable

    from .answers import Answer
    from .pods import Pod
    from .probes import Counters

# an Event is there some moments after what it reports, and a pod is asked for again after so long
BEHIND_SECONDS, AGAIN_SECONDS = 3, 10
# so many pods are asked for at a poll
MOST_AT_ONCE = 5
MOST_COUNT = 10 ** 6
STATUSES = ("True", "False", "Unknown")
CONTAINER = re.compile(r"spec\.(?:initContainers|containers)\{([a-z0-9]([-a-z0-9]{0,61}[a-z0-9])?)\}")


@dataclass(frozen=True)
class Said:
    """One Event as it was last: when, of which container, if of one, why, how often by then, and what is kept of its
    message."""
    identity: str
    at: float
    container: Optional[str]
    reason: str
    count: int
    message: Optional[str]
    is_left_out: bool

    def told(self) -> dict[str, Any]:
        return without_nones({"at": int(self.at), "container": self.container, "reason": self.reason,
                              "count": self.count if self.count > 1 else None, "message": self.message,
                              "messageLeftOut": self.is_left_out or None})


@dataclass(frozen=True)
class Ready:
    """The condition Ready of a node: its status, why, and since when, as far as these are known."""
    status: str
    reason: Optional[str] = None
    since: Optional[float] = None

    def told(self) -> dict[str, Any] | None:
        """What a tick has of it; None if the node is Ready."""
        if self.status == "True":
            return None
        return without_nones({"status": self.status, "reason": self.reason,
                              "since": None if self.since is None else int(self.since)})


@reads("the node")
def ready_in(text: Answer) -> Ready | None:
    """The condition Ready of an answer that is a node; None where it has none."""
    conditions = (read_json(text, "the node").get("status") or {}).get("conditions") or []
    found = next((each for each in conditions if each.get("type") == "Ready"), None)
    if found is None or found.get("status") not in STATUSES:
        return None
    word = found.get("reason")
    is_word = isinstance(word, str) and WORD.fullmatch(word)
    return Ready(found["status"], word if is_word else OTHER, moment_of(found.get("lastTransitionTime")))


@reads("events")
def said_in(text: Answer, what: str) -> list[Said]:
    """The Events of an answer that show when they were, in their order."""
    answer = read_parts(text, what, "items", said_of)
    items = answer.get("items") if isinstance(answer, dict) else None
    if not isinstance(items, list):
        raise Failed(f"{what}: no list of events in the answer")
    return sorted(filter(None, items), key=lambda said: said.at)


def said_of(item: Any) -> Said | None:
    """An Event, in either form of the API's; None if it has no moment."""
    series, metadata = item.get("series") or {}, item.get("metadata") or {}
    moments = map(moment_of, (series.get("lastObservedTime"), item.get("lastTimestamp"), item.get("eventTime"),
                              metadata.get("creationTimestamp")))
    at = next((moment for moment in moments if moment is not None), None)
    if at is None:
        return None
    word, message, count = item.get("reason"), item.get("message"), series.get("count") or item.get("count") or 1
    word = word if isinstance(word, str) and WORD.fullmatch(word) else OTHER
    of = CONTAINER.fullmatch(str((item.get("involvedObject") or {}).get("fieldPath")))
    container = None if of is None else of[1]
    there = isinstance(message, str) and bool(message.strip())
    kept = message_kept(word, message) if there else None
    count = min(count, MOST_COUNT) if is_whole(count) else 1
    return Said(str(metadata.get("uid")), at, container, word, count, kept, there and kept is None)


def failing(before: Counters | None, now: Counters | None) -> set[str]:
    """The uids of the pods of which a probe has failed between two answers."""
    if before is None or now is None:
        return set()
    return {uid for (uid, container, probe), counts in now.items()
            if counts.get("failure", 0) > before.get((uid, container, probe), {}).get("failure", 0)}


def has_changed(before: Pod | None, now: Pod) -> bool:
    """Whether a pod has come, waits for something else, is deleted or was ended since the list before."""
    return before is None or (before.waits, before.is_deleted, before.ended) != (now.waits, now.is_deleted, now.ended)


class Asking:
    """Which pods are asked for, by their uids; none where none is asked for at all."""

    def __init__(self, is_asked: bool) -> None:
        self.is_asked = is_asked
        self.due_at: dict[str, float] = {}
        self.asked_at: dict[str, float] = {}

    def want(self, uids: Iterable[str], moment: float) -> None:
        """Something has happened in these pods."""
        for uid in uids if self.is_asked else ():
            again = self.asked_at.get(uid, float("-inf")) + AGAIN_SECONDS
            self.due_at.setdefault(uid, max(moment + BEHIND_SECONDS, again))

    def due(self, moment: float) -> list[str]:
        """The pods that are asked for now, those first that wait for the longest time."""
        now = sorted((at, uid) for uid, at in self.due_at.items() if at <= moment)[:MOST_AT_ONCE]
        for _, uid in now:
            del self.due_at[uid]
            self.asked_at[uid] = moment
        self.asked_at = {uid: at for uid, at in self.asked_at.items() if 0 <= moment - at < AGAIN_SECONDS}
        return [uid for _, uid in now]
