"""What the ticks of a trace show of what was done to pods: whom the kubelet evicted, rejected or ended, and which pods
are being deleted."""

from __future__ import annotations

import re
from collections.abc import Iterator
from dataclasses import dataclass
from typing import Any, TYPE_CHECKING

from replay_tools import outside

if TYPE_CHECKING:
    from replay_tools.traces import Pod, Trace

EVICTED = "Evicted"
OF_WORDS = frozenset(("deleting", "failed"))
# docs/extended.md: the reason in a tick of a pod that the node has ended
REASON = re.compile(r"[A-Za-z][A-Za-z0-9_./-]{0,62}", re.ASCII)
# who deletes a pod, by the reason of its condition DisruptionTarget (Kubernetes, "Disruptions")
DELETERS = {"EvictionByEvictionAPI": "the eviction API", "DeletionByTaintManager": "the taint manager",
            "PreemptionByScheduler": "the scheduler, for a pod of higher priority",
            "DeletionByPodGC": "the garbage collection of pods", "TerminationByKubelet": "the kubelet"}


@dataclass
class Decision:
    """What the kubelet did to a pod, as a recording shows it; the formats do not read that."""

    kind: str
    """evicted, refused or ended"""
    at: int
    pod: str
    number: int | None
    """the pod's number; None if it has no line in the trace"""
    reason: str
    message: str
    uid: str | None = None
    """the uid of a pod without a line in the trace, if it is known"""
    had_run: bool = False
    """of a rejected pod: it had run before, and the kubelet rejected it when it admitted its pods again"""
    is_guessed: bool = False
    """no source gave its reason"""


@dataclass
class Deletion:
    """Since when a pod is being deleted, and by whom and with which grace, if a recording has that."""

    at: int
    by: str | None = None
    """the reason of its condition DisruptionTarget"""
    grace: int | None = None
    """in seconds"""

    def words(self) -> str:
        by = f" by {DELETERS.get(self.by, self.by)}" if self.by else ""
        return f"{by}{'' if self.grace is None else f', {self.grace} s of grace'}"


def take_words(trace: Trace, entries: dict[str, dict[str, Any]], present: dict[str, Pod]) -> None:
    """Takes from the newest tick which pods are being deleted and which the node has ended. `entries` are its entries
    with more members than listings. The first tick counts. What else is known of a deletion may come later."""
    tick = trace.ticks[-1]
    if not trace.heeds_words():
        return
    for key, entry in entries.items():
        if OF_WORDS.isdisjoint(entry):
            continue
        pod = present[key]
        if entry.get("deleting") is True:
            known = trace.deletions.setdefault(pod.number, Deletion(tick.at))
            known.by, known.grace = deleter_of(entry) or known.by, grace_of(entry, known.grace)
        reason = entry.get("failed")
        if isinstance(reason, str) and REASON.fullmatch(reason) and pod.number not in trace.failed:
            kind = "evicted" if reason == EVICTED else "ended"
            trace.failed[pod.number] = Decision(kind, tick.at, key, pod.number, reason, "")


def deleter_of(entry: dict[str, Any]) -> str | None:
    said = entry.get("deletion")
    return outside.text_of(said.get("by")) if isinstance(said, dict) else None


def grace_of(entry: dict[str, Any], otherwise: int | None) -> int | None:
    said = entry.get("deletion")
    found = outside.moment(said.get("grace")) if isinstance(said, dict) else None
    return otherwise if found is None else found


def decisions_of(trace: Trace, found: dict[str, Any]) -> Iterator[Decision]:
    """What a tick shows that the kubelet did, by its own moment, to the last pod of a key unless it is left out. The
    formats do not read it, so values of another shape count as absent."""
    told = found.get("kubelet")
    for kind in ("evicted", "refused", "ended"):
        each_of = told.get(kind) if isinstance(told, dict) else None
        for each in each_of if isinstance(each_of, list) else []:
            if isinstance(each, dict) and isinstance(each.get("pod"), str):
                at, key = outside.whole(each.get("at"), 0, found["at"]), outside.text_of(each["pod"]) or ""
                pods = [] if each.get("leftOut") is True else [pod for pod in trace.pods if pod.key == key]
                reason, message = (outside.text_of(str(each.get(name) or "")) for name in ("reason", "message"))
                yield Decision(kind, found["at"] if at is None else at, key, pods[-1].number if pods else None,
                               reason or "", message or "", outside.text_of(each.get("uid")),
                               is_guessed="reason" in (each.get("guessed") or ()))


def decisions_with_endings(trace: Trace) -> list[Decision]:
    """All that the kubelet did; of a pod that it ended the recording's decision with its message, if there is one."""
    # a pod that was rejected at its re-admission has `failed` too, for that reason
    told = {decision.number for decision in trace.decisions if decision.number is not None}
    return sorted([*trace.decisions, *(each for number, each in trace.failed.items() if number not in told)],
                  key=lambda decision: decision.at)
