"""What the kubelet did to a pod, as the pod's status reports it: it evicted it, rejected it under pressure, or ended it
for another reason, as that its deadline was over."""

from __future__ import annotations

import re
from collections.abc import Callable
from dataclasses import dataclass, replace
from typing import Any, Optional, TYPE_CHECKING

from replay_tools import outside

from .formats import without_nones
from .messages import LONGEST_MESSAGE, STOPS, message_kept
from .runtime import moment_of

if TYPE_CHECKING:
    from .events import Said
    from .pods import Pod
    from .samples import Sampling
    from .seen import Course, Recorded, Seen
    from .ticks import Ticks

EVICTED, REFUSED, ENDED = "evicted", "refused", "ended"
# the reason that a kubelet gives for both of the first
EVICTION = "Evicted"
# what a kubelet shows of a pod that it did not admit while the node was under pressure
PRESSURE = re.compile(r"The node had condition: \[")
LONGEST_OF_EVICTION = 4096
# what a kubelet shows as it does not admit a pod, so that it never ran, or runs no more after the kubelet's start
ADMISSION = ("UnexpectedAdmissionError", "NodeAffinity", "NodePorts", "NodeUnschedulable", "NodeName", "NodeTaint",
             "TaintToleration", "PodOSNotSupported", "PodOSSelectorNodeLabelDoesNotMatch", "TopologyAffinityError",
             "PodFeatureUnsupported", "AppArmor", "SysctlForbidden", "Forbidden", "InvalidNodeInfo")
NOT_ADMITTED = re.compile("Pod was rejected|Predicate [A-Za-z]+ failed|not admitting any new pods"
                          "|rejected as the node")
# what a tick may show that the node has ended a pod for, and what it shows of any other reason
WORD = re.compile(r"[A-Za-z][-A-Za-z0-9_./]{0,62}")
OTHER = "Other"


@dataclass(frozen=True)
class Decision:
    """What was done, and why; its moment in seconds since 1970, where the status reports one, as from Kubernetes 1.26
    on. A pod that was rejected never ran, or not since the kubelet was started. `is_guessed` is that no reason is
    known."""
    kind: str
    moment: Optional[float]
    reason: str
    message: str
    is_guessed: bool = False

    @property
    def is_by_pressure(self) -> bool:
        """Whether the node was short of something."""
        return self.reason == EVICTION

    @property
    def word(self) -> str:
        """The reason as the formats take it."""
        return self.reason if WORD.fullmatch(self.reason) else OTHER


@dataclass(frozen=True)
class Told:
    """What a tick has of a decision: of which pod it was, in which second, and whether the pod is left out."""
    pod: Pod
    decision: Decision
    at: int
    is_left_out: bool = False

    def fields(self) -> dict[str, Any]:
        """A pod that is left out has no line in the trace, and may have one in another."""
        uid = self.pod.known_uid() if self.is_left_out else None
        return without_nones({"pod": self.pod.key, "uid": uid, "at": self.at, "reason": self.decision.reason,
                              "message": self.decision.message or None, "leftOut": self.is_left_out or None,
                              "guessed": ["reason"] if self.decision.is_guessed else None})

    def is_eviction(self, second: int) -> bool:
        """Whether it is that the kubelet evicted the pod at this second."""
        return self.decision.kind == EVICTED and self.at == second


def end_of(status: dict[str, Any], is_restarted: bool = False, seen_at: float | None = None) -> Decision | None:
    """What a pod's status shows that the kubelet did to it, or None. A pod that failed by itself has no reason; one
    that is always restarted does not fail by itself. `seen_at` is when the kubelet took the pod last, if that is
    known."""
    reason, message = status.get("reason"), str(status.get("message") or "")
    if status.get("phase") != "Failed":
        return None
    if not isinstance(reason, str) or not reason.strip():
        return Decision(ENDED, moment_in(status), OTHER, "", True) if is_restarted else None
    if reason != EVICTION:
        shown = outside.visible(reason)[:LONGEST_MESSAGE]
        kept = message_kept(reason, message) or ""
        if is_refusal(reason, message):
            return Decision(REFUSED, refused_at(status, seen_at), shown, kept)
        return Decision(ENDED, moment_in(status), shown, kept)
    kind = REFUSED if PRESSURE.search(message) else EVICTED
    moment = moment_in(status)
    if kind == REFUSED and moment is None:
        moment = refused_at(status, seen_at)
    return Decision(kind, moment, reason, message_kept(reason, message, LONGEST_OF_EVICTION) or "")


def is_refusal(reason: str, message: str) -> bool:
    """Whether a status shows that the kubelet did not admit a pod."""
    return reason.startswith("OutOf") or reason in ADMISSION or NOT_ADMITTED.search(message) is not None


def refused_at(status: dict[str, Any], seen_at: float | None) -> float | None:
    """When a pod was not admitted: as the kubelet took it, which its annotation has, and its status too if no container
    of it has run."""
    if seen_at is not None or status.get("containerStatuses"):
        return seen_at
    return moment_of(status.get("startTime"))


def moment_in(status: dict[str, Any]) -> float | None:
    """When the kubelet ordered the pod to end, if a condition has it."""
    for condition in status.get("conditions") or []:
        if condition.get("type") == "DisruptionTarget" and condition.get("reason") == "TerminationByKubelet":
            return moment_of(condition.get("lastTransitionTime"))
    return None


class Decisions:
    """What the kubelet was seen to decide, each of which is written once; `say` takes what is reported."""

    def __init__(self, timeline: Ticks, course: Course, sampling: Sampling, say: Callable[..., None]) -> None:
        self.timeline = timeline
        self.course = course
        self.sampling = sampling
        self.say = say
        self.uids: set[str] = set()
        # the second up to which a recording before this one shows what the kubelet did
        self.told_until: float | None = None
        # the poll that showed the last decision
        self.looked_at: float | None = None
        # the pods that had gone by the time at which the kubelet evicted them
        self.behind: list[Recorded] = []

    def has(self, pod: Pod) -> bool:
        return pod.uid in self.uids

    def take(self, pod: Pod, recorded: Recorded | None, seen: Seen) -> None:
        """The kubelet evicted or rejected a pod, which is recorded or not. That is written, unless it was before the
        recording and an earlier recording may have it. What an evicted pod was running exits after it."""
        decision = pod.decision
        if decision is None or self.has(pod):
            return
        self.uids.add(pod.uid)
        moment = self.moment_of(pod, decision, seen)
        if decision.kind == EVICTED and not self.course.is_first:
            self.sampling.confirm_round(moment)
        if recorded is not None:
            self.say(f"{pod.key} was {decision.kind} by the kubelet, seen at {int(seen.moment)}")
            second = self.timeline.place_decision(pod, moment, recorded)
            recorded.changes_from, recorded.evicted_at = second + 1, second
            self.behind += [] if recorded.is_followed else [recorded]
        elif not self.course.is_first:
            self.timeline.place_decision(pod, moment, None)
        elif self.told_until is not None and decision.moment is not None and self.told_until < int(decision.moment):
            self.timeline.place_past_decision(pod, decision, int(decision.moment), seen.moment)

    def take_event(self, recorded: Recorded, said: Said, seen: Seen) -> None:
        """What an Event shows that the kubelet did to a pod, where no list has shown it: it evicted it, or ended it for
        a reason that its status has not."""
        if said.reason == EVICTION and not self.has(recorded.pod):
            end = end_of({"phase": "Failed", "reason": EVICTION, "message": said.message})
            if end is not None:
                end = replace(end, moment=said.at)
                self.take(replace(recorded.pod, decision=end), recorded, seen)
                self.know_reason(recorded, end, seen)
        elif said.reason in STOPS:
            self.know_reason(recorded, Decision(ENDED, said.at, said.reason, said.message or ""), seen)

    @staticmethod
    def know_reason(recorded: Recorded, end: Decision, seen: Seen) -> None:
        """The reason for which the node has ended a pod, where none is written yet."""
        is_open = recorded.ended is None or (recorded.ended.is_guessed and not recorded.is_end_placed)
        if is_open and (end.kind != ENDED or recorded.ended is not None):
            recorded.ended_at = seen.moment if recorded.ended is None else recorded.ended_at
            recorded.ended = end

    def moment_of(self, pod: Pod, decision: Decision, seen: Seen) -> float:
        """When the kubelet decided: as the pod's status reports, else with the sample by which it did, or when that or
        an exit that it led to was seen."""
        if decision.moment is not None:
            return min(seen.end, decision.moment)
        exits = [each.finished for each in (seen.instances or {}).get(pod.uid, [])
                 if each.finished is not None and each.finished > self.course.planned_at]
        sampled = self.sample_of(decision, seen)
        if sampled is None:
            # its sample is not shown yet, which is newer than the sample of the eviction before, and than an exit by
            # itself
            is_awaited = decision.kind == EVICTED and self.sampling.timeline.tells_rounds
            return seen.moment if is_awaited and self.timeline.evicted_last is not None else min([seen.moment, *exits])
        # an exit before the sample was no work of the kubelet's
        return sampled if exits and min(exits) < sampled else min([seen.moment, sampled, *exits])

    def sample_of(self, decision: Decision, seen: Seen) -> float | None:
        """When the sample was taken by which the kubelet evicted a pod, which is none by which it evicted one before:
        of several in one poll it is the same."""
        sampled = self.sampling.sampled_for(seen) if decision.kind == EVICTED else None
        last, was_at, self.looked_at = self.timeline.evicted_last, self.looked_at, seen.moment
        if sampled is None or last is None or int(sampled) > last or (int(sampled) == last and was_at == seen.moment):
            return None if sampled is None else max(sampled, self.course.begun)
        return None

    def see_behind(self, gone_at: dict[str, int]) -> None:
        """Of a pod that was deleted and had ended the kubelet's sample has none, and until it knows of that end the
        kubelet evicts such a pod first. So that is reported where the sample is from before the pod has gone."""
        second = int(max(self.sampling.newest, 0))
        for recorded in self.behind:
            is_open = self.timeline.next_second <= second <= gone_at.get(recorded.pod.key, -1)
            if self.timeline.format.says_gone and is_open and recorded.pod.uid not in self.sampling.sampled:
                self.timeline.place_unsampled(recorded.pod, second)
        self.behind = []

    def forget(self, uids: set[str]) -> None:
        """Forgets what was decided of all pods but these."""
        self.uids &= uids
