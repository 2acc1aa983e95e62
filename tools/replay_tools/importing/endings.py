"""Pods that the kubelet ended for a reason of its own, or did not admit: deadlines, preemption, shutdown of the node,
and admission. The forms from 1.21 on are written from knowledge of the kubelet's sources."""

from __future__ import annotations

import re
from collections.abc import Callable, Iterator
from typing import Any, Optional, TYPE_CHECKING

from replay_tools.record.decisions import ENDED, EVICTION, PRESSURE, REFUSED, WORD, Decision
from replay_tools.record.messages import message_kept
from replay_tools.record.runtime import moment_of

from . import facts
from .references import placed_in, reference_of

if TYPE_CHECKING:
    from .lives import Life
    from .manifests import Manifests
    from .messages import Message
    from .placing import Placing

DEADLINE, PREEMPTED, SHUTDOWN, TERMINATED = "DeadlineExceeded", "Preempting", "Shutdown", "Terminated"
PREEMPTED_WORDS = "Preempted in order to admit critical pod"
# a kubelet 1.20 and 1.21 has the first reason for a shutdown, later ones the second
SHUTDOWN_WORDS = {SHUTDOWN: "Node is shutting, evicting pods",
                  TERMINATED: "Pod was terminated in response to imminent node shutdown."}
ENDS = {DEADLINE, PREEMPTED, SHUTDOWN, TERMINATED, "NodeShutdown"}
# the reasons with which a kubelet does not admit a pod
REFUSES = re.compile(r"OutOf[a-z][-a-z0-9./]{0,50}|NodeAffinity|NodeShutdown|TaintToleration|NodeName|NodePorts"
                     r"|UnexpectedAdmissionError|UnexpectedPredicateFailureType|InvalidNodeInfo|TopologyAffinityError"
                     r"|SMTAlignmentError|Sysctl[A-Za-z]{0,40}|AppArmor|PodOSNotSupported"
                     r"|PodOSSelectorNodeLabelDoesNotMatch|InitContainerRestartPolicyForbidden"
                     r"|PodLevelResourcesNotAdmittedReason")
RESOURCE = re.compile(r"Node didn't have enough (?:resource|capacity): ([-a-z0-9./]{1,50})")
PREDICATE = re.compile(r"(?:Predicate|Failure:?) ([A-Za-z]{1,62})\b")
UNEXPECTED = "UnexpectedAdmissionError"
OF_PREDICATE = re.compile(r"Predicate failed on Pod: (\S+), for reason: (.*)", re.S)
OF_ADMISSION = re.compile(r"Failed to admit pod (\S+) - (?!node has conditions)(.*)", re.S)
OF_PREEMPTION = re.compile(r"preemption: pod (\S+) evicted successfully")
OF_SHUTDOWN = re.compile(r'Shutdown manager killing pod "?([^"\s]+)"? with gracePeriod')
LONGEST_REASON = 63
# so long after its deadline a kubelet ends a pod at the latest, as it looks for that with each sync
DEADLINE_SECONDS = 15.0


def reason_in(message: str) -> str:
    """The reason of the status of a pod that was not admitted, by the message."""
    found = RESOURCE.search(message)
    if found is not None:
        return f"OutOf{found[1]}"
    found = PREDICATE.search(message)
    return UNEXPECTED if found is None else found[1]


# --- sentences, up to 1.20 ---


def of_predicate(message: Message) -> Iterator[facts.Fact]:
    found = OF_PREDICATE.match(message.text)
    pod = None if found is None else placed_in(found[1])
    if found is not None and pod is not None:
        yield facts.Ended(message.at, pod, reason_in(found[2]), found[2], is_refused=True)


def of_admission(message: Message) -> Iterator[facts.Fact]:
    found = OF_ADMISSION.match(message.text)
    pod = None if found is None else placed_in(found[1])
    if found is not None and pod is not None:
        yield facts.Ended(message.at, pod, UNEXPECTED, found[2], is_refused=True)


def of_preemption(message: Message) -> Iterator[facts.Fact]:
    found = OF_PREEMPTION.match(message.text)
    pod = None if found is None else placed_in(found[1])
    if pod is not None:
        yield facts.Ended(message.at, pod, PREEMPTED, PREEMPTED_WORDS, is_late=True)


def of_shutdown(message: Message) -> Iterator[facts.Fact]:
    found = OF_SHUTDOWN.match(message.text)
    pod = None if found is None else placed_in(found[1])
    if pod is not None:
        yield facts.Ended(message.at, pod, SHUTDOWN, SHUTDOWN_WORDS[SHUTDOWN])


# by the first word of a message
PRINTED: dict[str, Callable[[Message], Iterator[facts.Fact]]] = {
    "Predicate": of_predicate, "preemption:": of_preemption, "Shutdown": of_shutdown}


# --- messages with keys, from 1.21 on ---


def pod_of(message: Message) -> facts.Reference:
    keys = message.keys
    return reference_of(keys.get("pod"), keys.get("podUID") or keys.get("podUid")) or facts.Reference()


def of_denial(message: Message) -> Iterator[facts.Fact]:
    keys = message.keys
    said = str(keys.get("message") or keys.get("err") or "")
    given = keys.get("reason")
    is_word = isinstance(given, str) and WORD.fullmatch(given) is not None
    yield facts.Ended(message.at, pod_of(message), str(given) if is_word else reason_in(said), said, is_refused=True)


def of_preempted(message: Message) -> Iterator[facts.Fact]:
    yield facts.Ended(message.at, pod_of(message), PREEMPTED, PREEMPTED_WORDS, is_late=True)


def of_terminated(message: Message) -> Iterator[facts.Fact]:
    yield facts.Ended(message.at, pod_of(message), TERMINATED, SHUTDOWN_WORDS[TERMINATED])


KEYED: dict[str, Callable[[Message], Iterator[facts.Fact]]] = {
    "Predicate failed on Pod": of_denial, "Pod admission denied": of_denial, "Pod evicted successfully": of_preempted,
    "Shutdown manager killing pod with gracePeriod": of_terminated}


# --- statuses ---


def of_conditions(at: float, pod: facts.Reference, status: Any) -> Iterator[facts.Fact]:
    """What a status in JSON shows of the pod itself: that it was ended, and whether it is ready."""
    if not isinstance(status, dict):
        return
    reason = status.get("reason")
    if status.get("phase") == "Failed" and isinstance(reason, str) and reason.strip():
        yield facts.Ended(at, pod, reason[:LONGEST_REASON], str(status.get("message") or ""), REFUSES.fullmatch(
            reason) is not None, True)
    listed = status.get("conditions")
    for each in listed if isinstance(listed, list) else ():
        if isinstance(each, dict) and each.get("type") == "Ready" and each.get("status") in ("True", "False"):
            since = each.get("lastTransitionTime")
            yield facts.Readied(at, pod, each["status"] == "True", moment_of(since) if isinstance(since, str) else None)


# --- what becomes of it ---


class Endings:
    """Takes what the kubelet did to pods for other reasons than pressure of the node."""

    def __init__(self, manifests: Manifests, placing: Placing) -> None:
        self.manifests = manifests
        self.placing = placing

    def take(self, life: Life, fact: facts.Ended) -> None:
        """A line shows that a pod was ended, or not admitted. One that runs, as after a restart of the kubelet, is
        ended by that."""
        if life.decision is not None or life.is_refused or fact.reason == EVICTION:
            return
        message = message_kept(fact.reason, fact.message) or ""
        if fact.is_refused and not life.has_run():
            self.refuse(life, fact.at, fact.reason, message)
        else:
            life.end(fact.at, fact.reason, message, fact.is_late, REFUSED if fact.is_refused else ENDED)

    def refuse(self, life: Life, at: float, reason: str, message: str) -> None:
        """A pod that was not admitted never ran, and has no line."""
        life.is_refused = True
        self.placing.count("pods refused")
        self.placing.timeline.place_decision(life.pod_refused(Decision(REFUSED, at, reason, message)), at, None)

    def take_event(self, life: Life, fact: facts.Happened) -> None:
        """An Event that the kubelet made as it ended a pod, or did not admit it."""
        is_refusal = REFUSES.fullmatch(fact.reason) is not None
        if (fact.reason in ENDS or is_refusal) and not PRESSURE.search(fact.message):
            self.take(life, facts.Ended(fact.at, fact.pod, fact.reason, fact.message, is_refusal, True))

    def take_statuses(self, lives: list[Life], horizon: float, is_end: bool) -> None:
        """Whom the node ended by its status in a list of pods, or by its deadline, and no line shows that it has."""
        for life in lives:
            if life.decision is None and not life.is_refused and not life.is_over and life.deleted_at is None:
                self.take_status(life, horizon, is_end)

    def take_status(self, life: Life, horizon: float, is_end: bool) -> None:
        reason, message = self.manifests.ended.get(life.uid or (life.pod.uid if life.pod is not None else ""), ("", ""))
        stopped_at = life.all_stopped_at()
        if stopped_at is not None and stopped_at <= horizon and reason and reason != EVICTION:
            self.take(life, facts.Ended(stopped_at, facts.Reference(life.key), reason, message, False, True))
        elif is_end and reason and life.is_listed and not life.instances.by_id and REFUSES.fullmatch(reason):
            self.take(life, facts.Ended(life.added_at, facts.Reference(life.key), reason, message, True))
        elif stopped_at is not None and stopped_at <= horizon and self.is_over_deadline(life, stopped_at):
            life.end(stopped_at, DEADLINE, "", True)

    def is_over_deadline(self, life: Life, stopped_at: float) -> bool:
        """Whether all of a pod stopped as its deadline was over, by its manifest: at -v=2 no line reports so."""
        deadline: Optional[int] = self.manifests.deadlines.get(life.uid or (life.pod.uid if life.pod else ""))
        if deadline is None or not life.was_added:
            return False
        ordered = life.first_stop()
        at = stopped_at if ordered is None else ordered
        return 0 <= at - (life.added_at + deadline) <= DEADLINE_SECONDS
