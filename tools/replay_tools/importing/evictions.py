"""Whom the kubelet evicted, since when and why. That a pod is evicted a kubelet reports once it has stopped the pod's
containers, which may take it long; the decision has lines of its own: what the node is short of, the ranking of the
pods, and the Event of the pod."""

from __future__ import annotations

from dataclasses import dataclass
from typing import Optional, TYPE_CHECKING

from replay_tools.record.decisions import EVICTION, PRESSURE
from replay_tools.record.messages import message_kept

from . import facts

if TYPE_CHECKING:
    from .lives import Life
    from .manifests import Manifests
    from .placing import Placing

# a ranking follows what the node was short of within so many seconds
NEAR_SECONDS = 60
LONGEST_MESSAGE = 4096
RANKED_WORD = "RankedForEviction"
MOST_RANKED = 10


@dataclass
class Ranking:
    """The pods in the order in which a round of the eviction manager would evict them, and what the node was short
    of. It evicts the first one that it may."""
    at: float
    pods: tuple[facts.Reference, ...]
    resource: str = ""

    def has(self, life: Life) -> bool:
        return any(pod.uid == life.uid if pod.uid is not None and life.uid is not None else pod.key == life.key
                   for pod in self.pods)

    def said(self) -> dict[str, str]:
        names = [str(pod.key) for pod in self.pods[:MOST_RANKED]]
        more = f" and {len(self.pods) - MOST_RANKED} more" if len(self.pods) > MOST_RANKED else ""
        short_of = f"to reclaim {self.resource}: " if self.resource else ""
        return {"reason": RANKED_WORD, "message": f"{short_of}{', '.join(names)}{more}"}

    def message(self) -> str:
        """The first sentence of the kubelet's message, of the resource that the node is short of."""
        return f"The node was low on resource: {self.resource}." if self.resource else ""


class Evictions:
    """The newest ranking, until a pod of it is evicted or another round begins."""

    def __init__(self, manifests: Manifests, placing: Placing) -> None:
        self.manifests = manifests
        self.placing = placing
        self.resource: tuple[float, str] = (0.0, "")
        self.ranking: Optional[Ranking] = None

    def end_round(self) -> None:
        """What comes is of another round: the one before evicts nobody any more."""
        self.ranking = None

    def take_reclaims(self, fact: facts.Reclaims) -> None:
        self.end_round()
        self.resource = fact.at, fact.resource

    def take_ranked(self, fact: facts.Ranked) -> None:
        since, resource = self.resource
        self.ranking = Ranking(fact.at, fact.pods, resource if fact.at - since <= NEAR_SECONDS else "")

    def take_evicted(self, life: Life, at: float) -> None:
        """A line shows that a pod is evicted. A round evicts one pod, and waits for it."""
        if life.decision is not None:
            return
        ranking = self.ranking if self.ranking is not None and self.ranking.has(life) else None
        said = life.said_of_eviction()
        message = said or self.of_status(life) or ("" if ranking is None else ranking.message())
        life.evict(at, None if ranking is None else ranking.at, message)
        if ranking is not None:
            self.placing.say(life.key, ranking.at, ranking.said())
            self.ranking = None

    def of_status(self, life: Life) -> str:
        """The message in the status of a pod that was evicted, of a list of pods."""
        reason, message = self.manifests.ended.get(life.uid or "", ("", ""))
        return message_of(message) or "" if reason == EVICTION else ""

    @staticmethod
    def take_event(life: Life, fact: facts.Happened) -> None:
        """The kubelet's Event of an eviction, which comes as the eviction begins."""
        message = message_of(fact.message)
        if message is not None:
            life.take_event_of_eviction(fact.at, message)

    def take_events_alone(self, lives: list[Life], horizon: float) -> None:
        """Whom by an Event the kubelet evicted, and no line shows that it has."""
        for life in lives:
            if life.decision is None and life.evicting is not None and life.evicting[0] <= horizon:
                self.take_evicted(life, life.evicting[0])


def message_of(text: str) -> Optional[str]:
    """What is kept of the message of an eviction; None where it is of a pod that was not admitted, which has the same
    reason."""
    return None if PRESSURE.search(text) else message_kept(EVICTION, text, LONGEST_MESSAGE) or ""
