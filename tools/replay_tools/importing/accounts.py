"""What the lines of a journal show of one pod."""

from __future__ import annotations

import operator
from dataclasses import dataclass, replace
from typing import Any, Optional, TYPE_CHECKING

from replay_tools.record.decisions import ENDED, EVICTED, EVICTION, Decision
from replay_tools.record.formats import without_nones
from replay_tools.record.pods import Pod
from replay_tools.record.reasons import Reason, reason_of

from .instances import Instances
from .placing import LATE_SECONDS

if TYPE_CHECKING:
    from . import facts

# how long an exit is waited for where its pod has been removed
GOING_SECONDS = 30
# what came and went between two looks of the kubelet's
BETWEEN_LOOKS = 0.9
# the line that a pod is evicted comes at most so long after the exit of its last container was found
STOPPED_SECONDS = 2.0
# by how much a poll of the kubelet's may be late
LOOK_SECONDS = 1.0
ORDER = {"start": 0, "result": 1, "kill": 2, "exit": 3, "wait": 4}


@dataclass
class Item:
    """Something that happened in a pod."""
    at: float
    order: int
    number: int
    what: str
    value: Any


# how they are placed
IN_ORDER = operator.attrgetter("at", "order", "number", "what")


class Account:
    """One pod, as lines show it."""

    def __init__(self, number: int, key: str, uid: Optional[str], at: float) -> None:
        self.number = number
        self.key = key
        self.uid = uid
        self.added_at = at
        # when it took the place of another one of its name
        self.follows_at = 0.0
        self.pod: Optional[Pod] = None
        self.is_template = False
        # whether a line shows that it comes, and whether it did not run before that
        self.is_listed = self.was_added = False
        # whether it is of a file on the node, and the uids of its copies in the API server
        self.is_static = False
        self.copies: set[str] = set()
        # what the condition Ready was last
        self.is_ready: Optional[bool] = None
        self.instances = Instances()
        # what waits to be placed
        self.pending: list[Item] = []
        # when it was ordered to go, is gone for the kubelet, was cleaned up after its eviction, or came again
        self.deleted_at: Optional[float] = None
        self.removed_at: Optional[float] = None
        self.cleaned_at: Optional[float] = None
        self.replaced_at: Optional[float] = None
        # when a line spoke of it last
        self.heard_at = at
        # the moment and the message of the Event of its eviction
        self.evicting: Optional[tuple[float, str]] = None
        self.decision: Optional[Decision] = None
        # when a line reported its eviction, whether one has the moment of that decision, and whether it is placed
        self.told_at = 0.0
        self.is_moment_told = False
        self.is_decided = False

    # --- what lines report ---

    def add(self, at: float, what: str, value: Any) -> None:
        self.pending.append(Item(at, ORDER[what], len(self.pending), what, value))

    def turn(self, fact: facts.Turned, is_met: bool) -> None:
        """A start or an exit, which may be reported more than once: the first counts, and the runtime's is exact."""
        instance = self.instances.of(fact.id)
        instance.is_looked = instance.is_looked or not fact.is_exact
        if fact.what == "started":
            if fact.is_exact:
                instance.started = fact.at if instance.started is None else instance.started
            if instance.seen is None and not instance.has_ended:
                instance.seen, instance.is_met = fact.at, is_met
        elif instance.gone is None:
            if fact.is_exact and instance.finished is None:
                instance.finished = fact.at
            if instance.seen is None:
                # it ran before the journal begins, or came and went between two looks
                is_met, instance.is_unseen = is_met or self.may_have_run(), True
                instance.seen, instance.is_met = (self.added_at, True) if is_met else (fact.at - BETWEEN_LOOKS, False)
            instance.gone = fact.at

    def ready_turned(self, fact: facts.Readied) -> Optional[dict[str, Any]]:
        """A status has the condition Ready: how it turned, where it had another value before."""
        if fact.is_ready == self.is_ready:
            return None
        self.is_ready = fact.is_ready
        since = fact.at if fact.since is None else fact.since
        return {"status": "True" if fact.is_ready else "False", "at": int(since)}

    def entry_of_wait(self, fact: facts.Waits, name: str) -> dict[str, Reason]:
        found = reason_of(without_nones({"reason": fact.reason, "message": fact.message}))
        return {} if found is None else {name: found}

    def forget(self, before: float) -> None:
        self.instances.forget(before)

    # --- what follows from it ---

    def may_have_run(self) -> bool:
        """Whether a container of it may have run before its first line: no line reports that it came."""
        met = sum(each.is_met for each in self.instances.by_id.values())
        return not self.was_added and met < (1 if self.pod is None else len(self.pod.containers()))

    def known_uid(self) -> str:
        """The uid as a trace's pod has it; one that no cluster gives where it is not known."""
        return self.uid if self.uid is not None else f"?{self.number}"

    def is_copied_as(self, uid: str) -> bool:
        """Whether a copy of it in the API server, as it is a static pod, has this uid."""
        return uid in self.copies

    @property
    def has_left(self) -> bool:
        """Whether something of it has ended after a line that reports that it goes."""
        since = self.deleted_at if self.removed_at is None else self.removed_at
        return since is not None and any(each.gone is not None and each.gone >= since
                                         for each in self.instances.by_id.values())

    def come_back(self) -> None:
        """A line reports that it comes, under the same uid: it did not go."""
        self.deleted_at = self.removed_at = None

    def leaves_at(self) -> Optional[float]:
        """When it is no more: once it was ordered to go and all its instances have exited, else when the kubelet has
        removed it, has cleaned up after its eviction, or has another pod of its name."""
        known = [at for at in (self.removed_at, self.cleaned_at, self.replaced_at) if at is not None]
        if self.deleted_at is None and not known:
            return None
        ends = [each.end for chain in self.instances.chains for each in chain.instances]
        if self.deleted_at is not None and ends and None not in ends:
            known.append(max([self.deleted_at, *(end for end in ends if end is not None)]))
        if not known:
            return None
        at = min(known)
        # what is deleted by force exits after that
        return max([at, *(end for end in ends if end is not None and at < end <= at + GOING_SECONDS)])

    # --- its eviction ---

    def take_event_of_eviction(self, at: float, message: str) -> None:
        self.evicting = at, message
        if self.decision is not None and message and not self.is_decided:
            self.decision = replace(self.decision, message=message)

    def said_of_eviction(self) -> str:
        return self.evicting[1] if self.evicting is not None else ""

    def evict(self, at: float, ranked_at: Optional[float], message: str) -> None:
        """A line reports that the kubelet has evicted it. The kubelet decided that as it ranked the pods. No ranking
        has a pod that has reached a limit of its own: the moment is then the Event's, or the first order to stop what
        ran by then."""
        moments = [ranked_at] if ranked_at is not None else [
            moment for moment in (self.evicting and self.evicting[0], self.stopped_since(at)) if moment is not None]
        self.told_at, self.is_moment_told = at, bool(moments)
        self.decision = Decision(EVICTED, min([at, *moments]), EVICTION, message)

    def end(self, at: float, reason: str, message: str, is_late: bool, kind: str = ENDED) -> None:
        """The kubelet has ended it for a reason of its own, or has not admitted it again as it was restarted. A line
        that may come late follows the first order to stop what ran, or the first exit that this led to."""
        ordered = self.stopped_since(at) if is_late else at
        self.told_at, self.is_moment_told = at, ordered is not None
        self.decision = Decision(kind, at if ordered is None else min(at, ordered), reason, message)

    def has_run(self) -> bool:
        """Whether a container or a sandbox of it was seen."""
        return any(each.seen is not None for each in self.instances.by_id.values())

    def all_stopped_at(self) -> Optional[float]:
        """The first exit of the last instances of its containers, where none of these runs; None where one does."""
        newest = [chain.newest for chain in self.instances.chains]
        ends = [each.end for each in newest if each.end is not None]
        return min(ends) if ends and len(ends) == len(newest) else None

    def first_stop(self) -> Optional[float]:
        """The first order to stop the last instance of a container, for no reason of the container's own."""
        orders = [chain.newest.killing.at for chain in self.instances.chains
                  if chain.newest.killing is not None and not chain.newest.killing.why]
        return min(orders, default=None)

    def stopped_since(self, at: float) -> Optional[float]:
        """The first order to stop what ran shortly before a moment, for no reason of a container's own, and not since
        the pod was deleted."""
        orders = [each.killing.at for each in self.instances.by_id.values() if each.killing is not None
                  and not each.killing.why and (each.gone is None or each.gone >= at - STOPPED_SECONDS)]
        return min((each for each in orders if self.deleted_at is None or each < self.deleted_at), default=None)

    def is_settled(self, decision: Decision, horizon: float) -> bool:
        """Whether it is known what happened up to the line that it is evicted, as far as its tick can wait for that."""
        return horizon >= self.settled_from(decision)

    def settled_from(self, decision: Decision) -> float:
        """From when on that is known."""
        known = min(self.told_at + LOOK_SECONDS, (decision.moment or 0.0) + LATE_SECONDS - 1)
        leaves_at = self.leaves_at()
        return known if leaves_at is None else min(known, leaves_at)

    def moment_of(self, decision: Decision) -> float:
        """When the kubelet decided. If no line has that, it is the first of the last exits, if that is of the second
        before the line about the eviction."""
        moment = decision.moment or 0.0
        if self.is_moment_told:
            return moment
        is_ended = decision.kind != EVICTED
        waits = {name: at for at, name in self.instances.hints.waits}
        ends = [chain.newest.end for chain in self.instances.chains if chain.newest.end is not None
                and not (is_ended and waits.get(str(chain.name), 0.0) >= chain.newest.end)]
        return min([moment, *(end for end in ends if end >= moment - (GOING_SECONDS if is_ended else 1))])

    def failed_in(self, second: int, decision: Decision) -> int:
        """The second in which it has failed, as a kubelet reports when it begins to stop the containers: the second of
        its eviction. If a container started after that, since its sync was on its way, it is the second of this start.
        If one had exited by itself, and the next poll found that, it is the second of this exit."""
        at, instances = decision.moment or 0.0, [each for chain in self.instances.chains for each in chain.instances]
        starts = [each.started_in for each in instances if (each.begin or 0.0) <= self.told_at + LOOK_SECONDS]
        exits = [each.ended_in for each in instances
                 if each.killing is None and each.gone is not None and each.gone <= at + LOOK_SECONDS]
        return max([second, *starts, *exits])

    def pod_refused(self, decision: Decision) -> Pod:
        """It never ran, and has no line."""
        return Pod(self.key, self.known_uid(), {}, None, frozenset(), decision)
