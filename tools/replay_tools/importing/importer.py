"""From facts to the pods that they are of, and from these to the lines of a trace."""

from __future__ import annotations

from collections import Counter
from collections.abc import Callable, Iterable, Iterator
from typing import Optional

from replay_tools import entry
from replay_tools.cli.statuses import Status
from replay_tools.record.decisions import EVICTION, REFUSED, Decision
from replay_tools.record.events import Ready
from replay_tools.record.formats import without_nones
from replay_tools.record.messages import message_kept

from . import facts
from .endings import Endings
from .evictions import Evictions
from .manifests import Manifests
from .placing import FILLED, LATE_SECONDS, READY_TURNS, RESTARTS, TURNS, WITH_MANIFEST, Placing
from .pods import Pods
from .silences import OF_KUBELET
from .summary import stamp
from .thresholds import Round, Thresholds

# what is placed waits so long for later lines about it
HOLD_SECONDS = 600
# so often, in seconds of the journal, what is settled is placed, and what is over forgotten
SETTLE_SECONDS, FORGET_SECONDS = 60, 300
# a process that reports twice that it begins is one
AGAIN_SECONDS = 60
# the observations of one round of the eviction manager follow each other within so many seconds
ROUND_SECONDS = 1.0
# the same line is in two journals within so many seconds
FILLED_SECONDS = 1.0
# the reasons of Events that a trace has; of failures of probes, kills and evictions there are lines
TOLD = ("BackOff", "Failed", "FailedCreatePodSandBox", "FailedMount", "FailedPostStartHook", "FailedPreStopHook",
        "NodeNotReady", "Preempting", "ProbeWarning", "SandboxChanged", "TaintManagerEviction")


class Importer(Pods):
    """Takes facts in the order of their moments, and gives the lines that are settled."""

    def __init__(self, manifests: Manifests, placing: Placing, say: Callable[..., None],
                 hold: float = HOLD_SECONDS) -> None:
        super().__init__(manifests, placing, say, hold)
        self.kinds: Counter[str] = Counter()
        # the newest moment before the fact that is taken
        self.before = 0.0
        self.settled_at = self.forgot_at = 0.0
        self.process: Optional[int] = None
        self.thresholds = Thresholds()
        self.evictions = Evictions(manifests, placing)
        self.endings = Endings(manifests, placing)
        self.capacity: dict[str, int] = {}
        self.happened: dict[tuple[str, str, str], str] = {}
        self.handlers |= {
            facts.Process: self.on_process, facts.NodeName: self.on_node, facts.Missing: self.on_missing,
            facts.TurnedBack: self.on_turned_back, facts.Observed: self.on_observed,
            facts.Reclaims: self.evictions.take_reclaims, facts.Ranked: self.evictions.take_ranked,
            facts.Evicted: self.on_evicted, facts.Refused: self.on_refused,
            facts.Ended: self.on_ended, facts.Readied: self.on_readied,
            facts.Happened: self.on_happened, facts.Begun: self.on_begun, facts.NodeReady: self.on_node_ready,
            **dict.fromkeys(self.thresholds.readers, self.thresholds.take)}

    # --- the stream ---

    def take_all(self, found: Iterable[facts.Fact]) -> Iterator[tuple[list[str], bool]]:
        """The lines of all that is settled, as they are."""
        for fact in found:
            self.begun = fact.at if self.begun is None else self.begun
            self.before, self.now = self.now or fact.at, max(self.now, fact.at)
            if self.placing.written_at is None:
                self.placing.timeline.place_look(fact.at)
                self.placing.written_at = int(fact.at)
                self.settled_at = fact.at
            kind = type(fact)
            self.kinds[kind.__name__] += 1
            if kind in OF_KUBELET:
                self.note_silence(fact)
            self.handlers.get(kind, self.ignore)(fact)
            if self.now - self.settled_at >= SETTLE_SECONDS:
                yield from self.settle(self.placing.silences.open_from(self.now - self.hold))
        if self.begun is not None:
            self.placing.timeline.place_look(self.now)
            yield from self.settle(self.now, True)

    def ignore(self, fact: facts.Fact) -> None:
        """A fact that shows nothing of a pod by itself."""

    def settle(self, horizon: float, is_end: bool = False) -> Iterator[tuple[list[str], bool]]:
        """Places what happened up to a moment, and gives the lines that nothing changes any more."""
        self.settled_at = self.placing.now = self.now
        if self.begun is None or horizon < self.begun or not self.placing.counts["met"]:
            return
        if not self.has_met_running:
            self.meet_running()
        lives = [life for life in self.lives if is_end or life.due_at <= horizon]
        self.evictions.take_events_alone(lives, horizon)
        for life in lives:
            life.resolve(horizon, self.placing)
        self.endings.take_statuses(lives, horizon, is_end)
        for life in lives:
            life.settle(horizon, is_end, self.placing)
        before = float("inf") if is_end else int(horizon) - LATE_SECONDS
        self.placing.doubt(self.lives, before)
        yield from self.placing.due(before)
        if self.now - self.forgot_at >= FORGET_SECONDS:
            self.forgot_at = self.now
            self.forget(horizon)

    def note_silence(self, fact: facts.Fact) -> None:
        """A time before a fact in which the kubelet wrote nothing is a hole if its rounds show that, and if no line
        shows that it was started again."""
        silence = self.placing.silences.take(fact)
        if silence is None or not silence.is_hole:
            return
        is_anew = isinstance(fact, facts.Begun) or (isinstance(fact, facts.Process)
                                                    and self.process not in (None, fact.process))
        if not is_anew:
            self.pause()
            self.placing.hole(silence.since, silence.until)

    # --- the node ---

    def on_process(self, fact: facts.Process) -> None:
        if fact.node and self.node is None:
            self.node = fact.node
        if self.process is not None and fact.process != self.process:
            self.restart(fact.at)
            self.started_at = fact.at
            self.thresholds.begin(fact.at)
            self.evictions.end_round()
        self.process = fact.process

    def on_begun(self, fact: facts.Begun) -> None:
        """A process of the kubelet begins, which may have the number of the one before, as in a container."""
        if self.started_at is None or fact.at - self.started_at > AGAIN_SECONDS:
            if self.has_turned:
                self.restart(fact.at)
        self.started_at = fact.at

    def restart(self, at: float) -> None:
        """Another process of the kubelet begins."""
        self.placing.count(RESTARTS)
        self.placing.gap(self.before, at)
        self.placing.started.append(int(at))
        self.say(f"{stamp(at)}: the kubelet was restarted; what happened shortly before is not known")

    def on_node(self, fact: facts.NodeName) -> None:
        self.node = fact.name

    def on_missing(self, fact: facts.Missing) -> None:
        """Lines are missing in a journal; where another one has some of the kubelet's there, it has them all."""
        if fact.since is not None and (self.placing.silences.newest or 0.0) > fact.since + FILLED_SECONDS:
            self.placing.count(FILLED)
            return
        self.placing.count("places where lines are missing")
        self.pause()
        self.placing.gap(self.before, fact.at)

    def pause(self) -> None:
        """Lines are missing: what they would show of the rounds before is not known."""
        self.thresholds.pause()
        self.evictions.end_round()

    def on_turned_back(self, fact: facts.TurnedBack) -> None:
        self.pause()
        self.placing.gap(self.before, fact.at, fact.seconds)
        self.placing.count(TURNS)
        self.say(f"{stamp(fact.at - fact.seconds)}: the clock went back by {fact.seconds} s")

    def on_observed(self, fact: facts.Observed) -> None:
        """A round reports first that it begins, and then, within less than a second, what it finds. One tick has all of
        that, with the moment of the first observation. A round that finds nothing evaluates no threshold."""
        if fact.signal is None:
            self.thresholds.end_round()
            self.evictions.end_round()
        if fact.signal is None or fact.available is None:
            return
        if fact.signal in self.thresholds.round.signals or fact.at - self.thresholds.round.at > ROUND_SECONDS:
            self.thresholds.end_round()
            self.thresholds.round = Round(fact.at)
        self.thresholds.round.signals.add(fact.signal)
        self.placing.count("observations")
        self.placing.sample(self.thresholds.round.at, fact.signal, fact.available)
        if fact.capacity is not None:
            self.capacity[fact.signal] = fact.capacity

    def on_evicted(self, fact: facts.Evicted) -> None:
        life = self.known_life(fact.pod) or self.life_of(fact.pod, fact.at)
        if life is None:
            return
        if fact.is_cleaned_up:
            life.cleaned_at = fact.at if life.cleaned_at is None else life.cleaned_at
        else:
            self.evictions.take_evicted(life, fact.at)

    def on_refused(self, fact: facts.Refused) -> None:
        life = self.life_of(fact.pod, fact.at)
        if life is None or life.is_refused:
            return
        life.is_refused = True
        message = f"The node had condition: [{fact.conditions}]. "
        self.placing.count("pods refused")
        refused = life.pod_refused(Decision(REFUSED, fact.at, EVICTION, message))
        self.placing.timeline.place_decision(refused, fact.at, None)

    def on_ended(self, fact: facts.Ended) -> None:
        """The kubelet ended a pod for a reason of its own, or did not admit it."""
        life = self.life_of(fact.pod, fact.at)
        if life is not None:
            self.endings.take(life, fact)

    def on_readied(self, fact: facts.Readied) -> None:
        """A status has the condition Ready. It turns where no probe failed too: a kubelet that was started takes a pod
        with a readiness probe for unready until that has passed."""
        life = self.known_life(fact.pod)
        turn = None if life is None else life.ready_turned(fact)
        if life is not None and turn is not None:
            self.placing.put_beside(life.key, min(turn["at"], int(fact.at)), READY_TURNS, turn)

    def on_node_ready(self, fact: facts.NodeReady) -> None:
        """The node turned Ready, or is not."""
        self.placing.timeline.place_ready(fact.at, Ready("True" if fact.is_ready else "False", fact.reason or None,
                                                         fact.at))

    def pod_of_line(self, pod: facts.Reference) -> facts.Reference:
        """A pod that a line of the kubelet's has by its uid alone, with the name that its manifest has."""
        known = self.manifests.by_uid.get(pod.uid or "") if pod.key is None else None
        return pod if known is None else facts.Reference(known.key, pod.uid)

    def on_happened(self, fact: facts.Happened) -> None:
        """An Event has more of what a line reports."""
        life = self.life_of(self.pod_of_line(fact.pod), fact.at) if fact.is_line else self.known_life(fact.pod)
        if life is None or (fact.is_line and self.happened.get((life.key, "", fact.reason)) == fact.message):
            return
        self.placing.count("events")
        if fact.reason in TOLD:
            self.say_event(life.key, fact)
        if fact.reason == EVICTION:
            self.evictions.take_event(life, fact)
        self.endings.take_event(life, fact)

    def say_event(self, key: str, fact: facts.Happened) -> None:
        """Places an Event whose message is not the one before for its reason."""
        place, message = (key, fact.container or "", fact.reason), message_kept(fact.reason, fact.message)
        if self.happened.get(place) != fact.message:
            is_left_out = message is None and bool(fact.message.strip())
            self.placing.say(key, fact.at, without_nones({
                "container": fact.container, "reason": fact.reason, "count": fact.count if fact.count > 1 else None,
                "message": message, "messageLeftOut": is_left_out or None}))
        self.happened[place] = fact.message


def refuse_strangers(importer: Importer) -> None:
    """Rejects manifests of which none is of a pod of the journal."""
    has_manifests = bool(importer.manifests.by_key or importer.manifests.owners)
    met = importer.placing.counts["met"]
    if has_manifests and met and not importer.placing.counts[WITH_MANIFEST]:
        raise entry.Fault(f"none of the {entry.counted(met, 'pod')} of the journal is among the manifests: they are of "
                          "another cluster, or of another time", Status.FAILED)
