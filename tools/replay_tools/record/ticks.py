"""Puts what happened on the seconds of a trace.

A tick lists one instance of a container and one result of a probe, and the moments of ticks rise by whole seconds. So
what happened is at the second of its moment, with all else of that second, or at the first later one at which the
formats read it as it was: a start before its exit, a result before the exit that it led to, a startup's result before
the others, and each result of one probe at a second of its own.

A success after as many as its probe needs changes nothing, so it needs no tick: the next one has it, once."""

from __future__ import annotations

from dataclasses import dataclass, field
from typing import Any, Optional, TYPE_CHECKING

from .decisions import ENDED, EVICTED, Told
from .formats import MOST_PODS
from .runtime import CREATED, Change
from .weaving import is_seamless, keeping, without_seamless_exits, woven

if TYPE_CHECKING:
    from .decisions import Decision
    from .events import Ready, Said
    from .lines import Format
    from .pods import Pod
    from .probes import Result
    from .reasons import Reason
    from .seen import Recorded
    from .statuses import Beside, ReadyTurn
    from .summary import Used

# a start that had to come later must not bring a result before the probe's initial delay
ROUNDING_SECONDS = 2


@dataclass
class Tick:
    """What changes at one second; it is written as a tick if it is needed, else with the next one. `is_judged` is
    whether it is a round of the kubelet's eviction manager."""
    is_wanted: bool = False
    is_judged: bool = False
    arrivals: list = field(default_factory=list)
    listings: dict = field(default_factory=dict)
    results: dict = field(default_factory=dict)
    usages: dict = field(default_factory=dict)
    unsampled: set = field(default_factory=set)
    deleted: dict = field(default_factory=dict)
    failed: dict = field(default_factory=dict)
    ends: list = field(default_factory=list)
    waits: dict = field(default_factory=dict)
    beside: dict = field(default_factory=dict)
    used: dict = field(default_factory=dict)
    throttled: dict = field(default_factory=dict)
    said: dict = field(default_factory=dict)
    signals: dict = field(default_factory=dict)
    ready: Optional[Ready] = None
    started: Optional[int] = None
    turns: dict = field(default_factory=dict)
    conditions: dict = field(default_factory=dict)
    resized: dict = field(default_factory=dict)
    decisions: list = field(default_factory=list)
    departures: list = field(default_factory=list)

    def forget(self, uid: str) -> None:
        """The other members of a pod that has gone by then are no more."""
        of_pods: dict
        for of_pods in (self.usages, self.deleted, self.failed, self.waits, self.beside, self.said, self.turns,
                        self.conditions, self.resized):
            of_pods.pop(uid, None)
        for of_pods in (self.used, self.throttled):
            for place in [place for place in of_pods if place[0] == uid]:
                del of_pods[place]
        self.unsampled.discard(uid)


class Ticks:
    """The ticks that are not written yet, and where the newest of each kind was placed."""

    def __init__(self, trace_format: Format) -> None:
        self.format = trace_format
        self.ticks: dict[int, Tick] = {}
        self.next_second: float = 0
        # the second of the last tick that is needed
        self.latest = float("-inf")
        self.last_placed: dict[tuple[str, ...], int] = {}
        self.successes: dict[tuple[str, ...], Any] = {}
        # how many pods have come
        self.arrived = 0
        # the second of the last eviction that has a place
        self.evicted_last: int | None = None

    def tick(self, second: int, is_wanted: bool) -> Tick:
        tick = self.ticks.setdefault(second, Tick())
        if is_wanted:
            tick.is_wanted = True
            self.latest = max(self.latest, second)
        return tick

    def second_of(self, moment: float, *after: Any) -> int:
        """The first second that can still be written, at or after a moment and all the seconds given."""
        return max([int(moment), self.next_second, *after])

    # --- what is placed ---

    def place_look(self, moment: float) -> None:
        """A tick that is needed where nothing happened."""
        self.tick(self.second_of(moment), True)

    def place_arrival(self, pod: Pod, moment: float) -> int:
        second = self.second_of(moment)
        self.tick(second, True).arrivals.append(pod)
        self.arrived += 1
        return second

    def has_room(self) -> bool:
        """Whether the trace can have one more pod."""
        return self.arrived < MOST_PODS

    def place_departure(self, pod: Pod, moment: float) -> int:
        """A pod goes, after all that happened in it; the second after which it is no more."""
        # if no line shows it, the pod is in no tick of that second any more
        behind = 0 if self.format.says_gone else 1
        last = [second + behind for (uid, *_), second in self.last_placed.items() if uid == pod.uid]
        second = self.second_of(moment, *last)
        self.tick(second, True).departures.append(pod)
        for later in (tick for at, tick in self.ticks.items() if at > second):
            later.forget(pod.uid)
        return second

    def place_decision(self, pod: Pod, moment: float, recorded: Recorded | None) -> int:
        """What the kubelet did to a pod, which is recorded or left out; the second of its tick."""
        second = self.second_of(moment, *([] if recorded is None else [recorded.arrived]))
        tick = self.tick(second, True)
        if pod.decision is not None:
            tick.decisions.append(Told(pod, pod.decision, second, recorded is None))
            self.evicted_last = second if pod.decision.kind == EVICTED else self.evicted_last
        return second

    def place_past_decision(self, pod: Pod, decision: Decision, at: int, moment: float) -> None:
        """What the kubelet did to a pod that is left out, in a second before this moment, whose tick has it."""
        second = self.second_of(moment)
        self.tick(second, True).decisions.append(Told(pod, decision, min(at, second), True))

    def place_signal(self, moment: float, signal: str, value: Any, is_wanted: bool) -> None:
        """A sample of what the node has left, or None where it has no value from then on."""
        second = self.second_of(moment, self.last_placed.get(("signal", signal), 0))
        self.tick(second, is_wanted).signals[signal] = value
        self.last_placed["signal", signal] = second

    def place_round(self, moment: float) -> None:
        """The kubelet has evaluated its thresholds by a sample of this moment, whose tick shows that."""
        self.tick(self.second_of(moment), True).is_judged = True

    def place_waits(self, pod: Pod, moment: float, waits: dict[str, Reason], is_short: bool = False) -> None:
        """Why the containers of a pod wait from a moment on; that needs no tick, but where it may be over soon."""
        self.tick(self.second_of(moment), is_short and self.format.says_gone).waits[pod.uid] = waits

    def place_beside(self, pod: Pod, moment: float, beside: Beside) -> None:
        """What else a pod's object reports from a moment on; that needs no tick."""
        self.tick(self.second_of(moment), False).beside[pod.uid] = beside

    def place_ready(self, moment: float, ready: Ready) -> None:
        """Whether the node is Ready from a moment on."""
        self.tick(self.second_of(moment), True).ready = ready

    def place_start(self, moment: float) -> None:
        """The kubelet was started again at a moment."""
        self.tick(self.second_of(moment), True).started = int(moment)

    def place_turn(self, pod: Pod, turn: ReadyTurn, arrived: int) -> None:
        """The condition Ready of a pod's status has turned, which is in the first tick from then on."""
        self.tick(self.second_of(turn.at, arrived), False).turns.setdefault(pod.uid, []).append(turn)

    def place_condition(self, pod: Pod, name: str, moment: float, is_true: bool, arrived: int) -> None:
        """The condition of a readiness gate has this status from a moment on, in no tick before its last one."""
        second = self.second_of(moment, arrived, self.last_placed.get((pod.uid, name, "condition"), 0))
        self.tick(second, True).conditions.setdefault(pod.uid, {})[name] = is_true
        self.last_placed[pod.uid, name, "condition"] = second

    def place_resize(self, pod: Pod, container: str, moment: float, resources: dict[str, Any], arrived: int) -> None:
        """A container has these requests and limits from a moment on. The tick that shows it has this moment."""
        self.tick(self.second_of(moment, arrived), True).resized.setdefault(pod.uid, {})[container] = resources

    def place_said(self, pod: Pod, moment: float, said: Said) -> None:
        """What was reported of a pod, which is in the first tick from then on."""
        self.tick(self.second_of(moment), False).said.setdefault(pod.uid, []).append(said)

    def place_used(self, pod: Pod, container: str, used: Used, arrived: int) -> None:
        """What a container used at a moment; that needs no tick."""
        self.tick(self.second_of(used.moment, arrived), False).used[pod.uid, container] = used

    def place_throttled(self, pod: Pod, container: str, moment: float, value: int, arrived: int) -> None:
        """For how long a container was throttled by a moment; that needs no tick."""
        self.tick(self.second_of(moment, arrived), False).throttled[pod.uid, container] = moment, value

    def place_usage(self, pod: Pod, moment: float, resource: str, value: Any) -> None:
        tick = self.tick(self.second_of(moment), False)
        tick.usages.setdefault(pod.uid, {})[resource] = value
        tick.unsampled.discard(pod.uid)

    def place_unsampled(self, pod: Pod, moment: float) -> None:
        """From this moment on a pod has no sample, until one comes."""
        tick = self.tick(self.second_of(moment), False)
        tick.usages.pop(pod.uid, None)
        tick.unsampled.add(pod.uid)

    def place_deletion(self, pod: Pod, moment: float, deletion: dict[str, Any] | None = None) -> None:
        """From this moment on a pod is being deleted, which is in the first tick that is written then, with what is
        known of that."""
        self.tick(self.second_of(moment), False).deleted[pod.uid] = deletion or {}

    def take_back_deletion(self, pod: Pod) -> bool:
        """A pod is not being deleted after all; whether no line reports so yet."""
        return any([tick.deleted.pop(pod.uid, None) is not None for tick in self.ticks.values()])

    def place_end(self, pod: Pod, second: int, decision: Decision) -> None:
        """The node has ended a pod in a second. What its status has of an eviction is with the kubelet's decision."""
        second = self.second_of(second)
        tick = self.tick(second, True)
        tick.failed[pod.uid] = decision.word
        tick.ends += [Told(pod, decision, second)] if decision.kind == ENDED else []

    def listed_in(self, pod: Pod, container: str) -> int | None:
        """The second in which a container is listed otherwise last; None where it was not placed."""
        return self.last_placed.get((pod.uid, container, "listing"))

    def place_container(self, pod: Pod, container: str, changes: list[Change], results: list[Result],
                        arrived: int) -> None:
        """What happened to one container of a pod that arrived at a second."""
        for item in without_seamless_exits(woven(changes, results)):
            if isinstance(item, Change):
                self.place_change(pod, container, item, arrived)
            else:
                self.place_result(pod, container, item, arrived)

    def place_change(self, pod: Pod, container: str, change: Change, arrived: int) -> None:
        """Gives a change its second, in which no other listing of the container is, nor a result from before it."""
        key = pod.uid, container
        change = self.without_exit_before(key, change)
        self.successes = {place: run for place, run in self.successes.items() if place[:2] != key}
        last = [self.last_placed.get((*key, kind), -1) + 1 for kind in ("listing", "startup", "liveness", "readiness")]
        second = self.second_of(change.moment, arrived, *last)
        self.tick(second, not change.is_quiet).listings[key] = change
        # a start in the same second takes the place of what was only made
        if change.listing is None or change.listing.state != CREATED:
            self.last_placed[(*key, "listing")] = second

    def without_exit_before(self, key: tuple[str, str], change: Change) -> Change:
        """The change; an exit that is not written yet goes where its successor's start, known only now, shows it too.
        """
        second = self.last_placed.get((*key, "listing"), -1)
        tick = self.ticks.get(second)
        before = None if tick is None else tick.listings.get(key)
        if tick is not None and before is not None and is_seamless(before, change):
            del tick.listings[key]
            self.last_placed[(*key, "listing")] = second - 1
            return keeping(change, before)
        return change

    def place_result(self, pod: Pod, container: str, result: Result, arrived: int) -> None:
        """Gives a result its second: not before the start of what it was found on, and with no other of its probe."""
        key = pod.uid, container
        listed = self.last_placed.get((*key, "listing"), 0)
        after = [listed, self.last_placed.get((*key, result.probe), -1) + 1]
        if result.probe != "startup":
            after.append(self.last_placed.get((*key, "startup"), -1) + 1)
        may_come = listed + pod.initial_delay(container, result.probe)
        if may_come - result.moment <= ROUNDING_SECONDS:
            after.append(may_come)
        second = self.second_of(result.moment, arrived, *after)
        self.tick(second, not self.is_repeated(pod, key, result)).results[(*key, result.probe)] = result.result
        self.last_placed[(*key, result.probe)] = second

    def is_repeated(self, pod: Pod, key: tuple[str, str], result: Result) -> bool:
        """Whether a result is a success after as many as its probe needs. Each instance begins at none."""
        run = self.successes.get((*key, result.probe), 0) + 1 if result.result == "success" else 0
        self.successes[(*key, result.probe)] = run
        return run > pod.successes_wanted(key[1], result.probe)

    def planned(self) -> int:
        """How many ticks are needed that are not written yet."""
        return sum(tick.is_wanted for tick in self.ticks.values())
