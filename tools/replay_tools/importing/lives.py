"""One pod of a journal, and how what is known of it is placed on the seconds of a trace once it is settled."""

from __future__ import annotations

import bisect
import functools
from collections.abc import Iterable, Iterator
from dataclasses import replace
from typing import Optional, TYPE_CHECKING

from replay_tools.record import pods as recorded
from replay_tools.record.formats import without_nones
from replay_tools.record.probes import PROBES, Result
from replay_tools.record.reasons import reason_of
from replay_tools.record.runtime import EXITED, LOST_CODE, RUNNING, Change, Listing

from . import marks
from .accounts import IN_ORDER, LOOK_SECONDS, ORDER, Account, Item
from .chains import UNNAMED
from .outputs import why_killed
from .placing import NAMED_LATE, PROBED, UNKNOWN_PHASES
from .probing import FAILURE, SUCCESS, Probing

if TYPE_CHECKING:
    from replay_tools.record.reasons import Reason

    from .chains import Chain, Instance
    from .placing import Placing

STARTUP, LIVENESS, READINESS = PROBES
# a container that has failed is reported to wait, or starts again, within so many seconds
LEFT_SECONDS = 15.0
# of a moment in whole seconds as a status has it
WHOLE = 0.999
# a start that comes so soon after an exit is of the same second
AFTER = 0.0001
# due each time that what is settled is placed, and since a line spoke of it
ALWAYS, HEARD = 0.0, -1.0
# so many lists of containers are kept, as many pods have the same
MOST_KEPT = 1000


class ByItself(Change):
    """An exit that the kubelet did not order: what it shows has a moment between it and the next start."""

    @property
    def is_out_of_memory(self) -> bool:
        return True


def merged(spans: Iterable[tuple[float, float]]) -> list[tuple[float, float]]:
    """Times without overlaps, in order."""
    found: list[tuple[float, float]] = []
    for since, until in sorted(spans):
        if found and since <= found[-1][1]:
            found[-1] = found[-1][0], max(found[-1][1], until)
        else:
            found.append((since, until))
    return found


@functools.lru_cache(MOST_KEPT)
def pod_with(names: tuple[str, ...]) -> recorded.Pod:
    """A pod with containers of these names, of which nothing else is known."""
    return recorded.pod_of({"metadata": {"namespace": "default", "name": "pod"},
                            "spec": {"containers": [{"name": each} for each in names]}})


class Life(Account):
    """One pod, from its first line to its last, as a trace has it."""

    def __init__(self, number: int, key: str, uid: Optional[str], at: float) -> None:
        super().__init__(number, key, uid, at)
        self.probings: dict[tuple[str, str], Probing] = {}
        # of what is placed now and waits to be: the first result of each probe, and the times without a success
        self.first_results: dict[tuple[str, str], float] = {}
        self.without: dict[tuple[str, str], list[tuple[float, float]]] = {}
        # what is placed now
        self.placed: list[Item] = []
        self.waits: dict[str, Reason] = {}
        self.attempts: dict[str, int] = {}
        # the codes of the newest exits, None where one is not known
        self.codes: dict[str, Optional[int]] = {}
        self.started: dict[str, float] = {}
        # the second of its line, and that from which on its containers change
        self.arrived: Optional[int] = None
        self.changes_from = 0
        self.is_deleting = False
        self.is_over = False
        self.is_refused = False
        # whether it was unknown after a gap what it does
        self.is_doubted = False
        # from when on something of it is to be placed, as far as lines show by now
        self.due_at = HEARD
        # whether its manifest was made of lines, and the names of containers that lines have only after its own
        self.is_made = False
        self.named_late: dict[str, str] = {}

    # --- what is placed ---

    def settle(self, horizon: float, is_end: bool, placing: Placing) -> None:
        """Places all that happened up to a moment, after which there may be no line any more."""
        if self.is_over or self.is_refused:
            return
        if self.added_at <= horizon:
            self.place_up_to(horizon, is_end, placing)
        # lines of a pod come in bursts: what they make due is looked for when they pause
        self.due_at = ALWAYS if self.due_at == HEARD else self.next_due(placing)

    def place_up_to(self, horizon: float, is_end: bool, placing: Placing) -> None:
        pod = self.pod if self.arrived is not None else self.arrive(placing)
        if pod is None:
            self.is_over = self.removed_at is not None and self.removed_at <= horizon
            return
        leaves_at = self.leaves_at()
        until = horizon if leaves_at is None else min(horizon, leaves_at)
        self.placed = self.items(until)
        self.foresee(pod, placing)
        for item in self.placed:
            self.place(pod, item, placing)
        self.place_silent(pod, None, until, placing)
        self.decide(pod, horizon, is_end, placing)
        self.leave(pod, horizon, placing)

    def next_due(self, placing: Placing) -> float:
        """The moment from which something of it is to be placed. Until then only a line about it changes it."""
        is_replaced = self.replaced_at is not None and not self.is_end_told()
        if is_replaced or any(chain.is_open() for chain in self.instances.chains):
            return ALWAYS
        if self.arrived is None:
            return self.added_at
        found = [item.at for item in self.pending]
        found += [at for chain in self.instances.chains for at in chain.unplaced()]
        found += [probing.due_silent() for (_, probe), probing in self.probings.items() if placing.is_silent(probe)]
        if self.decision is not None and not self.is_decided:
            found.append(self.settled_from(self.decision))
        elif self.decision is None and self.evicting is not None:
            found.append(self.evicting[0])
        found += [at for at in (self.leaves_at(), None if self.is_deleting else self.deleted_at) if at is not None]
        return min(found, default=float("inf"))

    def resolve(self, horizon: float, placing: Placing) -> None:
        """Finds the containers of its instances, and ends what no line ends: an instance whose container waits or
        starts again, in a hole of the journal if there is one; and the pod where another one has its name."""
        if self.is_over or self.is_refused:
            return
        is_ending = self.replaced_at is not None or self.is_end_told()
        self.instances.resolve(self.pod, self.added_at, self.is_listed, is_ending)
        is_open = any(chain.is_open() for chain in self.instances.chains)
        if is_open:
            for instance, heard_at, start in self.instances.in_holes():
                instance.gone = placing.hole_between(heard_at, start)
                instance.is_lost = instance.gone is not None
            self.instances.untangle()
        self.instances.lose(horizon)
        if is_open:
            self.instances.see_starts_that_failed()
        if self.replaced_at is not None and not self.is_end_told():
            self.removed_at = placing.hole_between(self.heard_at, self.replaced_at)

    def is_end_told(self) -> bool:
        """Whether a line reports that the pod goes, or that the kubelet ended it."""
        return self.decision is not None or any(at is not None for at in (
            self.deleted_at, self.removed_at, self.cleaned_at))

    def arrive(self, placing: Placing) -> Optional[recorded.Pod]:
        """Its line, with a manifest, or with the containers that lines name where there is none; None where it has no
        line yet, or no room, or where all that is known of it is that it goes: then it had ended before."""
        found = self.pod if self.pod is not None else self.made_pod()
        has_ended = self.deleted_at is not None and not self.is_listed and not self.instances.by_id
        if found is None or has_ended:
            return None
        if placing.is_there(self.key):
            return None
        if not placing.has_room(self):
            self.is_refused = True
            return None
        pod = self.pod = found if self.is_made else replace(found, uid=self.known_uid(), decision=None)
        self.arrived = self.changes_from = placing.arrive(self, pod)
        for container in pod.containers():
            for probe in PROBES:
                if pod.has_probe(container, probe):
                    self.probings[container, probe] = Probing(
                        probe, pod.period(container, probe), pod.initial_delay(container, probe),
                        pod.successes_wanted(container, probe))
        if self.probings:
            placing.count(PROBED)
        return pod

    def made_pod(self) -> Optional[recorded.Pod]:
        """A pod of the containers that lines name; None while they name none."""
        names = list(dict.fromkeys([*self.instances.names, *(str(chain.name) for chain in self.instances.chains)]))
        if not names:
            return None
        namespace, _, name = self.key.partition("/")
        self.is_template = self.is_made = True
        like = pod_with(tuple(names))
        manifest = {**like.manifest, "metadata": {"name": name, "namespace": namespace}}
        return replace(like, key=self.key, uid=self.known_uid(), manifest=manifest)

    def placed_name(self, name: str, at: float, placing: Placing) -> str:
        """The name that a container has in the pod's line. One that lines name only later, of a pod without a manifest,
        is the first there that had no name."""
        if not self.is_made or self.pod is None or name in self.pod.containers():
            return name
        if name not in self.named_late:
            free = [each for each in self.pod.containers()
                    if each.startswith(UNNAMED) and each not in self.named_late.values()]
            if not free:
                return name
            self.named_late[name] = free[0]
            placing.count(NAMED_LATE, f"{self.key} {name}")
            placing.say(self.key, at, {"container": free[0], "reason": "Named", "message": name})
        return self.named_late[name]

    def items(self, horizon: float) -> list[Item]:
        """What happened up to a moment and is not placed yet, in order."""
        self.hold_waits()
        found = [item for item in self.pending if item.at <= horizon]
        self.pending = [item for item in self.pending if item.at > horizon]
        for chain in self.instances.chains:
            found += self.items_of(chain, horizon)
        return sorted(found, key=IN_ORDER)

    def hold_waits(self) -> None:
        """A line may report that a container waits before the poll that finds its exit: it waits from that exit on."""
        chains = {chain.name: chain for chain in self.instances.chains}
        for item in self.pending:
            chain = chains.get(next(iter(item.value))) if item.what == "wait" and item.value else None
            if chain is not None:
                item.at = max(item.at, chain.end_of_running(item.at))

    def items_of(self, chain: Chain, horizon: float) -> Iterator[Item]:
        """The starts and exits of a container: each exit before the next start."""
        latest = 0.0
        for instance, after in zip(chain.instances, [*chain.instances[1:], None]):
            begin, end = instance.begin, instance.end
            if begin is None or begin > horizon:
                return
            if end is not None and after is not None and end > (after.begin or end):
                # its exit was found late, or another one is taken for it
                end, instance.is_lost = max((after.begin or end) - AFTER, begin), True
            latest = max(latest + AFTER, begin)
            if instance.written is None and not instance.never_ran:
                yield Item(latest, ORDER["start"], 0, "start", (chain, instance))
            if end is None or end > horizon:
                continue
            upper = end if instance.gone is None else max(min(end + WHOLE, instance.gone), end)
            latest = max(latest + AFTER, upper if instance.finished is not None and end == int(end) else end)
            if not instance.has_ended:
                yield Item(latest, ORDER["exit"], 0, "exit", (chain, instance))

    def place(self, pod: recorded.Pod, item: Item, placing: Placing) -> None:
        if item.what == "wait":
            self.waits = {**self.waits, **item.value}
            placing.timeline.place_waits(pod, item.at, self.waits)
        elif item.what == "kill":
            self.place_kill(item.at, item.value[0], item.value[1], placing)
        elif item.what == "result":
            self.place_result(pod, item.at, item.value, placing)
        else:
            chain, instance = item.value
            self.place_silent(pod, chain.name, item.at, placing)
            if item.what == "start":
                self.place_start(pod, chain, instance, placing)
            else:
                self.place_exit(pod, chain, instance, placing)

    def place_kill(self, at: float, instance: Instance, grace: int, placing: Placing) -> None:
        """The kubelet ends an instance, in a second of its own. An instance that has exited already has no kill."""
        if not instance.is_killed:
            return
        said = None if instance.killing is None else why_killed(instance.killing.why)
        is_deleted = self.deleted_at is not None and self.deleted_at <= at
        placing.say(self.key, at, without_nones({
            "container": instance.name, "reason": "Killing", "why": said or ("pod deleted" if is_deleted else None),
            "grace": grace}))
        placing.timeline.place_look(at)

    def place_start(self, pod: recorded.Pod, chain: Chain, instance: Instance, placing: Placing) -> None:
        name = str(chain.name)
        if name not in pod.containers():
            placing.count("containers that no manifest has", f"{self.key} {name}")
            instance.written = 0
            return
        attempt = self.begin_attempt(name, instance, placing)
        moment = max(instance.begin or 0, self.arrived or 0)
        placing.timeline.place_container(pod, name, [Change(moment, Listing(attempt, RUNNING))], [], self.changes_from)
        instance.started_in = placing.timeline.listed_in(pod, name) or 0
        self.started[name] = moment
        # until startup has passed no other probe comes
        first = (STARTUP,) if (name, STARTUP) in self.probings else PROBES
        self.end_probes(name)
        self.begin_probes(name, first, instance.seen or moment)

    def begin_attempt(self, name: str, instance: Instance, placing: Placing) -> int:
        """Gives an instance its number, and notes what of it was guessed."""
        attempt = max(self.attempts.get(name, -1) + 1, instance.attempt or 0)
        self.attempts[name] = instance.written = attempt
        placing.mark(self, name, attempt, [marks.MOMENT] if instance.started is None or instance.is_met else [],
                     [marks.CONTAINER] if instance.is_found else [])
        return attempt

    def begin_probes(self, name: str, probes: tuple[str, ...], seen: float) -> None:
        """Probes of an instance that runs come from a moment on, also where a journal does not have its start."""
        for (container, probe), probing in self.probings.items():
            if container == name and probe in probes:
                probing.start(self.started.get(name, seen), seen)

    def place_exit(self, pod: recorded.Pod, chain: Chain, instance: Instance, placing: Placing) -> None:
        name = str(chain.name)
        instance.has_ended = True
        if instance.never_ran and name in pod.containers():
            self.begin_attempt(name, instance, placing)
        if name not in pod.containers() or instance.written is None:
            return
        code, is_guessed = self.code_of(pod, chain, instance, placing)
        placing.mark(self, name, instance.written, [marks.CODE] if is_guessed else [],
                     [marks.EXIT] if instance.is_lost else [] if instance.finished is not None else [marks.MOMENT])
        placing.count("exits without their code" if is_guessed else "exits with their code")
        reason = None if instance.reason is None else reason_of({"reason": instance.reason})
        listing = Listing(instance.written, EXITED, code, reason)
        # what starts again in the same second has its exit in the tick of that start
        is_by_itself = is_guessed and not instance.is_killed and not instance.is_lost
        make = ByItself if is_by_itself else Change
        placing.timeline.place_container(pod, name, [make(instance.end or 0, listing)], [], self.changes_from)
        instance.ended_in = placing.timeline.listed_in(pod, name) or 0
        self.end_probes(name)
        self.codes[name] = None if is_guessed else code
        if not pod.restarting[name].wants(code):
            self.mark_phase(pod, instance.ended_in, placing)

    def mark_phase(self, pod: recorded.Pod, second: int, placing: Placing) -> None:
        """Of a pod that is not started again, and of which no container has a known code that makes it failed, the
        phase is not known where a code is not."""
        apps = {name: decides for name, decides in pod.restarting.items() if not decides.is_init}
        is_left = not any(decides.wants(0) or decides.wants(LOST_CODE) for decides in apps.values())
        if is_left and not any(code for code in self.codes.values()) and self.decision is None \
                and all(name in self.codes for name in apps) and any(self.codes[name] is None for name in apps):
            placing.put_beside(self.key, second, marks.PHASE, None)
            placing.count(UNKNOWN_PHASES, self.key)

    def end_probes(self, name: str) -> None:
        for (container, _), probing in self.probings.items():
            if container == name:
                probing.end()

    def code_of(self, pod: recorded.Pod, chain: Chain, instance: Instance, placing: Placing) -> tuple[int, bool]:
        """The code of an exit, and whether it is guessed. A guessed code is 0 if what came after it shows that, else
        the code of a lost instance, which the rules take as a failure; or a code after which a rule restarts it, as it
        was."""
        if instance.code is not None:
            return instance.code, False
        has_next = chain.newest is not instance
        names, decides = pod.containers(), pod.restarting[str(chain.name)]
        place = names.index(str(chain.name))
        is_passed = decides.is_init and any(
            names.index(str(other.name)) > place for other in self.instances.chains
            if other.name in names and (other.newest.seen or 0) >= (instance.gone or 0))
        is_left_so = decides.wants(LOST_CODE) and not decides.wants(0) and not decides.is_init \
            and self.is_left(chain, instance, placing)
        is_success = not has_next and (is_passed or is_left_so) and not instance.is_killed
        if has_next and not decides.wants(LOST_CODE):
            return decides.restarted_code(LOST_CODE), True
        return (0 if is_success else LOST_CODE), True

    def is_left(self, chain: Chain, instance: Instance, placing: Placing) -> bool:
        """Whether an exit of a container that is started again where it failed was left as it is, so that it did not:
        no line shows by then that it waits."""
        end = instance.end or 0.0
        is_going = any(at is not None and at <= end + LOOK_SECONDS for at in (
            self.deleted_at, None if self.decision is None else self.decision.moment))
        return not is_going and placing.now - end >= LEFT_SECONDS and not self.instances.hints.has_wait(
            str(chain.name), end - LOOK_SECONDS)

    # --- probes ---

    def place_result(self, pod: recorded.Pod, at: float, result: tuple[str, str, str], placing: Placing) -> None:
        """A result that a line has, after the results without one."""
        container, probe, found = result
        probing = self.probings.get((container, probe))
        if probing is None:
            return
        self.place_silent(pod, container, at, placing)
        if probing.take(found, at):
            self.place_results(pod, container, iter([Result(at, probe, found)]), placing)

    def place_silent(self, pod: recorded.Pod, name: Optional[str], until: float, placing: Placing) -> None:
        """The successes that have no line, of one container or of all, up to a moment: those whose line would come
        before it, though late."""
        for (container, probe), probing in self.probings.items():
            if name in (None, container) and placing.is_silent(probe):
                self.set_phase(container, probe, probing)
                found = probing.silent(until - probing.period / 2, self.without.get((container, probe), []))
                self.place_results(pod, container, found, placing)

    def foresee(self, pod: recorded.Pod, placing: Placing) -> None:
        """What is placed now and waits to be placed has of each probe: its first result, and the times in which none
        was a success: gaps, and from the first of the failures for which the kubelet ends an instance up to the line
        that reports it, since on a busy node results come late."""
        found: dict[tuple[str, str], list[float]] = {}
        self.first_results = {}
        if not self.probings:
            return
        for item in (*self.placed, *self.pending):
            if item.what == "result":
                place = item.value[:2]
                self.first_results.setdefault(place, item.at)
                if item.value[2] == FAILURE:
                    found.setdefault(place, []).append(item.at)
        self.without = {(name, probe): merged([*placing.timeline.gaps, *self.failing(pod, name, probe, sorted(
            {*found.get((name, probe), ()), *probing.failures}))]) for (name, probe), probing in self.probings.items()}

    def failing(self, pod: recorded.Pod, name: str, probe: str, failures: list[float]) -> Iterator[tuple[float, float]]:
        """From the first of the failures that each kill by a probe took up to that kill."""
        wanted = pod.failures_wanted(name, probe)
        for chain in [each for each in self.instances.chains if each.name == name and failures]:
            for killing in [each.killing for each in chain.instances if each.killing is not None]:
                place = bisect.bisect_right(failures, killing.at)
                if place > 0 and why_killed(killing.why) == probe:
                    yield failures[max(place - wanted, 0)], killing.at

    def set_phase(self, container: str, probe: str, probing: Probing) -> None:
        """A probe comes at a period of its own, which the next line that it has shows too."""
        later = self.first_results.get((container, probe)) if probing.phase is None else None
        if later is not None:
            probing.phase = later
            if probing.due is not None:
                probing.due = probing.first_behind(probing.due - probing.period / 2)

    def place_results(self, pod: recorded.Pod, container: str, results: Iterator[Result], placing: Placing) -> None:
        for result in results:
            placing.timeline.place_container(pod, container, [], [result], self.changes_from)
            if result.probe == STARTUP and result.result == SUCCESS:
                self.begin_probes(container, (LIVENESS, READINESS), result.moment)

    # --- its end ---

    def decide(self, pod: recorded.Pod, horizon: float, is_end: bool, placing: Placing) -> None:
        """The kubelet ordered it to go, or evicted it."""
        if self.deleted_at is not None and self.deleted_at <= horizon and not self.is_deleting:
            self.is_deleting = True
            moment = max(self.deleted_at, float(self.arrived or 0))
            placing.timeline.place_deletion(pod, moment)
            placing.timeline.place_look(moment)
        if self.decision is None or self.is_decided or not (is_end or self.is_settled(self.decision, horizon)):
            return
        self.is_decided = True
        decision = replace(self.decision, moment=self.moment_of(self.decision))
        self.changes_from = placing.decide(self, pod, decision) + 1

    def leave(self, pod: recorded.Pod, horizon: float, placing: Placing) -> None:
        at = self.leaves_at()
        if at is not None and at <= horizon:
            self.is_over = True
            placing.depart(pod, max(at, float(self.changes_from)))
