"""The pods of a trace from their coming until they have gone: which of them have a line, and what is reported of
them."""

from __future__ import annotations

from collections.abc import Callable
from dataclasses import replace
from typing import TYPE_CHECKING

from .decisions import EVICTED, REFUSED
from .formats import MOST_PODS
from .gates import turned, types_in
from .resizes import amounts_in, kept_of, resources_in
from .restarts import with_own
from .runtime import EXITED, RUNNING
from .seen import Recorded
from .statuses import turns_between

if TYPE_CHECKING:
    from .containers import Containers
    from .decisions import Decisions
    from .pods import Pod
    from .reasons import Reason
    from .samples import Sampling
    from .seen import Course, Seen
    from .ticks import Ticks

# how long the new pod of a name waits for the containers of the one before to exit
GOING_SECONDS = 30
# so many lists in a row lack a pod that is deleted, while the kubelet was up
ABSENCES = 2
# for these a container waits that has not run yet
INITIAL = ("ContainerCreating", "PodInitializing")
# these last for longer than from one tick to the next, or are reported by other things; others may be over by then
LASTING = (*INITIAL, "CrashLoopBackOff", "ImagePullBackOff")
ANEW = "came again under its name, and is left out from here on"
LEFT_OUT = {EVICTED: "the kubelet had evicted it before it was seen",
            REFUSED: "the kubelet rejected it, so it never ran"}


class Lifecycles:
    """Follows the pods that come, and those that go until their containers have exited; `say` takes what is
    reported."""

    def __init__(self, timeline: Ticks, course: Course, containers: Containers, decisions: Decisions,
                 sampling: Sampling, say: Callable[..., None]) -> None:
        self.timeline = timeline
        self.course = course
        self.containers = containers
        self.decisions = decisions
        self.sampling = sampling
        self.say = say
        self.says_gone = timeline.format.says_gone
        self.recorded: dict[str, Recorded] = {}
        self.left_out: set[str] = set()
        # how many texts of manifests were left out
        self.texts_left_out = 0
        # those that are left out as long as there is no room for them
        self.waiting: set[str] = set()
        # the pods that their source listed last, and when
        self.listed: list[Pod] = []
        self.listed_at: float = 0
        # the pods whose objects showed that they are being deleted
        self.deleted: set[str] = set()
        # when the kubelet was started last
        self.started_at: float = 0
        # the second after which the last pod of a name is no more
        self.gone_at: dict[str, int] = {}

    def followed(self) -> list[Recorded]:
        return [recorded for recorded in self.recorded.values() if recorded.is_followed]

    def uids(self) -> set[str]:
        """The uids of the pods that are there, or whose containers may yet run."""
        return {pod.uid for pod in (*self.listed, *(recorded.pod for recorded in self.followed()))}

    def take(self, seen: Seen) -> None:
        """Takes the pods of a poll: those that are followed first, then those that come."""
        self.started_at = self.started_at if seen.kubelet_started is None else seen.kubelet_started
        if seen.pods is not None:
            self.listed, self.listed_at = seen.pods, seen.moment
            self.deleted |= {pod.uid for pod in seen.pods if pod.is_deleted}
        listed = {pod.uid: pod for pod in self.listed}
        for recorded in self.followed():
            self.follow(recorded, listed.get(recorded.pod.uid), seen)
        for pod in self.listed:
            if self.shows_again(pod):
                del self.recorded[pod.uid]
            if pod.uid not in self.recorded and pod.uid not in self.left_out:
                self.arrive(pod, seen)
            self.decisions.take(pod, self.recorded.get(pod.uid), seen)

    def follow(self, recorded: Recorded, pod: Pod | None, seen: Seen) -> None:
        """What a poll shows of a pod that is there: it as it is listed, or that it is not."""
        if pod is None:
            if self.is_absent(recorded, seen):
                self.see_deletion(recorded, None, seen)
                self.see_going(recorded, None, seen)
            return
        self.take_back(recorded, pod, seen)
        if not recorded.is_followed:
            return
        self.see_status(recorded, pod, seen)
        if pod.is_deleted:
            self.see_deletion(recorded, pod, seen)
        # the status of a pod that was evicted may be written again
        if pod.is_deleted or self.decisions.has(pod):
            self.see_going(recorded, pod, seen)

    # --- a pod comes ---

    def arrive(self, pod: Pod, seen: Seen) -> None:
        """A pod comes: it is recorded, or left out, which is reported once. It waits for the one before it under its
        name to go."""
        reason = self.reason_to_leave_out(pod)
        before = next((each for each in self.followed() if each.pod.key == pod.key), None)
        if before is not None and not self.says_gone:
            self.depart(before, seen)
            reason = reason or ANEW
        if reason is not None:
            self.say(f"{pod.key} {reason}")
            self.left_out.add(pod.uid)
        elif before is None:
            # its first container may have been made in the second in which the one before it went
            moment = max(self.arrival_moment(pod, seen), self.gone_at.get(pod.key, -1) + 1)
            second = self.timeline.place_arrival(pod, moment)
            resources = resources_in(pod.manifest)
            given = {name: amounts_in(found) for name, found in resources.items()}
            self.recorded[pod.uid] = recorded = Recorded(pod, second, second, resources=resources, given=given)
            self.see_waits(recorded, pod.waits, seen)
            self.see_end(recorded, pod, seen)
            self.see_beside(recorded, pod, seen)
            self.see_gates(recorded, pod, seen)
            self.see_ready(recorded, pod, seen)
            self.texts_left_out += pod.beside.left_out
            self.say_lost(pod)

    def say_lost(self, pod: Pod) -> None:
        """Which containers of a pod that comes have policies or rules of restarts that the trace lacks."""
        own = [] if self.says_gone else with_own(pod.manifest)
        for name in own:
            self.say(f"{pod.key} {name}: its own rules of restarts are left out, and it restarts as its pod does")
        for name in set(pod.ruled).difference(own):
            self.say(f"{pod.key} {name}: the rules of restarts that the formats reject are left out")

    def reason_to_leave_out(self, pod: Pod) -> str | None:
        """Why a pod has no line, by what came before; None where it can have one."""
        has_room = self.timeline.has_room()
        if not has_room:
            self.waiting.add(pod.uid)
        if pod.fault is not None:
            return f"is left out: {pod.fault}"
        if not has_room:
            return f"is left out: a trace has at most {MOST_PODS} pods"
        if pod.decision is not None:
            return f"is left out: {LEFT_OUT[pod.decision.kind]}"
        if self.says_gone:
            return None
        was_here = any(each.pod.key == pod.key and not each.is_followed for each in self.recorded.values())
        return ANEW if was_here else None

    def arrival_moment(self, pod: Pod, seen: Seen) -> float:
        """A pod that comes late is there from the moment on at which its first container was made."""
        if self.course.is_first:
            return seen.moment
        created = [each.created / 1e9 for each in (seen.instances or {}).get(pod.uid, []) if each.created]
        return min([seen.moment, *created])

    # --- what its status reports ---

    def see_status(self, recorded: Recorded, pod: Pod, seen: Seen) -> None:
        """What a list of pods shows of one that is followed."""
        if seen.pods is not None:
            self.see_waits(recorded, pod.waits, seen)
        self.decisions.take(pod, recorded, seen)
        self.see_end(recorded, pod, seen)
        self.see_beside(recorded, pod, seen)
        self.see_gates(recorded, pod, seen)
        self.see_resizes(recorded, pod, seen)
        self.see_ready(recorded, pod, seen)

    def see_waits(self, recorded: Recorded, waits: dict[str, Reason], seen: Seen) -> None:
        """Why a pod's containers wait, where that is another than before."""
        if waits == recorded.waits:
            return
        before, recorded.waits = recorded.waits, waits
        for name, wait in waits.items():
            container = recorded.containers.get(name)
            if container is not None and container.newest is not None and wait.word not in INITIAL:
                recorded.waited[name] = container.newest.attempt if wait.behind is None else wait.behind
        short = any(wait.word not in LASTING and wait != before.get(name) for name, wait in waits.items())
        self.timeline.place_waits(recorded.pod, seen.moment, waits, short)

    @staticmethod
    def see_end(recorded: Recorded, pod: Pod, seen: Seen) -> None:
        """The node has ended a pod, which finds its place among what happened to it. Why may be shown later."""
        if pod.ended is None:
            return
        if recorded.ended is None:
            recorded.ended, recorded.ended_at = pod.ended, seen.moment
        elif recorded.ended.is_guessed and not recorded.is_end_placed:
            recorded.ended = pod.ended

    def see_beside(self, recorded: Recorded, pod: Pod, seen: Seen) -> None:
        """What the object reports next to what the formats read, where that is another than before. The extended format
        reads the gates themselves."""
        beside = replace(pod.beside, gates={}) if self.says_gone else pod.beside
        if beside != recorded.beside:
            recorded.beside = beside
            self.timeline.place_beside(recorded.pod, seen.moment, beside)

    def see_gates(self, recorded: Recorded, pod: Pod, seen: Seen) -> None:
        """How the conditions of a pod's readiness gates have turned, each at its own moment. The status of a pod that
        the node has ended may have lost its conditions."""
        if not self.says_gone or pod.ended is not None:
            return
        for name, status in turned(types_in(recorded.pod.manifest), recorded.gates, pod.conditions).items():
            # who sets the condition may have another clock
            moment = seen.moment if status.at is None else min(status.at, seen.end)
            recorded.gates[name] = status.is_true
            self.timeline.place_condition(recorded.pod, name, moment, status.is_true, recorded.arrived)

    def see_resizes(self, recorded: Recorded, pod: Pod, seen: Seen) -> None:
        """Which containers have other requests and limits by their pod's spec than the trace has given them. They no
        longer matter once the node has ended the pod."""
        if not self.says_gone or pod.ended is not None:
            return
        for name, found in resources_in(pod.manifest).items():
            if name not in recorded.resources or found == recorded.resources[name]:
                continue
            recorded.resources[name] = found
            kept, lost = kept_of(found)
            self.texts_left_out += lost
            if kept is None:
                self.say(f"{pod.key} {name}: its requests and limits after a resize are left out: a request is above "
                         "its limit")
            elif amounts_in(kept) != recorded.given[name]:
                recorded.given[name] = amounts_in(kept)
                self.timeline.place_resize(recorded.pod, name, seen.moment, kept, recorded.arrived)

    def see_ready(self, recorded: Recorded, pod: Pod, seen: Seen) -> None:
        """How the condition Ready of its status has turned. The first list that shows it has how it is."""
        recorded.probed = pod.probed
        if not self.says_gone or pod.ready is None or seen.pods is None:
            return
        if pod.ready != recorded.ready:
            unseen_at = max(recorded.seen_at, self.started_at) if self.started_at <= pod.ready.at else recorded.seen_at
            for turn in turns_between(recorded.ready, pod.ready, unseen_at):
                self.timeline.place_turn(recorded.pod, turn, recorded.arrived)
            recorded.ready = pod.ready
        recorded.seen_at = seen.moment

    # --- a pod is listed no more ---

    def is_absent(self, recorded: Recorded, seen: Seen) -> bool:
        """Whether a pod is deleted that is listed no more: its object showed that before, or two lists lack it and its
        containers stop, or another pod has its name."""
        if seen.pods is not None:
            recorded.absences += 1
            recorded.absent_since = seen.moment if recorded.absent_since is None else recorded.absent_since
        if recorded.is_deleting or recorded.pod.uid in self.deleted or self.has_next(recorded.pod):
            return True
        return recorded.absences >= ABSENCES and self.have_stopped(recorded, seen)

    @staticmethod
    def have_stopped(recorded: Recorded, seen: Seen) -> bool:
        """Whether a container of a pod that is absent has exited since, or none of them runs."""
        if seen.instances is None:
            return False
        instances, since = seen.instances.get(recorded.pod.uid, []), recorded.absent_since or 0
        exits = [each.finished for each in instances if each.state == EXITED and each.finished is not None]
        return any(exit_at >= since - 1 for exit_at in exits) or all(each.state != RUNNING for each in instances)

    def take_back(self, recorded: Recorded, pod: Pod, seen: Seen) -> None:
        """A pod that was absent is listed again. Where it was taken for deleted that is taken back: where a line
        reports so, the pod has gone with it, and comes again."""
        recorded.absences, recorded.absent_since = 0, None
        if not (recorded.went_absent and recorded.is_deleting) or pod.is_deleted:
            return
        recorded.is_deleting = recorded.went_absent = False
        recorded.going_since = None
        if not self.timeline.take_back_deletion(recorded.pod):
            self.depart(recorded, seen)
            recorded.went_absent = True

    def shows_again(self, pod: Pod) -> bool:
        """Whether a pod is listed that has gone since lists lacked it."""
        recorded = self.recorded.get(pod.uid)
        return (recorded is not None and not recorded.is_followed and recorded.went_absent and not pod.is_deleted
                and pod.ended is None)

    # --- a pod goes ---

    def see_deletion(self, recorded: Recorded, pod: Pod | None, seen: Seen) -> None:
        """A pod was deleted, or is no longer listed: nothing of it is restarted from then on, which is reported once.
        """
        if self.says_gone and not recorded.is_deleting:
            recorded.is_deleting, recorded.went_absent = True, pod is None and recorded.pod.uid not in self.deleted
            told_at = self.missed_from(recorded, seen) if pod is None else pod.deleted_at
            moment = seen.moment if told_at is None else min(told_at, seen.end)
            deletion = {} if pod is None else pod.deletion
            self.timeline.place_deletion(recorded.pod, max(moment, recorded.arrived), deletion)

    @staticmethod
    def missed_from(recorded: Recorded, seen: Seen) -> float | None:
        """Since when a pod is no longer listed: it went before its containers were stopped, so before the first exit
        after the last list that had it, and after each start."""
        last = recorded.absent_since
        instances = (seen.instances or {}).get(recorded.pod.uid, [])
        first = max([recorded.seen_at, *(each.started for each in instances if each.started is not None)])
        exits = [each.finished for each in instances if each.finished is not None]
        return min([at for at in exits if recorded.seen_at and last and first < at < last], default=last)

    def see_going(self, recorded: Recorded, pod: Pod | None, seen: Seen) -> None:
        """A pod is no longer listed, was deleted, or the kubelet ended it. It is gone once each of its containers has
        exited with a code that is known, or is no more, and one that was evicted once the kubelet goes on after it;
        where a new pod of its name waits for that, at the latest after some seconds."""
        if not self.says_gone:
            if pod is None and not any(each.key == recorded.pod.key for each in self.listed):
                self.say(f"{recorded.pod.key} is gone, and the replay goes on with it: cut the trace where pods go")
            return
        if seen.instances is None:
            return
        recorded.going_since = seen.moment if recorded.going_since is None else recorded.going_since
        instances = seen.instances.get(recorded.pod.uid, [])
        has_next, is_late = self.has_next(recorded.pod), seen.moment - recorded.going_since > GOING_SECONDS
        has_ended = all(instance.exit_code is not None for instance in instances)
        if (is_late and has_next) or (has_ended and (is_late or has_next or self.is_cleaned_up(recorded))):
            self.depart(recorded, seen, went_at(recorded, pod))

    def is_cleaned_up(self, recorded: Recorded) -> bool:
        """Whether the kubelet has gone on after the pod's eviction, which it does once the pod is cleaned up: by a new
        sample."""
        return recorded.evicted_at is None or self.sampling.newest > recorded.evicted_at

    def has_next(self, pod: Pod) -> bool:
        """Whether a pod of its name waits for its line."""
        waiting = (each for each in self.listed if each.uid not in self.recorded and each.uid not in self.left_out)
        return any(each.key == pod.key for each in waiting)

    def depart(self, recorded: Recorded, seen: Seen, went_at: float | None = None) -> None:
        """A pod goes from the trace, after what the same poll saw of its containers, or when it went, if that is known.
        """
        if seen.instances is not None:
            self.containers.follow_to_the_end(recorded, seen.instances, seen.moment)
        self.containers.plan(recorded, seen.moment)
        recorded.is_followed = False
        moment = max(seen.moment if went_at is None else min(went_at, seen.moment), recorded.changes_from)
        self.gone_at[recorded.pod.key] = self.timeline.place_departure(recorded.pod, moment)

    # --- a recording that goes on for ever ---

    def forget(self, second: float) -> None:
        """Forgets pods that have gone and are no longer listed, and that there was no room for some; of the names those
        whose last pod is no more before a second."""
        self.left_out -= self.waiting
        self.waiting = set()
        listed = {pod.uid for pod in self.listed}
        self.recorded = {uid: recorded for uid, recorded in self.recorded.items()
                         if recorded.is_followed or uid in listed}
        self.left_out &= listed
        self.deleted &= listed | set(self.recorded)
        self.gone_at = {key: gone_at for key, gone_at in self.gone_at.items() if gone_at >= second}

    def begin_at(self, moment: float) -> None:
        """The clock shows an earlier moment than it did: what is followed is there from then on."""
        self.listed_at, self.gone_at = moment, {}
        for recorded in self.followed():
            recorded.arrived = recorded.changes_from = int(moment)
            recorded.going_since = None if recorded.going_since is None else moment
            recorded.absent_since = None if recorded.absent_since is None else moment
            recorded.seen_at = moment


def went_at(recorded: Recorded, pod: Pod | None) -> float | None:
    """When a pod was deleted of which nothing ran then, so that the kubelet takes it for none that it may evict; a list
    of pods may show that late. None of any other one."""
    if pod is None or pod.deleted_at is None or recorded.evicted_at is not None:
        return None
    newest = [container.newest for container in recorded.containers.values()]
    has_ended = all(each is not None and each.state == EXITED and each.finished is not None
                    and each.finished <= pod.deleted_at for each in newest)
    return pod.deleted_at if has_ended else None
