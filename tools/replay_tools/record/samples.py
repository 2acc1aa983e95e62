"""What the kubelet samples of its node and its pods, each value at its own moment, and by which samples it decided."""

from __future__ import annotations

from typing import TYPE_CHECKING

from . import rounds
from .runtime import EXITED, RUNNING

if TYPE_CHECKING:
    from collections.abc import Callable, Iterable, Set as AbstractSet

    from .seen import Course, Recorded, Seen
    from .summary import Sample, Summary, Used
    from .timeline import Timeline

MEMORY = "memory"
# how long signals stay as last sampled if the summary is silent
SIGNAL_AGE = 60
# the kubelet takes a sample about as often where nothing is near a threshold
SAMPLE_SECONDS = 10
# what the kubelet decided by a sample is shown at most so much later
DECIDED_SECONDS = 8


class Sampling:
    """Takes the answers of the summary, and gives each of their samples its place."""

    def __init__(self, timeline: Timeline, course: Course, say: Callable[..., None]) -> None:
        self.timeline = timeline
        self.course = course
        self.say = say
        self.says_gone = timeline.format.says_gone
        # when the summary answered last
        self.sampled_at: float = 0
        # when signals needed a tick last, and the moment of the newest sample of the node
        self.wanted_at = float("-inf")
        self.newest: float = float("-inf")
        self.samples: dict[str, Sample] = {}
        # the uids of which the newest summary has a sample
        self.sampled: AbstractSet[str] = frozenset()
        self.rounds = rounds.Rounds()

    def take(self, seen: Seen, followed: Iterable[Recorded]) -> None:
        """Samples of the kubelet's that are new are at their own moments. Samples of signals need a tick, but for one
        that is counted when it is asked, where it is not near its threshold; usage is in the next one."""
        self.take_throttled(seen, followed)
        summary = seen.summary
        if summary is None:
            if seen.is_summary_silent and seen.moment - self.sampled_at > SIGNAL_AGE:
                self.say(f"{int(seen.moment)}: the signals are older than {SIGNAL_AGE} s, and are left out until "
                         "/stats/summary answers", ("signals", self.sampled_at))
                self.take_signals({}, seen, False)
            return
        self.sampled_at, self.sampled = seen.moment, summary.pods.keys()
        self.newest = max(self.newest, self.newest_moment(summary, seen))
        self.take_signals(summary.signals, seen, True)
        self.take_rounds(summary, seen)
        for recorded in followed:
            usage = self.known_usage(recorded, summary.usage(recorded.pod, has_running(recorded)))
            self.see_first_sample(recorded, usage, seen)
            for resource, sample in usage.items():
                if sample != recorded.usage.get(resource):
                    moment = max(self.sampled_moment(sample, seen), recorded.arrived, recorded.unsampled_at or 0)
                    self.timeline.place_usage(recorded.pod, moment, resource, sample.value)
            recorded.usage = usage
            self.take_used(recorded, summary.used(recorded.pod))
            self.see_unsampled(recorded, seen)

    @staticmethod
    def known_usage(recorded: Recorded, usage: dict[str, Sample]) -> dict[str, Sample]:
        """The samples of a pod, without one of no memory of what has used some: it was killed as that was taken, and
        the kubelet ranks the pod by the one before. An instance that started since has used none."""
        before, now = recorded.usage.get(MEMORY), usage.get(MEMORY)
        if before is None or now is None or now.value or not before.value or has_started_since(recorded, before.moment):
            return usage
        return {**usage, MEMORY: before}

    def see_first_sample(self, recorded: Recorded, usage: dict[str, Sample], seen: Seen) -> None:
        """The first sample of a pod that came late: until its moment the kubelet had none, and evicts it before all
        others. That is reported where it may evict."""
        sample = usage.get(MEMORY)
        is_late = not self.course.is_first and recorded.arrived > int(self.course.begun) and not recorded.sampled_at
        if self.says_gone and is_late and not recorded.usage and recorded.unsampled_at is None and sample is not None \
                and self.timeline.near.may_evict(seen.moment) and has_running(recorded):
            if int(self.sampled_moment(sample, seen)) > max(recorded.arrived, self.timeline.next_second):
                self.timeline.place_unsampled(recorded.pod, recorded.arrived)

    def take_used(self, recorded: Recorded, used: dict[str, Used]) -> None:
        """What its containers used, where that is a new sample; the formats do not read it."""
        if self.says_gone:
            for name, each in used.items():
                if each.moment != recorded.used_at.get(name):
                    recorded.used_at[name] = each.moment
                    self.timeline.place_used(recorded.pod, name, each, recorded.arrived)

    def take_throttled(self, seen: Seen, followed: Iterable[Recorded]) -> None:
        """For how long the newest instances of the containers were throttled. The count of one instance only rises: one
        that went back is none of its own."""
        for recorded in followed if seen.throttled else ():
            counts, recorded.throttled = recorded.throttled, {}
            for name, container in recorded.containers.items():
                identity = "" if container.newest is None else container.newest.id
                count = counts.get(identity)
                each = seen.throttled.get(identity)
                if each is not None and each.pod == recorded.pod.key and each.container == name \
                        and (count is None or each.value >= count):
                    count = each.value
                    moment = seen.moment if each.moment is None else min(each.moment, seen.end)
                    self.timeline.place_throttled(recorded.pod, name, moment, each.value, recorded.arrived)
                if count is not None:
                    recorded.throttled[identity] = count

    def newest_moment(self, summary: Summary, seen: Seen) -> float:
        """When the newest sample of the node was taken."""
        return max((self.sampled_moment(sample, seen) for sample in summary.signals.values()
                    if sample.moment is not None), default=seen.moment)

    def see_unsampled(self, recorded: Recorded, seen: Seen) -> None:
        """A summary without a pod that has run: the kubelet has no sample of it, and evicts it before all others. That
        is reported once, until a sample comes, and from the newest sample of the node on, by which the kubelet decides;
        but after an exit since, as an eviction leads to."""
        if recorded.pod.uid in self.sampled:
            recorded.sampled_at, recorded.unsampled_at = seen.moment, None
            return
        is_deleted = recorded.going_since is not None and recorded.evicted_at is None
        if is_deleted and (recorded.sampled_at or not has_running(recorded)):
            # it has ended, and the kubelet evicts no such pod once it knows that
            return
        newest = [container.newest for container in recorded.containers.values() if container.newest is not None]
        ran = [each for each in newest if each.state in (RUNNING, EXITED)]
        if ran and recorded.unsampled_at is None and self.says_gone:
            # one that was sampled and is listed as running has exited since
            exits = [each.finished or seen.moment for each in ran
                     if each.state == EXITED or 0 < (each.started or 1) <= recorded.sampled_at]
            behind = [int(moment) + 1 for moment in exits if int(moment) >= int(self.newest)]
            recorded.unsampled_at = max(self.newest, recorded.sampled_at, recorded.arrived, *behind)
            self.timeline.place_unsampled(recorded.pod, recorded.unsampled_at)

    def take_signals(self, samples: dict[str, Sample], seen: Seen, is_wanted: bool) -> None:
        """Places the samples that are others than before; a signal that is no longer there has no value. In the
        standard format each tick below a threshold evicts a pod, so there samples need no more ticks than the ones that
        the kubelet takes of itself."""
        is_wanted = is_wanted and (self.says_gone or seen.moment - self.wanted_at >= SAMPLE_SECONDS)
        self.wanted_at = seen.moment if is_wanted else self.wanted_at
        for signal in dict.fromkeys([*self.samples, *samples]):
            sample = samples.get(signal)
            if sample is None:
                self.timeline.place_signal(seen.moment, signal, None, is_wanted)
            elif sample != self.samples.get(signal):
                wants = signal in seen.low or sample.moment is not None or signal not in self.samples
                self.timeline.place_signal(self.sampled_moment(sample, seen), signal, sample.value, is_wanted and wants)
        self.samples = samples

    def confirm_round(self, moment: float) -> None:
        """The kubelet evicted a pod by a moment, which it does in a round: a sample that waits to be known is that
        one."""
        confirmed = self.rounds.confirm(moment)
        if confirmed is not None and self.timeline.tells_rounds:
            self.timeline.place_round(max(self.course.begun, confirmed))

    def sampled_for(self, seen: Seen) -> float | None:
        """When the kubelet took the sample by which it evicted a pod that a poll shows as evicted: the newest of its
        memory. None where that is not known, or long ago."""
        samples = self.samples if seen.summary is None else seen.summary.signals
        sample = samples.get(rounds.MEMORY)
        if sample is None or sample.moment is None or not 0 <= seen.end - sample.moment <= DECIDED_SECONDS:
            return None
        return sample.moment

    def take_rounds(self, summary: Summary, seen: Seen) -> None:
        """The kubelet evaluates its thresholds in rounds, and the tick of each round's sample is a sync tick."""
        if self.course.is_first:
            self.timeline.tells_rounds = self.says_gone and rounds.are_told(summary.signals)
        if self.timeline.tells_rounds:
            values = {signal: sample.value for signal, sample in summary.signals.items()}
            near, newest = self.timeline.near, self.newest_moment(summary, seen)
            near.see(values, newest)
            evicted_at = self.timeline.evicted_last if near.may_evict(newest) else None
            for moment in self.rounds.of(summary.signals, near.below(values), evicted_at):
                self.timeline.place_round(max(self.course.begun, min(moment, seen.end)))

    def sampled_moment(self, sample: Sample, seen: Seen) -> float:
        """When a sample was taken, within what is recorded; the first tick has the samples of the first poll."""
        latest = seen.moment if self.course.is_first else seen.end
        return seen.moment if sample.moment is None else max(self.course.begun, min(sample.moment, latest))

    def begin_at(self, moment: float) -> None:
        """The clock shows an earlier moment than it did."""
        self.sampled_at, self.wanted_at = moment, float("-inf")


def has_started_since(recorded: Recorded, moment: float | None) -> bool:
    """Whether an instance of a pod has started since a moment, which may not be known."""
    return moment is None or any(each.newest is not None and each.newest.state == RUNNING
                                 and (each.newest.started or moment + 1) > moment
                                 for each in recorded.containers.values())


def has_running(recorded: Recorded) -> bool:
    return any(container.newest is not None and container.newest.state == RUNNING
               for container in recorded.containers.values())
