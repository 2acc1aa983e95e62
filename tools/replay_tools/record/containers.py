"""What became of the containers of the pods that are followed, from one poll to the next."""

from __future__ import annotations

from collections.abc import Callable, Iterable
from typing import TYPE_CHECKING

from .ends import second_of_end
from .runtime import EXITED, Container

if TYPE_CHECKING:
    from .counts import ProbeCounts
    from .runtime import Change, Instance
    from .seen import Course, Recorded
    from .timeline import Timeline


# so long the reason is looked for in Events for which the node has ended a pod
REASON_SECONDS = 12


class Containers:
    """Finds the changes of containers, and gives them and the results of their probes their places."""

    def __init__(self, timeline: Timeline, course: Course, counts: ProbeCounts, say: Callable[..., None]) -> None:
        self.timeline = timeline
        self.course = course
        self.counts = counts
        self.say = say
        self.says_gone = timeline.format.says_gone
        # when the runtime listed them last
        self.listed_at: float = 0

    def take(self, instances: dict[str, list[Instance]], moment: float, followed: Iterable[Recorded]) -> None:
        """Takes what the runtime listed at a poll."""
        self.listed_at = moment
        for recorded in followed:
            self.follow(recorded, instances, moment)

    def follow(self, recorded: Recorded, instances: dict[str, list[Instance]], moment: float) -> None:
        """What became of the containers of one pod since the last poll."""
        pod, names = recorded.pod, recorded.pod.containers()
        by_name: dict[str, list[Instance]] = {name: [] for name in names}
        for instance in instances.get(pod.uid, []):
            if instance.container in by_name:
                by_name[instance.container].append(instance)
            else:
                self.say(f"{pod.key} {instance.container} is left out: its pod's manifest has no such container")
        for name, listed in by_name.items():
            if name not in recorded.containers:
                listed = self.without_past(listed)
            if listed or name in recorded.containers:
                container = recorded.containers.setdefault(name, Container(f"{pod.key} {name}", self.say))
                step = container.first_changes if self.course.is_first else container.changes
                recorded.changes.setdefault(name, []).extend(step(listed, moment))
                self.take_end(recorded, name, container)

    def take_end(self, recorded: Recorded, name: str, container: Container) -> None:
        """Why a container's newest instance ended, which its pod's status may show later."""
        if container.newest is not None and container.newest.state == EXITED:
            self.timeline.asides.take_end(recorded.pod.uid, name, container.attempt, container.newest.reason)

    def without_past(self, instances: list[Instance]) -> list[Instance]:
        """The instances of a container that is met: without those that were over before the recording began."""
        return [each for each in instances if each is instances[-1]
                or each.finished is None or each.finished >= self.course.begun]

    def follow_to_the_end(self, recorded: Recorded, instances: dict[str, list[Instance]], moment: float) -> None:
        """What became of the containers of a pod that goes. That one is no longer listed is reported by that its pod
        goes, but for a code that is lost: a line of a pod that goes ends no container."""
        self.follow(recorded, instances, moment)
        recorded.changes = {name: [change for change in changes if self.is_told(change)]
                            for name, changes in recorded.changes.items()}

    def is_told(self, change: Change) -> bool:
        """Whether a change of a container whose pod goes is written."""
        return change.listing is not None or (self.says_gone and not change.is_quiet)

    def plan(self, recorded: Recorded, moment: float) -> None:
        """All that is seen of one pod by a moment gets its place."""
        for name in recorded.pod.containers():
            changes = recorded.changes.pop(name, [])
            results = self.counts.results(recorded, name, self.course.planned_at, moment)
            results = results or self.counts.by_status(recorded, name, moment)
            self.timeline.place_container(recorded.pod, name, changes, results, recorded.changes_from)
        if recorded.ended is not None and not recorded.is_end_placed and self.says_gone \
                and not self.awaits_reason(recorded, moment):
            recorded.is_end_placed = True
            self.timeline.place_end(recorded.pod, second_of_end(recorded, self.timeline), recorded.ended)

    def awaits_reason(self, recorded: Recorded, moment: float) -> bool:
        """Whether an Event may yet show why the node has ended a pod, of which its status does not."""
        is_guessed = recorded.ended is not None and recorded.ended.is_guessed
        return is_guessed and self.course.asks_events and moment - recorded.ended_at < REASON_SECONDS

    def silent_from(self, moment: float) -> int | None:
        """The second from which on the runtime was silent, by a moment; None where it was not."""
        return int(self.listed_at) + 1 if self.listed_at < moment else None
