"""What the core of the recorder is where it goes on for ever: it forgets what is over, and follows a clock that goes
back."""

from __future__ import annotations

from collections.abc import Callable
from dataclasses import replace
from typing import Any, TYPE_CHECKING

from .formats import MOST_PODS
from .recorder import Recorder
from .timeline import Timeline

if TYPE_CHECKING:
    from .lines import Format
    from .observer import Observer
    from .pods import Pod
    from .probes import Result
    from .runtime import Change
    from .seen import Seen


class LastingTimeline(Timeline):
    """One in which no change is later than it was seen, as one from before a clock went back would be."""

    def __init__(self, trace_format: Format) -> None:
        super().__init__(trace_format)
        self.now = float("inf")

    def place_container(self, pod: Pod, container: str, changes: list[Change], results: list[Result],
                        arrived: int) -> None:
        changes = [replace(change, moment=min(change.moment, self.now)) for change in changes]
        super().place_container(pod, container, changes, results, arrived)

    def has_room(self) -> bool:
        """The next trace has a line of each pod that is there, or has a place and is not written yet."""
        return len(self.present) + sum(len(tick.arrivals) for tick in self.ticks.values()) < MOST_PODS

    def forget(self, uids: set[str]) -> None:
        """Forgets the places of all pods but these."""
        self.last_placed = {place: second for place, second in self.last_placed.items()
                            if place[0] in uids or place[0] == "signal"}
        self.successes = {place: run for place, run in self.successes.items() if place[0] in uids}

    def begin_at(self, second: Any) -> None:
        """All is written, and what comes is after a second, which may be an earlier one."""
        self.ticks, self.last_placed = {}, {}
        self.next_second, self.latest = second + 1, second


class LastingRecorder(Recorder):
    """One that may go on for ever."""

    timeline: LastingTimeline

    def __init__(self, trace_format: Format, every: int, say: Callable[..., None]) -> None:
        super().__init__(trace_format, every, say, LastingTimeline(trace_format))

    def take(self, seen: Seen) -> None:
        self.timeline.now = seen.end
        super().take(seen)

    def foreseen(self, moment: float) -> list[tuple[list[str], bool]]:
        """What would be written if nothing came any more, with a tick of the poll at this moment."""
        return self.timeline.foreseen(moment, self.containers.silent_from(moment))

    def forget(self) -> None:
        """Forgets what is over."""
        self.pods.forget(self.timeline.next_second)
        self.decisions.forget({pod.uid for pod in self.pods.listed} | set(self.pods.recorded))
        self.timeline.forget({recorded.pod.uid for recorded in self.pods.followed()})

    def begin_at(self, moment: float) -> None:
        """What was seen is written, and the clock shows an earlier moment."""
        self.timeline.begin_at(int(moment))
        self.course.begun = self.course.planned_at = self.containers.listed_at = moment
        self.sampling.begin_at(moment)
        self.pods.begin_at(moment)
        self.is_behind = False


def forget_strangers(observer: Observer) -> None:
    """Forgets the pods that neither the list of pods nor the runtime has."""
    running = set(observer.instances or {})
    observer.known &= running | set(observer.listed_pods)
    observer.strangers &= running
    observer.decided &= set(observer.listed_pods)


def set_back(observer: Any, moment: float) -> None:
    """The clock shows an earlier moment than it did."""
    observer.missed_at = {}
    if observer.list.since is not None:
        observer.list.begin_anew(moment)
    near = observer.near
    near.pressed_at = None if near.pressed_at is None else min(near.pressed_at, moment)
