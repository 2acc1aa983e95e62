"""The core of the recorder: from what was seen at each poll to the lines of a trace. It asks nothing itself."""

from __future__ import annotations

from collections.abc import Callable, Iterator
from typing import Any, Optional, TYPE_CHECKING

from .containers import Containers
from .counts import ProbeCounts
from .decisions import Decisions
from .ends import settled_before
from .lifecycles import Lifecycles
from .lines import line_of
from .samples import Sampling
from .seen import PATIENCE, Course, Seen
from .timeline import Timeline

if TYPE_CHECKING:
    from .events import Ready
    from .lines import Format
    from .node import NodeLine

# a tick is written once some seconds after it have passed, so that what is seen only then still finds its place
HELD_SECONDS = 4


class Recorder:
    """Makes the lines of a trace in a format, with a tick at least every some seconds; `say` takes what is reported."""

    def __init__(self, trace_format: Format, every: int, say: Callable[..., None],
                 timeline: Timeline | None = None) -> None:
        self.format = trace_format
        self.every = every
        self.say = say
        self.timeline = timeline or Timeline(trace_format)
        self.course = Course()
        self.counts = ProbeCounts(say)
        self.containers = Containers(self.timeline, self.course, self.counts, say)
        self.sampling = Sampling(self.timeline, self.course, say)
        self.decisions = Decisions(self.timeline, self.course, self.sampling, say)
        self.pods = Lifecycles(self.timeline, self.course, self.containers, self.decisions, self.sampling, say)
        self.ready: Optional[Ready] = None
        self.is_behind = False

    def begin(self, node_line: NodeLine) -> str:
        """The first line."""
        for note in node_line.notes:
            self.say(note)
        self.timeline.near.know(node_line.fields)
        return line_of(node_line.fields)

    def probed(self) -> dict[str, Any]:
        """What the statuses of the pods that are there show of their probes."""
        return {pod.key: pod.probed for pod in self.pods.listed}

    # --- what is seen ---

    def take(self, seen: Seen) -> None:
        """Takes what a poll saw; what happened is planned once the runtime and the probes have both answered."""
        self.check_clock(seen.moment)
        if self.course.is_first:
            self.take_first(seen)
        if seen.counters is not None:
            self.counts.take(seen.counters, self.pods.uids(), seen.moment)
        self.pods.take(seen)
        if seen.instances is not None:
            self.containers.take(seen.instances, seen.moment, self.pods.followed())
        self.sampling.take(seen, self.pods.followed())
        self.take_events(seen)
        if seen.kubelet_started is not None:
            self.timeline.place_start(max(seen.kubelet_started, self.course.begun))
        self.decisions.see_behind(self.pods.gone_at)
        has_both = seen.instances is not None and seen.counters is not None
        if has_both or seen.moment - self.course.planned_at > PATIENCE:
            self.plan(seen.moment)
        if int(seen.moment) - self.timeline.latest >= self.every:
            self.timeline.place_look(seen.moment)
        self.course.is_first = False

    def take_first(self, seen: Seen) -> None:
        """The recording begins with the first poll, which needs a tick."""
        self.course.begun = self.course.planned_at = seen.moment
        self.containers.listed_at = self.sampling.sampled_at = seen.moment
        self.counts.begin(seen.counters or {}, seen.moment)
        self.timeline.place_look(seen.moment)

    def take_events(self, seen: Seen) -> None:
        """Whether the node is Ready; and what is reported of pods, once of each time that an Event was. What was
        reported before the recording is not."""
        begun = self.course.begun
        if seen.ready is not None and seen.ready != self.ready:
            self.ready = seen.ready
            since = seen.moment if seen.ready.since is None else seen.ready.since
            self.timeline.place_ready(max(begun, min(since, seen.moment)), seen.ready)
        for uid, said in seen.said.items():
            recorded = self.pods.recorded.get(uid)
            if recorded is None or not recorded.is_followed:
                continue
            for each in said:
                if each.at >= int(begun) and recorded.said.get(each.identity) != each.count:
                    recorded.said[each.identity] = each.count
                    self.decisions.take_event(recorded, each, seen)
                    self.timeline.place_said(recorded.pod, max(each.at, recorded.arrived), each)

    def check_clock(self, moment: float) -> None:
        is_behind = int(moment) < self.timeline.next_second - 1
        if is_behind and not self.is_behind:
            self.say(f"{int(moment)}: the last tick is later than the clock: until the clock has passed it, each event "
                     "is written a second after the one before")
        self.is_behind = is_behind

    def plan(self, moment: float) -> None:
        """All that is seen by a moment gets its place."""
        for recorded in self.pods.followed():
            self.containers.plan(recorded, moment)
        self.counts.plan()
        self.course.planned_at = moment

    # --- what is written ---

    def due(self, moment: float) -> Iterator[tuple[list[str], bool]]:
        """The lines whose seconds are settled at a moment, as (lines, whether a tick is among them). None are while the
        end of an instance is looked for, which may lie in each second that is not written yet."""
        before = min(int(moment) - HELD_SECONDS, int(self.course.planned_at))
        if self.format.says_gone:
            with_status = {pod.uid for pod in self.pods.listed if pod.ends is not None}
            before = min(before, settled_before(self.pods.followed(), with_status, self.pods.listed_at, moment),
                         int(self.sampling.rounds.open_since(moment)))
        before = int(self.timeline.next_second) if self.awaits_end(moment) else before
        return self.timeline.due(before, self.containers.silent_from(moment))

    def awaits_end(self, moment: float) -> bool:
        """Whether the end of an instance is looked for, which no second waits for longer than for a silent source."""
        missed = (container.missed_since for recorded in self.pods.followed()
                  for container in recorded.containers.values())
        return moment - self.timeline.next_second <= PATIENCE and any(
            since is not None and moment - since <= PATIENCE for since in missed)

    def rest(self, moment: float) -> Iterator[tuple[list[str], bool]]:
        """All lines that are left, at the end."""
        self.plan(moment)
        return self.timeline.due(float("inf"), self.containers.silent_from(moment))
