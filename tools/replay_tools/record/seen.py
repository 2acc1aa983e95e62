"""What a poll of the recorder saw, what is known of a pod that it follows, and how far the recording has come."""

from __future__ import annotations

from dataclasses import dataclass, field
from typing import Optional, TYPE_CHECKING

from .statuses import Beside, ReadyTurn

if TYPE_CHECKING:
    from .decisions import Decision
    from .events import Ready, Said
    from .pods import Pod
    from .probes import Counters
    from .reasons import Reason
    from .runtime import Change, Container, Instance
    from .summary import Sample, Summary
    from .throttled import Throttled

# how long what was seen waits for a source that is silent, since that source has the moments
PATIENCE = 30


@dataclass
class Seen:
    """What one poll saw that began at a moment in seconds since 1970, and `took` so many. None is what was not asked,
    or gave no answer: `instances` has the instances of each pod's uid, `counters` the counts of probes, `pods` those
    that are there, `low` the signals near their thresholds, `said` the Events of the pods that were asked for, `ready`
    whether the node is Ready, `throttled` for how long instances were throttled, by their ids, and `kubelet_started`
    when the kubelet was started, if it was since the poll before."""
    moment: float
    instances: Optional[dict[str, list[Instance]]] = None
    counters: Optional[Counters] = None
    pods: Optional[list[Pod]] = None
    summary: Optional[Summary] = None
    is_summary_silent: bool = False
    low: frozenset[str] = frozenset()
    said: dict[str, list[Said]] = field(default_factory=dict)
    ready: Optional[Ready] = None
    throttled: dict[str, Throttled] = field(default_factory=dict)
    took: float = 0
    kubelet_started: Optional[float] = None

    @property
    def end(self) -> float:
        """Up to when what it saw may have happened."""
        return self.moment + self.took


@dataclass
class Recorded:
    """A pod of the trace, the second of its line, that from which on its containers change, what was seen of them, and
    what is not planned yet. `usage` has its newest samples, `sampled_at` is when a summary had it last, `unsampled_at`
    since when none has it; `waits` shows why its containers wait, `waited` after which attempts they have, and `found`
    what each of their probes found last. `ended` is the decision by which the node has ended it, `ended_at` when that
    was seen; `beside` is what was placed of what else its object reports, `used_at` has the moments of the newest
    samples of its containers, `throttled` for how long the newest instances were throttled, by the ids of these, and
    `said` how often each Event was by then. `absent_since` is when the first of the last lists was taken that lack it,
    `absences` how many these are, and `went_absent` that it was taken for deleted by them alone; `ready` is its
    condition Ready as it was placed last, and `seen_at` when a list had it last; `probed` has what its status reports
    of its probes, and `shown` of which instances that was taken for results; `gates` has the statuses of its readiness
    gates' conditions as they were placed last. By container `resources` has the requests and limits that its spec had
    last, and `given` the amounts of those that the trace has."""
    pod: Pod
    arrived: int
    changes_from: int
    containers: dict[str, Container] = field(default_factory=dict)
    changes: dict[str, list[Change]] = field(default_factory=dict)
    usage: dict[str, Sample] = field(default_factory=dict)
    sampled_at: float = 0
    unsampled_at: Optional[float] = None
    waits: dict[str, Reason] = field(default_factory=dict)
    waited: dict[str, int] = field(default_factory=dict)
    found: dict[tuple[str, str], str] = field(default_factory=dict)
    is_followed: bool = True
    is_deleting: bool = False
    going_since: Optional[float] = None
    evicted_at: Optional[int] = None
    ended: Optional[Decision] = None
    ended_at: float = 0
    is_end_placed: bool = False
    beside: Beside = field(default_factory=Beside)
    used_at: dict[str, float] = field(default_factory=dict)
    throttled: dict[str, int] = field(default_factory=dict)
    said: dict[str, int] = field(default_factory=dict)
    absent_since: Optional[float] = None
    absences: int = 0
    went_absent: bool = False
    ready: Optional[ReadyTurn] = None
    seen_at: float = 0
    probed: dict[str, tuple] = field(default_factory=dict)
    shown: dict[str, tuple] = field(default_factory=dict)
    gates: dict[str, bool] = field(default_factory=dict)
    resources: dict[str, dict] = field(default_factory=dict)
    given: dict[str, dict] = field(default_factory=dict)


@dataclass
class Course:
    """How far a recording has come: the moment from which on what is seen is recorded, the one up to which what
    happened has its place, and whether the first poll is taken; and whether Events are asked for."""
    begun: float = 0
    planned_at: float = 0
    is_first: bool = True
    asks_events: bool = False
