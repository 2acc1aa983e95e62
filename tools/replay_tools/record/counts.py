"""The counts of probes' results in the answers of the kubelet, and the results by which they grew."""

from __future__ import annotations

from collections.abc import Callable
from dataclasses import dataclass, field
from typing import TYPE_CHECKING

from .probes import PROBES, Result, grown, have_begun_anew, most_results, results_of

if TYPE_CHECKING:
    from .pods import Pod
    from .probes import Counters, Series
    from .seen import Recorded


# a status that shows a container as ready for so long has the result of a probe that is counted by then
COUNTED_SECONDS = 5
READINESS = "readiness"


@dataclass
class Counted:
    """The counts by an answer of a moment, and when an answer had each of them last."""
    counts: Counters = field(default_factory=dict)
    counted_at: dict[Series, float] = field(default_factory=dict)
    answered_at: float = 0


class ProbeCounts:
    """The counts as they are now, and as they were when results had their places last."""

    def __init__(self, say: Callable[..., None]) -> None:
        self.say = say
        self.now, self.planned = Counted(), Counted()

    def begin(self, counts: Counters, moment: float) -> None:
        """The counts of the first poll are of results before it."""
        self.planned = Counted(counts, dict.fromkeys(counts, moment), moment)

    def take(self, counts: Counters, uids: set[str], moment: float) -> None:
        """Takes the counts of an answer. The counts of a pod that is there stay where an answer leaves them out."""
        kept = {series: of_series for series, of_series in self.now.counts.items() if series[0] in uids}
        counted_at = {**{series: self.now.counted_at[series] for series in kept}, **dict.fromkeys(counts, moment)}
        self.now = Counted({**kept, **counts}, counted_at, moment)

    def plan(self) -> None:
        """All results by now have their places."""
        self.planned = self.now

    def results(self, recorded: Recorded, name: str, since: float, until: float) -> list[Result]:
        """The results of a container's probes between two moments, the first of which is of what was planned last."""
        pod = recorded.pod
        found = []
        for probe in PROBES:
            growth = self.growth(pod, name, probe)
            results = results_of(probe, growth, pod.period(name, probe), since, until,
                                 recorded.found.get((name, probe)))
            if len(results) > 1:
                self.say(f"{pod.key} {name} {probe}: {len(results)} results between two looks: their order and moments "
                         "are inferred, here and wherever it is so", "results")
            recorded.found.update({(name, probe): each.result for each in results})
            found += results
        return found

    def by_status(self, recorded: Recorded, name: str, moment: float) -> list[Result]:
        """The results that a container's status shows of a readiness probe that the kubelet does not count, as of the
        first pod of a file: those by which the container has become ready, or is so no more."""
        pod, turn = recorded.pod, recorded.ready
        if turn is None or (pod.uid, name, READINESS) in self.now.counts or not pod.has_probe(name, READINESS):
            return []
        restarts, _, is_ready = recorded.probed.get(name, (None, False, False))
        shown, before = (restarts, is_ready), recorded.shown.get(name)
        if shown == before or restarts is None or moment - turn.at < COUNTED_SECONDS:
            return []
        recorded.shown[name] = shown
        if is_ready:
            return [Result(turn.at, READINESS, "success")] * pod.successes_wanted(name, READINESS)
        return [Result(turn.at, READINESS, "failure")] * pod.failures_wanted(name, READINESS) \
            if before == (restarts, True) else []

    def growth(self, pod: Pod, name: str, probe: str) -> dict[str, int]:
        """What the counts of a probe grew by since what was planned last. Counts that an answer before had left out, as
        an empty one, come back as more than there was time for, and are no results of now."""
        series = pod.uid, name, probe
        before, now = self.planned.counts.get(series, {}), self.now.counts.get(series, {})
        if not now or now == before:
            return {}
        since = self.planned.counted_at.get(series, self.planned.answered_at)
        most = most_results(pod.period(name, probe), self.now.counted_at[series] - since)
        before = {} if have_begun_anew(before, now, most) else before
        self.now.counts[series] = {**before, **now}
        growth = grown(before, now)
        if sum(growth.values()) <= most:
            return growth
        self.say(f"{pod.key} {name} {probe}: {sum(growth.values())} results are more than there was time for since the "
                 "last look, and are left out")
        return {}
