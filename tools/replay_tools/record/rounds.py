"""The rounds of the kubelet's eviction manager, in each of which it judges its thresholds: it alone has the kubelet
take a new sample of the node, so each new moment of that in the summary is a round."""

from __future__ import annotations

from typing import TYPE_CHECKING

if TYPE_CHECKING:
    from collections.abc import Iterator

    from .summary import Sample

MEMORY = "memory.available"
# after an eviction the kubelet waits so long at most for the pod to end, and others have a sample taken then
WAIT_SECONDS = 30
# a round in which it evicts is followed by the next one sooner than any other, once the pod has ended
SOON_SECONDS = 8
# a sample is seen so long after it was taken, where the summary is asked each second
SEEN_SECONDS = 4


def are_told(samples: dict[str, Sample]) -> bool:
    """Whether the samples of an answer have the moments by which rounds are known."""
    return MEMORY in samples and samples[MEMORY].moment is not None


class Rounds:
    """Finds the rounds among the samples of the answers."""

    def __init__(self) -> None:
        self.moments: dict[str, float] = {}
        # a sample within the wait after an eviction, which is a round if another follows soon
        self.pending: float | None = None

    def of(self, samples: dict[str, Sample], below: frozenset[str], evicted_at: int | None) -> Iterator[float]:
        """The moments of the rounds that an answer shows: of new samples of the signals that are below a threshold,
        else of the memory. `evicted_at` is the second of the last eviction, where the samples are low enough for
        another one."""
        timed = {signal: sample.moment for signal, sample in samples.items() if sample.moment is not None}
        shown = below & timed.keys() or {MEMORY} & timed.keys()
        new = {timed[signal] for signal in shown if timed[signal] != self.moments.get(signal)}
        self.moments.update(timed)
        for moment in sorted(new):
            yield from self.behind(moment, evicted_at)

    def behind(self, moment: float, evicted_at: int | None) -> Iterator[float]:
        """The rounds that are known by a new sample: one that waited for it, and itself unless it waits so."""
        before, self.pending = self.pending, None
        if before is not None and moment - before <= SOON_SECONDS:
            yield before
        if evicted_at is not None and evicted_at < int(moment) <= evicted_at + WAIT_SECONDS:
            self.pending = moment
        else:
            yield moment

    def confirm(self, moment: float) -> float | None:
        """The sample that waits is a round where the kubelet has evicted a pod since, by a moment: its own moment."""
        before = self.pending
        if before is None or int(moment) < int(before):
            return None
        self.pending = None
        return before

    def open_since(self, moment: float) -> float:
        """The moment of a sample of which it is not known yet whether it is a round; else the one that is given."""
        if self.pending is not None and moment - self.pending > SOON_SECONDS + SEEN_SECONDS:
            self.pending = None
        return moment if self.pending is None else self.pending
