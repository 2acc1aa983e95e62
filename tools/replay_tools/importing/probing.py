"""Results of probes. A failure has a line from -v=1 on, a success from -v=3 on; below that a probe whose period passes
without a line has succeeded. Of these successes those are made that change something."""

from __future__ import annotations

import bisect
from collections.abc import Iterator, Sequence
from typing import Optional

from replay_tools.record.probes import Result

SUCCESS, FAILURE = "success", "failure"
# the kubelet knows of a start once its look has found it
LOOK_SECONDS = 0.1
MOST_SUCCESSES = 1000


class Probing:
    """One probe of one container: what its results have come to, and when its next one is due."""

    def __init__(self, probe: str, period: int, delay: int, wanted: int) -> None:
        self.probe = probe
        self.period = max(period, 1)
        self.delay = delay
        self.wanted = min(max(wanted, 1), MOST_SUCCESSES)
        # a moment at which it came, as far as one is known
        self.phase: Optional[float] = None
        self.due: Optional[float] = None
        self.successes = 0
        # the moments of the failures since its last success
        self.failures: list[float] = []

    def start(self, started: float, seen: float) -> None:
        """An instance runs; its first result comes with the first period after its delay."""
        self.successes = 0
        self.failures = []
        self.due = self.first_behind(max(seen + LOOK_SECONDS, started + self.delay))

    def end(self) -> None:
        self.due = None

    def due_silent(self) -> float:
        """From when on a success without a line is due that would change something."""
        is_due = self.due is not None and self.successes < self.wanted
        return (self.due or 0.0) + self.period / 2 if is_due else float("inf")

    def first_behind(self, moment: float) -> float:
        if self.phase is None:
            return moment + self.period / 2
        return self.phase + -(-(moment - self.phase) // self.period) * self.period

    def take(self, result: str, moment: float) -> bool:
        """Takes a result that a line has; whether it changes something."""
        self.phase = moment
        if self.due is not None:
            self.due = moment + self.period
        if result != SUCCESS:
            self.successes = 0
            self.failures += [moment] if result == FAILURE else []
            return result == FAILURE
        self.successes += 1
        self.failures = []
        return self.successes <= self.wanted

    def silent(self, until: float, without: Sequence[tuple[float, float]]) -> Iterator[Result]:
        """The successes without a line that were due by a moment, up to as many as are needed: none in a time without
        them, as a gap, of which no line is known. These times are in order."""
        while self.due is not None and self.due <= until and self.successes < self.wanted:
            place = bisect.bisect_left(without, (self.due, 0.0))
            behind = without[place - 1][1] if place > 0 and self.due < without[place - 1][1] else None
            if behind is not None:
                self.due = self.first_behind(behind)
                continue
            self.successes += 1
            self.failures = []
            yield Result(self.due, self.probe, SUCCESS)
            self.due += self.period
        if self.due is not None and self.due <= until:
            self.due = self.first_behind(until) if self.phase is not None else self.due + self.period * (
                1 + (until - self.due) // self.period)
