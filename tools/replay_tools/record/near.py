"""Whether the kubelet may evict a pod now, so that each of its samples counts."""

from __future__ import annotations

from typing import Any

from replay_tools import amounts
from replay_tools.signals import Threshold, thresholds_of

# a signal below this many times its threshold is near it
NEAR_TIMES = 2
TRANSITION = "evictionPressureTransitionPeriod"
DEFAULT_TRANSITION_SECONDS = 300


class Nearness:
    """How near a node is to its thresholds, by the newest samples and by what the kubelet did."""

    def __init__(self) -> None:
        self.thresholds: list[Threshold] = []
        self.transition = DEFAULT_TRANSITION_SECONDS
        self.low: frozenset[str] = frozenset()
        self.pressed_at: float | None = None
        # since when each threshold is below its limit, by its signal and kind
        self.low_since: dict[tuple[str, str], float] = {}

    def know(self, node_line: dict[str, Any]) -> None:
        """The thresholds of a node line, and for how long its pressure lasts; none where it has faults."""
        try:
            self.thresholds = thresholds_of(node_line)
            self.transition = amounts.duration(node_line.get(TRANSITION) or "0") or DEFAULT_TRANSITION_SECONDS
        except amounts.Wrong:
            self.thresholds = []

    def sample(self, signals: dict[str, int], moment: float) -> None:
        """Takes the newest samples."""
        left = [(limit, 1000 * signals[limit.signal]) for limit in self.thresholds if limit.signal in signals]
        self.low = frozenset(limit.signal for limit, value in left if value < NEAR_TIMES * limit.limit)
        if any(value < limit.limit for limit, value in left):
            self.pressed_at = moment

    def below(self, signals: dict[str, int]) -> frozenset[str]:
        """The signals that are below a threshold of theirs."""
        return frozenset(limit.signal for limit in self.thresholds
                         if limit.signal in signals and 1000 * signals[limit.signal] < limit.limit)

    def see(self, signals: dict[str, int], moment: float) -> None:
        """Takes a sample for each threshold. One that is due stays so up to what is to be reclaimed, and one whose
        grace period runs up to its limit."""
        for limit in self.thresholds:
            if limit.signal in signals:
                value, name = 1000 * signals[limit.signal], (limit.signal, limit.kind)
                if value < limit.limit:
                    self.low_since.setdefault(name, moment)
                elif value >= limit.limit + limit.reclaim or not self.is_due(limit, moment):
                    self.low_since.pop(name, None)

    def is_due(self, limit: Threshold, moment: float) -> bool:
        """Whether the kubelet may evict a pod for a threshold."""
        since = self.low_since.get((limit.signal, limit.kind))
        return since is not None and moment - since >= limit.grace

    def may_evict(self, moment: float) -> bool:
        """Whether the kubelet may evict a pod by the samples that were seen."""
        return any(self.is_due(limit, moment) for limit in self.thresholds)

    def decide(self, moment: float) -> None:
        """The kubelet has evicted or rejected a pod."""
        self.pressed_at = moment

    def is_pressed(self, moment: float) -> bool:
        """Whether the node is under pressure, which lasts for some time after the last sample below a threshold."""
        return self.pressed_at is not None and moment - self.pressed_at < self.transition

    def is_near(self, moment: float) -> bool:
        return bool(self.low) or self.is_pressed(moment)

    def outlasts_gap(self, signal: str, following: int | None) -> bool:
        """Whether a threshold of a signal would be over where a tick has no value, though it goes on in the next one
        with a value, which may be unknown: its grace period has begun, or it is active until the reclaim."""
        limits = [limit for limit in self.thresholds if limit.signal == signal]
        if following is None:
            return any(limit.grace or limit.reclaim for limit in limits)
        return any(limit.grace or 0 <= 1000 * following - limit.limit < limit.reclaim for limit in limits)
