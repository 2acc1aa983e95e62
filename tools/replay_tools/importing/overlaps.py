"""Journals of one kubelet that overlap, as a rotated one and a later export: each message is read once. A message is
known by its process, by klog's own moment in it and by its words, whatever the form of the journal is; a line of
another program by its second and its words. One journal may have the same line several times, and then counts as often
as the journal that has it most often."""

from __future__ import annotations

from collections.abc import Hashable, Iterator
from dataclasses import dataclass
from typing import Optional

MINUTE = 60


@dataclass
class Seen:
    """A message, and how often each journal has it, by their places."""
    moment: float
    is_kubelets: bool
    counts: dict[int, int]


class Overlaps:
    """What several journals have at the moments at which they are read now, by the minute."""

    def __init__(self, journals: int) -> None:
        self.minutes: dict[int, dict[Hashable, Seen]] = {}
        # the minute up to which each journal is read, as long as it is
        self.newest: dict[int, int] = dict.fromkeys(range(journals), 0)
        # the first and the last moment of what two journals have both
        self.spans: dict[frozenset[int], tuple[float, float]] = {}
        self.repeated = 0
        self.alone = 0

    def is_repeated(self, journal: int, moment: float, key: Hashable, is_kubelets: bool) -> bool:
        """Takes a message of a journal; whether another one had it."""
        minute = int(moment) // MINUTE
        self.forget(journal, minute)
        seen = self.found(minute, key)
        if seen is None:
            seen = self.minutes.setdefault(minute, {})[key] = Seen(moment, is_kubelets, {})
        count = seen.counts[journal] = seen.counts.get(journal, 0) + 1
        others = [each for each, had in seen.counts.items() if each != journal and had >= count]
        for other in others:
            pair = frozenset((journal, other))
            first, last = self.spans.get(pair, (moment, moment))
            self.spans[pair] = min(first, moment), max(last, moment)
        self.repeated += bool(others)
        return bool(others)

    def found(self, minute: int, key: Hashable) -> Optional[Seen]:
        """A message, whose moment another form may put into the minute next to it."""
        for near in (minute, minute - 1, minute + 1):
            seen = self.minutes[near].get(key) if near in self.minutes else None
            if seen is not None:
                return seen
        return None

    def end(self, journal: int) -> None:
        """A journal is read to its end."""
        del self.newest[journal]
        if not self.newest:
            self.let_go(list(self.minutes))

    def forget(self, journal: int, minute: int) -> None:
        """Forgets what all journals have passed."""
        if minute <= self.newest[journal]:
            return
        self.newest[journal] = minute
        least = min(self.newest.values())
        self.let_go([each for each in self.minutes if each < least - 1])

    def let_go(self, minutes: list[int]) -> None:
        for minute in minutes:
            self.alone += sum(self.is_alone(seen) for seen in self.minutes.pop(minute).values())

    def is_alone(self, seen: Seen) -> bool:
        """Whether a message is in one of two journals alone, though both have its time."""
        return seen.is_kubelets and any(
            seen.counts.get(one, 0) != seen.counts.get(other, 0) for one, other in self.pairs_at(seen.moment))

    def pairs_at(self, moment: float) -> Iterator[tuple[int, int]]:
        for pair, (first, last) in self.spans.items():
            if first < moment < last:
                one, other = pair
                yield one, other
