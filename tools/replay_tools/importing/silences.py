"""Times in which a kubelet's journal has no line, and which of them are holes. The journal of the kubelet alone has no
numbers by which a lost line shows (holes.py reads the numbers of the whole one), but its lines show it. From -v=3 on a
kubelet reports each round of its eviction manager, each ten seconds, so a minute without a line is a hole. From -v=2 on
it reports each exit, so if a container starts again, and no line has the exit before, that line was lost."""

from __future__ import annotations

from collections import deque
from dataclasses import dataclass
from typing import Optional

from . import facts

# so long a time without a line may be a hole
LONG_SECONDS = 60
# a kubelet that reported so many rounds in the last so many seconds reports them all
ROUNDS, ROUND_SECONDS = 3, 60
# the runtime's line of a start comes so long before the line of the kubelet's poll
LOOK_SECONDS = 2
# what a kubelet alone reports
OF_KUBELET = {facts.Process, facts.Begun, facts.Added, facts.Deleted, facts.Removed, facts.Turned, facts.Probed,
              facts.Turnover, facts.Killing, facts.Waits, facts.Observed, facts.Reclaims, facts.Ranked, facts.Evicted,
              facts.Refused, facts.Updated, facts.Ended, facts.Readied}


@dataclass
class Silence:
    """A time between two lines of the kubelet, whether it is a hole by its rounds, and whether it is reported as a time
    of which nothing is known."""
    since: float
    until: float
    is_hole: bool = False
    is_told: bool = False

    def rank(self) -> tuple[bool, float]:
        return self.is_told, self.until - self.since


class Silences:
    """Those that are not forgotten yet."""

    def __init__(self) -> None:
        self.newest: Optional[float] = None
        self.rounds: deque[float] = deque(maxlen=ROUNDS)
        self.found: list[Silence] = []

    def take(self, fact: facts.Fact) -> Optional[Silence]:
        """Takes a fact of the kubelet's; the time before it in which it wrote nothing, if that is long."""
        if isinstance(fact, facts.Turned) and fact.is_exact:
            return None
        since, self.newest = self.newest, fact.at
        found = None
        if since is not None and fact.at - since > LONG_SECONDS:
            found = Silence(since, fact.at, self.has_rounds(since))
            self.found.append(found)
        if isinstance(fact, facts.Observed) and fact.signal is None:
            self.rounds.append(fact.at)
        return found

    def has_rounds(self, at: float) -> bool:
        """Whether the kubelet reported its rounds up to a moment."""
        return len(self.rounds) == ROUNDS and at - self.rounds[0] <= ROUND_SECONDS

    def is_told(self, since: float, until: float) -> bool:
        """Whether a part of a time is reported as one of which nothing is known."""
        return any(each.is_told and each.since < until and since < each.until for each in self.found)

    def tell(self, since: float, until: float) -> None:
        """A time is reported as one of which nothing is known."""
        self.found = [each for each in self.found if each.until <= since or until <= each.since]
        self.found.append(Silence(since, until, True, True))

    def between(self, since: float, until: float) -> Optional[Silence]:
        """The time in which a line between two moments was lost: one that is reported, or else the longest."""
        found = [each for each in self.found if since <= each.since and each.until <= until + LOOK_SECONDS]
        return max(found, key=Silence.rank) if found else None

    def open_from(self, horizon: float) -> float:
        """Up to when all is settled, of what is so far after the newest line: what a silence is, the lines after it
        show."""
        return min([horizon, *(each.since for each in self.found if not each.is_told and each.until > horizon)])

    def forget(self, before: float) -> None:
        self.found = [each for each in self.found if each.until >= before]
