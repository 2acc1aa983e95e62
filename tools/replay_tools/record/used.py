"""What containers use, as the ticks have it: each some seconds, and as an instance exits."""

from __future__ import annotations

from dataclasses import replace
from typing import Any, TYPE_CHECKING

from .runtime import EXITED, RUNNING

if TYPE_CHECKING:
    from .runtime import Change
    from .summary import Used

Place = tuple[str, str]

# how often it is reported of a container that runs: a kubelet samples it each 10 s, or somewhat earlier
TOLD_SECONDS = 9
# a sample that is so old at an exit shows nothing of it
OLD_SECONDS = 60
# for how long it was throttled is reported with a sample that was taken so long before or after
NEAR_SECONDS = 15


class UsedByContainers:
    """The newest samples of the containers, by pod and container, and which of them were written."""

    def __init__(self) -> None:
        self.newest: dict[Place, Used] = {}
        self.told: dict[Place, Used] = {}
        # of a container that has been started again, the last of the instance before
        self.ended: dict[Place, Used] = {}
        # for how long the newest instances were throttled, each by a moment
        self.throttled: dict[Place, tuple[float, int]] = {}
        # where an instance exits in this second
        self.exits: set[Place] = set()
        self.second = 0

    def copied(self) -> UsedByContainers:
        copied = UsedByContainers()
        copied.newest, copied.told, copied.ended = dict(self.newest), dict(self.told), dict(self.ended)
        copied.throttled = dict(self.throttled)
        return copied

    def depart(self, uid: str) -> None:
        everything: list[dict[Place, Any]] = [self.newest, self.told, self.ended, self.throttled]
        for kept in everything:
            for place in [place for place in kept if place[0] == uid]:
                del kept[place]

    def take(self, second: int, listings: dict[Place, Change], samples: dict[Place, Used],
             throttled: dict[Place, tuple[float, int]]) -> None:
        """What is new in a second. A sample of before an instance started is none of its own."""
        self.second, self.ended, self.exits = second, {}, set()
        for place, change in listings.items():
            if change.listing is not None and change.listing.state == EXITED:
                self.exits.add(place)
            elif change.listing is not None and change.listing.state == RUNNING:
                if place in self.newest:
                    self.ended[place] = self.with_throttled(place, self.newest.pop(place))
                self.throttled.pop(place, None)
        self.newest.update(samples)
        self.throttled.update(throttled)

    def with_throttled(self, place: Place, used: Used) -> Used:
        """A sample with for how long the instance was throttled at about its moment."""
        moment, value = self.throttled.get(place, (float("-inf"), 0))
        return replace(used, throttled=value) if abs(moment - used.moment) <= NEAR_SECONDS else used

    def of(self, uid: str, name: str) -> dict[str, Any]:
        """The member of a listing: what a container used, if that is to be written now."""
        used, told = self.newest.get((uid, name)), self.told.get((uid, name))
        if used is None:
            return {}
        is_due = told is None or used.moment - told.moment >= TOLD_SECONDS
        is_last = (uid, name) in self.exits and self.second - used.moment <= OLD_SECONDS
        if not (is_due or is_last):
            return {}
        self.told[uid, name] = used
        return {"used": self.with_throttled((uid, name), used).told(self.second)}

    def before(self, uid: str, name: str) -> dict[str, Any]:
        """The same of the instance before, whose exit a tick has with the start of the next one."""
        used = self.ended.get((uid, name))
        return {} if used is None or self.second - used.moment > OLD_SECONDS else {"used": used.told(self.second)}
