"""What the ticks of a trace have next to what the formats read: why instances ended, and why containers wait."""

from __future__ import annotations

from typing import Any, TYPE_CHECKING

from .formats import without_nones
from .reasons import better
from .runtime import RUNNING
from .used import UsedByContainers

if TYPE_CHECKING:
    from .pods import Pod
    from .reasons import Reason
    from .runtime import Listing
    from .statuses import Beside


def stands(wait: Reason, listing: Listing | None) -> bool:
    """Whether a container still waits so, as its newest instance is listed: it does not run, and is the one after which
    the status shows that it waits."""
    return listing is None or (listing.state != RUNNING and wait.behind in (None, listing.attempt))


def is_over(wait: Reason, listing: Listing | None) -> bool:
    """Whether the instance for which a container waited runs, so that it waits no more once that has ended."""
    return listing is not None and listing.state == RUNNING and wait.behind != listing.attempt


class Asides:
    """What holds at the last tick, and what was written of it: each tick has a reason, the first one its message."""

    def __init__(self) -> None:
        self.ends: dict[Any, Any] = {}
        self.waits: dict[str, dict[str, Any]] = {}
        self.told: dict[Any, Any] = {}
        self.beside: dict[str, Beside] = {}
        self.used = UsedByContainers()

    def copied(self) -> Asides:
        copied = Asides()
        copied.ends, copied.waits, copied.told = dict(self.ends), dict(self.waits), dict(self.told)
        copied.beside, copied.used = dict(self.beside), self.used.copied()
        return copied

    def take_end(self, uid: str, name: str, attempt: int, reason: Reason | None) -> None:
        """What is known now of why the newest instance of a container ended."""
        self.ends[uid, name] = attempt, reason

    def take_waits(self, uid: str, waits: dict[str, Reason]) -> None:
        self.waits[uid] = waits

    def depart(self, uid: str) -> None:
        self.waits.pop(uid, None)
        self.beside.pop(uid, None)
        self.used.depart(uid)
        for kept in (self.ends, self.told):
            for place in [place for place in kept if place[0] == uid]:
                del kept[place]

    def of_gates(self, uid: str) -> dict[str, bool] | None:
        """The member of an entry: the pod's readiness gates, and whether each is true; None where it has none."""
        return self.beside[uid].gates or None if uid in self.beside else None

    def of_container(self, pod: Pod, name: str) -> dict[str, Any]:
        """The members of a listing that are of the container: what it used."""
        return self.used.of(pod.uid, name)

    def of_listing(self, uid: str, name: str, listing: Listing) -> dict[str, Any]:
        """The members of a listing: why the instance ended, and how the one before it did, whose exit its tick has."""
        said: dict[str, Any] = {}
        if listing.exit_code is not None:
            attempt, newest = self.ends.get((uid, name), (None, None))
            reason = better(listing.reason, newest) if attempt == listing.attempt else listing.reason
            said = self.members((uid, name), listing.attempt, reason)
        ended = listing.ended
        if ended is not None and self.is_new((uid, name, "ended"), ended):
            said["ended"] = {"attempt": ended.attempt, "exitCode": ended.exit_code,
                             **self.members((uid, name), ended.attempt, ended.reason), **self.used.before(uid, name)}
        return said

    def of_waits(self, pod: Pod, listings: dict[str, Listing]) -> list[dict[str, Any]] | None:
        """The member of an entry: the containers that wait, but for those that have begun to run since; None where none
        does."""
        if pod.uid not in self.waits:
            return None
        waits = self.waits[pod.uid] = {name: wait for name, wait in self.waits[pod.uid].items()
                                       if not is_over(wait, listings.get(name))}
        waiting = [name for name in pod.containers() if name in waits and stands(waits[name], listings.get(name))]
        for name in set(pod.containers()).difference(waiting):
            self.told.pop((pod.uid, name, "waits"), None)
        return [{"container": name, **self.members((pod.uid, name, "waits"), None, waits[name])}
                for name in waiting] or None

    def members(self, place: tuple[str, ...], what: int | None, reason: Reason | None) -> dict[str, Any]:
        if reason is None:
            return {}
        is_new = self.is_new(place, (what, reason))
        return without_nones({"reason": reason.word, "message": reason.message if is_new else None,
                              "messageLeftOut": is_new and reason.is_left_out or None,
                              "log": is_new and list(reason.log) or None,
                              "logLeftOut": is_new and reason.log_left_out or None})

    def is_new(self, place: tuple[str, ...], said: Any) -> bool:
        before, self.told[place] = self.told.get(place), said
        return said != before
