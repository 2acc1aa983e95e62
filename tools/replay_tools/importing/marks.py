"""The members of an imported trace that the formats don't read: what was guessed, and what the kubelet reported."""

from __future__ import annotations

from typing import Any

from replay_tools.record.asides import Asides
from replay_tools.record.runtime import RUNNING

CODE, MOMENT, CONTAINER, MANIFEST, STATE = "exitCode", "moment", "container", "manifest", "state"
PHASE = "phase"
# an exit that no line has, so that its code is guessed too: it is in the tick that shows that it has happened
EXIT = "exit"


def doubted(listing: dict[str, Any]) -> dict[str, Any]:
    """A listing after a gap that no line there confirms: what ran before is listed as running, and marked."""
    if listing["state"] != RUNNING:
        return listing
    return {**listing, "guessed": [*listing.get("guessed", ()), STATE]}


def is_code_known(listing: dict[str, Any]) -> bool:
    """Whether the code of an exit that a tick has, of this instance or the one before, is one that was seen."""
    guessed = listing.get("guessed")
    return not (isinstance(guessed, list) and CODE in guessed)


def of_exit(found: tuple[str, ...]) -> tuple[str, ...]:
    """The marks of an exit: one that no line has has happened by its moment, and its code is guessed."""
    if EXIT not in found:
        return found
    return (*dict.fromkeys([*(mark for mark in found if mark not in (MOMENT, EXIT)), CODE, EXIT]),)


class ImportedAsides(Asides):
    """The members that a recording has too, with the parts of an instance's exit and start that were guessed."""

    def __init__(self) -> None:
        super().__init__()
        self.guessed: dict[tuple[str, str, int], tuple[str, ...]] = {}
        # whether something was asked for that no tick has had
        self.has_news = False

    def is_new(self, place: tuple[str, ...], said: Any) -> bool:
        is_new = super().is_new(place, said)
        self.has_news = self.has_news or is_new
        return is_new

    def of_listing(self, uid: str, name: str, listing: Any) -> dict[str, Any]:
        """The mark of a guessed code is in each tick that has the code, as a reason is; the other marks of an instance
        are in the first tick of each of its states."""
        said = super().of_listing(uid, name, listing)
        marks = self.guessed.get((uid, name, listing.attempt), ())
        marks = of_exit(marks) if listing.exit_code is not None else tuple(
            mark for mark in marks if mark not in (CODE, EXIT))
        if not self.is_new((uid, name, "guessed"), (listing.attempt, listing.state)):
            marks = tuple(mark for mark in marks if mark == CODE)
        if marks:
            said["guessed"] = list(marks)
        before = listing.ended
        if before is not None and "ended" in said:
            known = self.guessed.get((uid, name, before.attempt), ())
            of_end = [mark for mark in of_exit(known) if mark != MOMENT]
            if of_end:
                said["ended"]["guessed"] = of_end
        return said

    def depart(self, uid: str) -> None:
        super().depart(uid)
        self.guessed = {place: marks for place, marks in self.guessed.items() if place[0] != uid}
