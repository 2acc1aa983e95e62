"""Facts of several journals in the order of their moments, by one clock, the node's, which may go back. Each
journal shows that where its next line comes, so those that have shown it wait for the others."""

from __future__ import annotations

from collections.abc import Iterator
from typing import TYPE_CHECKING

from . import facts

if TYPE_CHECKING:
    from .reading import Reader

# a journal that waits has waited for all lines from before the clock went back once the others are so far beyond
BEYOND_SECONDS = 60
# by how much the moments of a line differ in the forms of a journal
FORMS_SECONDS = 0.01


class Source:
    """A journal with its next fact, and by how much later its moments are taken than its clock shows."""

    def __init__(self, reader: Reader) -> None:
        self.reader = reader
        self.found = reader.all_facts()
        self.shift = 0
        # the moment to which the clock went back last, as the clock shows it
        self.turned_at = 0.0
        self.head: facts.Fact | None = None
        self.advance()

    def advance(self) -> None:
        fact = next(self.found, None)
        self.head = fact if fact is None or self.shift == 0 else self.shifted(fact, self.shift)

    def turning(self) -> facts.TurnedBack | None:
        """Where its clock went back just now, that."""
        return self.head if isinstance(self.head, facts.TurnedBack) else None

    def up_to_turn(self) -> Iterator[facts.Fact]:
        """Its facts until its clock goes back."""
        while self.head is not None and self.turning() is None:
            yield self.head
            # of the most journals no clock goes back, and a fact is as it was read
            for fact in self.found if self.shift == 0 else ():
                if isinstance(fact, facts.TurnedBack):
                    self.head = fact
                    return
                yield fact
            self.advance()

    def turn(self, seconds: int, moment: float) -> None:
        """The clock went back by so many seconds, to a moment as the journals had it before."""
        self.turned_at = moment - self.shift
        self.shift += seconds
        if self.turning() is not None:
            self.advance()
        elif self.head is not None:
            self.head = self.shifted(self.head, seconds)

    def shifted(self, fact: facts.Fact, seconds: int) -> facts.Fact:
        """A fact whose moment is so much later; an exact moment of before the clock went back is so already."""
        if isinstance(fact, facts.Known):
            said = fact.at
            fact.started = self.exact(fact.started, said, seconds)
            fact.finished = self.exact(fact.finished, said, seconds)
        if isinstance(fact, facts.TurnedBack):
            fact.since += seconds
        elif isinstance(fact, facts.Missing) and fact.since is not None:
            fact.since += seconds
        fact.at += seconds
        return fact

    def exact(self, moment: float | None, said: float, seconds: int) -> float | None:
        if moment is None or not self.turned_at - 1 <= moment <= said + 1:
            return moment
        return moment + seconds


def in_order(readers: list[Reader]) -> Iterator[facts.Fact]:
    """The facts of journals."""
    sources = [Source(reader) for reader in readers]
    while sources := [each for each in sources if each.head is not None]:
        if len(sources) == 1 and sources[0].turning() is None:
            yield from sources[0].up_to_turn()
            continue
        waiting = [turning for each in sources if (turning := each.turning()) is not None]
        going = [each for each in sources if each.turning() is None] if waiting else sources
        first = min(going, key=moment_of_next, default=None)
        until = max((each.since for each in waiting), default=0.0)
        if first is None or (waiting and moment_of_next(first) > until + BEYOND_SECONDS):
            yield turned(sources, waiting)
        elif first.head is not None:
            yield first.head
            first.advance()


def moment_of_next(source: Source) -> float:
    """When its next fact comes. That lines are missing before a moment comes after what others have at it."""
    if source.head is None:
        return 0.0
    return source.head.at + (FORMS_SECONDS if isinstance(source.head, facts.Missing) else 0.0)


def turned(sources: list[Source], waiting: list[facts.TurnedBack]) -> facts.TurnedBack:
    """The clock went back in journals: from there on it is as if all of them came after the newest of its moments."""
    moment = min(each.at for each in waiting)
    seconds = int(max(each.since for each in waiting)) + 1 - int(moment)
    for each in sources:
        each.turn(seconds, moment)
    return facts.TurnedBack(moment + seconds, seconds)
