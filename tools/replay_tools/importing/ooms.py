"""Which exits were kills by the kernel for memory. The kernel's own line has the container's id. The kubelet's line has
a process and a moment alone: it is of the only container that died then."""

from __future__ import annotations

from collections import deque
from collections.abc import Iterable, Iterator

from . import facts

REASON = "OOMKilled"
# an exit follows the kill of its container's process within so many seconds, as the kubelet's look finds it
KILLED_SECONDS = 5.0
# of kills without an id: what may lie between the kill and the kubelet's look, and how late a line is
LOOKED_SECONDS, LATE_SECONDS = 2.0, 2.5
# a moment of the kernel's may be so much later than the exit's
EARLY_SECONDS = 0.2
MOST_KEPT = 1000
CODE = 137
# by so much an exit may follow a later one, since a runtime's line may have an earlier moment than the lines before it
UNORDERED_SECONDS = 120.0
WATCHED = facts.Turned, facts.OutOfMemory, facts.Killing, facts.Known


class OutOfMemories:
    """Kills for memory that have no exit yet, and exits of the last seconds."""

    def __init__(self) -> None:
        self.killed: dict[str, float] = {}
        self.unnamed: deque[float] = deque(maxlen=MOST_KEPT)
        self.died: deque[facts.Turned] = deque(maxlen=MOST_KEPT)
        # when a runtime named a container whose process was killed
        self.named: deque[float] = deque(maxlen=MOST_KEPT)
        # instances that the kubelet ended itself, are sandboxes, or have another code
        self.others: dict[str, None] = {}

    def over(self, found: Iterable[facts.Fact]) -> Iterator[facts.Fact]:
        """Facts, with the reasons of exits."""
        for fact in found:
            if self.unnamed and fact.at > self.unnamed[0] + LATE_SECONDS:
                yield from self.settled(fact.at)
            yield fact
            if type(fact) not in WATCHED:
                continue
            if isinstance(fact, facts.Turned):
                yield from self.turned(fact)
            elif isinstance(fact, facts.OutOfMemory):
                self.take(fact)
            elif isinstance(fact, facts.Killing) or (isinstance(fact, facts.Known) and (
                    fact.is_sandbox or fact.code not in (None, CODE))):
                self.leave_out(fact.id)
            elif isinstance(fact, facts.Known) and fact.reason == REASON:
                self.named.append(fact.at)
        yield from self.settled(float("inf"))

    def take(self, fact: facts.OutOfMemory) -> None:
        if fact.id is None:
            self.unnamed.append(fact.at)
        else:
            self.killed[fact.id] = fact.at
            self.named.append(fact.at)
            if len(self.killed) > MOST_KEPT:
                del self.killed[next(iter(self.killed))]

    def leave_out(self, identity: str) -> None:
        self.others[identity] = None
        if len(self.others) > MOST_KEPT:
            del self.others[next(iter(self.others))]

    def turned(self, fact: facts.Turned) -> Iterator[facts.Known]:
        """The reason of an exit whose container's process was killed just before."""
        if fact.what != facts.DIED:
            return
        at = self.killed.pop(fact.id, None)
        if at is not None and fact.at - at <= KILLED_SECONDS:
            yield facts.Known(fact.at, fact.id, fact.pod, reason=REASON)
        self.died.append(fact)

    def settled(self, before: float) -> Iterator[facts.Known]:
        """The reasons of exits that fit a kill without an id, each the only one of its time."""
        while self.unnamed and self.unnamed[0] + LATE_SECONDS < before:
            at = self.unnamed.popleft()
            if any(abs(each - at) <= LOOKED_SECONDS for each in self.named):
                continue
            found: dict[str, facts.Turned] = {}
            for each in reversed(self.died):
                if each.at < at - UNORDERED_SECONDS:
                    break
                if each.id not in self.others and at - EARLY_SECONDS <= each.at <= at + LOOKED_SECONDS:
                    found.setdefault(each.id, each)
            if len(found) == 1:
                [fact] = found.values()
                yield facts.Known(max(fact.at, at), fact.id, fact.pod, reason=REASON)
