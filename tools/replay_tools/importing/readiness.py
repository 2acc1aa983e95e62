"""Since when the node was not Ready, and until when. A kubelet that does nothing for pods reports that each few
seconds. It reports nothing when it goes on, so its silence shows that."""

from __future__ import annotations

from collections.abc import Iterable, Iterator

from . import facts

# a kubelet that is not Ready reports that at least so often, and is Ready if it has not for so long
AGAIN_SECONDS, SILENT_SECONDS = 5.0, 15.0


class Readiness:
    """Whether the node is Ready, by the lines so far."""

    def __init__(self) -> None:
        self.is_ready = True
        self.reason = ""
        # when the kubelet reported last that it does nothing; None where a line has the condition itself
        self.said_at: float | None = None

    def over(self, found: Iterable[facts.Fact]) -> Iterator[facts.Fact]:
        """Facts, with each turn of the node's once."""
        for fact in found:
            if self.said_at is not None and fact.at - self.said_at > SILENT_SECONDS:
                yield facts.NodeReady(self.said_at + AGAIN_SECONDS, True)
                self.is_ready, self.said_at = True, None
            if isinstance(fact, facts.NodeReady):
                yield from self.taken(fact)
            else:
                yield fact

    def taken(self, fact: facts.NodeReady) -> Iterator[facts.Fact]:
        is_turn = fact.is_ready != self.is_ready or (not fact.is_ready and not self.reason and bool(fact.reason))
        if fact.is_condition:
            self.said_at = None
        elif is_turn or self.said_at is not None:
            self.said_at = fact.at
        if is_turn:
            self.is_ready, self.reason = fact.is_ready, fact.reason
            yield fact
