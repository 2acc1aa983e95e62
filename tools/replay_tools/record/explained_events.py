"""Reads the events that the program's command `causes` prints, each with its causes (docs/why.md). A line that is no
event and no cause is a fault, and so is an event with other causes than it can have."""

from __future__ import annotations

import functools
import re
from collections.abc import Iterable, Iterator
from dataclasses import dataclass
from typing import Optional

from replay_tools import outside

from .causes import LABEL, NAME, NOTHING, WHOLE, Cause, CausesFault, Nobody, Paused, cause_of, line_of

# these come without an event
ALONE = (Paused, Nobody)
CHOICE = "acted-on( other)* candidates( candidate)+"
# the kinds of the causes of each event, in their order
OF_EVENTS = {
    "died": "unlisted|exited", "started": "listed", "startup-passed": "success", "kill": "failures",
    "ready": "up (successes|unprobed)", "unready": "was-ready (left( newer)?|failures)",
    "backoff": "exit wanted delay", "restart": "exit wanted delay due lives",
    "phase": "case (failed|init-failed decided|awaited|completed( completed)*|stopped decided( stopped decided)*"
             "|unfinished( decided)?)",
    "threshold": "sample", "pressure": "active( active)*|met", "reclaim": "asks reclaimed",
    "evicted": f"{CHOICE} ordered( grace)?( pause)?", "names": f"same|{CHOICE}( more)? ordered",
}
OF_NODE = ("threshold", "pressure", "reclaim", "evicted", "names")
EVENT = re.compile(rf"event ({WHOLE}) (?:node|({LABEL}/{NAME}) (-|{LABEL})) ({'|'.join(OF_EVENTS)})((?: [!-~]+)*)",
                   re.ASCII)


@dataclass(frozen=True)
class Event:
    """An event as its line in the report has it."""

    at: int
    pod: Optional[str]
    """its key; None of an event of the node"""
    container: Optional[str]
    word: str
    rest: tuple[str, ...]
    """the values after the word (docs/report.md)"""

    def line(self) -> str:
        """The line, without a newline."""
        subject = "node" if self.pod is None else f"{self.pod} {self.container or NOTHING}"
        return " ".join(["event", str(self.at), subject, self.word, *self.rest])


@dataclass(frozen=True)
class Explained:
    """An event with its causes; or, without an event, a threshold that evicts nobody."""

    event: Optional[Event]
    causes: tuple[Cause, ...]

    def lines(self) -> list[str]:
        """Its lines, without newlines."""
        return [*([] if self.event is None else [self.event.line()]), *(cause.line() for cause in self.causes)]


def read(lines: Iterable[str]) -> Iterator[Explained]:
    """What the lines of a text have, one after the other. Each line has its newline, as a file gives it. Raises
    CausesFault."""
    event: Event | None = None
    causes: list[Cause] = []
    begin = 0
    for number, line in enumerate(lines, 1):
        if not line.endswith("\n"):
            raise CausesFault(f"line {number} of the causes is cut")
        is_event = line.startswith("event ")
        cause = None if is_event else cause_of(number, line[:-1])
        if cause is not None and not isinstance(cause, ALONE):
            if event is None:
                raise CausesFault(f"line {number} of the causes has no event in front of it: {line[:-1]}")
            causes.append(cause)
            continue
        if event is not None:
            yield explained(event, causes, begin)
        event, causes, begin = event_of(number, line[:-1]) if is_event else None, [], number
        if cause is not None:
            yield Explained(None, (cause,))
    if event is not None:
        yield explained(event, causes, begin)


def explained(event: Event, causes: list[Cause], begin: int) -> Explained:
    """An event, whose line has this number, with all its causes. Raises CausesFault if they are not those of its
    word."""
    kinds = " ".join(line_of(type(cause)).name for cause in causes)
    if not has_causes(event.word, kinds):
        raise CausesFault(f"line {begin} of the causes: the event {event.word} has not these causes: {kinds or 'none'}")
    return Explained(event, tuple(causes))


@functools.lru_cache(1 << 12)
def has_causes(word: str, kinds: str) -> bool:
    return re.fullmatch(OF_EVENTS[word], kinds) is not None


def event_of(number: int, line: str) -> Event:
    """The event of a line. Raises CausesFault."""
    found = EVENT.fullmatch(line)
    if found is None or (found[2] is None) != (found[4] in OF_NODE):
        raise CausesFault(f"line {number} of the causes is no event: {outside.visible(line)}")
    at, pod, container, word, rest = found.groups()
    return Event(int(at), pod, None if container == NOTHING else container, word, tuple(rest.split()))
