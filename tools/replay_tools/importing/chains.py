"""The instances of a pod's containers: what lines show of one instance, the instances of one container, and the lines
that name a container without an instance."""

from __future__ import annotations

import bisect
from collections.abc import Iterator
from dataclasses import dataclass, field
from typing import Optional, TYPE_CHECKING

if TYPE_CHECKING:
    from . import facts

# starts that the kubelet reported within so many seconds came from one poll
LOOK_SECONDS = 0.4
# how long a container waits for its next start, by how often it exited
BACK_OFFS = (0.0, 10.0, 20.0, 40.0, 80.0, 160.0, 300.0)
# a container of which no line has the name
UNNAMED = "unnamed"
# a start comes so soon after the exit that no line has
AFTER = 0.0001
# the poll that finds what could not be started comes at most so long after the line that reports it
FAILED_SECONDS = 2.0
# a pod has at most so many containers in a trace, and so many names are kept of one without a manifest
MOST_CHAINS, MOST_NAMES = 16, 64
# so many of the lines after a moment are searched for one that shows that a container waits
MOST_NEXT = 100


@dataclass(eq=False)
class Instance:
    """One instance of a container, or a sandbox: when the kubelet's look found it started and exited, what is known
    exactly, and how it ended. `name` is its container's, once it is known or found."""
    id: str
    seen: Optional[float] = None
    gone: Optional[float] = None
    started: Optional[float] = None
    finished: Optional[float] = None
    name: Optional[str] = None
    attempt: Optional[int] = None
    code: Optional[int] = None
    reason: Optional[str] = None
    is_sandbox: bool = False
    is_found: bool = False
    is_met: bool = False
    killing: Optional[facts.Killing] = None
    written: Optional[int] = None
    # the seconds in which its start and its exit are placed
    started_in: int = 0
    ended_in: int = 0
    has_ended: bool = False
    # whether the kubelet's look found it, and its exit alone
    is_looked: bool = False
    is_unseen: bool = False
    # whether no line has its exit, and whether it could not be started, so that it never ran
    is_lost: bool = False
    never_ran: bool = False

    @property
    def looked_at(self) -> float:
        """When the kubelet's look found it: one that came and went between two looks as it exited."""
        return (self.gone if self.is_unseen and not self.is_met else self.seen) or 0.0

    @property
    def begin(self) -> Optional[float]:
        """When it started, as exactly as is known."""
        return self.seen if self.started is None or self.is_met else self.started

    @property
    def end(self) -> Optional[float]:
        return self.gone if self.finished is None else self.finished

    @property
    def is_killed(self) -> bool:
        """Whether the kubelet ordered to stop it before it exited. It also orders to stop what has exited, as in a pod
        that has ended."""
        if self.killing is None:
            return False
        latest = self.gone if self.gone is not None or self.finished is None else self.finished + 1
        return latest is None or self.killing.at <= latest

    @property
    def is_guess(self) -> bool:
        """Whether no line has its start, where that is not written yet."""
        return self.is_unseen and self.started is None and self.gone is not None and self.written is None

    def know(self, known: facts.Known) -> None:
        """Takes what a line shows of it; what was known stays."""
        self.name = self.name if known.container is None or (self.name and not self.is_found) else known.container
        self.is_found = self.is_found and known.container is None
        self.attempt = known.attempt if self.attempt is None else self.attempt
        self.started = known.started if self.started is None else self.started
        self.finished = known.finished if self.finished is None else self.finished
        self.code = known.code if self.code is None else self.code
        self.reason = known.reason if self.reason is None else self.reason
        self.is_sandbox = self.is_sandbox or known.is_sandbox


@dataclass(eq=False)
class Chain:
    """The instances of one container, one after the other, whose name may not be known yet."""
    instances: list[Instance]
    name: Optional[str] = None

    @property
    def newest(self) -> Instance:
        return self.instances[-1]

    def is_down(self, at: float) -> bool:
        """Whether none of them runs at a moment."""
        each = self.running_at(at)
        return each is not None and each.gone is not None and each.gone <= at + LOOK_SECONDS

    def running_at(self, at: float) -> Optional[Instance]:
        """The last instance that started by a moment: they are in the order of their starts."""
        low, high = 0, len(self.instances)
        while low < high:
            middle = (low + high) // 2
            low, high = (middle + 1, high) if (self.instances[middle].seen or 0.0) <= at else (low, middle)
        return self.instances[low - 1] if low > 0 else None

    def end_of_running(self, at: float) -> float:
        """When the instance that runs at a moment ends; 0 where none runs, or its end is not known."""
        each = self.running_at(at)
        return 0.0 if each is None or each.end is None else each.end

    def is_open(self) -> bool:
        """Whether an instance has no exit though another one follows it, or its start is guessed."""
        if any(each.end is None for each in self.instances[:-1]):
            return True
        return any(each.is_unseen and each.is_guess for each in self.instances)

    def unplaced(self) -> Iterator[float]:
        """The moments of the starts and exits that are not placed yet, or a little before them."""
        for each in self.instances:
            if each.written is None and each.begin is not None:
                yield each.begin - AFTER
            if each.end is not None and not each.has_ended:
                yield each.end

    def expected(self) -> float:
        """When its next start is due."""
        exits = len(self.instances) - 1
        return (self.newest.gone or 0.0) + BACK_OFFS[min(exits, len(BACK_OFFS) - 1)]


@dataclass
class Hints:
    """The moments at which lines name a container: one that waits, that is made, that is probed."""
    waits: list[tuple[float, str]] = field(default_factory=list)
    created: list[tuple[float, str]] = field(default_factory=list)
    probed: list[tuple[float, str]] = field(default_factory=list)
    # lines that a container could not be started, and that the pod's object has changed
    failed: list[tuple[float, str]] = field(default_factory=list)
    updated: list[float] = field(default_factory=list)

    def has_wait(self, name: str, since: float) -> bool:
        """Whether a line shows from a moment on that a container waits."""
        place = bisect.bisect_left(self.waits, (since, ""))
        return any(each == name for _, each in self.waits[place:place + MOST_NEXT])

    def forget(self, before: float) -> None:
        for kept in (self.waits, self.created, self.probed, self.failed):
            kept[:] = [each for each in kept if each[0] >= before]
        self.updated = [at for at in self.updated if at >= before]
