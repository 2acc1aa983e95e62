"""What a line reports, whatever its form: one kind of fact for each kind of message. Moments are seconds since 1970."""

from __future__ import annotations

from dataclasses import dataclass
from typing import Optional

STARTED, DIED = "started", "died"


@dataclass(frozen=True)
class Reference:
    """A pod as a line names it: NAMESPACE/NAME and its uid, one of which may be unknown."""
    key: Optional[str] = None
    uid: Optional[str] = None


# no two facts are compared, and none is printed: without these methods the importer starts sooner
@dataclass(eq=False, repr=False)
class Fact:
    at: float


@dataclass(eq=False, repr=False)
class Process(Fact):
    """The kubelet's process, where it is another one than before; and the node's name, where a line has it."""
    process: int
    node: str = ""


@dataclass(eq=False, repr=False)
class Begun(Fact):
    """The kubelet was started."""


@dataclass(eq=False, repr=False)
class NodeName(Fact):
    name: str


@dataclass(eq=False, repr=False)
class Missing(Fact):
    """A journal has not all lines since the one before it, where that is known, or the clock went forward."""
    since: Optional[float] = None


@dataclass(eq=False, repr=False)
class TurnedBack(Fact):
    """The node's clock went back by so many seconds from a moment. Moments after that are so much later than it
    shows."""
    seconds: int
    since: float = 0.0


@dataclass(eq=False, repr=False)
class Added(Fact):
    pod: Reference
    source: str = ""


@dataclass(eq=False, repr=False)
class Updated(Fact):
    """The object of a pod has changed, as where an ephemeral container is added."""
    pod: Reference


@dataclass(eq=False, repr=False)
class Deleted(Fact):
    pod: Reference
    source: str = ""


@dataclass(eq=False, repr=False)
class Removed(Fact):
    pod: Reference
    source: str = ""


@dataclass(eq=False, repr=False)
class Turned(Fact):
    """The kubelet's poll found, or its runtime reported, that a container or a sandbox has started or has died. The
    runtime's moment is exact."""
    pod: Reference
    id: str
    what: str
    is_exact: bool = False


@dataclass(eq=False, repr=False)
class Known(Fact):
    """What a line shows of one instance of a container by its id: each part of it may be unknown."""
    id: str
    pod: Reference = Reference()
    container: Optional[str] = None
    attempt: Optional[int] = None
    started: Optional[float] = None
    finished: Optional[float] = None
    code: Optional[int] = None
    reason: Optional[str] = None
    is_sandbox: bool = False


@dataclass(eq=False, repr=False)
class Created(Fact):
    """A container of a pod is started now, by its name; its id is in another line. What the cluster has may be of a
    pod of another node."""
    pod: Reference
    container: str
    is_of_cluster: bool = False


@dataclass(eq=False, repr=False)
class Probed(Fact):
    """The result of a probe: success or failure, and what it put out."""
    pod: Reference
    container: str
    probe: str
    result: str
    output: str = ""


@dataclass(eq=False, repr=False)
class Turnover(Fact):
    """What all results of a probe have come to, of a pod whose container is not named: ready, unready, started."""
    pod: Reference
    probe: str
    status: str


@dataclass(eq=False, repr=False)
class Killing(Fact):
    """The kubelet ends an instance: its grace, and why, as far as a line has that."""
    id: str
    pod: Reference = Reference()
    container: Optional[str] = None
    grace: Optional[int] = None
    why: str = ""


@dataclass(eq=False, repr=False)
class Waits(Fact):
    """A container waits, and why."""
    pod: Reference
    container: str
    reason: str
    message: str


@dataclass(eq=False, repr=False)
class Observed(Fact):
    """A round of the eviction manager, and what it found of a signal; None if a line only shows that there was one."""
    signal: Optional[str] = None
    available: Optional[int] = None
    capacity: Optional[int] = None


@dataclass(eq=False, repr=False)
class HardThresholds(Fact):
    """The hard thresholds of the configuration with which the kubelet was started: limits by signal."""
    limits: dict[str, str]


@dataclass(eq=False, repr=False)
class SoftThreshold(Fact):
    """A soft threshold that is met, and whose grace period is not over."""
    signal: str
    limit: str
    grace: str


@dataclass(eq=False, repr=False)
class Flag(Fact):
    """A flag of the kubelet's that may set thresholds, with its value."""
    name: str
    value: str


@dataclass(eq=False, repr=False)
class Below(Fact):
    """A round has a threshold among those that are met, or whose reclaim is not there yet: its limit, and what was
    observed."""
    signal: str
    limit: int
    observed: int
    is_unreclaimed: bool = False


@dataclass(eq=False, repr=False)
class Pressure(Fact):
    """The conditions of the node that a round has met, or else those that are true by it."""
    conditions: frozenset[str]
    is_met: bool = False


@dataclass(eq=False, repr=False)
class Reclaims(Fact):
    """The node is short of a resource, and the eviction manager begins to reclaim it."""
    resource: str


@dataclass(eq=False, repr=False)
class Ranked(Fact):
    pods: tuple[Reference, ...]


@dataclass(eq=False, repr=False)
class Evicted(Fact):
    """The kubelet has evicted a pod, which it reports once it has stopped the pod's containers, or could not; or it has
    cleaned up after that."""
    pod: Reference
    is_cleaned_up: bool = False


@dataclass(eq=False, repr=False)
class Refused(Fact):
    """The kubelet did not admit a pod, since the node was under pressure."""
    pod: Reference
    conditions: str


@dataclass(eq=False, repr=False)
class Ended(Fact):
    """The kubelet ended a pod for a reason of its own, or did not admit it: no eviction under pressure of the node.
    What was ended may have exited before the line that reports it."""
    pod: Reference
    reason: str
    message: str = ""
    is_refused: bool = False
    is_late: bool = False


@dataclass(eq=False, repr=False)
class Readied(Fact):
    """A status has the condition Ready: its value, and since when it has that."""
    pod: Reference
    is_ready: bool
    since: Optional[float] = None


@dataclass(eq=False, repr=False)
class Happened(Fact):
    """An Event that the kubelet made of a pod, or of one of its containers; or a line of the kubelet's with the
    same, about a pod of its own."""
    pod: Reference
    reason: str
    message: str
    count: int = 1
    container: Optional[str] = None
    is_line: bool = False


@dataclass(eq=False, repr=False)
class OutOfMemory(Fact):
    """The kernel killed a process since a memory limit was reached: of a container, where a line has its id."""
    id: Optional[str] = None


@dataclass(eq=False, repr=False)
class NodeReady(Fact):
    """The node is Ready, or not and why; whether a line has the condition itself, or a reason why it is not Ready."""
    is_ready: bool
    reason: str = ""
    is_condition: bool = False
