"""The container runtime's instances, of `crictl ps -a` and `crictl inspect`, and what became of them between polls."""

from __future__ import annotations

import re
from collections.abc import Callable
from dataclasses import dataclass, replace
from typing import Any, Optional, TYPE_CHECKING

from replay_tools import dates

from .answers import read_json, read_parts
from .formats import whole_fault
from .reasons import OUT_OF_MEMORY, Reason, reason_of
from .sources import Failed, reads

if TYPE_CHECKING:
    from .answers import Answer

CREATED, RUNNING, EXITED, UNKNOWN = ("CONTAINER_CREATED", "CONTAINER_RUNNING", "CONTAINER_EXITED", "CONTAINER_UNKNOWN")
MOMENT = re.compile(r"(\d{4})-(\d\d)-(\d\d)T(\d\d):(\d\d):(\d\d)([.]\d+)?(Z|([+-])(\d\d):(\d\d))")
CONTAINER_ID = re.compile(r"[0-9A-Za-z]+")
# the code of an exit that the formats take from an instance that is no longer listed
LOST_CODE = 137


@dataclass(frozen=True)
class Instance:
    """One instance of a container. Moments are seconds since 1970, and None if the runtime did not have them."""
    id: str
    uid: str
    container: str
    attempt: int
    state: str
    created: int
    started: Optional[float] = None
    finished: Optional[float] = None
    exit_code: Optional[int] = None
    reason: Optional[Reason] = None


@dataclass(frozen=True)
class End:
    """How an instance ended, as its pod's status reports it; moments as of an instance."""
    started: Optional[float]
    finished: Optional[float]
    exit_code: int
    reason: Optional[Reason]

    def of(self, instance: Instance) -> Instance:
        """The instance as it ended, which the runtime may know no more."""
        started = self.started if instance.started is None else instance.started
        return replace(instance, state=EXITED, started=started, finished=self.finished, exit_code=self.exit_code,
                       reason=self.reason)


@dataclass(frozen=True)
class Listing:
    """What a tick lists of a container; None represents no listing. `ended` is the instance before, if the tick of this
    one's start has its exit too."""
    attempt: int
    state: str
    exit_code: Optional[int] = None
    reason: Optional[Reason] = None
    ended: Optional[Listing] = None


@dataclass(frozen=True)
class Change:
    """From a moment on a container is listed so. A quiet change is written with the next tick, and needs none of its
    own."""
    moment: float
    listing: Optional[Listing]
    is_quiet: bool = False

    @property
    def is_out_of_memory(self) -> bool:
        """What ran out of memory was not ended by the kubelet, which sees it some time after."""
        reason = None if self.listing is None else self.listing.reason
        return reason is not None and reason.word == OUT_OF_MEMORY


def moment_of(text: str | None) -> float | None:
    """The seconds since 1970 of a moment as Go writes it, or None for its zero."""
    parts = MOMENT.fullmatch(text or "")
    if parts is None:
        return None
    year, month, day, hour, minute, second = map(int, parts.groups()[:6])
    seconds, shift = dates.seconds_of(year, month, day, hour, minute, second), dates.shift_of(parts[8])
    if seconds is None or shift is None or seconds - shift <= 0:
        return None
    return seconds - shift + float(parts[7] or 0)


def code_fault(code: int) -> str | None:
    return whole_fault(code, -2 ** 31, 2 ** 31 - 1)


def instance_of(item: Any) -> Instance:
    """A container of the runtime's list. Raises Failed where the list is none that the runtime gives."""
    labels, metadata = item.get("labels") or {}, item.get("metadata") or {}
    state, identity = item.get("state"), item.get("id")
    if state not in (CREATED, RUNNING, EXITED, UNKNOWN):
        raise Failed(f"crictl ps: a container's state is {state}")
    if not isinstance(identity, str) or not CONTAINER_ID.fullmatch(identity):
        raise Failed(f"crictl ps: a container's id is {identity}")
    attempt = metadata.get("attempt") or 0
    if whole_fault(attempt, 0, 2 ** 31 - 1):
        raise Failed(f"crictl ps: a container's attempt is {attempt}")
    return Instance(identity, str(labels.get("io.kubernetes.pod.uid", "")),
                    str(labels.get("io.kubernetes.container.name") or metadata.get("name") or ""),
                    attempt, state, int(item.get("createdAt") or 0))


@reads("crictl ps")
def instances_of(text: Answer) -> list[Instance]:
    """The instances of a list, in the order in which they were created."""
    answer = read_parts(text, "crictl ps", "containers", instance_of)
    containers = answer.get("containers") if isinstance(answer, dict) else None
    if not isinstance(containers, list):
        raise Failed("crictl ps: no list of containers in the answer")
    return sorted(containers, key=lambda instance: (instance.created, instance.attempt))


@reads("crictl inspect")
def inspected_of(text: Answer, instance: Instance) -> Instance:
    """An instance with what `crictl inspect` has of it. A code of 0 may be left out of an answer."""
    answer: Any = read_json(text, f"crictl inspect {instance.id}")
    answer = answer[0] if isinstance(answer, list) and answer else answer
    status = answer.get("status") if isinstance(answer, dict) else None
    if not isinstance(status, dict) or status.get("id") != instance.id:
        raise Failed(f"crictl inspect {instance.id}: the answer is of another container")
    started = moment_of(status.get("startedAt"))
    if status.get("state") != EXITED:
        return replace(instance, started=started)
    code = status.get("exitCode") or 0
    if code_fault(code):
        raise Failed(f"crictl inspect {instance.id}: the exit code is {code}")
    return replace(instance, state=EXITED, started=started, finished=moment_of(status.get("finishedAt")),
                   exit_code=code, reason=reason_of(status))


class Container:
    """What was seen of one container of a recorded pod: its newest instance, and how its attempts are written."""

    def __init__(self, place: str, say: Callable[..., None]) -> None:
        self.place = place
        self.say = say
        self.newest: Instance | None = None
        self.is_listed = False
        self.has_started = False
        self.is_unknown = False
        # how the attempt of the newest is written
        self.attempt = self.shift = 0
        # since when the runtime no longer has the newest, where its pod's status may have its code yet
        self.missed_since: float | None = None

    def first_changes(self, instances: list[Instance], moment: float) -> list[Change]:
        """What the first poll shows of it: its newest instance alone, as it is at that moment."""
        newest = instances[-1]
        self.begin(newest)
        self.newest, self.has_started = newest, newest.state != CREATED
        self.is_unknown = newest.state == UNKNOWN
        return [Change(moment, Listing(self.attempt, newest.state, newest.exit_code, newest.reason))]

    def changes(self, instances: list[Instance], moment: float) -> list[Change]:
        """What became of it since the last poll, by its instances in the order of their creation."""
        newest, newer = self.newest, instances
        missed_since, self.missed_since = self.missed_since, None
        made: list[Change] = []
        if newest is not None:
            newer = [each for each in instances if (each.created, each.attempt) >= (newest.created, newest.attempt)]
            made += self.vanished(newest, newer, moment if missed_since is None else missed_since, moment)
        for instance in newer:
            if instance.state == EXITED and instance.exit_code is None:
                self.missed_since = instance.finished
                break
            made += self.of_instance(instance, moment)
        return made

    def vanished(self, newest: Instance, newer: list[Instance], missed_since: float, moment: float) -> list[Change]:
        """The newest instance so far is no longer listed. Where it had not exited its code is lost; the successor's
        listing shows it, or that none is there."""
        if not self.is_listed or any(each.id == newest.id for each in newer):
            return []
        self.is_listed = False
        has_exited = newest.state == EXITED
        if not has_exited:
            self.say(f"{self.place}: attempt {self.attempt} was removed before its exit code was known, which counts "
                     f"as {LOST_CODE}")
        return [] if newer else [Change(moment if has_exited else missed_since, None, has_exited)]

    def begin(self, instance: Instance) -> Instance:
        """Another instance is the newest, which is answered as it was made. The formats need a greater attempt for
        each."""
        number = instance.attempt + self.shift
        if self.newest is not None and number <= self.attempt:
            self.say(f"{self.place}: attempt {instance.attempt} after {self.attempt} is written as {self.attempt + 1}")
            number = self.attempt + 1
        missed = 0 if self.newest is None else number - self.attempt - 1
        if missed:
            instances = "instance" if missed == 1 else "instances"
            self.say(f"{self.place}: {missed} {instances} before attempt {number} came and went unseen")
        self.shift = number - instance.attempt
        self.attempt = number
        self.newest = made = replace(instance, state=CREATED)
        self.is_listed, self.has_started, self.is_unknown = True, False, False
        return made

    def of_instance(self, instance: Instance, moment: float) -> list[Change]:
        """The changes that an instance shows, which may be the newest or one more."""
        before = self.newest
        was_replaced = before is not None
        if before is None or not self.is_listed or before.id != instance.id or has_come_back(before, instance):
            before = self.begin(instance)
        self.newest = instance
        if before.state == EXITED:
            return []
        if instance.state == CREATED:
            # shown if nothing else was: until it runs, the one before it is listed as it exited
            made = instance.created / 1e9 or moment
            return [] if was_replaced else [Change(made, Listing(self.attempt, CREATED), True)]
        if instance.state == UNKNOWN:
            self.newest = before
        return self.unknown(instance, moment) + self.started(instance, moment) + self.exited(instance, moment)

    def unknown(self, instance: Instance, moment: float) -> list[Change]:
        """The runtime no longer knows its state, or knows it again."""
        was_unknown, self.is_unknown = self.is_unknown, instance.state == UNKNOWN
        if self.is_unknown == was_unknown or instance.state == EXITED:
            return []
        return [Change(moment, Listing(self.attempt, instance.state), True)]

    def started(self, instance: Instance, moment: float) -> list[Change]:
        has_run = instance.state == RUNNING or instance.started is not None
        if self.has_started or not has_run:
            return []
        self.has_started = True
        return [Change(moment if instance.started is None else instance.started, Listing(self.attempt, RUNNING))]

    def exited(self, instance: Instance, moment: float) -> list[Change]:
        if instance.state != EXITED:
            return []
        return [Change(moment if instance.finished is None else instance.finished,
                       Listing(self.attempt, EXITED, instance.exit_code, instance.reason))]


def has_come_back(before: Instance, now: Instance) -> bool:
    return before.state == EXITED and now.state != EXITED
