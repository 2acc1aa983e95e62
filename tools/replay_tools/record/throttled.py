"""For how long the processors of containers were throttled, of the kubelet's /metrics/cadvisor. An answer may have tens
of MB, of which the lines of one metric are kept; it is asked for in parallel with the polls, and none of them waits for
it."""

from __future__ import annotations

import math
import re
import time
from collections.abc import Callable, Iterable
from dataclasses import dataclass
from typing import Any, Optional, TYPE_CHECKING

from replay_tools import outside

from .pods import all_containers
from .runtime import CONTAINER_ID, RUNNING
from .sources import Failed, too_long

if TYPE_CHECKING:
    from .pods import Pod
    from .runtime import Instance
    from .sources import Sources

METRIC = "container_cpu_cfs_throttled_seconds_total"
PATH = "metrics/cadvisor"
LEFT_OUT = "for how long processors were throttled is left out"
ABSENT = f"no {METRIC} in the answer"
# the longest answer that is read, the longest of its lines, and the most series
MOST_BYTES = 64 << 20
LONGEST_LINE = 1 << 14
MOST_SERIES = 1 << 14
# it is asked for as often as what containers use is reported; more seldom where an answer takes longer than a twentieth
# of that, and where none came
ASKED_SECONDS = 10
SHARE = 20
AGAIN_SECONDS = 60
# a container that has just started is in no answer yet
MOST_ABSENT = 3

START = f"\n{METRIC}{{".encode()
LINE = re.compile(METRIC + r"\{(?P<labels>.*)\} (?P<value>[^ ]+)(?: (?P<moment>[0-9]{1,16}))?")
LABEL = re.compile(r'(?P<name>[a-zA-Z_][a-zA-Z0-9_]*)="(?P<value>(?:[^"\\]|\\.)*)"(?:,|$)')
ESCAPED = re.compile(r"\\(.)")
SECONDS = re.compile(r"[0-9]{1,19}(\.[0-9]{1,40})?(e[-+]?[0-9]{1,3})?")
# a container's cgroup: ../pod6b1d/3f2a or ../kubepods-pod6b1d.slice/cri-containerd-3f2a.scope
OF_GROUP = re.compile(r"(?:^|[/-])([0-9A-Za-z]+)(?:\.scope)?$")


@dataclass(frozen=True)
class Throttled:
    """For how many thousandths of a second an instance of a pod's container was throttled since it began, at a moment
    in seconds since 1970; None is that at which it was asked."""
    pod: str
    container: str
    value: int
    moment: Optional[float] = None


class Series:
    """Takes an answer part by part. What of it is no line of the metric, or one that names no container, or a value
    that is none, is passed over."""

    def __init__(self) -> None:
        self.size = 0
        # the begin of a line, after the end of the one before
        self.rest = b"\n"
        self.is_there = False
        self.found: dict[str, Throttled] = {}
        # the instances of which it has two values
        self.doubled: set[str] = set()

    def take(self, part: bytes) -> None:
        self.size += len(part)
        if self.size > MOST_BYTES:
            raise too_long(MOST_BYTES)
        text, at = self.rest + part, 0
        while (begin := text.find(START, at)) >= 0 and (end := text.find(b"\n", begin + 1)) >= 0:
            self.take_line(text[begin + 1:end])
            at = end
        end = text.rfind(b"\n")
        # a line that is too long is none of the metric, and what follows of it begins none
        self.rest = text[end:] if end >= 0 and len(text) - end <= LONGEST_LINE else b""

    def take_line(self, line: bytes) -> None:
        self.is_there = True
        read = series_of(line.decode("utf-8", "replace")) if len(line) <= LONGEST_LINE else None
        if read is None:
            return
        identity, series = read
        if self.found.setdefault(identity, series) != series:
            self.doubled.add(identity)
        if len(self.found) > MOST_SERIES:
            raise Failed(f"has more than {MOST_SERIES} series of {METRIC}, the most that are read")

    def whole(self) -> dict[str, Throttled]:
        """What a whole answer has, by the ids of the instances."""
        return {identity: series for identity, series in self.found.items() if identity not in self.doubled}


def series_of(line: str) -> tuple[str, Throttled] | None:
    """The id of an instance, and what a line shows of it."""
    parts = LINE.fullmatch(line)
    labels = None if parts is None else labels_of(parts["labels"])
    if parts is None or labels is None:
        return None
    container, pod = labels.get("container", ""), f"{labels.get('namespace', '')}/{labels.get('pod', '')}"
    identity, value = identity_in(labels), thousandths(parts["value"])
    moment = None if parts["moment"] is None else outside.moment(int(parts["moment"]) // 1000)
    is_named = identity is not None and outside.is_label(container) and outside.is_key(pod)
    if not is_named or identity is None or value is None or (moment is None and parts["moment"] is not None):
        return None
    return identity, Throttled(pod, container, value, moment and int(parts["moment"]) / 1000)


def labels_of(text: str) -> dict[str, str] | None:
    """The labels of a series; None where they are none."""
    found: dict[str, str] = {}
    at = 0
    while at < len(text):
        label = LABEL.match(text, at)
        if label is None or label["name"] in found:
            return None
        found[label["name"]] = ESCAPED.sub(lambda each: "\n" if each[1] == "n" else each[1], label["value"])
        at = label.end()
    return found


def identity_in(labels: dict[str, str]) -> str | None:
    """The id of the instance: the last part of its cgroup, or its name."""
    of_group = OF_GROUP.search(labels.get("id", ""))
    if of_group is not None:
        return of_group[1]
    return labels["name"] if CONTAINER_ID.fullmatch(labels.get("name", "")) else None


def thousandths(text: str) -> int | None:
    """A time in seconds, at least 0, in thousandths of one."""
    value = float(text) * 1000 if SECONDS.fullmatch(text) else math.inf
    return outside.whole(round(value)) if math.isfinite(value) else None


def asked(sources: Sources) -> dict[str, Throttled]:
    """Asks for it, and waits for the answer; Failed where none comes, or none that has the metric."""
    series = Series()
    sources.stream(PATH, series.take)
    if not series.is_there:
        raise Absent(f"/{PATH}: {ABSENT}")
    return series.whole()


class Absent(Failed):
    """An answer without the metric, as where no container with a limit runs."""


class Throttling:
    """Asks for it in parallel with the polls, one time after the other; `say` takes what is reported of answers that do
    not come."""

    def __init__(self, sources: Sources, say: Callable[..., None]) -> None:
        self.sources = sources
        self.say = say
        self.asked_at: Optional[float] = None
        self.wait: float = ASKED_SECONDS
        self.is_asking = False
        self.absent = 0
        # what has come, for how long it took, once it has
        self.come: Any = None

    def begin(self, moment: float) -> None:
        """Begins to ask at a poll, where it is due."""
        is_due = self.asked_at is None or not 0 <= int(moment) - int(self.asked_at) < self.wait
        if self.is_asking or not is_due:
            return
        self.asked_at, self.is_asking = moment, True
        try:
            self.sources.beside(self.ask)
        except Failed as failed:
            self.come = Failed(f"/{PATH} {failed}"), 0

    def ask(self) -> None:
        begun = time.monotonic()
        answer: Any = Failed(f"/{PATH} gave no answer")
        try:
            answer = asked(self.sources)
        except Failed as failed:
            answer = failed
        finally:
            self.come = answer, time.monotonic() - begun

    def taken(self) -> dict[str, Throttled]:
        """What has come since it was taken last, by the ids of the instances."""
        if self.come is None:
            return {}
        (answer, took), self.come, self.is_asking = self.come, None, False
        self.absent = self.absent + 1 if isinstance(answer, Absent) else 0
        is_early = 0 < self.absent < MOST_ABSENT
        self.wait = max(AGAIN_SECONDS if isinstance(answer, Failed) and not is_early else ASKED_SECONDS, SHARE * took)
        if not isinstance(answer, Failed):
            return answer
        if not is_early:
            self.say(f"{answer}; {LEFT_OUT}")
        return {}


def are_limited(pods: Iterable[Pod], instances: dict[str, list[Instance]]) -> bool:
    """Whether a container runs whose processor has a limit: nothing else is ever throttled."""
    for pod in pods:
        running = {each.container for each in instances.get(pod.uid, []) if each.state == RUNNING}
        if running and not running.isdisjoint(limited(pod)):
            return True
    return False


def limited(pod: Pod) -> set[str]:
    """The containers of a pod whose processors have a limit, by its newest spec."""
    if pod.fault is not None:
        return set()
    return {each["name"] for each in all_containers(pod.manifest)
            if "cpu" in ((each.get("resources") or {}).get("limits") or {})}
