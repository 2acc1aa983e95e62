"""The node line, of the kubelet's /configz and the capacities of /stats/summary."""

from __future__ import annotations

import math
import re
import struct
from dataclasses import dataclass
from fractions import Fraction
from typing import Any, TYPE_CHECKING

from replay_tools.signals import SIGNALS

from .answers import read_json
from .formats import (at_place, duration_fault, first_fault, is_percentage, limit_fault, name_fault, percentage_fault,
                      seconds_of, whole_fault, without_nones)
from .rounds import are_told
from .sources import Failed, reads

if TYPE_CHECKING:
    from .answers import Answer
    from .lines import Format
    from .summary import Summary

GRACES = "evictionSoftGracePeriod"
RECLAIMS = "evictionMinimumReclaim"
# what the formats don't read: the ticks show what the kubelet did, so if they show nothing it evicted none; but for a
# node of which nothing is sampled, as by its runtime alone
TELLS = {"recordsKubelet": True}
PERCENT_NUMBER = re.compile(r"[0-9]+[.]?[0-9]*|[.][0-9]+")
GO_DURATION = re.compile(r"[+]?(0|(([0-9]+[.]?[0-9]*|[.][0-9]+)(h|ms|m|s|us|µs|μs|ns))+)")
GO_UNITS = {"h": Fraction(3600), "m": Fraction(60), "s": Fraction(1), "ms": Fraction(1, 10 ** 3),
            "us": Fraction(1, 10 ** 6), "µs": Fraction(1, 10 ** 6), "μs": Fraction(1, 10 ** 6),
            "ns": Fraction(1, 10 ** 9)}


@dataclass
class NodeLine:
    """A node line, and what is to be reported of it."""
    fields: dict
    notes: list


def single(number: float) -> float:
    """The nearest number of 32 bits, as the kubelet keeps a percentage."""
    return struct.unpack("f", struct.pack("f", number))[0]


def share(percentage: str, capacity: int) -> int | None:
    """The amount of a capacity that a percentage is, rounded as the kubelet does; None where it is no percentage."""
    number = percentage.rstrip("%")
    if not PERCENT_NUMBER.fullmatch(number):
        return None
    return int(float(capacity) * single(single(float(number)) / 100))


def whole_duration(duration: str) -> str | None:
    """A duration of Go's, rounded up to whole seconds, as the formats write it; None where it is none."""
    if not isinstance(duration, str) or not GO_DURATION.fullmatch(duration):
        return None
    parts = re.findall(r"([0-9.]+)(h|ms|m|s|us|µs|μs|ns)", duration)
    return f"{math.ceil(sum(Fraction(number) * GO_UNITS[unit] for number, unit in parts))}s"


class Reader:
    """Takes over the fields of a configuration one by one, with what is to be printed of them and what is at fault."""

    def __init__(self, capacity: dict[str, int]) -> None:
        self.capacity = capacity
        self.notes: list[str] = []
        self.faults: list[str | None] = []

    def limit(self, field: str, signal: str, value: Any) -> int | str:
        """A limit as the formats take it: a percentage that they don't take becomes the amount that it is."""
        if is_percentage(value) and percentage_fault(value) and signal in self.capacity:
            amount = share(value, self.capacity[signal])
            if amount is not None:
                self.notes.append(f"{field} {signal}: {value} is written as {amount}, that share of the capacity")
                return amount
        self.faults.append(at_place(f"{field} {signal}", limit_fault(value)))
        return value

    def duration(self, place: str, value: Any) -> str:
        """A duration as the formats take it: rounded up to whole seconds."""
        if duration_fault(value) and whole_duration(value):
            self.notes.append(f"{place}: {value} is written as {whole_duration(value)}, in whole seconds")
            value = whole_duration(value)
        self.faults.append(at_place(place, duration_fault(value)))
        return value

    def is_kept(self, field: str, signal: str, value: Any) -> bool:
        """Whether a threshold stays in the node line; a note has why the formats would reject each other one."""
        if signal not in SIGNALS:
            self.notes.append(f"{field} {signal} is left out: the formats have no such signal")
            return False
        if field == GRACES or not is_percentage(value) or signal in self.capacity:
            return True
        if field != RECLAIMS and sets_no_threshold(value):
            return True
        self.notes.append(f"{field} {signal} is left out: the summary has no capacity for {value}")
        return False

    def limits(self, field: str, values: dict[str, str]) -> dict[str, int | str]:
        return {signal: self.limit(field, signal, value)
                for signal, value in values.items() if self.is_kept(field, signal, value)}

    def graces(self, values: dict[str, str]) -> dict[str, str]:
        return {signal: self.duration(f"{GRACES} {signal}", value)
                for signal, value in values.items() if self.is_kept(GRACES, signal, value)}

    def restart_delay(self, back_off: dict[str, str] | None) -> int | None:
        """The greatest delay of a restart, in seconds, or None where the configuration has none."""
        period = (back_off or {}).get("maxContainerRestartPeriod")
        if period is None:
            return None
        place = "crashLoopBackOff.maxContainerRestartPeriod"
        written = self.duration(place, period)
        if duration_fault(written):
            return None
        self.faults.append(at_place(place, whole_fault(seconds_of(written), 1, 300)))
        return seconds_of(written)

    def fields(self, read: dict[str, Any]) -> dict[str, Any]:
        """The fields of eviction and of restarts. An absent evictionHard sets no threshold: the kubelet has put in
        its defaults before it answers."""
        if read.get("mergeDefaultEvictionSettings"):
            self.notes.append("mergeDefaultEvictionSettings is not followed")
        grace, period = read.get("evictionMaxPodGracePeriod"), read.get("evictionPressureTransitionPeriod")
        if grace is not None:
            self.faults.append(at_place("evictionMaxPodGracePeriod", whole_fault(grace, 0, 2 ** 31 - 1)))
        return {"evictionHard": self.limits("evictionHard", read.get("evictionHard") or {}),
                "evictionSoft": self.limits("evictionSoft", read.get("evictionSoft") or {}),
                GRACES: self.graces(read.get(GRACES) or {}),
                RECLAIMS: self.limits(RECLAIMS, read.get(RECLAIMS) or {}),
                "evictionMaxPodGracePeriod": grace,
                "evictionPressureTransitionPeriod":
                    None if period is None else self.duration("evictionPressureTransitionPeriod", period)}


def sets_no_threshold(value: Any) -> bool:
    return percentage_fault(value) is None and float(value.rstrip("%")) in (0, 100)


@reads("/configz")
def node_line_of(text: Answer, name: str, summary: Summary, node_format: Format) -> NodeLine:
    """The node line of an answer of /configz; Failed if the formats do not take what it has."""
    answer = read_json(text, "/configz")
    read = answer.get("kubeletconfig") if isinstance(answer, dict) else None
    if not isinstance(read, dict):
        raise Failed("/configz: no kubeletconfig in the answer")
    reader = Reader(summary.capacity)
    fields = reader.fields(read)
    delay = reader.restart_delay(read.get("crashLoopBackOff"))
    fault = first_fault([at_place("the node's name", name_fault(name)), *reader.faults])
    if fault is not None:
        raise Failed(f"{fault}; a node line of your own can be given with --node-line")
    line = {"kind": "node", "version": node_format.version, "name": name, "maxRestartDelay": delay,
            "capacity": summary.capacity, "dedicatedImagefs": summary.has_dedicated_image_fs, **fields,
            **pause_of(node_format, summary), **({**TELLS, **recorded_in(node_format)} if summary.signals else {}),
            "bootedAt": booted_at(summary)}
    return NodeLine(without_nones(line), reader.notes)


def pause_of(node_format: Format, summary: Summary) -> dict[str, bool | int | None]:
    """How long no pod is evicted after an eviction: a kubelet waits for the evicted one. If the ticks show in which it
    decides, none is needed."""
    seconds = None if are_told(summary.signals) else node_format.eviction_pause
    return {"evictionPauseSeconds": seconds, "evictionPauseUntilGone": None if seconds is None else True}


def booted_at(summary: Summary) -> int | None:
    """The second at which the node's system was started, which the formats do not read."""
    return None if summary.booted_at is None else int(summary.booted_at)


def recorded_in(node_format: Format) -> dict[str, bool]:
    """That the ticks show whom the node has ended, so that the rules evict nobody and name whom they would."""
    return {} if node_format.is_simulated else {"evictionsRecorded": True}


def own_node_line(fields: dict[str, Any], node_format: Format, summary: Summary) -> NodeLine:
    """A node line that the operator gives, in the version that is recorded; its own pause goes before."""
    pause = {} if "evictionPauseSeconds" in fields else pause_of(node_format, summary)
    line = {**pause, **recorded_in(node_format), **fields, "kind": "node", "version": node_format.version, **TELLS,
            "bootedAt": booted_at(summary)}
    return NodeLine(without_nones(line), [])
