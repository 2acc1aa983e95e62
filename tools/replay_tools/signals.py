"""What a node samples of itself, and the thresholds that a node line sets on that."""

from __future__ import annotations

from dataclasses import dataclass
from typing import Any

from replay_tools import amounts
from replay_tools.fields import dict_at, text_at, value_at

# the order in which thresholds are served
SIGNALS = ("memory.available", "nodefs.available", "imagefs.available", "nodefs.inodesFree", "imagefs.inodesFree",
           "pid.available")
BYTE_SIGNALS = SIGNALS[:3]
DEFAULT_HARD = {"memory.available": "100Mi", "nodefs.available": "10%", "imagefs.available": "15%",
                "nodefs.inodesFree": "5%", "imagefs.inodesFree": "5%"}


@dataclass
class Threshold:
    signal: str
    kind: str
    text: str
    limit: int
    """thousandths"""
    reclaim: int
    """thousandths, above the limit"""
    grace: int


def thresholds_of(settings: dict[str, Any]) -> list[Threshold]:
    """The thresholds that a node line sets, in the order in which they are served."""
    capacity = {signal: amounts.quantity(value) for signal, value in dict_at(settings, "capacity").items()
                if value is not None}
    hard = DEFAULT_HARD if value_at(settings, "evictionHard") is None else dict_at(settings, "evictionHard")
    soft = dict_at(settings, "evictionSoft")
    graces, reclaims = dict_at(settings, "evictionSoftGracePeriod"), dict_at(settings, "evictionMinimumReclaim")
    found = []
    for signal in SIGNALS:
        reclaim = amounts.limit(value_at(reclaims, signal, 0), capacity.get(signal)) or 0
        for kind, limits in (("hard", hard), ("soft", soft)):
            text = value_at(limits, signal)
            amount = None if text is None or is_off(text) else amounts.limit(text, capacity.get(signal))
            if amount is not None:
                grace = amounts.duration(text_at(graces, signal)) if kind == "soft" else 0
                found.append(Threshold(signal, kind, str(text), amount, reclaim, grace))
    return found


def is_off(text: int | str) -> bool:
    return isinstance(text, str) and text.endswith("%") and amounts.hundredths(text) in (0, 10000)
