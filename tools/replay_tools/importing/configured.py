"""What a kubelet reports of its eviction thresholds: as it starts, by its flags, and in rounds in which one is met. The
form from 1.21 on is written from knowledge."""

from __future__ import annotations

import json
import re
from collections.abc import Iterator
from typing import Any, Optional

from replay_tools.record.formats import DURATION, duration_fault, is_percentage, limit_fault
from replay_tools.signals import SIGNALS

from . import facts

# the hard ones of a kubelet's configuration, as Go prints them and as JSON has them
HARD = re.compile(r'HardEvictionThresholds"?: ?\[([^\]]{0,4096})\]')
SHARE = r"(\d{1,3}(?:\.\d{1,20})?(?:e-\d{1,2})?)"
LIMIT = re.compile(r'Signal"?: ?"?([\w.]{1,64})"?[ ,]+"?Operator"?: ?"?LessThan"?[ ,]+"?Value"?: ?\{"?Quantity"?: ?"?'
                   rf'([^\s",{{}}]{{1,64}})"?[ ,]+"?Percentage"?: ?{SHARE}\}}')
# a soft one in its grace period
SOFT = re.compile(r"threshold\(signal=([\w.]{1,64}), operator=LessThan, value=\{(\S{1,64}) " + SHARE + r"\}, "
                  r"gracePeriod=([\w.]{1,32})\)")
FLAG = re.compile(r'FLAG: --(config|eviction-[-a-z]{1,60})="(.*)"')
OF_FLAG = re.compile(r"([\w.]{1,64})[<=]([^,<=]{1,64})")
CONDITIONS = re.compile(r"[A-Za-z]{1,60}Pressure")


def limit_of(quantity: str, percentage: str) -> Optional[str]:
    """A limit as the formats have it, of a quantity or else of a part of the capacity; None where it sets none."""
    if limit_fault(quantity) is None and not is_percentage(quantity):
        return quantity
    hundredths = round(float(percentage) * 10000)
    if not 0 < hundredths < 10000:
        return None
    whole, part = divmod(hundredths, 100)
    return f"{whole}.{part:02}".rstrip("0").rstrip(".") + "%"


def hard_of(at: float, value: Any) -> Iterator[facts.HardThresholds]:
    """The hard thresholds of a configuration, as it is printed or as an object of JSON."""
    found = HARD.search(value if isinstance(value, str) else json.dumps(value))
    if found is not None:
        limits = {signal: limit_of(quantity, percentage) for signal, quantity, percentage in LIMIT.findall(found[1])}
        yield facts.HardThresholds(at, {signal: limit for signal, limit in limits.items()
                                        if signal in SIGNALS and limit is not None})


def soft_of(at: float, text: str) -> Iterator[facts.SoftThreshold]:
    """A soft threshold that is met, and whose grace period is not over."""
    found = SOFT.search(text)
    limit = None if found is None else limit_of(found[2], found[3])
    if found is not None and limit is not None and found[1] in SIGNALS and duration_fault(found[4]) is None:
        yield facts.SoftThreshold(at, found[1], limit, found[4])


def flag_of(at: float, text: str) -> Iterator[facts.Flag]:
    found = FLAG.match(text)
    if found is not None:
        yield facts.Flag(at, found[1], found[2])


def limits_of_flag(text: str) -> dict[str, str]:
    """The limits of a flag's value, as memory.available<100Mi,nodefs.available<10%."""
    found = OF_FLAG.findall(text)
    return {signal: limit for signal, limit in found if signal in SIGNALS and limit_fault(limit) is None}


def durations_of_flag(text: str) -> dict[str, str]:
    """The grace periods of a flag's value, as memory.available=1m30s."""
    return {signal: each for signal, each in OF_FLAG.findall(text) if signal in SIGNALS and DURATION.fullmatch(each)}


def conditions_of(value: Any) -> frozenset[str]:
    """The conditions of a list, as it is printed or as JSON has one."""
    return frozenset(CONDITIONS.findall(value if isinstance(value, str) else json.dumps(value)))
