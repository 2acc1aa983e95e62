"""What is at fault in a node line."""

from __future__ import annotations

from collections.abc import Callable, Iterator
from typing import Any

from replay_tools import fields
from replay_tools.record import formats
from replay_tools.record.node import RECLAIMS
from replay_tools.signals import SIGNALS

from .found import Found, at, is_, nearest, shown

LIMITS = ("evictionHard", "evictionSoft")
GRACES = "evictionSoftGracePeriod"
PERIOD = "evictionPressureTransitionPeriod"
MOST_SECONDS = 2**31 - 1
MOST_DELAY = 300
BACK_OFF, LONGEST = "crashLoopBackOff", "maxContainerRestartPeriod"
EXTENDED = "this recording is in the extended format (version 3)"
WITH_EXTENDED = "run it with --extended"


def config_faults(node: Any, is_extended: bool) -> Iterator[Found]:
    """Each field whose value the formats do not take, as docs/formats.md lists them."""
    yield from version_fault(node, is_extended)
    yield from name_fault(node)
    yield from whole_fault(node, "maxRestartDelay", 1, MOST_DELAY)
    yield from map_faults(node, "capacity", quantity_fault)
    if not isinstance(node.get("dedicatedImagefs"), (bool, type(None))):
        yield is_(("dedicatedImagefs",), node["dedicatedImagefs"], "it is true or false, without quotes")
    for field in LIMITS:
        yield from map_faults(node, field, limit_fault)
    yield from map_faults(node, GRACES, duration_fault)
    yield from whole_fault(node, "evictionMaxPodGracePeriod", 0, MOST_SECONDS)
    yield from map_faults(node, RECLAIMS, limit_fault)
    if node.get(PERIOD) is not None:
        yield from duration_fault(node, (PERIOD,), node[PERIOD])
    if node.get("version") == 3:
        yield from whole_fault(node, "evictionPauseSeconds", 0, MOST_SECONDS)
        for field in ("evictionPauseUntilGone", "evictionsRecorded"):
            if not isinstance(node.get(field), (bool, type(None))):
                yield is_((field,), node[field], "it is true or false, without quotes")
        yield from delay_faults(node)


def delay_faults(node: Any) -> Iterator[Found]:
    """The faults of a kubelet's own field for the greatest delay of a restart."""
    found, path = node.get(BACK_OFF), (BACK_OFF, LONGEST)
    if found is None:
        return
    period = found.get(LONGEST) if isinstance(found, dict) else None
    if not isinstance(found, dict):
        yield is_((BACK_OFF,), found, f"it is an object with {LONGEST}")
    elif period is not None and (formats.duration_fault(period)
                                 or not 1 <= formats.seconds_of(period) <= MOST_DELAY):
        yield is_(path, period, f'it is a duration from 1s to {MOST_DELAY}s, as "60s"')
    if node.get("maxRestartDelay") is not None:
        yield is_((BACK_OFF,), found, "the line has maxRestartDelay too", "leave one of the two out")


def version_fault(node: Any, is_extended: bool) -> Iterator[Found]:
    version = node.get("version")
    if version == 3 and formats.is_whole(version):
        if not is_extended:
            yield Found(("version",), EXTENDED, WITH_EXTENDED)
    elif version is not None and not (formats.is_whole(version) and version in (1, 2)):
        yield is_(("version",), version, "there are 1, 2 and, with --extended, 3")


def name_fault(node: Any) -> Iterator[Found]:
    name = node.get("name")
    if name is None:
        yield at(("name",), "is missing: the node's name", 'write "name" with the name that kubectl get nodes shows')
    elif formats.name_fault(name):
        yield is_(("name",), name, "it is no name", "a name is 1 to 253 of a to z, 0 to 9, - and ., with a letter or "
                  "digit at both ends")


def whole_fault(node: Any, field: str, least: int, most: int) -> Iterator[Found]:
    fault = None if node.get(field) is None else formats.whole_fault(node[field], least, most)
    if fault:
        yield is_((field,), node[field], f"it is a whole number from {least} to {most}",
                  "write it without quotes, point and unit")


def map_faults(node: Any, field: str, fault_of: Callable[..., Any]) -> Iterator[Found]:
    """The faults of a map from signals."""
    values = node.get(field)
    if values is None:
        return
    if not isinstance(values, dict):
        yield is_((field,), values, "it is an object with signals as its keys")
        return
    for signal, value in values.items():
        if value is None:
            continue
        if signal not in SIGNALS:
            yield at((field, signal), f"is {shown(value)}: there is no such signal",
                     nearest(signal, SIGNALS) or f"leave it out; there are {', '.join(SIGNALS)}")
        else:
            yield from fault_of(node, (field, signal), value)


def quantity_fault(_: Any, path: tuple[Any, ...], value: Any) -> Iterator[Found]:
    if formats.quantity_fault(value):
        yield is_(path, value, "it is no quantity", quantity_advice(value))


def quantity_advice(value: Any) -> Any:
    """What to write in place of what is no quantity."""
    if isinstance(value, float):
        return 'write a fraction as a text, as "500m", and a whole number without a point'
    if not isinstance(value, str):
        return 'write a text, as "100Mi", or a whole number of units'
    if value[-1:] in ("B", "b") or value[-2:].lower() == "ib":
        return "leave out the B: the suffixes are Ki, Mi, Gi, Ti, and k, M, G, T for powers of 1000"
    if value[-1:] == "K":
        return "write Ki, or a small k for 1000"
    return 'write it as "100Mi", "1.5Gi" or "2000"; docs/formats.md has all suffixes'


def limit_fault(node: Any, path: tuple[Any, ...], value: Any) -> Iterator[Found]:
    """A limit is a quantity or a percentage; a percentage that sets a threshold needs a capacity."""
    if not formats.is_percentage(value):
        yield from quantity_fault(node, path, value)
        return
    if formats.percentage_fault(value):
        yield is_(path, value, "it is no percentage",
                  'write it as "10%" or "7.5%": at most 100, with at most two digits after the point')
        return
    field, signal = path
    is_off = field != RECLAIMS and float(value.rstrip("%")) in (0, 100)
    capacity = node.get("capacity")
    if not is_off and not (isinstance(capacity, dict) and capacity.get(signal) is not None):
        yield is_(path, value, f"a percentage needs the signal's capacity, and capacity has no {signal}",
                  f"give capacity its {signal}, or write a quantity for the percentage")


def duration_fault(_: Any, path: tuple[Any, ...], value: Any) -> Iterator[Found]:
    if formats.duration_fault(value):
        yield is_(path, value, "it is no duration", duration_advice(value))


def duration_advice(value: Any) -> Any:
    if not isinstance(value, str):
        return 'write it as a text with its unit, as "90s"'
    if value.isdigit():
        return f'write its unit, as "{value}s"'
    if value.endswith(("ms", "us", "ns")) or "." in value:
        return 'write whole seconds, as "1s"'
    return 'write it in h, m and s, as "1m30s"'


def without_graces(node: Any, _: Any) -> Iterator[Found]:
    """The soft thresholds that have no grace period, of a node line whose fields are all of their kinds."""
    graces = fields.dict_at(node, GRACES)
    for signal, value in fields.dict_at(node, "evictionSoft").items():
        is_off = formats.is_percentage(value) and float(value.rstrip("%")) in (0, 100)
        if value is not None and not is_off and graces.get(signal) is None:
            yield at(("evictionSoft", signal), f"is {shown(value)}, and {GRACES} has no {signal}",
                     f'give {GRACES} the time that the signal is below it first, as "90s"')
