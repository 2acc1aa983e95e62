"""What the formats of a trace take (docs/formats.md). Each `.._fault` shows what is wrong with a value, and is None
where nothing is."""

from __future__ import annotations

import json
import re
from typing import Any, TYPE_CHECKING

from replay_tools.outside import LABEL, NAME

if TYPE_CHECKING:
    from typing import TypeGuard

MOST_PODS = 256
MOST_TICKS = 20000
MOST_BYTES = 64 * 1024 * 1024
LONGEST_LINE = 1024 * 1024

QUANTITY = re.compile(r"[+]?(?P<number>[0-9]+[.]?[0-9]*|[.][0-9]+)"
                      r"(|[numkMGTPE]|[KMGTPE]i|[eE][+-]?(?P<power>[0-9]{1,2}))")
PERCENTAGE = re.compile(r"[0-9]{1,3}([.][0-9]{1,2})?%")
DURATION = re.compile(r"0|([0-9]{1,12}[hms])+")
UNITS = {"h": 3600, "m": 60, "s": 1}


# json.dumps would make one for each value
ENCODER = json.JSONEncoder(ensure_ascii=False, separators=(",", ":"))


def shown(value: Any) -> str:
    """A value as JSON, in one line."""
    return ENCODER.encode(value)


def is_whole(value: Any) -> TypeGuard[int]:
    return isinstance(value, int) and not isinstance(value, bool)


def whole_fault(value: Any, least: int, most: int) -> str | None:
    if not is_whole(value):
        return f"{shown(value)} is no whole number"
    if not least <= value <= most:
        return f"{shown(value)} is not from {least} to {most}"
    return None


def text_fault(value: Any, what: str, form: re.Pattern) -> str | None:
    if not isinstance(value, str):
        return f"{shown(value)} is no text"
    return None if form.fullmatch(value) else f"{shown(value)} is no {what} of the formats"


def name_fault(value: Any) -> str | None:
    return text_fault(value, "name", NAME)


def label_fault(value: Any) -> str | None:
    return text_fault(value, "name of a container or namespace", LABEL)


def quantity_fault(value: Any) -> str | None:
    """A number with a suffix: at most 17 digits, and a power of ten from -18 to 18; or a whole number of units."""
    if isinstance(value, (int, float)) and not isinstance(value, bool):
        if is_whole(value) and 0 <= value < 2 ** 64:
            return None
        return f"{shown(value)} is no whole number of units: a fraction is a text, as 500m"
    fault, parts = text_fault(value, "quantity", QUANTITY), QUANTITY.fullmatch(str(value))
    if fault or parts is None:
        return fault
    if sum(character.isdigit() for character in parts["number"]) > 17:
        return f"{shown(value)} has more than 17 digits"
    if int(parts["power"] or 0) > 18:
        return f"{shown(value)} has a power of ten above 18"
    return None


def is_percentage(value: Any) -> bool:
    return isinstance(value, str) and value.endswith("%")


def percentage_fault(value: Any) -> str | None:
    fault = text_fault(value, "percentage", PERCENTAGE)
    if fault is None and float(value.rstrip("%")) > 100:
        fault = f"{shown(value)} is above 100%"
    return fault


def limit_fault(value: Any) -> str | None:
    return percentage_fault(value) if is_percentage(value) else quantity_fault(value)


def seconds_of(duration: str) -> int:
    """The seconds of a duration that the formats take."""
    return sum(int(number) * UNITS[unit] for number, unit in re.findall(r"([0-9]+)([hms])", duration))


def duration_fault(value: Any) -> str | None:
    fault = text_fault(value, "duration", DURATION)
    if fault is None and seconds_of(value) >= 2 ** 40:
        fault = f"{shown(value)} is too long"
    return fault


def first_fault(faults: list[str | None]) -> str | None:
    return next((fault for fault in faults if fault is not None), None)


def at_place(place: str, fault: str | None) -> str | None:
    return None if fault is None else f"{place}: {fault}"


def without_nones(fields: dict[str, Any]) -> dict[str, Any]:
    return {name: value for name, value in fields.items() if value is not None}
