"""Quantities, percentages and durations of a trace, as docs/formats.md has them, and amounts as a person reads
them."""

from __future__ import annotations

import functools
import re
from fractions import Fraction

GREATEST = 1000 * (2**63 - 1)
QUANTITY = re.compile(r"\+?(\d+\.?\d*|\.\d+)(?:([numkMGTPE]|[KMGTPE]i)?|[eE]([+-]?\d{1,2}))", re.ASCII)
FACTORS = {None: Fraction(1), "n": Fraction(1, 10**9), "u": Fraction(1, 10**6), "m": Fraction(1, 1000)}
FACTORS |= {letter: Fraction(10 ** (3 * power)) for power, letter in enumerate("kMGTPE", 1)}
FACTORS |= {f"{letter}i": Fraction(1024**power) for power, letter in enumerate("KMGTPE", 1)}
DURATION = re.compile(r"0|(?:\d+[hms])+", re.ASCII)
SECONDS = {"h": 3600, "m": 60, "s": 1}


class Wrong(ValueError):
    """A value of a trace is not of the kind that the formats have there."""


def quantity(value: int | str) -> int:
    """The thousandths of a unit of a quantity, a text or a whole number of units. Raises Wrong."""
    if isinstance(value, int) and not isinstance(value, bool):
        return min(1000 * value, GREATEST)
    if not isinstance(value, str):
        raise Wrong
    return quantity_of_text(value)


@functools.lru_cache(1 << 12)
def quantity_of_text(text: str) -> int:
    found = QUANTITY.fullmatch(text)
    if not found:
        raise Wrong
    number, suffix, power = found.groups()
    factor = Fraction(10) ** int(power) if power else FACTORS[suffix]
    return min(-(-Fraction(number.rstrip(".")) * factor * 1000 // 1), GREATEST)


def limit(value: int | str, capacity: int | None) -> int | None:
    """The thousandths of a limit, a quantity or a percentage of a capacity; None where that is not known."""
    if not (isinstance(value, str) and value.endswith("%")):
        return quantity(value)
    return None if capacity is None else capacity * hundredths(value) // 10000


def hundredths(value: str) -> int:
    """The hundredths of a percent of a text that ends with %. Raises Wrong."""
    try:
        return int(Fraction(value[:-1]) * 100)
    except (ValueError, ZeroDivisionError):
        raise Wrong from None


def duration(value: str) -> int:
    """The seconds of a duration. Raises Wrong."""
    if not isinstance(value, str) or not DURATION.fullmatch(value):
        raise Wrong
    return sum(int(number) * SECONDS[unit] for number, unit in re.findall(r"(\d+)([hms])", value))


def amount_text(thousandths: int | None, of_bytes: bool) -> str:
    """An amount as a person reads it: bytes with a binary suffix and at most two digits after the point."""
    if thousandths is None:
        return "-"
    if not of_bytes:
        return str(Fraction(thousandths, 1000)) if thousandths % 1000 == 0 else f"{thousandths}m"
    units = Fraction(thousandths, 1000)
    suffix, factor = "", 1
    for letter in "KMGTPE":
        if abs(units) < 1024 * factor:
            break
        suffix, factor = f"{letter}i", 1024 * factor
    return f"{float(units / factor):.2f}".rstrip("0").rstrip(".") + suffix
