"""The kinds of values that options have: each makes a value of a text, or raises ArgumentTypeError."""

from __future__ import annotations

from collections.abc import Callable, Iterable


def wrong(said: str) -> Exception:
    """What argparse prints after the option's name."""
    # a help needs no parser
    import argparse
    return argparse.ArgumentTypeError(said)


def is_number(text: str, longest: int) -> bool:
    return text.isascii() and text.isdigit() and len(text) <= longest


def whole_number(most: int) -> Callable[[str], int]:
    """A whole number from 1 to a greatest one."""
    def number(text: str) -> int:
        if not (is_number(text, 7) and 1 <= int(text) <= most):
            raise wrong(f"takes a whole number from 1 to {most}, not '{text}'")
        return int(text)
    return number


def one_of(choices: Iterable[str]) -> Callable[[str], str]:
    """One of some texts."""
    def choice(text: str) -> str:
        if text not in choices:
            raise wrong(f"takes {', '.join(choices)}, not '{text}'")
        return text
    return choice


def some_of(choices: Iterable[str]) -> Callable[[str], list[str]]:
    """One or more of some texts, with a comma between them."""
    def chosen(text: str) -> list[str]:
        found = [part for part in text.split(",") if part]
        if not found or any(part not in choices for part in found):
            raise wrong(f"takes {', '.join(choices)}, one or more with a comma between them, not '{text}'")
        return list(dict.fromkeys(found))
    return chosen


def seconds(most: int) -> Callable[[str], int]:
    """A number of seconds, or a duration as 30s or 2m."""
    def number(text: str) -> int:
        from replay_tools.joined import asked
        count = asked.seconds_of(text if text[-1:].isalpha() else f"{text}s") if text.isascii() else 0
        if not 1 <= count <= most:
            raise wrong(f"takes seconds from 1 to {most}, not '{text}'")
        return count
    return number


def length_of_trace(text: str) -> int:
    """How long a trace is, in seconds."""
    units = {"m": 60, "h": 3600, "d": 86400}
    count = int(text[:-1]) * units.get(text[-1], 0) if is_number(text[:-1], 4) else 0
    if not 60 <= count <= 86400:
        raise wrong(f"takes a time from 1m to 1d, as 1h, not '{text}'")
    return count


def pause(text: str) -> float:
    """For how many seconds an answer may pause."""
    number = text.removesuffix("s")
    if not (is_number(number, 4) and int(number) > 0):
        raise wrong(f"takes a number of seconds, as 60, not '{text}'")
    return float(number)


def size_of_journal(text: str) -> int:
    """A number of bytes with its unit."""
    units = {"Mi": 1 << 20, "Gi": 1 << 30, "Ti": 1 << 40}
    count = int(text[:-2]) * units.get(text[-2:], 0) if is_number(text[:-2], 4) else 0
    if count == 0:
        raise wrong(f"takes a number of bytes, as 512Mi or 4Gi, not '{text}'")
    return count


def size(least: int, shown: str) -> Callable[[str], int]:
    """A number of bytes, of at least so many, as a quantity of Kubernetes."""
    def number(text: str) -> int:
        from replay_tools import amounts
        try:
            count = amounts.quantity(text) // 1000
        except amounts.Wrong:
            count = 0
        if count < least:
            raise wrong(f"takes a number of bytes of at least {shown}, as 2Gi, not '{text}'")
        return count
    return number


def year(text: str) -> int:
    if not (is_number(text, 4) and len(text) == 4 and int(text) >= 1970):
        raise wrong(f"takes a year, as 2026, not '{text}'")
    return int(text)
