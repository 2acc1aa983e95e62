"""An explanation as text: whole, or in one line."""

from __future__ import annotations

from typing import Any, TYPE_CHECKING

from replay_tools import entry

from . import lines

if TYPE_CHECKING:
    from .answer import Answer

BEFORE, SHOWN = 50, 100


def whole_text(answer: Answer, name: str) -> str:
    """What the program shows of a file, what it means, the line around it, and what to do."""
    if not answer.is_fault:
        return f"{entry.visible(name)}: {answer.said}\n  nothing is wrong with it\n"
    told = [f"{entry.visible(name)}: {answer.said}"]
    for found in answer.found:
        advice = found.advice or answer.advice
        told += [f"  {entry.visible(found.says)}", *excerpt(answer, found.path)]
        told += [f"    to do: {entry.visible(advice)}"] if advice else []
    if answer.part:
        told.append(f'  docs/formats.md, "{answer.part}", has what may be there')
    return "\n".join(told) + "\n"


def one_line(answer: Answer) -> str | None:
    """What it means and what to do; None where there is nothing to show."""
    if not answer.is_fault or not answer.found:
        return None
    advice = answer.found[0].advice or answer.advice
    return entry.visible(answer.found[0].says + (f": {advice}" if advice else ""))


def excerpt(answer: Answer, path: tuple[Any, ...]) -> list[str]:
    """The line around a value with marks below it; nothing where there is no line."""
    text = answer.text.decode("utf-8", "replace").rstrip("\r")
    place = span(answer, text, path)
    if place is None:
        return []
    begin, end = place
    first = max(0, begin - BEFORE)
    shown = text[first : first + SHOWN]
    before, after = ".." * (first > 0), ".." * (first + SHOWN < len(text))
    marks = " " * (len(before) + begin - first) + "^" * max(1, min(end, first + SHOWN) - begin)
    plain = "".join(each if each.isprintable() else "?" for each in shown)
    return [f"    line {answer.line}, from character {first + 1} of {len(text)}:", f"      {before}{plain}{after}",
            f"      {marks}"]


def span(answer: Answer, text: str, path: tuple[Any, ...]) -> tuple[int, int] | None:
    """Where the value of a path begins and ends in the line; None in one of blanks alone."""
    if not text.strip(" \t\r"):
        return None
    if answer.is_text_place:
        at = path[0] if path else 0
        return at, at + 1
    try:
        return lines.span_of(text, path)
    except (ValueError, IndexError, RecursionError):
        return 0, len(text)
