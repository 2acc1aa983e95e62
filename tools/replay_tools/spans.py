"""Spans of time in which a value held, and what of them lies next to gaps of which nothing is known."""

from __future__ import annotations

from dataclasses import dataclass


@dataclass
class Span:
    """From one moment until another, to the end where `until` is None, and from an unknown one without `since`."""

    value: str
    since: int | None
    until: int | None
    note: str = ""


def spans_of(changes: list[tuple[int, str]], first: int, value: str) -> list[Span]:
    """Spans of a value from its first moment on, by (moment, value) in order; of one moment the last counts."""
    spans = [Span(value, first, None)]
    for at, value in changes:
        last = spans[-1]
        if value == last.value:
            continue
        if last.since == at:
            spans.pop()
            if spans and spans[-1].value == value:
                spans[-1].until = None
                continue
        else:
            last.until = at
        spans.append(Span(value, at, None))
    return spans


def without_gaps(spans: list[Span], gaps: list[tuple[int, int]]) -> list[Span]:
    """The same spans without what lies in gaps, of which nothing is known."""
    for since, until in gaps:
        spans = [piece for span in spans for piece in beside_gap(span, since, until)]
    return spans


def beside_gap(span: Span, since: int, until: int) -> list[Span]:
    """A span as what of it lies before a gap and after it."""
    begun = until if span.since is None else span.since
    if begun >= until or (span.until is not None and span.until <= since):
        return [span]
    before = [Span(span.value, span.since, since, span.note)] if begun < since else []
    is_longer = span.until is None or span.until > until
    return before + ([Span(span.value, until, span.until, span.note)] if is_longer else [])
