"""A line of progress on a terminal, while journals are read."""

from __future__ import annotations

import sys
import time
from collections.abc import Iterator
from typing import Any

from .files import Journal

EVERY = 0.2
# a clock that is asked for each fact would take as long as the facts
LOOKED_AT = 512


class Progress:
    """Shows how much was read, and up to which moment, where standard error is a terminal."""

    def __init__(self, journals: list[Journal]) -> None:
        self.journals = journals
        self.is_seen = sys.stderr.isatty()
        self.shown = self.began = time.monotonic()

    def over(self, found: Iterator[Any]) -> Iterator[Any]:
        return self.shown_over(found) if self.is_seen else found

    def shown_over(self, found: Iterator[Any]) -> Iterator[Any]:
        for number, fact in enumerate(found):
            if number % LOOKED_AT == 0 and time.monotonic() - self.shown >= EVERY:
                self.show(fact.at)
            yield fact

    def show(self, at: float) -> None:
        self.shown = time.monotonic()
        size = sum(journal.counts.size for journal in self.journals) / 1e6
        until = time.strftime("%Y-%m-%dT%H:%M:%SZ", time.gmtime(at))
        speed = size / max(self.shown - self.began, 0.001)
        sys.stderr.write(f"\r\x1b[K{size:.0f} MB read, {speed:.0f} MB/s, up to {until}")
        sys.stderr.flush()

    def end(self) -> None:
        """Takes the line away."""
        if self.is_seen:
            sys.stderr.write("\r\x1b[K")
            sys.stderr.flush()
