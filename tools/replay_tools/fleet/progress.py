"""A line of progress on a terminal."""

from __future__ import annotations

import sys
import time

from replay_tools import entry

EVERY = 0.2


class Progress:
    """Counts answers, and shows how many there are where standard error is a terminal."""

    def __init__(self, total: int) -> None:
        self.total, self.done, self.kept, self.refused, self.failed = total, 0, 0, 0, 0
        self.began = time.monotonic()
        self.shown = self.began - EVERY
        self.is_seen = sys.stderr.isatty()

    def step(self, status: str) -> None:
        """One more trace is done; it is printed now and then, and not for each."""
        self.done += 1
        self.refused += status == "refused"
        self.failed += status == "failed"
        now = time.monotonic()
        if status == "known":
            # what was kept shows nothing of how long the rest takes
            self.kept, self.began = self.kept + 1, now
        if self.is_seen and now - self.shown >= EVERY:
            self.shown = now
            self.show(now - self.began)

    def show(self, seconds: float) -> None:
        replayed = self.done - self.kept
        said = f"{self.done} of {entry.counted(self.total, 'trace')}"
        said += f", {self.kept} kept from before" if self.kept else ""
        said += f", {self.refused} refused, {self.failed} failed"
        said += f", about {seconds / replayed * (self.total - self.done):.0f} s left" if replayed else ""
        sys.stderr.write(f"\r\x1b[K{said}")
        sys.stderr.flush()

    def end(self) -> None:
        """Takes the line away."""
        if self.is_seen:
            sys.stderr.write("\r\x1b[K")
            sys.stderr.flush()
