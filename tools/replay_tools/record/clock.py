"""The node's clock, and waiting that an interrupt ends."""

from __future__ import annotations

import time


class Clock:
    def now(self) -> float:
        """Seconds since 1970, with their fraction."""
        return time.time()

    def wait(self, seconds: float) -> None:
        time.sleep(seconds)
