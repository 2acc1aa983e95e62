"""What is waited for: it is named on standard error once that takes long, and what did not come is kept."""

from __future__ import annotations

import contextlib
import threading
import time
from collections.abc import Iterator
from typing import Any

from replay_tools import entry

# an answer that takes longer is named
SECONDS_UNSAID, SECONDS_BETWEEN = 5, 0.5
MOST_NAMED = 5


def named(names: list[str]) -> str:
    """Some names, of many the first ones and how many more there are."""
    more = f" and {len(names) - MOST_NAMED} more" if len(names) > MOST_NAMED else ""
    return ", ".join(names[:MOST_NAMED]) + more


class Waiting:
    """The sources that are asked and have not answered yet, and which of them gave no answer."""

    def __init__(self, seconds: float) -> None:
        self.seconds = seconds
        self.missing: dict[str, str] = {}
        self.asked: dict[str, float] = {}
        self.said: set[str] = set()
        self.lock = threading.Lock()
        self.is_over = threading.Event()
        self.thread = threading.Thread(target=self.watch, daemon=True)

    def __enter__(self) -> Waiting:
        self.thread.start()
        return self

    def __exit__(self, *_: Any) -> None:
        self.is_over.set()

    @contextlib.contextmanager
    def for_answer(self, name: str) -> Iterator[None]:
        """Names a source for as long as it is asked."""
        with self.lock:
            self.asked[name] = time.monotonic()
        try:
            yield
        finally:
            with self.lock:
                self.asked.pop(name, None)

    def watch(self) -> None:
        """Names each source once that is asked for long."""
        while not self.is_over.wait(SECONDS_BETWEEN):
            long_ago = time.monotonic() - SECONDS_UNSAID
            with self.lock:
                names = [name for name, since in self.asked.items() if since <= long_ago and name not in self.said]
                self.said.update(names)
            if names:
                entry.say(f"waiting for {named(names)}, {self.seconds:g} s at most for each (--timeout)")

    def miss(self, name: str, why: str) -> None:
        """Keeps that a source did not give what it was asked for."""
        with self.lock:
            self.missing.setdefault(name, why)
