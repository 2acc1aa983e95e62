"""What a recording writes to, and how it ends."""

from __future__ import annotations

import os
from collections.abc import Iterable, Iterator
from contextlib import contextmanager

from replay_tools.cli.statuses import Status

from .formats import MOST_BYTES


class Stopped(Exception):
    """An interrupt, while the sources are asked or nothing is done."""


class Ended(Exception):
    """The recording ends, with a status, for a reason or none."""

    def __init__(self, status: Status, reason: str | None = None) -> None:
        super().__init__(reason)
        self.status = status
        self.reason = reason


class Output:
    """Standard output: whole lines, up to the most that a trace takes."""

    def __init__(self, most_ticks: float, most_bytes: int = MOST_BYTES) -> None:
        self.ticks_left = most_ticks
        self.bytes_left = most_bytes
        self.is_busy = False
        self.is_stopped = False

    def interrupt(self, *_: object) -> None:
        """The first one ends what is done, those after it do not end that end."""
        is_first, self.is_stopped = not self.is_stopped, True
        if is_first and not self.is_busy:
            raise Stopped

    @contextmanager
    def undisturbed(self) -> Iterator[None]:
        """No interrupt ends what is done here; it ends the recording after it."""
        self.is_busy = True
        try:
            yield
        finally:
            self.is_busy = False

    def write(self, lines: list[str]) -> None:
        """Writes whole lines, all of them or none where they reach the most that a trace takes."""
        data = "".join(f"{line}\n" for line in lines).encode()
        self.bytes_left -= len(data)
        if self.bytes_left < 0:
            raise Ended(Status.DONE, "the trace has reached 64 MiB, the most that one takes")
        try:
            while data:
                data = data[os.write(1, data):]
        except OSError:
            raise Ended(Status.FAILED, "standard output takes no more") from None

    def write_due(self, due: Iterable[tuple[list[str], bool]]) -> None:
        """Writes what is settled, up to the last tick that is asked for."""
        for lines, has_tick in due:
            if self.ticks_left == 0:
                break
            self.write(lines)
            self.ticks_left -= has_tick
