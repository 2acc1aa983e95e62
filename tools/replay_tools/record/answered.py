"""A file of the folder of traces whose age shows since when the runtime or the kubelet gives no answer, for a probe
that starts the recorder again. Who probes it makes it; where it is not there nothing is touched."""

from __future__ import annotations

import os
import time
from collections.abc import Callable
from typing import Optional

NAME = ".answered"
# a probe of some minutes needs it no more often
TOUCH_SECONDS = 30


class Answered:
    """Touches the file while both answer; `say` takes what is reported where it can't."""

    def __init__(self, folder: str, say: Callable[..., None]) -> None:
        self.path = os.path.join(folder, NAME)
        self.say = say
        self.touched_at: Optional[float] = None

    def __call__(self, both_answer: bool) -> None:
        now = time.monotonic()
        if both_answer and (self.touched_at is None or now - self.touched_at >= TOUCH_SECONDS):
            self.touched_at = now
            self.touch()

    def touch(self) -> None:
        try:
            descriptor = os.open(self.path, os.O_WRONLY | os.O_NOFOLLOW | os.O_CLOEXEC | os.O_NONBLOCK)
        except FileNotFoundError:
            return
        except OSError as error:
            return self.say(f"{self.path} can't be touched: {error.strerror}", NAME)
        try:
            os.utime(descriptor)
        except OSError as error:
            self.say(f"{self.path} can't be touched: {error.strerror}", NAME)
        finally:
            os.close(descriptor)
