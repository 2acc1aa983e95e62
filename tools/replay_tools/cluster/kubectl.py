"""kubectl, asked for one answer. It is passed on piece by piece, so that nobody sends more than there is room for."""

from __future__ import annotations

import math
import os
import selectors
import subprocess
import time
from collections.abc import Callable

from replay_tools import amounts, entry, outside
from replay_tools.cli.statuses import Status

# kubectl shows it after what the command itself reported
ENDED = "command terminated with exit code"
PIECE = 1 << 16
# of what it shows on standard error so much is kept, the last of it
MOST_SAID = 1 << 14


class NoAnswer(Exception):
    """Something was asked and not answered; the message shows why."""


class Silent(NoAnswer):
    """Nothing came in time."""


def answer(words: list[str], most: int, seconds: float, take: Callable[[bytes], object], is_long: bool = False,
           silent: float | None = None) -> None:
    """Passes on what kubectl answers, which has to be whole within so many seconds, or, of a long answer, each piece of
    it; and has so many bytes at most. `silent` is for how many seconds no piece may come. Raises NoAnswer."""
    process = started(words)
    try:
        said = handed_on(process, most, math.inf if is_long else seconds, seconds if silent is None else silent, take)
        status = process.wait(seconds)
    except (TimeoutError, subprocess.TimeoutExpired) as fault:
        waited = fault.args[0] if isinstance(fault, TimeoutError) else seconds
        raise Silent(f"kubectl has not answered within {waited:g} s") from None
    finally:
        process.kill()
        process.wait()
        for stream in filter(None, (process.stdout, process.stderr)):
            stream.close()
    if status != 0:
        lines = [line.strip() for line in said.decode("utf-8", "replace").split("\n")
                 if line.strip() and not line.startswith(ENDED)]
        raise NoAnswer(outside.text_of(lines[-1]) if lines else f"kubectl ended with status {status}")


def started(words: list[str]) -> subprocess.Popen:
    try:
        return subprocess.Popen(["kubectl", *words], stdin=subprocess.DEVNULL, stdout=subprocess.PIPE,
                                stderr=subprocess.PIPE)
    except FileNotFoundError:
        raise entry.Fault("kubectl is missing", Status.MISSING) from None
    except OSError as fault:
        raise entry.Fault(f"kubectl can't be started: {fault.strerror}", Status.MISSING) from None


def handed_on(process: subprocess.Popen, most: int, seconds: float, silent: float,
              take: Callable[[bytes], object]) -> bytes:
    """Passes on what a process writes for so many seconds; returns what it reported last on standard error. Raises
    TimeoutError with the seconds within which it had to answer."""
    size, said = 0, b""
    begin = heard = time.monotonic()
    with selectors.DefaultSelector() as selector:
        for stream in filter(None, (process.stdout, process.stderr)):
            selector.register(stream, selectors.EVENT_READ)
        while selector.get_map():
            now = time.monotonic()
            left = min(begin + seconds, heard + silent) - now
            if left <= 0:
                raise TimeoutError(seconds if now >= begin + seconds else silent)
            for key, _ in selector.select(left):
                heard = time.monotonic()
                piece = os.read(key.fd, PIECE)
                if not piece:
                    selector.unregister(key.fileobj)
                elif key.fileobj is process.stderr:
                    said = (said + piece)[-MOST_SAID:]
                else:
                    size += len(piece)
                    if size > most:
                        raise NoAnswer(f"more than {amounts.amount_text(1000 * most, True)} came, and no more is taken")
                    take(piece)
    return said
