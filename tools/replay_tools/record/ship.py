"""Takes traces away from the node: a command of the operator's is run for each whole trace, one at a time and in their
order, next to the recording. One that fails, or takes too long, is run again; what was taken is kept in a file of the
folder."""

from __future__ import annotations

import contextlib
import os
import signal
import subprocess
import time
from collections.abc import Callable
from dataclasses import dataclass
from typing import Optional, TYPE_CHECKING

from .folder import why
from .part import SHIPPED, created, opened
from .sources import MOST_SAID, PART_BYTES, shown_line

if TYPE_CHECKING:
    from .folder import Folder, Trace

# in the operator's command the path of a trace replaces this; if it does not occur, the path comes last
PATH = "{}"
# a command that takes longer is ended
LONGEST_SECONDS = 600
# after the first failure it is run again after so long, then after twice that, up to the most
AGAIN_SECONDS, MOST_AGAIN_SECONDS = 10, 600
# at the end of the recorder a command that runs has so long to end
END_SECONDS = 5
MOST_PARTS = 16
# of the file with the names of what was taken; a folder of 48 hours has some 50 traces
MOST_NAMES_BYTES = 1 << 20


@dataclass(frozen=True)
class Shipment:
    """A trace that is taken away, the command that does it, and since when that runs."""
    trace: Trace
    process: subprocess.Popen[bytes]
    begun_at: float

    def listen(self) -> bytes:
        """What the command has written to standard error by now. It waits for nothing."""
        said = b""
        if self.process.stderr is not None:
            with contextlib.suppress(BlockingIOError):
                # one that never stops writing is not read for longer at a poll
                for _ in range(MOST_PARTS):
                    part = os.read(self.process.stderr.fileno(), PART_BYTES)
                    said += part
                    if not part:
                        break
        return said

    def kill(self) -> None:
        with contextlib.suppress(ProcessLookupError):
            os.killpg(self.process.pid, signal.SIGKILL)
        self.process.wait()

    def close(self) -> None:
        if self.process.stderr is not None:
            self.process.stderr.close()


class Shipping:
    """Runs a command for each trace of a folder that has ended; `say` takes what is reported."""

    def __init__(self, words: tuple[str, ...], folder: Folder, say: Callable[..., None],
                 now: Callable[[], float] = time.monotonic) -> None:
        self.words = words
        self.folder = folder
        self.say = say
        self.now = now
        self.path = os.path.join(folder.path, f"{folder.node}.{SHIPPED}")
        # the names of the traces that were taken away, of those that are still there
        self.taken = self.read()
        self.shipment: Optional[Shipment] = None
        # the begin of what the command shows
        self.said = b""
        self.again_at = 0.0
        self.failures = 0

    def look(self) -> None:
        """What has become of the command that runs; and the next one, where none does. It waits for nothing."""
        if self.shipment is not None:
            self.see_end(self.shipment)
        if self.shipment is None and self.now() >= self.again_at:
            left = self.left()
            if left:
                self.start(left[0])

    def end(self) -> None:
        """The recorder ends: a command that runs has some seconds to end, and what is left is for the next start."""
        until = self.now() + END_SECONDS
        while self.shipment is not None and self.now() < until:
            self.see_end(self.shipment)
            time.sleep(0.05)
        self.stop()
        left = self.left()
        if left:
            count = "1 trace is" if len(left) == 1 else f"{len(left)} traces are"
            self.say(f"{count} not taken away yet, from {left[0].name} on: the next start does that")

    def stop(self) -> None:
        """Ends the command that runs, if one does."""
        if self.shipment is not None:
            self.shipment.kill()
            self.shipment.close()

    def left(self) -> list[Trace]:
        """The traces that were not taken away, in their order."""
        return [trace for trace in self.folder.traces() if trace.name not in self.taken]

    # --- one command ---

    def start(self, trace: Trace) -> None:
        path = os.path.join(self.folder.path, trace.name)
        words = [word.replace(PATH, path) for word in self.words]
        words += [] if words != list(self.words) else [path]
        self.said = b""
        try:
            # an interrupt of the recorder's terminal is none of its own
            process = subprocess.Popen(words, stdin=subprocess.DEVNULL, stdout=subprocess.DEVNULL,
                                       stderr=subprocess.PIPE, start_new_session=True)
            if process.stderr is not None:
                os.set_blocking(process.stderr.fileno(), False)
            self.shipment = Shipment(trace, process, self.now())
        except OSError as error:
            self.fail(trace, f"can't be started: {why(error)}")

    def see_end(self, shipment: Shipment) -> None:
        """Takes what the command shows, and its end."""
        status = shipment.process.poll()
        self.said = (self.said + shipment.listen())[:MOST_SAID]
        if status is None:
            if self.now() - shipment.begun_at <= LONGEST_SECONDS:
                return
            shipment.kill()
        shipment.close()
        self.shipment = None
        if status == 0:
            self.failures = 0
            self.taken.add(shipment.trace.name)
            self.write(shipment.trace.name)
        else:
            said = shown_line(self.said.decode("utf-8", "replace"))
            self.fail(shipment.trace, f"went on for {LONGEST_SECONDS} s, and was ended" if status is None else
                      f"failed with status {status}{': ' if said else ''}{said}")

    def fail(self, trace: Trace, reason: str) -> None:
        """The command is run again, each time after twice as long."""
        seconds = min(AGAIN_SECONDS * 2 ** min(self.failures, 16), MOST_AGAIN_SECONDS)
        self.failures += 1
        self.again_at = self.now() + seconds
        self.say(f"--ship: {self.words[0]} {reason}; {trace.name} is taken again in {seconds} s", object())

    # --- what was taken ---

    def read(self) -> set[str]:
        """The names of the traces that were taken away. A file with one name is of an older version: its trace and all
        that come before it were taken. Names alone, and not the newest one, also hold after the clock went back."""
        try:
            with opened(self.path) as file:
                names = file.read(MOST_NAMES_BYTES).decode("utf-8", "replace").split()
        except OSError:
            return set()
        if len(names) != 1:
            return set(names)
        last = self.folder.place_of(names[0])
        return {trace.name for trace in self.folder.traces() if last is not None and place_of(trace) <= last}

    def write(self, name: str) -> None:
        """Keeps the names of the taken traces that are still there, the newly taken one first and once more in its
        place, so that one name alone is never written."""
        temporary = f"{self.path}.part"
        there = [trace.name for trace in self.folder.traces() if trace.name in self.taken]
        self.taken = {name, *there}
        try:
            with contextlib.suppress(FileNotFoundError):
                os.unlink(temporary)
            with os.fdopen(created(temporary), "wb") as file:
                file.write("".join(f"{each}\n" for each in [name, *there]).encode())
            os.rename(temporary, self.path)
        except OSError as error:
            self.say(f"{self.path} can't be written, so a start later takes traces once more: {why(error)}", SHIPPED)


def place_of(trace: Trace) -> tuple[int, int]:
    """Where a trace is in the order of the folder's."""
    return trace.begun, trace.number
