"""The trace of a folder that is written: one ends and the next one begins, and where there is no room none is."""

from __future__ import annotations

import errno
from collections.abc import Callable
from typing import TYPE_CHECKING

from .folder import GivingWay, why
from .output import Output
from .packing import FULL, Packing
from .standing import Standing

if TYPE_CHECKING:
    from .folder import Folder
    from .part import Part

# a trace with so many times what it begins with is long
SHORT = 2
AGAIN_SECONDS = 5
# a file that is made needs so much
BLOCK = 4096


def say_again(say: Callable[..., None], text: str) -> None:
    """Prints a line that may have been printed before."""
    say(text, object())


class Writing(Output):
    """Whole lines in a trace of a folder, which begins with what is known then; `say` takes what is reported."""

    def __init__(self, folder: Folder, packing: Packing, say: Callable[..., None]) -> None:
        super().__init__(float("inf"))
        self.folder = folder
        self.packing = packing
        self.say = say
        self.standing = Standing()
        # the trace; None where nothing can be written
        self.part: Part | None = None
        # the newest trace that has ended, and up to when all that happened is written
        self.last: str | None = None
        self.until: int | None = None
        self.giving_way = GivingWay(folder, "what is recorded")
        self.is_lost = self.has_turned = False
        self.tried_at = float("-inf")

    # --- traces end and begin ---

    def turn(self, second: int) -> None:
        """The trace ends, and the next one begins at this second."""
        self.reach(second)
        self.leave()
        self.begin(second)
        self.has_turned = True

    def turn_back(self, second: int, before: int) -> None:
        """The clock showed one second, and now shows an earlier one."""
        if self.part is not None:
            self.reach(before)
            self.end()
            self.begin(second)
        self.standing.at, self.has_turned = second, True

    def reach(self, second: int) -> None:
        """All that happened up to a second is written."""
        self.until = second if self.until is None else max(self.until, second)

    def end(self) -> None:
        """Ends the trace that is written, if one is."""
        self.leave()
        self.finish()

    def leave(self) -> None:
        """The trace has ended; its lines ahead stay for now."""
        part, self.part = self.part, None
        if part is not None:
            self.last = f"{part.name}.gz" if part.ticks else self.last
            self.packing.ended.append(part)

    def finish(self) -> None:
        """What has ended is packed: the trace that is written has all lines ahead."""
        self.packing.finish(self.until)

    def pack(self) -> None:
        """Packs what could not be packed before."""
        self.packing.pack()

    def begin(self, second: int, lines: list[str] | None = None) -> None:
        """Begins a trace at a second, with what is known then, or with these lines."""
        follows = None if self.until is None else {"trace": self.last, "until": self.until, "at": second}
        lines = lines or list(self.standing.beginning(second, follows))
        data = "".join(f"{line}\n" for line in lines).encode()
        part = self.put(data, second) if self.open(second) else None
        if part is not None:
            part.pods, part.head = len(self.standing.pods), len(data)
            part.ticks = len(lines) - 1 - part.pods
            self.until = second

    def open(self, second: int) -> bool:
        """Makes the file of a trace; whether it could be made."""
        while True:
            try:
                self.part = self.folder.part(second)
                return True
            except OSError as error:
                if error.errno not in FULL or not self.makes_room(why(error), BLOCK):
                    self.lose(second, why(error))
                    return False

    # --- room ---

    def put(self, data: bytes, second: int) -> Part | None:
        """Writes whole lines into the trace; the one that has them, if any has. Where there is no room it is cut short,
        then the oldest traces go, and where there is none of these what comes is lost until there is room. What is kept
        free is there for a trace that begins as the one before it has ended."""
        while self.part is not None:
            lacking, number, reason = 0, errno.ENOSPC, "the file system has no free room"
            try:
                lacking = 0 if self.packing.ended or self.part.has(data) else self.folder.lacking(len(data))
                if lacking == 0:
                    self.part.settle(data)
                    self.giving_way.begin()
                    return self.part
            except OSError as error:
                number, reason = error.errno or 0, why(error)
            is_shorter = number in (*FULL, errno.EFBIG) and self.is_cut_short(self.part)
            if not is_shorter and not (number in FULL and self.makes_room(reason, len(data), lacking)):
                self.lose(second, reason)
        return None

    def makes_room(self, reason: str, wanted: int, lacking: int = 0) -> bool:
        """Whether there may be room for so many bytes now, since what has ended was packed or the oldest trace went."""
        if self.packing.ended:
            self.finish()
            return True
        try:
            reached = self.folder.room()[0] if lacking else 0
        except OSError:
            return False
        return self.giving_way.goes(reason, reached, 1 if lacking else wanted, lacking)

    def is_cut_short(self, part: Part) -> bool:
        """Where there is no room the trace ends, if it is long: packed it is a small part of what it was."""
        if self.standing.at is None or part.size <= SHORT * part.head:
            return False
        self.turn(self.standing.at)
        return True

    def lose(self, second: int, reason: str) -> None:
        """From a second on nothing is written; what is whole by then ends as a trace."""
        if not self.is_lost:
            say_again(self.say, f"{second}: nothing is written into '{self.folder.path}' until it can be: {reason}")
        self.is_lost, self.tried_at = True, second
        self.leave()

    def go_on(self, second: int) -> None:
        """Begins a trace where nothing could be written."""
        at = self.standing.at
        if at is not None and not 0 <= second - self.tried_at < AGAIN_SECONDS:
            self.tried_at = second
            self.pack()
            if self.can_write():
                self.begin(at)
        if self.part is not None and self.is_lost:
            self.is_lost = False
            say_again(self.say, f"{second}: there is room again, and a trace begins")

    def has_room_for(self, size: int) -> bool:
        try:
            return bool(self.packing.ended) or self.folder.lacking(size) == 0
        except OSError:
            return False

    def can_write(self) -> bool:
        try:
            return self.folder.has_room_again()
        except OSError:
            return False
