"""The traces of a folder that have ended, and are packed once the next one has all of their lines ahead."""

from __future__ import annotations

import errno
from collections.abc import Callable
from typing import TYPE_CHECKING

from .folder import GivingWay, NotPacked, why

if TYPE_CHECKING:
    from .folder import Folder
    from .part import Part

# where these are reported there is no room
FULL = (errno.ENOSPC, errno.EDQUOT)


class Packing:
    """Packs traces that have at most so many seconds; `room` is what stays next to them for those that are written."""

    def __init__(self, folder: Folder, longest: int, room: int, say: Callable[..., None]) -> None:
        self.folder = folder
        self.longest = longest
        self.room = room
        self.say = say
        # the traces whose lines ahead stay until the next one has them
        self.ended: list[Part] = []
        # parts that have ended, with their bytes
        self.unpacked: dict[str, int] = {}
        self.giving_way = GivingWay(folder, "the packing of a trace")

    def finish(self, until: int | None) -> None:
        """The next trace has all lines ahead of the traces that have ended: they lose these lines, and are packed. What
        is older than is kept, by the second up to which traces are written, is taken away."""
        if not self.ended:
            return
        ended, self.ended = self.ended, []
        for part in ended:
            part.close()
            if part.ticks:
                self.unpacked[part.name] = part.size
            else:
                self.folder.drop(part.name)
        self.pack()
        if until is not None:
            self.folder.prune(until, self.longest, self.room)

    def pack(self) -> None:
        """Packs what has ended."""
        self.unpacked = {name: size for name, size in self.unpacked.items() if not self.is_packed(name, size)}

    def is_packed(self, name: str, size: int) -> bool:
        """Packs one part; whether that is done. Where there is no room the oldest traces go, as long as that helps."""
        while True:
            try:
                self.folder.pack(name, size)
                self.giving_way.begin()
                return True
            except FileNotFoundError:
                self.say(f"{name}.part is no longer there")
                return True
            except OSError as error:
                reached = error.reached if isinstance(error, NotPacked) else 0
                if error.errno not in FULL or not self.giving_way.goes(why(error), reached, 1):
                    self.say(f"{name}.part can't be packed yet: {why(error)}")
                    return False
