"""A trace that is being written: lines that are settled, and after them lines that may still change."""

from __future__ import annotations

import contextlib
import json
import os
import stat
import zlib
from typing import Any, BinaryIO

PART = "part"
AHEAD = "ahead"
SHIPPED = "shipped"
# at most so many bytes of what is to follow in a part are read again
LONGEST_AHEAD = 64 << 20


def created(path: str, flags: int = os.O_WRONLY) -> int:
    """The descriptor of a file that was not there: what lies under the name, a link too, is not opened."""
    return os.open(path, flags | os.O_CREAT | os.O_EXCL | os.O_NOFOLLOW | os.O_CLOEXEC, 0o640)


def opened(path: str, flags: int = os.O_RDONLY) -> BinaryIO:
    """A file that is there. A link is not followed, and what is no file, as a pipe, is rejected."""
    descriptor = os.open(path, flags | os.O_NOFOLLOW | os.O_NONBLOCK | os.O_CLOEXEC)
    if not stat.S_ISREG(os.fstat(descriptor).st_mode):
        os.close(descriptor)
        raise OSError(f"{os.path.basename(path)} is no file")
    return os.fdopen(descriptor, "rb" if flags == os.O_RDONLY else "r+b")


def put(descriptor: int, data: bytes, place: int) -> None:
    """Writes bytes at a place of a file."""
    while data:
        count = os.pwrite(descriptor, data, place)
        data, place = data[count:], place + count


class Ahead:
    """The file next to the traces of a node that has what is about to follow the settled lines of a part, so that a
    recorder that is killed while it writes them there loses none: where this file is whole it counts, and else the
    part, of which nothing is overwritten yet. Where it can't be written lines are overwritten without it."""

    def __init__(self, folder: str, node: str) -> None:
        self.path = os.path.join(folder, f"{node}.{AHEAD}")
        self.descriptor: int | None = None

    def keep(self, name: str, size: int, data: bytes) -> None:
        """Keeps the lines that are about to follow so many bytes of the part of this name."""
        head = {"part": name, "size": size, "bytes": len(data), "sum": zlib.crc32(data)}
        with contextlib.suppress(OSError):
            if self.descriptor is None:
                self.descriptor = created(self.path)
            put(self.descriptor, json.dumps(head).encode() + b"\n" + data, 0)

    def drop(self) -> None:
        """Takes the file away."""
        if self.descriptor is not None:
            os.close(self.descriptor)
            self.descriptor = None
        with contextlib.suppress(OSError):
            os.unlink(self.path)

    def kept(self) -> tuple[str, int, bytes] | None:
        """The name of the part, its bytes that are settled, and the lines after them; None where they are not whole."""
        try:
            with opened(self.path) as file:
                head = json.loads(file.readline(4096))
                data = file.read(min(int(head["bytes"]), LONGEST_AHEAD))
            whole = len(data) == head["bytes"] and zlib.crc32(data) == head["sum"]
            return (str(head["part"]), int(head["size"]), data) if whole else None
        except (OSError, ValueError, TypeError, KeyError, RecursionError):
            return None


class Part:
    """A trace that is being written: whole lines, each of them or none."""

    def __init__(self, folder: str, name: str, ahead: Ahead, begun: int) -> None:
        self.name = name
        # the second at which it begins
        self.begun = begun
        self.ahead = ahead
        # the bytes of the settled lines, and what follows them
        self.size = self.ticks = self.pods = 0
        self.tail = b""
        # the bytes that it begins with, once they are written
        self.head = float("inf")
        self.descriptor = created(os.path.join(folder, f"{name}.{PART}"))

    def has(self, data: bytes) -> bool:
        """Whether these lines follow the settled ones already."""
        return self.tail.startswith(data)

    def foresee(self, data: bytes) -> None:
        """Puts lines after the settled ones, all at once, in place of what is there, which stays if this fails."""
        kept = self.size + len(self.tail)
        if data == self.tail:
            return
        try:
            if self.tail and data.startswith(self.tail):
                put(self.descriptor, data[len(self.tail):], kept)
            else:
                self.ahead.keep(self.name, self.size, data)
                # whoever reads it meanwhile finds whole lines
                if self.tail:
                    os.ftruncate(self.descriptor, self.size)
                put(self.descriptor, data, self.size)
        except OSError:
            # where this fails too, what is packed ends before it
            with contextlib.suppress(OSError):
                put(self.descriptor, self.tail, self.size)
                os.ftruncate(self.descriptor, kept)
            raise
        self.tail = data

    def settle(self, data: bytes) -> None:
        """Lines that nothing changes any more; lines that are ahead already are not written again."""
        if not self.has(data):
            self.foresee(data)
        self.size, self.tail = self.size + len(data), self.tail[len(data):]

    def close(self) -> None:
        """Ends it after its settled lines."""
        with contextlib.suppress(OSError):
            if self.tail:
                os.ftruncate(self.descriptor, self.size)
        with contextlib.suppress(OSError):
            os.close(self.descriptor)


def fields_of(line: bytes) -> dict[str, Any] | None:
    """A line of a trace, where it is one."""
    try:
        fields = json.loads(line)
    except (ValueError, RecursionError):
        return None
    return fields if isinstance(fields, dict) and "kind" in fields else None
