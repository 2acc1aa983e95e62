"""The folder of the traces that follow one another: their names, who may write there, and what goes."""

from __future__ import annotations

import contextlib
import errno
import fcntl
import gzip
import os
import re
import stat
import time
from collections.abc import Callable
from dataclasses import dataclass
from typing import Any, BinaryIO

from replay_tools import dates

from .part import AHEAD, PART, SHIPPED, Ahead, Part, created, opened

STAMP = "%Y-%m-%dT%H-%M-%SZ"
NAME = (r"[.](?P<stamp>[0-9]{4}-[0-9]{2}-[0-9]{2}T[0-9]{2}-[0-9]{2}-[0-9]{2}Z)"
        r"(?:_(?P<number>[1-9][0-9]{0,8}))?[.]trace[.]")
PACKED, PACKING = "gz", "gz.part"
# that much of the file system stays free, at most so many bytes
FREE_SHARE = 50
MOST_FREE = 256 << 20
# more than a rotation makes is not taken away for its age at once: a clock may be wrong
OLD_AT_ONCE = 2
PIECE = 1 << 18
# the user of the node itself
ROOT = 0


class Refused(Exception):
    """The folder can't be used; its text shows why."""


@dataclass(frozen=True)
class Trace:
    """A trace of the folder that has ended, and the second at which it begins."""
    name: str
    begun: int
    number: int
    size: int


def why(error: Any) -> Any:
    return error.strerror or str(error) if isinstance(error, OSError) else str(error)


def may_be_made(path: str) -> bool:
    """Whether nothing is there, in a folder that is."""
    return not os.path.lexists(path) and os.path.isdir(os.path.dirname(os.path.abspath(path)))


def made(path: str) -> None:
    """Makes a folder that is not there, for its owner to write."""
    try:
        os.mkdir(path, 0o755)
    except FileExistsError:
        return
    except OSError as error:
        raise Refused(f"--into: '{path}' can't be made: {why(error)}") from None


class Folder:
    """A folder that one recorder writes into, and the traces of its node there; it keeps them for some seconds, and
    some bytes of them. `say` takes what is reported."""

    def __init__(self, path: str, node: str, keep: int, most: int, say: Callable[..., None]) -> None:
        self.path = path
        self.keep = keep
        self.most = most
        self.say = say
        self.node = node
        self.form = re.compile(re.escape(node) + NAME + f"(?P<kind>{PACKED}|{PART}|{re.escape(PACKING)})")
        self.ahead = Ahead(path, node)
        self.lock()
        self.refuse_others()

    def lock(self) -> None:
        """Rejects a folder that can't be written, and the second recorder of one."""
        try:
            self.descriptor = os.open(self.path, os.O_RDONLY | os.O_DIRECTORY | os.O_CLOEXEC)
        except OSError as error:
            raise Refused(f"--into: '{self.path}' can't be read: {why(error)}") from None
        try:
            fcntl.flock(self.descriptor, fcntl.LOCK_EX | fcntl.LOCK_NB)
        except BlockingIOError:
            raise Refused(f"--into: another recorder writes into '{self.path}'") from None
        except OSError as error:
            raise Refused(f"--into: '{self.path}' can't be locked: {why(error)}") from None
        if not os.access(self.path, os.W_OK | os.X_OK):
            is_read_only = os.statvfs(self.path).f_flag & os.ST_RDONLY
            raise Refused(f"--into: '{self.path}' can't be written: "
                          + os.strerror(errno.EROFS if is_read_only else errno.EACCES))

    def refuse_others(self) -> None:
        """Rejects a folder in which another user may change what is written: one that is another's, or that others may
        write, unless it is sticky and what has the names of the recorder's files there is its own."""
        status, own = os.fstat(self.descriptor), os.geteuid()
        if status.st_uid not in (own, ROOT):
            raise Refused(f"--into: '{self.path}' belongs to another user (uid {status.st_uid}), who may change what "
                          "is written there")
        if not status.st_mode & (stat.S_IWGRP | stat.S_IWOTH):
            return
        if not status.st_mode & stat.S_ISVTX:
            raise Refused(f"--into: other users may write into '{self.path}', and change what is there: chmod go-w")
        for entry in sorted(self.entries()):
            if self.form.fullmatch(entry) or entry in (f"{self.node}.{AHEAD}", f"{self.node}.{SHIPPED}"):
                if os.lstat(os.path.join(self.path, entry)).st_uid != own:
                    raise Refused(f"--into: other users may write into '{self.path}', and {entry} there is another's")

    def is_there(self) -> bool:
        """Whether the path still leads to the folder that is locked, and neither to nothing nor to one that was made
        since. A path that can't be looked at for another reason is taken as it was."""
        own = os.fstat(self.descriptor)
        try:
            found = os.stat(self.path)
        except (FileNotFoundError, NotADirectoryError):
            return False
        except OSError:
            return True
        return (found.st_dev, found.st_ino) == (own.st_dev, own.st_ino)

    def place(self, name: str, kind: str) -> str:
        return os.path.join(self.path, f"{name}.{kind}")

    def free_name(self, second: int) -> str:
        """A name that no trace has. A clock that went back comes by the same second once more."""
        name = f"{self.node}.{time.strftime(STAMP, time.gmtime(second))}"
        found, number = f"{name}.trace", 1
        while any(os.path.lexists(self.place(found, kind)) for kind in (PACKED, PART)):
            number += 1
            found = f"{name}_{number}.trace"
        return found

    def part(self, second: int) -> Part:
        """A new trace that begins at a second; a loss of power leaves it."""
        part = Part(self.path, self.free_name(second), self.ahead, second)
        with contextlib.suppress(OSError):
            os.fsync(self.descriptor)
        return part

    def traces(self, kind: str = PACKED) -> list[Trace]:
        """The traces of the node that have ended, in the order in which they begin; or the traces of another kind."""
        found = []
        for entry in self.entries():
            place = self.place_of(entry, kind)
            if place is not None:
                try:
                    status = os.lstat(os.path.join(self.path, entry))
                except OSError:
                    continue
                if stat.S_ISREG(status.st_mode):
                    found.append(Trace(entry, *place, status.st_size))
        return sorted(found, key=lambda trace: (trace.begun, trace.number))

    def place_of(self, entry: str, kind: str = PACKED) -> tuple[int, int] | None:
        """The second at which the trace of a name begins, and its number there; None of any other name."""
        parts = self.form.fullmatch(entry)
        if parts is None or parts["kind"] != kind:
            return None
        begun = dates.stamped(parts["stamp"])
        return None if begun is None else (begun, int(parts["number"] or 1))

    def entries(self) -> list[str]:
        try:
            return os.listdir(self.path)
        except OSError:
            return []

    # --- room ---

    def lacking(self, wanted: int) -> int:
        """How many bytes are lacking where so many are written, and some of the file system stays free after them."""
        free, left = self.room()
        return max(left + wanted - free, 0)

    def has_room_again(self) -> bool:
        """Whether so much is free that it is not full again at once."""
        free, left = self.room()
        return free >= 2 * left

    def room(self) -> tuple[int, int]:
        """The bytes that are free, and those that stay so."""
        system = os.statvfs(self.path)
        return (system.f_bavail * system.f_frsize,
                min(system.f_blocks * system.f_frsize // FREE_SHARE, MOST_FREE))

    def remove(self, trace: Trace) -> bool:
        try:
            os.unlink(os.path.join(self.path, trace.name))
        except OSError as error:
            self.say(f"{trace.name} can't be removed: {why(error)}")
            return False
        return True

    def prune(self, second: int, longest: int, room: int) -> None:
        """Takes away what is older than is kept, of traces that have at most so many seconds, and then the oldest ones
        until so many bytes have room next to the others."""
        traces = self.traces()
        old = [trace for trace in traces if trace.begun + longest < second - self.keep][:OLD_AT_ONCE]
        left = [trace for trace in traces if trace not in old]
        size = sum(trace.size for trace in left) + room
        while left and size > self.most:
            old.append(left.pop(0))
            size -= old[-1].size
        for trace in old:
            self.remove(trace)

    # --- the end of a trace ---

    def pack(self, name: str, size: int, packed_name: str | None = None) -> str:
        """Packs so many bytes of a part: once they are on the disk they get their name, and the part goes. The name of
        the trace. NotPacked where it can't be, which leaves the part as it is."""
        made = packed_name or name
        temporary = self.place(made, PACKING)
        with opened(self.place(name, PART)) as source:
            with contextlib.suppress(FileNotFoundError):
                os.unlink(temporary)
            descriptor, reached = created(temporary), 0
            try:
                write_packed(source, size, descriptor)
                os.rename(temporary, self.place(made, PACKED))
            except OSError as error:
                with contextlib.suppress(OSError):
                    reached = os.lstat(temporary).st_size
                    os.unlink(temporary)
                raise NotPacked(error, reached) from None
        os.fsync(self.descriptor)
        os.unlink(self.place(name, PART))
        return f"{made}.{PACKED}"

    def drop(self, name: str) -> None:
        """Takes away a part that has nothing."""
        try:
            os.unlink(self.place(name, PART))
        except OSError as error:
            self.say(f"{name}.{PART} can't be removed: {why(error)}")


def write_packed(source: BinaryIO, size: int, descriptor: int) -> None:
    """Packs so many bytes of a file into another one, whose descriptor it closes once they are on the disk."""
    with os.fdopen(descriptor, "wb") as file:
        with gzip.GzipFile("", "wb", 6, file, 0) as packed:
            while piece := source.read(min(PIECE, size - source.tell())):
                packed.write(piece)
        file.flush()
        os.fchmod(descriptor, stat.S_IMODE(os.fstat(source.fileno()).st_mode))
        os.fsync(descriptor)


class NotPacked(OSError):
    """A part can't be packed: why, and how many bytes of the packed trace could be written."""

    def __init__(self, error: OSError, reached: int) -> None:
        super().__init__(error.errno, why(error))
        self.reached = reached


class GivingWay:
    """Takes the oldest traces away for something that has no room, but for the newest one, and only while that brings
    it further. Where it does not none goes any more, until there was room for it."""

    def __init__(self, folder: Folder, purpose: str) -> None:
        self.folder = folder
        self.purpose = purpose
        self.begin()

    def begin(self) -> None:
        """There was room for it."""
        self.reached, self.freed, self.is_over = -1, 0, False

    def goes(self, reason: str, reached: int, wanted: int, lacking: int = 0) -> bool:
        """Whether a trace went. What failed for this reason has come so far, by a number that grows as it comes
        further, and so many bytes should bring it further; so many are lacking in all, as far as that is known."""
        traces = self.folder.traces()[:-1]
        if self.is_over or not traces or sum(trace.size for trace in traces) < lacking:
            return False
        if reached > self.reached:
            self.reached, self.freed = reached, 0
        elif self.freed >= wanted:
            self.is_over = True
            self.folder.say(f"no more traces are removed for {self.purpose}, since that makes no room: {reason}")
            return False
        if not self.folder.remove(traces[0]):
            return False
        self.freed += max(traces[0].size, 1)
        self.folder.say(f"{traces[0].name} is removed, to make room for {self.purpose}: {reason}")
        return True
