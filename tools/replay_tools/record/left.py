"""What a recorder has left in its folder: the next one ends it, and prints that."""

from __future__ import annotations

import contextlib
import gzip
import json
import os
import zlib
from collections.abc import Callable, Iterator
from dataclasses import dataclass
from typing import Any, BinaryIO

from .folder import PACKED, PACKING, PIECE, Folder, Trace, why
from .formats import LONGEST_LINE, MOST_BYTES
from .part import PART, fields_of, opened, put

NODE_LINE = b'{"kind":"node"'
DAMAGES = (OSError, EOFError, zlib.error)
# so much is unpacked at a poll, to see whether what lies there is whole
AT_ONCE = 1 << 20


@dataclass
class Scan:
    """What a part has: whole lines in so many bytes of its size, and the second of its last tick."""
    size: int
    whole: int = 0
    last: float = float("-inf")


def scan_of(file: BinaryIO, until: float = float("inf")) -> Scan | None:
    """A part up to a second, and what goes after it; None where it is no trace: what was cut within its first line
    still begins as one."""
    found = Scan(os.fstat(file.fileno()).st_size)
    place = 0
    for line in iter(lambda: file.readline(LONGEST_LINE + 2), b""):
        if place == 0 and not line.startswith(NODE_LINE[:len(line)]):
            return None
        fields = fields_of(line) if line.endswith(b"\n") else None
        if fields is None:
            break
        place += len(line)
        if fields["kind"] == "tick":
            second = second_of(fields.get("at"))
            if second > until:
                break
            found.last = second
        # the pods of a second are before its tick
        if fields["kind"] != "pod" or until == float("inf"):
            found.whole = place
    return found


def second_of(value: Any) -> float:
    """A moment of a trace; none that is no number comes before another."""
    return value if isinstance(value, (int, float)) and not isinstance(value, bool) else float("-inf")


class Left:
    """What lies in the folder of a recorder that begins."""

    def __init__(self, folder: Folder) -> None:
        self.folder = folder
        self.say = folder.say

    def end(self, is_stopped: Callable[[], bool] = lambda: False) -> None:
        """Ends the traces that a recorder has left, and shows what else lies there that is no whole trace. One that is
        stopped ends the one that it is at."""
        self.put_ahead()
        with contextlib.suppress(OSError):
            self.part_from_next()
        for entry in sorted(self.folder.entries()):
            if is_stopped():
                return
            if entry.endswith(f".{PART}"):
                try:
                    self.end_entry(entry, self.folder.form.fullmatch(entry))
                except OSError as error:
                    self.say(f"{entry} can't be ended, and is left as it is: {why(error)}")

    def end_entry(self, entry: Any, parts: Any) -> None:
        if parts is None:
            self.say(f"{entry} is not of this recorder, and is left as it is")
        elif parts["kind"] == PACKING:
            os.unlink(os.path.join(self.folder.path, entry))
        else:
            self.end_one(entry.removesuffix(f".{PART}"))

    def end_one(self, name: str) -> None:
        """Ends one trace after its last whole line."""
        path = self.folder.place(name, PART)
        found = scanned(path)
        if found is None:
            self.say(f"{name}.{PART} is no trace, and is left as it is")
        elif found.whole == 0:
            os.unlink(path)
            self.say(f"{name}.{PART} has no whole line, and is removed")
        else:
            more = found.size - found.whole
            if more:
                cut_at(path, found.whole)
            made = self.ended(name, found.whole)
            cut = f", without the {more} bytes after its last whole line" if more else ""
            self.say(f"{name}.{PART} was left by a recorder that did not end: it is {made} now{cut}")

    def ended(self, name: str, size: int) -> str:
        """Packs a part that was left. Where its trace is there, whole, it was only not yet removed."""
        packed = self.folder.place(name, PACKED)
        if not os.path.lexists(packed):
            return self.folder.pack(name, size)
        if is_same(packed, self.folder.place(name, PART)):
            os.unlink(self.folder.place(name, PART))
            return f"{name}.{PACKED}"
        place = self.folder.place_of(f"{name}.{PACKED}")
        if place is None:
            raise OSError("its name has no moment")
        return self.folder.pack(name, size, self.folder.free_name(place[0]))

    # --- one that was killed while it wrote ---

    def put_ahead(self) -> None:
        """If a recorder was killed while it wrote lines over others, they are written once more, unless their file is
        older than its part."""
        kept = self.folder.ahead.kept()
        if kept is not None and self.folder.form.fullmatch(f"{kept[0]}.{PART}"):
            name, size, data = kept
            with contextlib.suppress(OSError), opened(self.folder.place(name, PART), os.O_RDWR) as file:
                if is_behind_a_line(file, size) and last_of(file.read()) <= last_of(data):
                    put(file.fileno(), data, size)
                    os.ftruncate(file.fileno(), size + len(data))
        self.folder.ahead.drop()

    def part_from_next(self) -> None:
        """A trace that ends keeps its lines ahead until the next one has all of them. If the recorder was killed in
        between, the next one goes if it does not reach so far, and else the lines ahead."""
        parts = self.folder.traces(PART)
        whole = sorted([*parts, *self.folder.traces(PACKED)], key=lambda trace: (trace.begun, trace.number))
        for part in parts:
            # what it was packed into may be there already
            later = [trace for trace in whole if (trace.begun, trace.number) > (part.begun, part.number)]
            follows = follows_of(self.folder, later[0]) if later else {}
            at = second_of(follows.get("at"))
            if follows.get("trace") == part.name.replace(f".{PART}", f".{PACKED}") \
                    and second_of(follows.get("until")) <= at:
                self.part_two(part, later, at)

    def part_two(self, part: Trace, later: list[Trace], at: float) -> None:
        path = os.path.join(self.folder.path, part.name)
        found = scanned(path)
        if found is None or found.last <= at:
            return
        rest = [scanned(os.path.join(self.folder.path, each.name)) for each in later if each.name.endswith(f".{PART}")]
        is_whole = len(rest) < len(later) or any(each is not None and each.last >= found.last for each in rest)
        if is_whole:
            kept = scanned(path, at)
            cut_at(path, found.whole if kept is None else kept.whole)
        else:
            for each in later:
                os.unlink(os.path.join(self.folder.path, each.name))
                self.say(f"{each.name} was begun as its recorder was killed, and has nothing that {part.name} has not: "
                         "it is removed")


def scanned(path: str, until: float = float("inf")) -> Scan | None:
    try:
        with opened(path) as file:
            return scan_of(file, until)
    except OSError as error:
        if error.errno is None:
            return None
        raise


def is_behind_a_line(file: BinaryIO, place: int) -> bool:
    """Whether a place of a file, which is read from there on, is its begin or comes after a line."""
    if place < 0 or place > os.fstat(file.fileno()).st_size:
        return False
    file.seek(max(place - 1, 0))
    return place == 0 or file.read(1) == b"\n"


def last_of(data: bytes) -> float:
    """The second of the last tick of some lines."""
    ticks = [fields for fields in map(fields_of, data.splitlines()) if fields is not None and fields["kind"] == "tick"]
    return second_of(ticks[-1].get("at")) if ticks else float("-inf")


def follows_of(folder: Folder, trace: Trace) -> dict[str, Any]:
    """What the node line of a trace shows that it follows."""
    try:
        with opened(os.path.join(folder.path, trace.name)) as file:
            packed = gzip.GzipFile(fileobj=file) if trace.name.endswith(PACKED) else None
            follows = json.loads((packed or file).readline(LONGEST_LINE + 2))["follows"]
    except (*DAMAGES, ValueError, TypeError, KeyError, RecursionError):
        return {}
    return follows if isinstance(follows, dict) else {}


def cut_at(path: str, size: int) -> None:
    with opened(path, os.O_RDWR) as file:
        os.ftruncate(file.fileno(), size)


def is_same(packed: str, plain: str) -> bool:
    """Whether a packed file has the bytes of another one."""
    try:
        with opened(packed) as file, gzip.GzipFile(fileobj=file) as one, opened(plain) as other:
            while True:
                piece = one.read(PIECE)
                if piece != other.read(len(piece) or 1):
                    return False
                if not piece:
                    return True
    except DAMAGES:
        return False


def end_of_newest(folder: Folder) -> float | None:
    """The second of the last tick of the newest trace of a folder; None where there is none, or it can't be read."""
    traces = sorted([*folder.traces(), *folder.traces(PART)], key=lambda trace: (trace.begun, trace.number))
    if not traces:
        return None
    try:
        with opened(os.path.join(folder.path, traces[-1].name)) as file:
            packed = gzip.GzipFile(fileobj=file) if traces[-1].name.endswith(PACKED) else None
            found = last_of(end_of(packed or file))
    except DAMAGES:
        return None
    return found if found >= 0 else None


def end_of(file: BinaryIO | gzip.GzipFile) -> bytes:
    """The end of a trace, in which its last line is; nothing of what is longer than one."""
    size, end = 0, b""
    while piece := file.read(AT_ONCE):
        size, end = size + len(piece), (end + piece)[-2 * LONGEST_LINE:]
        if size > MOST_BYTES:
            return b""
    return end


def damages(folder: Folder) -> Iterator[None]:
    """Prints which traces of a folder are damaged, the newest first, in pieces of little work."""
    for trace in reversed(folder.traces()):
        try:
            with opened(os.path.join(folder.path, trace.name)) as file, gzip.GzipFile(fileobj=file) as packed:
                size = 0
                while piece := packed.read(AT_ONCE):
                    size += len(piece)
                    yield
                if size == 0:
                    raise EOFError("it is empty")
        except FileNotFoundError:
            continue
        except DAMAGES as error:
            folder.say(f"{trace.name} is damaged, and is left as it is: {why(error)}")
