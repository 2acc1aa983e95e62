"""Files as they lie there, plain or packed by gzip, as those that kubelet-replay record --into leaves."""

from __future__ import annotations

import gzip
import io
import os
import stat
import zlib
from typing import BinaryIO

GZIP = b"\x1f\x8b"
DAMAGES = (OSError, EOFError, zlib.error)
PIECE = 1 << 16


class Damaged(Exception):
    """What is packed can't be unpacked; the message shows why."""


def regular(path: str) -> BinaryIO:
    """A file to be read, of a folder that may have anything: a pipe would be waited for, and a device may never end.
    Raises OSError."""
    descriptor = os.open(path, os.O_RDONLY | os.O_NONBLOCK | os.O_CLOEXEC)
    if stat.S_ISREG(os.fstat(descriptor).st_mode):
        return os.fdopen(descriptor, "rb")
    os.close(descriptor)
    raise OSError(0, "it is no file")


def read(path: str, most: int) -> bytes:
    """The bytes of a file, unpacked where they are packed, and one more than so many at most. Raises OSError and
    Damaged."""
    with open(path, "rb") as file:
        return unpacked(file.read(most + 1), most)


def unpacked(data: bytes, most: int) -> bytes:
    """Bytes as they were before they were packed, where they are packed."""
    if not is_packed(data):
        return data
    try:
        return gzip.GzipFile(fileobj=io.BytesIO(data)).read(most + 1)
    except DAMAGES as fault:
        raise Damaged(f"it is damaged, and can't be unpacked: {fault}") from None


def is_sound(file: BinaryIO, most: int) -> bool:
    """Whether an open file is a packed one that can be unpacked, as far as so many bytes."""
    file.seek(0)
    source, left = gzip.GzipFile(fileobj=file), most
    try:
        while left > 0 and (piece := source.read(min(left, PIECE))):
            left -= len(piece)
    except DAMAGES:
        return False
    return True


def first_bytes(file: BinaryIO, count: int) -> bytes:
    """The first so many bytes of an open file, unpacked. Raises OSError and Damaged."""
    return unpacked_head(file, PIECE)[:count]


def first_line(file: BinaryIO, longest: int) -> bytes:
    """The first line of an open file that is not blank, unpacked; of the file so many bytes are read. Raises OSError
    and Damaged."""
    return unpacked_head(file, longest).lstrip(b" \t\r\n").partition(b"\n")[0]


def unpacked_head(file: BinaryIO, longest: int) -> bytes:
    """What an open file begins with, unpacked, as far as so many bytes of it have it."""
    file.seek(0)
    head = file.read(longest)
    if not is_packed(head):
        return head
    try:
        return zlib.decompressobj(wbits=zlib.MAX_WBITS | 16).decompress(head, longest)
    except zlib.error as fault:
        raise Damaged(f"it is damaged, and can't be unpacked: {fault}") from None


def is_packed(data: bytes) -> bool:
    return data.startswith(GZIP)


def is_packed_file(path: str) -> bool:
    """Whether a file that can be read more than once begins as a packed one."""
    with open(path, "rb") as file:
        return is_packed(file.read(len(GZIP)))
