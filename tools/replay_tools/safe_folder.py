"""A folder that files are written into, which others may be able to write too. What they put there first, as a link to
a file of somebody's, must not be written through, nor taken for what was written here. All names are names of entries
of a folder that is open, so that no link on the way to it can be turned round."""

from __future__ import annotations

import contextlib
import os
import stat
from collections.abc import Callable


def opened(path: str) -> int:
    """The descriptor of a folder. Raises OSError."""
    return os.open(path, os.O_RDONLY | os.O_DIRECTORY | os.O_CLOEXEC)


def fault(folder: int, is_written: Callable[[str], bool]) -> str | None:
    """Why nothing may be written into a folder that is open, in words after its name, or None. `is_written` shows of a
    name whether it is one of those that are written there. Raises OSError."""
    found, own = os.fstat(folder), os.geteuid()
    if found.st_uid not in (own, 0):
        return f"belongs to another user ({found.st_uid}), who may change what is written there"
    if not found.st_mode & (stat.S_IWGRP | stat.S_IWOTH):
        return None
    if not found.st_mode & stat.S_ISVTX:
        return "may be written by others, who may change what is written there: chmod go-w, or chmod +t, mends that"
    for name in sorted(filter(is_written, os.listdir(folder))):
        if not is_own(folder, name):
            return f"may be written by others, and {name} in it is of another user, or is no file"
    return None


def is_own(folder: int, name: str) -> bool:
    """Whether an entry of a folder is a file of this user's, and no link to one."""
    try:
        found = os.stat(name, dir_fd=folder, follow_symlinks=False)
    except OSError:
        return False
    return stat.S_ISREG(found.st_mode) and found.st_uid == os.geteuid()


def made(folder: int, name: str, mode: int = 0o640) -> int:
    """The descriptor of a new file of a folder, to be written and read. Raises OSError, also where something has its
    name."""
    return os.open(name, os.O_RDWR | os.O_CREAT | os.O_EXCL | os.O_NOFOLLOW | os.O_CLOEXEC, mode, dir_fd=folder)


def made_anew(folder: int, name: str, mode: int = 0o640) -> int:
    """The same where one may have been left there: what has its name goes first. Raises OSError."""
    drop(folder, name)
    return made(folder, name, mode)


def drop(folder: int, name: str) -> None:
    """Takes an entry away where it is there; of a link the link. Raises OSError."""
    with contextlib.suppress(FileNotFoundError):
        os.unlink(name, dir_fd=folder)


def rename(folder: int, name: str, other: str) -> None:
    """Gives a file another name, in place of what has that. Raises OSError."""
    os.rename(name, other, src_dir_fd=folder, dst_dir_fd=folder)
