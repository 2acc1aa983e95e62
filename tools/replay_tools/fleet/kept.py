"""Answers that are kept next to the database, in a folder of their own: for each trace its rows and its report. A run
that begins again takes them from there."""

from __future__ import annotations

import contextlib
import fcntl
import gzip
import hashlib
import json
import os
import re
from collections.abc import Iterator
from typing import Any

from replay_tools import entry, safe_folder


# of which form the rows are: rows of another form are no answers
FORM = "7"


class Kept:
    """The folder of kept answers of one program; another program's are no answers."""

    def __init__(self, folder: str, program_sum: str) -> None:
        self.folder, self.program_sum = folder, program_sum
        try:
            with contextlib.suppress(FileExistsError):
                os.mkdir(folder, 0o755)
            self.check_own()
            # held for as long as this process lives, and not by what it starts
            self.lock = open(os.path.join(folder, "lock"), "a", opener=opened_here)
            fcntl.lockf(self.lock, fcntl.LOCK_EX | fcntl.LOCK_NB)
        except BlockingIOError:
            raise entry.Fault(f"another run writes {folder}; wait until it has ended") from None
        except OSError as fault:
            raise entry.Fault(f"{folder} can't be written: {fault.strerror}") from None

    def check_own(self) -> None:
        """Raises Fault where what is kept may be of somebody else, whose rows must not be believed."""
        descriptor = os.open(self.folder, os.O_RDONLY | os.O_DIRECTORY | os.O_NOFOLLOW | os.O_CLOEXEC)
        try:
            fault = safe_folder.fault(descriptor, lambda _: True)
            if fault is None and os.fstat(descriptor).st_uid != os.geteuid():
                fault = "belongs to another user, whose answers are not taken"
        finally:
            os.close(descriptor)
        if fault is not None:
            raise entry.Fault(f"{self.folder} {fault}")

    def name(self, path: str) -> str:
        """The name of a trace's files: what people call it, and a key of its path, of the program and of the form."""
        plain = re.sub(r"[^A-Za-z0-9.-]", "_", os.path.basename(path).removesuffix(".gz").removesuffix(".trace"))[:80]
        key = hashlib.sha256(f"{FORM}\n{self.program_sum}\n".encode() + os.fsencode(path)).hexdigest()[:16]
        return f"{plain}-{key}"

    def file(self, path: str, kind: str) -> str:
        return os.path.join(self.folder, f"{self.name(path)}.{kind}.gz")

    def known(self, path: str, until: int | None) -> str | None:
        """The SHA-256 of the trace whose answer is kept, if it has all up to a moment; or None."""
        try:
            trace: dict[str, Any] = next(self.rows(path), {})
        except (OSError, EOFError, ValueError):
            return None
        return trace.get("sha256") if trace.get("until") == until else None

    def rows(self, path: str) -> Iterator[dict[str, Any]]:
        """The record of a trace, and the records of its report."""
        with gzip.open(self.file(path, "rows"), "rt", encoding="utf-8") as lines:
            yield from map(json.loads, lines)

    def keep(self, path: str, answer: dict[str, Any]) -> None:
        """Takes an answer in. The rows come last, since they show that the answer is whole."""
        if answer["rows"] is None:
            return
        if answer["report"] is not None:
            self.write(self.file(path, "report"), answer["report"])
        self.write(self.file(path, "rows"), answer["rows"])

    def write(self, path: str, content: bytes) -> None:
        part = path + ".part"
        try:
            with open(part, "wb", opener=opened_here) as file:
                file.write(content)
            os.replace(part, path)
        except OSError as fault:
            raise entry.Fault(f"{path} can't be written: {fault.strerror}") from None


def opened_here(path: str, flags: int) -> int:
    """Opens a file, and follows no link to one elsewhere."""
    return os.open(path, flags | os.O_NOFOLLOW | os.O_CLOEXEC, 0o644)
