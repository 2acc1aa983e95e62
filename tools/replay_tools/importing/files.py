"""Files of journals: how much of them is read, in which form they are, and in which order. A form is known by the first
lines of a file; several files are read as one, by their moments."""

from __future__ import annotations

import copy
import gzip
import io
import os
import re
import sys
import time
from collections.abc import Callable, Iterator
from typing import Any, BinaryIO, Optional

from replay_tools import amounts, entry, packed
from replay_tools.cli.statuses import Status

from . import journals, records
from .journals import PLAIN, SKIPPED, Counts, Line, Skipping, blocks_of, lines_of
from .moments import Klog
from .sorting import is_newest_first, oldest_first

# so many bytes show which form a journal has, and so many lines of them
LOOKED_AT, MOST_LOOKED_AT = 1 << 16, 200
FIRST_LINES = 20
# so many bytes of a journal are read, unless another bound is given
MOST = 4 << 30
STANDARD_INPUT = "-"
MARK = b"\xef\xbb\xbf"
COLOURS = re.compile(rb"\x1b\[[0-9;]{0,32}[mK]")
HEADER = re.compile(journals.HEADER)
# what is before each line where a journal was asked for of several nodes or pods
PREFIX = re.compile(rb"(\[pod/\S{1,330}\]|[a-zA-Z0-9][-.a-zA-Z0-9]{0,252}) +")
OF_POD = b"[pod/"
# the forms that hold one line in each of theirs
FORMS = {"export": journals.EXPORTED, "verbose": journals.VERBOSE, "short-iso": journals.SHORT_ISO,
         "container": re.compile(rb"(?:%b|%b)" % (journals.CONTAINER.pattern, journals.STAMPED.pattern)),
         "syslog": journals.SYSLOG, "short-full": journals.SHORT_FULL,
         "short-unix": re.compile(rb"(?:%b|%b)" % (journals.SHORT_UNIX.pattern, journals.SINCE_START.pattern))}
# the forms of records, which a store of logs exports in whatever order
UNORDERED = "records", "document", "table"
NOT_SKIPPED = Skipping(lambda _: False, lambda _, __: False, lambda blocks, _: lines_of(blocks))


class Limited(io.RawIOBase):
    """A file up to a number of bytes, and up to where it can be read."""

    def __init__(self, file: Any, most: int) -> None:
        super().__init__()
        self.file = file
        self.left = most
        self.is_over = False
        self.fault: Optional[BaseException] = None

    def readable(self) -> bool:
        return True

    def readinto(self, buffer: Any) -> int:
        wanted = min(len(buffer), self.left)
        if wanted == 0:
            self.is_over = self.is_over or (len(buffer) > 0 and bool(self.read_some(1)))
            return 0
        data = self.read_some(wanted)
        buffer[:len(data)] = data
        self.left -= len(data)
        return len(data)

    def read_some(self, count: int) -> bytes:
        """What comes next; nothing after a place from which on the file can't be read."""
        try:
            return b"" if self.fault else self.file.read1(count)
        except packed.DAMAGES as fault:
            self.fault = fault
            return b""


def buffered(file: Any, most: int) -> Any:
    """A file of which one can see how it goes on."""
    return io.BufferedReader(Limited(file, most), LOOKED_AT)


def lines_at_begin(head: bytes) -> list[bytes]:
    """The lines with which a journal begins, but for what journalctl shows itself."""
    found = head.removeprefix(MARK).split(b"\n")[:MOST_LOOKED_AT]
    cleaned = (COLOURS.sub(b"", line).rstrip(b"\r") for line in found)
    return [line for line in cleaned if line.strip() and not line.startswith(b"-- ")]


def form_of(head: bytes) -> tuple[str, bool]:
    """The name of the form that a journal has that begins so, and whether a name is before each line."""
    lines = lines_at_begin(head)
    found = form_of_lines(lines)
    if found is None:
        behind = [line[start.end():] for line in lines[:FIRST_LINES] if (start := PREFIX.match(line)) is not None]
        found = form_of_lines(behind) if len(behind) * 2 > len(lines[:FIRST_LINES]) else None
        return (PLAIN, False) if found in (None, *UNORDERED) else (str(found), True)
    return found, False


def form_of_lines(lines: list[bytes]) -> Optional[str]:
    """The form of lines; None where none of the first has one."""
    for line in lines[:FIRST_LINES]:
        if line.startswith(b"{") and b'"__REALTIME_TIMESTAMP"' in line:
            return "json"
        if HEADER.match(line):
            return PLAIN
        for name, form in FORMS.items():
            if form.match(line):
                return name
    return form_of_records(lines)


def form_of_records(lines: list[bytes]) -> Optional[str]:
    """The form of records of JSON, a line each or in documents, or of a table."""
    first = lines[0].lstrip(records.SEPARATOR).removeprefix(records.OF_STREAM)[:1] if lines else b""
    if first not in (b"{", b"[") or lines[0].startswith(OF_POD):
        return "table" if records.delimiter_of(b"\n".join(lines)) is not None else None
    found = [has for line in lines if (has := records.has_lines(line)) is not None]
    if any(found):
        return "records"
    # the lines of a runtime or of a kubelet may be JSON themselves
    first_lines = lines[:FIRST_LINES]
    is_own = any(b'"msg"' in line for line in first_lines) and any(line.rstrip().endswith(b"}") for line in first_lines)
    return None if is_own and not found else "document"


class Journal:
    """A file of a journal, which may be packed, or standard input. Its lines are in the order of their moments."""

    def __init__(self, path: str, counts: Counts, most: int = MOST, node: Optional[str] = None) -> None:
        # which node's lines are read, where a name is before each line
        self.path = path
        self.counts = counts
        self.most = most
        self.node = node
        self.name = "standard input" if path == STANDARD_INPUT else f"'{path}'"
        self.file: Any
        self.file, self.written = self.opened()
        self.head = self.peeked()
        self.form, self.is_prefixed = form_of(self.head)
        # the names before its lines
        self.prefixes: set[bytes] = set()

    def opened(self) -> tuple[BinaryIO, float]:
        """The file, and when it was written last."""
        if self.path == STANDARD_INPUT:
            return sys.stdin.buffer, time.time()
        try:
            descriptor = os.open(self.path, os.O_RDONLY | os.O_CLOEXEC)
            return os.fdopen(descriptor, "rb"), os.fstat(descriptor).st_mtime
        except OSError as fault:
            raise entry.Fault(f"{self.name} can't be read: {fault.strerror}") from None

    def peeked(self) -> bytes:
        """What it begins with, unpacked."""
        self.file = buffered(self.file, self.most)
        if self.file.peek(2)[:2] == packed.GZIP:
            self.file = buffered(gzip.GzipFile(fileobj=self.file), self.most)
        head = self.file.peek(LOOKED_AT)[:LOOKED_AT]
        if not head and self.file.raw.fault is not None:
            raise entry.Fault(f"{self.name} can't be read: {why(self.file.raw.fault)}") from None
        return head

    def lines(self, klog: Klog, skipping: Skipping) -> Iterator[Line]:
        """Its lines, the oldest first, with one for messages that are not read; a place after which the file can't be
        read further ends it, which is kept."""
        is_reversed = is_newest_first(self.first_lines(copy.copy(klog)), copy.copy(klog))
        found = self.wanted(klog, skipping)
        if is_reversed or self.form in UNORDERED:
            found = oldest_first(found, copy.copy(klog), self.name, is_reversed)
        yield from found
        if self.file.raw.fault is not None:
            self.counts.faults.append(f"{self.name} can't be read to its end: {why(self.file.raw.fault)}")
        elif self.file.raw.is_over:
            most = amounts.amount_text(1000 * self.most, True)
            self.counts.faults.append(f"{self.name} has more than {most}, and no more of it was read (--most)")

    def wanted(self, klog: Klog, skipping: Skipping) -> Iterator[Line]:
        if self.form == PLAIN:
            yield from self.read(self.file, klog, self.counts, skipping)
            return
        for line in self.read(self.file, klog, self.counts, skipping):
            yield SKIPPED if line is not SKIPPED and skipping.is_skipped(line.text) else line

    def first_lines(self, klog: Klog) -> list[Line]:
        """The lines with which it begins, without the last one, which may be cut."""
        whole = self.head.rpartition(b"\n")[0]
        return list(self.read(io.BufferedReader(io.BytesIO(whole)), klog, Counts(), NOT_SKIPPED))  # type: ignore

    def read(self, file: Any, klog: Klog, counts: Counts, skipping: Skipping) -> Iterator[Line]:
        if self.form == "export":
            return journals.of_export(file, counts)
        if self.form == "document":
            return records.of_documents(pieces_of(file, counts), counts)
        blocks = self.cleaned(blocks_of(file, counts))
        if self.is_prefixed:
            blocks = self.without_prefix(blocks)
        if self.form in ("json", "verbose", *UNORDERED):
            return self.of_records(blocks, counts, skipping)
        lines = skipping.left_out(blocks, self.form)
        if self.form == "syslog":
            return journals.of_syslog(lines, counts, klog)
        if self.form == "short-full":
            return journals.of_short_full(lines, counts, klog.shift)
        readers: dict[str, Callable[..., Iterator[Line]]] = {
            "short-iso": journals.of_short_iso, "container": journals.of_container,
            "short-unix": journals.of_short_unix, PLAIN: journals.of_plain}
        return readers[self.form](lines, counts)

    def of_records(self, blocks: Iterator[bytes], counts: Counts, skipping: Skipping) -> Iterator[Line]:
        if self.form == "json":
            return journals.of_json(lines_of(blocks), counts, skipping)
        if self.form == "verbose":
            return journals.of_verbose(lines_of(blocks), counts)
        if self.form == "table":
            delimiter = records.delimiter_of(b"\n".join(lines_at_begin(self.head)))
            return records.of_rows(lines_of(blocks), counts, delimiter or ",")
        return records.of_records(lines_of(blocks), counts)

    @staticmethod
    def cleaned(blocks: Iterator[bytes]) -> Iterator[bytes]:
        """Blocks without colours, and with plain ends of lines."""
        is_first = True
        for block in blocks:
            if is_first:
                block, is_first = block.removeprefix(MARK), False
            if b"\x1b" in block:
                block = COLOURS.sub(b"", block)
            if b"\r" in block:
                block = block.replace(b"\r\n", b"\n").removesuffix(b"\r")
            yield block

    def without_prefix(self, blocks: Iterator[bytes]) -> Iterator[bytes]:
        """Blocks without the name before each line: of one node, or of the one that was given."""
        for block in blocks:
            kept = []
            for line in block.split(b"\n"):
                found = PREFIX.match(line)
                if found is None or self.is_ours(found[1]):
                    kept.append(line if found is None else line[found.end():])
            yield b"\n".join(kept)

    def is_ours(self, prefix: bytes) -> bool:
        node = prefix.decode("ascii", "replace").lower()
        if self.node is not None and not node.startswith("["):
            return node == self.node or node.partition(".")[0] == self.node
        self.prefixes.add(prefix)
        if len(self.prefixes) > 1:
            names = " and ".join(sorted(each.decode("ascii", "replace") for each in self.prefixes))
            what = "pods" if node.startswith("[") else "nodes"
            more = "give the lines of one" if what == "pods" else "give --node NAME"
            raise entry.Fault(f"{self.name} has lines of several {what}, {names}: {more}", Status.FAILED)
        return True


def pieces_of(file: Any, counts: Counts) -> Iterator[bytes]:
    """The bytes of a file, whose lines may be of any length."""
    while piece := file.read(journals.PIECE):
        counts.size += len(piece)
        counts.lines += piece.count(b"\n")
        yield piece


def why(fault: BaseException) -> str:
    return getattr(fault, "strerror", None) or str(fault)
