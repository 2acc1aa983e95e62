"""Lines of journals in the forms that journalctl, a runtime and the kubelet itself write: each with its moment, and its
message."""

from __future__ import annotations

import functools
import itertools
import re
from collections.abc import Callable, Iterator
from dataclasses import dataclass, field
from typing import Any, BinaryIO, Optional

from replay_tools import outside

from .holes import HOLE, Numbers
from .moments import Klog, moment_of_iso
from .units import unit_of

PIECE = 1 << 20
# a line that is longer is cut, which is counted
LONGEST_LINE = 1 << 18
MOST_PARTS = 64
# so many seconds and programs are kept, since most lines have the same as the line before
MOST_KEPT = 16
# the form of a log as a process writes it
PLAIN = "plain"

ISO = re.compile(rb"(\d{4}-\d\d-\d\dT\d\d:\d\d:\d\d)(?:[.,](\d+))?(Z|[+-]\d\d:?\d\d)")
SHORT_ISO = re.compile(ISO.pattern + rb" (\S+) ([^\s:\[]+)(?:\[(\d{1,10})\])?: ")
# what a runtime keeps of a container's output: the moment, the stream, whether the line is whole
CONTAINER = re.compile(ISO.pattern + rb" (?:stdout|stderr) ([FP])(?:\S*) ")
STAMPED = re.compile(ISO.pattern + rb" ")
SYSLOG = re.compile(rb"([A-Z][a-z]{2}) +(\d{1,2}) (\d\d):(\d\d):(\d\d)(?:\.(\d{1,9}))? (\S+) ([^\s:\[]+)"
                    rb"(?:\[(\d{1,10})\])?: ")
# -o short-full and with-unit, which have the zone by its letters; -o short-unix; those that count from the node's start
SHORT_FULL = re.compile(rb"(?:[A-Z][a-z]{2} )?(\d{4})-(\d\d)-(\d\d) (\d\d:\d\d:\d\d)(?:\.(\d{1,9}))? (\S{1,8}) (\S+) "
                        rb"([^\s:\[]+)(?:\[(\d{1,10})\])?: ")
SHORT_UNIX = re.compile(rb"(\d{9,12}\.\d{1,9}) (\S+) ([^\s:\[]+)(?:\[(\d{1,10})\])?: ")
SINCE_START = re.compile(rb"\[[ \d.]{3,20}[^\]]{0,24}\] (\S+) ([^\s:\[]+)(?:\[(\d{1,10})\])?: ")
VERBOSE = re.compile(rb"[A-Z][a-z]{2} \d{4}-\d\d-\d\d \d\d:\d\d:\d\d(?:\.\d{1,9})? \S+ \[(s=[0-9a-f]+;[^\]]{0,300})\]")
STAMP_OF_CURSOR = re.compile(r";t=([0-9a-f]{1,16})")
# labels that Loki's client puts before a line
LABELS = re.compile(rb'\{\w{1,64}="[^}]{0,2000}\}\s+')
MONTHS = {name: place + 1 for place, name in enumerate(
    (b"Jan", b"Feb", b"Mar", b"Apr", b"May", b"Jun", b"Jul", b"Aug", b"Sep", b"Oct", b"Nov", b"Dec"))}
# klog's header, and how it is in a record of JSON
HEADER = rb"[IWEF]\d{4} [\d:.]{8,18} +\d{1,10} [^\]\s\"\\]{1,200}:\d+\] "
JSON_HEADER = re.compile(rb'"MESSAGE" ?: ?"' + HEADER + rb'\\?')
EXPORTED = re.compile(rb"__(?:CURSOR|REALTIME_TIMESTAMP|SEQNUM)=")


@dataclass
class Line:
    """One line of a journal: its moment in seconds since 1970 (None where only its message has one), what it shows, and
    which process of which unit of which node wrote it, as far as that is known."""
    moment: Optional[float]
    text: bytes
    unit: str = ""
    process: int = 0
    node: str = ""


@dataclass
class Hole(Line):
    """In place of lines that a journal lacks, or of a clock that went forward, with the moment, the node and the
    process of the line after it."""
    why: str = HOLE


# in place of messages that are not read
SKIPPED = Line(None, b"")


@dataclass
class Skipping:
    """Which messages are not read: whether a line is one of these, whether one is whose words are at a place, and
    the lines of blocks of a form with None in place of these."""
    is_skipped: Callable[[bytes], bool]
    is_unwanted: Callable[[bytes, int], bool]
    left_out: Callable[[Iterator[bytes], str], Iterator[Optional[bytes]]]


@dataclass
class Counts:
    """What was read, and what of it was not: lines that are longer than is read, that are no line of their form, and
    that a journal reports to be missing."""
    size: int = 0
    lines: int = 0
    cut: int = 0
    foreign: int = 0
    suppressed: int = 0
    back: int = 0
    holes: int = 0
    forwards: int = 0
    faults: list = field(default_factory=list)


def blocks_of(file: BinaryIO, counts: Counts) -> Iterator[bytes]:
    """The lines of a file, many at once, with their ends between them; one that is too long is cut."""
    rest, is_cut = b"", False
    while piece := file.read(PIECE):
        counts.size += len(piece)
        whole, end, part = piece.rpartition(b"\n")
        if end:
            block, rest = rest + whole, part
            if is_cut:
                # the end of the line that was cut
                _, end, block = block.partition(b"\n")
                is_cut = False
            if end:
                counts.lines += block.count(b"\n") + 1
                yield block
        elif not is_cut:
            rest += part
        if len(rest) > LONGEST_LINE:
            counts.cut += 1
            yield rest[:LONGEST_LINE]
            rest, is_cut = b"", True
    if rest:
        counts.lines += 1
        yield rest


def lines_of(blocks: Iterator[bytes]) -> Iterator[bytes]:
    return itertools.chain.from_iterable(block.split(b"\n") for block in blocks)


# --- forms ---


def of_json(lines: Iterator[bytes], counts: Counts, skipping: Skipping) -> Iterator[Line]:
    """`journalctl -o json`. A message that is no text is a list of bytes. Each record's number is read."""
    numbers = Numbers()
    for text in lines:
        behind, found = numbers.before_json(text), JSON_HEADER.search(text)
        if found is not None and behind is None and skipping.is_unwanted(text, found.end()):
            yield SKIPPED
            continue
        record = outside.json_of(text)
        if not isinstance(record, dict):
            counts.foreign += bool(text.strip())
            continue
        for line in line_of(record.get, counts):
            yield from standing_behind(behind, line)


def standing_behind(what: Optional[str], line: Line) -> Iterator[Line]:
    """A line, with the hole that it follows in front of it, if there is one."""
    if what is not None:
        yield Hole(line.moment, b"", line.unit, line.process, line.node, what)
    yield line


def line_of(member: Callable[[str], Any], counts: Counts) -> Iterator[Line]:
    """The line of a record whose members are asked for by their names."""
    said, stamp = member("MESSAGE"), member("__REALTIME_TIMESTAMP") or member("_SOURCE_REALTIME_TIMESTAMP")
    if isinstance(said, list):
        said = bytes(each for each in said if isinstance(each, int) and 0 <= each < 256)
    said = said.encode("utf-8", "replace") if isinstance(said, str) else said
    moment = outside.number_of(str(stamp)) if stamp is not None else None
    if not isinstance(said, bytes) or moment is None or not outside.moment(moment // 10 ** 6):
        counts.foreign += 1
        return
    process = outside.number_of(str(member("_PID") or member("SYSLOG_PID") or "0")) or 0
    yield Line(moment / 1e6, said, unit_of(member), process, str(member("_HOSTNAME") or ""))


def of_export(file: BinaryIO, counts: Counts) -> Iterator[Line]:
    """`journalctl -o export`: a record's members line by line, and an empty one after them. One that is no plain text
    has its name alone, and its length in eight bytes before it."""
    record: dict[str, Any] = {}
    numbers = Numbers()
    while text := file.readline(LONGEST_LINE):
        counts.size += len(text)
        name, equals, value = text.rstrip(b"\n").partition(b"=")
        if name and not equals:
            length = min(int.from_bytes(file.read(8), "little"), LONGEST_LINE)
            value = file.read(length)
            counts.size += length + 9
            file.read(1)
        if name:
            record.setdefault(name.decode("ascii", "replace"),
                              value if name == b"MESSAGE" else value.decode("utf-8", "replace"))
        elif record:
            counts.lines += 1
            yield from of_record(record, counts, numbers)
            record = {}
    if record:
        yield from of_record(record, counts, numbers)


def of_record(record: dict[str, Any], counts: Counts, numbers: Numbers) -> Iterator[Line]:
    behind = numbers.before_record(record)
    for line in line_of(record.get, counts):
        yield from standing_behind(behind, line)


def of_short_iso(lines: Iterator[Optional[bytes]], counts: Counts) -> Iterator[Line]:
    """`journalctl -o short-iso` and `-o short-iso-precise`."""
    for text in lines:
        if text is None:
            yield SKIPPED
            continue
        found = SHORT_ISO.match(text)
        moment = None if found is None else moment_of(found)
        if found is None or moment is None:
            if not text.startswith((b"-- ", b" ", b"\t")):
                counts.foreign += bool(text.strip())
            yield Line(None, text)
            continue
        yield Line(moment, text[found.end():], *speaker_of(*found.group(5, 6, 4)))


def moment_of(found: re.Match[bytes]) -> Optional[float]:
    """The moment with which a line begins, by what ISO finds of it."""
    second = second_of(found[1], found[3])
    return None if second is None else second + float(b"0." + (found[2] or b"0"))


@functools.lru_cache(MOST_KEPT)
def second_of(clock: bytes, zone: bytes) -> Optional[float]:
    """The same without a fraction."""
    return moment_of_iso((clock + zone).decode())


@functools.lru_cache(MOST_KEPT)
def speaker_of(unit: bytes, process: Optional[bytes], node: bytes) -> tuple[str, int, str]:
    """The unit, the process and the node of a line."""
    return unit.decode("utf-8", "replace"), int(process or 0), node.decode("utf-8", "replace")


def of_syslog(lines: Iterator[Optional[bytes]], counts: Counts, klog: Klog) -> Iterator[Line]:
    """`journalctl` without a word, with -o short-precise, and syslog: moments without a year and a zone."""
    for text in lines:
        if text is None:
            yield SKIPPED
            continue
        found = SYSLOG.match(text)
        if found is None or found[1] not in MONTHS:
            counts.foreign += bool(text.strip()) and not text.startswith((b"-- ", b" ", b"\t"))
            yield Line(None, text)
            continue
        day, hour, minute, second = map(int, found.group(2, 3, 4, 5))
        moment = klog.moment(MONTHS[found[1]], day, hour, minute, second, float(b"0." + (found[6] or b"0")))
        yield Line(moment, text[found.end():], found[8].decode("utf-8", "replace"), int(found[9] or 0),
                   found[7].decode("utf-8", "replace"))


def of_container(lines: Iterator[Optional[bytes]], _counts: Counts) -> Iterator[Line]:
    """What a runtime keeps of a kubelet in a container, or `kubectl logs --timestamps` gives. A long line is kept in
    parts, of which each but the last one shows that it is one."""
    parts: list[bytes] = []
    for text in lines:
        if text is None:
            yield SKIPPED
            continue
        found = CONTAINER.match(text) or STAMPED.match(text)
        said = text if found is None else text[found.end():]
        if said.startswith(b"{") and (labels := LABELS.match(said)) is not None:
            said = said[labels.end():]
        if found is not None and found.re is CONTAINER and found[4] == b"P" and len(parts) < MOST_PARTS:
            parts.append(said)
            continue
        yield Line(None if found is None else moment_of(found),
                   b"".join([*parts, said])[:LONGEST_LINE] if parts else said)
        parts = []


def of_plain(lines: Iterator[Optional[bytes]], _counts: Counts) -> Iterator[Line]:
    """A log as the process writes it, whose messages have their moments."""
    for text in lines:
        yield SKIPPED if text is None else Line(None, text)


def of_short_full(lines: Iterator[Optional[bytes]], counts: Counts, shift: int) -> Iterator[Line]:
    """`journalctl -o short-full` and `with-unit`. What the letters of a zone mean depends on where it is: but for UTC
    it is taken as the zone that was given."""
    for text in lines:
        if text is None:
            yield SKIPPED
            continue
        found = SHORT_FULL.match(text)
        day = None if found is None else b"-".join(found.group(1, 2, 3))
        second = None if found is None or day is None else second_of(day + b"T" + found[4], b"Z")
        if found is None or second is None:
            counts.foreign += bool(text.strip()) and not text.startswith((b"-- ", b" ", b"\t"))
            yield Line(None, text)
            continue
        ahead = 0 if found[6] in (b"UTC", b"GMT") else shift
        yield Line(second - ahead + float(b"0." + (found[5] or b"0")), text[found.end():],
                   *speaker_of(*found.group(8, 9, 7)))


def of_short_unix(lines: Iterator[Optional[bytes]], counts: Counts) -> Iterator[Line]:
    """`journalctl -o short-unix`, and short-monotonic and short-delta, whose moments are the messages' own."""
    for text in lines:
        if text is None:
            yield SKIPPED
            continue
        found = SHORT_UNIX.match(text)
        if found is not None:
            yield Line(float(found[1]), text[found.end():], *speaker_of(*found.group(3, 4, 2)))
            continue
        found = SINCE_START.match(text)
        if found is None:
            counts.foreign += bool(text.strip()) and not text.startswith((b"-- ", b" ", b"\t"))
            yield Line(None, text)
            continue
        yield Line(None, text[found.end():], *speaker_of(*found.group(2, 3, 1)))


def of_verbose(lines: Iterator[bytes], counts: Counts) -> Iterator[Line]:
    """`journalctl -o verbose`: a line with the record's cursor, and its members after blanks."""
    numbers = Numbers()
    record: dict[str, Any] = {}
    for text in itertools.chain(lines, (None,)):
        found = None if text is None else VERBOSE.match(text)
        if text is not None and found is None:
            name, equals, value = text.strip().partition(b"=")
            if equals:
                record.setdefault(name.decode("ascii", "replace"),
                                  value if name == b"MESSAGE" else value.decode("utf-8", "replace"))
            continue
        if "MESSAGE" in record:
            yield from of_record(record, counts, numbers)
        cursor = "" if found is None else found[1].decode("ascii")
        stamp = STAMP_OF_CURSOR.search(cursor)
        record = {"__CURSOR": cursor}
        if stamp is not None:
            record["__REALTIME_TIMESTAMP"] = str(int(stamp[1], 16))
