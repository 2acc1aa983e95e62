"""Lines in records of JSON and in rows of CSV, as a cloud's store of logs, Loki, Elasticsearch, docker and fluent-bit
export them. Any text of a record that begins as a line of klog's or of a runtime is a line. The record has its moment.
"""

from __future__ import annotations

import csv
import json
import re
from collections.abc import Iterable, Iterator
from dataclasses import dataclass, field
from typing import Any, Optional

from replay_tools import dates, outside

from .journals import LONGEST_LINE, MOST_PARTS, Counts, Line, of_record
from .holes import Numbers
from .moments import moment_of_iso

# how a line begins in a record: as klog writes it, as text or as JSON, or as a runtime does
BEGIN = re.compile(r'[IWEF]\d{4} \d\d:\d\d:\d\d\.\d{1,9} +\d{1,10} [^\]\s]{1,200}:\d+\] |time="|\{"ts":|\{"level":"')
COLOURS = re.compile(r"\x1b\[[0-9;]{0,32}m")
# members that have a record's moment, the best one first; as names are compared, in small letters
STAMPS = ("timestamp", "@timestamp", "timegenerated", "time", "date", "ts", "eventtime", "datetime", "receivetimestamp",
          "ingestiontime", "@ingestiontime")
UNITS = ("_systemd_unit", "systemd_unit", "container_name", "syslog_identifier", "unit", "logname")
NODES = ("_hostname", "hostname", "node_name", "nodename", "node", "computer", "host")
NAMES = frozenset((*STAMPS, *UNITS, *NODES))
# a record is not looked through any deeper, nor for more values
DEEPEST, MOST_VALUES = 12, 2000
DIGITS = re.compile(r"\d{10,19}(?:\.\d{1,9})?")
# moments as pages of Kibana and of Azure write them
KIBANA = re.compile(r"(?P<month>[A-Z][a-z]{2}) (?P<day>\d{1,2}), (?P<year>\d{4}) @ (?P<hour>\d\d):(?P<minute>\d\d)"
                    r":(?P<second>\d\d)(?P<fraction>\.\d{1,9})?")
AZURE = re.compile(r"(?P<month>\d{1,2})/(?P<day>\d{1,2})/(?P<year>\d{4}),? (?P<hour>\d{1,2}):(?P<minute>\d\d)"
                   r":(?P<second>\d\d)(?P<fraction>\.\d{1,9})? (?P<half>[AP]M)")
MONTHS = "Jan", "Feb", "Mar", "Apr", "May", "Jun", "Jul", "Aug", "Sep", "Oct", "Nov", "Dec"
JOURNALD = "MESSAGE", "__REALTIME_TIMESTAMP"
DOCKER = "log", "stream"
# what is before a record of journalctl -o json-seq, and of -o json-sse
SEPARATOR, OF_STREAM = b"\x1e", b"data: "


@dataclass
class Found:
    """What a record has: texts that are lines, and the members with their moment, their unit and their node."""
    texts: list[str] = field(default_factory=list)
    members: dict[str, Any] = field(default_factory=dict)
    stamp: Optional[float] = None
    left: int = MOST_VALUES

    def of(self, names: tuple[str, ...]) -> str:
        found = next((self.members[name] for name in names if isinstance(self.members.get(name), str)), "")
        return found.rpartition("/")[2].rpartition("%2F")[2]

    def moment(self) -> Optional[float]:
        stamps = (moment_of(self.members[name]) for name in STAMPS if name in self.members)
        return next((each for each in stamps if each is not None), self.stamp)

    def lines(self) -> Iterator[Line]:
        moment, unit, node = self.moment(), self.of(UNITS), self.of(NODES).lower()
        for text in self.texts:
            said = text.rstrip("\n").encode("utf-8", "replace")[:LONGEST_LINE]
            yield Line(moment, said, unit, 0, node if outside.is_name(node) else "")


def moment_of(value: Any) -> Optional[float]:
    """The moment of a number, in seconds or in thousandths, millionths or billionths of these, or of a text."""
    if isinstance(value, bool) or not isinstance(value, (int, float, str)):
        return None
    if isinstance(value, str):
        if DIGITS.fullmatch(value) is None:
            return moment_of_text(value)
        value = float(value) if "." in value else int(value)
    if value != value or not 0 <= value < 1e19:
        return None
    while value >= 1e11:
        value /= 1000
    return float(value) if outside.moment(int(value)) else None


def moment_of_text(text: str) -> Optional[float]:
    found = moment_of_iso(text[:64].strip())
    if found is not None:
        return found
    parts = KIBANA.match(text) or AZURE.match(text)
    if parts is None:
        return None
    month, hour = month_of(parts["month"]), hour_of(int(parts["hour"]), parts.groupdict().get("half"))
    if month is None or hour is None:
        return None
    seconds = dates.seconds_of(int(parts["year"]), month, int(parts["day"]), hour, int(parts["minute"]),
                               int(parts["second"]))
    return None if seconds is None else seconds + float(f"0{parts['fraction'] or '.0'}")


def month_of(text: str) -> Optional[int]:
    """The number of a month, which a text has as such or by its English name."""
    if text.isdigit():
        return int(text)
    return MONTHS.index(text) + 1 if text in MONTHS else None


def hour_of(hour: int, half: Optional[str]) -> Optional[int]:
    """The hour of the day; of a half of the day, AM or PM, its hours are 1 to 12."""
    if half is None:
        return hour
    return hour % 12 + 12 * (half == "PM") if 1 <= hour <= 12 else None


def look_through(value: Any, name: str, found: Found, depth: int = 0) -> None:
    """Finds the lines of a record, and the members about them."""
    found.left -= 1
    if found.left < 0 or depth > DEEPEST:
        return
    if isinstance(value, dict):
        named = isinstance(value.get("field"), str) and set(value) == MEMBER
        for member, inner in ((value["field"], value["value"]),) if named else value.items():
            look_through(inner, member, found, depth + 1)
    elif isinstance(value, list):
        for inner in value:
            look_through(inner, "", found, depth + 1)
    elif isinstance(value, str):
        look_at(value, name, found, depth)
    elif name and (known := known_name(name)) is not None:
        found.members.setdefault(known, value)


def look_at(text: str, name: str, found: Found, depth: int) -> None:
    if "\x1b" in text:
        text = COLOURS.sub("", text)
    if BEGIN.match(text):
        if text not in found.texts[-MOST_PARTS:]:
            found.texts.append(text)
    elif text.startswith("{") and text.rstrip().endswith("}"):
        inner = outside.json_of(text)
        if isinstance(inner, dict):
            look_through(inner, "", found, depth + 1)
    elif name and (known := known_name(name)) is not None:
        found.members.setdefault(known, text)
    elif not name and found.stamp is None and DIGITS.fullmatch(text):
        found.stamp = moment_of(text)


def known_name(name: str) -> Optional[str]:
    """A member's name as it is compared, where it is one that is read; a column's may have its zone after it."""
    name = name.lower().partition(" [")[0]
    return name if name in NAMES else None


def lines_in(value: Any, counts: Counts, numbers: Numbers, is_line: bool = False) -> Iterator[Line]:
    """The lines of a record, or of what a line of a file has."""
    if isinstance(value, dict) and all(name in value for name in JOURNALD):
        yield from of_record(value, counts, numbers)
        return
    found = Found()
    look_through(value, "", found)
    counts.foreign += not found.texts
    if is_line and len(found.texts) > 1:
        # a whole document in one line
        for each in Documents(counts).of([json.dumps(value).encode()]):
            yield from lines_in(each, counts, numbers)
        return
    yield from found.lines()


def of_records(lines: Iterable[bytes], counts: Counts) -> Iterator[Line]:
    """Records of JSON, one in each line. docker keeps a line that is long in several, and each line of a message."""
    numbers, parts = Numbers(), ""
    for text in lines:
        value = outside.json_of(text.lstrip(SEPARATOR).removeprefix(OF_STREAM).rstrip(b",\r "))
        if isinstance(value, dict) and all(isinstance(value.get(name), str) for name in DOCKER):
            said = parts + value["log"]
            if not said.endswith("\n") and len(said) < MOST_PARTS << 14:
                parts = said
                continue
            value, parts = {**value, "log": said}, ""
            if BEGIN.match(said) is None:
                yield Line(None, said.rstrip("\n").encode("utf-8", "replace")[:LONGEST_LINE])
                continue
        for each in value if isinstance(value, list) else (value,):
            if isinstance(each, (dict, list)):
                yield from lines_in(each, counts, numbers, True)
            else:
                counts.foreign += bool(text.strip())


# --- CSV ---

def rows_of(lines: Iterable[bytes], delimiter: str) -> Iterator[list[str]]:
    """The rows of a table; what is none is left out."""
    csv.field_size_limit(LONGEST_LINE)
    rows = csv.reader((line.decode("utf-8", "replace").replace("\0", "") + "\n" for line in lines), delimiter=delimiter)
    while True:
        try:
            yield next(rows)
        except csv.Error:
            yield []
        except StopIteration:
            return


def of_rows(lines: Iterable[bytes], counts: Counts, delimiter: str) -> Iterator[Line]:
    """Rows of CSV, whose first one has the names of the columns."""
    rows = rows_of(lines, delimiter)
    names: list[str] = next(rows, [])
    numbers = Numbers()
    for row in rows:
        if row:
            yield from lines_in(dict(zip(names, row)), counts, numbers)


def delimiter_of(head: bytes) -> Optional[str]:
    """What parts the columns of a table with lines; None of what is none."""
    for delimiter in (",", "\t", ";"):
        rows = rows_of(head.split(b"\n")[:50], delimiter)
        first: list[str] = next(rows, [])
        if len(first) > 1 and any(BEGIN.match(cell) for row in rows for cell in row[1:]):
            return delimiter
    return None


# --- documents ---

# a text, which may go on in the next piece, or a mark
TOKEN = re.compile(rb'"[^"\\]*(?:\\.[^"\\]*)*("|\\?\Z)|[{}\[\]]', re.S)
# a record that is longer is left out
LONGEST_RECORD = 4 << 20
# documents that nest deeper have no lines
DEEPEST_DOCUMENT = 64
LINE_SIGN = re.compile(rb'"[IWEF]\d{4} |time=|\{\\"ts\\":|"MESSAGE"|\\u001b')
# what a query of CloudWatch has of each member
MEMBER = {"field", "value"}


@dataclass
class Open:
    """An object or a list that is not closed yet: where it begins, and whether a part of it was a record."""
    begin: int
    is_list: bool
    has_given: bool = False


class Documents:
    """Parts documents of JSON, however their lines are broken, into records: the smallest elements of lists that have a
    line. One record is held at a time."""

    def __init__(self, counts: Counts) -> None:
        self.counts = counts
        self.buffer = bytearray()
        self.open: list[Open] = []
        # up to where the buffer is read, and where reading goes on
        self.at = self.scanned = 0

    def of(self, pieces: Iterable[bytes]) -> Iterator[Any]:
        for piece in pieces:
            self.buffer += piece
            yield from self.records()
            self.forget()

    def records(self) -> Iterator[Any]:
        """The records that end in the buffer."""
        data, self.at = bytes(self.buffer), len(self.buffer)
        for found in TOKEN.finditer(data, self.scanned):
            mark = data[found.start():found.start() + 1]
            if mark == b'"':
                if found[1] != b'"':
                    self.at = found.start()
                    break
            elif mark in (b"{", b"["):
                if len(self.open) >= DEEPEST_DOCUMENT:
                    self.counts.cut += 1
                    self.open.clear()
                self.open.append(Open(found.start(), mark == b"["))
            elif self.open:
                yield from self.closed(self.open.pop(), data, found.end())
        self.scanned = self.at

    def closed(self, part: Open, data: bytes, end: int) -> Iterator[Any]:
        """What ends, where it is an element of a list, or a whole document."""
        is_element = not self.open or self.open[-1].is_list
        if part.has_given or not is_element or LINE_SIGN.search(data, part.begin, end) is None:
            return
        value = outside.json_of(data[part.begin:end])
        if value is not None and not (isinstance(value, dict) and set(value) == MEMBER):
            for each in self.open:
                each.has_given = True
            yield value

    def forget(self) -> None:
        """Forgets what is before all that may still become a record."""
        first = min((each.begin for each in self.open if not each.has_given), default=self.at)
        if len(self.buffer) - first > LONGEST_RECORD:
            self.counts.cut += 1
            first = len(self.buffer)
        del self.buffer[:first]
        self.scanned = max(self.at - first, 0)
        for each in self.open:
            each.has_given = each.has_given or each.begin < first
            each.begin -= first


def of_documents(pieces: Iterable[bytes], counts: Counts) -> Iterator[Line]:
    numbers = Numbers()
    for value in Documents(counts).of(pieces):
        yield from lines_in(value, counts, numbers)


def has_lines(text: bytes) -> Optional[bool]:
    """Whether a line of JSON is a record that has a line; None of what is no record, or is itself klog's or a
    runtime's."""
    value = outside.json_of(text.lstrip(SEPARATOR).removeprefix(OF_STREAM).rstrip(b",\r "))
    if not isinstance(value, (dict, list)) or (isinstance(value, dict) and isinstance(value.get("msg"), str)):
        return None
    is_dockers = isinstance(value, dict) and all(name in value for name in DOCKER)
    return is_dockers or any(True for _ in lines_in(value, Counts(), Numbers()))
