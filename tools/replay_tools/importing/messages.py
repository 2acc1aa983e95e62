"""Messages of a kubelet: klog's, as text of both kinds and as JSON, with the lines that continue them."""

from __future__ import annotations

import math
import re
from collections.abc import Iterator, Mapping
from dataclasses import dataclass, field
from typing import Any

from replay_tools import outside

from .journals import SKIPPED, Hole, Line
from .moments import Klog, moment_of_iso
from .runtimes import KEYS, OF_RUNTIME
from .units import Units, is_runtime

HEADER = re.compile(rb"[IWEF](\d{4} \d\d:\d\d:\d\d)(\.\d{1,9}) +(\d{1,10}) [^\]\s]{1,200}:\d+\] ")
# key="value" or key=value after a quoted message; a value may have blanks in brackets, and one of several lines has a
# tab before each, for which journalctl prints eight blanks
NAME = re.compile(r" ([A-Za-z][\w./-]*)=")
# how an object ends, with the next key after it, and how a value in brackets does, each in one line
OBJECT_END = re.compile(r"\}(?= [A-Za-z][\w./-]*=|$)|\n")
ENDS = {"{": re.compile(r"[}\n]"), "&": re.compile(r"[}\n]"), "[": re.compile(r"[\]\n]")}
LINES, LINES_END = re.compile(r"<\n(?:(?:\t| {8})[^\n]*\n)*"), re.compile(r" *>")
WORD = re.compile(r"\S*")
QUOTED = re.compile(r'"([^"\\]*(?:\\.[^"\\]*)*)"')
ESCAPE = re.compile(r"\\(u[0-9a-fA-F]{4}|x[0-9a-fA-F]{2}|.)")
ESCAPED = {"n": "\n", "t": "\t", "r": "\r", '"': '"', "\\": "\\"}
# a message goes on for so many lines, of which the others are not read
MOST_CONTINUED = 40
NO_KEYS: Mapping[str, Any] = {}


@dataclass
class Message:
    """One message: its moment, the process that wrote it, its text up to its keys, and its keys, if it has any."""
    at: float
    process: int
    text: str
    keys: Mapping[str, Any] = field(default_factory=dict)
    node: str = ""
    is_structured: bool = False
    is_own_moment: bool = False
    # klog's own moment, as it is written
    stamp: tuple[Any, ...] = ()


def unquoted(text: str) -> str:
    """A text as Go quotes it."""
    return ESCAPE.sub(lambda found: unescaped(found[1]), text) if "\\" in text else text


def unescaped(what: str) -> str:
    if what[0] in "ux" and len(what) > 1:
        return chr(int(what[1:], 16))
    return ESCAPED.get(what, what)


def split(text: str) -> tuple[str, dict[str, Any], bool]:
    """A message's text, its keys and whether it has the form that has keys."""
    found = QUOTED.match(text)
    if found is None:
        return text, {}, False
    return unquoted(found[1]), Keys(text, found.end()).all(), True


class Keys:
    """Reads the keys after a message. What does not end is looked for once, however often it begins."""

    def __init__(self, text: str, at: int) -> None:
        self.text = text
        self.at = at
        # up to where it is known of each kind of end that there is none
        self.without: dict[str, int] = {}

    def all(self) -> dict[str, Any]:
        keys: dict[str, Any] = {}
        while (found := NAME.search(self.text, self.at)) is not None:
            self.at = found.end()
            value = self.value()
            keys[found[1]] = unquoted(value[1:-1]) if len(value) > 1 and value[0] == value[-1] == '"' else value
        return keys

    def value(self) -> str:
        """The value that begins here; reading goes on after it."""
        begin, mark = self.at, self.text[self.at:self.at + 1]
        end = None
        if mark == '"':
            quoted = QUOTED.match(self.text, begin)
            end = None if quoted is None else quoted.end()
        elif mark == "{":
            end = self.end_of("object", OBJECT_END)
            end = self.end_of(mark, ENDS[mark]) if end is None else end
        elif mark == "[" or self.text.startswith("&{", begin):
            end = self.end_of(mark, ENDS[mark])
        elif mark == "<":
            end = self.end_of_lines()
        if end is None:
            word = WORD.match(self.text, begin)
            end = begin if word is None else word.end()
        self.at = end
        return self.text[begin:end]

    def end_of_lines(self) -> int | None:
        """The end of a value of several lines."""
        several = LINES.match(self.text, self.at) if self.at >= self.without.get("<", 0) else None
        found = None if several is None else LINES_END.match(self.text, several.end())
        if several is not None and found is None:
            self.without["<"] = several.end()
        return None if found is None else found.end()

    def end_of(self, kind: str, form: re.Pattern[str]) -> int | None:
        if self.at < self.without.get(kind, 0):
            return None
        found = form.search(self.text, self.at)
        if found is not None and found[0] != "\n":
            return found.end()
        self.without[kind] = len(self.text) if found is None else found.start()
        return None


def json_message(text: bytes, line: Line) -> Message | Line | None:
    """A message of `--logging-format json`; a runtime's own is the line that it would be as text."""
    record = outside.json_of(text)
    if not isinstance(record, dict) or not isinstance(record.get("msg"), str):
        return None
    stamp = record.get("ts")
    moment = line.moment
    if stamp is None and isinstance(record.get("time"), str):
        at = moment_of_iso(record["time"]) if moment is None else moment
        said = " ".join([record["msg"], *(f"{name}={value}" for name, value in record.items() if name in KEYS)])
        return Line(at, said.encode("utf-8", "replace"), line.unit or OF_RUNTIME, line.process, line.node)
    if moment is None and isinstance(stamp, (int, float)) and not isinstance(stamp, bool):
        # milliseconds since 1970, with a fraction or without
        moment = stamp / 1000 if stamp > 1e11 else float(stamp)
    if moment is None or not math.isfinite(moment) or outside.moment(int(moment)) is None:
        return None
    keys = {name: value for name, value in record.items() if name not in ("ts", "caller", "msg", "v")}
    return Message(moment, line.process, record["msg"], keys, line.node, True, stamp=(stamp,))


def text_message(text: bytes, line: Line, klog: Klog) -> Message | None:
    """A message of klog's text; None of a line that is none."""
    found = HEADER.match(text)
    if found is None:
        return None
    stamp = found.groups()
    moment = line.moment
    if moment is None:
        second = klog.second_of(stamp[0])
        if second is None:
            return None
        moment = second + float(stamp[1])
    said = text[found.end():].decode("utf-8", "replace")
    return Message(moment, int(stamp[2]), said, NO_KEYS, line.node, False, line.moment is None, stamp)


def of_other_unit(line: Line, units: Units) -> Line:
    """A line of another unit than the kubelet's, which shows nothing of the kubelet whatever its words are."""
    if line.text.startswith(b"{"):
        made = json_message(line.text, line) if is_runtime(line.unit) else None
        return made if isinstance(made, Line) else line
    if HEADER.match(line.text):
        units.pass_over(line.unit)
    return line


def messages_of(lines: Iterator[Line], klog: Klog, units: Units | None = None) -> Iterator[Message | Line]:
    """The messages of a journal that are read, and the lines that are no kubelet's, as they are."""
    held: Message | None = None
    units, continued = units or Units(), 0
    for line in lines:
        is_hole = isinstance(line, Hole)
        if line.unit and not is_hole and not units.is_kubelet(line.unit):
            yield of_other_unit(line, units)
            continue
        if line is SKIPPED or is_hole:
            if held is not None:
                yield finished(held)
                held = None
            if is_hole:
                yield line
            continue
        text = line.text
        made: Any = json_message(text, line) if text.startswith(b"{") else text_message(text, line, klog)
        if made is None and held is not None and is_continuation(line, held):
            continued += 1
            if continued <= MOST_CONTINUED:
                held.text += "\n" + text.decode("utf-8", "replace")
            continue
        if held is not None:
            yield finished(held)
            held = None
        if made is None or isinstance(made, Line):
            if text.strip():
                yield made or line
            continue
        held, continued = made, 0
    if held is not None:
        yield finished(held)


def is_continuation(line: Line, held: Message) -> bool:
    """Whether a line that is no message of its own goes on with the one before."""
    return line.moment is None or (line.process == held.process and line.moment - held.at < 1)


def finished(message: Message) -> Message:
    if not message.is_structured and message.text.startswith('"'):
        message.text, message.keys, message.is_structured = split(message.text)
    return message
