"""Reads answers. A long one is an object with a list of many values, of which one at a time is held next to its
bytes."""

from __future__ import annotations

import codecs
import json
import re
from collections.abc import Callable, Iterator
from typing import Any, Union

from .sources import Failed

# the longest value of JSON that is read at once: an object of the API is at most a third of that
MOST_VALUE = 4 << 20
# that much is decoded at first
PIECE_BYTES = 1 << 18
WHITE = re.compile(r"[ \t\n\r]*")
DECODER = json.JSONDecoder()
# no value at all
NONE = object()

Answer = Union[str, bytes, bytearray]


class NotJson(Exception):
    """The answer, or what of it comes next, is no JSON."""


def decoded(answer: Answer) -> str:
    return answer if isinstance(answer, str) else answer.decode("utf-8", "replace")


def read_json(answer: Answer, what: str) -> Any:
    """The value that a short answer is."""
    if len(answer) > MOST_VALUE:
        raise Failed(f"{what}: the answer has more than {MOST_VALUE >> 20} MiB")
    try:
        return json.loads(decoded(answer))
    except (ValueError, RecursionError):
        raise Failed(f"{what}: the answer is no JSON") from None


def read_parts(answer: Answer, what: str, name: str, read: Callable[[Any], Any]) -> Any:
    """The object that an answer is. Of the member of this name, where that is a list, it has what `read` makes of each
    value."""
    text = Text(answer, what)
    try:
        whole = object_of(text, name, read) if text.mark() == "{" else text.value()
        if text.mark():
            raise NotJson
        return whole
    except NotJson:
        raise Failed(f"{what}: the answer is no JSON") from None


def object_of(text: Text, name: str, read: Callable[[Any], Any]) -> dict[str, Any]:
    text.take("{")
    found: dict[str, Any] = {}
    if text.mark() == "}":
        text.take("}")
        return found
    while True:
        member = text.value()
        text.take(":")
        if not isinstance(member, str):
            raise NotJson
        if member == name and text.mark() == "[":
            found[member] = [read(value) for value in text.values()]
        else:
            found[member] = text.value()
        if text.take(",}") == "}":
            return found


class Text:
    """An answer that is read from its begin to its end; a window of it is decoded."""

    def __init__(self, answer: Answer, what: str) -> None:
        self.answer = answer.encode("utf-8", "surrogatepass") if isinstance(answer, str) else answer
        self.what = what
        self.decoder = codecs.getincrementaldecoder("utf-8")("replace")
        self.window = ""
        self.at = self.taken = 0

    def grow(self) -> bool:
        """Decodes as much again as is not read yet of the window; whether there was more."""
        if self.taken == len(self.answer):
            return False
        size = max(PIECE_BYTES, len(self.window) - self.at)
        part = bytes(memoryview(self.answer)[self.taken:self.taken + size])
        self.taken += len(part)
        self.window = self.window[self.at:] + self.decoder.decode(part, self.taken == len(self.answer))
        self.at = 0
        return True

    def mark(self) -> str:
        """The next character that is no white space, or none at the end."""
        while True:
            white = WHITE.match(self.window, self.at)
            self.at = self.at if white is None else white.end()
            if self.at < len(self.window):
                return self.window[self.at]
            if not self.grow():
                return ""

    def take(self, marks: str) -> str:
        """Takes the next character, which has to be one of these."""
        mark = self.mark()
        if not mark or mark not in marks:
            raise NotJson
        self.at += 1
        return mark

    def value(self) -> Any:
        """Takes the next value. One that ends with the window may go on after it."""
        self.mark()
        while True:
            try:
                value, end = DECODER.raw_decode(self.window, self.at)
            except RecursionError:
                raise NotJson from None
            except ValueError:
                value, end = NONE, len(self.window)
            if end - self.at > MOST_VALUE:
                raise Failed(f"{self.what}: a value in the answer has more than {MOST_VALUE >> 20} MiB")
            if end < len(self.window) or not self.grow():
                break
        if value is NONE:
            raise NotJson
        self.at = end
        return value

    def values(self) -> Iterator[Any]:
        """Takes a list, value by value."""
        self.take("[")
        if self.mark() == "]":
            self.take("]")
            return
        while True:
            yield self.value()
            if self.take(",]") == "]":
                return
