"""One line of a trace as the program reads it, and where a value is in it."""

from __future__ import annotations

import functools
import json
import re
from json.decoder import scanstring  # type: ignore[attr-defined]
from typing import Any

from replay_tools.amounts import Wrong

# what serde_json takes
DEEPEST = 127
SPACE = re.compile(r"[ \t\r\n]*")
STRING = re.compile(r'"(?:[^"\\]|\\.)*"')
DECODER = json.JSONDecoder()
LEAST, MOST = -(2**63), 2**64 - 1


def whole_number(text: str) -> Any:
    """A number that is written without a point and an exponent; one that the program does not take as whole is a
    float."""
    number = int(text) if len(text) < 21 else None
    return float(text) if text == "-0" or number is None or not LEAST <= number <= MOST else number


def value_of(text: bytes) -> Any:
    """The value of a line; Wrong where it is no JSON of Python's."""
    try:
        return json.loads(text.decode("utf-8"), parse_int=whole_number)
    except (ValueError, RecursionError):
        raise Wrong("line") from None


def skip(text: str, at: Any) -> Any:
    found = SPACE.match(text, at)
    return at if found is None else found.end()


def span_of(text: str, path: tuple[Any, ...]) -> Any:
    """Where the value at a path begins and ends; where it is not there, the value around it."""
    at = skip(text, 0)
    for step in path:
        inner = starts_in(text, at).get(step)
        if inner is None:
            break
        at = inner
    return at, DECODER.raw_decode(text, at)[1]


@functools.lru_cache(maxsize=8)
def starts_in(text: str, at: int) -> dict[Any, int]:
    """Where the values of the object or array that begins here begin, by key or index; of two equal keys the last
    counts. Several fields of one line may be asked for, which may have very many."""
    found: dict[Any, int] = {}
    if text[at] not in "{[":
        return found
    index, is_object = 0, text[at] == "{"
    at = skip(text, at + 1)
    while text[at] not in "}]":
        key: Any = index
        if is_object:
            key, at = scanstring(text, at + 1)
            at = skip(text, skip(text, at) + 1)
        found[key] = at
        at = skip(text, DECODER.raw_decode(text, at)[1])
        at = skip(text, at + 1) if text[at] == "," else at
        index += 1
    return found


def json_fault(line: bytes) -> tuple[str, int] | None:
    """Why a line is no JSON of the program's, and the place in its text; None where that is not found."""
    try:
        text = line.decode("utf-8")
    except UnicodeDecodeError as fault:
        before = len(line[: fault.start].decode("utf-8"))
        return f"the byte {line[fault.start]:#04x} is no UTF-8", before
    try:
        value = json.loads(text, parse_constant=refuse_constant)
    except Constant as fault:
        return f"{fault} is no JSON", text.find(str(fault))
    except json.JSONDecodeError as fault:
        return words_of_fault(fault), fault.pos
    except (ValueError, RecursionError):
        return None
    return odd_place(text, value)


class Constant(Exception):
    """A word that Python takes for a number."""


def refuse_constant(word: str) -> None:
    raise Constant(word)


CUT = "the line ends before its object does"
CONTROL = "a text has an unescaped control character"


def words_of_fault(fault: json.JSONDecodeError) -> str:
    if fault.pos >= len(fault.doc.rstrip()) or fault.msg.startswith("Unterminated string"):
        return CUT
    if fault.msg == "Extra data":
        return "something follows the object"
    if fault.msg.startswith("Invalid control character"):
        return CONTROL
    return fault.msg[0].lower() + fault.msg[1:]


def odd_place(text: str, value: Any) -> tuple[str, int] | None:
    """What Python takes, and serde_json does not."""
    depth = 0
    without_texts = STRING.sub(lambda found: " " * len(found[0]), text)
    for found in re.finditer(r"[\[{\]}]", without_texts):
        depth += 1 if found[0] in "[{" else -1
        if depth > DEEPEST:
            return f"it is nested deeper than {DEEPEST}", found.start()
    for found in re.finditer(r"-?\d[\d.eE+-]*", without_texts):
        if abs(float(found[0])) == float("inf"):
            return "a number is beyond what a float can hold", found.start()
    try:
        json.dumps(value, ensure_ascii=False).encode()
    except UnicodeEncodeError:
        return "an escape in a text is half of a surrogate pair", text.lower().find("\\ud")
    return None
