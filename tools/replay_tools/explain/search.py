"""Looks for the field that a rejection means. What is found counts only where it is the program's own fault."""

from __future__ import annotations

import difflib
import itertools
from collections.abc import Iterable, Iterator
from typing import Any, IO, TYPE_CHECKING

from replay_tools import fields
from replay_tools.amounts import Wrong
from replay_tools.record.formats import LONGEST_LINE

from . import lines, manifest, node, tick
from .before import key_of, lines_before
from .found import Found, at, is_, shown

if TYPE_CHECKING:
    from .before import Before
    from .verdict import Refusal

MOST_FOUND = 10
KINDS = ("node", "pod", "tick")


def search(file: IO[bytes], refusal: Refusal, is_extended: bool) -> tuple[list[Found], bytes]:
    """The fields at fault of a trace that is open, for what is rejected of it, and that line as bytes. Wrong where a
    line is written otherwise than one that the program accepts, or rejects for that."""
    file.seek(0)
    before, line = lines_before(file, refusal.line, refusal.number == 43)
    if refusal.number in (31, 32):
        return of_text(line, refusal.number, not file.readline()), line
    if not line:
        return [Found((), "the text ends without a line that counts")], line
    found = lines.value_of(line)
    if refusal.number == 45:
        return [Found((), f"there are {before.pod_lines} pods and {before.ticks} ticks before this line")], line
    return list(itertools.islice(of_line(found, before, refusal, is_extended, file), MOST_FOUND)), line


def of_text(line: bytes, number: int, is_last: bool) -> list[Found]:
    """What is wrong with the text of a line; the path is the place in it."""
    if number == 31:
        return [Found((0,), f"the line has {len(line)} bytes, and a line has at most {LONGEST_LINE}")]
    fault = lines.json_fault(line)
    advice = {lines.CONTROL: "write it as an escape, as \\t or \\u001b; a writer of JSON does so"}
    if is_last:
        advice[lines.CUT] = "it was cut as it was written: sed '$d' leaves the last line out"
    return [Found((fault[1],), fault[0], advice.get(fault[0]))] if fault else []


def of_line(line: Any, before: Before, refusal: Refusal, is_extended: bool, file: IO[bytes]) -> Iterable[Found]:
    """The fields of a line that is JSON, for the kind of its fault."""
    number = refusal.number
    if number == 33:
        return unknown_kind(line, before, is_extended)
    if not isinstance(line, dict):
        raise Wrong("line")
    if number == 34:
        return out_of_turn(line, before)
    if number == 35:
        return first_of_manifest(line, before, refusal.manifest)
    if number == 36:
        return node.config_faults(line, is_extended)
    if number == 37:
        return node.without_graces(line, before)
    if number == 38:
        return duplicate(line, before)
    if number == 39 and line.get("kind") == "gone":
        return stranger_gone(line, before)
    if number == 39:
        return strangers(line, before, file, refusal.line)
    found: Any = tick.FAULTS.get(number)
    return itertools.islice(found(line, before), None if number == 46 else 1) if found else ()


def first_of_manifest(line: dict[str, Any], before: Before, number: int | None) -> Any:
    """The first fault of the manifest, where it is the one that the program has found."""
    first = next(manifest.faults_of(line, before.version), None)
    return [first[1]] if first and first[0] == number else []


def unknown_kind(line: Any, before: Before, is_extended: bool) -> Iterator[Found]:
    if not isinstance(line, dict):
        yield Found((), "the line is no object", 'each line is an object with a "kind"')
        return
    kind = line.get("kind")
    if kind == "gone":
        yield is_(("kind",), kind, *gone_words(before, is_extended))
    elif kind is None:
        yield at(("kind",), "is missing: a line is of the kind node, pod or tick",
                 manifest_advice(line) or 'write the kind, as "kind":"tick"')
    else:
        near = difflib.get_close_matches(str(kind).lower(), KINDS, 1)
        yield is_(("kind",), kind, "there are node, pod and tick",
                  manifest_advice(line) or (f'write "kind":"{near[0]}"' if near else None))


def gone_words(before: Before, is_extended: bool) -> Any:
    if before.node_line is None:
        return "no node line precedes it", "put the node line first"
    if not is_extended and before.version == 3:
        return node.EXTENDED, node.WITH_EXTENDED
    return (f"the node line has version {before.version}, which has no such lines",
            'write "version":3 in the node line and give --extended, or leave the line out')


def manifest_advice(line: dict[str, Any]) -> Any:
    """What to do with an object of Kubernetes that is as a line of its own."""
    kind, spec = line.get("kind"), line.get("spec")
    if kind == "Pod" or isinstance(spec, dict) and "containers" in spec:
        return "that is a manifest: put it under pod, as jq -c '{kind:\"pod\",pod:.}' does"
    if isinstance(line.get("items"), list):
        return "that is a list of kubectl: jq -c '.items[] | {kind:\"pod\",pod:.}' makes pod lines of it"
    if kind == "KubeletConfiguration":
        return 'put its fields into the node line, next to "kind":"node" and "name"'
    if kind == "Node":
        return 'that is the node of the API server; a node line begins with {"kind":"node","name":"worker-3"}'
    return None


def out_of_turn(line: dict[str, Any], before: Before) -> Iterator[Found]:
    kind = fields.text_at(line, "kind")
    if before.node_line is None:
        yield is_(("kind",), kind, "the first line is a node line", 'begin with {"kind":"node","name":"worker-3"}')
    elif kind == "node":
        yield is_(("kind",), kind, f"the node line is line {before.node_line}, and there is one of them",
                  "leave it out; two recordings are two traces")
    elif kind == "pod":
        yield is_(("kind",), kind, f"it follows the tick of line {before.first_tick_line}, and the trace is of "
                  "version 1", 'write "version":2 in the node line, or put the line before the ticks')


def duplicate(line: dict[str, Any], before: Before) -> Iterator[Found]:
    key = key_of(fields.object_at(line, "pod"))
    if key in before.pods:
        yield is_(("pod", "metadata", "name"), line["pod"]["metadata"]["name"],
                  f"line {before.pods[key].line} has the pod {key} already")


def stranger_gone(line: dict[str, Any], before: Before) -> Iterator[Found]:
    key = line.get("pod")
    if isinstance(key, str):
        yield tick.stranger(("pod",), key, before)
    else:
        yield at(("pod",), f"is {shown(key)}: it is the key of a pod that is present, as shop/web")


def strangers(line: dict[str, Any], before: Before, file: IO[bytes], number: int) -> Iterator[Found]:
    """The keys that are no pod's; of the first of them the line of its pod, where that comes later."""
    for count, found in enumerate(tick.stranger_pods(line, before)):
        key = line["pods"][found.path[1]]["pod"]
        later = later_line(file, key) if count == 0 and key not in before.gone else None
        if later:
            found = is_(found.path, key, f"its pod line comes only at line {number + later}",
                        "put the pod's line before the tick")
        yield found


def later_line(file: IO[bytes], key: str) -> Any:
    """How many lines further the pod line of a key comes, of a file that is read up to a line."""
    name = key.rpartition("/")[2].encode()
    for count, text in enumerate(file, 1):
        if name not in text or b'"metadata"' not in text:
            continue
        try:
            line = fields.object_of(text)
            if line.get("kind") == "pod" and key_of(fields.object_at(line, "pod")) == key:
                return count
        except Wrong:
            return None
    return None
