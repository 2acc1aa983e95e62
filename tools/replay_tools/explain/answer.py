"""The explanation of a verdict: of a line, of a file that can't be read, of a file that is something else."""

from __future__ import annotations

import difflib
import itertools
import os
from dataclasses import dataclass
from typing import TYPE_CHECKING

from replay_tools import first_bytes, outside
from replay_tools.amounts import Wrong
from replay_tools.cli.statuses import Status
from replay_tools.traces import LONGEST_TRACE

from . import table
from .found import Found
from .search import search
from .verdict import verdict_of

if TYPE_CHECKING:
    from .verdict import Refusal, Verdict


@dataclass
class Answer:
    said: str
    """what the program shows"""
    is_fault: bool
    found: list[Found]
    advice: str | None = None
    part: str | None = None
    """of docs/formats.md"""
    line: int | None = None
    text: bytes = b""
    """the line at fault"""
    is_text_place: bool = False
    """the path is a place in the text, which is no JSON"""
    has_no_verdict: bool = False
    """the program failed before it came to one"""


def answer_of(path: str, is_extended: bool) -> Answer:
    """What the program shows of a file, and what it means."""
    return of_verdict(path, verdict_of(path, is_extended), is_extended)


def of_verdict(path: str, verdict: Verdict, is_extended: bool) -> Answer:
    """What the program's answer to a file means."""
    if verdict.status == Status.DONE:
        return Answer(verdict.said, False, [])
    if verdict.said in ("read failed", "input too long"):
        return of_file(path, verdict.said)
    refusal = verdict.refusal
    if refusal is None and not (outside.is_utf8(path) or os.path.exists(path)):
        return of_file(path, verdict.said)
    if verdict.said == "out of memory":
        return Answer(verdict.said, True, [Found((), "the system gave the program no more memory")],
                      "run it where more is free, or raise the limit that it has", has_no_verdict=True)
    if refusal is None:
        return Answer(verdict.said or status_words(verdict.status), True, [], has_no_verdict=True)
    says, advice, part = table.row(refusal.number, refusal.manifest)
    other = something_else(path)
    if other:
        return Answer(verdict.said, True, [other], other.advice, None, refusal.line)
    found, text = found_in(path, refusal, is_extended)
    first = found[0] if found else Found((), says)
    return Answer(verdict.said, True, found or [first], first.advice or advice, part, refusal.line, text,
                  refusal.number in (31, 32))


def status_words(status: int) -> str:
    """How the program ended, where it reported nothing."""
    return f"the program was ended by the signal {-status}" if status < 0 else f"the program ended with status {status}"


def found_in(path: str, refusal: Refusal, is_extended: bool) -> tuple[list[Found], bytes]:
    """What is found of a line, and the line; nothing is found where it is written otherwise than it is thought to be
    here."""
    with open(path, "rb") as file:
        try:
            return search(file, refusal, is_extended)
        except Wrong:
            file.seek(0)
            return [], next(itertools.islice(file, refusal.line - 1, None), b"").rstrip(b"\n")


def head_of(path: str) -> bytes:
    with open(path, "rb") as file:
        return file.read(first_bytes.LOOKED_AT)


def something_else(path: str) -> Found | None:
    """What a file is that is no trace at all, by its first bytes."""
    head = head_of(path)
    kind = first_bytes.kind_of(head)
    if kind is None or kind == first_bytes.TRACE:
        return None
    is_empty = kind in (first_bytes.EMPTY, first_bytes.BLANK)
    return Found((), "it is empty: it has no line of a trace" if is_empty else f"it is {kind}", advice_for(kind))


def advice_for(kind: str) -> str:
    if kind == first_bytes.REPORT:
        return "give the trace that it was made of; a report is what kubelet-replay story, page and json read"
    if kind in (first_bytes.EMPTY, first_bytes.BLANK):
        return "look at what wrote it: the recorder writes a node line first"
    if kind == first_bytes.MANIFEST:
        return "jq -c '{kind:\"pod\",pod:.}' makes a pod line of it, for the lines after a node line"
    if kind == first_bytes.MANIFESTS:
        return "jq -c '.items[] | {kind:\"pod\",pod:.}' makes pod lines of it, for the lines after a node line"
    command = first_bytes.unpacked_by(kind)
    if command:
        return f"{command} FILE > TRACE, or {command} FILE | kubelet_replay"
    return "a trace is JSON lines in UTF-8: docs/formats.md begins with one"


def of_damaged(said: str) -> Answer:
    """What is packed, and can't be unpacked."""
    return Answer("it can't be read", True, [Found((), f"it is packed by gzip: {said}")],
                  "copy it once more from where it was written; gzip -t FILE shows whether it is whole")


def of_file(path: str, said: str) -> Answer:
    """Why a file can't be read, or how much too long it is."""
    if said == "input too long":
        size = os.stat(path).st_size
        return Answer(said, True, [Found((), f"the file has {size} bytes, and a trace has at most {LONGEST_TRACE}")],
                      "cut it in two, each with the node line and the pod lines")
    try:
        with open(path, "rb") as file:
            file.read(1)
    except FileNotFoundError:
        return Answer(said, True, [Found((), "there is no such file")], nearest_file(path))
    except IsADirectoryError:
        return Answer(said, True, [Found((), "it is a folder")],
                      "name a trace in it; kubelet-replay fleet run replays all of a folder")
    except PermissionError:
        return Answer(said, True, [Found((), "this user may not read it")], "sudo, or chmod it")
    except OSError as fault:
        return Answer(said, True, [Found((), f"it can't be read: {fault.strerror}")])
    return Answer(said, True, [Found((), "it can be read now")], "run it again")


def nearest_file(path: str) -> str | None:
    """The names in the folder that are most like the one that is not there."""
    if path == "-":
        return "standard input is /dev/stdin, or no name at all"
    folder, name = os.path.split(path)
    try:
        near = difflib.get_close_matches(name, os.listdir(folder or "."), 3)
    except OSError:
        return f"there is no folder {folder}"
    return f"the nearest: {', '.join(os.path.join(folder, each) for each in near)}" if near else None

