"""What a file is by its first bytes, where it is not what a tool needs."""

from __future__ import annotations

import re

# how much of a file is looked at: a node line with a whole configuration of a kubelet is shorter
LOOKED_AT = 1 << 16

EMPTY, BLANK, REPORT, TRACE = "empty", "blank", "a report", "a trace"
MANIFEST, MANIFESTS, RECORDS, YAML = "a manifest", "manifests", "lines of kubelet-replay json", "YAML"
REFUSAL = "an error of the program about a trace"

PACKED = {
    b"\x1f\x8b": ("packed by gzip", "gzip -dc"), b"\x28\xb5\x2f\xfd": ("packed by zstd", "zstd -dc"),
    b"\xfd7zXZ\x00": ("packed by xz", "xz -dc"), b"BZh": ("packed by bzip2", "bzip2 -dc"),
    b"PK\x03\x04": ("a zip archive", "unzip -p"),
}
OTHERS = {
    b"\xff\xfe": "text in UTF-16", b"\xfe\xff": "text in UTF-16", b"\xef\xbb\xbf": "text with a byte order mark",
    b"SQLite format 3\x00": "a database of SQLite", b"<!doctype html": "a page of HTML", b"<svg": "a picture",
    b"\x7fELF": "a program",
}
KIND = re.compile(rb'"kind"\s*:\s*"(\w+)"')


def kind_of(head: bytes) -> str | None:
    """What a file is that begins with these bytes; None where they show nothing of it."""
    head = head[:LOOKED_AT]
    if not head:
        return EMPTY
    for begin, (said, _) in PACKED.items():
        if head.startswith(begin):
            return said
    for begin, said in OTHERS.items():
        if head[: len(begin)].lower() == begin.lower():
            return said
    if not head.strip(b" \t\r\n"):
        return BLANK if len(head) < LOOKED_AT else None
    if head.startswith(b"node "):
        return REPORT
    if re.match(rb"line \d+: \d\d \w+", head):
        return REFUSAL
    if re.match(rb"(apiVersion|kind|metadata):", head):
        return YAML
    return kind_of_json(head.lstrip(b" \t\r\n"))


def kind_of_json(head: bytes) -> str | None:
    if head[:1] == b"[":
        return MANIFESTS if b'"metadata"' in head else None
    if head[:1] != b"{":
        return None
    if re.match(rb'\{"record"\s*:', head):
        return RECORDS
    found = KIND.search(head)
    kinds = {b"node": TRACE, b"pod": TRACE, b"tick": TRACE, b"gone": TRACE, b"Pod": MANIFEST, b"List": MANIFESTS,
             b"PodList": MANIFESTS}
    return kinds.get(found[1]) if found else None


def unpacked_by(kind: str | None) -> str | None:
    """The command that unpacks a file of this kind; None where it is not packed."""
    return next((command for said, command in PACKED.values() if said == kind), None)


def instead_of_report(head: bytes, what: str = "standard input") -> str | None:
    """What to show where a report is needed, and these bytes begin what is there; None where that begins as one, or
    shows nothing."""
    kind = kind_of(head)
    if kind in (None, REPORT):
        return None
    if kind in (EMPTY, BLANK):
        return f"{what} is empty: it needs a whole report, which kubelet-replay run -f TRACE writes"
    if kind == REFUSAL:
        return f"{what} is {kind}: kubelet-replay explain -f TRACE shows what it means"
    if kind == TRACE:
        return f"{what} is a trace, and it needs a report: pass the trace with -f TRACE"
    if kind == PACKED[b"\x1f\x8b"][0]:
        return f"{what} is {kind}, and it needs a report; if it is a trace, -f FILE replays it"
    return f"{what} is {kind}, and it needs a report{how_to_unpack(kind)}"


def instead_of_trace(head: bytes, what: str) -> str | None:
    """The same where a trace is needed."""
    kind = kind_of(head)
    if kind in (None, TRACE):
        return None
    if kind in (EMPTY, BLANK):
        return f"{what} is empty: it has no line of a trace"
    if kind == REPORT:
        return f"{what} is a report, and it needs the trace that the report is of"
    return f"{what} is {kind}, and it needs a trace{how_to_unpack(kind)}"


def how_to_unpack(kind: str | None) -> str:
    command = unpacked_by(kind)
    return f": unpack it first, as in: {command} FILE | .." if command else ""
