"""The work of one trace: it is read, replayed, and its report is made into records. What goes in and comes out are
plain values, so that any process on any machine can do it."""

from __future__ import annotations

import functools
import gzip
import hashlib
import io
import itertools
import json
import os
import re
import subprocess
from collections.abc import Iterator
from typing import Any

from replay_tools import (amounts, endings, entry, kubelet as kubelets, outside, packed, program as programs, records,
                          report as reports, summary, traces)
from replay_tools.cli.statuses import Status
from replay_tools.fleet import met

LONGEST_INPUT = 64 << 20
# a recording begins with so many ticks at most that show what was there
MOST_CARRIED = 100
# events are in the report alone: they would be most of the rows
KINDS = ("node", "pod", "container", "condition", "eviction", "decision", "cause")
# what a trace may have next to its report
SIGNS = (b'"kubelet"', b'"reason"', b'"waiting"', b'"ended"', b'"guessed"', b'"deleting"', b'"failed"', b'"gone"',
         b'"readinessGates"')
REFUSED_LINE = re.compile(r"line (\d+): (\d+) (\S.*)")


class WorkFault(entry.Fault):
    """This process can't do the work of any trace; the message shows why."""


def answer(program: str, program_sum: str, path: str, known: tuple[str | None, int | None]) -> dict[str, Any]:
    """What became of the trace of a path: a dict of its record, its rows and its report, both as gzip or None. What is
    known are the SHA-256 of the trace that was answered before, or None, and up to when it has all that happened, if a
    trace that follows it shows that. Where the trace is still the same there are neither rows nor report, and the
    status is "known"."""
    check_program(program, program_sum)
    try:
        return answer_of(program, path, *known)
    except Exception as fault:
        # whatever it is, it must not end the work on the other traces
        return failed(path, f"its rows can't be made: {type(fault).__name__}")


def answer_of(program: str, path: str, known_sum: str | None, until: int | None) -> dict[str, Any]:
    try:
        text, size = read_trace(path)
    except OSError as fault:
        return failed(path, f"can't be read: {fault.strerror}")
    except packed.Damaged as fault:
        return failed(path, str(fault))
    trace_sum = hashlib.sha256(text).hexdigest()
    if trace_sum == known_sum:
        return answered(record_of(path, trace_sum, size, "known"))
    words = ["run", "/dev/stdin", "--workers", "1", *programs.format_words(io.BytesIO(text))]
    done = subprocess.run([program, *words], input=text, capture_output=True, check=False, start_new_session=True)
    if done.returncode != 0:
        said = done.stderr.decode("utf-8", "replace").split("\n")[0]
        return answered(record_of(path, trace_sum, size, **refusal(done.returncode, said)) | {"until": until})
    try:
        more, rows = rows_of(text, done.stdout, until)
    except reports.ReportFault as fault:
        said = str(fault).replace("standard input", "the report")
        return answered(record_of(path, trace_sum, size, "failed", fault=said))
    return answered(record_of(path, trace_sum, size, "replayed") | {"until": until} | more, rows, done.stdout)


def rows_of(text: bytes, made: bytes, until: int | None) -> tuple[dict[str, Any], list[dict[str, Any]]]:
    """What the record of a trace has for the traces after it, and the records of the trace and its report. Raises
    ReportFault."""
    report = reports.read_report(made.decode("utf-8", "replace"))
    trace, kubelet = beside(text, report)
    span, begun = span_of(text), begun_of(text)
    if span:
        # what it shows of the time before it ends with its last tick
        begun = None if begun is None else min(begun, span[1])
        span = span[0] if begun is None else max(span[0], begun), max(span[1], until or 0)
    found = records.records_of(report, kubelet, trace, span, summary.NEVER if begun is None else begun)
    rows = [record for record in found if record["record"] in KINDS]
    more = met.about(report, trace, span[0] if span else None)
    if begun is None or trace is None or span is None:
        return more, rows
    return more, list(met.rows_of(rows, report, kubelet, trace, span[1], begun))


def beside(text: bytes, report: reports.Report) -> tuple[traces.Trace | None, kubelets.Kubelet | None]:
    """A trace and what it shows that the kubelet did, next to its report; None for each if it shows nothing that the
    formats don't read, or can't be read as the tools read one."""
    node_line = text.lstrip().split(b"\n", 1)[0]
    says = any(word in node_line for word in (b'"recordsKubelet"', b'"evictionsRecorded"'))
    if not says and not any(sign in text for sign in SIGNS):
        return None, None
    try:
        trace = traces.trace_of(text, "the trace")
        traces.check_belongs(trace, report, "the trace")
        endings.tell_left(trace, report)
        return trace, kubelets.beside(trace, report)
    except (traces.TraceFault, amounts.Wrong):
        return None, None


def begun_of(text: bytes) -> int | None:
    """The moment after which a trace of a recorder shows what happened: one that follows another has it itself, and the
    first ticks of any other show what the recorder found. None of other traces."""
    node_line = outside.json_of(text.lstrip().split(b"\n", 1)[0])
    said = traces.follows_of(node_line)
    if said is not None:
        return said["at"]
    return found_until(text) if isinstance(node_line, dict) and is_recorded(text, node_line) else None


def is_recorded(text: bytes, node_line: dict[str, Any]) -> bool:
    """Whether a recorder wrote a trace: it shows that, or its pods have uids, as the pods of a runtime that was
    recorded alone."""
    if node_line.get("imported") is True:
        return False
    first = next((line for line in lines_from(text) if b'"pod"' in line), b"")
    pod = outside.json_of(first)
    return node_line.get("recordsKubelet") is True or (isinstance(pod, dict) and pod.get("kind") == "pod"
                                                       and isinstance(pod.get("uid"), str))


def found_until(text: bytes) -> int | None:
    """Up to when the first ticks of a recording show what was there: ticks of one second after the other, of which the
    last one alone has signals."""
    first = None
    for place, tick in enumerate(itertools.islice(filter(None, map(moment_of, lines_from(text))), MOST_CARRIED + 1)):
        first = tick["at"] if first is None else first
        if tick["at"] != first + place:
            break
        if tick.get("signals"):
            return first + place
    return first


def span_of(text: bytes) -> tuple[int, int] | None:
    """The moments of the first and the last tick, of which the lines are looked for from both ends; None without."""
    first, last = (next(filter(None, map(moment_of, lines)), None) for lines in (lines_from(text), lines_back(text)))
    return None if first is None or last is None else (first["at"], last["at"])


def lines_from(text: bytes) -> Iterator[bytes]:
    begin = 0
    while begin < len(text):
        end = text.find(b"\n", begin)
        end = len(text) if end < 0 else end
        yield text[begin:end]
        begin = end + 1


def lines_back(text: bytes) -> Iterator[bytes]:
    end = len(text)
    while end > 0:
        begin = text.rfind(b"\n", 0, end) + 1
        yield text[begin:end]
        end = begin - 1


def moment_of(line: bytes) -> dict[str, Any] | None:
    """A tick line as it is read, or None."""
    if b'"tick"' not in line:
        return None
    found = outside.json_of(line)
    is_tick = isinstance(found, dict) and found.get("kind") == "tick" and outside.moment(found.get("at")) is not None
    return found if is_tick else None


@functools.lru_cache
def check_program(program: str, program_sum: str) -> None:
    """Another program could give other bytes."""
    try:
        found = programs.sum_of(program)
    except OSError as fault:
        raise WorkFault(f"{program} can't be read where a worker is: {fault.strerror}") from None
    if found != program_sum:
        raise WorkFault(f"{program} is another program where a worker is")


def read_trace(path: str) -> tuple[bytes, int]:
    """The bytes of a trace, unpacked, one more than the longest at most, and how many it has."""
    with packed.regular(path) as file:
        size, data = os.fstat(file.fileno()).st_size, file.read(LONGEST_INPUT + 1)
    text = packed.unpacked(data, LONGEST_INPUT)
    return text, size if text is data else len(text)


def refusal(status: int, said: str) -> dict[str, Any]:
    """The status, line, code and fault of a trace without a report."""
    refused = REFUSED_LINE.fullmatch(said)
    if status == Status.BAD_INPUT and refused:
        return {"status": "refused", "line": int(refused[1]), "code": int(refused[2]), "fault": refused[3]}
    if said == "input too long":
        return {"status": "refused", "fault": said}
    ended = f"the program ended by signal {-status}" if status < 0 else f"the program ended with status {status}"
    return {"status": "failed", "fault": said or ended}


def record_of(path: str, trace_sum: str | None, size: int | None, status: str, line: int | None = None,
              code: int | None = None, fault: str | None = None) -> dict[str, str | int | None]:
    return {"record": "trace", "path": os.fsencode(path).decode("utf-8", "replace"), "sha256": trace_sum,
            "bytes": size, "status": status, "line": line, "code": code, "fault": fault, "until": None}


def failed(path: str, said: str) -> dict[str, dict[str, str | None] | None]:
    """The answer where there is not even a trace to name."""
    return answered(record_of(path, None, None, "failed", fault=said))


def answered(trace: dict[str, str | int | None], rows: list[dict[str, Any]] | tuple[Any, ...] = (),
             report: bytes | None = None) -> dict[str, Any]:
    if trace["status"] not in ("replayed", "refused"):
        return {"trace": trace, "rows": None, "report": None}
    lines = "".join(json.dumps(row, ensure_ascii=False, separators=(",", ":")) + "\n" for row in (trace, *rows))
    return {"trace": trace, "rows": gzip.compress(lines.encode(), 6, mtime=0),
            "report": None if report is None else gzip.compress(report, 6, mtime=0)}
