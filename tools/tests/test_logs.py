"""The tests of the last lines of a container: what is kept of each, and what a recording has of them with --logs."""

import json

import cases
from checks import TOOLS, expect, run
from into_plays import Into

from replay_tools.record.logs import kept_of, lines_of

load_tests = cases.loaded(__name__)

BEGIN = 1767225600
SECRET = "s3cret"
# a line, and what is kept of it
LINES = (
    ("panic: runtime error: invalid memory address or nil pointer dereference",
     "panic: runtime error: invalid memory address or nil pointer dereference"),
    ("[signal SIGSEGV: segmentation violation code=0x1 addr=0x0]", "[signal SIGSEGV: segmentation violation"),
    (f"[signal SIGSEGV: {SECRET}]", "SIGSEGV"), (f"goroutine 1 [{SECRET}]", None),
    (f"panic: {SECRET}", None), (f"goroutine 1 [running]: {SECRET}", "goroutine 1 [running]"),
    ("Traceback (most recent call last):", "Traceback (most recent call last)"),
    (f"KeyError: '{SECRET}'", "KeyError"), (f"{SECRET}Error: it", None), (f"{SECRET}KeyErrors", None),
    (f"psycopg2.OperationalError: connection to {SECRET} failed: Connection refused", "Connection refused"),
    (f"java.lang.OutOfMemoryError: Java heap space {SECRET}", "java.lang.OutOfMemoryError: Java heap space"),
    (f"2026-01-01 ERROR token={SECRET} dial tcp 10.0.0.1:5432: connect: connection refused",
     "ERROR .. connection refused"),
    (f"Error: connect ECONNREFUSED {SECRET}:5432", "ECONNREFUSED"), (f"export {SECRET}=1", None),
    (f"HTTP/1.1 503 {SECRET}", "HTTP/1.1 503"), ("bash: line 1: x: command not found", "command not found"),
    (f"\x1b[31mFATAL\x1b[0m {SECRET}", "FATAL"))


def test_lines():
    for line, wanted in LINES:
        kept, left_out = kept_of(lines_of(line.encode(), 20))
        expect(f"last lines: {line!r}", (kept, left_out), (() if wanted is None else (wanted,), int(wanted is None)))
    kept, _ = kept_of([f"{SECRET} " * 10 ** 5 + "Permission denied"])
    expect("last lines: one that is long", kept, ())


def play():
    """A container that dies with some lines, twice, one that ends well, and one of which the runtime gives no line."""
    wrote = [f"TOKEN={SECRET}", "", "Traceback (most recent call last):", f"ValueError: {SECRET}"]
    made = [{"id": "a0", "pod": "shop/web", "name": "app", "attempt": 0, "created": -3, "started": -2, "exited": 4.2,
             "code": 1, "reason": "Error", "wrote": wrote},
            {"id": "a1", "pod": "shop/web", "name": "app", "attempt": 1, "created": 7, "started": 7.2, "exited": 12.2,
             "code": 1, "reason": "Error", "wrote": wrote[:1]},
            {"id": "b0", "pod": "shop/done", "name": "app", "attempt": 0, "created": -3, "started": -2, "exited": 6.2,
             "code": 0, "reason": "Completed", "wrote": wrote}]
    pods = {f"shop/{name}": {"spec": {"containers": [{"name": "app"}]}} for name in ("web", "done")}
    return {"begin": BEGIN, "pods": pods, "containers": made, "samples": {"0": {"memory": 2 ** 32}}}


def log_in(trace):
    """What the ticks have of last lines, in seconds after the begin."""
    ticks = [json.loads(line) for line in trace.splitlines() if '"kind":"tick"' in line]
    return [(tick["at"] - BEGIN, entry["pod"], each.get("log"), each.get("logLeftOut"))
            for tick in ticks for entry in tick["pods"] for each in entry["containers"]
            if "log" in each or "logLeftOut" in each]


def test_recorded_lines():
    """They are there once, with the exit, for a code that is not 0, and only where they are asked for."""
    for words, wanted in (((), []), (("--logs", "20"), [
            (4, "shop/web", ["Traceback (most recent call last)", "ValueError"], 1), (12, "shop/web", None, 1)]),
            (("--logs", "1"), [(4, "shop/web", ["ValueError"], None), (12, "shop/web", None, 1)])):
        place = Into(play())
        status, trace, said = place.record("--extended", *words, "--for", "30")
        place.clean()
        expect(f"last lines: a recording {' '.join(words)}", (status, said, log_in(trace)), (0, "", wanted))
        expect(f"last lines: no secret {' '.join(words)}", SECRET in trace, False)


def test_lines_that_do_not_come():
    fails = [{"kind": "logs", "from": 0, "until": 99, "text": "failed with status 1: no log"}]
    place = Into({**play(), "fails": fails})
    status, trace, said = place.record("--extended", "--logs", "5", "--for", "30")
    place.clean()
    expect("last lines that do not come", (status, log_in(trace), said),
           (0, [], "record: crictl logs a0 failed with status 1: no log\n"))


def test_story():
    """They are next to the death, as far as they are kept."""
    place = Into(play())
    _, trace, _ = place.record("--extended", "--logs", "3", "--for", "20")
    with open(f"{place.run}/it.trace", "w", encoding="utf-8") as file:
        file.write(trace)
    status, told, said = run([f"{TOOLS}/kubelet-replay", "story", "-f", f"{place.run}/it.trace", "shop/web"])
    place.clean()
    rows = [row.split("  ")[-1] for row in told.partition("\nEvents\n")[2].partition("\n\n")[0].split("\n")[1:]]
    expect("last lines: the story", (status, said, rows[3:6]), (0, "", [
        "died with code 1: Error", "it wrote last: Traceback (most recent call last)", "it wrote last: ValueError"]))
