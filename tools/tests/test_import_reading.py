"""The tests of how the importer reads long journals: lines of blocks, lines that are passed over many at once, and what
is kept of pods that have gone."""

import io
import random

import cases
from checks import expect

from replay_tools.importing import journals, skipping
from replay_tools.importing.steady import ImportedTimeline
from replay_tools.record.lines import extended
from replay_tools.record.pods import pod_of
from replay_tools.record.probes import Result
from replay_tools.record.runtime import RUNNING, Change, Listing

load_tests = cases.loaded(__name__)

HEADER = "I0301 10:00:00.000001    {process} some_file.go:{line}] "
WORDS = ("SyncLoop (ADD): pod", "SyncLoop (RECONCILE): pod", "Sync", "Killing container", "Kill", "Nothing of all this",
         "FLAG: --v=4", "FLAG: --eviction-hard=x", '"SyncLoop ADD" source="api"', '"Synced"', "", "Error getting it",
         "eviction manager: observations", "evicted", "] SyncLoop] x")


def lines_made(chance):
    """Lines as a log has them, and others."""
    return [chance.choice((
        HEADER.format(process=chance.choice(("18448", "18449")), line=chance.randrange(2000)) + chance.choice(WORDS),
        chance.choice(WORDS), "\tgoes on", "", "I0301 10:00] early", "X0301 of another letter] SyncLoop",
        HEADER.format(process="1", line="9" * chance.choice((200, 240, 300))) + chance.choice(WORDS),
        '{"ts":1,"msg":"SyncLoop ADD"}', '{"ts":1,"msg":"Nothing"}')).encode() for _ in range(chance.randrange(40))]


def left_out(lines):
    """The lines that are read, one by one, with None in place of one or more others."""
    made, process = [], b""
    for text in lines:
        is_silent = text.startswith(skipping.SILENT, skipping.place_of_words(text))
        if skipping.is_skipped(text) or (is_silent and text[skipping.PROCESS] == process):
            made += [None] if made[-1:] != [None] else []
            continue
        process = text[skipping.PROCESS]
        made.append(text)
    return made


def test_import_passes_over_what_it_would_skip():
    for seed in range(300):
        chance = random.Random(seed)
        lines = [line for line in lines_made(chance) if line or chance.random() < 0.5]
        cuts = sorted(chance.randrange(len(lines) + 1) for _ in range(chance.randrange(4)))
        blocks = [lines[begin:end] for begin, end in zip([0, *cuts], [*cuts, len(lines)]) if begin < end]
        found = skipping.left_out((b"\n".join(each) for each in blocks), journals.PLAIN)
        expect(f"lines that are passed over: {seed}", list(found), left_out(lines))


def test_import_of_lines_that_are_too_long():
    kept, piece = journals.LONGEST_LINE, journals.PIECE
    journals.LONGEST_LINE, journals.PIECE = 20, 8
    try:
        for text, lines, cut in (
                (b"", [], 0), (b"one\ntwo", [b"one", b"two"], 0), (b"one\n\ntwo\n", [b"one", b"", b"two"], 0),
                (b"a" * 50 + b"\nnext\nlast", [b"a" * 20, b"next", b"last"], 1),
                (b"first\n" + b"b" * 90, [b"first", b"b" * 20], 1),
                (b"c" * 40 + b"\n" + b"d" * 40 + b"\n", [b"c" * 20, b"d" * 20], 2)):
            counts = journals.Counts()
            found = list(journals.lines_of(journals.blocks_of(io.BytesIO(text), counts)))
            expect(f"lines that are cut: {text}", (found, counts.cut, counts.size), (lines, cut, len(text)))
    finally:
        journals.LONGEST_LINE, journals.PIECE = kept, piece


def test_import_keeps_nothing_of_pods_that_have_gone():
    timeline = ImportedTimeline(extended(), lambda _: {}, lambda *_: {})
    written = 0
    for number in range(30):
        began = 100 * number
        pod = pod_of({"metadata": {"namespace": "shop", "name": f"web-{number}", "uid": f"u{number}"},
                      "spec": {"containers": [{"name": "app", "readinessProbe": {"periodSeconds": 1}}]}})
        timeline.place_arrival(pod, began)
        timeline.place_container(pod, "app", [Change(began + 1, Listing(0, RUNNING))],
                                 [Result(began + 2, "readiness", "success")], began)
        timeline.place_departure(pod, began + 50)
        written += sum(len(lines) for lines, _ in timeline.due(began + 90))
    expect("what is kept of 30 pods that have gone", (len(timeline.last_placed), len(timeline.successes), written > 60),
           (0, 0, True))
