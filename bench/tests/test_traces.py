"""Tests of the traces that the program is measured with. Figures are comparable while a trace is the same, so the sums
of some are kept here."""
import hashlib
import json
import os
import tempfile

from common import Case, run, write
import ticks_traces
import traces

SUMS = {
    "small_ticks": "008546d62aa4b678",
    "small_pods": "fa4b7e01d21600cd",
    "small_lines": "0e5a1a08a106334f",
}


def sum_of(lines):
    return hashlib.sha256("".join(line + "\n" for line in lines).encode()).hexdigest()[:16]


def kinds_of(lines):
    """How many lines of each kind there are; each is JSON."""
    kinds = [json.loads(line)["kind"] for line in lines]
    return kinds.count("node"), kinds.count("pod"), kinds.count("tick")


class Traces(Case):
    def test_the_small_traces(self):
        self.assertEqual({name: sum_of(traces.lines(traces.SHAPES[name])) for name in SUMS}, SUMS)
        self.assertEqual(kinds_of(traces.lines(traces.SHAPES["small_ticks"])), (1, 20, 800))
        self.assertEqual(kinds_of(traces.lines(traces.SHAPES["small_pods"])), (1, 256, 60))

    def test_the_traces_of_ticks(self):
        for lines, kinds, kept in ((ticks_traces.one_pod(40), (1, 1, 40), "919f1bedbb5c1d94"),
                                   (ticks_traces.unseen_pods(3, 2, 5), (1, 3, 5), "e7a10bb2f042c0f6"),
                                   (ticks_traces.ranked_pods(4, 50), (1, 4, 50), "c8bbd77561758882")):
            lines = list(lines)
            self.assertEqual((kinds_of(lines), sum_of(lines)), (kinds, kept))

    def test_they_are_written_where_they_are_missing(self):
        with tempfile.TemporaryDirectory() as room:
            folder = os.path.join(room, "new")
            self.assertEqual(run("measure traces", folder, "small_ticks", "small_lines"), (0, "", ""))
            self.assertEqual(sorted(os.listdir(folder)), ["small_lines.trace", "small_ticks.trace"])
            with open(f"{folder}/small_ticks.trace", encoding="ascii") as file:
                self.assertEqual(sum_of(file.read().splitlines()), SUMS["small_ticks"])
            write("kept", folder, "small_ticks.trace")
            self.assertEqual(run("measure traces", folder, "small_ticks"), (0, "", ""))
            self.assertEqual(os.path.getsize(f"{folder}/small_ticks.trace"), 4)

    def test_a_trace_that_is_too_large(self):
        with tempfile.TemporaryDirectory() as room, self.assertRaises(traces.TooLarge):
            traces.write(traces.Shape(40_000, 1, 3), f"{room}/trace")

    def test_words(self):
        self.assert_wrong(run("measure traces"), "measure traces", "the following arguments are required: FOLDER")
        status, said, fault = run("measure traces", "/nowhere", "small")
        self.assertEqual((status, said), (2, ""))
        self.assertTrue(fault.startswith("bench/measure traces: there is no trace small; there are many_pods, many_ticks, "))
