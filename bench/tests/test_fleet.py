"""Tests of bench/fleet: the traces of nodes, and with stand-ins of tools/fleet and of Dask what measures its runs."""
import contextlib
import hashlib
import io
import json
import os
import signal
import subprocess
import tempfile
from unittest import mock

from common import COMMANDS, Case, read, run, write
import fleet_runs
import node_traces

DASK = f"{COMMANDS}/python_with_distributed"
COST = r" +\d+\.\d s +\d+\.\d processor s +\d+ MiB  8 answers"
RUNS = ("1 processes", "2 processes", "4 processes", "4 processes, begun again", "1 workers of Dask",
        "2 workers of Dask", "4 workers of Dask", "4 workers of Dask, one of them ended")


def kinds_of(text):
    """The kind of each line that is whole."""
    return [json.loads(line)["kind"] for line in text.splitlines()]


class Traces(Case):
    def test_a_seed_settles_the_traces(self):
        made = [node_traces.trace(1, number, 40) for number in range(100)]
        self.assertEqual(made, [node_traces.trace(1, number, 40) for number in range(100)])
        self.assertNotEqual(made, [node_traces.trace(2, number, 40) for number in range(100)])
        self.assertEqual(hashlib.sha256("".join(made).encode()).hexdigest()[:16], "54fdb9e4273ed30f")

    def test_what_a_trace_has(self):
        for number in range(19):
            if number != 5:
                kinds = kinds_of(node_traces.trace(1, number, 40))
                pods, ticks = kinds.count("pod"), kinds.count("tick")
                self.assertEqual(kinds, ["node", *["pod"] * pods, *["tick"] * ticks])
                self.assertTrue(2 <= pods <= 8 and 10 <= ticks <= 40, (pods, ticks))

    def test_the_last_of_a_hundred_is_cut(self):
        text = node_traces.trace(1, 99, 40)
        self.assertFalse(text.endswith("}\n"))
        self.assertEqual(kinds_of(text[:text.rindex("\n")])[0], "node")

    def test_they_are_written(self):
        with tempfile.TemporaryDirectory() as room:
            folder = f"{room}/new"
            self.assertEqual(run("measure fleet", "traces", folder, "3", "7", "20"), (0, "", ""))
            self.assertEqual(sorted(os.listdir(folder)), [f"worker-0000{number}.trace" for number in range(3)])
            self.assertEqual(read(folder, "worker-00002.trace"), node_traces.trace(7, 2, 20))


class Runs(Case):
    def setUp(self):
        self.traces = self.enterContext(tempfile.TemporaryDirectory())
        for number in range(8):
            write("", self.traces, f"{number}.trace")

    def measured(self):
        with contextlib.redirect_stdout(io.StringIO()) as said:
            return fleet_runs.measure(f"{COMMANDS}/fleet", self.traces, DASK), said.getvalue().splitlines()

    def test_each_way_has_the_same_database(self):
        status, lines = self.measured()
        self.assertEqual((status, lines[-1]), (0, "7 of 7 databases are the same as with 1 process, with 63 bytes"))
        self.assertRegex(lines.pop(3), r"^4 processes, ended in the middle +after [4-7] answers; a database: False$")
        for line, name in zip(lines[:-1], RUNS, strict=True):
            self.assertRegex(line, f"^{name} +status 0 {COST}$")

    def test_a_database_that_is_another(self):
        with mock.patch.object(fleet_runs, "dask_run", lambda *_, **__: b"other"):
            status, lines = self.measured()
        self.assertEqual((status, lines[-1]), (1, "3 of 7 databases are the same as with 1 process, with 63 bytes"))

    def test_a_signal_ends_what_was_started(self):
        def popen(*words, **more):
            started.append(real(*words, **more))
            return started[-1]
        started, real = [], subprocess.Popen
        with (mock.patch.object(fleet_runs.subprocess, "Popen", popen), self.assertRaises(SystemExit) as end,
              mock.patch.object(fleet_runs.time, "sleep", lambda seconds: os.kill(os.getpid(), signal.SIGTERM))):
            self.measured()
        self.assertEqual((end.exception.code, [run.returncode for run in started]), (143, [-signal.SIGKILL]))


class Words(Case):
    def test_words(self):
        status, said, fault = run("measure fleet", "--help")
        self.assertEqual((status, fault), (0, ""))
        self.assertIn("write the traces\n", said)
        ticks = "argument TICKS: takes a whole number from 4 to 20,000, not '3'"
        for part, words, error in (
                ("", (), "the following arguments are required: traces | measure"),
                (" traces", (), "the following arguments are required: FOLDER"),
                (" traces", ("/nowhere", "x"), "argument COUNT: takes a whole number from 0, not 'x'"),
                (" traces", ("/nowhere", "1", "1", "3"), ticks)):
            self.assert_wrong(run(f"measure fleet{part}", *words), f"measure fleet{part}", error)
        self.assertEqual(run("measure fleet", "measure", "/nowhere"), (
            2, "", "bench/measure fleet: there are no traces in /nowhere: bench/measure fleet traces /nowhere\n"))
