"""Tests of bench/workers, where stand-ins take the place of the program. workers/helgrind.log is what helgrind wrote of
a program of two threads that write one number, and that gives back a lock which it does not have."""
import hashlib
import json
import tempfile

from common import COMMANDS, PATH_WITH_COMMANDS, TESTS, Case, commands_in, read, run
import helgrind
import workers_trace

REPLAY, OTHER = f"{COMMANDS}/replay", f"{COMMANDS}/other_replay"
SUMMARY = "ERROR SUMMARY: 3 errors from 3 contexts (suppressed: 7 from 7)"
KINDS = {"Thread unlocked a not-locked lock at ADDRESS": 1, "Possible data race during write": 1,
         "Possible data race during read": 1}


class Trace(Case):
    def test_a_trace_is_the_same_whenever_it_is_written(self):
        lines = list(workers_trace.lines(6, 40, 3))
        kinds = [json.loads(line)["kind"] for line in lines]
        self.assertEqual([kinds.count(kind) for kind in ("node", "pod", "tick")], [1, 6, 40])
        self.assertEqual(hashlib.sha256("\n".join(lines).encode()).hexdigest()[:16], "672d71a454ad47e2")


class Helgrind(Case):
    def test_a_log(self):
        summary, kinds = helgrind.read_log(read(TESTS, "workers/helgrind.log").splitlines())
        self.assertEqual((summary, dict(kinds)), (SUMMARY, KINDS))

    def test_how_often_a_report_came(self):
        log = "==1== 12 errors in context 1 of 1:\n==1== Possible data race during read of size 4\n"
        self.assertEqual(helgrind.read_log(log.splitlines()), (None, {"Possible data race during read": 12}))


class Workers(Case):
    def test_reports_that_are_the_same(self):
        self.assertEqual(run("measure workers", "--same", "--runs", "2", REPLAY), (
            0, "2 runs with 4 workers and 2 with 64: each report is the report of 1 worker, 58 bytes\n", ""))

    def test_reports_that_differ(self):
        self.assertEqual(run("measure workers", "--same", OTHER), (
            1, "", "run 1 with workers=4 differs from 1 worker at line 3:\nb''\nb'more\\n'\n"))

    def test_costs(self):
        status, said, fault = run("measure workers", REPLAY, PATH=PATH_WITH_COMMANDS)
        self.assertEqual((status, fault), (0, ""))
        lines = said.splitlines()
        self.assertRegex(lines[0], r"^256 pods by 500 ticks, 35\.8 MB of trace; processors: \d+$")
        self.assertEqual(lines[1], "workers  seconds  peak MB")
        for line, workers in zip(lines[2:5], (1, 2, 4)):
            self.assertRegex(line, rf"^      {workers}     0\.50 +\d+\.\d$")
        self.assertEqual(lines[5:], ["all reports are the same"])

    def test_reports_of_helgrind(self):
        status, said, fault = run("measure workers", "--helgrind", REPLAY, PATH=PATH_WITH_COMMANDS)
        self.assertEqual((status, fault), (0, ""))
        self.assertEqual(said.splitlines(), [SUMMARY, *(f"      1 {kind}" for kind in KINDS),
                                             "the report is the report of 1 worker"])

    def test_a_run_that_fails(self):
        self.assertEqual(run("measure workers", "--same", "/bin/false"), (
            1, "", "bench/measure workers: with workers=1 the program ended with 1\n"))
        self.assertEqual(run("measure workers", "/bin/false", PATH=PATH_WITH_COMMANDS)[::2], (
            1, "bench/measure workers: with workers=1 the program ended with 1\n"))

    def test_words(self):
        for words, error in (
                (("--all",), "unrecognized arguments: --all"), ((REPLAY, "3"), "unrecognized arguments: 3"),
                (("--same", "--helgrind"), "argument --helgrind: not allowed with argument --same"),
                (("--same", "--runs", "0"), "argument --runs: takes a whole number from 1, not '0'")):
            self.assert_wrong(run("measure workers", *words), "measure workers", error)
        self.assertEqual(run("measure workers", "--same", "/nowhere"), (
            2, "", "bench/measure workers: there is no program /nowhere\n"))
        with tempfile.TemporaryDirectory() as room:
            self.assertEqual(run("measure workers", "--helgrind", PATH=commands_in(room, "python3", "env")), (
                127, "", "bench/measure workers: valgrind is missing; helgrind is a part of it\n"))
            self.assertEqual(run("measure workers", REPLAY, PATH=f"{room}/commands"), (
                127, "", "bench/measure workers: hyperfine is missing: apt-get install hyperfine; it measures the seconds\n"))
