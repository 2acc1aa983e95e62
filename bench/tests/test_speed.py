"""Tests of bench/speed: its runs, and its section of docs/PERF.md, speed/speed.md, from given
figures."""
import contextlib
import io
import os
import tempfile
from unittest import mock

from common import COMMANDS, PATH_WITH_COMMANDS, TESTS, TOP, Case, commands_in, read, run, write
from measures import speed
import script
import speed_page
from speed_page import Trace

TRACES = {
    "many_pods": Trace(256, 500, 320, 33_354_649, 757), "many_ticks": Trace(20, 20_000, 25, 64_909_183, 20_021),
    "long_lines": Trace(1, 20_000, 16, 63_375_918, 20_002), "pressed_pods": Trace(256, 500, 320, 33_354_649, 757),
    "ticks_2000": Trace(20, 2_000, 25, 6_455_855, None),
    "ticks_6000": Trace(20, 6_000, 25, 19_442_964, None),
}
SECONDS = {
    ("many_pods", 0): 1.0, ("many_pods", 1): 2.0, ("many_pods", 2): 1.5, ("many_pods", 4): 1.25,
    ("many_ticks", 0): 2.0, ("many_ticks", 1): 5.0, ("many_ticks", 2): 4.9, ("many_ticks", 4): 6.0,
    ("long_lines", 0): 1.0, ("long_lines", 1): 3.0, ("long_lines", 2): 3.2, ("long_lines", 4): 3.1,
    ("pressed_pods", 0): 1.0, ("pressed_pods", 1): 2.0, ("pressed_pods", 2): 2.0, ("pressed_pods", 4): 2.0,
    ("ticks_2000", 1): 0.5, ("ticks_6000", 1): 1.5,
}
PEAKS = {key: 16_000_000 if key[1] == 0 else 100_000_000 + 1_000_000 * key[1] for key in SECONDS}
MEASURED = speed_page.Measured(TRACES, 5, SECONDS, PEAKS, 15_500_000)
MACHINE = speed_page.Machine("4 processors, 24 GB", "kit", "rustc 1.95.0", "1.0.87")


BASELINE = "#!/bin/sh\nwc -l <\"$1\"\n"


class Runs(Case):
    """The runs of bench/speed over traces of some lines, where stand-ins are the program and the baseline."""

    def setUp(self):
        self.speed, self.work = speed, self.enterContext(tempfile.TemporaryDirectory())
        self.enterContext(mock.patch.object(speed, "ROUNDS", 2))
        self.enterContext(mock.patch.dict(os.environ, PATH=PATH_WITH_COMMANDS))
        os.makedirs(os.path.dirname(f"{self.work}/{self.speed.BASELINE}"))
        write(BASELINE, self.work, self.speed.BASELINE)
        os.chmod(f"{self.work}/{self.speed.BASELINE}", 0o755)
        for name in TRACES:
            write("one\ntwo\n", self.work, f"{name}.trace")

    def measured(self, program):
        with contextlib.redirect_stderr(io.StringIO()) as said:
            return self.speed.Runs(program, self.work).measure(), said.getvalue()

    def test_what_is_measured(self):
        measured, said = self.measured(f"{COMMANDS}/replay")
        self.assertEqual(said, "bench/measure speed: round 1 of 2\nbench/measure speed: round 2 of 2\n")
        self.assertEqual(measured.traces["many_pods"], Trace(1, 2, 0, 8, 2))
        self.assertEqual(measured.traces["ticks_6000"], Trace(1, 2, 0, 8, None))
        self.assertEqual(measured.seconds, dict.fromkeys(SECONDS, 0.5))
        self.assertEqual({*measured.peaks}, {*PEAKS})
        self.assertGreater(measured.floor, 1 << 20)

    def test_runs_that_end_it(self):
        with self.assertRaises(script.Fault) as fault:
            self.measured(f"{COMMANDS}/other_replay")
        self.assertEqual(str(fault.exception), "the report of many_pods with workers=2 is not the report of 1 worker")
        with self.assertRaises(script.Fault) as fault:
            self.measured("/bin/false")
        self.assertEqual(str(fault.exception),
                         f"/bin/false run {self.work}/ticks_2000.trace --workers 1 ended with 1")


class Page(Case):
    def test_the_page_of_given_figures(self):
        self.assertEqual(speed_page.text_of(MEASURED, MACHINE), read(TESTS, "speed/speed.md"))

    def test_the_section_takes_the_place_of_the_last_one(self):
        page = f"before\n{speed_page.BEGIN}old\n{speed_page.END}after\n"
        self.assertEqual(speed_page.with_section(page, "new\n"), page.replace("old", "new"))
        with self.assertRaises(ValueError):
            speed_page.with_section("before\n", "new\n")
        whole = read(TOP, "docs/PERF.md")
        self.assertEqual(speed_page.with_section(whole, "")[:100], whole[:100])

    def test_when_workers_pay(self):
        def told(seconds):
            return speed_page.workers_words(MEASURED._replace(seconds={**SECONDS, **seconds}))[0].split(". ")[0]
        self.assertEqual(told({}),
                         "More workers pay in `many_pods`, and not in `many_ticks` or `long_lines` or `pressed_pods`")
        self.assertEqual(told({("many_pods", 2): 1.95, ("many_pods", 4): 1.95}),
                         "More workers pay in none of these traces")
        self.assertEqual(told({("many_ticks", 4): 4.75, ("long_lines", 2): 1.0}),
                         "More workers pay in `many_pods` and `many_ticks` and `long_lines`, and not in `pressed_pods`")

    def test_counts_of_a_report(self):
        report = ["node n1 pods=2 ticks=30\n", "event 1 node\n", "container 0 a\n", "container 0 b\n", "totals\n"]
        self.assertEqual(speed_page.counts_in(iter(report)), (2, 30, 2))

    def test_the_limit_of_memory(self):
        self.assertEqual(speed_page.most_memory(Trace(2, 10, 3, 1000, None)), 1000 + 960 + 720 + (32 << 20))

    def test_words(self):
        for words in (("--all",), ("--write", "-x"), ("/bin/true", "2")):
            self.assert_wrong(run("measure speed", *words), "measure speed", f"unrecognized arguments: {words[-1]}")
        with tempfile.TemporaryDirectory() as room:
            path = commands_in(room, "python3", "env")
            self.assertEqual(run("measure speed", PATH=path), (
                127, "", "bench/measure speed: the Rattle kit is missing: put its command rt on the PATH\n"))
            os.symlink("/bin/true", f"{path}/rt")
            self.assertEqual(run("measure speed", PATH=path), (
                127, "", "bench/measure speed: cargo is missing; it builds the baseline\n"))
            os.symlink("/bin/true", f"{path}/cargo")
            self.assertEqual(run("measure speed", PATH=path), (
                127, "", "bench/measure speed: hyperfine is missing: apt-get install hyperfine; it measures the seconds\n"))
