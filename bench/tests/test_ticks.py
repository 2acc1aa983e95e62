"""Tests of bench/ticks and of what times commands, where stand-ins take the place of hyperfine and the program."""
import contextlib
import io
import os
import shutil
import sys
import tempfile
import unittest
from unittest import mock

from common import PATH_WITH_COMMANDS, Case, commands_in, read, run, write
import script
import timing

PATH = os.environ["PATH"]


class Timing(Case):
    def setUp(self):
        self.room = self.enterContext(tempfile.TemporaryDirectory())
        self.enterContext(mock.patch.dict(os.environ, PATH=PATH_WITH_COMMANDS))

    def test_the_least_of_the_runs(self):
        given, written = f"{self.room}/it's given", f"{self.room}/it's written"
        write("text", given)
        self.assertEqual(timing.seconds_of(["tee", written], given), 0.25)
        self.assertEqual(os.path.getsize(written), 4)

    def test_a_command_that_fails(self):
        with self.assertRaises(script.Fault) as fault:
            timing.seconds_of(["false"], "/dev/null")
        self.assertEqual(str(fault.exception), "hyperfine failed: Error: Command terminated with non-zero exit code.")

    def ran(self, text):
        """How a run of the shell ended, what it wrote and what is printed of it."""
        output = f"{self.room}/it's written"
        with contextlib.redirect_stderr(io.StringIO()) as said:
            took = timing.run(["sh", "-c", text], output, 20)
        self.assertGreater(took.peak, 1 << 20)
        self.assertFalse(took.late)
        return took.status, took.seconds, read(output), said.getvalue()

    def check_runs(self, seconds):
        for text, status, written, said in (("echo a; echo b >&2", 0, "a\n", ""),
                                            ("echo a; echo b >&2; exit 3", 3, "a\n", "b\n"),
                                            ("echo \"it's\"; kill -9 $$", -9, "it's\n", "")):
            ended = self.ran(text)
            self.assertEqual((ended[0], *ended[2:]), (status, written, said))
            self.assertTrue(seconds[0] <= ended[1] <= seconds[1], ended)

    def test_a_run(self):
        self.check_runs((0.5, 0.5))

    def test_a_run_that_is_late(self):
        took = timing.run(["sleep", "20"], f"{self.room}/written", 0.5)
        self.assertEqual(took._replace(peak=0), timing.Timed(-9, 0.5, 0, True))

    @unittest.skipUnless(shutil.which("hyperfine"), "hyperfine is missing")
    def test_a_run_by_hyperfine_itself(self):
        os.environ["PATH"] = PATH
        self.check_runs((0, 20))
        self.assertGreater(self.ran("exec sleep 0.2")[1], 0.15)
        took = timing.run([sys.executable, "-c", "held = bytearray(128 << 20)"], f"{self.room}/written", 20)
        self.assertGreater(took.peak, 128 << 20)
        self.assertGreater(timing.seconds_of(["sleep", "0.1"], "/dev/null"), 0.05)


class Ticks(Case):
    def test_the_tables(self):
        status, said, fault = run("measure ticks", "/bin/true", PATH=PATH_WITH_COMMANDS)
        self.assertEqual((status, fault), (0, ""))
        lines = said.splitlines()
        self.assertEqual(lines[0], " ticks      bytes  seconds    MB/s  peak MB")
        self.assertRegex(lines[1], r"^  2000     254801     0\.25     1\.0 {4,}[\d.]+$")
        self.assertRegex(lines[2], r"^ 20000    2586801     0\.25    10\.3 {4,}[\d.]+$")
        for line, containers in zip(lines[3:7], (1, 2, 3, 16)):
            self.assertRegex(line, rf"^256 pods with containers={containers}: a tick costs a pod -?\d bytes at the ")
        self.assertEqual(lines[7:], [
            "  pods  ticks  seconds  microseconds a pod and tick",
            "    20   2000     0.25                         6.25",
            "    20  20000     0.25                         0.62",
            "   256    100     0.25                         9.77",
            "   256   1000     0.25                         0.98",
            "2000 ticks under pressure, with a pause: 125.00 microseconds a tick",
            "20000 ticks under pressure, with a pause: 12.50 microseconds a tick"])

    def test_words(self):
        for words in (("--all",), ("/bin/true", "2000")):
            answer = run("measure ticks", *words, PATH=PATH_WITH_COMMANDS)
            self.assert_wrong(answer, "measure ticks", f"unrecognized arguments: {words[-1]}")
        self.assertEqual(run("measure ticks", "/nowhere", PATH=PATH_WITH_COMMANDS), (
            2, "", "bench/measure ticks: there is no program /nowhere\n"))
        self.assertEqual(run("measure ticks", "/bin/false", PATH=PATH_WITH_COMMANDS)[::2], (
            1, "bench/measure ticks: the program ended with 1\n"))
        with tempfile.TemporaryDirectory() as room:
            self.assertEqual(run("measure ticks", "/bin/true", PATH=commands_in(room, "python3", "env")), (
                127, "", "bench/measure ticks: hyperfine is missing: apt-get install hyperfine; it measures the seconds\n"))
