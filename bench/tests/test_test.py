"""Tests of bench/test, over tests that pass, fail and are left out."""
import os
import shutil
import subprocess
import tempfile

from common import TOP, Case, write

TESTS = """\
import unittest


class Some(unittest.TestCase):
    def test_a(self):
        pass

    def test_b(self):
        for part in range(3):
            with self.subTest(part):
                self.assertEqual(part, 1)

    def test_c(self):
        raise OSError("there is no file")

    @unittest.skip("its command is missing")
    def test_d(self):
        pass
"""


class Test(Case):
    """A copy of bench/test next to a folder with these tests."""

    def setUp(self):
        self.top = self.enterContext(tempfile.TemporaryDirectory())
        os.makedirs(f"{self.top}/bench/tests")
        os.symlink(f"{TOP}/bench/lib", f"{self.top}/bench/lib")
        shutil.copy(f"{TOP}/bench/test", f"{self.top}/bench")
        write(TESTS, self.top, "bench/tests/test_some.py")
        write("import unittest\n", self.top, "bench/tests/test_none.py")

    def run_copy(self, *names):
        done = subprocess.run([f"{self.top}/bench/test", *names], stdin=subprocess.DEVNULL, capture_output=True,
                              text=True, check=False)
        return done.returncode, done.stdout, done.stderr

    def test_what_passes_and_fails(self):
        status, said, fault = self.run_copy()
        self.assertEqual((status, fault), (1, ""))
        # one that fails in two parts fails once
        self.assertEqual(said.splitlines()[-1], "1 passed, 2 failed")
        self.assertEqual(said.count("test_b (test_some.Some.test_b) ["), 2, said)
        self.assertIn("\nOSError: there is no file\n", said)
        self.assertIn("not tested: test_d (test_some.Some.test_d): its command is missing\n", said)

    def test_names(self):
        self.assertEqual(self.run_copy("none"), (0, "0 passed, 0 failed\n", ""))
        self.assertEqual(self.run_copy("none", "all"), (
            2, "", "bench/test: there are no tests all; there are none, some\n"))
        self.assert_wrong(self.run_copy("none", "--all"), "test", "unrecognized arguments: --all")
