"""Tests of bench/try proofs, over a repository of five crates and an rt that proves all but the ones that it is given."""
import os
import shutil
import subprocess
import tempfile

from common import TOP, Case, write

CRATES = """\
## Base
# numbers
numbers:
# names
names:
## Rules
# rules
rules: numbers
## Program
# the program
replay_program: rules names
## Tests
# calls
calls: rules
"""
RT = """\
#!/bin/sh
[ "$1" = check ] || exit 9
name=$(basename "$PWD")
echo "$name" >>"$LOG"
case " $UNPROVED " in *" $name "*) echo "one goal of $name is open"; exit 1 ;; esac
"""


class Proofs(Case):
    """A copy of bench/try in such a repository."""

    def setUp(self):
        self.top = self.enterContext(tempfile.TemporaryDirectory())
        shutil.copytree(f"{TOP}/bench/lib", self.path("bench", "lib"))
        for name in ("proofs", "try"):
            shutil.copy(f"{TOP}/bench/{name}", self.path("bench", name))
        shutil.copy(f"{TOP}/test", self.path("test"))
        write(CRATES, self.top, "crates.txt")
        write(RT, self.path("bin", "rt"))
        os.chmod(self.path("bin", "rt"), 0o755)
        for name in ("numbers", "names", "rules", "replay_program", "calls"):
            os.makedirs(self.path("crates", name))

    def path(self, *parts):
        path = os.path.join(self.top, *parts)
        os.makedirs(os.path.dirname(path), exist_ok=True)
        return path

    def run_copy(self, *words, unproved=""):
        """The status, what is printed without the seconds, the fault, and the crates that were checked."""
        log = self.path("log")
        write("", self.top, "log")
        done = subprocess.run(words, stdin=subprocess.DEVNULL, capture_output=True, text=True, check=False, env={
            **os.environ, "PATH": f"{self.top}/bin:{os.environ['PATH']}", "LOG": log, "UNPROVED": unproved})
        with open(log, encoding="utf-8") as checked:
            said = [line.partition(" in ")[0] for line in done.stdout.splitlines()]
            return done.returncode, said, done.stderr, checked.read().split()

    def test_what_a_change_needs(self):
        status, said, fault, checked = self.run_copy(f"{self.top}/bench/proofs", "numbers")
        self.assertEqual((status, fault, checked), (0, "", ["numbers", "rules", "replay_program"]))
        self.assertEqual(said, ["numbers proved", "rules proved", "replay_program proved", "left, as tests: calls",
                                "left: rt must-fail numbers and ./test"])

    def test_what_stands_beside_is_not_proved(self):
        self.assertEqual(self.run_copy(f"{self.top}/bench/proofs", "names")[3], ["names", "replay_program"])

    def test_a_crate_of_tests_is_proved_where_it_was_changed(self):
        self.assertEqual(self.run_copy(f"{self.top}/bench/proofs", "calls")[3], ["calls"])

    def test_it_ends_at_what_is_not_proved(self):
        status, said, fault, checked = self.run_copy(f"{self.top}/bench/proofs", "numbers", unproved="rules")
        self.assertEqual((status, fault, checked), (1, "", ["numbers", "rules"]))
        self.assertEqual(said, ["numbers proved", "one goal of rules is open", "rules NOT PROVED",
                                "left, as proofs: rules replay_program", "left, as tests: calls",
                                "left: rt must-fail numbers and ./test"])

    def test_list(self):
        status, said, _, checked = self.run_copy(f"{self.top}/bench/proofs", "--list", "rules", "names")
        self.assertEqual((status, said, checked), (0, ["names", "rules", "replay_program"], []))

    def test_by_the_gate(self):
        self.assertEqual(self.run_copy(f"{self.top}/test", "--proofs", "names")[3], ["names", "replay_program"])

    def test_no_such_crate(self):
        status, said, fault, checked = self.run_copy(f"{self.top}/bench/proofs", "numbers", "number")
        self.assertEqual((status, said, checked), (2, [], []))
        self.assertEqual(fault.splitlines()[-1], "bench/try proofs: there is no crate number")
        self.assertEqual(self.run_copy(f"{self.top}/test", "--proofs")[0], 2)
