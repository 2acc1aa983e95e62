"""Tests of what reads crates.txt, and of whether the built program is current."""
import os
import subprocess
import sys
import tempfile
import time

from common import TOP, Case, commands_in, read, write
import crates

TEXT = """\
# words of the file

## Base
# a list
list: indexmap  # more: words
## Rules
# a rule
# of two lines
rule: list
rules: rule list
"""


def crates_py(*words):
    """The status, the output and the errors of the module as a program."""
    done = subprocess.run([sys.executable, "-B", f"{TOP}/bench/lib/crates.py", *words], stdin=subprocess.DEVNULL,
                          capture_output=True, text=True, check=False)
    return done.returncode, done.stdout, done.stderr


class Crates(Case):
    def test_crates_are_read_in_their_order(self):
        self.assertEqual(crates.crates_in(TEXT), [
            crates.Crate("list", "Base", "a list", []), crates.Crate("rule", "Rules", "of two lines", ["list"]),
            crates.Crate("rules", "Rules", "", ["rule", "list"])])

    def test_faults_name_the_line(self):
        for text, said in (("## Attic\n", "crates.txt:1: no storey is called Attic; they are Base, Format, "),
                           ("# words\nlist:\n", "crates.txt:2: list is in no storey; '## Base' begins one")):
            with self.assertRaises(ValueError) as fault:
                crates.crates_in(text)
            self.assertTrue(str(fault.exception).startswith(said), fault.exception)

    def test_what_stands_below(self):
        with tempfile.TemporaryDirectory() as top:
            write(TEXT, top, "crates.txt")
            below = crates.below_of(top)
        self.assertEqual(below, {"list": [], "rule": ["list"], "rules": ["rule", "list"]})
        self.assertEqual(crates.standing_below(below, "rules"), {"list", "rule", "rules"})
        self.assertEqual(crates.standing_below(below, "list"), {"list"})

    def test_words(self):
        with tempfile.TemporaryDirectory() as top:
            self.assertEqual(crates_py(top, "list")[::2], (
                1, f"crates.py: [Errno 2] No such file or directory: '{top}/crates.txt'\n"))
            write(TEXT, top, "crates.txt")
            self.assertEqual(crates_py(top, "rules"), (0, "list\nrule\nrules\n", ""))
            self.assertEqual(crates_py(top, "attic"), (2, "", "crates.py: there is no crate attic\n"))
            write("list:\n", top, "crates.txt")
            self.assertEqual(crates_py(top, "list")[::2], (
                1, "crates.py: crates.txt:1: list is in no storey; '## Base' begins one\n"))
        self.assertEqual(crates_py(TOP), (3, "", "usage: crates.py TOP NAME\n"))


class Current(Case):
    """A small repository with a program that is newer than its sources."""

    def setUp(self):
        self.top = self.enterContext(tempfile.TemporaryDirectory())
        os.makedirs(f"{self.top}/bench")
        os.symlink(f"{TOP}/bench/lib", f"{self.top}/bench/lib")
        for name in ("list", "rule", "rules", "replay_program"):
            os.makedirs(f"{self.top}/crates/{name}/src")
            write("", self.top, f"crates/{name}/src/main.rt")
        os.makedirs(f"{self.top}/crates/replay_program/out")
        write(f"{TEXT}replay_program: rule\n", self.top, "crates.txt")
        self.set_age("crates.txt", 50)
        for name in ("list", "rule", "rules", "replay_program"):
            self.set_age(f"crates/{name}/src/main.rt", 50)
        write("the program\n", self.top, "crates/replay_program/out/replay_program")
        self.set_age("crates/replay_program/out/replay_program", 40)

    def set_age(self, path, seconds):
        os.utime(f"{self.top}/{path}", (time.time() - seconds,) * 2)

    def is_current(self, **settings):
        """The status and the errors of a script that asks."""
        script = '. "$top/bench/lib/current.sh" && is_current'
        done = subprocess.run(["/bin/bash", "-c", script, "./it"], stderr=subprocess.PIPE, text=True, check=False,
                              env={**os.environ, "top": self.top, **settings})
        return done.returncode, done.stderr

    def kept(self):
        return read(self.top, "crates/replay_program/out/crates")

    def test_a_source_is_newer(self):
        self.assertEqual(self.is_current(), (0, ""))
        for path in ("crates/rules/src/main.rt", "crates/list/must-fail"):
            write("", self.top, path)
            self.assertEqual(self.is_current(), (0, ""), path)
        for path in ("crates/list/src/main.rt", "crates/replay_program/src/main.rt", "crates.txt"):
            write(read(self.top, path), self.top, path)
            self.assertEqual(self.is_current(), (1, ""), path)
            self.set_age(path, 50)
            self.assertEqual(self.is_current(), (0, ""), path)

    def test_the_crates_are_read_once(self):
        self.is_current()
        self.assertEqual(self.kept(), "list\nrule\nreplay_program\n")
        self.assertEqual(sorted(os.listdir(f"{self.top}/crates/replay_program/out")), ["crates", "replay_program"])
        # without python3
        self.assertEqual(self.is_current(PATH=commands_in(self.top, "find")), (0, ""))

    def test_the_crates_are_read_anew(self):
        self.is_current()
        write(f"{TEXT}replay_program: list\n", self.top, "crates.txt")
        self.set_age("crates.txt", 45)
        self.set_age("crates/replay_program/out/crates", 46)
        write("", self.top, "crates/rule/src/main.rt")
        self.assertEqual(self.is_current(), (0, ""))
        self.assertEqual(self.kept(), "list\nreplay_program\n")

    def test_the_crates_are_not_read(self):
        self.assertEqual(self.is_current(PATH=commands_in(self.top, "find")), (
            127, "it: python3 is missing; it reads crates.txt\n"))
        write("list:\n", self.top, "crates.txt")
        self.set_age("crates.txt", 50)
        self.assertEqual(self.is_current(), (
            1, "crates.py: crates.txt:1: list is in no storey; '## Base' begins one\n"))
