"""Tests of bench/lint over a small repository, where stand-ins take the place of shellcheck, pyflakes3 and
mypy."""
import os
import shutil
import subprocess
import tempfile
import unittest

from common import PATH_WITH_COMMANDS, Case, commands_in, run, write

SHELL = {"a": "#!/bin/sh\n", "b c": "#!/usr/bin/env bash\n", "d.sh": "echo\n", "lib/e": "# shellcheck shell=bash\n",
         "f.bash": "", "g": "#! /bin/dash -e\n"}
PYTHON = {"h": "#!/usr/bin/env python3\n", "i.py": "", "lib/j": "#!/usr/bin/python3 -B\n",
          "tools/replay_tools/t.py": "", "tools/t.py": ""}
OTHERS = {"k": "", "l.md": "#!/bin/sh\n"[1:], "m": "sh\n", "n": "#!/usr/bin/awk -f\n", "out/o.py": "FINDING\n",
          ".gitignore": "out/\n", "p": "#!/usr/bin/env fish\n", "q.js": "// python\n"}
ALL = "11 files were checked: 6 of shell, 5 of Python\n"


@unittest.skipUnless(shutil.which("git"), "git is missing")
class Lint(Case):
    def setUp(self):
        self.top = self.enterContext(tempfile.TemporaryDirectory())
        for path, text in {**SHELL, **PYTHON, **OTHERS}.items():
            os.makedirs(os.path.dirname(f"{self.top}/{path}"), exist_ok=True)
            write(text, self.top, path)
        os.symlink("i.py", f"{self.top}/r.py")
        self.git("init", "-q")
        self.git("add", "a", "h", "r.py")

    def git(self, *words):
        subprocess.run(["git", *words], cwd=self.top, check=True)

    def lint(self):
        return run("lint", self.top, PATH=PATH_WITH_COMMANDS)

    def test_every_script_is_looked_at(self):
        self.assertEqual(self.lint(), (
            0, f"shellcheck: {' '.join(sorted(SHELL))}\npyflakes3: {' '.join(sorted(PYTHON))}\n"
            f"mypy: tools/replay_tools/t.py\n{ALL}", ""))

    def test_what_one_of_them_finds(self):
        for path in ("d.sh", "lib/j", "tools/replay_tools/t.py"):
            write("# FINDING\n" if path == "d.sh" else "#!/usr/bin/python3\nFINDING\n", self.top, path)
            status, said, _ = self.lint()
            self.assertEqual((status, said.splitlines(True)[-1]), (1, ALL))
            self.assertIn("FINDING\n", said)
            write((SHELL | PYTHON)[path], self.top, path)
        self.assertEqual(self.lint()[0], 0)

    def test_pages_with_bounds(self):
        os.mkdir(f"{self.top}/bench")
        write("README.md\n", self.top, "bench/prose.txt")
        write("#!/bin/sh\necho \"$@\"; exit 1\n", self.top, "bench/prose")
        os.chmod(f"{self.top}/bench/prose", 0o755)
        status, said, _ = self.lint()
        self.assertEqual((status, said.splitlines()[-2:]),
                         (1, ["--check", "12 files were checked: 7 of shell, 5 of Python"]))

    def test_a_file_that_is_gone(self):
        os.remove(f"{self.top}/a")
        status, said, _ = self.lint()
        self.assertEqual((status, said.splitlines()[-1]), (0, "10 files were checked: 5 of shell, 5 of Python"))

    def test_words_and_what_is_missing(self):
        self.assert_wrong(run("lint", "--all"), "lint", "unrecognized arguments: --all")
        with tempfile.TemporaryDirectory() as room:
            path = commands_in(room, "python3", "env", "git")
            for command in ("shellcheck", "pyflakes3", "mypy"):
                self.assertEqual(run("lint", self.top, PATH=path), (
                    127, "", f"bench/lint: {command} is missing: apt-get install {command}\n"))
                os.symlink("/bin/true", f"{path}/{command}")
            status, said, fault = run("lint", room, PATH=path)
            self.assertEqual((status, said), (1, ""))
            self.assertTrue(fault.endswith(f"bench/lint: git lists no files of {room}\n"), fault)
