"""Tests of ./kubelet_replay over a small folder whose program is a stand-in: the arguments that it passes on, and where
its standard output goes."""
import os
import shutil
import subprocess
import tempfile

from common import LONGEST, TOP, Case, write

# it prints its arguments, then what it reads of standard input, then many lines; a failed write is a line, as of Rust
PROGRAM = """#!/usr/bin/env python3
import os, signal, sys
signal.signal(signal.SIGPIPE, signal.SIG_IGN)
try:
    os.write(1, (" ".join(["words", *sys.argv[1:]]) + "\\n").encode())
    if "/dev/stdin" in sys.argv:
        os.write(1, open("/dev/stdin", "rb").read())
    for _ in range(int(os.environ.get("LINES_MORE", "0"))):
        os.write(1, b"more\\n" * 1000)
except OSError:
    os.write(2, b"write failed\\n")
    sys.exit(1)
"""


class Wrapper(Case):
    def setUp(self):
        self.top = self.enterContext(tempfile.TemporaryDirectory())
        for folder in ("bench/lib", "crates/replay_program/src", "crates/replay_program/out"):
            os.makedirs(f"{self.top}/{folder}")
        shutil.copy(f"{TOP}/kubelet_replay", self.top)
        shutil.copy(f"{TOP}/bench/lib/current.sh", f"{self.top}/bench/lib")
        write("", self.top, "crates.txt")
        write("replay_program\n", self.top, "crates/replay_program/out/crates")
        write(PROGRAM, self.top, "crates/replay_program/out/replay_program")
        os.chmod(f"{self.top}/crates/replay_program/out/replay_program", 0o755)
        for path in ("crates.txt", "crates/replay_program/src"):
            os.utime(f"{self.top}/{path}", (1, 1))

    def said(self, command, **settings):
        """The status, the output and the errors of a line of shell in the folder."""
        done = subprocess.run(["bash", "-c", command], cwd=self.top, input=b"a trace\n", capture_output=True,
                              check=False, timeout=LONGEST, env={**os.environ, **settings})
        return done.returncode, done.stdout.decode(), done.stderr.decode()

    def test_words_are_handed_on(self):
        for words in ("", "run a.trace --workers 2", "check a.trace", "run ./-", "help run", "other -"):
            self.assertEqual(self.said(f"./kubelet_replay {words}"), (0, f"words {words}".rstrip() + "\n", ""))

    def test_standard_input_by_a_name(self):
        for words, handed in (("run -", "run /dev/stdin"), ("check - --extended", "check /dev/stdin --extended"),
                              ("play - a.steps", "play /dev/stdin a.steps"),
                              ("--extended", "run /dev/stdin --extended"),
                              ("--workers 2 --extended", "run /dev/stdin --workers 2 --extended")):
            self.assertEqual(self.said(f"./kubelet_replay {words}"), (0, f"words {handed}\na trace\n", ""))

    def test_a_reader_that_has_gone(self):
        self.assertEqual(self.said("set -o pipefail; ./kubelet_replay run a | head -n 1", LINES_MORE="100"),
                         (0, "words run a\n", ""))
        status, said, fault = self.said("./kubelet_replay run a | cat", LINES_MORE="100")
        self.assertEqual((status, said.count("more\n"), fault), (0, 100000, ""))

    def test_a_disk_that_is_full(self):
        self.assertEqual(self.said("./kubelet_replay run a >/dev/full"), (1, "", "write failed\n"))
