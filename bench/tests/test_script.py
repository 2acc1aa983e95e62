"""Tests of what the scripts have in common."""
import contextlib
import io
import os
import re
import sys
import tempfile
from unittest import mock

from common import TOP, Case, loaded, read, run, write
import script


def ended(main, *words):
    """The status of a script with this main, and what it wrote on standard output and standard error."""
    out, said = io.StringIO(), io.StringIO()
    with mock.patch.object(sys, "argv", ["it", *words]), contextlib.redirect_stdout(out), \
            contextlib.redirect_stderr(said):
        try:
            script.run("bench/it", main, "\nIt does this.\n")
        except SystemExit as end:
            return end.code, out.getvalue(), said.getvalue()


def fault(kind, *words):
    def main(_):
        raise kind(*words)
    return main


class Script(Case):
    def test_how_a_script_ends(self):
        for main, answer in (
            (lambda words: print(words), (None, "['a']\n", "")),
            (lambda words: 1, (1, "", "")),
            (fault(script.Fault, "a fault", 2), (2, "", "bench/it: a fault\n")),
            (fault(script.Fault, ""), (1, "", "")),
            (fault(script.Usage, "bench/it WORD"), (3, "", "usage: bench/it WORD\n")),
            (fault(KeyboardInterrupt), (130, "", "")),
        ):
            self.assertEqual(ended(main, "a"), answer)
        for word in ("-h", "--help"):
            self.assertEqual(ended(fault(KeyboardInterrupt), word), (0, "It does this.\n", ""))

    def test_each_program_has_a_help(self):
        for name in ("lint", "measure", "pages", "prose", "release", "test", "try",
                     *(f"measure {suite}" for suite in loaded("measure").SUITES),
                     *(f"try {each}" for each in loaded("try").TRIES)):
            status, said, fault_ = run(name, "--help")
            self.assertEqual((status, fault_), (0, ""), name)
            self.assertTrue(said.startswith(f"usage: bench/{name} "), said)

    def test_front_doors(self):
        suites, tries = ", ".join(loaded("measure").SUITES), ", ".join(loaded("try").TRIES)
        self.assert_wrong(run("measure"), "measure", "NAME is missing")
        self.assert_wrong(run("measure", "all"), "measure", f"there is no all to measure; there are {suites}")
        self.assert_wrong(run("try", "all"), "try", f"there is no all to try; there are {tries}")
        names = ", ".join(loaded("pages").NAMES)
        self.assert_wrong(run("pages", "all"), "pages", f"there is no all to write; there are {names}")
        self.assertEqual(run("try", "version", "version"), (0, "", ""))

    def test_old_names_are_entries_of_two_lines(self):
        """Each starts a part of a front door that there is."""
        parts = {"measure": loaded("measure").SUITES, "try": loaded("try").TRIES, "pages": loaded("pages").NAMES}
        entries = 0
        for name in sorted(os.listdir(f"{TOP}/bench")):
            lines = read(TOP, "bench", name).splitlines() if os.access(f"{TOP}/bench/{name}", os.X_OK) \
                and os.path.isfile(f"{TOP}/bench/{name}") else []
            if found := re.fullmatch(r'exec "\$\(dirname "\$\(readlink -f "\$0"\)"\)/(\w+)" (\w+) "\$@"', lines[-1] if lines else ""):
                self.assertEqual(len(lines), 2, name)
                self.assertIn(found[2], parts[found[1]], name)
                entries += 1
        self.assertEqual(entries, 23)

    def test_commands_that_are_missing(self):
        script.need(sh="sh is missing", env="env is missing")
        with self.assertRaises(script.Fault) as missing:
            script.need(sh="sh is missing", no_such_command="it is missing; it is needed")
        self.assertEqual((str(missing.exception), missing.exception.status), ("it is missing; it is needed", 127))

    def test_a_file_is_written_as_a_whole(self):
        with tempfile.TemporaryDirectory() as room:
            write("old", room, "file")
            script.write(f"{room}/file", "new\n")
            self.assertEqual((os.listdir(room), read(room, "file")), (["file"], "new\n"))

    def test_the_program(self):
        self.assertEqual(script.program_of(["/bin/sh"]), os.path.realpath("/bin/sh"))
        with self.assertRaises(script.Fault) as missing:
            script.program_of(["/nowhere"])
        self.assertEqual((str(missing.exception), missing.exception.status), ("there is no program /nowhere", 2))

    def test_the_program_that_is_built(self):
        with tempfile.TemporaryDirectory() as top, mock.patch.object(script, "TOP", top):
            os.mkdir(f"{top}/examples")
            write("trace\n", top, "examples/first_tick.trace")
            for status in (0, 1):
                write(f"#!/bin/sh\ngrep -q '^trace$' && exit {status}\nexit 7\n", top, "kubelet_replay")
                os.chmod(f"{top}/kubelet_replay", 0o755)
                if status == 0:
                    self.assertEqual(script.program_of([]), os.path.realpath(script.BUILT))
                else:
                    with self.assertRaises(script.Fault) as failed:
                        script.program_of([])
                    self.assertEqual((str(failed.exception), failed.exception.status), ("", 1))
        self.assertEqual(script.BUILT, f"{TOP}/crates/replay_program/out/replay_program")
