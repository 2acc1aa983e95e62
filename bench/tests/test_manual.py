"""Tests of what writes the manual pages: manual/program prints the help that the program's page is made of, and the
pages of the tools are made of their own."""
import glob
import shutil
import subprocess
import sys
import tempfile
import unittest

from common import TESTS, TOP, Case, read
import tool_manual

sys.path.insert(0, f"{TOP}/tools")
from replay_tools.cli import definition, help  # noqa: E402
from replay_tools.cli.specification import Command, Example, Group, Option  # noqa: E402
from replay_tools.cli.statuses import Status  # noqa: E402

HERE = f"{TESTS}/manual"
KEPT = f"{HERE}/kubelet_replay.1"


def manual(*words):
    """The status, the output and the errors of the module as a program."""
    done = subprocess.run([sys.executable, "-B", f"{TOP}/bench/lib/manual.py", *words], stdin=subprocess.DEVNULL,
                          capture_output=True, text=True, check=False)
    return done.returncode, done.stdout, done.stderr


class Manual(Case):
    def test_the_page(self):
        self.assertEqual(manual(f"{HERE}/program", HERE, "1.2.3", "2026-01-31"), (0, read(KEPT), ""))

    @unittest.skipUnless(shutil.which("groff"), "groff is missing")
    def test_groff_reads_it(self):
        done = subprocess.run(["groff", "-man", "-Tascii", "-ww", KEPT], capture_output=True, text=True, check=True)
        self.assertEqual(done.stderr, "")
        self.assertIn(r".trace file with a \ in it", done.stdout)

    def test_words_and_a_program_that_fails(self):
        self.assertEqual(manual("program", HERE), (1, "", "usage: manual.py PROGRAM TOP VERSION DATE\n"))
        status, said, fault = manual("/bin/false", HERE, "1.2.3", "2026-01-31")
        self.assertEqual((status, said), (1, ""))
        self.assertIn("'/bin/false', 'help'", fault)


DETAILS = """\
There are
  one(f)   the first
  two(f)   .the second
where f is a filter.

It leaves out
  - all that
    is over;
  - the rest.

Status 0: done; 2: a wrong argument, a report; that is none; 127: python3 is missing.
"""
COMMAND = Command(
    "tool", "tool", Group.ASK, "prints a pod", sentence="Print a pod.", usage=("[--one] POD", "--two FILE"),
    notes=("Without POD it prints all.",), examples=(Example("One pod", "{kubelet_replay} tool web"),),
    lines=(Option(("--one",), says=".only one"),), exits={Status.DONE: "done"})
PAGE = """\
.TH KUBELET-REPLAY-TOOL 1 "2026-01-31" "kubelet\\-replay 1.2.3"
.SH NAME
kubelet\\-replay\\-tool \\- prints a pod
.SH SYNOPSIS
.nf
kubelet\\-replay tool [\\-\\-one] POD
kubelet\\-replay tool \\-\\-two FILE
.fi
.SH DESCRIPTION
Print a pod.
.PP
Without POD it prints all.
.PP
There are
.PP
.nf
  one(f)   the first
  two(f)   .the second
.fi
.PP
where f is a filter.
.PP
It leaves out
.IP \\(bu 2
all that
is over;
.IP \\(bu 2
the rest.
.SH OPTIONS
.nf
\\-\\-one                 .only one
.fi
.SH EXAMPLES
.nf
# One pod
kubelet\\-replay tool web
.fi
.SH EXIT STATUS
.TP
\\fB0\\fR
done
.TP
\\fB2\\fR
a wrong argument, a report; that is none
.TP
\\fB127\\fR
python3 is missing.
.SH SEE ALSO
\\fBkubelet\\-replay\\fR(1), \\fBkubelet_replay\\fR(1)
"""


class ToolManual(Case):
    def test_a_page(self):
        parts = help.parts_of_command(COMMAND)
        self.assertEqual(tool_manual.page("kubelet-replay-tool", "prints a pod", parts, DETAILS, "1.2.3", "2026-01-31"),
                         PAGE)

    def test_the_commands(self):
        """Each command has a page, with its help as it is typed, and so have the two that have all commands."""
        pages = tool_manual.pages_of(TOP)
        about, parts, details = pages["kubelet-replay-why"]
        self.assertEqual(about, "show what led to each event of a pod")
        self.assertEqual(parts.usage[0], "kubelet-replay why POD -f FILE [options]")
        self.assertIn("It needs python3", details)
        self.assertEqual(set(pages), {"kubelet-replay", "kubectl-replay"} | {
            f"kubelet-replay-{name}" for name in definition.COMMANDS})

    def test_the_statuses(self):
        """A page has each exit status of the specification, with what it means in full."""
        for name, (_, _, details) in tool_manual.pages_of(TOP).items():
            [statuses] = [part for part in details.split("\n\n") if part.startswith("Status")]
            exits = (definition.ENTRIES.get(name) or definition.COMMANDS[name.removeprefix("kubelet-replay-")]).exits
            for status in exits:
                with self.subTest(page=name, status=status):
                    self.assertRegex(statuses, rf"(^Status|;)\s{status.value}: |^Status: the tool's")

    def test_the_pages_of_all_tools(self):
        with tempfile.TemporaryDirectory() as room:
            subprocess.run([sys.executable, "-B", f"{TOP}/bench/lib/tool_manual.py", TOP, room, "1.2.3", "2026-01-31"],
                           check=True)
            pages = sorted(glob.glob("*.1", root_dir=room))
            self.assertEqual(len(pages), 16)
            self.assertIn("kubelet-replay-story.1", pages)
            if shutil.which("groff"):
                done = subprocess.run(["groff", "-man", "-Tutf8", "-ww", "-z", *pages], cwd=room, capture_output=True,
                                      text=True, check=True)
                self.assertEqual(done.stderr, "")

    def test_words(self):
        done = subprocess.run([sys.executable, "-B", f"{TOP}/bench/lib/tool_manual.py", TOP], capture_output=True,
                              text=True, check=False)
        self.assertEqual((done.returncode, done.stderr), (3, "usage: tool_manual.py TOP FOLDER VERSION DATE\n"))
