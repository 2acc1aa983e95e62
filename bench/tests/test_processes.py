"""Tests of what measures processes."""
import os
import signal
import subprocess
import sys
import tempfile
from unittest import mock

from common import Case, read, wait_until
import processes

# holds 64 MiB, and works for some tenths of a second
WORK = "import time\nheld = bytearray(64 << 20)\nwhile time.process_time() < 0.2: pass"


def is_there(pid):
    """Whether a process that this one started is there and has not ended."""
    try:
        return read(f"/proc/{pid}/stat").rpartition(")")[2].split()[0] != "Z"
    except OSError:
        return False


class Processes(Case):
    def test_a_run_is_measured(self):
        before = processes.children_seconds()
        cost = processes.run([sys.executable, "-c", WORK])
        self.assertEqual((cost.status, cost.late), (0, False))
        self.assertGreater(cost.peak, 64 << 20)
        self.assertGreater(processes.children_seconds() - before, 0.15)

    def test_a_run_is_given_a_file_and_writes_one(self):
        with tempfile.TemporaryFile() as given, tempfile.TemporaryFile() as written:
            given.write(b"text")
            given.seek(0)
            self.assertEqual(processes.run(["cat"], given, written).status, 0)
            written.seek(0)
            self.assertEqual(written.read(), b"text")

    def test_what_a_run_says(self):
        with tempfile.TemporaryFile() as said:
            self.assertEqual(processes.run(["sh", "-c", "echo text >&2; exit 3"], said=said).status, 3)
            said.seek(0)
            self.assertEqual(said.read(), b"text\n")

    def test_a_run_is_ended_with_all_that_it_began(self):
        with tempfile.TemporaryFile() as written:
            cost = processes.run(["sh", "-c", "sleep 600 & echo $!; wait"], written=written, longest=3)
            written.seek(0)
            below = int(written.read())
        self.assertEqual((cost.status, cost.late), (-9, True))
        wait_until(lambda: not is_there(below))

    def test_a_run_is_interrupted(self):
        wait, ended = processes.wait, []
        # it ends once nobody can write to it
        read_end, write_end = os.pipe()

        def end(child):
            os.close(write_end)
            ended.append(wait(child)[0])

        with mock.patch.object(processes, "wait", side_effect=KeyboardInterrupt), \
                mock.patch.object(processes, "end_group", side_effect=end), self.assertRaises(KeyboardInterrupt):
            processes.run(["cat"], given=read_end)
        os.close(read_end)
        self.assertEqual(ended, [0])

    def test_a_child_that_has_ended_is_still_there(self):
        with subprocess.Popen(["cat"], stdin=subprocess.PIPE) as child:
            self.assertFalse(processes.has_ended(child.pid))
            child.stdin.close()
            wait_until(lambda: processes.has_ended(child.pid))
            self.assertEqual(processes.wait(child.pid)[0], 0)
            child.returncode = 0

    def test_a_whole_command(self):
        with tempfile.TemporaryDirectory() as folder, tempfile.TemporaryFile() as said:
            # the shell waits for what works, and so the system counts that too
            with processes.Commands() as commands:
                commands.begin("key", ["sh", "-c", '"$0" -c "$1"; pwd; echo text >&2; exit 3', sys.executable, WORK],
                               folder, said)
                key, ran = commands.wait_for_one()
            self.assertEqual(key, "key")
            said.seek(0)
            self.assertEqual((ran.status, said.read()), (3, f"{os.path.realpath(folder)}\ntext\n".encode()))
        self.assertTrue(0.15 < ran.spent, ran)
        self.assertGreater(ran.seconds, 0.15)
        self.assertGreater(ran.peak, 64 << 20)

    def test_a_whole_command_is_interrupted(self):
        for words, grace, ended in (("exec cat", 60, -signal.SIGTERM),
                                    ("trap 'exit 3' TERM; cat", 60, 3), ("trap '' TERM; cat", 1, -9)):
            # it ends by itself once nobody can write to it
            read_end, write_end = os.pipe()
            os.write(write_end, b"\n")
            started, real, said = [], subprocess.Popen, self.enterContext(tempfile.TemporaryFile())

            def popen(*given, **more):
                started.append(real(*given, **{**more, "stdin": read_end}))
                return started[-1]

            def wait4(*_):
                # cat itself has written: a shell that has just forked can lose a signal
                wait_until(lambda: os.fstat(said.fileno()).st_size)
                raise KeyboardInterrupt

            with mock.patch.object(processes.subprocess, "Popen", popen), \
                    mock.patch.object(processes.os, "wait4", wait4), mock.patch.object(processes, "GRACE", grace), \
                    self.assertRaises(KeyboardInterrupt), processes.Commands() as commands:
                commands.begin("key", ["sh", "-c", words], "/", said)
                commands.wait_for_one()
            os.close(read_end)
            os.close(write_end)
            self.assertEqual(started[0].returncode, ended, words)

    def test_the_machine(self):
        self.assertRegex(processes.machine(), r"^\d+ processors( \(.+\))?, \d+ GB$")

    def test_the_kind_of_the_processors(self):
        self.assertEqual(processes.kind_in("processor\t: 0\nmodel\t\t: 85\nmodel name\t: Fast @ 2GHz\nstepping\t: 4\n\n"
                                           "processor\t: 1\nmodel\t\t: 86\nmodel name\t: Slow\nstepping\t: 5\n"),
                         " (Fast @ 2GHz, model 85, stepping 4)")
        self.assertEqual(processes.kind_in("processor\t: 0\nBogoMIPS\t: 50\n"), "")
