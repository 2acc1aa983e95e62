"""What processes cost: the seconds, the processor seconds and the peak memory of one that this one ran, by what the
system reports of a child that has ended. Nothing else in bench/ measures memory, and nothing here inspects a process
that this one did not start."""
import contextlib
import os
import resource
import signal
import subprocess
import threading
import time
from typing import NamedTuple

GRACE = 20
"""seconds in which a command that is asked to end may do so"""


class Cost(NamedTuple):
    """Of a run."""
    status: int  # negative by a signal
    peak: int    # bytes; never below what this process had when it began the run
    late: bool   # it was ended after the seconds that it might take


class Whole(NamedTuple):
    """Of a command from its begin to its end."""
    status: int     # negative by a signal
    seconds: float
    spent: float    # processor seconds, of the command and of all below it that was waited for
    peak: int       # bytes of the largest process


def wait(pid):
    """Waits for a child's end: its status, negative by a signal, and the bytes that it has held at most, or one that it
    waited for itself."""
    _, status, used = os.wait4(pid, 0)
    return os.waitstatus_to_exitcode(status), used.ru_maxrss * 1024


def has_ended(pid):
    """Whether a child has ended, which is still there to be waited for."""
    return os.waitid(os.P_PID, pid, os.WEXITED | os.WNOHANG | os.WNOWAIT) is not None


def run(words, given=subprocess.DEVNULL, written=subprocess.DEVNULL, said=None, longest=None):
    """Runs a command from its begin to its end. After this many seconds it is ended, and so is all that it began."""
    child, late = subprocess.Popen(words, stdin=given, stdout=written, stderr=said, process_group=0), []

    def end():
        late.append(True)
        end_group(child.pid)

    timer = threading.Timer(longest or threading.TIMEOUT_MAX, end)
    timer.daemon = True
    timer.start()
    try:
        child.returncode, peak = wait(child.pid)
    except KeyboardInterrupt:
        # it is in a group of its own, which an interrupt does not reach
        end_group(child.pid)
        raise
    finally:
        timer.cancel()
    return Cost(child.returncode, peak, bool(late))


class Commands:
    """Commands that run side by side, each in a folder, and at nothing of which is looked before its end. While there
    are any, the process has no other children. If it is interrupted, they are asked to end too, and have some
    seconds for it."""

    def __init__(self):
        self.running = {}

    def __enter__(self):
        return self

    def __exit__(self, *_):
        for child, _, _ in self.running.values():
            ask(child)
        for child, _, _ in self.running.values():
            see_end(child)

    def begin(self, key, words, folder, said):
        """Its output goes into a file."""
        child = subprocess.Popen(words, cwd=folder, stdin=subprocess.DEVNULL, stdout=said, stderr=subprocess.STDOUT,
                                 process_group=0)
        self.running[child.pid] = child, key, time.monotonic()

    def wait_for_one(self):
        """The key of one that has ended, and what it was."""
        pid, status, used = os.wait4(-1, 0)
        child, key, began = self.running.pop(pid)
        child.returncode = os.waitstatus_to_exitcode(status)
        return key, Whole(child.returncode, time.monotonic() - began, used.ru_utime + used.ru_stime,
                          used.ru_maxrss * 1024)


def ask(child):
    """Asks the group of a child to end."""
    with contextlib.suppress(ProcessLookupError):
        os.killpg(child.pid, signal.SIGTERM)


def see_end(child):
    """Ends the group of a child that was asked to end, after some seconds by a signal that it does not hear."""
    try:
        child.wait(GRACE)
    except subprocess.TimeoutExpired:
        end_group(child.pid)
        child.wait()


def end_group(pid):
    """Ends the group of a process by a signal, if it is still there."""
    with contextlib.suppress(ProcessLookupError):
        os.killpg(pid, signal.SIGKILL)


def children_seconds():
    """The processor seconds of all processes below this one that have ended and were waited for."""
    used = resource.getrusage(resource.RUSAGE_CHILDREN)
    return used.ru_utime + used.ru_stime


def machine():
    """What the machine has, in words."""
    with open("/proc/meminfo", encoding="ascii") as file:
        memory = int(file.readline().split()[1]) / 1024 ** 2
    with open("/proc/cpuinfo", encoding="utf-8") as file:
        kind = kind_in(file.read())
    return f"{len(os.sched_getaffinity(0))} processors{kind}, {memory:.0f} GB"


def kind_in(text):
    """Of which kind the processors are, in brackets, by the system's text of them; nothing if it does not have it."""
    found = {line.partition(":")[0].strip(): line.partition(":")[2].strip() for line in reversed(text.splitlines())}
    said = [found[key] if key == "model name" else f"{key} {found[key]}"
            for key in ("model name", "model", "stepping") if key in found]
    return f" ({', '.join(said)})" if said else ""
