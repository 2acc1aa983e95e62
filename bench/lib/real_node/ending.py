"""How a run ends: it leaves no process and no mount, also when it is interrupted."""

import ctypes
import os
import re
import signal
import subprocess
import time
from collections import Counter

INTERRUPTS = (signal.SIGINT, signal.SIGTERM, signal.SIGHUP)
PR_SET_CHILD_SUBREAPER = 36
MOUNTS = "/proc/self/mountinfo"
ESCAPED = re.compile(r"\\([0-7]{3})")


class Interrupted(Exception):
    """An interrupt; its text names the signal."""


def hear_interrupts():
    """From now on an interrupt is raised where the run is. Those after it are not heard, so that the end is whole."""
    for number in INTERRUPTS:
        signal.signal(number, interrupt)


def interrupt(number, _):
    hear_no_interrupts()
    raise Interrupted(signal.Signals(number).name)


def hear_no_interrupts():
    for number in INTERRUPTS:
        signal.signal(number, signal.SIG_IGN)


# --- processes ---


def adopt_orphans():
    """From now on what descends from this process and loses its parent becomes its child, as the shims of a runtime
    do: so each can be found and ended at the end."""
    ctypes.CDLL(None, use_errno=True).prctl(PR_SET_CHILD_SUBREAPER, 1, 0, 0, 0)


def numbers_since(own, last, most):
    """The ids that processes may have which began after the one with its own id. They are given out in order, and
    after the greatest from the least on."""
    return range(own + 1, last + 1) if last >= own else (*range(own + 1, most + 1), *range(2, last + 1))


def is_child(identity):
    """Whether the id is a child's, which may have ended. The system shows nothing of another process."""
    try:
        os.waitid(os.P_PID, identity, os.WEXITED | os.WNOHANG | os.WNOWAIT)
    except ChildProcessError:
        return False
    return True


def has_children():
    """Whether this process has any, which may have ended."""
    try:
        os.waitid(os.P_ALL, 0, os.WEXITED | os.WNOHANG | os.WNOWAIT)
    except ChildProcessError:
        return False
    return True


def children():
    """The ids of this process' children. Not each kernel lists them, so it is asked of each id that may be one's."""
    if not has_children():
        return set()
    with open("/proc/loadavg", encoding="ascii") as file:
        last = int(file.read().split()[-1])
    with open("/proc/sys/kernel/pid_max", encoding="ascii") as file:
        most = int(file.read())
    # where the ids have all been given out since this process began, one before its own may be a child's too
    return set(filter(is_child, numbers_since(os.getpid(), last, most))) or set(filter(is_child, range(2, most + 1)))


def end_descendants(seconds=20):
    """Kills all that descends from this process, whose children come to it as their parents end; the ids of the
    children that are there after this many seconds."""
    until = time.monotonic() + seconds
    while True:
        reap()
        left = children()
        if not left or time.monotonic() > until:
            return left
        for identity in left:
            try:
                os.kill(identity, signal.SIGKILL)
            except ProcessLookupError:
                pass
        time.sleep(0.05)


def reap():
    """Takes the statuses of the children that have ended."""
    try:
        while os.waitpid(-1, os.WNOHANG)[0]:
            pass
    except ChildProcessError:
        pass


# --- mounts ---


def mount_points(text=None):
    """The places of mounts, in the order in which they were made."""
    if text is None:
        with open(MOUNTS, encoding="utf-8", errors="surrogateescape") as file:
            text = file.read()
    return [ESCAPED.sub(lambda found: chr(int(found[1], 8)), line.split(" ")[4]) for line in text.splitlines()]


def made_since(before, now, folders):
    """The mounts at or below some folders that were not there before, the newest first."""
    old, made = Counter(before), []
    for point in now:
        if old[point]:
            old[point] -= 1
        elif any(point == folder or point.startswith(f"{folder}/") for folder in folders):
            made.append(point)
    return made[::-1]


def unmount(before, folders):
    """Takes away the mounts that a run has made at or below some folders; those that are left."""
    for point in made_since(before, mount_points(), folders):
        words = ["umount", point]
        if subprocess.run(words, capture_output=True, check=False).returncode != 0:
            subprocess.run([*words, "--lazy"], capture_output=True, check=False)
    return made_since(before, mount_points(), folders)
