"""Runs tests so many at a time, each in a process and with a folder of its own. One that crashes its process ends
alone: a keeper is above each, to which what a test has started and left comes, and which ends that with it."""

import collections
import contextlib
import ctypes
import json
import os
import selectors
import shutil
import signal
import sys
import tempfile
import time
import traceback
import unittest

import cases
import ending

PR_SET_PDEATHSIG = 1
# seconds: between two checks of how long tests take, and the most that one may take on a machine with much other work
LOOK, LONGEST_TEST = 1.0, 1500
# what a test reports to the run, a line each
PASSED, FAILED, LEFT_OUT, DONE, EXITED = "passed", "failed", "left out", "done", "exited"


class Interrupted(Exception):
    """The run is to end; its number is the signal's."""


def as_at_a_terminal():
    """A test hears what ends it, also where the run does not, as one that a shell has begun in the background."""
    for number in ending.INTERRUPTS:
        signal.signal(number, signal.default_int_handler if number == signal.SIGINT else signal.SIG_DFL)


class Interrupts:
    """The signals that end a run, and what was to be done at them before: where a shell has one ignored it stays so."""

    def __init__(self):
        self.before = {number: signal.getsignal(number) for number in ending.INTERRUPTS}
        self.is_ended = False

    def hear(self):
        """From now on one is raised where the run is, once."""
        for number, before in self.before.items():
            if before != signal.SIG_IGN:
                signal.signal(number, self.interrupt)

    def interrupt(self, number, _):
        if not self.is_ended:
            self.is_ended = True
            raise Interrupted(number)

    def as_before(self):
        for number, before in self.before.items():
            signal.signal(number, before)


# --- in the process of a test ---


class Teller(unittest.TestResult):
    """Reports to the run each check, and a test that raises."""

    def __init__(self, pipe):
        super().__init__()
        self.pipe = pipe

    def addSubTest(self, test, subtest, error):
        super().addSubTest(test, subtest, error)
        if error is None:
            tell(self.pipe, PASSED)
        elif isinstance(error[1], cases.Differs):
            tell(self.pipe, FAILED, str(error[1]))
        else:
            self.end(test, error)

    def addError(self, test, error):
        super().addError(test, error)
        self.end(test, error)

    def addFailure(self, test, error):
        super().addFailure(test, error)
        self.end(test, error)

    def addSkip(self, test, reason):
        super().addSkip(test, reason)
        tell(self.pipe, LEFT_OUT)

    def end(self, test, error):
        """A test that raises has failed, and the others run."""
        tell(self.pipe, FAILED, told_of(test, error[0], self._exc_info_to_string(error, test)))


def told_of(test, kind, text):
    return f"{test.name}: ended by {kind.__name__}\n{text.rstrip()}"


def tell(pipe, *words):
    line = json.dumps(words).encode() + b"\n"
    while line:
        line = line[os.write(pipe, line):]


def perform(test, pipe, room):
    """Runs a test, and ends this process, whatever comes of it."""
    try:
        tempfile.tempdir = room
        with open(os.devnull, encoding="utf-8") as nothing:
            os.dup2(nothing.fileno(), 0)
        unittest.TestSuite([test]).run(Teller(pipe))
        tell(pipe, DONE)
    except BaseException as error:  # noqa: B902 nothing of the run above may go on in this process
        tell(pipe, FAILED, told_of(test, type(error), traceback.format_exc()))
        tell(pipe, DONE)
    finally:
        for stream in (sys.stdout, sys.stderr):
            with contextlib.suppress(OSError, ValueError):
                stream.flush()
        os._exit(0)


# --- in the process of a keeper ---


def keep(test, pipe, room, run):
    """Has a process below this one run a test, and ends what that leaves; then this process ends. It also ends where a
    signal asks it to, or where the run is gone."""
    try:
        # an interrupt of a terminal comes to the run, which passes it to its keepers
        os.setpgid(0, 0)
        ending.adopt_orphans()
        ctypes.CDLL(None).prctl(PR_SET_PDEATHSIG, signal.SIGTERM)
        ending.hear_interrupts()
        identity = os.fork()
        if identity == 0:
            as_at_a_terminal()
            signal.pthread_sigmask(signal.SIG_UNBLOCK, ending.INTERRUPTS)
            perform(test, pipe, room)
        signal.pthread_sigmask(signal.SIG_UNBLOCK, ending.INTERRUPTS)
        if os.getppid() == run:
            # after a line that the test may not have brought to its end
            os.write(pipe, b"\n")
            tell(pipe, EXITED, status_of(identity))
    finally:
        ending.hear_no_interrupts()
        ending.end_descendants()
        os._exit(0)


def status_of(child):
    """The status of a child that ends; orphans that end before it are let go."""
    while True:
        ended, status = os.wait()
        if ended == child:
            return os.waitstatus_to_exitcode(status)


# --- in the process of the run ---


class Job:
    """A test that runs."""

    def __init__(self, test, keeper, pipe, room):
        self.test, self.keeper, self.pipe, self.room = test, keeper, pipe, room
        self.began, self.rest = time.monotonic(), b""
        self.is_done, self.status, self.is_told = False, None, False

    def lines(self, data):
        """The whole lines of what came, in their order."""
        *lines, self.rest = (self.rest + data).split(b"\n")
        for line in lines:
            with contextlib.suppress(ValueError):
                kind, *more = json.loads(line)
                self.is_done = self.is_done or kind == DONE
                self.status = more[0] if kind == EXITED else self.status
                yield kind, more

    def how_it_ended(self):
        if self.status is not None and self.status < 0:
            return f"its process was ended by {signal.Signals(-self.status).name}"
        return "its process " + ("is gone" if self.status is None else f"ended with status {self.status}")


class Run:
    """Tests that run so many at a time, and the counts of their checks. A test that fails is reported at once, and so
    is one that takes longer than LONGEST_TEST, which ends it."""

    def __init__(self, room, most):
        self.room, self.most = room, most
        self.passed = self.failed = self.left_out = 0
        self.seconds = {}
        self.jobs = selectors.DefaultSelector()
        self.interrupts = Interrupts()

    def of(self, tests):
        """Runs tests; an interrupt ends those that run."""
        left, number = collections.deque(tests), 0
        self.interrupts.hear()
        try:
            while left or self.jobs.get_map():
                while left and len(self.jobs.get_map()) < self.most:
                    number += 1
                    self.start(left.popleft(), f"{self.room}/{number}")
                for key, _ in self.jobs.select(LOOK):
                    self.hear(key.data)
                self.end_the_longest()
        finally:
            self.end()
            self.interrupts.as_before()

    def start(self, test, room):
        os.mkdir(room)
        # others than this user look into some folders of the tests
        os.chmod(room, 0o711)
        read, pipe = os.pipe()
        for stream in (sys.stdout, sys.stderr):
            stream.flush()
        run = os.getpid()
        signal.pthread_sigmask(signal.SIG_BLOCK, ending.INTERRUPTS)
        keeper = os.fork()
        if keeper == 0:
            keep(test, pipe, room, run)
        self.jobs.register(read, selectors.EVENT_READ, Job(test, keeper, read, room))
        os.close(pipe)
        signal.pthread_sigmask(signal.SIG_UNBLOCK, ending.INTERRUPTS)

    def hear(self, job):
        """What a test reports; once no process is left to report anything it has ended."""
        data = os.read(job.pipe, 1 << 16)
        for kind, more in job.lines(data):
            self.passed += kind == PASSED
            self.left_out += kind == LEFT_OUT
            if kind == FAILED:
                self.fail(more[0])
        if not data:
            self.let_go(job)
            if not job.is_done and not job.is_told:
                self.fail(f"{job.test.name}: {job.how_it_ended()}")
            self.seconds[job.test.whole_name] = time.monotonic() - job.began

    def end_the_longest(self):
        """Ends the tests that take too long, each with what it has started."""
        for job in [key.data for key in self.jobs.get_map().values()]:
            if time.monotonic() - job.began > LONGEST_TEST and not job.is_told:
                job.is_told = True
                self.fail(f"{job.test.name}: ended after {LONGEST_TEST} s, the most that a test may take")
                os.kill(job.keeper, signal.SIGTERM)

    def let_go(self, job):
        self.jobs.unregister(job.pipe)
        os.close(job.pipe)
        os.waitpid(job.keeper, 0)
        shutil.rmtree(job.room, ignore_errors=True)

    def fail(self, text):
        self.failed += 1
        print(f"FAILED {text}", flush=True)

    def end(self):
        """Ends the tests that run, with what they have started."""
        jobs = [key.data for key in self.jobs.get_map().values()]
        for job in jobs:
            print(f"not ended yet: {job.test.name}, after {time.monotonic() - job.began:.0f} s", flush=True)
            os.kill(job.keeper, signal.SIGTERM)
        for job in jobs:
            self.let_go(job)
        self.jobs.close()
