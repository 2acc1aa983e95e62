"""The tests of the tests: one that raises or crashes ends alone, several run side by side and end with the run, and
each is one of unittest's too."""

import os
import re
import shutil
import signal
import subprocess
import sys
import tempfile

import cases
from checks import HERE, LONGEST, expect, read, run, wait_until

from run import modules
from test_real_node import is_there

load_tests = cases.loaded(__name__)

FAILS = """
import os, subprocess, sys, types
_, tests, written = sys.argv
sys.path.insert(0, tests)
import run, checks

def test_one_that_raises():
    with open(written, "w") as file:
        file.write(str(subprocess.Popen(["sleep", "600"], start_new_session=True).pid))
    raise IndexError("nothing at 0")

def test_one_that_exits():
    sys.exit(3)

def test_one_that_fails_twice():
    checks.expect("the one", 1, 2)
    checks.expect("the other", 1, 1)
    checks.expect("the third", 1, 3)

module = types.ModuleType("module")
vars(module).update({name: value for name, value in list(globals().items()) if name.startswith("test_")})
sys.exit(run.main(["test_one_that_"], [module]))
"""
ASKS = """
import sys, types
_, tests, _ = sys.argv
sys.argv = ["run.py", "--without-program"]
sys.path.insert(0, tests)
import run, checks

def test_one_that_asks():
    checks.expect("before the report", 1, 2)
    checks.expect("the report", checks.replayed('{"kind":"node"}\\n')[0], 0)

def test_one_that_asks_nothing():
    checks.expect("one that asks nothing", 1, 1)

def test_one_that_fails():
    checks.expect("one that fails", 1, 2)

module = types.ModuleType("module")
vars(module).update({name: value for name, value in list(globals().items()) if name.startswith("test_")})
sys.exit(run.main(["--without-program", "test_one_that_"], [module]))
"""
CRASHES = """
import os, signal, subprocess, sys, time, types
_, tests, folder, *words = sys.argv
sys.path.insert(0, tests)
import run, checks, side_by_side

side_by_side.LONGEST_TEST = int(os.environ["MOST"] or side_by_side.LONGEST_TEST)

def leave(name):
    with open(f"{folder}/{name}.new", "w") as file:
        file.write(str(subprocess.Popen(["sleep", "600"], start_new_session=True).pid))
    os.rename(f"{folder}/{name}.new", f"{folder}/{name}")

def test_one_that_is_killed():
    checks.expect("before the signal", 1, 1)
    leave("killed")
    os.kill(os.getpid(), signal.SIGKILL)

def test_one_that_leaves_its_process():
    checks.expect("before the end", 1, 1)
    os._exit(0)

def test_one_that_leaves_with_a_status():
    os._exit(7)

def test_one_that_leaves_a_process():
    leave("left")
    checks.expect("one that passes", 1, 1)

def test_one_that_has_a_long_fault():
    checks.expect("a long fault " + "x" * 200000, 1, 2)

def test_one_that_waits_for_another():
    open(f"{folder}/one", "w").close()
    checks.wait_until("the other", lambda: os.path.exists(f"{folder}/other"))
    checks.expect("the one", 1, 1)

def test_one_that_is_the_other():
    open(f"{folder}/other", "w").close()
    checks.wait_until("the one", lambda: os.path.exists(f"{folder}/one"))
    checks.expect("the other", 1, 1)

def test_one_that_hears_an_interrupt():
    checks.expect("an interrupt", subprocess.run(["sh", "-c", "kill -INT $$"]).returncode, -signal.SIGINT)

def test_that_goes_on():
    leave("goes_on")
    time.sleep(600)

def test_that_goes_on_too():
    leave("goes_on_too")
    subprocess.run(["sleep", "600"])

module = types.ModuleType("module")
vars(module).update({name: value for name, value in list(globals().items()) if name.startswith("test_")})
sys.exit(run.main(words, [module]))
"""
# a module as the tests' modules are, of which unittest runs one test by its name
OF_UNITTEST = """
import cases
from checks import expect

load_tests = cases.loaded(__name__)

def test_one_that_passes():
    expect("the one", 1, 1)

def test_one_that_fails():
    expect("the one", 1, 2)
    expect("the other", "a", "b")
"""


def test_without_the_program():
    """Those that ask the program are left out, and count neither way."""
    done = subprocess.run([sys.executable, "-c", ASKS, HERE, "-"], capture_output=True, text=True, check=False,
                          env={**os.environ, "KUBELET_REPLAY": "/nonexistent/program"})
    said = [line for line in done.stdout.splitlines() if not line.startswith(" ")]
    expect("tests without the program", (done.returncode, said),
           (1, ["FAILED one that fails", "left out, since they ask the program: 1", "1 passed, 1 failed"]))


def test_that_a_test_ends_alone():
    """One that raises fails, what it has started is ended, and the tests after it run."""
    folder = tempfile.mkdtemp()
    with open(f"{folder}/replay", "w", encoding="utf-8") as file:
        file.write("#!/bin/sh\necho node n1 pods=0 ticks=0\n")
    os.chmod(f"{folder}/replay", 0o755)
    done = subprocess.run([sys.executable, "-c", FAILS, HERE, f"{folder}/pid"], capture_output=True, text=True,
                          check=False, env={**os.environ, "KUBELET_REPLAY": f"{folder}/replay", "TMPDIR": folder})
    expect("tests that raise", (done.returncode, done.stdout.splitlines()[-1:]), (1, ["1 passed, 4 failed"]))
    expect("tests that raise: what is said",
           sorted(line for line in done.stdout.splitlines() if line.startswith("FAILED")),
           ["FAILED test_one_that_exits: ended by SystemExit", "FAILED test_one_that_raises: ended by IndexError",
            "FAILED the one", "FAILED the third"])
    expect("tests that raise: what they took", "the longest: test_one_that_" in done.stderr, True)
    with open(f"{folder}/pid", encoding="ascii") as file:
        started = file.read()
    wait_until("the end of what a test has started", lambda: not is_there(started))
    expect("tests that raise: what they leave", sorted(os.listdir(folder)), ["pid", "replay"])
    shutil.rmtree(folder)


class Room:
    """A folder with a program that writes reports, in which tests run and leave what they have started."""

    def __init__(self):
        self.path = tempfile.mkdtemp()
        with open(f"{self.path}/replay", "w", encoding="utf-8") as file:
            file.write("#!/bin/sh\necho node n1 pods=0 ticks=0\n")
        os.chmod(f"{self.path}/replay", 0o755)
        os.mkdir(f"{self.path}/left")
        os.mkdir(f"{self.path}/rooms")

    def start(self, *words, hears=signal.SIG_DFL, most=""):
        return subprocess.Popen([sys.executable, "-c", CRASHES, HERE, f"{self.path}/left", *words],
                                stdout=subprocess.PIPE, stderr=subprocess.PIPE, text=True,
                                env={**os.environ, "KUBELET_REPLAY": f"{self.path}/replay", "MOST": most,
                                     "TMPDIR": f"{self.path}/rooms"},
                                preexec_fn=lambda: signal.signal(signal.SIGINT, hears))

    def run(self, *words, **how):
        process = self.start(*words, **how)
        told, said = process.communicate(timeout=2 * LONGEST)
        return process.returncode, told.splitlines(), said

    def is_left(self, name):
        """Whether what a test has started is still there."""
        return is_there(read(f"{self.path}/left/{name}"))

    def clean(self):
        expect("tests: no folder of theirs is left", os.listdir(f"{self.path}/rooms"), [])
        shutil.rmtree(self.path)


def test_that_a_crash_ends_alone():
    """A test that ends its process fails, what it counted before counts, what it has started ends, and the tests after
    it run; so does what one that passes has left."""
    for jobs in ("1", "3"):
        room = Room()
        status, told, said = room.run("--jobs", jobs, "test_one_that_is_killed", "test_one_that_leaves",
                                      "test_one_that_has")
        expect(f"{jobs} at a time: tests that crash", (status, told[-1:]), (1, ["3 passed, 4 failed"]))
        expect(f"{jobs} at a time: what is said", sorted(line for line in told if line.startswith("FAILED")), [
            f"FAILED a long fault {'x' * 200000}",
            "FAILED test_one_that_is_killed: its process was ended by SIGKILL",
            "FAILED test_one_that_leaves_its_process: its process ended with status 0",
            "FAILED test_one_that_leaves_with_a_status: its process ended with status 7"])
        expect(f"{jobs} at a time: what they took", "the longest: test_one_that_" in said, True)
        expect(f"{jobs} at a time: what is left", [room.is_left(name) for name in ("killed", "left")], [False, False])
        room.clean()


def test_side_by_side():
    """Two tests that wait for each other end where two run at a time, also those that are chosen by their module."""
    room = Room()
    for words in (["-j", "2", "the_other", "for_another"], ["--jobs", "9", "module.test_one_that_is_the", "another"]):
        status, told, said = room.run(*words)
        expect(f"tests {' '.join(words)}", (status, told[-1:]), (0, ["2 passed, 0 failed"]))
        shutil.rmtree(f"{room.path}/left")
        os.mkdir(f"{room.path}/left")
    room.clean()


def test_an_interrupt_ends_all():
    """An interrupt ends the run with each test that runs and what these have started; so they end where the run itself
    is killed, which leaves its folder."""
    for number in (signal.SIGINT, signal.SIGTERM, signal.SIGKILL):
        room = Room()
        names = ("goes_on", "goes_on_too")
        process = room.start("--jobs", "2", "test_that_goes_on")
        wait_until("the tests", lambda: all(os.path.exists(f"{room.path}/left/{name}") for name in names))
        process.send_signal(number)
        told, said = process.communicate(timeout=LONGEST)
        killed = number == signal.SIGKILL
        told = re.sub(r"after \d+ s", "after N s", told)
        ran = [f"not ended yet: test_that_{name}, after N s" for name in names]
        ran.append("0 of 2 tests ran: 0 passed, 0 failed")
        expect(f"a run ended by {number.name}", (process.returncode, told.splitlines(), said), (
            -number if killed else 128 + number, [] if killed else ran,
            "" if killed else f"tools/test: ended by {number.name}\n"))
        wait_until("the end of what the tests have started", lambda: not any(map(room.is_left, names)))
        if killed:
            shutil.rmtree(f"{room.path}/rooms")
            os.mkdir(f"{room.path}/rooms")
        room.clean()


def test_a_test_that_takes_too_long():
    """It is named, and ended with what it has started; the others count."""
    room = Room()
    status, told, _ = room.run("--jobs", "2", "test_that_goes_on_too", "hears_an_interrupt", most="1")
    expect("a test that takes too long", (status, told[-2:]), (1, [
        "FAILED test_that_goes_on_too: ended after 1 s, the most that a test may take", "1 passed, 1 failed"]))
    wait_until("the end of what it has started", lambda: not room.is_left("goes_on_too"))
    room.clean()


def test_a_run_in_the_background():
    """A test hears an interrupt, also where the run does not, as one that a shell has begun in the background."""
    room = Room()
    status, told, said = room.run("hears_an_interrupt", hears=signal.SIG_IGN)
    expect("tests in the background", (status, told), (0, ["1 passed, 0 failed"]))
    room.clean()


def test_words_of_the_run():
    """Words that there are not are rejected, and names that no test has; the ones that run first are tests."""
    for words, said in ((["--jobs", "0"], "it takes a whole number from 1 on"), (["--jobs", "x"], "it takes a whole"),
                        (["--write", "--without-program"], "not allowed with"), (["--all"], "unrecognized"),
                        (["test_of_nothing"], "there is no test with test_of_nothing in its name")):
        status, told, refused = run([f"{HERE}/../test", *words])
        expect(f"tools/test {' '.join(words)}", (status, told, said in refused), (2, "", True))
    known = {test.whole_name for module in modules() for test in cases.tests_in(module)}
    first = read(f"{HERE}/longest").split()
    expect("the tests that run first", ([name for name in first if name not in known], len(set(first))),
           ([], len(first)))


def test_of_unittest():
    """Each test is one of unittest's, which runs one by its name, and each check that fails is reported."""
    with tempfile.TemporaryDirectory() as folder:
        with open(f"{folder}/test_made.py", "w", encoding="utf-8") as file:
            file.write(OF_UNITTEST)
        for words, status, failures in ((["-k", "*passes"], 0, 0), (["-k", "test_one_that_fails"], 1, 2), ([], 1, 2)):
            done = subprocess.run([sys.executable, "-m", "unittest", *words, "test_made"], capture_output=True,
                                  text=True, check=False, cwd=folder,
                                  env={**os.environ, "PYTHONPATH": HERE, "TMPDIR": folder})
            expect(f"unittest {' '.join(words)}", (done.returncode, done.stderr.count("cases.Differs: the "),
                                                   f"Ran {1 if words else 2} test" in done.stderr),
                   (status, failures, True))
