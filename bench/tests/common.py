"""What the tests of the scripts share: where things are, a run of a script, and a small repository to run it over."""
import importlib.machinery
import importlib.util
import os
import shutil
import subprocess
import sys
import time
import unittest

TESTS = os.path.dirname(os.path.realpath(__file__))
TOP = os.path.dirname(os.path.dirname(TESTS))
sys.path.insert(0, os.path.join(TOP, "bench/lib"))
SMALL = os.path.join(TESTS, "theorem/small")
# stand-ins
COMMANDS = os.path.join(TESTS, "commands")
PATH_WITH_COMMANDS = f"{COMMANDS}:{os.environ['PATH']}"
# seconds; a script that goes on by mistake ends all the same, and one on a machine that does much else comes to its end
LONGEST = 900


def run(script, *words, **settings):
    """The status, the output and the errors of a script of bench/, as "lint", or of a part, as "measure ticks"."""
    name, *part = script.split()
    done = subprocess.run([os.path.join(TOP, "bench", name), *part, *words], stdin=subprocess.DEVNULL,
                          capture_output=True, text=True, check=False, timeout=LONGEST, env={**os.environ, **settings})
    return done.returncode, done.stdout, done.stderr


def wait_until(holds):
    """Waits for what comes in time on a machine that is not at a standstill."""
    until = time.monotonic() + LONGEST
    while not holds():
        if time.monotonic() > until:
            raise TimeoutError(f"it did not come in {LONGEST} s")
        time.sleep(0.01)


def loaded(script):
    """A script of bench/ as a module."""
    loader = importlib.machinery.SourceFileLoader(script, os.path.join(TOP, "bench", script))
    module = importlib.util.module_from_spec(importlib.util.spec_from_loader(script, loader))
    loader.exec_module(module)
    return module


def read(*path):
    with open(os.path.join(*path), encoding="utf-8") as file:
        return file.read()


def write(text, *path):
    with open(os.path.join(*path), "w", encoding="utf-8") as file:
        file.write(text)


def lay_over(folder, copy):
    """The files of the folder in the copy, each by its name without `.text`."""
    for at, _, names in os.walk(folder):
        room = os.path.join(copy, os.path.relpath(at, folder))
        os.makedirs(room, exist_ok=True)
        for name in names:
            shutil.copyfile(os.path.join(at, name), os.path.join(room, name.removesuffix(".text")))


def commands_in(room, *names):
    """A PATH with these commands of the machine alone."""
    folder = os.path.join(room, "commands")
    os.makedirs(folder)
    for name in names:
        os.symlink(sys.executable if name == "python3" else shutil.which(name), os.path.join(folder, name))
    return folder


class Case(unittest.TestCase):
    maxDiff = 2000

    def assert_wrong(self, answer, script, error):
        """The answer of a script to a wrong argument: its usage, and the error in the last line."""
        status, said, fault = answer
        self.assertEqual((status, said, fault.partition(" ")[0]), (2, "", "usage:"))
        self.assertEqual(fault.splitlines()[-1], f"bench/{script}: error: {error}")
