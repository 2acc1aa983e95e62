"""Runs the tests of the tools: each with recorded answers, known reports or words alone. README.md shows what is kept
here. With `--write` it writes what the tools answer in place of what was kept, to be looked at, one by one; with
`--without-program` it leaves out the tests that ask the program; `--jobs N` has so many run at a time; other words
choose the tests whose names have one of them."""

import argparse
import glob
import importlib
import os
import signal
import subprocess
import sys
import tempfile
import time

sys.dont_write_bytecode = True
import cases
from checks import HERE, REPLAY, WITHOUT_PROGRAM, read
from side_by_side import Interrupted, Run

# the tests that took longest are named at the end
MOST_NAMED = 5
# most of a test's time is a wait; more of them at a time take the machine from each other
MOST_JOBS = 4


def modules():
    """All modules of tests, by their names."""
    names = sorted(os.path.basename(path)[:-len(".py")] for path in glob.glob(f"{HERE}/test_*.py"))
    return [importlib.import_module(name) for name in names]


def writes_reports():
    first = subprocess.run([REPLAY], input=b'{"kind":"node","name":"n1"}\n', capture_output=True, check=False)
    return first.returncode == 0 and first.stdout.startswith(b"node n1 ")


def longest_first(tests):
    """Those that are known to take long come first, so that none of them is left at the end alone."""
    names = read(f"{HERE}/longest").split()
    places = {name: place for place, name in enumerate(names)}
    return sorted(tests, key=lambda test: places.get(test.whole_name, len(names)))


def run_tests(tests, jobs):
    """Runs tests, and shows how many checks passed and failed, and what took long; the status."""
    began = time.monotonic()
    with tempfile.TemporaryDirectory(ignore_cleanup_errors=True) as room:
        os.chmod(room, 0o711)
        run = Run(room, jobs)
        try:
            run.of(longest_first(tests) if jobs > 1 else tests)
        except Interrupted:
            print(f"{len(run.seconds)} of {len(tests)} tests ran: {run.passed} passed, {run.failed} failed", flush=True)
            raise
    if WITHOUT_PROGRAM:
        print(f"left out, since they ask the program: {run.left_out}")
    longest = sorted(run.seconds.items(), key=lambda each: -each[1])[:MOST_NAMED]
    print(f"{time.monotonic() - began:.0f} s; the longest: "
          + ", ".join(f"{name.partition('.')[2]} {seconds:.0f} s" for name, seconds in longest), file=sys.stderr)
    print(f"{run.passed} passed, {run.failed} failed")
    return 1 if run.failed else 0


def number_of_jobs(text):
    if not text.isascii() or not text.isdigit() or int(text) < 1:
        raise argparse.ArgumentTypeError("it takes a whole number from 1 on")
    return int(text)


def words_of(words):
    # tools/test prints its help, also where there is no Python
    parser = argparse.ArgumentParser(prog="tools/test", add_help=False, allow_abbrev=False,
                                     usage="tools/test [--jobs N] [--write | --without-program] [NAME ..]")
    parser.add_argument("-j", "--jobs", type=number_of_jobs, metavar="N",
                        default=min(MOST_JOBS, len(os.sched_getaffinity(0))))
    kinds = parser.add_mutually_exclusive_group()
    # checks.py, which each test imports, reads these two of itself
    for name in ("--write", "--without-program"):
        kinds.add_argument(name, action="store_true")
    parser.add_argument("names", nargs="*", metavar="NAME")
    found = parser.parse_args(words)
    if found.write:
        # two tests may write into one page of docs/
        found.jobs = 1
    return found


def main(words, of_modules=None):
    asked = words_of(words)
    tests = [test for module in of_modules or modules() for test in cases.tests_in(module)]
    for name in asked.names:
        if not any(name in test.whole_name for test in tests):
            print(f"tools/test: there is no test with {name} in its name", file=sys.stderr)
            return 2
    # it may have to be built first, which takes longer than any test may
    if not WITHOUT_PROGRAM and not writes_reports():
        print(f"tools/test: {REPLAY} does not write whole reports", file=sys.stderr)
        return 1
    try:
        return run_tests([test for test in tests if not asked.names
                          or any(name in test.whole_name for name in asked.names)], asked.jobs)
    except Interrupted as interrupted:
        [number] = interrupted.args
        print(f"tools/test: ended by {signal.Signals(number).name}", file=sys.stderr)
        return 128 + number


if __name__ == "__main__":
    sys.exit(main(sys.argv[1:]))
