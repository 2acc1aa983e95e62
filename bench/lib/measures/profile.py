"""Prints what the program's instructions are spent on: runs it under callgrind, with 1 worker, over a small trace of
each kind of bench/measure traces, and prints the share of each group of functions and the most expensive functions.

A function belongs to the crate that its symbol begins with. What the compiler inlined into a function counts as that
function. A function of the standard library counts as its callers, by how much each has it do.
"""
import subprocess
import sys
import tempfile

import script
from callgrind import Profile
from crates import below_of
from measures import traces
from profile_tables import tables
from script import TOP

TRACES = ("small_pods", "small_ticks", "small_lines")


def costs_of(program, trace, work):
    """The file that callgrind writes of a run over the trace."""
    costs, log = f"{work}/{trace}.costs", f"{work}/{trace}.log"
    words = ["valgrind", "--tool=callgrind", f"--callgrind-out-file={costs}",
             program, "run", f"{work}/{trace}.trace", "--workers", "1"]
    with open(f"{work}/{trace}.report", "wb") as report, open(log, "wb") as said:
        done = subprocess.run(words, stdin=subprocess.DEVNULL, stdout=report, stderr=said, check=False)
    if done.returncode != 0:
        with open(log, encoding="utf-8", errors="replace") as said:
            print(said.read(), end="", file=sys.stderr)
        raise script.Fault(f"the run over {trace} failed")
    return costs


def profile_of(costs, ours):
    with open(costs, encoding="utf-8", errors="replace") as lines:
        return Profile(lines, ours)


def add_to(arguments):
    script.add_program(arguments)


def main(given):
    script.need(valgrind="valgrind is missing; callgrind is a part of it")
    program, ours = script.program_in(given), below_of(TOP)
    print(f"bench/measure profile: callgrind runs {program} over {' '.join(TRACES)}", file=sys.stderr)
    with tempfile.TemporaryDirectory() as work:
        traces.write_into(work, TRACES)
        costs = {trace: costs_of(program, trace, work) for trace in TRACES}
        for line in tables({trace: profile_of(file, ours) for trace, file in costs.items()}):
            print(line)
