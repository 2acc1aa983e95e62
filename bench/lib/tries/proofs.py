"""Proves what a change of these crates needs: they, and what depends on them up to replay_program, callees first, without
mutants, tests and the crates of tests. It ends at the first that is not proved, with the last lines of `rt check`. Then,
as at its end, it prints what is left to do before the gate. `./test --proofs NAME..` is the same.
"""
import argparse
import os
import subprocess
import time

import crates
import script

PROGRAM = "replay_program"
LAST_LINES = 15


def standing_above(below, names):
    """The crates of these names, and those that depend on one of them and that the program depends on, in their
    order."""
    on_way = crates.standing_below(below, PROGRAM)
    return [name for name in below
            if name in names or name in on_way and crates.standing_below(below, name) & names]


def check(top, name):
    """Whether `rt check` proves the crate; if it doesn't, prints the end of its output."""
    done = subprocess.run(["rt", "check"], cwd=os.path.join(top, "crates", name), stdin=subprocess.DEVNULL,
                          stdout=subprocess.PIPE, stderr=subprocess.STDOUT, text=True, errors="replace", check=False)
    if done.returncode:
        print(*done.stdout.splitlines()[-LAST_LINES:], sep="\n")
    return done.returncode == 0


def prove(top, names, clock=time.monotonic):
    """How many of these crates are proved, up to the first that is not."""
    for count, name in enumerate(names):
        begun = clock()
        is_proved = check(top, name)
        print(f"{name} {'proved' if is_proved else 'NOT PROVED'} in {clock() - begun:.0f} s", flush=True)
        if not is_proved:
            return count
    return len(names)


def print_left(below, changed, names, count):
    """Prints what is left to do: crates that wait, and what no check of a crate tries."""
    if count < len(names):
        print("left, as proofs:", *names[count:])
    tests = [name for name in below if name not in names and crates.standing_below(below, name) & changed]
    print("left, as tests:", *tests)
    print("left: rt must-fail", *sorted(changed), "and ./test")


def add_to(arguments):
    arguments.add_argument("--list", action="store_true", help="prove nothing, and print which crates it would be")
    arguments.add_argument("--top", default=script.TOP, help=argparse.SUPPRESS)
    arguments.add_argument("names", nargs="+", metavar="NAME", help="a crate that was changed")


def main(given):
    try:
        below = crates.below_of(given.top)
    except (OSError, ValueError) as fault:
        raise script.Fault(fault) from fault
    changed = set(given.names)
    if unknown := sorted(changed - set(below)):
        raise script.Fault(f"there is no crate {unknown[0]}", 2)
    names = standing_above(below, changed)
    if given.list:
        print(*names, sep="\n")
        return 0
    count = prove(given.top, names)
    print_left(below, changed, names, count)
    return 1 if count < len(names) else 0
