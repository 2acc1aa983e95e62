"""Writes into a new folder the tree that the work on speed began with, and over it the workloads and what they need, so
that bench/run can compare it with another checkout. After it, on a machine that does nothing else:

  (cd crates/replay_workloads && rt run -- run crash_loops 60 2 2 1)     # proves and builds this checkout's program
  bench/run FOLDER . SEED
"""
import os
import shutil
import subprocess

import script
from crates import read_crates
from script import TOP

START = "426f8fa82a2969b931478781f4430a0f674b1b27"
PROGRAM = "replay_workloads"
WORDS = ("run", "crash_loops", "60", "2", "2", "1")


def git(*words):
    done = subprocess.run(["git", *words], stdin=subprocess.DEVNULL, capture_output=True, text=True, check=False)
    if done.returncode != 0:
        raise script.Fault(f"git {' '.join(words)}: {done.stderr.strip()}")


def needed(top, there):
    """The crates that the workloads depend on and the start lacks, callees first, and the workloads' own."""
    below = {crate.name: crate.below for crate in read_crates(top)}
    return [name for name in below if name not in there and (name == PROGRAM or name in below[PROGRAM])]


def line_of(top, name):
    """The crate's own line in crates.txt."""
    with open(os.path.join(top, "crates.txt"), encoding="utf-8") as file:
        return next(line for line in file if line.startswith(f"{name}:"))


def lay(top, folder, commit=START):
    """Writes the tree of a commit with the workloads over it; what was done, line by line."""
    if os.path.exists(folder):
        raise script.Fault(f"{folder} is there already", 2)
    git("clone", "--quiet", "--no-checkout", top, folder)
    git("-C", folder, "checkout", "--quiet", commit)
    yield f"{folder}: the tree of {commit}"
    shutil.rmtree(os.path.join(folder, "bench"), ignore_errors=True)
    shutil.copytree(os.path.join(top, "bench"), os.path.join(folder, "bench"))
    yield "over it: bench/ of this checkout"
    path = os.path.join(folder, "crates.txt")
    with open(path, encoding="utf-8") as file:
        there = {line.partition(":")[0] for line in file}
    for name in needed(top, there):
        shutil.copytree(os.path.join(top, "crates", name), os.path.join(folder, "crates", name),
                        ignore=shutil.ignore_patterns("out"))
        with open(path, "a", encoding="utf-8") as file:
            file.write(line_of(top, name))
        yield f"over it: crates/{name} of this checkout, and its line of crates.txt"


def prove(folder):
    crate = os.path.join(folder, "crates", PROGRAM)
    if subprocess.run(["rt", "run", "--", *WORDS], cwd=crate, stdin=subprocess.DEVNULL, check=False).returncode != 0:
        raise script.Fault(f"the program of {crate} was not proved and built")


def add_to(arguments):
    arguments.add_argument("--prove", action="store_true",
                           help="also prove and build its program: an hour and more of processor time")
    arguments.add_argument("folder", metavar="FOLDER", help="a folder that is not there yet")


def main(given):
    for line in lay(TOP, given.folder):
        print(line, flush=True)
    if given.prove:
        prove(given.folder)
        print(f"built: {os.path.join(given.folder, 'crates', PROGRAM, 'out', PROGRAM)}")
