"""Compares the program with a plain Rust program, bench/baseline, that reads each line of the same trace into a tree of
JSON and drops it: four traces of bench/measure traces with 1, 2 and 4 workers, and two more for the slope over the
ticks. It prints a section on it. If the report of 1 worker differs from another report, it ends with status 1; the
section lists the aims that do not hold. Run nothing else meanwhile; it takes some minutes.
"""
import filecmp
import glob
import os
import re
import shutil
import subprocess
import sys
import tempfile

import processes
import script
import timing
from measures import traces
from script import TOP
from speed_page import NO_WORKERS, SLOPE, TRACES, Machine, Measured, Trace, counts_in
from speed_page import text_of, with_section

PAGE = "docs/PERF.md"
REGISTRY = "/usr/share/cargo/registry"
ROUNDS, LONGEST = 5, 300
BASELINE = "baseline/target/release/baseline"


class Runs:
    """Runs of the program and of the baseline. A child's peak of memory is at least what this script had when it began
    the child, so texts stay in files. Hyperfine measures each run by itself and not one command after the other: so the
    programs take turns, and what else the machine does meets all of them."""

    def __init__(self, program, work):
        self.program, self.work = program, work

    def path(self, name):
        return os.path.join(self.work, name)

    def run(self, words, output):
        """The seconds and the peak memory in bytes of a run."""
        took = timing.run(words, output, LONGEST)
        if took.status != 0:
            late = f", after {LONGEST} seconds" if took.late else ""
            raise script.Fault(f"{' '.join(words)} ended with {took.status}{late}")
        return took.seconds, took.peak

    def replay(self, trace, workers):
        """A run of the program, or of the baseline; ends the script if the report is not the one of 1 worker."""
        path, alone = self.path(trace + ".trace"), self.path(trace + ".report")
        if workers == NO_WORKERS:
            return self.run([self.path(BASELINE), path], self.path(trace + ".lines"))
        output = self.path("report") if os.path.exists(alone) else alone
        took = self.run([self.program, "run", path, "--workers", str(workers)], output)
        if not filecmp.cmp(alone, output, shallow=False):
            raise script.Fault(f"the report of {trace} with workers={workers} is not the report of 1 worker")
        return took

    def trace(self, name):
        """What a trace has, by its file, the report of 1 worker, and the baseline's answer, which is its lines."""
        with open(self.path(name + ".report"), encoding="utf-8") as report:
            counts, lines = counts_in(report), None
        if name in TRACES:
            with open(self.path(name + ".lines"), encoding="ascii") as answer:
                lines = int(answer.read())
        return Trace(*counts, os.path.getsize(self.path(name + ".trace")), lines)

    def measure(self):
        """The figures of all traces with each number of workers. The programs take turns."""
        _, floor = self.run(["true"], self.path("report"))
        measured = [(trace, 1) for trace in SLOPE[:-1]]
        measured += [(trace, workers) for trace in TRACES for workers in (1, NO_WORKERS, 2, 4)]
        runs = {key: [] for key in measured}
        for number in range(1, ROUNDS + 1):
            for key in measured:
                runs[key].append(self.replay(*key))
            print(f"bench/measure speed: round {number} of {ROUNDS}", file=sys.stderr, flush=True)
        seconds = {key: min(took for took, _ in some) for key, some in runs.items()}
        peaks = {key: max(peak for _, peak in some) for key, some in runs.items()}
        return Measured({name: self.trace(name) for name in {*TRACES, *SLOPE}}, ROUNDS, seconds, peaks, floor)


def prepare(work):
    """Builds the baseline, and writes the traces."""
    shutil.copytree(f"{TOP}/bench/baseline", f"{work}/baseline")
    words = ["cargo", "build", "--release", "--offline", "--target-dir", "target"]
    built = subprocess.run(words, cwd=f"{work}/baseline", stdin=subprocess.DEVNULL, stdout=subprocess.PIPE,
                           stderr=subprocess.STDOUT, text=True, check=False)
    if built.returncode != 0:
        print(built.stdout, end="", file=sys.stderr)
        raise script.Fault("the baseline was not built")
    traces.write_into(work, traces.of_speed())


def machine(work):
    compiler = " ".join(script.output_of(["rustc", "--version"]).split()[:2])
    with open(f"{work}/baseline/Cargo.lock", encoding="utf-8") as lock:
        reader = re.search(r'name = "serde_json"\nversion = "(.*)"', lock.read())[1]
    return Machine(processes.machine(), script.output_of(["rt", "version"]).strip(), compiler, reader)


def add_to(arguments):
    arguments.add_argument("--write", action="store_true", help=f"write the section into {PAGE} instead")
    script.add_program(arguments)


def main(given):
    script.need(rt="the Rattle kit is missing: put its command rt on the PATH",
                cargo="cargo is missing; it builds the baseline", hyperfine=timing.MISSING)
    if not glob.glob(f"{REGISTRY}/serde_json-*"):
        raise script.Fault("Debian's serde_json is missing: apt-get install librust-serde-json-dev", 127)
    program = script.program_in(given)
    with tempfile.TemporaryDirectory() as work:
        print("bench/measure speed: builds the baseline and writes the traces, then measures "
              f"{given.program or script.BUILT}", file=sys.stderr)
        prepare(work)
        text = text_of(Runs(program, work).measure(), machine(work))
    if given.write:
        with open(f"{TOP}/{PAGE}", encoding="utf-8") as file:
            page = file.read()
        script.write(f"{TOP}/{PAGE}", with_section(page, text))
        print(f"{PAGE} is written")
    else:
        print(text, end="")
