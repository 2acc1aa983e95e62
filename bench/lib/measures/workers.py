"""Replays a trace of 256 pods by 500 ticks with 1, 2 and 4 workers in threads, five times each, and prints the least
seconds and the greatest peak of memory, next to the number of processors. It compares every report with the report of 1
worker, and ends with status 1 if one differs.
"""
import filecmp
import os
import sys
import tempfile

import helgrind
import processes
import script
import timing
import workers_trace

LONGEST = 600
"""seconds that a run may take"""
RUNS = 5


class Replays:
    """Runs of the program over one trace, each compared with the run of 1 worker. A child's peak of memory is at least
    what this script had when it began the child, so texts stay in files."""

    def __init__(self, program, folder):
        self.program = program
        self.trace, self.alone, self.report, self.log = (
            os.path.join(folder, name) for name in ("trace", "alone", "report", "log"))

    def write_trace(self, *size):
        with open(self.trace, "w", encoding="ascii") as text:
            text.writelines(line + "\n" for line in workers_trace.lines(*size))

    def words(self, workers):
        return [self.program, "run", self.trace, "--workers", str(workers)]

    def replay(self, workers, output, under=()):
        """A run, maybe under another program."""
        with open(output, "wb") as written:
            cost = processes.run([*under, *self.words(workers)], written=written, longest=LONGEST)
        self.check(workers, cost)

    def timed(self, workers, output):
        """The seconds and the peak memory in bytes of a run."""
        took = timing.run(self.words(workers), output, LONGEST)
        self.check(workers, took)
        return took.seconds, took.peak

    def check(self, workers, ended):
        """Ends the script where the program failed."""
        if ended.status != 0:
            late = f", after {LONGEST} seconds" if ended.late else ""
            raise script.Fault(f"with workers={workers} the program ended with {ended.status}{late}")

    def compare(self, workers, run):
        """Ends the script if the report is not the report of 1 worker."""
        if filecmp.cmp(self.alone, self.report, shallow=False):
            return
        with open(self.alone, "rb") as first, open(self.report, "rb") as second:
            number = 1
            while (line := first.readline()) == (other := second.readline()):
                number += 1
        sys.exit(f"run {run} with workers={workers} differs from 1 worker at line {number}:\n{line!r}\n{other!r}")


def measure(replays):
    """What the trace costs with each number of workers."""
    replays.write_trace(256, 500, 50)
    size, processors = os.path.getsize(replays.trace), len(os.sched_getaffinity(0))
    print(f"256 pods by 500 ticks, {size / 1e6:.1f} MB of trace; processors: {processors}")
    print(f"{'workers':>7} {'seconds':>8} {'peak MB':>8}")
    for workers in (1, 2, 4):
        costs = []
        for run in range(1, RUNS + 1):
            output = replays.alone if (workers, run) == (1, 1) else replays.report
            costs.append(replays.timed(workers, output))
            if output == replays.report:
                replays.compare(workers, run)
        seconds, peaks = zip(*costs)
        print(f"{workers:>7} {min(seconds):>8.2f} {max(peaks) / 1e6:>8.1f}", flush=True)
    print("all reports are the same")


def same(replays, runs):
    """Whether runs with few and with many workers write the same bytes, however their threads were scheduled."""
    replays.write_trace(64, 20, 5)
    replays.replay(1, replays.alone)
    for run in range(1, runs + 1):
        for workers in (4, 64):
            replays.replay(workers, replays.report)
            replays.compare(workers, run)
    size = os.path.getsize(replays.alone)
    print(f"{runs} runs with 4 workers and {runs} with 64: each report is the report of 1 worker, {size} bytes")


def under_helgrind(replays):
    """What helgrind reports of a run."""
    replays.write_trace(6, 4, 3)
    replays.replay(1, replays.alone)
    replays.replay(3, replays.report, [
        "valgrind", "--tool=helgrind", "-s", "--error-limit=no", f"--log-file={replays.log}"])
    with open(replays.log, encoding="utf-8", errors="replace") as lines:
        summary, kinds = helgrind.read_log(lines)
    print(summary or "helgrind wrote no summary")
    for kind, times in kinds.most_common():
        print(f"{times:>7} {kind}")
    replays.compare(3, 1)
    print("the report is the report of 1 worker")


def add_to(arguments):
    ways = arguments.add_mutually_exclusive_group()
    ways.add_argument("--same", action="store_true",
                      help="instead replay a trace of 64 pods by 20 ticks with 4 and with 64 workers, RUNS times each")
    ways.add_argument("--helgrind", action="store_true",
                      help="instead replay a trace of 6 pods by 4 ticks with 3 workers under helgrind, and print its "
                      "summary and how many reports it has of each kind. Helgrind knows only the locks of the C "
                      "library: it may report what another lock orders")
    arguments.add_argument("--runs", type=script.whole_number(1), default=1000, metavar="RUNS",
                           help="how often to replay with --same (1000)")
    script.add_program(arguments)


def main(given):
    if given.helgrind:
        script.need(valgrind="valgrind is missing; helgrind is a part of it")
    elif not given.same:
        script.need(hyperfine=timing.MISSING)
    program = script.program_in(given)
    with tempfile.TemporaryDirectory() as folder:
        replays = Replays(program, folder)
        if given.helgrind:
            under_helgrind(replays)
        elif given.same:
            same(replays, given.runs)
        else:
            measure(replays)
