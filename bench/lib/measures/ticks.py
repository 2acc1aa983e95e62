"""Measures what a tick costs. The seconds are the least of three runs. The traces are

- one pod with one container, 2,000 and 20,000 ticks;
- 256 pods of which the ticks show nothing, 1,000 and 5,000 ticks: what a tick costs a pod in memory;
- 20 pods (2,000 and 20,000 ticks) and 256 (100 and 1,000) with thresholds, signals and usage that change in every tick,
  so that each tick ranks each pod again;
- one pod on a node with a pause after each eviction and pressure in each tick, 2,000 and 20,000 ticks.
"""
import os
import tempfile

import processes
import script
import timing
from ticks_traces import one_pod, paused_pod, ranked_pods, unseen_pods

PODS = 256


class Replays:
    """Runs of the program over a trace, which is in a file: a child's peak of memory is at least what this script
    had when it began the child, so texts stay in files."""

    def __init__(self, program, folder):
        self.program, self.trace = program, os.path.join(folder, "trace")

    def write(self, lines):
        """Writes the trace, and gives its bytes."""
        with open(self.trace, "w", encoding="ascii") as file:
            return sum(file.write(line + "\n") for line in lines)

    def peak(self):
        """The peak memory of a run in bytes."""
        with open(self.trace, "rb") as given:
            cost = processes.run([self.program], given)
        if cost.status != 0:
            raise script.Fault(f"the program ended with {cost.status}")
        return cost.peak

    def seconds(self, *words):
        return timing.seconds_of([self.program, *words], self.trace)


def show_one_pod(replays):
    print(f"{'ticks':>6} {'bytes':>10} {'seconds':>8} {'MB/s':>7} {'peak MB':>8}")
    for ticks in (2_000, 20_000):
        size = replays.write(one_pod(ticks))
        peak, seconds = replays.peak(), replays.seconds()
        print(f"{ticks:>6} {size:>10} {seconds:>8.2f} {size / 1e6 / seconds:>7.1f} {peak / 1e6:>8.1f}", flush=True)


def show_unseen_pods(replays):
    for containers in (1, 2, 3, 16):
        peaks = []
        for ticks in (1_000, 5_000):
            replays.write(unseen_pods(PODS, containers, ticks))
            peaks.append(replays.peak())
        cost = (peaks[1] - peaks[0]) / (4_000 * PODS)
        print(f"{PODS} pods with containers={containers}: a tick costs a pod {cost:.0f} bytes at the peak", flush=True)


def show_ranked_pods(replays):
    print(f"{'pods':>6} {'ticks':>6} {'seconds':>8} {'microseconds a pod and tick':>28}")
    for pods, ticks in ((20, 2_000), (20, 20_000), (256, 100), (256, 1_000)):
        replays.write(ranked_pods(pods, ticks))
        seconds = replays.seconds()
        print(f"{pods:>6} {ticks:>6} {seconds:>8.2f} {1e6 * seconds / (pods * ticks):>28.2f}", flush=True)


def show_paused_pod(replays):
    for ticks in (2_000, 20_000):
        replays.write(paused_pod(ticks))
        seconds = replays.seconds("run", "/dev/stdin", "--extended")
        each = 1e6 * seconds / ticks
        print(f"{ticks} ticks under pressure, with a pause: {each:.2f} microseconds a tick", flush=True)


def add_to(arguments):
    script.add_program(arguments)


def main(given):
    script.need(hyperfine=timing.MISSING)
    program = script.program_in(given)
    with tempfile.TemporaryDirectory() as folder:
        replays = Replays(program, folder)
        show_one_pod(replays)
        show_unseen_pods(replays)
        show_ranked_pods(replays)
        show_paused_pod(replays)
