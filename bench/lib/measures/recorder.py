"""Measures what a recorder that is always on costs: `kubelet-replay record --into` next to a made-up node. The node has
30 pods with a container and two probes each, one of which crashes every two minutes. Its answers are as long as a real
kubelet's and come by TLS, and its crictl only prints. It prints the processor seconds of a minute, the recorder's and
crictl's, the peak of its memory, and the size of a trace of an hour. It needs openssl.
"""
import argparse
import glob
import os
import signal
import subprocess
import tempfile
import time

import quiet_node
import script
from script import TOP

# pods, and the settings in the environment of each
QUIET, LARGE = (30, 1), (250, 250)
HOUR = 3600


def spent(process):
    """The processor seconds of a child that runs, and of those below it that it has waited for; and its peak, in
    bytes."""
    with open(f"/proc/{process.pid}/stat", encoding="ascii") as file:
        fields = file.read().rpartition(")")[2].split()
    ticks = os.sysconf("SC_CLK_TCK")
    with open(f"/proc/{process.pid}/status", encoding="ascii") as file:
        peak = next(line for line in file if line.startswith("VmHWM"))
    own, below = (sum(map(int, fields[place:place + 2])) / ticks for place in (11, 13))
    return own, below, int(peak.split()[1]) * 1024


def measured(node, seconds, words, folder):
    """Runs the recorder for some seconds: what it spent, and the bytes of its trace as lines and packed."""
    pods, settings = node
    stands, traces = quiet_node.Stands(pods, folder, settings), os.path.join(folder, "traces")
    os.mkdir(traces, 0o755)
    recorder = subprocess.Popen([os.path.join(TOP, "tools/record"), "--node", "worker-1", "--into", traces,
                                 "--kubelet", stands.url, "--curl", f"{folder}/curl", *words],
                                env={**os.environ, "PATH": f"{folder}:{os.environ['PATH']}"})
    try:
        time.sleep(seconds)
        if recorder.poll() is not None:
            raise script.Fault("the recorder ended by itself")
        found = spent(recorder)
        parts = sum(map(os.path.getsize, glob.glob(f"{traces}/*.part")))
        recorder.send_signal(signal.SIGTERM)
        recorder.wait()
        return *found, parts, sum(map(os.path.getsize, glob.glob(f"{traces}/*.gz")))
    finally:
        recorder.kill()
        recorder.wait()
        stands.end()


def add_to(arguments):
    arguments.add_argument("--large", action="store_true",
                           help="250 pods, whose environment is so long that /pods has 7 MB")
    arguments.add_argument("seconds", nargs="?", type=script.whole_number(1), default=600, metavar="SECONDS",
                           help="how long to record (600)")
    arguments.add_argument("options", nargs=argparse.REMAINDER, metavar="OPTION ..",
                           help="options of kubelet-replay record")


def main(given):
    script.need(openssl="openssl is missing; the kubelet has a certificate")
    node, seconds, options = LARGE if given.large else QUIET, given.seconds, given.options
    with tempfile.TemporaryDirectory() as folder:
        own, below, peak, lines, packed = measured(node, seconds, options, folder)
    print(f"{node[0]} pods, {seconds} s, {' '.join(options) or 'no options'}")
    print(f"processor seconds a minute: {60 * own / seconds:.2f} of the recorder, {60 * below / seconds:.2f} of crictl")
    print(f"peak of memory: {peak / 1e6:.1f} MB")
    print(f"an hour: {HOUR * lines / seconds / 1e6:.2f} MB of lines, {HOUR * packed / seconds / 1e3:.0f} kB packed")
