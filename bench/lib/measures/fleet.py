"""Writes the traces of many nodes, and measures `kubelet-replay fleet` with them.
"""
import argparse
import glob
import os

import fleet_runs
import node_traces
import script
from script import TOP

TRACES = """\
Writes COUNT traces into FOLDER, which SEED settles; the program rejects every twentieth. With at most TICKS ticks of
10 s, a quarter of them at least, they have some 130 KB.
"""
MEASURE = """\
Runs `kubelet-replay fleet` over the traces of FOLDER with 1, 2 and 4 processes, and once more with 4, where it ends the
run in the middle and begins it again. Then it runs it with 1, 2 and 4 workers of Dask distributed on loopback, and with
4 workers of which it ends one by its id once a quarter of the traces is done. For each run it prints the seconds, the
seconds of processors and the peak memory of the largest process; scheduler and workers are among the processes. It ends
with status 1 if a database is not the same as the database of one process, byte for byte. It starts and ends its own
scheduler and workers.
"""


def write_traces(folder, count, seed, most_ticks):
    os.makedirs(folder, exist_ok=True)
    for number in range(count):
        with open(os.path.join(folder, f"worker-{number:05}.trace"), "w", encoding="ascii") as file:
            file.write(node_traces.trace(seed, number, most_ticks))


def add_to(arguments):
    parts = arguments.add_subparsers(dest="part", required=True, metavar="traces | measure")
    shape = {"formatter_class": argparse.RawDescriptionHelpFormatter}
    traces = parts.add_parser("traces", help="write the traces", description=TRACES, **shape)
    traces.add_argument("folder", metavar="FOLDER")
    traces.add_argument("count", nargs="?", type=script.whole_number(0), default=2000, metavar="COUNT",
                        help="how many (2000)")
    traces.add_argument("seed", nargs="?", type=script.whole_number(0), default=1, metavar="SEED", help="(1)")
    traces.add_argument("ticks", nargs="?", type=script.whole_number(4, 20_000), default=node_traces.MOST_TICKS,
                        metavar="TICKS", help=f"4 to 20,000 ({node_traces.MOST_TICKS})")
    measure = parts.add_parser("measure", help="measure fleet with them", description=MEASURE, **shape)
    measure.add_argument("folder", metavar="FOLDER")
    measure.add_argument("python", nargs="?", metavar="PYTHON", help="a Python that has distributed (python3)")


def main(given):
    if given.part == "traces":
        write_traces(given.folder, given.count, given.seed, given.ticks)
        return 0
    if not glob.glob(os.path.join(given.folder, "*.trace")):
        raise script.Fault(f"there are no traces in {given.folder}: bench/measure fleet traces {given.folder}", 2)
    return fleet_runs.measure(os.path.join(TOP, "tools/fleet"), given.folder, *([given.python] if given.python else []))
