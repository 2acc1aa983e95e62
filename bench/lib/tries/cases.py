"""Gives the cases of crates/case_runner/data to the program, and compares its output, its status and its line on standard
error. A case is one of these:

- a trace traces/FAMILY/NAME.trace, next to NAME.report, the bytes of the report, or NAME.refusal, the status and the
  line. A trace or a report may be packed, as NAME.trace.xz
- a row of lines/NAME.table: the last line of a trace, which comes after the lines of NAME.before, a tab, and the answer
  to it, or 'accepted'

The program replays each trace with 1, 2, 3, 4 and 64 workers in threads, and as simulated schedules of one worker and
of some lists of steps. It also reads the trace without a replay. All of these have to give the one answer, each within
a minute. The families `extended` and `stretches` are read in the extended format; in nearly each case of `stretches`
there are so many updates that threads start for them. The file `counts` has how many cases there are, so that none is
lost. The last line shows how many runs there were.
"""
import multiprocessing
import os
import tempfile

import script
from case_files import cases_of, counts_of
from case_runs import Runs, write_steps
from script import TOP

DATA = os.path.join(TOP, "crates/case_runner/data")


def add_to(arguments):
    script.add_program(arguments)
    arguments.add_argument("folder", nargs="?", metavar="FOLDER", default=DATA,
                           help="a folder with other cases, laid out in the same way")


def main(given):
    program, cases = script.program_in(given), cases_of(given.folder)
    runs = bad = 0
    with tempfile.TemporaryDirectory() as folder, multiprocessing.Pool() as pool:
        write_steps(folder)
        for made, differing in pool.imap(Runs(program, folder), cases, chunksize=8):
            runs, bad = runs + made, bad + len(differing)
            print("".join(f"{line}\n" for line in differing), end="", flush=True)
    with open(os.path.join(given.folder, "counts"), encoding="utf-8") as file:
        if file.read() != (counts := counts_of(cases)):
            print(f"the file counts differs from what there is:\n{counts}", end="")
            bad += 1
    print(f"{runs} runs of {len(cases)} cases, {bad} otherwise than expected")
    return 1 if bad else 0
