"""Replays regular traces at the limits, by one worker and by several in threads, and compares each report with the report
that the rules give, which bench/lib/edges_traces.py works out: 256 pods by 300 ticks, so that many workers have
something to do; one pod and two by 20,000 ticks; a million events; and 256 pods by 20,000 ticks, as many updates as
there may be. So it also finds an allocation that the program fails by itself, of which no clause promises anything.
Then it replays texts of long lines and of many windows of lines, and compares the report or the first fault with what
bench/lib/edges_texts.py expects of them. The last line shows how many runs there were.
"""
import os
import tempfile

import processes
import script
from differences import first_difference
from edges_texts import texts
from edges_traces import Edge, report_parts, trace_lines

EDGES = (
    # a round takes 128 ticks of 256 pods, and is worth 32 workers
    (Edge(256, 300, periods=(3, 4, 5, 6, 10, 12)), (1, 3, 64)),
    (Edge(1, 20_000, periods=(20,)), (1, 4)),
    (Edge(2, 20_000, 2, periods=(20, 25)), (1, 4)),
    (Edge(256, 128, 16, periods=(2,), exited=1), (1, 4)),
    (Edge(256, 20_000), (1, 64)),
)
LONGEST = 600
"""seconds that a run may take"""


def fault_of(program, folder, words, wanted=""):
    """What is wrong with a run over the trace in this folder, if anything is. The report is needed, or this fault."""
    trace, report, written, said = (os.path.join(folder, name) for name in ("trace", "report", "written", "said"))
    with open(written, "wb") as output, open(said, "wb") as errors:
        cost = processes.run([program, "run", trace, *words], written=output, said=errors, longest=LONGEST)
    with open(said, encoding="utf-8", errors="replace") as errors:
        told = " ".join(errors.read(200).split())
    if (cost.status, told) != (2 if wanted else 0, wanted):
        late = f", after {LONGEST} seconds" if cost.late else ""
        return f"status {cost.status}{late}, '{told}'"
    with open(report, "rb") as expected, open(written, "rb") as output:
        return first_difference(expected, output)


def run_all(program, name, trace, report, all_words, wanted=""):
    """How many of the runs are otherwise than expected, and the bytes of the trace. Texts stay in files, since they are
    large."""
    bad = 0
    with tempfile.TemporaryDirectory() as folder:
        with open(os.path.join(folder, "trace"), "w", encoding="ascii") as file:
            size = sum(map(file.write, trace))
        with open(os.path.join(folder, "report"), "w", encoding="ascii") as file:
            file.writelines(report)
        for words in all_words:
            if fault := fault_of(program, folder, words, wanted):
                print(f"{name} {' '.join(words)}: {fault}", flush=True)
                bad += 1
    return bad, size


def by_workers(all_workers, *words):
    return [("--workers", str(workers), *words) for workers in all_workers]


def run_edge(program, edge, all_workers):
    """How many of the runs over a trace at the limits are otherwise than expected."""
    name = f"pods={edge.pods} ticks={edge.ticks} containers={edge.containers}"
    lines = (line + "\n" for line in trace_lines(edge))
    bad, size = run_all(program, name, lines, report_parts(edge), by_workers(all_workers))
    print(f"{name}: {size} bytes, {edge.pods * edge.ticks} updates, {edge.events()} events", flush=True)
    return bad


def run_text(program, text):
    """How many of the runs over a text are otherwise than expected."""
    words = by_workers(text.workers, *text.words)
    return run_all(program, text.name, text.parts, text.report, words, text.said)[0]


def add_to(arguments):
    script.add_program(arguments)


def main(given):
    program = script.program_in(given)
    bad = sum(run_edge(program, edge, all_workers) for edge, all_workers in EDGES)
    runs = sum(len(all_workers) for _, all_workers in EDGES)
    for text in texts():
        bad += run_text(program, text)
        runs += len(text.workers)
    print(f"{runs} runs at the limits, {bad} otherwise than expected")
    return 1 if bad else 0
