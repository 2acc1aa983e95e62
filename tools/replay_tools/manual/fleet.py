"""The details of kubelet-replay fleet."""

from . import shared

TEXT = """\
run replays every trace that -f names: a file, a folder with *.trace and *.trace.gz at any depth, or a pattern. You
may repeat -f, and an argument that is no option is a FILE too. It writes one SQLite database:
  - the table traces has a row for each: replayed, refused with its line and fault, failed, or a copy of an earlier one
    with the same bytes, which counts nothing
  - nodes, pods, containers, conditions and evictions have the content of the reports, as docs/report.schema.json has
    it, by the number of the trace
  - decisions has what the kubelet did, and causes why instances died and containers waited, if a trace has it, as a
    recording does

Then it prints what worst prints. A rejected trace stops nothing. On a terminal it shows its progress.

worst prints
  - the worst pods, by the worst that happened to them, by restarts, by unready seconds or by evictions
  - the worst nodes, by that measure an hour of recording, with their restarts, kills and evictions, and the seconds of
    each pressure an hour
  - a line for each cause, the causes on the most nodes first
  - what the kubelet did, and whether the rules agree; and the evictions by the rules, by signal
  - the traces without a report, with the meaning of the first of each fault; kubelet-replay explain has it in full

With --metrics it writes FILE too: metrics of each node as OpenMetrics text, which a node exporter reads (NAME.prom in
its folder of text files).

--by evicted counts the evictions by the kubelet if the traces have what it did, else the evictions by the rules. A pod
that is in more than one trace is one line: with the sums of its unready seconds and evictions, the greatest number of
its restarts, which the kubelet counts on, and the worst of its traces. Pods of one name in a trace are one line too,
with the sums of them all. A trace that follows another one (kubelet-replay record --into) counts what came after its
beginning, and the other one what came before, so that a rotation counts nothing twice.

""" + shared.ORDER + """
N processes do the work (as many as there are processors). With --scheduler the workers of Dask distributed at ADDRESS
do it, as tcp://10.0.0.7:8786. They need the tools, the program and the traces under the same paths. Either way the
database is the same, byte for byte. With --parquet FOLDER has the tables too, as a dataset.

The folder DB.done next to DB has the report of each trace (the column report_file names it; zcat shows it), and its
rows. A stopped run goes on from there: it does not replay again a trace that is still the same, by its path and its
SHA-256, with the same program. --anew replays all of them. If you delete the folder, DB still has the tables.

It needs python3 and the program (KUBELET_REPLAY names another one), which it starts with --extended if a trace's node
line has version 3. --scheduler needs python3-distributed, --parquet pyarrow. It leaves out the events, which the
reports have, and what a report does not have.

Status 0: done, with rejected traces too; 1: done, and a trace failed (it can't be read, or the program had no memory;
a further run tries it again), or standard output takes no more; 2: a wrong argument, no trace, a DB that can't be
written or is no database of a fleet, a FILE of another, a scheduler that does not answer or goes away; 127: a command
is missing.
"""
