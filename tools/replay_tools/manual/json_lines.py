"""The details of kubelet-replay json."""

from . import shared

TEXT = """\
It writes one object for each record: the node, its events, its pods with their containers and conditions, the node's
conditions, and the evictions. docs/report.schema.json has the members of each.

If the trace has it, as a recording does, records of decisions have what the kubelet did, deaths have their reason,
records of resizes have which container got other requests and limits, and records of causes have how often instances
died and how long containers waited for what. Without the trace an eviction
is one that the rules make of the recorded samples, and a code 137 may be of an instance that a tick just left out.

With --sqlite it writes the same records as tables of an SQLite database: nodes, pods, containers, events, conditions,
resizes, evictions, borders, decisions and causes. It replaces a database of its own once the new one is whole, and no
other file. A pod has the worst that happened to it, and its rank among the report's pods.

""" + shared.ORDER + """
""" + shared.SEVERAL + """
It writes the records of several traces of one node as one. Records of borders have where each trace begins, and whether
nothing was recorded before it.

""" + shared.CLUSTER + """
""" + shared.ALIASES + """
It needs python3, and the program for traces (KUBELET_REPLAY names another one). It leaves out what a report does not
have: the samples, the results of probes, the moment of the last tick, and without the trace when a pod left, of the
extended format. A pod's unready_seconds count to the pod's end, else to when it left, else to the last moment: the
trace's, else the last that the report names.

Status 0: done, also with a gap, or without an unusable trace of a folder; 1: standard output takes no more, or the
program has no memory; 2: a wrong argument, a text that is no report, a trace that can't be read, is damaged or
rejected, or does not belong to the report, no trace or none of that time, traces that overlap or are of two nodes, a
DB that can't be written or is another file; 127: a command is missing.
"""
