"""The details of kubelet-replay fetch."""

from . import shared

TEXT = """\
It copies the traces that the recorders of deploy/daemonset.yaml have of some nodes, or of all, and prints for each node
what came. --since takes the traces since a moment, or for so long before now. --at takes the traces from an hour before
a moment to ten minutes after it. Without both it takes all. Moments are times with a zone, as 03:10Z, which is the last
one before now, or seconds since 1970. It does not copy again a trace that is there already. It copies the trace in
progress up to its last whole line, as NAME.trace.part, until it is there whole.

""" + shared.RECORDERS + """find and cat in them.

A node may send anything. In a run it copies of each node --most bytes, and 65Mi of a trace. It leaves out files with
another node's name, or without a size or time, prints that, and copies the others. It rejects a folder that others may
write, unless it is sticky and each trace in it is a file of your own.

""" + shared.RIGHTS + """
It leaves out traces of nodes whose recorder is gone, though they may still be on the node, and prints how to get them.

Status 0: done; 1: some node's traces did not come, or not whole, or not all, and the tool prints which, or standard
output takes no more; 2: a wrong argument, a node without a recorder, a folder that can't be written to, or that others
may write; 127: a command is missing.
"""
