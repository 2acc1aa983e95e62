"""The details of kubelet-replay what-if."""

TEXT = """\
It replays the trace, and the trace with EDIT applied to each of its lines. It prints the lines in which the reports
differ: with - the lines of the trace as it is, with + the lines with the edit. KEY means each pod of that name in turn,
if one came again. C is an init container or an app container.

It rejects an edit of a pod or a container that the trace lacks, and offers the nearest names. It rejects more than 64
MiB, the most that a trace has, of standard input, of the unpacked trace, and of what the edit makes of it.

It needs python3, jq, diff and the program (KUBELET_REPLAY names another one). kubelet-replay explain has the full
explanation of a rejected trace. It leaves out what the edit would have changed on the node itself, since the recorded
events stay. A pod that is evicted in the edited replay alone goes on using memory. A container that a laxer probe
leaves alone still exits when it did. In a line that the edit changes, numbers above 2^53 are rounded.

Status 0: done, with a difference or without one; 1: no memory, no place on the disk, or standard output takes no more;
2: a wrong argument, an edit that is no jq program or fails, a trace that is rejected, as it is or edited; 127: a
command is missing.
"""
