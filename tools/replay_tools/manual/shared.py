"""What the manual pages of several commands share."""

MOMENTS = """\
Moments are times of UTC, with a Z, if they count from 1970, as in a recording; else they are the seconds of the trace.
--local prints times of this machine's zone, with their offset from UTC, --seconds the seconds of the trace, --utc times
of UTC whatever they count from.
"""
# as summary has it
ORDER = """\
The worst pods come first. First come the pods that the node ended, as by an eviction or over a deadline, and the pods
that a probe killed. Then come the pods that crashed and are not ready, that crashed, failed, wait, were backed off,
were started again, were not ready. Then come the pods that the rules alone evict or name, the deleted pods, the pods
that exited, and all others. Among pods of one kind more restarts come first, then more seconds without readiness. What
the node did comes before what the rules decide. The rules end a pod only if no trace has what the node did.
"""
SEVERAL = """\
-f FILE may be a file, which gzip may have packed, a pattern in quotes, or a folder, as kubelet-replay record --into
writes it. You may repeat it; the traces come in the order of their times. --node names one of the nodes of a folder.
--since takes the traces since a moment, or for so long before now. --at takes the traces from an hour before a moment
to ten minutes after it. A moment is a time with its zone, as 03:10Z, which is the last one before now, or seconds since
1970.
"""
ALIASES = """\
Without -f, and if no cluster is asked, the tool reads a report on standard input. Older forms of -f remain: --trace
TRACE is the trace of that report, and --traces TRACES names several traces.
"""
CLUSTER = """\
Without -f it asks a cluster. A workload is deploy/web, or of sts/, ds/, rs/, job/, cj/ and pod/, in each form that
kubectl takes (deployment web, Deployment.apps/web), or a label as -l app=web. The tool finds the nodes that its pods
are and were on, by the API server and by the names in all recorders' traces. It fetches these nodes' traces, of the
last 2 h without --since and --at. --node NODE takes only what was on this node. --recorders NAMESPACE is the namespace
of the recorders. Pods without a trace appear as the API server has them. The end lists what may not be listed or does
not answer. kubectl replay also takes kubectl's own options, as --context, --kubeconfig and --as, and passes them on.
"""
RECORDERS = """\
--recorders NAMESPACE is the namespace of the recorders. --context NAME, --kubeconfig FILE, --as USER and kubectl's
other options go to kubectl. --timeout is the number of seconds for which a source may be silent. The tool asks for the
pods with the label app=kubelet-replay-reader in NAMESPACE-reader, which deploy/reader.yaml runs. Without them it asks
for the pods with the label app=kubelet-replay-recorder. It runs """
RIGHTS = """\
It needs python3, and kubectl with the right to list and get these pods and to exec into them (pods: list, get;
pods/exec: create, get).
"""
STATUS_OF_TRACES = """\
Status 0: done, also with a gap, or without an unusable trace of a folder; 1: standard output takes no more, or the
program has no memory; 2: a wrong argument, a text that is no report, {more}a trace that can't be read, is damaged or
rejected, or does not belong to the report, no trace or none of that time, traces that overlap or are of two nodes;
127: a command is missing.
"""
